#!/bin/sh
# Puts forth83, its manual page and its completions under a prefix, or takes them away again. In a clone, where the program isn't built, it is proved and
# built before. An archive has it in bin/.
# usage: ./install.sh [--uninstall] [PREFIX]          PREFIX is /usr/local where none is given
set -eu
remove=no
if [ "${1:-}" = --uninstall ]; then
    remove=yes
    shift
fi
prefix=${1:-/usr/local}
[ $# -le 1 ] || prefix=-
case $prefix in
    -*) echo 'usage: ./install.sh [--uninstall] [PREFIX]' >&2; exit 2 ;;
    /*) ;;
    *) prefix=$PWD/$prefix ;;
esac
cd "$(dirname "$0")"
program=$prefix/bin/forth83
page=$prefix/share/man/man1/forth83.1
completions=$prefix/share/bash-completion/completions/forth83
if [ "$remove" = yes ]; then
    rm -f "$program" "$page" "$completions"
    exit 0
fi
built=bin/forth83
if [ -d crates/forth83 ]; then
    built=crates/forth83/out/forth83
    if [ ! -x "$built" ]; then
        echo 'install.sh: ./build.sh proves and builds the program first' >&2
        ./build.sh forth83 >&2
    fi
fi
[ -x "$built" ] || { echo "install.sh: $built is missing" >&2; exit 1; }
mkdir -p "${program%/*}" "${page%/*}" "${completions%/*}"
install -m 755 "$built" "$program"
install -m 644 share/man/man1/forth83.1 "$page"
install -m 644 share/completions/forth83.bash "$completions"

#!/bin/bash
# Proves crates/embed and builds it as libsilgwyrad.a into a folder, with its two functions of the host under the names that host.c gives
# them. The crates below are taken as they are, if they are built; if one isn't, `rt lib` builds what is missing.
# usage: library.sh FOLDER [TARGET]          TARGET is aarch64-unknown-linux-gnu; this machine where none is given
set -euo pipefail
[ $# -ge 1 ] || { echo 'usage: library.sh FOLDER [TARGET]' >&2; exit 2; }
mkdir -p "$1"
folder=$(cd "$1" && pwd)
target=${2:-}
kit=$(rt doc)
kit=${kit%/*}
toolchain=${TOOLCHAIN:-$kit/toolchain}
cd "$(dirname "$0")/.."
root=$PWD

# The libraries that a crate of the repository names.
named_by() { sed -n "s/^$1\( staticlib\)\{0,1\}: *//p" crates.txt; }

# The crates of the repository that a crate stands on.
below() {
    for it in $(named_by "$1"); do
        if [ -d "crates/$it" ]; then
            echo "$it"
            below "$it"
        fi
    done
}

crates=$(below embed | sort -u)
for it in $crates; do
    [ -d "crates/$it/out/rlib/$it.rlib" ] && continue
    (cd crates/embed && rt lib)
    break
done

words=(--crate-name embed src/lib.rt --extern "std=$kit/rlibs/std.rlib" -L "dependency=$kit/rlibs")
for it in $(named_by embed); do
    if [ -d "crates/$it" ]; then found=$root/crates/$it/out/rlib; else found=$kit/rlibs; fi
    words+=(--extern "$it=$found/$it.rlib")
done
for it in $crates; do words+=(-L "dependency=$root/crates/$it/out/rlib"); done
words+=(--antt-project "$kit/rattle/logic/antt-project.json" --logic-built "$kit/logic_built" --jobs 2 --links embed= --crate-type staticlib)
words+=(--toolchain "$toolchain" --backend llvm --incremental out/incremental)
[ -z "$target" ] || words+=(--target "$target")
(cd crates/embed && "$kit/bin/rattle" build "${words[@]}" -o "$folder/libembed.a")

objcopy=objcopy
[ -z "$target" ] || objcopy=${target%%-*}-linux-gnu-objcopy
"$objcopy" --redefine-sym read=silgwyrad_host_read --redefine-sym write=silgwyrad_host_write "$folder/libembed.a" "$folder/libsilgwyrad.a"

#!/bin/bash
# Compiles names.c with host.c and heap.c in each language for which a compiler is installed, all warnings being errors: of clang each that it has, but for
# padding, and what says no more than that a line is C99's, or C's and not C++'s. Then it runs each, and compares what it prints. For each it says `well` or
# `FAILED`.
# usage: languages.sh FOLDER WORD..          FOLDER has host.c and heap.c; the words are for the compiler: where header and library are
set -u
[ $# -ge 2 ] || { echo 'usage: languages.sh FOLDER WORD..' >&2; exit 2; }
from=$1
shift
here=$(cd "$(dirname "$0")" && pwd)
room=$(mktemp -d)
trap 'rm -rf "$room"' EXIT
# (away from the header beside it, which may be another one)
cp "$here/names.c" "$room/"
headers=()
for it in "$@"; do case $it in -I*) headers+=("$it") ;; esac; done

told() {
    if [ "$1" = 0 ]; then echo "$2: well"; else echo "$2: FAILED"; fi
}

every='-Weverything -Wno-padded -Wno-declaration-after-statement -Wno-unsafe-buffer-usage -Wno-unknown-warning-option'
for language in 'gcc c99' 'gcc c11' 'g++ c++11' 'g++ c++17' 'clang c99' 'clang c11' 'clang++ c++11' 'clang++ c++17'; do
    compiler=${language% *} standard=${language#* }
    command -v "$compiler" > /dev/null || { echo "$compiler is not installed here: nothing is read as its $standard"; continue; }
    case $compiler in
        clang) flags=$every ;;
        clang++) flags="$every -Wno-old-style-cast -Wno-zero-as-null-pointer-constant -Wno-c++98-compat-pedantic" ;;
        *) flags='-Wall -Wextra -Wpedantic -Wshadow -Wconversion -Wcast-qual -Wundef' ;;
    esac
    case $standard in c++*) flags="$flags -x c++" ;; esac
    # shellcheck disable=SC2086
    $compiler -std=$standard $flags -Werror "$room/names.c" "$from/host.c" "$from/heap.c" -x none "$@" -Wl,--gc-sections -o "$room/names" &&
        "$room/names" > "$room/names.out"
    told $? "names, host and heap by $compiler as $standard"
    diff "$room/names.out" "$here/expected/names"
    told $? "names by $compiler as $standard tells the answers"
done
for what in '-std=c11' '-x c++ -std=c++11'; do
    # shellcheck disable=SC2086
    gcc $what -Wall -Wextra -Wpedantic -Werror -DARENA=500000 "${headers[@]}" -c "$from/heap.c" -o "$room/arena.o"
    told $? "heap with an arena, by gcc $what"
done

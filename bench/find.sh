#!/bin/sh
# Counts the instructions of one search of the dictionary, by callgrind, as the difference of 100 searches and none.
set -eu
command -v valgrind > /dev/null || { echo 'find.sh: valgrind is missing' >&2; exit 1; }
here=$(cd "$(dirname "$0")" && pwd)
root=$(dirname "$here")
kit=$(rt doc)
kit=${kit%/*}
work=$(mktemp -d)
trap 'rm -rf "$work"' EXIT
trap 'exit 1' HUP INT TERM

mkdir -p "$work/crates/bench_find/src"
for crate in system_words dictionary; do
    cp -R "$root/crates/$crate" "$work/crates/"
done
cp "$here/find/lib.rt.txt" "$work/crates/bench_find/src/lib.rt"
cp "$root/HANDLES" "$work/"
{
    grep -E '^(system_words|dictionary):' "$root/crates.txt"
    echo 'bench_find staticlib: dictionary'
} > "$work/crates.txt"
(cd "$work/crates/bench_find" && rt lib --jobs 1 > "$work/log" 2>&1) || {
    tail -40 "$work/log"
    exit 1
}
gcc -std=c11 -Wall -Wextra -O2 -o "$work/find" "$here/find/main.c" "$work/crates/bench_find/out/libbench_find.a" "$kit/c/liblibc_c.a"

instructions() {
    valgrind --tool=callgrind --callgrind-out-file=/dev/null "$work/find" "$@" 2>&1 | awk '/Collected/ { print $4 }'
}
printf '%-33s' name
for words in 132 800 3900 4096 '800, apart'; do
    printf '%12s' "$words"
done
echo
for name in ']' '!' DUP BEGIN '*/MOD' CONSTANT VOCABULARY DEFINITIONS SAVE-BUFFERS W0 W333 W667 1 12345 UNKNOWN \
    A-MISSING-NAME ABCDEFGHIJKLMNOPQRSTUVWXYZABCDE; do
    printf '%-33s' "$name"
    for more in 0 668 3768 3964 '668 apart'; do
        words=${more% apart}
        apart=${more#"$words"}
        # shellcheck disable=SC2086
        few=$(instructions "$words" "$name" 0 $apart)
        # shellcheck disable=SC2086
        many=$(instructions "$words" "$name" 100 $apart)
        printf '%12s' "$(awk -v few="$few" -v many="$many" 'BEGIN { printf "%.0f", (many - few) / 100 }')"
    done
    echo
done
for name in A-MISSING-NAME UNKNOWN; do
    few=$(($(instructions 100 $name 100 shared) - $(instructions 100 $name 0 shared)))
    many=$(($(instructions 200 $name 100 shared) - $(instructions 200 $name 0 shared)))
    awk -v name="$name" -v more="$((many - few))" 'BEGIN { printf "%s, for each word that shares its strand: %.1f\n", name, more / 100 / 100 }'
done

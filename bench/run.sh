#!/bin/sh
# Builds the hand-written machine, the proved one, and the lexicon over it, and prints what a step costs each:
# instructions by callgrind, and least times. Arguments: rounds (6 where not given), and bodies to compare (2000).
set -eu
command -v valgrind > /dev/null || { echo 'run.sh: valgrind is missing' >&2; exit 1; }
rounds=${1:-6}
bodies=${2:-2000}
here=$(cd "$(dirname "$0")" && pwd)
root=$(dirname "$here")
kit=$(rt doc)
kit=${kit%/*}
work=$(mktemp -d)
trap 'rm -rf "$work"' EXIT
trap 'exit 1' HUP INT TERM

# The proved machine and the lexicon, in a repository of their own: the crates that they stand on, and a static library
# over each. What their checks left in out/ is taken along, so that little is checked anew.
mkdir -p "$work/crates/bench_machine/src" "$work/crates/bench_lexicon/src"
for crate in stacks data_space cell_machine system_words dictionary compiler lexicon; do
    cp -Rp "$root/crates/$crate" "$work/crates/"
done
cp "$here/machine/lib.rt.txt" "$work/crates/bench_machine/src/lib.rt"
cp "$here/lexicon/lib.rt.txt" "$work/crates/bench_lexicon/src/lib.rt"
cp "$root/HANDLES" "$work/"
{
    grep -E '^(stacks|data_space|cell_machine|system_words|dictionary|compiler|lexicon):' "$root/crates.txt"
    echo 'bench_machine staticlib: cell_machine stacks data_space'
    echo 'bench_lexicon staticlib: cell_machine stacks data_space system_words dictionary lexicon'
} > "$work/crates.txt"
for crate in bench_machine bench_lexicon; do
    (cd "$work/crates/$crate" && rt lib --jobs 1 > "$work/log" 2>&1) || {
        tail -40 "$work/log"
        exit 1
    }
done

flags="-std=c11 -Wall -Wextra -O2"
machines="machine calling"
compilers="gcc"
if command -v clang > /dev/null; then
    compilers="gcc clang"
fi
for compiler in $compilers; do
    $compiler $flags -o "$work/$compiler" "$here/main.c" "$here/bodies.c" "$here/limit.c" \
        "$work/crates/bench_machine/out/libbench_machine.a" "$kit/c/liblibc_c.a"
done

# The machine over a table of all four kinds of words, and over the lexicon.
lexicon=$work/crates/bench_lexicon/out/libbench_lexicon.a
gcc $flags -o "$work/kinds" "$here/main.c" "$here/bodies.c" "$here/limit.c" "$lexicon" "$kit/c/liblibc_c.a"
gcc -std=c11 -Wall -Wextra -O2 -o "$work/lexicon" "$here/lexicon/main.c" "$lexicon" "$kit/c/liblibc_c.a"

"$work/gcc" check "$bodies"
"$work/kinds" check "$bodies"

# a line of the program is: NAME TURNS event E depth D result R steps S nanos T
field() {
    "$work/$1" "$2" "$3" "$4" | awk -v at="$5" '{ print $at }'
}
instructions() {
    valgrind --tool=callgrind --callgrind-out-file=/dev/null "$work/$1" "$2" "$3" "$4" 2>&1 |
        awk '/Collected/ { print $4 }'
}
# COMPILER MACHINE PROGRAM FEW MANY: instructions of a step, from the difference of two lengths
per_step() {
    echo "$(instructions "$1" "$2" "$3" "$4") $(instructions "$1" "$2" "$3" "$5")" \
        "$(field "$1" "$2" "$3" "$4" 10) $(field "$1" "$2" "$3" "$5" 10)" |
        awk '{ printf "%.1f\n", ($2 - $1) / ($4 - $3) }'
}
# PROGRAM TURNS: least nanoseconds, one line for each compiler and machine, in turn
least_times() {
    for round in $(seq "$rounds"); do
        for compiler in $compilers; do
            echo "$compiler/limit $(field "$compiler" limit "$1" "$2" 12)"
        done
        for machine in $machines; do
            echo "$machine $(field gcc "$machine" "$1" "$2" 12)"
        done
        echo "kinds $(field kinds calling "$1" "$2" 12)"
        echo "lexicon $(field lexicon lexicon "$1" "$2" 12)"
    done | awk '!($1 in least) || $2 < least[$1] { least[$1] = $2 } END { for (n in least) print n, least[n] }'
}

echo "load: $(cut -d' ' -f1-3 /proc/loadavg)"
printf '%-8s %-14s %10s %8s %8s\n' program machine instr/step ratio time
while read -r program few many long; do
    least_times "$program" "$long" > "$work/times"
    base=$(awk '$1 == "gcc/limit" { print $2 }' "$work/times")
    limit=$(per_step gcc limit "$program" "$few" "$many")
    for which in $(for c in $compilers; do echo "$c/limit"; done) $machines kinds lexicon; do
        case $which in
        */limit) cost=$(per_step "${which%/limit}" limit "$program" "$few" "$many") ;;
        kinds) cost=$(per_step kinds calling "$program" "$few" "$many") ;;
        lexicon) cost=$(per_step lexicon lexicon "$program" "$few" "$many") ;;
        *) cost=$(per_step gcc "$which" "$program" "$few" "$many") ;;
        esac
        took=$(awk -v which="$which" '$1 == which { print $2 }' "$work/times")
        echo "$program $which $cost $limit $took $base" |
            awk '{ printf "%-8s %-14s %10.1f %8.2f %8.2f\n", $1, $2, $3, $3 / $4, $5 / $6 }'
    done
done <<END
loop 2 4 200
calls 10 20 300
fib 1 2 20
execute 1 2 15
deferred 1 2 15
sieve 1 2 15
sort 1 2 10
matrix 1 2 20
gcd 1 2 8
scale 2 4 200
records 2 4 400
END

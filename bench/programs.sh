#!/bin/sh
# Measures programs by the whole program beside what else is installed: whole/, which the table of arms was chosen by, and untuned/ and ported/, of which one
# half was never looked at (halves.sh).
# Arguments: rounds of times (10 where not given; 0: instructions alone), the program (else the one that `rt run` built in crates/forth83), and the names of
# the programs (all where none is given). Instructions are callgrind's, of each system, and exact for forth83; they want `valgrind`.
set -eu
rounds=${1:-10}
here=$(cd "$(dirname "$0")" && pwd)
root=$(dirname "$here")
program=$(realpath "${2:-$root/crates/forth83/out/forth83}")
if [ $# -gt 2 ]; then shift 2; else set --; fi
wanted=" $* "
work=$(mktemp -d)
trap 'rm -rf "$work"' EXIT
trap 'exit 1' HUP INT TERM
cd "$work"
. "$here/systems.sh"
all=$others
# what a file of blocks is to gforth, each a row of blanks
head -c 204800 /dev/zero | tr '\0' ' ' > blocks.fb

# NAME KIND LINE CALL: the program with a line of Forth at its end, or a call of Lua, as NAME.KIND and what else `once` takes. A program of ported/ names in
# its first line the screens of the library that it stands on; the others have these words.
written() {
    text=$here/whole/$1.fth
    for folder in untuned ported; do if [ ! -f "$text" ]; then text=$here/$folder/$1.fth; fi; done
    { cat "$text"; echo "$3"; } > "$1.$2.fth"
    {
        for screen in $(sed -n '1s/^( over the library: \(.*\) )$/\1/p' "$text"); do cat "$root/library/$screen.scr"; done
        # a cell has two bytes here
        sed 's/CELL+/2+/g; s/CELLS/DUP +/g' "$1.$2.fth"
    } > "$1.$2"
    case $text in */ported/*)
        { echo ': NOT 0= ;'; if grep -qw BLOCK "$text"; then echo 'use blocks.fb'; fi; } > "$1.$2.others" ;;
    esac
    if [ -f "$here/whole/$1.lua" ]; then { cat "$here/whole/$1.lua"; echo "$4"; } > "$1.$2.lua"; fi
}
# SYSTEM INPUT: what it says
said() {
    case $1 in
    forth83) "$program" run image --steps "$steps" < "$2" ;;
    lua) lua "$2.lua" ;;
    *) as_file "$2" && timeout 20 "$1" "$2.fs" < empty 2>&1 || true ;;
    esac | tr -s '[:space:]' ' ' | grep -o 'result -\?[0-9]*' || true
}
# NAME: leaves in `others` the systems that say the same result of the program; of ported/ pforth may lack a word, or divide otherwise. gforth has to agree.
agree() {
    ours=$(said forth83 "$1.result")
    others=
    for other in $all; do
        theirs=$(said "$other" "$1.result")
        if [ "$theirs" = "$ours" ]; then others="$others $other"; continue; fi
        if [ "$other" != pforth ] || [ ! -f "$here/ported/$1.fth" ]; then echo "$1: forth83 says '$ours', $other '$theirs'" && exit 1; fi
    done
    if [ -f "$1.result.lua" ] && command -v lua > /dev/null && [ "$(said lua "$1.result")" != "$ours" ]; then echo "$1: Lua disagrees" && exit 1; fi
    if [ -z "$ours" ]; then echo "$1: no result" && exit 1; fi
}
# INPUT: whether it ends within so many steps
within() {
    ! "$program" run image --steps "$2" < "$1" | grep -q STEPS
}
# INPUT: the steps that its longest line takes
steps_of() {
    low=0 high=100000000
    while [ $((high - low)) -gt 1 ]; do
        middle=$(((low + high) / 2))
        if within "$1" "$middle"; then high=$middle; else low=$middle; fi
    done
    echo "$high"
}
# SYSTEM INPUT
instructions() {
    case $1 in
    forth83) set -- "$2" "$program" run image --steps "$steps" ;;
    lua) set -- empty lua "$2.lua" ;;
    *) as_file "$2" && set -- empty "$1" "$2.fs" ;;
    esac
    input=$1
    shift
    valgrind --tool=callgrind --callgrind-out-file=/dev/null "$@" < "$input" 2>&1 | awk '/Collected/ { print $4 }'
}
# NAME FEW MANY LONG: its time a step beside the others, and instructions a step of each. So LONG turns take a tenth of a second or so, that what a clock tells
# of them is of the steps.
measured() {
    name=$1
    if [ "$wanted" != '  ' ] && [ "${wanted#* "$name" }" = "$wanted" ]; then return; fi
    written "$name" result RESULT 'print("result", result())'
    agree "$name"
    written "$name" base '' ''
    for turns in "$2" "$3" "$4"; do written "$name" "$turns" "$turns TURNS" "turns($turns)"; done
    a=$(steps_of "$name.$2")
    b=$(steps_of "$name.$3")
    each=$(((b - a) / ($3 - $2)))
    if [ "$rounds" -gt 0 ]; then
        compared "$name" "$name.$4" "$name.base" "$((each * $4))" step
        cp took "$name.took"
    fi
    command -v valgrind > /dev/null || return 0
    systems="forth83 $others"
    if [ -f "$name.base.lua" ] && command -v lua > /dev/null; then systems="$systems lua"; fi
    for system in $systems; do
        echo "$system $(instructions "$system" "$name.$2") $(instructions "$system" "$name.$3") $a $b" | awk '{ printf "%s %.2f\n", $1, ($3 - $2) / ($5 - $4) }'
    done > "$name.instructions"
    while read -r system count; do row "$name, instructions" "$system" "$count" "a step, of $each a turn"; done < "$name.instructions"
}
while read -r name few many long; do
    measured "$name" "$few" "$many" "$long"
done <<LIST
loop 2 4 2000
calls 10 20 3000
fib 1 2 150
deferred 1 2 150
sieve 1 2 150
sort 1 2 100
matrix 1 2 300
gcd 1 2 80
scale 2 4 2500
records 10 20 30000
adler 1 2 4000
bits 1 2 4500
calc 2 4 28000
colours 1 2 180
digits 1 2 6600
ledger 1 2 4800
names 1 2 2400
ring 1 2 3200
roots 1 2 600
scanner 4 8 4800
table 1 2 3600
torus 1 2 120
checksum 10 20 2400
computer 1 2 2400
finding 1 2 1800
fractal 1 2 1300
journal 1 2 1400
life 1 2 180
queens 1 2 1200
reader 1 2 2200
report 1 2 3000
shell 1 2 300
LIST

# FOLDER HALF: geometric means of its programs over each other system, in time and in instructions, and of its instructions a step
means() {
    for name in $("$here/halves.sh" "$1" | awk -v half="$2" '$1 == half { print $2 }'); do
        for kind in took instructions; do if [ -f "$name.$kind" ]; then sed "s/^/$name $kind /" "$name.$kind"; fi; done
    done | awk '
        { each[$1, $2, $3] = $4; names[$1]; kinds[$2]; systems[$3] }
        END {
            for (k in kinds) for (s in systems) {
                count = sum = most = 0
                for (n in names) {
                    if (!((n, k, s) in each)) continue
                    value = s == "forth83" ? each[n, k, s] : each[n, k, "forth83"] / each[n, k, s]
                    count++
                    sum += log(value)
                    if (value > most) most = value
                }
                if (count) printf "%s %s %.2f, at most %.2f, of %d\n", (k == "took" ? "time" : k), s, exp(sum / count), most, count
            }
        }' | sort | while read -r what system mean; do row "mean of $1, $2, $what" "$system" "$mean" ""; done
}
for folder in untuned ported; do means "$folder" chosen && means "$folder" kept; done

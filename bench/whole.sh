#!/bin/sh
# Measures the whole program beside what else is installed, and prints one table. Arguments: rounds (10 where not given),
# the program (else the one that `rt run` built in crates/forth83), and a folder on the disk to be measured (else a
# temporary one).
set -eu
rounds=${1:-10}
here=$(cd "$(dirname "$0")" && pwd)
root=$(dirname "$here")
program=$(realpath "${2:-$root/crates/forth83/out/forth83}")
work=$(mktemp -d ${3:+-p "$(realpath "$3")"})
trap 'rm -rf "$work"' EXIT
trap 'exit 1' HUP INT TERM
cd "$work"
. "$here/systems.sh"
cp image plain
"$program" new newer --blocks 200 --layout 3
echo "load: $(cut -d' ' -f1-3 /proc/loadavg); rounds: $rounds; beside forth83:${others:- no other Forth is installed}"

# ---- lines and words
awk 'BEGIN { for (i = 0; i < 200000; i++) print "1 2 + ." }' > lines
compared "200,000 lines 1 2 + ." lines empty 200000 line
awk 'BEGIN { for (i = 0; i < 40000; i++) print "1 DUP DROP DUP DROP DUP DROP DUP DROP DROP" }' > words
compared "a word from standard input" words empty 400000 word
{
    echo ': NUMBERS 20000 0 DO I . LOOP ;'
    for _ in 1 2 3 4 5 6 7 8 9 10; do echo NUMBERS; done
} > numbers
compared "numbers printed" numbers empty 200000 number

# ---- the same with many words defined, and these words looked up and compiled
# N: definitions of so many words that do nothing
defined() {
    awk -v n="$1" 'BEGIN { for (i = 0; i < n; i++) printf ": W%d ;\n", i }'
}
# N LINES: so many lines of ten of N words, each line with words from another place on
lines_of_words() {
    awk -v n="$1" -v lines="$2" 'BEGIN {
        for (i = 0; i < lines; i++) {
            line = ""
            for (j = 0; j < 10; j++) line = line "W" (i * 7919 + j * 613) % n " "
            print line
        }
    }'
}
for names in 800 3900; do
    defined "$names" > "defined.$names"
    { cat "defined.$names" lines; } > "lines.$names"
    compared "200,000 lines 1 2 + . beside $names words" "lines.$names" "defined.$names" 200000 line
    { cat "defined.$names" words; } > "words.$names"
    compared "a word from standard input beside $names" "words.$names" "defined.$names" 400000 word
    # (over 3,900 words that are looked up pforth ends)
    saved=$others
    if [ "$names" = 3900 ]; then others=$(echo "$others" | sed 's/ pforth$//'); fi
    { cat "defined.$names"; lines_of_words "$names" 40000; } > "found.$names"
    compared "one of $names words looked up" "found.$names" "defined.$names" 400000 word
    { cat "defined.$names"; echo ': ALL'; lines_of_words "$names" 2500; echo ';'; } > "compiled.$names"
    compared "one of $names words compiled" "compiled.$names" "defined.$names" 25000 word
    others=$saved
    compared "$names definitions" "defined.$names" empty "$names" definition
done

# ---- a hundred full blocks, of 288 words each
awk 'BEGIN { for (i = 0; i < 16; i++) print "1 DROP 2 DROP 3 DROP 4 DROP 5 DROP 6 DROP 7 DROP 8 DROP 12 DROP " }' > screen
for block in $(seq 100 199); do "$program" put image "$block" screen; done
echo ': ALL 200 100 DO I LOAD LOOP ; : TIMES 0 DO ALL LOOP ; 20 TIMES' > load
{ cat "defined.3900" load; } > load.3900
# the same blocks as a file of gforth's; pforth has none
for _ in $(seq 200); do while read -r line; do printf '%-64s' "$line"; done < screen; done > blocks.fb
echo 'use blocks.fb' | tee load.others > load.3900.others
saved=$others
others=
for other in $saved; do case $other in gforth*) others="$others $other" ;; esac; done
compared "LOAD of 100 full blocks, 20 times" load empty 2000 block
compared "the same beside 3900 words" load.3900 defined.3900 2000 block
others=$saved

# ---- programs
"$here/programs.sh" "$rounds" "$program"

# ---- saves: a hundred of each size in one session, the same on the same disk by others, in turn; the least of the rounds
for blocks in 1 2 3 4; do
    {
        echo ": CHANGE $((blocks + 1)) 1 DO I BLOCK 7 + 1 SWAP +! UPDATE LOOP SAVE-BUFFERS ;"
        echo ': SAVES 0 DO CHANGE LOOP ;'
    } > save
    { cat save; echo '100 SAVES'; } > saves
    for _ in $(seq 100); do
        echo 'BEGIN;'
        for b in $(seq "$blocks"); do echo "REPLACE INTO block VALUES ($b, randomblob(1024));"; done
        echo 'COMMIT;'
    done > commits
    for _ in $(seq "$rounds"); do
        echo "sync $(./whole sync plain 100 | cut -d' ' -f1)"
        for name in save saves; do
            for of in image newer; do
                echo "$name.$of $(./whole run 1 "$name" "$program" run "$of" --steps "$steps" | cut -d' ' -f1)"
            done
        done
        if command -v sqlite3 > /dev/null; then
            # SQLite as it comes, with a journal of its own that a commit deletes, and with a write-ahead log
            for mode in delete wal; do
                rm -f table."$mode"*
                sqlite3 table."$mode" "PRAGMA journal_mode = $mode; CREATE TABLE block (number INTEGER PRIMARY KEY, bytes BLOB);" > /dev/null
                for name in empty commits; do
                    echo "$name.$mode $(./whole run 1 "$name" sqlite3 table."$mode" | cut -d' ' -f1)"
                done
            done
        fi
    done | awk '
        NF != 2 { print "no time was had of " $1 > "/dev/stderr"; lacks = 1; exit }
        !($1 in least) || $2 < least[$1] { least[$1] = $2 }
        END { if (lacks) exit 1; for (n in least) print n, least[n] }' > took
    took() { awk -v name="$1" '$1 == name { print $2 }' took; }
    sync=$(took sync)
    # WHAT SYSTEM LONG SHORT: what one of a hundred costs
    by_syncs() {
        row "$1" "$2" "$(awk -v long="$3" -v short="$4" 'BEGIN { printf "%.0f us", (long - short) / 100000 }')" \
            "$(awk -v long="$3" -v short="$4" -v sync="$sync" 'BEGIN { printf "%.2f of the four syncs", (long - short) / 100 / sync }')"
    }
    row "four writes, each synced" C "$(echo "$sync" | awk '{ printf "%.0f us", $1 / 1000 }')" "a round, the mean of 100"
    by_syncs "a save of $blocks blocks" forth83 "$(took saves.image)" "$(took save.image)"
    by_syncs "a save of $blocks blocks, layout 3" forth83 "$(took saves.newer)" "$(took save.newer)"
    if command -v sqlite3 > /dev/null; then
        by_syncs "a commit of $blocks KB" sqlite3 "$(took commits.delete)" "$(took empty.delete)"
        by_syncs "a commit of $blocks KB, write-ahead log" sqlite3 "$(took commits.wal)" "$(took empty.wal)"
    fi
    awk '{ at[$1] = $2 } END {
        newer = at["saves.newer"] - at["save.newer"]
        printf "%.2f of layout 2", newer / (at["saves.image"] - at["save.image"])
        if ("commits.wal" in at) printf ", %.2f of the write-ahead log", newer / (at["commits.wal"] - at["empty.wal"])
        print ""
    }' took > over
    row "a save of $blocks blocks, layout 3" over "$(cat over)" ""
done

# ---- start and memory
start() {
    name=$1
    shift
    ./whole run 100 empty "$@" > took
    row "start and end" "$name" "$(awk '{ printf "%.0f us", $1 / 1000 }' took)" "$(awk '{ print $2 }' took) KB of memory"
}
start true true
start forth83 "$program"
start "forth83 run" "$program" run image
"$program" new most --blocks 3840
"$program" new newer.most --blocks 3840 --layout 3
start "3840 blocks" "$program" run most
start "the same, 3" "$program" run newer.most
if command -v sqlite3 > /dev/null; then start sqlite3 sqlite3 table.delete; fi
if command -v lua > /dev/null; then start lua lua -; fi
echo bye > empty
for other in $others; do start "$other" "$other"; done

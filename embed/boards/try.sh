#!/bin/bash
# Boots firmware on each board, in its emulator: the first firmware; a save of two blocks that the board's reset stops before each device call, and
# the recovery after it, by both layouts; where there is room for it the Forth, with the library's tests, and with words that ask the firmware. A
# board whose compiler or emulator isn't installed is skipped, and that is said. The last line is `N passed, N failed`.
# usage: try.sh [FOLDER]          where module.sh has built the library; it is built where it isn't there
set -u
if [ $# -gt 0 ]; then
    mkdir -p "$1"
    folder=$(cd "$1" && pwd)
else
    folder=$(mktemp -d)
    trap 'rm -rf "$folder"' EXIT
fi
cd "$(dirname "$0")" || exit 1

# (a card's size is a power of two)
disk_bytes=1048576

told() {
    if [ "$1" = 0 ]; then echo "$2: well"; else echo "$2: FAILED"; fi
}

# Gives a board a disk of zeros, which an image may begin.
give_disk() {
    local board=$1
    shift
    rm -f "$folder/$board/disk.img"
    [ $# = 0 ] || ../image.py "$1" "$2" "$folder/$board/disk.img" "${@:3}"
    told $? "$board: a disk${1:+ with an image of layout $1}"
    truncate -s $disk_bytes "$folder/$board/disk.img"
}

# Boots a firmware that ends by itself, and prints what it says.
booted() {
    timeout 300 ./board.sh boot "$1" "$folder/$1/$2.elf" "$folder/$1" < /dev/null 2> "$folder/$1/$2.errors" | tr -d '\r'
}

# Types what is expected to be shown after `> ` into the Forth, and compares what the console shows. More words go to the emulator.
talks() {
    local board=$1 what=$2 expected=$3
    shift 3
    # shellcheck disable=SC2001
    sed -n 's/^> //p' <<< "$expected" | ./talk.py ./board.sh boot "$board" "$folder/$board/forth.elf" "$folder/$board" "$@" 2> "$folder/$board/errors" |
        diff <(sed 's/^> //' <<< "$expected") -
    told $? "$board: $what"
}

# The library's screens and tests, in the blocks into which its page puts them.
screens() {
    awk '/^\$ forth83 (import|put) lib.img [0-9]+ (library|examples)/ { for (at = 6; at <= NF; at++) print $5 + at - 6 "=../../" $at }' ../../library/README.md
}

# The lines by which its page runs the tests.
typed_for_tests() {
    sed -nE "s/^[$] printf '(.*)REPORT.n' [|] forth83 run lib.img$/\1REPORT/p" ../../library/README.md | sed 's/\\n/\n/g'
}

# By the command of the page, which makes the disk too.
try_starts() {
    local board=$1
    rm -f "$folder/$board/disk.img"
    for n in 1 2; do
        [ "$(timeout 300 ./board.sh run "$board" "$folder" starts.c < /dev/null 2> "$folder/$board/starts.errors" | tr -d '\r')" = "start $n and $n, answer 0" ]
        told $? "$board: start $n is counted"
    done
}

try_resets() {
    local board=$1 layout=$2 due
    give_disk "$board" "$layout" 32
    due=$(../counts.py trial "$layout") && diff <(echo "$due") <(booted "$board" trial)
    told $? "$board: a save that resets stop is all or none, by layout $layout"
}

try_forth() {
    local board=$1 report
    give_disk "$board"
    talks "$board" 'the Forth answers, and saves' '> 1 2 + .
3  ok
> 7 1 BLOCK ! UPDATE FLUSH 1 BLOCK @ .
7  ok'
    mapfile -t texts < <(screens)
    report=$(grep -E '^[0-9]+ TESTS, 0 WRONG ok$' ../../library/README.md)
    for layout in 2 3; do
        give_disk "$board" $layout 96 "${texts[@]}"
        [ -n "$report" ] && [ "$(typed_for_tests | ./talk.py ./board.sh boot "$board" "$folder/$board/forth.elf" "$folder/$board" | tail -n 1)" = "$report" ]
        told $? "$board: the library's tests, by layout $layout"
    done
}

# Words that ask the firmware: the time, a delay, and a lamp, which the emulator tells of where the board has one.
try_host_words() {
    local board=$1
    give_disk "$board" 2 32 1=../host.scr
    talks "$board" 'words ask for time and delay' '> 1 LOAD
 ok
> MS? 200 MS MS? SWAP - 199 > .
-1  ok
> 2 BLINK
 ok' -trace led_set_intensity
    if [ "$board" = mps2 ]; then
        [ "$(grep -c 'USERLED0.* 0%' "$folder/$board/errors")" = 2 ]
        told $? "$board: a lamp blinks twice"
    fi
}

try_board() {
    local board=$1 sources=trial
    [ "$board" = lm3s ] || sources="$sources forth"
    for it in $sources; do
        ./board.sh build "$board" "$folder" "$it.c"
        told $? "$board: $it is built"
    done
    try_starts "$board"
    try_resets "$board" 2
    try_resets "$board" 3
    [ "$board" = lm3s ] || { try_forth "$board"; try_host_words "$board"; }
    return 0
}

passed=0
failed=0
skipped=0
boards=()
for board in virt mps2 lm3s; do
    lacks=$(./board.sh lacks $board | tr '\n' ' ')
    if [ -n "$lacks" ]; then
        echo "$board is skipped: not installed here is $lacks"
        skipped=$((skipped + 1))
    else
        boards+=("$board")
        # (one after another, since two boards have one processor)
        if ! ./board.sh library $board "$folder" > "$folder/library.log" 2>&1; then
            tail -n 20 "$folder/library.log"
            told 1 "$board: the library is built"
            failed=$((failed + 1))
        fi
    fi
done
trials=()
for board in "${boards[@]}"; do
    try_board "$board" > "$folder/$board.log" 2>&1 &
    trials+=($!)
done
for i in "${!boards[@]}"; do
    board=${boards[$i]}
    wait "${trials[$i]}" || told 1 "$board: its trial came to its end" >> "$folder/$board.log"
    cat "$folder/$board.log"
    passed=$((passed + $(grep -c ': well$' "$folder/$board.log")))
    failed=$((failed + $(grep -c ': FAILED$' "$folder/$board.log")))
done
[ $skipped = 0 ] || echo "$skipped boards were skipped"
echo "$passed passed, $failed failed"
[ $failed = 0 ]

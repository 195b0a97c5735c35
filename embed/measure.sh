#!/bin/bash
# Prints how much code and data the library has, in all and for blocks alone, how much of the stack and of the heap each call takes, and what a step of
# a session costs: on this machine, and on the boards whose compilers and emulators are installed; and what a first firmware takes of a board. It ends with status 1 where a call takes more than
# the pages say that it does.
# usage: measure.sh [FOLDER]          where module.sh has built the library; it is built where it isn't there
set -euo pipefail
if [ $# -gt 0 ]; then
    folder=$(mkdir -p "$1" && cd "$1" && pwd)
else
    folder=$(mktemp -d)
    trap 'rm -rf "$folder"' EXIT
fi
cd "$(dirname "$0")"
if [ ! -f "$folder/module.ll" ]; then
    ./module.sh "$folder" > "$folder/library.log" 2>&1 || { tail -n 20 "$folder/library.log"; exit 1; }
fi

# The most that docs/EMBEDDING.md says of the stack of a call on blocks and of a session, and of a session's heap, in bytes.
most_of_blocks=6144
most_of_session=12288
most_of_heap=491520

# What a link keeps of the library, by the linker's map: bytes of code, of constants, and of data.
kept() {
    python3 - "$1" <<'END'
import re
import sys

with open(sys.argv[1], encoding="utf-8") as file:
    text = file.read().partition("Linker script and memory map")[2]
sizes = dict.fromkeys(("text", "rodata", "data", "bss"), 0)
for name, size in re.findall(r"^ \.(\w+)\S*\s+0x\w+\s+(0x\w+) \S*(?:libsilgwyrad\.a\(|library\.o$)", text, re.M):
    if name in sizes:
        sizes[name] += int(size, 16)
print(" ".join(f"{name} {size}" for name, size in sizes.items()))
END
}

# Shows the rows of a measurement, and answers whether each call is within the limits. Where instructions of so many nanoseconds are the clock, steps are
# told by these.
shown() {
    awk -v what="$1" -v nanoseconds="${2:-0}" -v blocks=$most_of_blocks -v session=$most_of_session -v heap=$most_of_heap '
        $1 == "steps:" && nanoseconds { printf "%s: a step of a loop takes %.1f instructions\n", what, $4 * 1000000 / nanoseconds / $2; next }
        $1 == "steps:" { printf "%s: %.0f million steps of a loop a second\n", what, $2 / $4 / 1000; next }
        { print what ", " $0 }
        / answer / { failed = 1 }
        match($0, /stack [0-9]+ heap [0-9]+/) { split(substr($0, RSTART), it, " "); calls++; if (it[2] > (/^session/ ? session : blocks) || it[4] > (/^session/ ? heap : 0)) failed = 1 }
        END {
            if (failed || calls != 17) print what ": NOT WELL, at most " blocks " bytes of stack, " session " of a session, and " heap " of heap are promised"
            exit failed || calls != 17
        }'
}

failed=0
gcc -O2 -ffunction-sections -Wl,--gc-sections -Wl,-Map="$folder/blocks.map" blocks.c disk.c host.c "$folder/libsilgwyrad.a" -o "$folder/blocks"
gcc -O2 -ffunction-sections -Wl,--gc-sections -Wl,-Map="$folder/forth.map" forth.c host.c heap.c "$folder/libsilgwyrad.a" -o "$folder/forth"
# (-z now: the first call of a function would otherwise look it up on this stack)
gcc -O2 -DARENA=1000000 -Wl,-z,now measure_here.c measure.c disk.c host.c heap.c "$folder/libsilgwyrad.a" -o "$folder/measure"
echo "x86-64, blocks alone: $(kept "$folder/blocks.map")"
echo "x86-64, blocks and session: $(kept "$folder/forth.map")"
"$folder/measure" | shown x86-64 || failed=1

for board in virt mps2 lm3s; do
    lacks=$(boards/board.sh lacks $board | tr '\n' ' ')
    if [ -n "$lacks" ]; then
        echo "$board isn't measured: not installed here is $lacks"
        continue
    fi
    programs=(starts.c)
    # (there is no room for a session)
    [ $board = lm3s ] || programs+=(trial.c forth.c 'measure_board.c ../measure.c')
    for sources in "${programs[@]}"; do
        # shellcheck disable=SC2086
        (cd boards && ./board.sh build $board "$folder" $sources)
    done
    echo "$board, first firmware: $(boards/board.sh sizes $board "$folder/$board/starts.elf")"
    [ $board != lm3s ] || continue
    echo "$board, blocks alone: $(kept "$folder/$board/trial.map")"
    echo "$board, blocks and session: $(kept "$folder/$board/forth.map")"
    truncate -s 1048576 "$folder/$board/disk.img"
    timeout 300 boards/board.sh boot $board "$folder/$board/measure_board.elf" "$folder/$board" -icount shift=5 < /dev/null | tr -d '\r' | shown $board 32 || failed=1
done
exit $failed

#!/bin/bash
# Builds the hosts in C over the library, with gcc's warnings and sanitizers, and runs them: on this machine, and on 64-bit ARM where a
# compiler and an emulator for it are installed. It looks at what the calls take of stack and memory (measure.sh). It says what isn't
# installed. Firmware on boards is tried by boards/try.sh. The page of playground/ is tried in Chromium, where that and node are installed. Its last line is
# `N passed, N failed`.
# usage: try.sh [FOLDER]          what is built goes to FOLDER, else to a folder that is removed again
set -uo pipefail
given=${1:+$(mkdir -p "$1" && cd "$1" && pwd)}
cd "$(dirname "$0")" || exit 1
warnings='-std=c11 -Wall -Wextra -Wpedantic -Wshadow -Wconversion -Wstrict-prototypes -Wmissing-prototypes -Wcast-qual -Wundef -Werror'
sanitizers='-g -fsanitize=address,undefined -fno-sanitize-recover=all'
# AddressSanitizer keeps a stack of its own for what a function might hand out, which measure.c's stack and a longjmp don't know of
export ASAN_OPTIONS=detect_stack_use_after_return=0
passed=0
failed=0

told() {
    if [ "$1" = 0 ]; then passed=$((passed + 1)); echo "$2: well"; else failed=$((failed + 1)); echo "$2: FAILED"; fi
}

finish() {
    echo "$passed passed, $failed failed"
    [ "$failed" = 0 ]
    exit
}

# The hosts, each with what it is made of.
parts_of() {
    case $1 in
        blocks) echo blocks.c disk.c host.c ;;
        opened) echo opened.c disk.c host.c ;;
        logger) echo logger.c host.c ;;
        forth) echo forth.c host.c heap.c ;;
        sessions) echo sessions.c disk.c host.c heap.c ;;
        flash) echo flash.c host.c ;;
        shared) echo shared.c disk.c host.c heap.c ;;
    esac
}

# README's example as a program, over a device that does nothing.
readme_in_c() {
    cat <<'END'
#include <stddef.h>
#include "silgwyrad.h"
static int read_sector(void *context, uint32_t k, uint8_t out[512]) { return !context && !k && !out; }
static int write_sector(void *context, uint32_t k, const uint8_t bytes[512]) { return !context && !k && !bytes; }
static int sync_all(void *context) { return !context; }
static const struct silgwyrad_device device = {NULL, read_sector, write_sector, sync_all};
static void fill(uint8_t bytes[2][SILGWYRAD_BLOCK]) { bytes[0][0] = 1; }
int main(void) {
END
    sed -n '/^```c$/,/^```$/p' ../README.md | sed '1d;$d'
    echo 'return answer; }'
}

# What another script tells of each of its trials.
take_up() {
    while read -r line; do
        echo "$line"
        case $line in *': well') passed=$((passed + 1)) ;; *': FAILED') failed=$((failed + 1)) ;; esac
    done
}

build() {
    compiler=$1 flags=$2 library=$3 host=$4 to=$5
    # shellcheck disable=SC2046,SC2086
    $compiler $warnings $flags $(parts_of "$host") "$library" -Wl,--gc-sections -o "$to"
}

# Runs the hosts that were built in a folder, under an emulator where one is named.
run_hosts() {
    what=$1 in=$2 emulator=${3:-}
    for host in blocks opened sessions; do
        $emulator "$in/$host" > "$in/$host.out"
        told $? "$what: $host"
        ./counts.py $host | diff - "$in/$host.out"
        told $? "$what: the counts of $host are those that counts.py computes"
    done
    $emulator "$in/forth" < ../crates/forth83/stdin > "$in/forth.out"
    told $? "$what: forth"
    cmp "$in/forth.out" ../crates/forth83/stdout
    told $? "$what: the replies of forth are those of the program"
    rm -f "$in/log"
    $emulator "$in/logger" "$in/log" 5 60 700 | diff <(printf '0: 5\n1: 60\n2: 700\n') -
    told $? "$what: logger"
    printf '0 BLOCK @ . 1 BLOCK 8 + @ .\n' | $emulator "$in/forth" "$in/log" | diff <(echo '3 700  ok') -
    told $? "$what: forth reads the log"
    printf '1 BLOCK 8 + 9 SWAP ! UPDATE FLUSH\n' | $emulator "$in/forth" "$in/log" | diff <(echo ' ok') -
    told $? "$what: forth saves into the log"
    $emulator "$in/logger" "$in/log" | diff <(printf '0: 5\n1: 60\n2: 9\n') -
    told $? "$what: logger reads what forth saved"
    $emulator "$in/shared" | cmp - expected/shared
    told $? "$what: C and Forth share blocks"
    ./image.py 3 32 "$in/host.img" 1=host.scr
    ask_host $emulator "$in/forth" "$in/host.img"
    told $? "$what: words of forth ask the host"
}

# A session whose words ask the host for the time, a delay and a lamp.
ask_host() {
    printf '%s\n' '1 LOAD' 'MS? 200 MS MS? SWAP - 199 > .' '1 BLINK' | ./host.py "$@" | cmp - expected/asked
}

# The hosts that lose power, over an image of layout 3 on a disk where a write may spoil the page of 4,096 bytes around it.
run_paged() {
    what=$1 in=$2 emulator=${3:-}
    ./image.py 3 32 "$in/paged.img"
    for host in blocks opened sessions; do
        $emulator "$in/$host" --paged "$in/paged.img" > "$in/$host.paged"
        told $? "$what: $host over pages"
        ./paged.py $host | diff - "$in/$host.paged"
        told $? "$what: the counts of $host over pages are those that paged.py computes"
    done
    $emulator "$in/flash" "$in/paged.img" | diff <(./counts.py flash 3) -
    told $? "$what: blocks on a flash, by layout 3"
    $emulator "$in/flash" | diff <(./counts.py flash 2) -
    told $? "$what: blocks on a flash, by layout 2, which loses some"
}

# The records of examples/records: those in C, a program over them as its page shows it, and those in Forth.
try_records() {
    what=$1 flags=$2 library=$3 in=$4
    records=../examples/records
    sed_page='/^```text$/,/^```$/{/^```/d;p}'
    for it in trial twin stock; do
        case $it in
            trial) parts="$records/trial.c disk.c" ;;
            twin) parts="$records/twin.c disk.c heap.c" ;;
            stock) parts=$records/stock.c ;;
        esac
        # shellcheck disable=SC2086
        gcc ${warnings/c11/c99} $flags -I. -I$records $parts $records/records.c host.c "$library" -Wl,--gc-sections -o "$in/$it"
        told $? "$what: records, $it is built"
    done
    "$in/trial" > "$in/trial.out" && diff "$in/trial.out" expected/records
    told $? "$what: records stopped before each call are all or none"
    screens=''
    for it in basic double changing; do screens="$screens ../library/$it.scr"; done
    for it in records seeking changes stock; do screens="$screens $records/$it.scr"; done
    # shellcheck disable=SC2086
    "$in/twin" $screens > "$in/twin.out" && diff "$in/twin.out" expected/twin
    told $? "$what: records in Forth stopped before each call are all or none"
    rm -f "$in/shop.img"
    (cd "$in" && bash -s) < <(sed -n "$sed_page" $records/README.md | sed -n 's/^\$ //p') | diff - <(sed -n "$sed_page" $records/README.md | grep -v '^\$ ')
    told $? "$what: records, the page's lines"
    sed -n '/^```c$/,/^```$/{/^```/d;p}' $records/README.md > "$in/page.c"
    {
        printf '%s\n' '#include "records.h"' 'enum { DEVICE = 1 }; int answer; uint8_t record[20]; void of_page(void);' 'void of_page(void) {'
        cat "$in/page.c"
        echo '}'
    } | gcc -std=c99 -Wall -Wextra -Werror -I. -I$records -fsyntax-only -x c -
    told $? "$what: records, the page's example is read as C"
}

# A logger that is killed while it adds readings: those that are there are the first ones, each whole.
kill_logger() {
    what=$1 in=$2
    for delay in 0.05 0.2 0.5 1; do
        rm -f "$in/log"
        # shellcheck disable=SC2046
        "$in/logger" "$in/log" $(seq 0 2000) > /dev/null &
        sleep $delay
        kill -9 $!
        wait $! 2> /dev/null
        "$in/logger" "$in/log" > "$in/log.out" && awk -F': ' '$1 != NR - 1 || $2 != NR - 1 { exit 1 }' "$in/log.out"
        told $? "$what: a logger killed after $delay seconds has the first $(wc -l < "$in/log.out") readings"
    done
}

try_all() {
    what=$1 compiler=$2 flags=$3 library=$4 in=$5 emulator=${6:-}
    mkdir -p "$in"
    for host in blocks opened sessions flash forth logger shared; do
        build "$compiler" "$flags" "$library" $host "$in/$host"
        told $? "$what: $host is built"
    done
    run_hosts "$what" "$in" "$emulator"
    run_paged "$what" "$in" "$emulator"
}

if ! command -v gcc > /dev/null || ! command -v objcopy > /dev/null; then
    echo 'gcc and objcopy are not installed here: the hosts in C are not tried'
    finish
fi
folder=${given:-$(mktemp -d)}
[ -n "$given" ] || trap 'rm -rf "$folder"' EXIT
if ! ./module.sh "$folder" > "$folder/library.log" 2>&1; then
    tail -n 20 "$folder/library.log"
    told 1 'the library is built'
    finish
fi
told 0 'the library is built'
nm --defined-only --extern-only "$folder/libsilgwyrad.a" 2> /dev/null | awk '$3 ~ /^silgwyrad_/ { print $3 }' | sort | cmp - expected/exports
told $? 'the library has the calls of the header, and no other'
# what it asks of whoever links it: the host's two functions, the heap's three, and three that copy and fill memory
nm --undefined-only "$folder/libsilgwyrad.a" 2> /dev/null | awk '$1 == "U" { print $2 }' | sort -u | cmp - expected/imports
told $? 'the library asks for the functions of host.c and heap.c, and those of memory'
gcc $warnings -fsyntax-only -x c silgwyrad.h
told $? 'the header is read as C'
take_up < <(./languages.sh . -I. "$folder/libsilgwyrad.a" 2>&1)
readme_in_c | gcc $warnings -I. -fsyntax-only -x c -
told $? "README's example is read as C"
if command -v g++ > /dev/null; then
    g++ -std=c++11 -Wall -Wextra -Wpedantic -Werror -fsyntax-only -x c++ silgwyrad.h
    told $? 'the header is read as C++'
else
    echo 'g++ is not installed here: the header is not read as C++'
fi
try_all plain gcc -O2 "$folder/libsilgwyrad.a" "$folder/plain"
kill_logger plain "$folder/plain"
try_records plain -O2 "$folder/libsilgwyrad.a" "$folder/plain"
if [ -x ../crates/forth83/out/forth83 ]; then
    ask_host ../crates/forth83/out/forth83 run "$folder/plain/host.img"
    told $? 'words of the program ask the host'
else
    echo 'crates/forth83/out/forth83 is not built: its words do not ask the host'
fi
try_all sanitized gcc "$sanitizers" "$folder/libsilgwyrad.a" "$folder/sanitized"
try_records sanitized "$sanitizers" "$folder/libsilgwyrad.a" "$folder/sanitized"
mkdir -p "$folder/arm"
# (a compiler without the C library of its processor is installed too)
if command -v qemu-aarch64 > /dev/null && aarch64-linux-gnu-gcc -static -x c - -o "$folder/arm/main" <<< 'int main(void) { return 0; }' 2> /dev/null; then
    if ./library.sh "$folder/arm" aarch64-unknown-linux-gnu > "$folder/arm/library.log" 2>&1; then
        told 0 '64-bit ARM: the library is built'
        try_all '64-bit ARM' aarch64-linux-gnu-gcc '-O2 -static' "$folder/arm/libsilgwyrad.a" "$folder/arm" qemu-aarch64
    else
        tail -n 20 "$folder/arm/library.log"
        told 1 '64-bit ARM: the library is built'
    fi
else
    echo 'aarch64-linux-gnu-gcc, its C library and qemu-aarch64 are not all installed here: 64-bit ARM is not tried'
fi
./measure.sh "$folder" > "$folder/measured"
told $? 'what the calls take is within the limits'
cat "$folder/measured"
take_up < <(./sizes.py < "$folder/measured" 2>&1)
if command -v node > /dev/null; then
    ../playground/build.sh "$folder"
    told $? 'the page is built'
    take_up < <(../playground/try.mjs 2>&1)
else
    echo 'node is not installed here: the page is not tried'
fi
finish

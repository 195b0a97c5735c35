#!/bin/bash
# Firmware in C over the library: builds it for a board, and boots it in an emulator. The boards are virt (RISC-V 64), mps2 (Cortex-M3) and
# lm3s (Cortex-M3 with 64 KB of RAM, for blocks alone).
# Where a package or an archive has the library for the board, that is taken, and no toolchain is asked for; a clone makes its own.
# usage: board.sh lacks BOARD                     prints what isn't installed here of what the board wants
#        board.sh library BOARD FOLDER            prints the file that has the library for the board; a clone compiles it, in the folder where
#                                                 module.sh has built the library; it is built where it isn't there
#        board.sh build BOARD FOLDER SOURCE.c ..  so, and makes FOLDER/BOARD/SOURCE.elf, named by the first source
#        board.sh sizes BOARD FIRMWARE.elf        prints the bytes that it takes of ROM, and of RAM beside the stack
#        board.sh boot BOARD FIRMWARE.elf FOLDER  with the console on standard input and output; the disk is disk.img in the folder. More words
#                                                 go to the emulator
#        board.sh run BOARD FOLDER SOURCE.c ..    builds it and boots it, with a disk of zeros of 1 MB where FOLDER/BOARD has none yet
set -euo pipefail
shopt -s inherit_errexit
here=$(cd "$(dirname "$0")" && pwd -P)
usage() {
    sed -n 's/^# usage: //p; s/^#        //p' "$0" >&2
    exit 2
}
[ $# -ge 2 ] || usage
act=$1 board=$2
case $board in
    virt)
        processor=riscv64 tools=riscv64-unknown-elf emulator=qemu-system-riscv64 drivers=virt.c
        compiled_for='-march=rv64imac_zicsr -mabi=lp64 -mcmodel=medany'
        optimized=-O2 # (a save takes 130 bytes of stack fewer than by -Os)
        ;;
    mps2 | lm3s)
        processor=cortex-m3 tools=arm-none-eabi emulator=qemu-system-arm drivers="cortex.c $board.c"
        compiled_for='-mcpu=cortex-m3 -mthumb'
        optimized='-Os -mllvm -inline-threshold=75' # (a session takes 4 KB of stack fewer than by -O2, a save 200 bytes fewer than by -Os alone)
        ;;
    *) usage ;;
esac
warnings='-std=c11 -Wall -Wextra -Wpedantic -Wshadow -Wconversion -Wstrict-prototypes -Wmissing-prototypes -Wcast-qual -Wundef -Werror'
# (a loop of memory.c must not become a call of the function that it is)
compiled="-Os -g -ffreestanding -fno-tree-loop-distribute-patterns -ffunction-sections -fdata-sections -DARENA=500000"
linked='-nostdlib -Wl,--gc-sections -Wl,--no-warn-rwx-segments -Wl,-z,noexecstack'

# The library for the board as the package libsilgwyrad-dev has it, or an archive.
packed_library() {
    for it in "$here/../../../../lib/silgwyrad" "$here/../../lib/silgwyrad"; do
        [ -f "$it/$board/library.o" ] || continue
        realpath "$it/$board/library.o"
        return
    done
    echo "board.sh: no library for $board is here: the package libsilgwyrad-dev has it" >&2
    return 1
}

# The library's module as an object of the board's processor, with the names that host.c has for the host's two functions.
make_library() {
    local folder=$1 kit
    command -v rt > /dev/null || { echo 'board.sh: the toolchain (rt) is not in the path: see docs/PROGRAM.md, "From a clone"' >&2; return 1; }
    kit=$(rt doc)
    kit=${kit%/*}
    [ -f "$folder/module.ll" ] || "$here/../module.sh" "$folder" >&2
    mkdir -p "$folder/$processor"
    echo "$folder/$processor/library.o"
    [ "$folder/$processor/library.o" -ot "$folder/module.ll" ] || return 0
    "$here/../retarget.py" $processor < "$folder/module.ll" > "$folder/$processor/module.ll"
    # shellcheck disable=SC2046
    "$kit/toolchain/bin/clang" $("$here/../retarget.py" --flags $processor) --no-default-config -Wno-override-module -ffunction-sections \
        -fdata-sections $optimized -c -x ir "$folder/$processor/module.ll" -o "$folder/$processor/named.o"
    "$tools-objcopy" --redefine-sym read=silgwyrad_host_read --redefine-sym write=silgwyrad_host_write "$folder/$processor/named.o" \
        "$folder/$processor/library.o"
}

# The file that has the library for the board.
library() {
    if [ -f "$here/../../crates.txt" ]; then make_library "$1"; else packed_library; fi
}

make_firmware() {
    local folder=$1 name object
    shift
    name=$(basename "$1" .c)
    object=$(library "$folder")
    mkdir -p "$folder/$board"
    # shellcheck disable=SC2086
    (cd "$here" && "$tools-gcc" $warnings $compiled $compiled_for $linked -T $board.ld -I .. -I . start.c memory.c $drivers console.c image.c ../host.c \
        ../heap.c "$@" "$object" -lgcc -Wl,-Map="$folder/$board/$name.map" -o "$folder/$board/$name.elf")
}

boot() {
    local firmware=$1 folder=$2
    shift 2
    local words=(-nographic -monitor none -serial stdio -kernel "$firmware")
    local disk='file=disk.img,format=raw,cache=writeback' semihosting='enable=on,target=native'
    case $board in
        virt) words+=(-M virt -m 16M -bios none -global "virtio-mmio.force-legacy=false" -drive "$disk,if=none,id=disk" -device "virtio-blk-device,drive=disk") ;;
        mps2) words+=(-M mps2-an385 -semihosting-config "$semihosting") ;;
        lm3s) words+=(-M lm3s6965evb -semihosting-config "$semihosting" -drive "$disk,if=sd") ;;
    esac
    cd "$folder"
    exec "$emulator" "${words[@]}" "$@"
}

# By the sections of sections.ld.
sizes() {
    "$tools-size" -A "$1" | awk '
        $1 == ".text" || $1 == ".ARM.exidx" { rom += $2 }
        $1 == ".data" { rom += $2; ram += $2 }
        $1 == ".bss" || $1 == ".kept" { ram += $2 }
        END { print "rom " rom + 0 " ram " ram + 0 }'
}

# What isn't installed here of what the board wants.
lacks() {
    for it in "$tools-gcc" "$tools-objcopy" "$emulator"; do command -v "$it" > /dev/null || echo "$it"; done
}

case $act in
    lacks)
        lacks
        ;;
    library)
        [ $# = 3 ] || usage
        library "$(mkdir -p "$3" && cd "$3" && pwd)"
        ;;
    build)
        [ $# -ge 4 ] || usage
        folder=$(mkdir -p "$3" && cd "$3" && pwd)
        shift 3
        mapfile -t sources < <(realpath -- "$@")
        make_firmware "$folder" "${sources[@]}"
        ;;
    sizes)
        [ $# = 3 ] || usage
        sizes "$3"
        ;;
    run)
        [ $# -ge 4 ] || usage
        # (the library may take long to be proved and built)
        missing=$(lacks | tr '\n' ' ')
        [ -z "$missing" ] || { echo "board.sh: not installed here is $missing" >&2; exit 1; }
        "$0" build "$board" "${@:3}"
        [ -f "$3/$board/disk.img" ] || truncate -s 1M "$3/$board/disk.img"
        exec "$0" boot "$board" "$3/$board/$(basename "$4" .c).elf" "$3/$board"
        ;;
    boot)
        [ $# -ge 4 ] || usage
        firmware=$(realpath "$3") folder=$4
        shift 4
        boot "$firmware" "$folder" "$@"
        ;;
    *) usage ;;
esac

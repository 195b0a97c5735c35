#!/usr/bin/env python3
"""Gives the library's module to another processor: what module.sh keeps, which was made for x86-64, with that processor's name and layout of data.

    retarget.py TARGET < module.ll > other.ll      TARGET is riscv64, cortex-m3 or wasm64
    retarget.py --flags TARGET                     prints the flags by which clang compiles it

Where pointers have 32 bits they keep their places of 64 bits in memory, since the module counts places in bytes: a pointer is stored to the lower half of its
place and loaded from there, and nothing looks at the upper half. That is right as long as
- each place is computed by bytes and none by the size of a type that has a pointer in it;
- no pointer is made of a number, and where a pointer is stored it isn't loaded as a number;
- what is loaded or stored with a pointer in it is a pointer alone, or a pair that is loaded, which becomes two loads;
- no more bytes are copied or filled at a time than there can be, so 32 bits of their number are enough;
- each processor puts its lowest byte first.
The module is read line by line, and one with another form than these is refused, but for the second half of the second point, of which nothing in the module
tells: there the trials on boards speak.
"""
import itertools
import re
import sys

NAMES = {
    "riscv64": ("e-m:e-p:64:64-i64:64-i128:128-n32:64-S128", "riscv64-unknown-unknown-elf"),
    "cortex-m3": ("e-m:e-p:32:32-Fi8-i64:64-v128:64:128-a:0:32-n32-S64", "thumbv7m-unknown-none-eabi"),
    "wasm64": ("e-m:e-p:64:64-p10:8:8-p20:8:8-i64:64-i128:128-n32:64-S128-ni:1:10:20", "wasm64-unknown-unknown"),
}
FLAGS = {
    "riscv64": ["-march=rv64imac", "-mabi=lp64", "-mcmodel=medany"],
    # (memcpy by its own name, and not by that of the processor's C libraries)
    "cortex-m3": ["-mcpu=cortex-m3", "-mfloat-abi=soft", "-meabi", "gnu"],
    "wasm64": [],
}
OF_32_BITS = ("cortex-m3",)
# What the module says of the processor that it was made for, beside its name.
OF_PROCESSOR = re.compile(r'"(probe-stack|stack-probe-size|target-cpu|target-features|frame-pointer)"="[^"]*"')

# A number narrower than a register is handed over as a whole one by C for these processors: an answer of a byte with zeros above it, the number of a
# device with its sign.
ANSWER = re.compile(r"^(define (?:\w+ )*)(i8 @silgwyrad_)")
NUMBER = re.compile(r"^(declare (?:\w+ )*i64 @(?:read|write)\(i32)\b")

# A pair that is loaded, a pointer alone on the stack, and a table of constants with pointers.
PAIR = re.compile(r"\s*(%\S+) = load \{ (i8|ptr), ptr \}, ptr (%\S+), align 8")
ROOM = re.compile(r"= alloca ptr(?=,)")
# What stays a call of its own: that by which a save writes its record and then the gate, since its pages aren't to lie on the stack while the record is made.
APART = re.compile(r'(define .*@"journal::pages::saving::turn::.*)( #\d+ \{)$')
# A copy or filling of memory, with its length; and a number for each.
COPY = re.compile(r"(.*@llvm\.mem(?:cpy|move|set)\.p0(?:\.p0)?\.i64\(.*, )i64 ?(%?\w*)(, i1 .*)")
COPIES = itertools.count()
# The address of a pointer, as a number that is compared or counted with: the pointer itself goes nowhere, so its room can still be shared.
ADDRESS = re.compile(r"\s*(%\S+) = ptrtoaddr ptr (%\S+) to i64$")
TABLE = re.compile(r"(@\S+ = .*constant )<\{ (.*) \}> <\{ (.*) \}>(.*)")
FIELD = re.compile(r"(ptr|\[\d+ x i8\]|i\d+) (?:getelementptr \([^)]*\)|zeroinitializer|null|c\"[^\"]*\"|\[[^\]]*\]|@[\w.$]+|-?\d+)")

# What may not be there otherwise: a pointer inside of what is loaded, stored or given room, one that is made of a number, and a place by a type's size.
REFUSED = re.compile(
    "|".join(
        (
            r"\binttoptr\b",
            r"\bptrtoint\b",
            # (where a number of 64 bits comes second, its place is the same)
            r"\bload (?!\{ ptr, i64 \})\{[^}]*\bptr\b",
            r"\bstore \{[^}]*\bptr\b",
            r"\balloca (?:ptr\b|[\[{<][^\]}>]*\bptr\b)",
            r"\bgetelementptr (?!(?:inbounds |nusw |nuw )*\(?i8\b)",
            r"\b(?:va_arg|cmpxchg|atomicrmw|byval)\b",
        )
    )
)

# Of the heap's functions the library wants an answer of two words, which C hands back in memory for these processors.
HEAP = """
declare i32 @silgwyrad_take(i64, i64)
declare i32 @silgwyrad_take_again(ptr, i64, i64, i64)

; the place that was taken, or that there is none: then a place that is no null, since the library wants one
define internal { i64, i64 } @told(i32 %place) {
  %is_there = icmp ne i32 %place, 0
  %there = zext i1 %is_there to i64
  %some = select i1 %is_there, i32 %place, i32 16
  %at = zext i32 %some to i64
  %first = insertvalue { i64, i64 } poison, i64 %there, 0
  %both = insertvalue { i64, i64 } %first, i64 %at, 1
  ret { i64, i64 } %both
}

define internal { i64, i64 } @rattle_alloc(i64 %n, i64 %align) {
  %place = call i32 @silgwyrad_take(i64 %n, i64 %align)
  %told = call { i64, i64 } @told(i32 %place)
  ret { i64, i64 } %told
}

define internal { i64, i64 } @rattle_realloc(ptr %old, i64 %kept, i64 %n, i64 %align) {
  %place = call i32 @silgwyrad_take_again(ptr %old, i64 %kept, i64 %n, i64 %align)
  %told = call { i64, i64 } @told(i32 %place)
  ret { i64, i64 } %told
}
"""


def split_pair(found):
    """Two loads in the place of one of a pair."""
    name, first, place = found[1], found[2], found[3]
    return (
        f"  {name}.first = load {first}, ptr {place}, align 8\n"
        f"  {name}.place = getelementptr i8, ptr {place}, i64 8\n"
        f"  {name}.second = load ptr, ptr {name}.place, align 8\n"
        f"  {name}.half = insertvalue {{ {first}, ptr }} poison, {first} {name}.first, 0\n"
        f"  {name} = insertvalue {{ {first}, ptr }} {name}.half, ptr {name}.second, 1\n"
    )


def widened(table):
    """A table of constants whose pointers have places of 8 bytes."""
    head, kinds, values, tail = table.groups()
    fields = [(it[1], it[0]) for it in FIELD.finditer(values)]
    if ", ".join(kind for kind, _ in fields) != kinds:
        return None
    kinds = ", ".join(kind + (", [4 x i8]" if kind == "ptr" else "") for kind, _ in fields)
    values = ", ".join(text + (", [4 x i8] zeroinitializer" if kind == "ptr" else "") for kind, text in fields)
    return f"{head}<{{ {kinds} }}> <{{ {values} }}>{tail}\n"


def with_short_length(copy):
    """A copy or filling of memory by a length of 32 bits. Those that the compiler makes of loops have these too, so it sees where two branches do the same."""
    head, length, tail = copy[1].replace(".i64(", ".i32("), copy[2], copy[3]
    if head.startswith("declare"):
        return f"{head}i32{tail}\n"
    if length[0] != "%":
        return f"{head}i32 {length}{tail}\n"
    name = f"{length}.of.{next(COPIES)}"
    return f"  {name} = trunc i64 {length} to i32\n{head}i32 {name}{tail}\n"


def for_32_bits(line):
    """A line for pointers of 32 bits, or None where it isn't known how."""
    if line.startswith("declare { i64, i64 } @rattle_"):
        return ""
    if line.startswith("@"):
        table = TABLE.match(line)
        return widened(table) if table and "ptr" in table[2] else line if "ptr" not in line.partition("=")[2].split(" getelementptr")[0] else None
    pair = " = load {" in line and PAIR.match(line)
    if pair:
        return split_pair(pair)
    line = ROOM.sub("= alloca [8 x i8]", APART.sub(r"\1 noinline\2", line))
    if REFUSED.search(line):
        return None
    copy = "@llvm.mem" in line and COPY.match(line)
    if copy:
        return with_short_length(copy)
    address = ADDRESS.match(line)
    return f"  {address[1]}.half = ptrtoaddr ptr {address[2]} to i32\n  {address[1]} = zext i32 {address[1]}.half to i64\n" if address else line


def retargeted(lines, target):
    layout, triple = NAMES[target]
    for line in lines:
        if line.startswith("target datalayout"):
            line = f'target datalayout = "{layout}"\n'
        elif line.startswith("target triple"):
            line = f'target triple = "{triple}"\n'
        elif line.startswith("attributes"):
            line = OF_PROCESSOR.sub("", line)
        else:
            line = NUMBER.sub(r"\1 signext", ANSWER.sub(r"\1zeroext \2", line))
        if target in OF_32_BITS:
            other = for_32_bits(line)
            if other is None:
                sys.exit(f"retarget.py: it isn't known what this is with pointers of 32 bits: {line}")
            line = other
        yield line
    if target in OF_32_BITS:
        yield HEAP


def main():
    words = sys.argv[1:]
    if len(words) == 2 and words[0] == "--flags" and words[1] in NAMES:
        print(*(f"--target={NAMES[words[1]][1]}", *FLAGS[words[1]]))
    elif len(words) == 1 and words[0] in NAMES:
        sys.stdout.writelines(retargeted(sys.stdin, words[0]))
    else:
        sys.exit(__doc__)


main()

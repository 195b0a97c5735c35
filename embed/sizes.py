#!/usr/bin/env python3
"""Looks whether docs/EMBEDDING.md has the sizes that measure.sh measured: reads on standard input what that prints, and says of each row of the page's table, and
of each column that was measured, `well` or `FAILED`.

    ./measure.sh FOLDER | ./sizes.py

What a compiler of this machine makes is in the numbers too: of its own functions in a first firmware, and a few bytes of the stack. What a step takes isn't
compared: by an emulator's clock too it isn't the same each time.
"""
import os
import re
import sys

PAGE = os.path.join(os.path.dirname(os.path.abspath(__file__)), "../docs/EMBEDDING.md")
COLUMNS = {"x86-64": "x86-64", "RISC-V 64 (`virt`)": "virt", "Cortex-M3 (`mps2`)": "mps2"}
# The rows, each with what is measured of a target for it.
ROWS = {
    "code and constants of the library, blocks and session": ["blocks and session"],
    "the same, blocks alone": ["blocks alone"],
    "stack of a format, an opening, a recovery": ["format", "open", "recover"],
    "stack of a read; of a save of four blocks": ["read", "save of four blocks"],
    "stack over an open store: of a read; of a save of four blocks": ["read of an open store", "save of four blocks to an open store"],
    "stack of a session, and its heap": ["session", "heap of session"],
    "a first firmware, `starts.c`: ROM; RAM beside the stack": ["rom", "ram"],
    "the same on `lm3s`": ["rom of lm3s", "ram of lm3s"],
}


def measured(lines):
    """What was measured, by target and what it is of. Of both layouts the larger one counts."""
    found = {}

    def note(target, what, size):
        found[target, what] = max(found.get((target, what), 0), size)

    for line in lines:
        if it := re.match(r"(\S+), (blocks.*): text (\d+) rodata (\d+)", line):
            note(it[1], it[2], int(it[3]) + int(it[4]))
        elif it := re.match(r"(\S+), (.*?)(?: by layout 3)?: stack (\d+) heap (\d+)", line):
            note(it[1], it[2], int(it[3]))
            note(it[1], f"heap of {it[2]}", int(it[4]))
        elif it := re.match(r"(\S+), first firmware: rom (\d+) ram (\d+)", line):
            # (another board of the same processor)
            target, of = ("mps2", " of lm3s") if it[1] == "lm3s" else (it[1], "")
            note(target, f"rom{of}", int(it[2]))
            note(target, f"ram{of}", int(it[3]))
    return found


def numbers(cell):
    """The numbers of a cell, without those in names."""
    return [float(it.replace(",", "")) for it in re.findall(r"\d[\d,]*(?:\.\d+)?", re.sub(r"`[^`]*`", "", cell))]


def page():
    """The cells of the page's table of sizes, by row and target."""
    with open(PAGE, encoding="utf-8") as file:
        lines = [[cell.strip() for cell in line.strip()[1:-1].split("|")] for line in file if line.startswith("|")]
    head = next((it for it in lines if it[-3:] == list(COLUMNS)), None)
    if not head:
        sys.exit("sizes.py: docs/EMBEDDING.md has no table of sizes: FAILED")
    return {(row[0], COLUMNS[name]): cell for row in lines if row[0] in ROWS for name, cell in zip(COLUMNS, row[1:])}


def main():
    found, shown, failed = measured(sys.stdin), page(), 0
    for row, of in ROWS.items():
        for target in COLUMNS.values():
            wanted = [found.get((target, what)) for what in of]
            if None in wanted:
                continue
            is_well = numbers(shown.get((row, target), "")) == wanted
            failed += not is_well
            told = "well" if is_well else f"measured are {'; '.join(f'{it:,}' for it in wanted)}: FAILED"
            print(f"docs/EMBEDDING.md, {row}, {target}: {told}")
    sys.exit(failed > 0)


if __name__ == "__main__":
    main()

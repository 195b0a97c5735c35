#!/usr/bin/env python3
"""Computes the digests that the pages in data/commands show, from what the blocks hold that they are those of: blank, but for the lines that are said here.

    crates/test_transcripts/digests.py             prints them
    crates/test_transcripts/digests.py --check     says which digest of a page is of no such blocks, and which blocks no page shows; ends with status 1 for one
"""
import hashlib
import os
import re
import sys

PAGES = f"{os.path.dirname(os.path.abspath(__file__))}/data/commands"
SCREEN = [b": SQUARE DUP * ;", b"7 SQUARE ."]
WIDEST = [b"0123456789012345678901234567890123456789012345678901234567890123", b"x"]
SIXTEEN = [b"0", b"1 1", b"", *(str(it).encode() for it in range(3, 16))]
TWO_LINES = [b"16", b"17"]
FIRST_LAST = {0: [b"FIRST"], 31: [b"LAST"]}
# a block of layout 1 that holds a letter, and else zeros
LETTERS = {1: [b"A" + bytes(63), *[bytes(64)] * 15], 2: [b"B" + bytes(63), *[bytes(64)] * 15]}
# the cell 7
SEVEN = [b"\x07\x00"]
FIFTH = {name: {5: [name]} for name in (b"ONE", b"TWO", b"THREE")}

# of each page how many blocks, and the lines of those that aren't blank
SHOWN = {
    "images": [
        (32, {}),
        (3840, {}),
        (32, {1: SCREEN}),
        (32, {1: SCREEN, 2: [b"AAA"]}),
        *((32, {31: it}) for it in ([b"1 2 + ."], [b"", b"", b"a"], [b"a b\r", b"\x7f\xc2\x80~\x00"], [*[b""] * 15, b"last"], WIDEST)),
        (32, {1: [b"x" * 64] * 16, 31: WIDEST}),
        (32, LETTERS),
    ],
    "transfers": [
        (1, {}),
        (1, {0: [b"( A )", b"", b" 1 2 + .\x07"]}),
        (32, {3: SIXTEEN, 4: TWO_LINES}),
        (32, {3: SIXTEEN, 4: TWO_LINES, 30: SIXTEEN, 31: TWO_LINES}),
        (32, {3: SIXTEEN, 4: TWO_LINES, 30: SIXTEEN, 31: TWO_LINES, 10: SIXTEEN, 11: TWO_LINES}),
    ],
    "copies": [(32, FIRST_LAST), (40, FIRST_LAST), (3840, FIRST_LAST)],
    "layout-3-images": [
        (32, {}),
        (3840, {}),
        (32, {1: SCREEN, 31: SCREEN}),
        (32, {1: [b"\x07\x00SQUARE DUP * ;", SCREEN[1]], 2: SEVEN, 31: SCREEN}),
        (32, LETTERS),
    ],
    "layout-3-damage": [
        (32, {}),
        (33, {}),
        *((32, it) for it in FIFTH.values()),
        *((32, {31: [b"LAST"], **it}) for it in ({}, FIFTH[b"ONE"], FIFTH[b"TWO"])),
        *((32, dict(enumerate([[b"ONE"], [b"TWO"], [b"THREE"]][:count]))) for count in (1, 2, 3)),
    ],
    "layout-3-labels": [(32, {31: [b"LAST"], **FIFTH[name]}) for name in (b"ONE", b"TWO")],
    "layout-3-copies": [
        *((count, {31: [b"LAST"], **FIFTH[b"TWO"]}) for count in (32, 40, 41)),
        (40, {1: SEVEN, 2: SEVEN, 31: [b"LAST"], **FIFTH[b"TWO"]}),
        (3840, {}),
    ],
}


# of each page that shows digests of single blocks the same: it shows lines of `check --blocks`, and the digest of all of them
LISTED = {"comparisons": [(32, FIFTH[b"ONE"]), (33, FIFTH[b"ONE"])]}


def blocks(count, lines):
    """The bytes of so many blocks, of which some hold these lines."""
    return [b"".join(it.ljust(64) for it in lines.get(k, [])).ljust(1024) for k in range(count)]


def digest(count, lines):
    return hashlib.sha256(b"".join(blocks(count, lines))).hexdigest()


def listing(count, lines):
    """What `check --blocks` tells of them."""
    return [f"block {k}: {hashlib.sha256(it).hexdigest()}" for k, it in enumerate(blocks(count, lines))]


def digest_of_listing(count, lines):
    return hashlib.sha256("".join(f"{it}\n" for it in listing(count, lines)).encode()).hexdigest()


def said(count, lines):
    return f"{count} blocks, all blank{' but ' if lines else ''}{', '.join(map(str, sorted(lines)))}"


def text(name):
    with open(f"{PAGES}/{name}.md", encoding="utf-8") as it:
        return it.read()


def page(name):
    """The digests that stand on a page, as `check` and `sha256sum` tell them."""
    return set(re.findall(r"^(?:sha256: )?([0-9a-f]{64})(?:  -)?$", text(name), re.M))


def untrue_lines(name):
    """The lines of `check --blocks` on a page that are of no blocks that are said."""
    told = {line for it in LISTED.get(name, []) for line in listing(*it)}
    return sorted({*re.findall(r"^block \d+: [0-9a-f]{64}$", text(name), re.M)} - told)


def main():
    computed = {name: {digest(*it): it for it in rows} for name, rows in SHOWN.items()}
    for name, rows in LISTED.items():
        computed.setdefault(name, {}).update((digest_of_listing(*it), it) for it in rows)
    if sys.argv[1:] != ["--check"]:
        for name, rows in computed.items():
            for it, (count, lines) in rows.items():
                print(f"{name}: {it} {said(count, lines)}")
        return 0
    shown = {it: page(it) for it in sorted(it.removesuffix(".md") for it in os.listdir(PAGES))}
    told = [f"{name}: {it} is of no blocks that are said" for name, found in shown.items() for it in found - set(computed.get(name, {}))]
    told += [f"{name}: no digest of {said(*rows[it])}" for name, rows in computed.items() for it in set(rows) - shown.get(name, set())]
    told += [f"{name}: `{it}` is of no blocks that are said" for name in shown for it in untrue_lines(name)]
    print("".join(f"{it}\n" for it in told), end="")
    return 1 if told else 0


if __name__ == "__main__":
    sys.exit(main())

#!/usr/bin/env python3
"""Writes an image of blank blocks, some of them with text, as docs/IMAGE.md has it and by none of the repository's programs.

    image.py LAYOUT BLOCKS FILE [BLOCK=TEXTFILE ..]
"""
import sys

sys.dont_write_bytecode = True

from counts import MODEL


def block_of(name):
    """The bytes of a block with the lines of a text file."""
    with open(name, encoding="ascii") as lines:
        return "".join(it.rstrip("\n").ljust(64) for it in lines).ljust(1024).encode()


def main():
    if len(sys.argv) < 4:
        sys.exit(__doc__)
    layout, blocks = int(sys.argv[1]), int(sys.argv[2])
    disk = MODEL.Disk([bytes(512)] * {2: 3 + 4 * blocks, 3: 32 + 16 * blocks}[layout], layout=layout)
    MODEL.form(disk, blocks)
    store = MODEL.STORES[layout](disk, blocks)
    for word in sys.argv[4:]:
        block, _, name = word.partition("=")
        store.spill(int(block), block_of(name))
    store.commit()
    with open(sys.argv[3], "wb") as file:
        file.write(b"".join(disk.now))


main()

"""Writes data/half-saved.f83: an image of 32 blank blocks after a stop in a save of block 1.

The gate is open, the record lists block 1, and only the slot of the block holds its text yet (docs/IMAGE.md).
"""
import hashlib

BLOCKS = 32
TEXT = [": SQUARE DUP * ;", "7 SQUARE ."]


def block(lines):
    return b"".join(line.encode().ljust(64) for line in lines).ljust(1024)


label = b"F83BLOCK" + (2).to_bytes(2, "little") + BLOCKS.to_bytes(2, "little")
slot = block(TEXT)
bits = bytes([1 << 1]).ljust(480, b"\0")
record = bits + hashlib.sha256(bits + slot).digest()
slots = [bytes(1024)] * BLOCKS
slots[1] = slot
sectors = label.ljust(512, b"\0") + b"COMMIT83".ljust(512, b"\0") + record
with open("data/half-saved.f83", "wb") as image:
    image.write(sectors + b"".join(slots) + block([]) * BLOCKS)

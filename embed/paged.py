#!/usr/bin/env python3
"""Prints what `blocks`, `opened` and `sessions` have to print with --paged over a blank image of layout 3: how many stops, images and recoveries there are.

    paged.py blocks|opened|sessions

It shares no code with the library. The disk, the store and the block words are those of crates/test_stop_texts/totals.py, which are written by docs/IMAGE.md.
"""
import itertools
import sys

sys.dont_write_bytecode = True

from counts import BLOCKS, MODEL, NEW, OLD, OPENED_TEXT, PAIR, SESSIONS_TEXT, torn

# every how many calls an opening is stopped
EACH = 16
BLOCKS_TEXT = """an image of layout 3 is taken: well
a save is read back: well
refused arguments leave the device alone: well
a save that loses power is all or none: well
stops {0}, images {1} ({2} old, {3} new; at most {4} of one stop), stopped recoveries {5}
a save of which a call fails says so: well
calls that failed {0}
a sync that lies is noticed: well
"""


def paged(sectors, kind="from", k=0):
    return MODEL.Disk(sectors, kind, k, layout=3, unit=8)


def blank():
    disk = paged([bytes(512)] * (32 + 16 * BLOCKS))
    MODEL.form(disk, BLOCKS)
    return disk.now


def save(disk, data):
    """What silgwyrad_save does: the image is opened, and both blocks are spilled and committed."""
    store = MODEL.Newer(disk, BLOCKS)
    for block in PAIR:
        store.spill(block, data)
    store.commit()


def session(disk, data):
    """What the session does: both blocks are looked for, filled and saved."""
    words = MODEL.Words(MODEL.Newer(disk, BLOCKS))
    for block in PAIR:
        words.block(block)[1] = data
    words.do("SAVE")


def stopped(call, sectors, at):
    """The disk where a call was stopped before its device call `at`, and whether it was; the calls are counted from 0."""
    disk = paged(sectors, "from", at + 1)
    try:
        call(disk)
        return disk, False
    except MODEL.Fault:
        return disk, True


def left(disk):
    """The images that a stop leaves: each unsynced page lost, kept or torn, or its sectors lost, kept and torn in turn."""
    pages = sorted({k // 8 for k in disk.unsynced})
    for fates in itertools.product(range(4), repeat=len(pages)):
        sectors = list(disk.synced)
        for page, fate in zip(pages, fates):
            for k in range(8 * page, 8 * page + 8):
                sectors[k] = (disk.synced[k], disk.now[k], torn(k))[k % 3 if fate == 3 else fate]
        yield sectors


def is_new(sectors):
    """Whether the blocks are the new ones, once the image is opened; and how often the opening was stopped."""
    disk = paged(sectors)
    store = MODEL.Newer(disk, BLOCKS)
    calls = disk.calls
    held = {disk.now[store.latest(block) + half] for block in PAIR for half in (0, 1)}
    assert held in ({OLD[:512]}, {NEW[:512]})
    return held == {NEW[:512]}, (calls + EACH - 1) // EACH


def opening():
    """How many calls an opening makes."""
    disk = paged(blank())
    MODEL.Newer(disk, BLOCKS)
    return disk.calls


def count(call, first=0):
    start = paged(blank())
    save(start, OLD)
    images = news = most = recoveries = 0
    for at in itertools.count(first):
        disk, is_stopped = stopped(lambda it: call(it, NEW), start.now, at)
        if not is_stopped:
            return at - first, images, images - news, news, most, recoveries
        ways = list(left(disk))
        most = max(most, len(ways))
        for sectors in ways:
            new, stops = is_new(sectors)
            images, news, recoveries = images + 1, news + new, recoveries + stops


def main():
    if sys.argv[1:] == ["blocks"]:
        print(BLOCKS_TEXT.format(*count(save)), end="")
    elif sys.argv[1:] == ["opened"]:
        print(OPENED_TEXT.format(*count(save, opening())), end="")
    elif sys.argv[1:] == ["sessions"]:
        print(SESSIONS_TEXT.format(*count(session)), end="")
    else:
        sys.exit(__doc__)


main()

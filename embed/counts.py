#!/usr/bin/env python3
"""Prints what `blocks`, `opened`, `sessions`, `flash` and boards/trial.c have to print: how many stops, images and recoveries there are.

    counts.py blocks|opened|sessions
    counts.py flash|trial LAYOUT

It shares no code with the library. The disk, the store and the block words are those of crates/test_stop_texts/totals.py, which are written by docs/IMAGE.md.
"""
import hashlib
import importlib.util
import itertools
import os
import sys

ROOT = os.path.dirname(os.path.dirname(os.path.abspath(__file__)))
BLOCKS, PAIR, OLD, NEW = 32, (2, 3), bytes([7]) * 1024, bytes([8]) * 1024


def torn(k):
    """What stands in a torn sector, as in disk.c: a gate of layout 3 is open or closed by these bytes too."""
    return bytes((37 * i + k + 11) % 256 for i in range(512))


def read_model():
    spec = importlib.util.spec_from_file_location("totals", f"{ROOT}/crates/test_stop_texts/totals.py")
    model = importlib.util.module_from_spec(spec)
    sys.dont_write_bytecode = True
    spec.loader.exec_module(model)
    return model


MODEL = read_model()


def save(disk, data):
    """What silgwyrad_save does: the image is opened, and both blocks are spilled and committed."""
    store = MODEL.Older(disk, BLOCKS)
    for block in PAIR:
        store.spill(block, data)
    store.commit()


def session(disk, data):
    """What the session does: both blocks are looked for, filled and saved."""
    words = MODEL.Words(MODEL.Older(disk, BLOCKS))
    for block in PAIR:
        words.block(block)[1] = data
    words.do("SAVE")


def stopped(call, sectors, at):
    """The disk where a call was stopped before its device call `at`, and whether it was; the calls are counted from 0."""
    disk = MODEL.Disk(sectors, "from", at + 1)
    try:
        call(disk)
        return disk, False
    except MODEL.Fault:
        return disk, True


def left(disk):
    """The images that a stop leaves: each unsynced sector lost, kept or torn."""
    places = sorted(disk.unsynced)
    for fate in itertools.product(*((disk.synced[k], disk.now[k], torn(k)) for k in places)):
        sectors = list(disk.synced)
        for k, data in zip(places, fate):
            sectors[k] = data
        yield sectors


def is_new(sectors):
    """Whether the blocks are the new ones, once the image is recovered; and how many calls the recovery made."""
    disk = MODEL.Disk(sectors)
    store = MODEL.Older(disk, BLOCKS)
    calls = disk.calls
    held = {disk.now[store.home(block) + half] for block in PAIR for half in (0, 1)}
    assert held in ({OLD[:512]}, {NEW[:512]})
    return held == {NEW[:512]}, calls


def blank():
    """A disk with an image of blank blocks, by layout 2."""
    disk = MODEL.Disk([bytes(512)] * (3 + 4 * BLOCKS))
    MODEL.form(disk, BLOCKS)
    return MODEL.Disk(disk.now)


def count(call, first=0):
    """What a call comes to that is stopped before each of its device calls, from the first one that is told."""
    start = blank()
    save(start, OLD)
    images = news = most = recoveries = 0
    for at in itertools.count(first):
        disk, is_stopped = stopped(lambda it: call(it, NEW), start.now, at)
        if not is_stopped:
            return at - first, images, images - news, news, most, recoveries
        ways = list(left(disk))
        most = max(most, len(ways))
        for sectors in ways:
            new, calls = is_new(sectors)
            images, news, recoveries = images + 1, news + new, recoveries + calls


def opening():
    """How many calls an opening makes of an image whose save is finished."""
    disk = blank()
    MODEL.Older(disk, BLOCKS)
    return disk.calls


BLOCKS_TEXT = """a disk that was never formatted is refused: well
a format makes blank blocks: well
a save is read back: well
refused arguments leave the device alone: well
a save that loses power is all or none: well
stops {0}, images {1} ({2} old, {3} new; at most {4} of one stop), stopped recoveries {5}
a save of which a call fails says so: well
calls that failed {0}
a sync that lies is noticed: well
"""
OPENED_TEXT = """a save to an open store is read back: well
a store that isn't open is refused: well
a read of an open store makes 2 calls: well
refused arguments leave the store open: well
a fault of the device closes the store: well
saves after each other are read back: well
a save to an open store that loses power is all or none: well
stops {0}, images {1} ({2} old, {3} new)
"""
SESSIONS_TEXT = """a session that loses power is all or none: well
stops {0}, images {1} ({2} old, {3} new)
"""


class Checked(MODEL.Older):
    """A store of layout 2 that refuses a damaged image. It looks at what the disk holds, and makes no call for it."""

    def open(self):
        if MODEL.is_open(self.disk.now):
            record = self.disk.now[2]
            slots = b"".join(self.disk.now[self.free(b) + half] for b in MODEL.listed(record, self.blocks) for half in (0, 1))
            if hashlib.sha256(record[:480] + slots).digest() != record[480:]:
                raise ValueError("the image is damaged")
        super().open()


STORES = {2: Checked, 3: MODEL.Newer}
SECTORS = {2: 3 + 4 * BLOCKS, 3: 32 + 16 * BLOCKS}


class Flash(MODEL.Disk):
    """Sectors of a flash that is erased by eight: a write passes three moments, at each of which it may be stopped."""

    def __init__(self, sectors, stop_at=None):
        super().__init__(sectors)
        self.moments, self.stop_at = 0, stop_at

    def moment(self):
        if self.moments == self.stop_at:
            raise MODEL.Fault
        self.moments += 1

    def write(self, k, data):
        first = k - k % 8
        unit = self.now[first : first + 8]
        unit[k - first] = data
        self.moment()
        self.now[first : first + 8] = [b"\xff" * 512] * 8
        self.moment()
        self.now[first : first + 4] = unit[:4]
        self.moment()
        self.now[first : first + 8] = unit


def saved(disk, layout, rows):
    """Opens the image on a disk and saves blocks with their bytes."""
    store = STORES[layout](disk, BLOCKS)
    for block, data in rows:
        store.spill(block, data)
    store.commit()


def formed(layout, sectors):
    disk = MODEL.Disk([bytes(512)] * sectors, layout=layout)
    MODEL.form(disk, BLOCKS)
    return disk.now


def of_pair(byte):
    return [(block, byte * 1024) for block in PAIR]


def found(sectors, layout):
    """The blocks of an image, once it is recovered, or None where it is refused."""
    disk = MODEL.Disk(sectors)
    if sectors[0] != MODEL.label(BLOCKS, layout):
        return None
    try:
        store = STORES[layout](disk, BLOCKS)
    except ValueError:
        return None
    return [disk.now[store.latest(b)] + disk.now[store.latest(b) + 1] for b in range(BLOCKS)]


def flash(layout):
    """Stops and images of a flash; those with the old pair, with the new one, and those that lost a block."""
    base = Flash(formed(layout, SECTORS[3]))
    saved(base, layout, [(b, bytes([b]) * 1024) for b in range(BLOCKS)])
    saved(base, layout, of_pair(b"O"))
    kinds = {}
    for byte in (b"O", b"N"):
        kinds[byte] = [byte * 1024 if b in PAIR else bytes([b]) * 1024 for b in range(BLOCKS)]
    tally = {"images": 0, b"O": 0, b"N": 0}
    for stop in itertools.count():
        disk = Flash(base.now, stop)
        if ended(lambda: saved(disk, layout, of_pair(b"N"))):
            return stop, tally["images"], tally[b"O"], tally[b"N"], tally["images"] - tally[b"O"] - tally[b"N"]
        for again in itertools.count():
            other = Flash(disk.now, again)
            is_last = ended(lambda: recovered(other, layout))
            blocks = found(other.now, layout)
            tally["images"] += 1
            for byte, kind in kinds.items():
                tally[byte] += blocks == kind
            if is_last:
                break


def recovered(disk, layout):
    """Opens an image, which may be refused."""
    if disk.now[0] == MODEL.label(BLOCKS, layout):
        try:
            STORES[layout](disk, BLOCKS)
        except ValueError:
            pass


def ended(call):
    try:
        call()
        return True
    except MODEL.Fault:
        return False


def trial(layout):
    """Stops of a save on a board, those that left the old pair and the new one, and stops of the recoveries after them: after the first stop, and after
    each before which a write was made."""
    start = MODEL.Disk(formed(layout, SECTORS[layout]))
    saved(start, layout, [(4, b"K" * 1024)])
    olds = news = recoveries = 0
    # (how many writes were begun, the one that is stopped too)
    writes = [-1, 0]
    for stop in itertools.count():
        saved(start, layout, of_pair(b"O"))
        disk = MODEL.Disk(start.now, "from", stop + 1)
        if ended(lambda: saved(disk, layout, of_pair(b"N"))):
            return stop, olds, news, recoveries
        after = MODEL.Disk(disk.now)
        STORES[layout](after, BLOCKS)
        recoveries += after.calls * (writes[-1] > writes[-2])
        writes.append(disk.writes)
        is_new = found(after.now, layout)[PAIR[0]] == b"N" * 1024
        olds, news = olds + (not is_new), news + is_new


FLASH_TEXT = """stops {0}, images {1} ({2} old, {3} new, {4} that lost a block)
layout {layout} {word} on such a flash: well
"""
TRIAL_TEXT = "stops {0} ({1} old, {2} new), stopped recoveries {3}: well\n"


def text_of(words):
    """What is to be printed, or None where the words ask for nothing."""
    texts = {
        "blocks": lambda: BLOCKS_TEXT.format(*count(save)),
        "opened": lambda: OPENED_TEXT.format(*count(save, opening())),
        "sessions": lambda: SESSIONS_TEXT.format(*count(session)),
    }
    if len(words) == 1 and words[0] in texts:
        return texts[words[0]]()
    if len(words) == 2 and words[0] in ("flash", "trial") and words[1] in ("2", "3"):
        layout = int(words[1])
        word = {2: "loses blocks", 3: "loses nothing"}[layout]
        return FLASH_TEXT.format(*flash(layout), layout=layout, word=word) if words[0] == "flash" else TRIAL_TEXT.format(*trial(layout))
    return None


if __name__ == "__main__":
    text = text_of(sys.argv[1:])
    if text is None:
        sys.exit("usage: counts.py blocks|opened|sessions\n       counts.py flash|trial LAYOUT")
    print(text, end="")

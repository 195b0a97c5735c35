#!/usr/bin/env python3
"""Says what the program `test_stop_texts` has to print: how many runs, stops and images the lines of its texts come to, with no difference.

It shares no code with it. It has a disk, a store of either layout, block words and recoveries of its own, written by docs/IMAGE.md, and counts what the
lines ask for: each call of the device that fails is one run; each way to leave the units with unsynced sectors after it is one stop; each image that is opened
and looked at after a stop or a fault is one image. What the lines of Forth do to blocks stands in a table below.

    totals.py             prints it
    totals.py --check     compares it with the file `stdout`, and ends with status 1 where they differ
"""
import functools
import hashlib
import itertools
import operator
import os
import re
import sys

HERE = os.path.dirname(os.path.abspath(__file__))
OPEN, CLOSED = b"COMMIT83".ljust(512, b"\0"), bytes(512)
# The most combinations that are all tried, by each layout.
MOST = {2: 1_000, 3: 100}
# The sectors of label and gate by each layout.
NAMED = {2: (0, 1), 3: (0, 8)}


def label(blocks, layout):
    return (b"F83BLOCK" + layout.to_bytes(2, "little") + blocks.to_bytes(2, "little")).ljust(512, b"\0")


def torn(kind, layout):
    """What a write of this kind leaves that fails."""
    return {"wild": b"\xee" * 512, "gate": b"COMMIT83".ljust(512, b"\xee"), "label": label(32, layout)}.get(kind)


# What lines of Forth do. A text is looked for again after each word that called the device.
LOOK, FILL = "BLOCK", "FILL"
LINES = {
    "65 1 FILLED 5 4 3 2 4 LOOKED": [(FILL, 1, "A"), *((LOOK, u) for u in (2, 3, 4, 5))],
    "66 2 FILLED SAVED": [(FILL, 2, "B"), ("SAVE",)],
    "9 LOAD": [("TEXT", 9), (FILL, 1, "a"), ("TEXT", 9), (FILL, 6, "b"), ("TEXT", 9), ("FLUSH",), ("TEXT", 9)],
    "67 3 FILLED 0 7 5 4 4 LOOKED": [(FILL, 3, "C"), *((LOOK, u) for u in (4, 5, 7, 0))],
    "8 1 LOOKED": [(LOOK, 8)],
    "65 1 FILLED SAVED": [(FILL, 1, "A"), ("SAVE",)],
    "8 LOAD": [("TEXT", 8), (FILL, 1, "a"), ("TEXT", 8), ("FLUSH",), ("TEXT", 8)],
    "66 2 FILLED 3 4 5 6 4 LOOKED": [(FILL, 2, "B"), *((LOOK, u) for u in (6, 5, 4, 3))],
    "65 1 FILLED 66 2 FILLED SAVED": [(FILL, 1, "A"), (FILL, 2, "B"), ("SAVE",)],
    "67 1 HALF NOPE": [(FILL, 1, "C"), ("UNDO",)],
    "67 1 HALF 7 6 5 4 4 LOOKED 0 0 /": [(FILL, 1, "C"), *((LOOK, u) for u in (4, 5, 6, 7)), ("UNDO",)],
    "67 1 FILLED 68 2 FILLED SAVED 69 2 HALF NOPE": [(FILL, 1, "C"), (FILL, 2, "D"), ("SAVE",), (FILL, 2, "E"), ("UNDO",)],
    "70 3 FILLED SAVED": [(FILL, 3, "F"), ("SAVE",)],
}


class Fault(Exception):
    """A call of the device failed."""


class Disk:
    """Sectors: what they hold, what they held at the last sync, and which were written since. A write makes all sectors of its unit unsynced. Calls fail by a
    kind, from 1."""

    def __init__(self, sectors, kind="from", k=0, layout=2, unit=1):
        self.now, self.synced, self.unsynced = list(sectors), list(sectors), set()
        self.kind, self.k, self.calls, self.writes, self.syncs = kind, k, 0, 0, 0
        self.layout, self.unit = layout, unit

    def copy(self, kind, k):
        other = Disk(self.now, kind, k, self.layout, self.unit)
        other.synced, other.unsynced = list(self.synced), set(self.unsynced)
        return other

    def fails(self):
        self.calls += 1
        return self.calls == self.k or (self.kind == "from" and 0 < self.k <= self.calls)

    def read(self, k):
        if self.fails():
            raise Fault
        return self.now[k]

    def write(self, k, data):
        self.writes += 1
        fails = self.fails()
        left = torn(self.kind, self.layout) if fails else data
        if left:
            self.now[k] = left
            first = k - k % self.unit
            self.unsynced.update(range(first, min(first + self.unit, len(self.now))))
        if fails:
            raise Fault

    def sync(self):
        self.syncs += 1
        if self.fails():
            raise Fault
        self.synced, self.unsynced = list(self.now), set()

    def stops(self):
        """How many ways to leave it are tried: the units of label and gate are lost, kept, torn in the middle (or spoiled) or in their names, all others not in
        a name."""
        ways = 1
        for k in {k - k % self.unit for k in self.unsynced}:
            ways *= 4 if k in NAMED[self.layout] else 3
        return ways if ways <= MOST[self.layout] else 5

    def left(self):
        """What these stops leave of an image of layout 2, where they are as many as there are combinations."""
        places = sorted(self.unsynced)
        old, new = self.synced, self.now
        ways = [[old[k], new[k], new[k][:256] + old[k][256:], new[k][:4] + old[k][4:]][: 4 if k <= 1 else 3] for k in places]
        for fate in itertools.product(*ways):
            sectors = list(old)
            for k, data in zip(places, fate):
                sectors[k] = data
            yield tuple(sectors)


def is_open(sectors):
    return sectors[1][:8] == OPEN[:8]


def is_open_gate(gate):
    """Whether a gate of layout 3 is open: its first eight bytes are nearer to those of an open one than to zeros, by the bits that differ."""
    bits, mark = (int.from_bytes(it[:8], "big") for it in (gate, OPEN))
    return bin(bits ^ mark).count("1") < bin(bits).count("1")


def gate(word, total):
    """A gate of layout 3 that begins as this one, with the sum of the record that it names."""
    return (word[:8] + total).ljust(512, b"\0")


def bits_of(blocks):
    bits = bytearray(480)
    for b in blocks:
        bits[b // 8] |= 1 << b % 8
    return bytes(bits)


def tag_of(b, data):
    return hashlib.sha256(b.to_bytes(2, "little") + data).digest()


def exclusive(*rows):
    return bytes(functools.reduce(operator.xor, column) for column in zip(*rows))


def listed(record, blocks):
    return [b for b in range(blocks) if record[b // 8] >> b % 8 & 1]


class Store:
    """A store of blocks over a disk with an image, which is opened first."""

    def __init__(self, disk, blocks):
        self.disk, self.blocks, self.pending, self.closed = disk, blocks, set(), False
        disk.sync()
        disk.read(0)
        self.open()

    def read(self, b):
        if not self.closed:
            for half in (0, 1):
                self.disk.read(self.latest(b) + half)

    def spill(self, b, data):
        with self:
            self.put(b, data)
            self.pending.add(b)

    def put(self, b, data):
        for half in (0, 1):
            self.disk.write(self.free(b) + half, data[512 * half : 512 * half + 512])

    def discard(self):
        self.pending = set()

    def commit(self):
        if self.closed or not self.pending:
            return
        with self:
            self.save(sorted(self.pending))
            self.pending = set()

    # A fault within a spill or a save closes the store, and a closed store calls no device.
    def __enter__(self):
        if self.closed:
            raise Fault

    def __exit__(self, *fault):
        self.closed = self.closed or fault[0] is not None


class Older(Store):
    """By layout 2: an opening finishes a save."""

    def open(self):
        disk, blocks = self.disk, self.blocks
        if disk.read(1)[:8] == OPEN[:8]:
            found = disk.read(2)
            self.digest(found[:480])
            self.finish(listed(found, blocks))

    def free(self, b):
        return 3 + 2 * b

    def home(self, b):
        return 3 + 2 * self.blocks + 2 * b

    def latest(self, b):
        return self.free(b) if b in self.pending else self.home(b)

    def digest(self, bits):
        slots = [self.disk.read(self.free(b) + half) for b in listed(bits, self.blocks) for half in (0, 1)]
        return hashlib.sha256(bits + b"".join(slots)).digest()

    def finish(self, blocks):
        for b in blocks:
            for half in (0, 1):
                self.disk.write(self.home(b) + half, self.disk.read(self.free(b) + half))
        self.disk.sync()
        self.disk.write(1, CLOSED)
        self.disk.sync()

    def save(self, blocks):
        bits = bits_of(blocks)
        self.disk.write(2, bits + self.digest(bits))
        self.disk.sync()
        self.disk.write(1, OPEN)
        self.disk.sync()
        self.finish(blocks)


class Newer(Store):
    """By layout 3: an opening looks at all blocks, and writes nothing."""

    def open(self):
        self.gate = is_open_gate(self.disk.read(8))
        found = self.disk.read(16 if self.gate else 24)
        self.second, self.sum = set(listed(found, self.blocks)), found[480:]
        self.saved_sum = self.sum
        tags = []
        for b in range(self.blocks):
            first, last, tag = (self.disk.read(self.place(b, b in self.second) + i) for i in (0, 1, 2))
            tags.append(tag[:32])
            if tags[b] != tag_of(b, first + last):
                raise ValueError(f"block {b} is damaged")
        if exclusive(*tags) != self.sum:
            raise ValueError("the record is damaged")

    def place(self, b, is_second):
        return 32 + 16 * b + 8 * is_second

    def free(self, b):
        return self.place(b, b not in self.second)

    def latest(self, b):
        return self.free(b) if b in self.pending else self.place(b, b in self.second)

    def discard(self):
        super().discard()
        self.sum = self.saved_sum

    def put(self, b, data):
        old, new = self.disk.read(self.latest(b) + 2)[:32], tag_of(b, data)
        super().put(b, data)
        self.disk.write(self.free(b) + 2, new.ljust(512, b"\0"))
        self.sum = exclusive(self.sum, old, new)

    def save(self, blocks):
        second = self.second ^ set(blocks)
        self.disk.write(24 if self.gate else 16, bits_of(second) + self.sum)
        self.disk.sync()
        self.disk.write(8, gate(CLOSED if self.gate else OPEN, self.sum))
        self.disk.sync()
        self.gate, self.second, self.saved_sum = not self.gate, second, self.sum


STORES = {2: Older, 3: Newer}


class Words:
    """Block words over a store: four buffers, the one that was used last at the end."""

    def __init__(self, store):
        self.store, self.buffers, self.text = store, [], None

    def block(self, u):
        for held in self.buffers:
            if held[0] == u:
                self.buffers.remove(held)
                self.buffers.append(held)
                return held
        if self.store.closed:
            raise Fault
        self.text = None
        self.store.read(u)
        if len(self.buffers) == 4:
            if self.buffers[0][1]:
                self.store.spill(self.buffers[0][0], self.buffers[0][1])
            self.buffers.pop(0)
        # (what a block holds that wasn't changed counts nowhere)
        self.buffers.append([u, None])
        return self.buffers[-1]

    def do(self, word, u=None, byte=None):
        if word == LOOK:
            self.block(u)
        elif word == FILL:
            self.block(u)[1] = byte.encode() * 1024
        elif word == "UNDO":
            self.store.discard()
            self.buffers = []
        elif word == "TEXT":
            if u not in [held[0] for held in self.buffers] and self.text != u:
                if self.store.closed:
                    raise Fault
                self.text = None
                self.store.read(u)
                self.text = u
        else:
            self.text = None
            if self.store.closed:
                raise Fault
            for held in reversed(self.buffers):
                if held[1]:
                    self.store.spill(held[0], held[1])
            self.store.commit()
            self.buffers = [] if word == "FLUSH" else [[u, None] for u, _ in self.buffers]


def form(disk, blocks):
    good = label(blocks, disk.layout)
    disk.sync()
    if disk.read(0) == good:
        disk.write(0, CLOSED)
        disk.sync()
    if disk.layout == 2:
        for k in (1, 2):
            disk.write(k, CLOSED)
        for k in range(3 + 2 * blocks, 3 + 4 * blocks):
            disk.write(k, b" " * 512)
    else:
        tags = [tag_of(b, b" " * 1024) for b in range(blocks)]
        for b, tag in enumerate(tags):
            for i, data in ((0, b" " * 512), (1, b" " * 512), (2, tag.ljust(512, b"\0")), (10, bytes(512))):
                disk.write(32 + 16 * b + i, data)
        total = exclusive(*tags)
        for k, data in ((8, gate(CLOSED, total)), (16, bytes(512)), (24, bytes(480) + total)):
            disk.write(k, data)
    disk.sync()
    disk.write(0, good)
    disk.sync()


class Part:
    """A part of a text."""

    def __init__(self, text):
        self.title, over, rest = text.split("\n", 2)
        self.system, newer, blocks, units = re.fullmatch(r"over (.*?)( of layout 3)?, (\d+) blocks(, units of 8)?", over).groups()
        self.blocks, layout, unit = int(blocks), 3 if newer else 2, 8 if units else 1
        self.opened = STORES[layout]
        calls, _, trials = rest.partition("----\n")
        before, _, rows = calls.rpartition("--\n")
        self.rows = [row.lstrip("!") for row in rows.splitlines()]
        self.trials = [line for line in trials.splitlines() if not line.startswith("#")]
        self.runs = self.stops = self.images = 0
        self.base, self.most, self.kept = None, 0, {}
        self.start = Disk([bytes(512)] * ((3 + 4 * self.blocks) if layout == 2 else (32 + 16 * self.blocks)), layout=layout, unit=unit)
        if self.system != "zeros":
            form(self.start, self.blocks)
            store = self.opened(self.start, self.blocks)
            for row in before.splitlines():
                self.store_call(store, row.partition(" | ")[0].split())

    def store_call(self, store, words):
        if words[0] == "commit":
            store.commit()
        elif words[1] == "read":
            store.read(int(words[0]))
        else:
            text = " ".join(words[2:]).encode()
            store.spill(int(words[0]), text * 1024 if words[1] == "spill" else text.ljust(1024))

    def run(self, kind, k):
        """The disk after the calls, of which one fails."""
        disk = self.start.copy("from", 0)
        store = None if self.system in ("image", "zeros") else self.opened(disk, self.blocks)
        words = Words(store)
        disk.calls, disk.writes, disk.syncs, disk.kind, disk.k = 0, 0, 0, kind, k
        for row in self.rows:
            call = row.partition(" | ")[0]
            try:
                if store is None and call == "open":
                    self.opened(disk, self.blocks)
                elif store is None:
                    form(disk, self.blocks)
                elif self.system == "store":
                    self.store_call(store, call.split())
                elif self.system == "blocks":
                    parts = call.split()
                    words.do(*([parts[1], int(parts[0]), *parts[2:]] if parts[0].isdigit() else parts))
                else:
                    for one in LINES.get(call, []):
                        words.do(*one)
            except Fault:
                if self.system == "events":
                    words.do("UNDO")
        return disk

    def stop(self, kind, k):
        disk = self.run(kind, k)
        count = disk.stops()
        self.runs, self.stops, self.images = self.runs + 1, self.stops + count, self.images + count
        self.most = max(self.most, count)
        if kind == "from" and "recover" in self.trials:
            self.kept.update({left: None for left in disk.left() if is_open(left)})

    def recover(self):
        """Each image that a stop left is opened, stopped at each call of that, and so is each image that comes of it."""
        images = list(self.kept)
        for sectors in images:
            self.images += 1
            for k in itertools.count(1):
                disk = Disk(sectors, "from", k)
                try:
                    self.opened(disk, self.blocks)
                    is_done = True
                except Fault:
                    is_done = False
                self.runs, self.stops = self.runs + 1, self.stops + disk.stops()
                for left in disk.left():
                    if left not in self.kept:
                        self.kept[left] = None
                        images.append(left)
                if is_done:
                    break

    def follow(self, line):
        """Counts what a line asks for, and answers what it says where that isn't so."""
        word, _, rest = line.partition(" ")
        asked = re.match(r"(?P<kinds>[a-z ]*?) ?(?P<first>\d+)(\.\.(?P<last>\d+))?(,|$)", rest)
        if line == "recover":
            self.recover()
        elif word in ("stop", "tear", "fail", "well", "recover"):
            default = {"stop": "from"}.get(word, "once from")
            first, kinds = int(asked["first"]), (asked["kinds"] or default).split()
            for k, kind in itertools.product(range(first, int(asked["last"] or first) + 1), kinds):
                if word in ("stop", "tear"):
                    self.stop(kind, k)
                else:
                    count = len(self.kept) if word == "recover" else 1
                    self.runs, self.images = self.runs + count, self.images + count
        elif line == "numbered":
            self.images += 1
        elif word == "each":
            rows = [row.partition(" | ") for row in self.rows]
            lengths = {
                "each read fails": sum(len(call) + 1 for call, _, _ in rows),
                "each write fails": sum(len(reply) + 1 for _, _, reply in rows),
                "each flush fails": len(rows),
            }
            self.runs, self.images = self.runs + lengths[line] + 1, self.images + lengths[line] + 1
        else:
            counted = {"calls": lambda: self.run("from", 0).calls, "most": lambda: self.most, "images": lambda: len(self.kept)}
            if self.opened is Newer:
                # (by layout 2 some texts of block words have words that aren't counted here)
                counted["writes"] = lambda: "{0.writes}, syncs {0.syncs}".format(self.run("from", 0))
            return word in counted and line != f"{word} {counted[word]()}"
        return False

    def printed(self):
        if self.system == "broken input":
            self.runs = self.images = 2 * len(self.rows)
        else:
            # nothing fails, and before that nothing is called
            self.runs = 2
        wrong = [line for line in self.trials if self.follow(line)]
        for line in wrong:
            print(f"{self.title}: not so: {line}", file=sys.stderr)
        return f"{self.title}: runs {self.runs}, stops {self.stops}, images {self.images}, differences {len(wrong)}\n"


def text_of(path):
    with open(f"{HERE}/{path}", encoding="utf-8") as file:
        return file.read()


def printed():
    texts = [text_of(f"data/{name}") for name in text_of("args").split()]
    return "".join(Part(part).printed() for text in texts for part in text.split("==== ")[1:])


def differs():
    """Shows where the file `stdout` isn't what the program has to print, and answers whether it isn't."""
    told, wanted = text_of("stdout"), printed()
    for has, line in itertools.zip_longest(told.splitlines(), wanted.splitlines()):
        if has != line:
            print(f"stdout has: {has}\nwanted:     {line}")
    return told != wanted


def main():
    if "--check" in sys.argv[1:]:
        return int(differs())
    print(printed(), end="")
    return 0


if __name__ == "__main__":
    sys.exit(main())

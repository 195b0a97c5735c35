#!/usr/bin/env python3
"""Draws the pictures of the pages from what the repository says elsewhere: the crates from crates.txt and ARCHITECTURE's tables, the layouts and the steps of
a save from IMAGE's tables, what is proved over what from ASSURANCE's, and the times from bench/README's.

usage: docs/pictures/draw.py             draws them
       docs/pictures/draw.py --check     says which isn't as it would be drawn, and ends with status 1 where one isn't
"""
import html
import os
import re
import sys

HERE = os.path.dirname(os.path.abspath(__file__))
ROOT = os.path.dirname(os.path.dirname(HERE))
# Colours for a light page and a dark one; the classes name what a box is.
STYLE = """
text{font:13px sans-serif;fill:#1c2733}.small{font-size:11px;fill:#4a5866}.head{font-weight:bold;font-size:15px}.mono{font:12px monospace}
rect{stroke:#5a6b7b;fill:#fff}.storage{fill:#dcebfa}.language{fill:#e2f2dd}.program{fill:#fbe8cf}.old{fill:#dcebfa}.both{fill:#fbe8cf}.new{fill:#e2f2dd}
.assumed{fill:#f7dada}.sync{fill:#5a6b7b}line,path{stroke:#8796a5;fill:none}.bar{fill:#6f9bd1;stroke:none}.even{stroke-dasharray:4 3}.paper{fill:#fdfdfb;stroke:none}
@media (prefers-color-scheme:dark){text{fill:#e4e9ee}.small{fill:#aab6c2}rect{stroke:#8796a5;fill:#20262d}.storage,.old{fill:#1d3850}.language,.new{fill:#23402a}
.program,.both{fill:#4f3a1c}.assumed{fill:#552727}.sync{fill:#aab6c2}.bar{fill:#5680b5}.paper{fill:#161b20}}
"""


def text_of(name):
    with open(f"{ROOT}/{name}", encoding="utf-8") as file:
        return file.read()


def rows_below(text, heading):
    """The rows of the first table below a line, without its head."""
    lines = text[text.index(heading):].split("\n")
    first = next(at for at, it in enumerate(lines) if re.match(r"\|[-| ]+\|$", it))
    rows = []
    for line in lines[first + 1:]:
        if not line.startswith("|"):
            break
        rows.append([plain(it) for it in line.strip("|").split("|")])
    return rows


def plain(cell):
    return re.sub(r"\[([^]]*)\]\([^)]*\)", r"\1", cell).replace("`", "").replace("*", "").strip()


class Picture:
    def __init__(self, name, title, wide):
        self.name, self.title, self.wide, self.high, self.parts = name, title, wide, 0, []

    def add(self, part, bottom):
        self.parts.append(part)
        self.high = max(self.high, bottom)

    def text(self, x, y, words, kind="", anchor="start"):
        self.add(f'<text x="{x:g}" y="{y:g}" class="{kind}" text-anchor="{anchor}">{html.escape(words)}</text>', y + 6)

    def box(self, x, y, wide, high, kind):
        self.add(f'<rect x="{x:g}" y="{y:g}" width="{wide:g}" height="{high:g}" rx="3" class="{kind}"/>', y + high)

    def line(self, x, y, to_x, to_y, kind=""):
        self.add(f'<line x1="{x:g}" y1="{y:g}" x2="{to_x:g}" y2="{to_y:g}" class="{kind}"/>', max(y, to_y))

    def drawn(self):
        high = self.high + 12
        return "\n".join([f'<svg xmlns="http://www.w3.org/2000/svg" viewBox="0 0 {self.wide} {high:g}" width="{self.wide}" height="{high:g}" role="img">',
                          f"<title>{html.escape(self.title)}</title><style>{STYLE}</style>", f'<rect class="paper" width="{self.wide}" height="{high:g}"/>',
                          *self.parts, "</svg>", ""])


def crates():
    """The crates of the product, each above those that it stands on."""
    uses = {}
    for line in text_of("crates.txt").split("\n"):
        name, colon, below = line.partition("#")[0].partition(":")
        if colon:
            uses[name.split()[0]] = below.split()
    does = {row[0]: row for row in rows_below(text_of("docs/ARCHITECTURE.md"), "| Crate | Does |") if row[0] in uses}
    product = [*does]
    below = {it: {low for low in uses[it] if low in product} for it in product}
    direct = {it: {low for low in below[it] if not any(low in below[other] for other in below[it])} for it in product}
    depth = {}

    def depth_of(name):
        if name not in depth:
            depth[name] = 1 + max((depth_of(it) for it in direct[name]), default=-1)
        return depth[name]

    storage, program = below["stores"] | {"stores", "image_care", "block_words", "block_buffers"}, {"sessions", "command_line", "terminal", "hosted", "embed", "forth83"}
    # (what stands on nothing stands right below the lowest that uses it)
    for name in [it for it in product if depth_of(it) == 0]:
        depth[name] = min((depth_of(it) for it in product if name in direct[it]), default=1) - 1
    levels = [[it for it in product if depth_of(it) == level] for level in range(1 + max(map(depth_of, product)))]
    picture, wide, high, gap = Picture("crates", "The crates, each above those that it stands on", 1080), 128, 34, 62
    picture.text(20, 26, picture.title, "head")
    place = {}
    for level, names in enumerate(reversed(levels)):
        names.sort(key=lambda it: (it not in storage, it in program, it != "command_line"))
        step = (picture.wide - 40) / len(names)
        for at, name in enumerate(names):
            place[name] = 20 + step * at + (step - wide) / 2, 44 + level * gap
    for name, lows in direct.items():
        for low in sorted(lows):
            x, y = place[name]
            to_x, to_y = place[low]
            picture.line(x + wide / 2, y + high, to_x + wide / 2, to_y)
    for name, (x, y) in place.items():
        picture.box(x, y, wide, high, "storage" if name in storage else "program" if name in program else "language")
        picture.text(x + wide / 2, y + 21, name, "mono", "middle")
    bottom = picture.high + 26
    for at, (kind, words) in enumerate([("storage", "blocks on a device"), ("language", "the language"), ("program", "sessions, the program, the library for C")]):
        picture.box(20 + 210 * at, bottom - 13, 16, 16, kind)
        picture.text(42 + 210 * at, bottom, words, "small")
    return picture


def layouts():
    """The bytes of both layouts, and the steps of a save with what a stop leaves at each."""
    page = text_of("docs/IMAGE.md")
    second, third = page[:page.index("## Layout 3")], page[page.index("## Layout 3"):]
    picture = Picture("layouts", "The two layouts, and what a stop leaves at each step of a save", 1080)
    picture.text(20, 26, picture.title, "head")
    for x, name, text in ((20, "Layout 2", second), (550, "Layout 3", third)):
        y = 54
        picture.text(x, y, f"{name}: the sectors of an image of N blocks", "head")
        for sectors, what, *_ in rows_below(text, "| Sectors | What |"):
            y += 26
            picture.box(x, y - 17, 200, 24, "storage")
            picture.text(x + 100, y, sectors, "mono", "middle")
            picture.text(x + 212, y, what, "small")
    top = picture.high + 34
    for x, name, text in ((20, "A save by layout 2", second), (550, "A save by layout 3", third)):
        y = top
        picture.text(x, y, f"{name}, and what a stop leaves", "head")
        leaves = ""
        for step, calls, left in rows_below(text, "| Step | Calls |"):
            y += 30
            leaves = leaves if left == "the same" else left
            is_last = left.endswith("once it has returned, the new blocks alone")
            kind = "both" if "or all" in leaves or is_last else "new" if "new" in leaves else "old"
            picture.box(x, y - 18, 300, 26, "")
            if calls == "sync":
                picture.box(x, y - 18, 8, 26, "sync")
            picture.text(x + 14, y, f"{step.split(',')[0]}: {shortened(calls, 44)}", "small")
            picture.box(x + 306, y - 18, 200, 26, kind)
            leaving = {"old": "the old blocks", "both": "the old or all the new", "new": "all the new blocks"}[kind]
            leaving = "the same, then all the new" if is_last else leaving
            picture.text(x + 406, y, leaving, "small", "middle")
    return picture


def shortened(words, most):
    return words if len(words) <= most else words[:most].rsplit(" ", 1)[0].rstrip(",;:") + " .."


def proved():
    """What is proved over what."""
    picture = Picture("proved", "What is proved over what", 1080)
    picture.text(20, 26, picture.title, "head")
    y = 40
    for what, rests in rows_below(text_of("docs/ASSURANCE.md"), "| On top | rests on |"):
        assumed = "assumed" in rests
        picture.box(20, y, 510, 34, "assumed" if assumed else "language")
        picture.text(32, y + 22, what, "small")
        picture.line(530, y + 17, 556, y + 17)
        picture.text(562, y + 22, rests, "small")
        y += 42
    return picture


def times():
    """Times beside other systems, by the measured table."""
    page = text_of("bench/README.md")
    head = re.search(r"^\| Program \| ns a step \|(.*)\|$", page, re.M)
    systems = [it.strip() for it in head[1].split("|")]
    picture = Picture("times", "Time over that of other systems: 1 is as long, less is faster", 1080)
    picture.text(20, 26, picture.title, "head")
    picture.text(20, 46, "over the programs of bench/, most of which the machine's table was chosen by", "small")
    y, unit = 64, 120
    for name, _, *times_of in rows_below(page, head[0]):
        picture.text(20, y + 34, name, "mono")
        for at, (system, time) in enumerate(zip(systems, times_of)):
            if time:
                picture.box(210, y + 14 * at, float(time) * unit, 11, "bar")
                picture.text(202, y + 10 + 14 * at, system, "small", "end")
                picture.text(216 + float(time) * unit, y + 10 + 14 * at, time, "small")
        y += 14 * len(systems) + 12
    picture.line(210 + unit, 56, 210 + unit, y - 6, "even")
    return picture


def main():
    if sys.argv[1:] not in ([], ["--check"]):
        print(__doc__, end="", file=sys.stderr)
        return 2
    differs = False
    for picture in (crates(), layouts(), proved(), times()):
        path = f"{HERE}/{picture.name}.svg"
        if not sys.argv[1:]:
            with open(path, "w", encoding="utf-8") as file:
                file.write(picture.drawn())
        elif not os.path.isfile(path) or text_of(f"docs/pictures/{picture.name}.svg") != picture.drawn():
            differs = True
            print(f"docs/pictures/{picture.name}.svg isn't as docs/pictures/draw.py draws it")
    return differs


if __name__ == "__main__":
    sys.exit(main())

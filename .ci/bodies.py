"""Reads the functions of a crate, and its wrong bodies: edits that keep the shape of a function and turn its meaning. docs/CONTRIBUTING.md, "Each clause has a
wrong body", says how one is written."""
import copy
import os
import re

from crates import ROOT, text_of

# (in must-fail/ they are FILE.edits.md: what has another name `rt ci` takes for edits of its own form)
FOLDERS = ("must-fail", "wrong")
HEAD = re.compile(r'( *)(pub(?:\([^)]*\))? )?(?:const )?(?:unsafe )?(?:extern "C" )?fn (\w+)')
ENSURES = re.compile(r"^ *ensures\b(?: (\w+))? \{", re.M)
TYPED = re.compile(r"impl(<[^{]*?>)? (?:(\w+)(?:<([^{]*?)>)? for )?(\w+)")
ENTRY = re.compile(r"^(\w+)\n", re.M)
ONE_WORD, WORDS = {"in": "of", "why": "why", "for": "shows"}, {"at": "at", "only": "only", "law": "laws", "without": "without"}


class Unreadable(Exception):
    """Why a wrong body can't be tried."""


# ---- functions


class Function:
    """A function of a source file: its lines from `first`, or with its attributes from `top`, to `last`; that on which its body begins, or `None` for a signature
    of a trait; the names of its clauses, `None` for one without a name; and its path, as a check names it."""

    def __init__(self, file, lines, at, block, types):
        head = HEAD.match(lines[at])
        self.file, self.indent, self.is_public, self.name = file, head[1], head[2] == "pub ", head[3]
        self.first, self.top, self.block = at, at, block if head[1] else ""
        while lines[self.top - 1].startswith(f"{self.indent}#["):
            self.top -= 1
        self.body, self.last = self.extent(lines)
        self.is_law = self.body is not None and lines[self.body].endswith("{}")
        self.in_trait = self.block.startswith("trait") or " for " in self.block
        self.contract = "\n".join(lines[at : (self.last if self.body is None else self.body) + 1])
        self.clauses = [it or None for it in ENSURES.findall(self.contract)]
        self.path = [*self.owner(types), self.name]

    def extent(self, lines):
        """The line on which its body begins, and its last one."""
        at = self.first
        while not lines[at].endswith(";"):
            if lines[at] in (f"{self.indent}{{", f"{self.indent}{{}}") or re.match(rf"{self.indent}(\)|\w).*(\{{|\{{\}})$", lines[at]):
                return at, at if lines[at].endswith("{}") else lines.index(f"{self.indent}}}", at)
            at += 1
        return None, at

    def owner(self, types):
        """The module and the type, as a check names them: the impl of a trait by the type, the trait, and the types that the trait is given."""
        typed = TYPED.match(self.block)
        if not typed:
            return module_of(self.file)
        parameters = re.findall(r"(?:^<|, )(?:const )?'?(\w+)", typed[1] or "")
        words = re.sub(r"\[(\w+)\]", r"Slice \1", re.sub(r"&('\w+ )?", "Ref ", typed[3] or ""))
        given = [it[0].upper() + it[1:] for it in re.findall(r"\w+", words) if it not in parameters]
        declared = types.get(typed[4], [self.file])
        return [*module_of(self.file if typed[2] or self.file in declared else declared[0]), "".join([typed[4], typed[2] or "", *given])]


def module_of(file):
    module = file.removeprefix("src/").removesuffix(".rt").removesuffix("/mod")
    return [] if module in ("lib", "main") else module.split("/")


def functions(file, text, types):
    """The functions of a source file, in their order."""
    lines, found, block = text.split("\n"), [], ""
    for at, line in enumerate(lines):
        if re.match(r"(pub )?(impl|trait)\b", line):
            # (a head with many bounds stands in several lines)
            last = next((it for it in range(at, len(lines)) if lines[it].endswith(("{", "}"))), at)
            block = " ".join(it.strip() for it in lines[at : last + 1]).removeprefix("pub ").replace("< ", "<").replace(", > ", "> ")
        if HEAD.match(line):
            found.append(Function(file, lines, at, block, types))
    return found


class Source:
    """The texts of a crate, by their files, and its functions."""

    def __init__(self, top):
        found = [f"{at}/{it}" for part in ("src", "specs", "proofs") for at, _, files in os.walk(f"{top}/{part}") for it in files]
        self.texts, self.types = {os.path.relpath(it, top): text_of(it) for it in sorted(found)}, {}
        for file in self.code():
            for name in re.findall(r"^(?:pub(?:\([^)]*\))? )?(?:struct|enum) (\w+)", self.texts[file], re.M):
                self.types.setdefault(name, []).append(file)
        self.functions = [it for file in self.code() for it in functions(file, self.texts[file], self.types)]

    def code(self):
        return [it for it in self.texts if it.startswith("src/")]

    def function(self, file, name):
        """The function of a file by its name, or by its type's and its own."""
        owner, _, own = name.rpartition("::")
        found = [it for it in self.functions if it.file == file and it.body is not None and it.name == own]
        found = [it for it in found if not owner or it.path[-2:-1] and re.match(rf"{owner}\w*$", it.path[-2])]
        if len(found) != 1:
            raise Unreadable(f"{len(found)} functions of {file} are named {name}")
        return found[0]

    def moved(self, function, text):
        """The function, as it stands in a changed text of its file."""
        return next(it for it in functions(function.file, text, self.types) if it.path == function.path)


# ---- wrong bodies


class Body:
    """A wrong body, or a weakened definition, and its control. Both are triples of a file, an old text and a new one."""

    def __init__(self, crate, file, name):
        self.crate, self.file, self.name, self.of, self.why, self.shows = crate, file, name, None, "", ""
        self.at, self.only, self.laws, self.without, self.pairs, self.control = [], [], [], [], [], []
        # what it is one clause of
        self.whole = self

    def by_clause(self):
        """The same for each clause that it names; a control is asked for all at once."""
        if len(self.at) < 2 or not self.of:
            return [self]
        found = [copy.copy(self) for _ in self.at]
        for one, goal in zip(found, self.at):
            one.name, one.at = f"{self.name}_at_{goal.replace('-', '_')}", [goal]
        return found

    def changed(self, source, is_control=False, texts=None):
        """The texts of a crate, as they are once it is applied to them."""
        then = {**(texts or source.texts)}
        for file, old, new in self.control if is_control else self.pairs:
            # (an earlier change may have moved it)
            within = source.moved(source.function(file, self.of), then[file]) if self.of and file == self.file else None
            then[file] = replaced(then.get(file, ""), old, new, within)
        return then


def replaced(text, old, new, within):
    """A text with the new lines in the place of the old ones, or a part of one line in the place of another."""
    lines, bare = text.split("\n"), [it.strip() for it in old]
    first, last = (within.first, within.last + 1) if within else (0, len(lines))
    places = [at for at in range(first, last - len(old) + 1) if [it.strip() for it in lines[at : at + len(old)]] == bare]
    if len(places) == 1:
        at, = places
        indent = lines[at][: len(lines[at]) - len(lines[at].lstrip())]
        own = min((len(it) - len(it.lstrip()) for it in new if it.strip()), default=0)
        return "\n".join([*lines[:at], *[indent + it[own:] for it in new], *lines[at + len(old) :]])
    parts = [at for at in range(first, last) if old[0] in lines[at]] if len(old) == 1 and not places else []
    if len(parts) != 1 or lines[parts[0]].count(old[0]) != 1:
        raise Unreadable(f"an old text stands {len(places) or len(parts)} times and not once: {bare[0]}")
    lines[parts[0]] = lines[parts[0]].replace(old[0], " ".join(it.strip() for it in new))
    return "\n".join(lines)


def bodies_of(crate):
    """All wrong bodies of a crate, by its name."""
    found = []
    for folder in (f"{ROOT}/crates/{crate}/{it}" for it in FOLDERS):
        for at, _, files in sorted(os.walk(folder)):
            for it in sorted(files):
                inside, is_read, rest = os.path.relpath(f"{at}/{it}", folder).removesuffix(".md").rpartition(".edits")
                if not is_read or rest:
                    raise Unreadable(f"{at}/{it} is no file of wrong bodies")
                found += read(crate, f"{inside}.antt" if inside.startswith("specs/") else f"src/{inside}.rt", text_of(f"{at}/{it}"))
    return found


def read(crate, file, text):
    """The wrong bodies of one file."""
    before, *parts = ENTRY.split(re.sub(r"^#.*\n", "", text, flags=re.M))
    if before.strip():
        raise Unreadable(f"crates/{crate}, of {file}: no name of an entry stands before `{before.strip().splitlines()[0]}`")
    return [entry(Body(crate, file, name), lines.split("\n")) for name, lines in zip(parts[::2], parts[1::2])]


def entry(body, lines):
    """A body with what its lines say of it."""
    cut = lines.index("  control") if "  control" in lines else len(lines)
    for line in lines:
        word, _, rest = line.strip().partition(": ")
        if word in ONE_WORD:
            setattr(body, ONE_WORD[word], rest)
        elif word in WORDS:
            getattr(body, WORDS[word]).extend(rest.split())
        elif line.strip() and not re.match(r"[-+]( |$)|  control$|  file: ", line):
            raise Unreadable(f"{body.crate}/{body.name}: what is `{line}`?")
    body.pairs = pairs_of(body.file, lines[:cut], [])
    body.control = pairs_of(body.file, lines[cut:], body.pairs)
    return body


def pairs_of(file, lines, before):
    """The triples that these lines say; a new text alone takes the place of the first old one of its file before."""
    pairs, is_new = [], True
    for line in lines:
        if line.startswith("  file: "):
            file, is_new = line[8:].strip(), True
        elif re.match(r"[-+]( |$)", line):
            if is_new or line[0] == "-" and pairs[-1][2]:
                pairs.append((file, [], []))
            pairs[-1][1 if line[0] == "-" else 2].append(line[2:])
            is_new = False
    olds = {it[0]: it[1] for it in reversed(before)}
    return [(file, old or olds.get(file) or [""], new) for file, old, new in pairs]

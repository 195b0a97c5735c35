#!/usr/bin/env python3
"""Writes what lists the system's words, by the rows of their definition: the names for an editor, Vim's keywords, the order of the tokens on the page of the
language, and the text that asks for each word's token and mark.

    crates/test_transcripts/words.py             writes them
    crates/test_transcripts/words.py --check     says which isn't as it would be written, and which word has no row on that page; ends with status 1 for one
"""
import os
import re
import sys
import textwrap

ROOT = os.path.dirname(os.path.dirname(os.path.dirname(os.path.abspath(__file__))))
ROWS, PAGE = "crates/system_words/specs/Rows.antt", "docs/LANGUAGE.md"
# How the page marks a word.
MARKS = {"Plain": "", "Immediate": " I", "CompileOnly": " C", "ImmediateOnly": " I C"}
# What Vim finds by a pattern, since it is no keyword to it, or since a text follows.
MATCHED = {"[", "]", "[']", "[COMPILE]", "(", ".(", '."', 'ABORT"'}


def text(name):
    with open(f"{ROOT}/{name}", encoding="utf-8") as it:
        return it.read()


def words():
    """Each word with its mark on the page, in the order of the tokens."""
    rows = re.findall(r'^ *row_of \(codes "((?:[^"\\]|\\.)+)"\) (\w+) ', text(ROWS), re.M)
    return {name.replace('\\"', '"'): MARKS[mark] for name, mark in rows}


def filled(names, width):
    return textwrap.fill(" ".join(names), width, break_long_words=False, break_on_hyphens=False)


def asked(marks):
    """A session that asks for the token of each word, and whether it is immediate, and for the first token of a program; and each compile-only word."""
    lines = ["# The system words: a token, and 1 where the word is immediate, else -1."]
    for token, (name, mark) in enumerate(marks.items(), 1):
        lines += [f"> ' {name} . 32 WORD {name} FIND . .", f"{token} {1 if 'I' in mark else -1} {token}  ok"]
    lines += ["> : FIRST ; ' FIRST .", f"{len(marks) + 1}  ok", "# Those that only compile."]
    for name in (it for it, mark in marks.items() if "C" in mark):
        lines += [f"> {name}", " ? COMPILE ONLY"]
    return "".join(f"{it}\n" for it in lines)


def keywords(vim, names):
    """Vim's file with the words that it tells apart by no other group, twelve a line."""
    others = {*" ".join(re.findall(r"^syntax keyword forth83(?!Word)\w+ (.*)", vim, re.M)).split(), *MATCHED}
    left = [it for it in names if it not in others]
    lines = "".join(f"syntax keyword forth83Word {' '.join(left[at : at + 12])}\n" for at in range(0, len(left), 12))
    return re.sub(r"(^syntax keyword forth83Word .*\n)+", lambda _: lines, vim, flags=re.M)


def ordered(page, names):
    """The page with the order of the tokens, in the block that begins with the first word."""
    return re.sub(r"^```\n! .*?\n```$", lambda _: f"```\n{filled(names, 137)}\n```", page, flags=re.M | re.S)


def written(marks):
    """What each file that lists the words has to hold."""
    vim = "share/vim/syntax/forth83.vim"
    return {
        "library/names.scr": f"{filled(marks, 62)}\n",
        "crates/test_transcripts/data/words/names.txt": asked(marks),
        vim: keywords(text(vim), marks),
        PAGE: ordered(text(PAGE), marks),
    }


def without_row(marks):
    """The words that have no row with their mark in the page's tables."""
    tables = re.search(r"^## All words$(.*?)^## ", text(PAGE), re.M | re.S)[1]
    rows = dict(re.findall(r"^\| (?:\d+ \| )?`(\S+)`((?: I)?(?: C)?) ", tables, re.M))
    return sorted({*marks.items()} ^ {*rows.items()})


def main():
    marks = words()
    told = [f"{PAGE}: `{name}`{mark} stands in the tables or in {ROWS}, and not in both" for name, mark in without_row(marks)]
    for name, wanted in written(marks).items():
        if text(name) == wanted:
            continue
        if sys.argv[1:] == ["--check"]:
            told.append(f"{name} isn't as crates/test_transcripts/words.py writes it")
        else:
            with open(f"{ROOT}/{name}", "w", encoding="utf-8") as it:
                it.write(wanted)
    print("".join(f"{it}\n" for it in told), end="")
    return 1 if told else 0


if __name__ == "__main__":
    sys.exit(main())

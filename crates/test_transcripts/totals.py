#!/usr/bin/env python3
"""Says what the program has to print: how many sessions, commands, examples, lines and rows stand in each text and page that it follows, with no difference.

    crates/test_transcripts/totals.py             writes it into the files `stdout` and `pages/stdout`
    crates/test_transcripts/totals.py --check     says where they differ from it, and ends with status 1 where they do
"""
import os
import re
import sys

HERE = os.path.dirname(os.path.abspath(__file__))
ROOT = os.path.dirname(os.path.dirname(HERE))


def text(path):
    with open(path, encoding="utf-8") as it:
        return it.read()


def of_sessions(told):
    """What a text of sessions comes to: a row is run with its steps, and once more for each further number."""
    played = [re.sub(r"^([+#|@] ?.*)?\n", "", it, flags=re.M) for it in re.split(r"^(?:----|====)\n", told, flags=re.M)]
    numbers = [it.split() for it in re.findall(r"^\+ (.*?) \| ", told, re.M)]
    lines = len(re.findall(r"^> ", told, re.M))
    return f"sessions {sum(map(bool, played))}, lines {lines}, rows {len(numbers)}, runs {sum(map(len, numbers))}"


def of_page(told):
    """What a page comes to: the lines are those that its sessions, commands and examples have to print."""
    parts = told.split("```")
    blocks = [it.partition("\n")[::2] for it in parts[1::2]]
    shown = [it for kind, block in blocks if kind in ("forth", "forth more") for it in block.splitlines()]
    typed = [it for kind, block in blocks if kind == "console" for it in block.splitlines()]
    commands = sum(it.startswith("$ ") for it in typed)
    examples = [it.rpartition(" | ")[2].partition(" → ")[2] for part in parts[::2] for it in part.splitlines() if re.search(r" \| [^|]* → .* \|$", it)]
    kinds = [kind for kind, _ in blocks]
    lines = len(shown) + len(typed) - commands + sum(1 + it.count(" ⏎ ") for it in examples)
    return (
        f"sessions {kinds.count('forth')}, commands {commands}, examples {len(examples)}, lines {lines}, "
        f"by hand {kinds.count('console by-hand')}"
    )


def printed(args, folder):
    names = text(f"{HERE}/{args}").split()
    told = {name: text(f"{folder}/{name}") for name in names}
    return [f"{name}: {(of_page if name.endswith('.md') else of_sessions)(it)}, differences 0" for name, it in told.items()]


def main():
    differs = False
    for args, stdout, folder in (("args", "stdout", f"{HERE}/data"), ("pages/args", "pages/stdout", ROOT)):
        wanted, has = printed(args, folder), text(f"{HERE}/{stdout}").splitlines()
        if sys.argv[1:] != ["--check"]:
            with open(f"{HERE}/{stdout}", "w", encoding="utf-8") as it:
                it.write("".join(f"{line}\n" for line in wanted))
        elif wanted != has:
            differs = True
            print("".join(f"{stdout} has {it}\n" for it in has if it not in wanted) + "".join(f"wanted: {it}\n" for it in wanted if it not in has), end="")
    return differs


if __name__ == "__main__":
    sys.exit(main())

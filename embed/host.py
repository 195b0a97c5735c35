#!/usr/bin/env python3
"""Runs a Forth session, and answers what its words ask by host.scr: the time, a delay, and a lamp, which is a text here.

    host.py COMMAND .. < LINES          the command is a session on its standard input and output, as `forth83 run IMAGE`

The reply to a line ends in ` ok` or in a fault: so a definition stands in one line, and no line runs `QUIT`, `ABORT` or `ABORT"`, whose reply has no such end.
It ends in the session's own status.
"""
import re
import subprocess
import sys
import time

MARK = b"\x01"
ANSWERED = rb"( ok| \? [A-Z ]+)\n\Z"


def answer(letter, number):
    """The number that answers a request."""
    if letter == "T":
        return int(time.monotonic() * 1000) % 65536
    if letter == "W":
        time.sleep(number / 1000)
    if letter == "L":
        print("(lamp on)" if number else "(lamp off)", flush=True)
    return 0


def until(stream, end):
    """The bytes before the one that ends them."""
    return b"".join(iter(lambda: stream.read(1), end))


def reply(session):
    """Shows the reply to a line, and answers what is asked in it."""
    shown = b""
    while not re.search(ANSWERED, shown):
        byte = session.stdout.read(1)
        if not byte:
            sys.exit("the session has ended")
        if byte == MARK:
            asked = until(session.stdout, b" ").decode()
            session.stdin.write(b"%d\n" % answer(asked[0], int(asked[1:])))
        else:
            shown += byte
            sys.stdout.write(byte.decode("latin-1"))


def main():
    with subprocess.Popen(sys.argv[1:], stdin=subprocess.PIPE, stdout=subprocess.PIPE, bufsize=0) as session:
        for line in sys.stdin.buffer:
            session.stdin.write(line.rstrip(b"\n") + b"\n")
            reply(session)
        session.stdin.close()
        sys.exit(session.wait())


main()

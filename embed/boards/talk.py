#!/usr/bin/env python3
"""Types lines into a console, each once the one before is answered, and prints what the console shows. It ends with status 1 where an answer doesn't come.

    talk.py COMMAND .. < LINES          the command's standard input and output are the console
"""
import os
import re
import select
import subprocess
import sys
import time

SECONDS = 60
READY, ANSWERED = rb"^forth\r?\n", rb"( ok| \? [A-Z ]+)\r?\n"


class Console:
    def __init__(self, words):
        self.process = subprocess.Popen(words, stdin=subprocess.PIPE, stdout=subprocess.PIPE, bufsize=0)
        self.shown = b""

    def wait_for(self, pattern):
        """What is shown until the pattern ends it."""
        end = time.monotonic() + SECONDS
        while not re.search(pattern + rb"\Z", self.shown):
            if not select.select([self.process.stdout], [], [], max(0, end - time.monotonic()))[0]:
                break
            piece = os.read(self.process.stdout.fileno(), 65536)
            if not piece:
                break
            self.shown += piece
        else:
            shown, self.shown = self.shown, b""
            return shown
        sys.stdout.buffer.write(self.shown)
        sys.exit("no answer came")

    def type(self, line):
        self.process.stdin.write(line.encode() + b"\r")


def main():
    console = Console(sys.argv[1:])
    try:
        console.wait_for(READY)
        for line in sys.stdin:
            console.type(line.rstrip("\n"))
            sys.stdout.write(console.wait_for(ANSWERED).decode().replace("\r", ""))
    finally:
        console.process.kill()
        console.process.wait()


main()

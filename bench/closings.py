#!/usr/bin/env python3
"""Times closings: a program is given inserts, whose replies are read, and then `reopen`. A second run keeps the least times.

usage: closings.py TIMES REPLIES LINES FIRST COUNT.. -- PROGRAM WORD..
    COUNT is `INSERTS:CLOSINGS`: so many closings, each after so many of the inserts in LINES, of which the first FIRST are
    left out. TIMES gets a line for each: the milliseconds of a closing from when `reopen` is written until its reply is
    read, those of processor time, and both for the inserts with their closing, or those that are there already where
    they are fewer. REPLIES gets what the table answers at the end. A closing before the first one is not counted.
"""
import itertools
import math
import os
import subprocess
import sys
import time

from phases import clock_of

PIECE = 1000  # lines, whose replies have room in a pipe
ASKED = ["window a 0 0 20000 20000", "nearest a 10 500000 500000"]


class Program:
    def __init__(self, words):
        self.process = subprocess.Popen(words, stdin=subprocess.PIPE, stdout=subprocess.PIPE)
        self.clock = clock_of(self.process)
        self.send(["create a 2 100"])  # which is there, but a peer has to be told
        self.process.stdout.readline()

    def send(self, lines):
        self.process.stdin.writelines(line.encode() + b"\n" for line in lines)
        self.process.stdin.flush()

    def change(self, lines):
        """Has all lines answered, by `ok`."""
        for at in range(0, len(lines), PIECE):
            piece = lines[at : at + PIECE]
            self.send(piece)
            for line in piece:
                if self.process.stdout.readline() != b"ok\n":
                    sys.exit(f"closings.py: {line} was refused")

    def now(self):
        return time.perf_counter(), time.clock_gettime(self.clock)

    def close_after(self, lines):
        """The milliseconds of the closing after these changes, and those of the changes with it, each also as processor time."""
        begun = self.now()
        self.change(lines)
        changed = self.now()
        self.change(["reopen"])
        ended = self.now()
        return [1000 * (b - a) for first in (changed, begun) for a, b in zip(first, ended)]

    def end(self):
        """What the table answers at last."""
        self.send(ASKED)
        replies = self.process.communicate()[0]
        if self.process.returncode != 0:
            sys.exit(f"closings.py: it ended with status {self.process.returncode}")
        return replies


def measure(program, lines, inserts, closings):
    """The mean of so many closings, each after so many of the lines."""
    times = []
    for _ in range(closings):
        times.append(program.close_after(list(itertools.islice(lines, inserts))))
    return [sum(column) / max(closings, 1) for column in zip(*times)] or [0.0] * 4


def main():
    split = sys.argv.index("--")
    times, replies, path, first, *counts = sys.argv[1:split]
    with open(path) as file:
        lines = iter(file.read().splitlines()[int(first) :])
    program = Program(sys.argv[split + 1 :])
    measure(program, lines, 1, 1)
    measured = [measure(program, lines, *map(int, count.split(":"))) for count in counts]
    with open(replies, "wb") as file:
        file.write(program.end())
    before = [[math.inf] * 4] * len(measured)
    if os.path.exists(times):
        with open(times) as file:
            before = [[float(word) for word in line.split()] for line in file]
    with open(times, "w") as file:
        for now, earlier in zip(measured, before):
            print(*map(min, now, earlier), sep="\t", file=file)


main()

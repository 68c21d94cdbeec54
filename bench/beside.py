#!/usr/bin/env python3
"""Measures closings beside readers, and readers beside a writer, of the program and of SQLite's R*Tree with WAL.

    bench/beside.py            a million boxes
    bench/beside.py BOXES

A writer inserts so many boxes and closes, again and again, beside 0, 1 and 8 runs that only read and ask for windows
all the time: a closing of the program is its `reopen`, from when that is written into a pipe until its reply is read;
one of SQLite (python's sqlite3; rtree_i32, synchronous=FULL, WAL) is its COMMIT. Printed are the milliseconds of a
closing, the median of the rounds, and how many windows a second one of the readers was answered beside the writer and
before it wrote. The files are in TMPDIR. The program is the one that ./rstore makes.
"""
import os
import random
import sqlite3
import statistics
import subprocess
import sys
import tempfile
import time
from multiprocessing import Event, Process, Value

TOP = os.path.dirname(os.path.dirname(os.path.abspath(__file__)))
PROGRAM = os.path.join(TOP, "crates", "rstore", "out", "rstore")
PAGES = 4096
ROUNDS = {1: 40, 100: 20, 10_000: 3}
SIDE = 1_000_000_000


def box(dice):
    x, y = dice.randrange(SIDE), dice.randrange(SIDE)
    return x, y, x + dice.randrange(20_000), y + dice.randrange(20_000)


def window(dice):
    x, y = dice.randrange(SIDE), dice.randrange(SIDE)
    return x, y, x + 3_000_000, y + 3_000_000


class Ours:
    """The program over a file."""

    def __init__(self, file, *words):
        self.run = subprocess.Popen(
            [PROGRAM, "--cache", str(PAGES), *words, file], stdin=subprocess.PIPE, stdout=subprocess.PIPE
        )

    @staticmethod
    def make(file, boxes):
        text = "create a 2 100\n" + f"load a {len(boxes)}\n"
        text += "".join(f"{k} {' '.join(map(str, it))}\n" for k, it in enumerate(boxes))
        subprocess.run([PROGRAM, "--create", file], input=text.encode(), stdout=subprocess.DEVNULL, check=True)

    def ask(self, text):
        self.run.stdin.write(text.encode())
        self.run.stdin.flush()
        return self.run.stdout.readline()

    def insert(self, ident, it):
        self.ask(f"insert a {ident} {' '.join(map(str, it))}\n")

    def close(self):
        self.ask("reopen\n")

    def count(self, it):
        rows = int(self.ask(f"window a {' '.join(map(str, it))}\n")[3:])
        for _ in range(rows):
            self.run.stdout.readline()

    def end(self):
        self.run.stdin.close()
        self.run.wait()


class Sqlite:
    """SQLite's R*Tree in a file."""

    def __init__(self, file, *words):
        self.db = sqlite3.connect(file, isolation_level=None)
        self.db.execute(f"PRAGMA cache_size={PAGES}")
        if not words:
            self.db.execute("PRAGMA journal_mode=WAL")
            self.db.execute("PRAGMA synchronous=FULL")
            self.db.execute("BEGIN")

    @staticmethod
    def make(file, boxes):
        db = sqlite3.connect(file)
        db.execute("CREATE VIRTUAL TABLE a USING rtree_i32(id, x1, x2, y1, y2)")
        rows = ((k, it[0], it[2], it[1], it[3]) for k, it in enumerate(boxes))
        db.executemany("INSERT INTO a VALUES (?, ?, ?, ?, ?)", rows)
        db.commit()
        db.close()

    def insert(self, ident, it):
        self.db.execute("INSERT INTO a VALUES (?, ?, ?, ?, ?)", (ident, it[0], it[2], it[1], it[3]))

    def close(self):
        self.db.execute("COMMIT")
        self.db.execute("BEGIN")

    def count(self, it):
        asked = "SELECT id, x1, x2, y1, y2 FROM a WHERE x2 >= ? AND x1 <= ? AND y2 >= ? AND y1 <= ?"
        self.db.execute(asked, (it[0], it[2], it[1], it[3])).fetchall()

    def end(self):
        self.db.close()


def read(kind, file, begun, ended, asked, seed):
    """Asks for windows until it is told to end."""
    dice, reader, count = random.Random(seed), kind(file, "--read-only"), 0
    begun.set()
    while not ended.is_set():
        reader.count(window(dice))
        count += 1
        asked.value = count
    reader.end()


def beside(kind, file, readers, first, dice):
    """The milliseconds of a closing behind so many inserts, and the windows a second of a reader before and beside."""
    ended, asked, runs = Event(), [Value("q", 0) for _ in range(readers)], []
    for k in range(readers):
        begun = Event()
        runs.append(Process(target=read, args=[kind, file, begun, ended, asked[k], k]))
        runs[-1].start()
        begun.wait()
    before = rate(asked)
    writer, closings, ident = kind(file), {}, first
    begin, so_far = time.time(), sum(it.value for it in asked)
    for inserts, rounds in ROUNDS.items():
        taken = []
        for _ in range(rounds):
            for _ in range(inserts):
                writer.insert(ident, box(dice))
                ident += 1
            start = time.perf_counter()
            writer.close()
            taken.append(time.perf_counter() - start)
        closings[inserts] = 1000 * statistics.median(taken)
    while_writing = (sum(it.value for it in asked) - so_far) / (time.time() - begin)
    ended.set()
    for run in runs:
        run.join()
    writer.end()
    return closings, before, while_writing / max(readers, 1), ident


def rate(asked):
    """How many windows a second a reader is answered where nobody writes."""
    so_far = sum(it.value for it in asked)
    time.sleep(3 if asked else 0)
    return (sum(it.value for it in asked) - so_far) / 3 / max(len(asked), 1)


def main():
    count = int(sys.argv[1]) if len(sys.argv) > 1 else 1_000_000
    dice = random.Random(5)
    boxes = [box(dice) for _ in range(count)]
    print(f"{count} boxes, milliseconds of a closing behind so many inserts, and windows a second of one reader\n")
    print("| | readers |", " | ".join(str(it) for it in ROUNDS), "| windows alone | beside the writer |")
    print("|---|---|", "---|" * len(ROUNDS), "---|---|", sep="")
    with tempfile.TemporaryDirectory() as folder:
        for name, kind in (("rstore", Ours), ("SQLite, WAL", Sqlite)):
            file, first = os.path.join(folder, name.split(",")[0]), count
            kind.make(file, boxes)
            kind(file).end()
            for readers in (0, 1, 8):
                closings, before, then, first = beside(kind, file, readers, first, dice)
                told = " | ".join(f"{it:.2f}" for it in closings.values())
                print(f"| {name} | {readers} | {told} | {before:.0f} | {then:.0f} |", flush=True)


main()

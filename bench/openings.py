#!/usr/bin/env python3
"""Measures how long a file opens whose journal has a log of 4000 blocks, which a killed run left beside a reader.

    PYTHONPATH=library/lib bench/openings.py            200,000 boxes
    PYTHONPATH=library/lib bench/openings.py BOXES

For a writer, which writes the log anew, and for a reader: the least of five openings over the same two files, in
milliseconds of the clock and of the processor, and how many blocks the journal has then. The files are in TMPDIR.
"""
import os
import random
import sys
import tempfile
import time

import rstore

BOXES = int(sys.argv[1]) if len(sys.argv) > 1 else 200_000
LOG, ROUNDS, SIDE, BLOCK = 4000, 5, 1_000_000, 4096
dice = random.Random(3)


def box():
    x, y = dice.randrange(SIDE), dice.randrange(SIDE)
    return x, y, x + 5, y + 5


def in_a_child(work):
    """Does that in a process that is gone afterwards, as a kill leaves its files."""
    pid = os.fork()
    if pid == 0:
        try:
            work()
        finally:
            os._exit(0)
    os.waitpid(pid, 0)


def grow(path):
    """Commits beside a reader until the log is so long."""
    db, _reader, ident = rstore.open(path), rstore.open(path, read_only=True), BOXES
    while os.path.getsize(path + "-journal") < LOG * BLOCK:
        for _ in range(20):
            db["a"].insert(ident, box())
            ident += 1
        db.commit()


def opened(path, reads, told):
    """Tells how long it takes to open the file."""
    wall, processor = time.perf_counter(), time.process_time()
    _db = rstore.open(path, read_only=reads)
    took = time.perf_counter() - wall, time.process_time() - processor
    os.write(told, f"{took[0]} {took[1]} {os.path.getsize(path + '-journal') // BLOCK}\n".encode())


def main():
    with tempfile.TemporaryDirectory() as folder:
        path = os.path.join(folder, "map")
        with rstore.open(path, create=True) as db:
            db.create_layer("a").load([(k, box()) for k in range(BOXES)])
        in_a_child(lambda: grow(path))
        names = [path, path + "-journal"]
        found = [open(name, "rb").read() for name in names]
        print(f"a log of {len(found[1]) // BLOCK} blocks beside {BOXES} boxes")
        for reads in (False, True):
            rows = []
            for _ in range(ROUNDS):
                for name, data in zip(names, found):
                    with open(name, "wb") as file:
                        file.write(data)
                os.sync()
                told, tells = os.pipe()
                in_a_child(lambda: opened(path, reads, tells))
                rows.append([float(word) for word in os.read(told, 100).split()])
            wall, processor, blocks = (min(column) for column in zip(*rows))
            who = "reader" if reads else "writer"
            print(f"{who}: {1000 * wall:.1f} ms, {1000 * processor:.1f} of the processor; the journal has {blocks:.0f} blocks")


if __name__ == "__main__":
    main()

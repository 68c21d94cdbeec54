#!/usr/bin/env python3
"""rollback.py [OBJECTS [ROUNDS]]: what it costs to give changes up, of a store with so many uniform boxes in a file
(1,000,000), which holds 4096 pages: milliseconds by the clock, the least of ROUNDS (7), after 1, 100 and 10,000 objects
were moved, of a rollback, and of a hundred windows of some ten rows behind it, for which pages are read again; beside
those of a closing and an opening, which keep the changes. RSTORE_LIBRARY names librstore.so, or library/lib has it."""

from __future__ import annotations

import os
import random
import sys
import tempfile
import time
from pathlib import Path
from typing import Callable

top = Path(__file__).resolve().parent.parent
sys.path.insert(0, str(top / "library"))
os.environ.setdefault("RSTORE_LIBRARY", str(top / "library" / "lib" / "librstore.so"))

import rstore

SIDE = 1_000_000


def box(dice: random.Random, width: int) -> "tuple[int, int, int, int]":
    x, y = dice.randrange(SIDE), dice.randrange(SIDE)
    return x, y, x + width, y + width


def main() -> None:
    objects = int(sys.argv[1]) if len(sys.argv) > 1 else 1_000_000
    rounds = int(sys.argv[2]) if len(sys.argv) > 2 else 7
    dice = random.Random(7)
    width = int(SIDE * (10 / objects) ** 0.5)
    windows = [box(dice, width) for _ in range(100)]

    def timed(call: Callable[[], object]) -> float:
        begun = time.perf_counter()
        call()
        return 1000 * (time.perf_counter() - begun)

    def ask() -> None:
        for window in windows:
            layer.window_ids(window)

    with tempfile.TemporaryDirectory() as folder:
        path = os.path.join(folder, "store")
        db = rstore.open(path, create=True, cache=4096)
        layer = db.create_layer("a")
        layer.load((k, box(dice, 500)) for k in range(objects))
        db.commit()
        print(f"{objects} objects, {os.path.getsize(path) >> 20} MB: milliseconds, the least of {rounds}")
        for changes in (1, 100, 10_000):
            took: "dict[str, list[float]]" = {"rollback": [], "windows": [], "close and open": [], "windows then": []}
            for _ in range(rounds):
                for end in ("rollback", "close and open"):
                    ask()
                    for id in dice.sample(range(objects), changes):
                        layer.move(id, box(dice, 500))
                    if end == "rollback":
                        took[end].append(timed(db.rollback))
                        took["windows"].append(timed(ask))
                    else:
                        begun = time.perf_counter()
                        db.close()
                        db = rstore.open(path, cache=4096)
                        took[end].append(1000 * (time.perf_counter() - begun))
                        layer = db["a"]
                        took["windows then"].append(timed(ask))
            print(f"  {changes:6} changed: " + ", ".join(f"{name} {min(times):.2f}" for name, times in took.items()))
        db.close()


if __name__ == "__main__":
    main()

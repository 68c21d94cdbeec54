"""test_rollback.py: changes that are given up, from Python: random sessions with commits, rollbacks, transactions and
exceptions beside dictionaries that are copied at each commit, in files and in memory; a `with` that is left by an
exception; transactions within one another; threads; and children that are killed between. RSTORE_LIBRARY names
librstore.so."""

from __future__ import annotations

import copy
import os
import random
import signal
import struct
import sys
import tempfile
import threading
import time
from pathlib import Path
from typing import Dict, Optional, Tuple

sys.path.insert(0, str(Path(__file__).resolve().parent.parent))

import rstore

Box = Tuple[int, ...]
Table = Dict[str, Dict[int, Box]]


class GivenUp(Exception):
    """What leaves a `with`."""


def expect(kind, call, *arguments):
    """The call raises that, and in words."""
    try:
        call(*arguments)
    except kind as error:
        assert str(error), error
        return
    raise AssertionError(f"{call} did not raise {kind}")


def look(db: rstore.Store) -> Table:
    """What is in a store."""
    return {name: dict(db[name].items()) for name in db}


def change(db: rstore.Store, table: Table, dice: random.Random, count: int) -> None:
    """Random changes of a store and of what stands beside it."""
    for _ in range(count):
        name, id = dice.choice("abc"), dice.randrange(300)
        low = (dice.randrange(500), dice.randrange(500))
        box = (*low, low[0] + dice.randrange(30), low[1] + 3)
        if name not in table:
            layer = db.create_layer(name, fanout=dice.choice([4, 100]))
            table[name] = {k: box for k in range(dice.choice([0, 0, 200]))}
            layer.load(table[name].items())
        elif dice.random() < 0.02:
            db.drop_layer(name)
            del table[name]
        elif id in table[name] and dice.random() < 0.5:
            del db[name][id]
            del table[name][id]
        else:
            db[name][id] = box
            table[name][id] = box


def session(path: Optional[str], seed: int, steps: int) -> None:
    """A random session."""
    dice = random.Random(seed)
    db = rstore.open(path, create=True, cache=dice.choice([8, 64, 1024]))
    table: Table = {}
    kept: Table = {}
    for _ in range(steps):
        turn = dice.randrange(9)
        if turn < 2:
            db.commit()
            kept = copy.deepcopy(table)
        elif turn < 4:
            db.rollback()
            table = copy.deepcopy(kept)
        elif turn == 4:
            with db.transaction() as same:
                assert same is db
                change(db, table, dice, 20)
            kept = copy.deepcopy(table)
        elif turn == 5:
            try:
                with db.transaction():
                    change(db, table, dice, 20)
                    raise GivenUp
            except GivenUp:
                table = copy.deepcopy(kept)
        elif turn == 6 and path is not None:
            # the store is closed, by an exception or not
            leaves = dice.random() < 0.5
            try:
                with db:
                    change(db, table, dice, 20)
                    if leaves:
                        raise GivenUp
            except GivenUp:
                table = copy.deepcopy(kept)
            kept = copy.deepcopy(table)
            assert db.closed and not os.path.exists(path + "-journal")
            db = rstore.open(path, cache=dice.choice([8, 64, 1024]))
            assert not db.recovered
        else:
            change(db, table, dice, dice.choice([1, 30, 300]))
        if dice.random() < 0.5:
            assert look(db) == table
    db.check()
    db.rollback()
    assert look(db) == kept
    db.close()
    if path is not None:
        with rstore.open(path, read_only=True) as again:
            assert look(again) == kept
            again.rollback()
            assert look(again) == kept


def refusals(path: Optional[str]) -> None:
    """What is refused within a transaction, and what layers are after a rollback."""
    with rstore.open(path, create=True) as db:
        a = db.create_layer("a")
        db.commit()
        a[1] = (0, 0, 1, 1)
        b = db.create_layer("b")
        db.rollback()
        assert 1 not in a and list(db) == ["a"]
        expect(rstore.NoLayer, b.insert, 1, (0, 0, 1, 1))
        with db.transaction():
            a[1] = (0, 0, 1, 1)
            for call in [db.commit, db.rollback, db.close, db.transaction().__enter__]:
                expect(rstore.Misuse, call)
            assert 1 in a
        db.rollback()
        assert 1 in a
        # an exception of the store itself, in the midst of a batch
        try:
            with db.transaction():
                for k in range(100, 0, -1):
                    a.insert(k, (k, k, k + 1, k + 1))
        except rstore.Duplicate:
            pass
        assert list(a) == [1]
        # a second transaction within one ends neither
        with db.transaction():
            a[2] = (0, 0, 1, 1)
            try:
                with db.transaction():
                    a[3] = (0, 0, 1, 1)
            except rstore.Misuse:
                a[4] = (0, 0, 1, 1)
        db.rollback()
        assert list(a) == [1, 2, 4]
        held: list = []
        other = threading.Thread(target=lambda: held.append(expect(rstore.Misuse, db.commit)))
        with db.transaction():
            other.start()
            other.join()
        assert held == [None]
    expect(rstore.Closed, db.rollback)
    expect(rstore.Closed, db.transaction().__enter__)


def leaves(path: str) -> None:
    """A `with` that an exception leaves has kept what was committed in it, and nothing else; whatever the exception."""
    for exception in [GivenUp, KeyboardInterrupt, SystemExit, rstore.NoLayer]:
        try:
            with rstore.open(path, create=True) as db:
                a = db.layer("a") if "a" in db else db.create_layer("a")
                a[1] = (0, 0, 1, 1)
                db.commit()
                a[2] = (0, 0, 1, 1)
                raise exception("told")
        except exception as error:
            assert error.args[0] == "told"
        assert db.closed
        with rstore.open(path) as db:
            assert list(db["a"]) == [1]
    # closing keeps what was not committed
    db = rstore.open(path)
    db["a"][7] = (0, 0, 1, 1)
    db.close()
    with rstore.open(path) as db:
        assert list(db["a"]) == [1, 7]
        del db["a"][7]
    # one that is closed before it ends
    try:
        with rstore.open(path) as db:
            db["a"][8] = (0, 0, 1, 1)
            db.close()
            raise GivenUp
    except GivenUp:
        pass
    with rstore.open(path) as db:
        assert list(db["a"]) == [1, 8]


def kills(path: str, rounds: int) -> None:
    """Children that are killed between changes, rollbacks and commits."""
    dice = random.Random(7)
    with rstore.open(path, create=True) as db:
        db.create_layer("a", fanout=8)
    for turn in range(rounds):
        read, write = os.pipe()
        child = os.fork()
        if child == 0:
            os.close(read)
            with rstore.open(path, cache=8) as db:
                a = db["a"]
                n = len(a)
                while True:
                    for k in range(n, n + 30):
                        a[k + 10**6] = (k, k, k + 3, k + 3)
                    db.rollback()
                    with db.transaction():
                        for k in range(n, n + 20):
                            a[k] = (k, k, k + 3, k + 3)
                    n += 20
                    os.write(write, struct.pack("Q", n))
        os.close(write)
        told = os.read(read, 8)
        time.sleep(dice.random() * 0.02)
        os.kill(child, signal.SIGKILL)
        os.waitpid(child, 0)
        told += os.read(read, 1 << 20)
        os.close(read)
        known = struct.unpack_from("Q", told, len(told) - 8)[0]
        with rstore.open(path) as db:
            count = len(db["a"])
            assert known <= count <= known + 20 and count % 20 == 0, (known, count)
            db.check()
            assert list(db["a"]) == list(range(count))


def main() -> int:
    """Runs all."""
    quick = os.environ.get("RSTORE_QUICK") == "1"
    with tempfile.TemporaryDirectory() as folder:
        for seed in range(3 if quick else 12):
            session(None if seed % 3 == 2 else os.path.join(folder, f"s{seed}"), seed, 40 if quick else 150)
        refusals(os.path.join(folder, "refusals"))
        refusals(None)
        leaves(os.path.join(folder, "leaves"))
        kills(os.path.join(folder, "kills"), 4 if quick else 20)
    print("python: rollbacks, transactions and a `with` that an exception leaves keep what was committed, no more")
    return 0


if __name__ == "__main__":
    sys.exit(main())

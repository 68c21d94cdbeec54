"""test_readers.py: readers beside one writer. Readers in this process and in others keep their table while a writer commits,
until they refresh; readers of a file whose writer was killed, at any moment, find its last commit and write nothing; a writer
that closes beside a reader leaves its journal, which the next one ends; a long log is written anew; two writers
exclude one another, also by a journal that was just removed, and by two names of one file. RSTORE_LIBRARY names librstore.so.
"""

from __future__ import annotations

import fcntl
import os
import random
import signal
import struct
import sys
import tempfile
import threading
import time
from pathlib import Path
from typing import Callable, List, Optional, Tuple

sys.path.insert(0, str(Path(__file__).resolve().parent.parent))

import rstore

EVERYWHERE = (-9999, -9999, 99999, 99999)


def expect(kind, call, *arguments, **more):
    """The call raises that, and in words."""
    try:
        call(*arguments, **more)
    except kind as error:
        assert str(error), error
        return
    raise AssertionError(f"{call} did not raise {kind}")


def reader(path: str) -> rstore.Store:
    """The file, only read."""
    return rstore.open(path, read_only=True, cache=8)


def has(db: rstore.Store, count: int) -> None:
    """The store has so many objects in `a`, the first ones, and is sound: the catalog, the tree and the table agree."""
    db.check()
    a = db["a"]
    assert len(a) == count, (len(a), count)
    assert list(a.counts([EVERYWHERE])) == [count]


def put(a: rstore.Layer, begin: int, end: int) -> None:
    """The objects from one identifier to another."""
    for id in range(begin, end):
        a.insert(id, (id % 997, id % 89, id % 997 + 1, id % 89 + 1))


def make(path: str, count: int) -> None:
    """A file with so many objects, closed."""
    with rstore.open(path, create=True) as db:
        put(db.create_layer("a"), 0, count)
    assert not os.path.exists(path + "-journal")


def bytes_of(path: str) -> List[Optional[Tuple[bytes, int]]]:
    """What the file and its journal have, and when each was written last."""
    names = [Path(path), Path(path + "-journal")]
    return [(name.read_bytes(), name.stat().st_mtime_ns) if name.exists() else None for name in names]


def killed(work: Callable[[], rstore.Store]) -> None:
    """Does that in a child, which is then killed with the store that it has open."""
    child = os.fork()
    if child == 0:
        try:
            _held = work()
        finally:
            os.kill(os.getpid(), signal.SIGKILL)
    os.waitpid(child, 0)


def keeps(folder: str) -> None:
    """Each reader has the table of its opening, or of its last refresh."""
    path = os.path.join(folder, "keeps")
    make(path, 100)
    held = [(reader(path), 100), (reader(path), 100)]
    with rstore.open(path, cache=8) as db:
        a = db["a"]
        for turn in range(1, 12):
            put(a, 100 * turn, 100 * turn + 100)
            for k, (one, count) in enumerate(held):
                if k % 3 == turn % 3:
                    assert one.refresh() == (count != 100 * turn), (count, turn)
                    assert not one.refresh()
                    held[k] = (one, 100 * turn)
                has(*held[k])
            has(db, 100 * turn + 100)
            db.commit()
            held.append((reader(path), 100 * turn + 100))
            for one, count in held:
                has(one, count)
                expect(rstore.ReadOnly, one["a"].insert, 1, (0, 0, 1, 1))
        for one, _ in held:
            one.refresh()
            has(one, 1200)
            one.rollback(), one.commit()
            has(one, 1200)
        assert not db.refresh()
    # it was read when it closed
    assert os.path.exists(path + "-journal")
    before = bytes_of(path)
    has(held[0][0], 1200)
    assert not held[0][0].refresh()
    for one, _ in held:
        one.close()
    assert bytes_of(path) == before
    with reader(path) as one:
        has(one, 1200)
    assert bytes_of(path) == before
    with rstore.open(path) as db:
        assert not db.recovered  # it had closed all
        has(db, 1200)
    assert not os.path.exists(path + "-journal")
    with reader(path) as one:
        has(one, 1200)
        assert not one.refresh()
    with rstore.open(None) as db:
        assert not db.refresh()


def goes_on(folder: str) -> None:
    """Writers follow one another beside a reader, which keeps its table, and finds the last one at a refresh."""
    path = os.path.join(folder, "goes_on")
    make(path, 10)
    with reader(path) as first:
        for turn in range(1, 6):
            with rstore.open(path) as db, reader(path) as second:
                put(db["a"], 10 * turn, 10 * turn + 10)
                db.commit()
                assert second.refresh()
                has(second, 10 * turn + 10)
            has(first, 10)
        assert first.refresh()
        has(first, 60)
    with rstore.open(path) as db:
        has(db, 60)
    assert not os.path.exists(path + "-journal")
    # another file of that name
    other = os.path.join(folder, "other")
    make(other, 5)
    with reader(path) as one:
        os.rename(other, path)
        has(one, 60)
        assert one.refresh()
        has(one, 5)
        os.rename(path, other)
        expect(rstore.CannotOpen, one.refresh)
        has(one, 5)


def other_readers(folder: str, rounds: int) -> None:
    """Processes that read while one writes as fast as it can: each finds whole commits, and none older than before. Now and
    then nobody reads, and the journal is copied home."""
    path = os.path.join(folder, "others")
    make(path, 20)
    read, write = os.pipe()
    children = []
    for _ in range(3):
        child = os.fork()
        if child == 0:
            last = 20
            os.close(write)
            os.set_blocking(read, False)
            kept, turn = reader(path), 0
            while True:
                turn += 1
                if turn % 4 == 0:
                    kept.close()
                    time.sleep(0.004)
                    kept = reader(path)
                with reader(path) as one:
                    count = len(one["a"])
                    assert count % 20 == 0 and count >= last, (count, last)
                    has(one, count)
                kept.refresh()
                last = len(kept["a"])
                assert last % 20 == 0 and last >= count, (last, count)
                has(kept, last)
                try:
                    if not os.read(read, 1):
                        os._exit(0)
                except BlockingIOError:
                    pass
        children.append(child)
    os.close(read)
    for turn in range(1, rounds + 1):
        with rstore.open(path, cache=8) as db:
            for k in range(3):
                count = len(db["a"])
                put(db["a"], count, count + 20)
                if k < 2:
                    db.commit()
    os.close(write)
    for child in children:
        assert os.waitpid(child, 0)[1] == 0
    with rstore.open(path) as db:
        has(db, 20 + 60 * rounds)
    assert not os.path.exists(path + "-journal")


def kills(folder: str, rounds: int) -> None:
    """A reader of what a kill of the writer leaves, also beside another reader, finds the last commit, and writes nothing."""
    path = os.path.join(folder, "kills")
    dice = random.Random(5)
    make(path, 0)
    marks = logs = 0
    for turn in range(rounds):
        beside = reader(path) if turn % 3 == 2 else None
        before = len(beside["a"]) if beside else 0
        read, write = os.pipe()
        child = os.fork()
        if child == 0:
            with rstore.open(path, cache=8) as db:
                n = len(db["a"])
                while True:
                    put(db["a"], n, n + 20)
                    n += 20
                    db.commit()
                    os.write(write, struct.pack("Q", n))
        os.close(write)
        # every other one is killed once it has committed, whatever the machine's speed
        told = os.read(read, 8) if turn % 2 else b""
        time.sleep(dice.random() * 0.03)
        os.kill(child, signal.SIGKILL)
        os.waitpid(child, 0)
        told += os.read(read, 1 << 20)
        os.close(read)
        known = struct.unpack_from("Q", told, len(told) - 8)[0] if told else 0
        found = bytes_of(path)
        marks += found[0][0][8] == 2
        logs += found[1] is not None and found[1][0][8192:8201] == b"RSTARJNL\1"
        with reader(path) as one:
            count = len(one["a"])
            assert known <= count <= known + 20 or not told, (known, count)
            has(one, count)
            assert not one.refresh()
        if beside:
            has(beside, before)
            beside.refresh()
            has(beside, count)
            beside.close()
        assert bytes_of(path) == found
        with rstore.open(path) as db:
            has(db, count)
        assert not os.path.exists(path + "-journal")
    assert marks and logs, (marks, logs)


def before_any(folder: str) -> None:
    """A writer that is killed before its first commit, and within the second."""
    path = os.path.join(folder, "before")
    make(path, 50)
    killed(lambda: rstore.open(path))
    assert os.path.exists(path + "-journal")
    for commits in (0, 1):
        def work() -> rstore.Store:
            db = rstore.open(path, cache=8)
            for k in range(commits):
                put(db["a"], 50, 60)
                db.commit()
            put(db["a"], 60, 2000)
            return db
        killed(work)
        before = bytes_of(path)
        with reader(path) as one:
            has(one, 50 + 10 * commits)
            assert not one.refresh()
        assert bytes_of(path) == before
    with rstore.open(path) as db:
        assert db.recovered
        has(db, 60)
    # the journal is gone: who reads is told, and nothing is written
    def twice() -> rstore.Store:
        db = rstore.open(path)
        put(db["a"], 60, 80)
        db.commit()
        return db
    killed(twice)
    os.rename(path + "-journal", path + "-away")
    before = bytes_of(path)
    expect(rstore.NoJournal, reader, path)
    assert bytes_of(path) == before
    os.rename(path + "-away", path + "-journal")
    # a region without its slots is no log
    whole = Path(path + "-journal").read_bytes()
    Path(path + "-journal").write_bytes(whole[:12296] + b"\0\1" + whole[12298:])
    expect(rstore.NoJournal, reader, path)
    Path(path + "-journal").write_bytes(whole)
    with reader(path) as one:
        has(one, 80)


def turn(db: rstore.Store, number: int) -> int:
    """One object more, and a hundred put anew, committed: how many blocks the journal has then."""
    db["a"].insert(10000 + number, (number, 0, number, 0))
    for k in range(0, 1000, 10):
        del db["a"][k]
        put(db["a"], k, k + 1)
    db.commit()
    return os.path.getsize(db.path + "-journal") // 4096


def long_log(folder: str) -> None:
    """Beside a reader that stays, a log that has grown long is written anew, with what changed alone, and the reader keeps
    its table. Once nobody reads, it is copied home by the writer that goes on."""
    path = os.path.join(folder, "long")
    make(path, 1000)
    with rstore.open(path, cache=8) as db:
        one, two, sizes = reader(path), reader(path), [0]
        while sum(now < before for before, now in zip(sizes, sizes[1:])) < 2:
            sizes.append(turn(db, len(sizes)))
        assert max(sizes) <= 4096 + 2 * (os.path.getsize(path) // 4096) + 400, max(sizes)
        has(one, 1000)
        assert two.refresh()
        has(two, 1000 + len(sizes) - 1)
        two.close()
        while sizes[-1] < 4110:
            sizes.append(turn(db, len(sizes)))
        turns = len(sizes) - 1
        log = Path(path + "-journal").read_bytes()
        assert log[8192:8201] == b"RSTARJNL\1"
        has(one, 1000)
        one.close()
        for k in (1, 2):
            db["a"].insert(20000 + k, (k, 0, k, 0))
            db.commit()
        assert os.path.getsize(path + "-journal") <= len(log) + 4096 * 40
        with reader(path) as two:
            has(two, 1000 + turns + 2)
    with rstore.open(path) as db:
        has(db, 1000 + turns + 2)
    assert not os.path.exists(path + "-journal")


def writers(folder: str) -> None:
    """A second writer is refused, whatever readers there are."""
    path = os.path.join(folder, "writers")
    make(path, 10)
    with rstore.open(path) as db:
        expect(rstore.Busy, rstore.open, path)
        with reader(path):
            expect(rstore.Busy, rstore.open, path)
            put(db["a"], 10, 20)
            db.commit()
            expect(rstore.Busy, rstore.open, path)
    with rstore.open(path) as db:
        has(db, 20)
    # an older program locks the file alone, and keeps out writers, and readers until it has ended
    with open(path, "rb") as file:
        fcntl.flock(file, fcntl.LOCK_EX)
        expect(rstore.Busy, rstore.open, path)
        threading.Timer(0.2, lambda: fcntl.flock(file, fcntl.LOCK_UN)).start()
        with reader(path) as one:
            has(one, 20)
    with open(path, "rb") as file:
        fcntl.flock(file, fcntl.LOCK_EX)
        began = time.monotonic()
        expect(rstore.Busy, reader, path)
        assert time.monotonic() - began > 1


def races(folder: str, rounds: int) -> None:
    """Writers that open, commit and close one after the other, each as soon as the last one has gone, beside a reader for a
    part of the time: of two none holds the file at once, and no commit is lost."""
    path = os.path.join(folder, "races")
    make(path, 0)
    children = []
    for k in range(3):
        child = os.fork()
        if child == 0:
            done = 0
            while done < rounds:
                try:
                    with rstore.open(path) as db:
                        count = len(db["a"])
                        put(db["a"], count, count + 1)
                        db.commit()
                    done += 1
                except rstore.Busy:
                    pass
            os._exit(0)
        children.append(child)
    for _ in range(rounds):
        with reader(path) as one:
            has(one, len(one["a"]))
            time.sleep(0.001)
    for child in children:
        assert os.waitpid(child, 0)[1] == 0
    with rstore.open(path) as db:
        has(db, 3 * rounds)


def names(folder: str) -> None:
    """A file with two names is locked alone by its writer: each name has a journal of its own."""
    path, link = os.path.join(folder, "name"), os.path.join(folder, "link")
    make(path, 10)
    os.link(path, link)
    with reader(path), reader(link):
        expect(rstore.Busy, rstore.open, path)
    with rstore.open(path) as db:
        expect(rstore.Busy, rstore.open, link)
        expect(rstore.Busy, reader, link)
        put(db["a"], 10, 20)
        db.commit()
    with reader(link) as one:
        has(one, 20)
    os.unlink(link)
    with reader(path), rstore.open(path) as db:
        put(db["a"], 20, 30)


def main() -> int:
    """Runs all."""
    quick = os.environ.get("RSTORE_QUICK") == "1"
    with tempfile.TemporaryDirectory() as folder:
        keeps(folder)
        goes_on(folder)
        other_readers(folder, 10 if quick else 60)
        kills(folder, 6 if quick else 24)
        before_any(folder)
        long_log(folder)
        writers(folder)
        races(folder, 20 if quick else 100)
        names(folder)
    print("python: readers beside a writer keep their tables, and find the last one")
    return 0


if __name__ == "__main__":
    sys.exit(main())

"""test_rstore.py [PROGRAM]: the module rstore beside dictionaries, after kills, by several processes, and by files that it
exchanges with the program rstore, where that is given. RSTORE_LIBRARY names librstore.so."""

from __future__ import annotations

import gc
import os
import random
import signal
import struct
import subprocess
import sys
import tempfile
import threading
import time
from pathlib import Path

sys.path.insert(0, str(Path(__file__).resolve().parent.parent))

import rstore

SIDE = 300


class Plain:
    """A layer as a dictionary."""

    def __init__(self, dims: int) -> None:
        self.dims, self.rows = dims, {}

    def meet(self, a, b) -> bool:
        return all(a[k] <= b[k + self.dims] and b[k] <= a[k + self.dims] for k in range(self.dims))

    def within(self, a, b) -> bool:
        return all(b[k] <= a[k] and a[k + self.dims] <= b[k + self.dims] for k in range(self.dims))

    def squared(self, a, b) -> int:
        return sum(max(a[k] - b[k + self.dims], b[k] - a[k + self.dims], 0) ** 2 for k in range(self.dims))

    def those(self, test, tag):
        return [(i, *self.rows[i]) for i in sorted(self.rows) if test(self.rows[i][0]) and tag in (None, self.rows[i][1])]


def box(dice: random.Random, dims: int) -> tuple[int, ...]:
    low = [dice.randrange(SIDE) for _ in range(dims)]
    return (*low, *[x + dice.choice([0, 3, 40]) for x in low])


def session(path: str, seed: int, steps: int) -> None:
    """A random session with all calls."""
    dice = random.Random(seed)
    plain: dict[str, Plain] = {}
    db = rstore.open(path, create=True, cache=dice.choice([8, 64, 4096]))
    layers: dict[str, rstore.Layer] = {}
    for _ in range(steps):
        turn, id, tag = dice.randrange(19), dice.randrange(400), dice.choice([None, 0, 5])
        name = dice.choice("abc")
        if name not in plain:
            dims = dice.choice([2, 3])
            if dice.random() < 0.5:
                expect(rstore.NoLayer, db.layer, name)
            layers[name] = db.create_layer(name, dims=dims, fanout=dice.choice([4, 10, 100]))
            plain[name] = Plain(dims)
            expect(rstore.LayerExists, db.create_layer, name)
            continue
        layer, model = layers[name], plain[name]
        asked = box(dice, model.dims)
        point = asked[: model.dims]
        if turn < 5:
            if id in model.rows:
                expect(rstore.Duplicate, layer.insert, id, asked)
            else:
                layer.insert(id, asked, tag or 0)
                model.rows[id] = (asked, tag or 0)
        elif turn == 5:
            layer[id] = asked
            model.rows[id] = (asked, model.rows.get(id, (0, 0))[1])
        elif turn == 6:
            if id in model.rows:
                layer.move(id, asked)
                model.rows[id] = (asked, model.rows[id][1])
            else:
                expect(rstore.NoObject, layer.move, id, asked)
        elif turn == 7:
            if id in model.rows:
                del layer[id]
                del model.rows[id]
            else:
                expect(KeyError, layer.delete, id)
        elif turn == 8:
            assert layer.window(asked, tag) == model.those(lambda b: model.meet(b, asked), tag)
            assert layer.window_count(asked, tag) == len(model.those(lambda b: model.meet(b, asked), tag))
            assert layer.window_ids(asked, tag) == [row[0] for row in model.those(lambda b: model.meet(b, asked), tag)]
            after, limit = dice.choice([None, id, 0, (1 << 64) - 1]), dice.choice([0, 1, 5, 1000])
            behind = [row for row in model.those(lambda b: model.meet(b, asked), tag) if after is None or row[0] > after]
            assert layer.window_page(asked, limit, after, tag) == behind[:limit]
        elif turn == 9:
            assert layer.inside(asked, tag) == model.those(lambda b: model.within(b, asked), tag)
        elif turn == 10:
            assert layer.around(asked, tag) == model.those(lambda b: model.within(asked, b), tag)
        elif turn == 11:
            assert layer.point(point, tag) == model.those(lambda b: model.meet(b, point + point), tag)
        elif turn == 12:
            k = dice.choice([1, 7, 1000])
            near = sorted((model.squared(b, point + point), i) for i, (b, _) in model.rows.items())[:k]
            assert layer.nearest(point, k) == [(i, d) for d, i in near]
            those = sorted(
                (model.squared(b, point + point), i) for i, (b, t) in model.rows.items() if tag is None or t == tag
            )
            assert layer.nearest_rows(point, k, tag) == [(i, *model.rows[i], d) for d, i in those[:k]]
        elif turn == 13:
            other, within = dice.choice(list(plain)), dice.choice([0, 0, 2, 9])
            if plain[other].dims != model.dims:
                expect(rstore.DimsDiffer, layer.join, layers[other])
            else:
                pairs = sorted(
                    (i, j)
                    for i, (a, _) in model.rows.items()
                    for j, (b, _) in plain[other].rows.items()
                    if model.squared(a, b) <= within * within
                )
                assert layer.join(layers[other], within) == pairs
                with rstore.open(None) as memory:
                    copy = memory.create_layer("copy", model.dims, scale=layer.scale)
                    copy.load([(i, b, t) for i, (b, t) in plain[other].rows.items()])
                    assert layer.join(copy, within) == pairs
                    assert copy.join(layer, within) == sorted((j, i) for i, j in pairs)
        elif turn == 14:
            assert (id in layer) == (id in model.rows) and len(layer) == len(model.rows)
            assert layer.last() == max(model.rows, default=None)
            if id in model.rows:
                assert layer.row(id) == (id, *model.rows[id]) and layer[id] == model.rows[id][0]
            else:
                assert layer.get(id) is None
        elif turn == 15:
            rows = dict(layer.items())
            assert rows == {i: b for i, (b, _) in model.rows.items()} and list(layer) == sorted(model.rows)
            infos = db.layers()
            assert [i.name for i in infos] == sorted(plain)
            assert {i.name: (i.dims, i.count) for i in infos} == {n: (m.dims, len(m.rows)) for n, m in plain.items()}
        elif turn == 16:
            if dice.random() < 0.3:
                db.drop_layer(name)
                del plain[name], layers[name]
                expect(rstore.NoLayer, layer.window, asked)
            elif not model.rows:
                objects = [(i, box(dice, model.dims), i % 3) for i in dice.sample(range(5000), dice.choice([0, 5, 700]))]
                assert layer.load(objects) == len(objects)
                model.rows = {i: (b, t) for i, b, t in objects}
            else:
                expect(rstore.NotEmpty, layer.load, [(1, asked)])
        elif turn == 17 and dice.random() < 0.2:
            db.commit()
        elif turn == 18 and dice.random() < 0.2:
            db.check()
            db.close()
            db = rstore.open(path, create=dice.random() < 0.5, cache=dice.choice([8, 64, 4096]))
            assert not db.recovered
            layers = {n: db[n] for n in db}
            assert set(layers) == set(plain)
    db.check()
    db.close()
    assert not os.path.exists(path + "-journal")
    with rstore.open(path, read_only=True) as again:
        for name, model in plain.items():
            layer = again[name]
            assert [row for row in layer.all_rows()] == [(i, *model.rows[i]) for i in sorted(model.rows)]
            expect(rstore.ReadOnly, layer.insert, 10**9, box(dice, model.dims))
            expect(rstore.ReadOnly, again.drop_layer, name)


def expect(kind, call, *arguments):
    """The call raises that, and in words."""
    try:
        call(*arguments)
    except kind as error:
        assert str(error), error
        return
    raise AssertionError(f"{call} did not raise {kind}")


def errors(folder: str) -> None:
    """What is refused before it reaches the store, and what the store refuses."""
    path = os.path.join(folder, "errors")
    with rstore.open(path, create=True) as db:
        a = db.create_layer("a")
        for wrong in [(0, 0, 1), (0, 0, 1, 1.5), (0, 0, 1, 1 << 31), "abcd", 7, (0, 0, 1, None)]:
            expect(rstore.Misuse, a.insert, 1, wrong)
        expect(rstore.WrongDims, a.insert, 1, (0, 0, 0, 1, 1, 1))
        expect(rstore.BadBox, a.insert, 1, (1, 1, 0, 0))
        for wrong in [-1, 1 << 64, "x", 1.5, None]:
            expect(rstore.Misuse, a.insert, wrong, (0, 0, 1, 1))
        expect(rstore.Misuse, a.insert, 1, (0, 0, 1, 1), 1 << 32)
        expect(rstore.BadCount, a.nearest, (0, 0), 0)
        expect(rstore.BadName, db.create_layer, "A")
        expect(rstore.BadName, db.create_layer, "a\0b")
        expect(rstore.BadDims, db.create_layer, "b", 4)
        expect(rstore.BadFanout, db.create_layer, "b", 2, 101)
        expect(rstore.NoLayer, db.drop_layer, "b")
        expect(rstore.Misuse, a.load_rows, b"123")
        try:
            a.load([(5, (0, 0, 1, 1)), (4, (0, 0, 1, 1)), (4, (0, 0, 1, 1)), (5, (0, 0, 1, 1))])
            raise AssertionError("loaded")
        except rstore.DuplicateInLoad as error:
            assert error.detail == 4 and "4" in str(error), error
        expect(rstore.Busy, rstore.open, path)
        a[(1 << 64) - 1] = (-(1 << 31), -(1 << 31), (1 << 31) - 1, (1 << 31) - 1)
        assert list(a) == [(1 << 64) - 1]
        assert a.nearest((0, 0))[0] == ((1 << 64) - 1, 0)
    expect(rstore.Closed, a.window, (0, 0, 1, 1))
    expect(rstore.Closed, a.insert, 1, (0, 0, 1, 1))
    expect(rstore.Closed, db.commit)
    expect(rstore.Closed, db.__enter__)
    db.close()
    expect(rstore.CannotOpen, rstore.open, os.path.join(folder, "missing"))
    expect(rstore.CannotOpen, rstore.open, folder)
    expect(rstore.BadCache, lambda: rstore.open(path, cache=7))
    expect(rstore.Misuse, lambda: rstore.open(path, create=True, read_only=True))
    Path(folder, "text").write_text("no store at all" * 1000)
    expect(rstore.NotAStore, rstore.open, os.path.join(folder, "text"))
    expect(rstore.NotAStore, lambda: rstore.open(os.path.join(folder, "text"), read_only=True))
    assert not os.path.exists(os.path.join(folder, "text-journal"))


def scales(folder: str) -> None:
    """Decimal numbers: nothing is missed."""
    dice = random.Random(5)
    with rstore.open(os.path.join(folder, "scales"), create=True) as db:
        places = db.create_layer("places", scale=10_000_000)
        boxes = {}
        for id in range(400):
            low = (dice.uniform(-180, 180), dice.uniform(-90, 90))
            boxes[id] = (*low, low[0] + dice.random(), low[1] + dice.random())
            places[id] = boxes[id]
            kept = places[id]
            assert all(kept[k] <= boxes[id][k] + 1e-12 and boxes[id][k + 2] - 1e-12 <= kept[k + 2] for k in range(2))
            assert all(abs(x - y) < 1.1e-7 for x, y in zip(kept, boxes[id]))
        for id, one in boxes.items():
            corner = (one[2], one[3], one[2], one[3])
            assert id in [row[0] for row in places.window(corner)]
            assert id in [row[0] for row in places.around(corner)]
            assert id in [row[0] for row in places.point((one[0], one[1]))]
            assert id in [row[0] for row in places.inside(one)]
        expect(rstore.Misuse, places.window, (0, 0, 215, 1))
        places[1000] = (10, 20, 10, 20)
        assert places.nearest((10, 20.5))[0][1] <= 0.25 + 1e-9
        plain = db.layer("places")
        assert plain[1000] == (100_000_000, 200_000_000) * 2
        expect(rstore.Misuse, places.join, plain)


def arrays(folder: str) -> None:
    """Rows in the memory of the library, and loads of them."""
    with rstore.open(os.path.join(folder, "arrays"), create=True) as db:
        a = db.create_layer("a")
        assert a.load((k, (k, k, k + 1, k + 1), k % 5) for k in range(2000)) == 2000
        rows = a.window_rows((0, 0, 999, 999))
        assert len(rows) == 1000 and rows[-1] == (999, (999, 999, 1000, 1000), 4) and rows[3:5] == list(rows)[3:5]
        assert list(rows) == a.window((0, 0, 999, 999))
        view = rows.memory
        assert len(view) == 40_000 and struct.unpack_from("=Qi", view, 40) == (1, 1)
        assert len(a.window_rows((5000, 5000, 5001, 5001))) == 0 and list(a.window_rows((5000, 5000, 5001, 5001))) == []
        for name, ask in [("inside", a.inside_rows), ("around", a.around_rows)]:
            assert list(ask((3, 3, 4, 4))) == getattr(a, name)((3, 3, 4, 4))
        assert list(a.point_rows((3, 3))) == a.point((3, 3))
        b = db.create_layer("b")
        assert b.load_rows(view) == 1000 and list(b) == list(range(1000))
        del rows
        gc.collect()
        assert struct.unpack_from("=Qi", view, 40) == (1, 1)  # the view holds the memory
        del view
        c = db.create_layer("c")
        assert c.load_rows(bytes(a.all_rows().memory)) == 2000
        try:
            import numpy
        except ImportError:
            return
        made = a.all_rows().numpy()
        assert made["id"].tolist() == list(range(2000)) and made["high"][7].tolist() == [8, 8, 0]
        made = made.copy()
        made["low"][:, 0] -= 5
        d = db.create_layer("d")
        assert d.load_rows(made) == 2000 and d[7] == (2, 7, 8, 8)


def kills(folder: str, rounds: int) -> None:
    """Children that are killed between changes and commits: what was committed last is there, or what was in progress."""
    path = os.path.join(folder, "kills")
    dice = random.Random(11)
    with rstore.open(path, create=True) as db:
        db.create_layer("a", fanout=8)
    recovered = 0
    for turn in range(rounds):
        read, write = os.pipe()
        child = os.fork()
        if child == 0:
            os.close(read)
            with rstore.open(path, cache=8) as db:
                a = db["a"]
                n = len(a)
                while True:
                    for k in range(n, n + 20):
                        a[k] = (k, k, k + 3, k + 3)
                    n += 20
                    db.commit()
                    os.write(write, struct.pack("Q", n))
        os.close(write)
        # every other one is killed once it has committed, whatever the machine's speed
        told = os.read(read, 8) if turn % 2 else b""
        time.sleep(dice.random() * 0.03)
        os.kill(child, signal.SIGKILL)
        os.waitpid(child, 0)
        told += os.read(read, 1 << 20)
        os.close(read)
        known = struct.unpack_from("Q", told, len(told) - 8)[0] if told else 0
        if turn % 3 == 0:
            with rstore.open(path, read_only=True) as db:
                assert known <= len(db["a"]), (known, len(db["a"]))
        with rstore.open(path) as db:
            recovered += db.recovered
            count = len(db["a"])
            assert known <= count and count % 20 == 0, (known, count)
            db.check()
            assert list(db["a"]) == list(range(count))
        assert not os.path.exists(path + "-journal")
    assert recovered > 0
    print(f"python: {rounds} kills, {recovered} of them within a session that had committed, lost nothing")


def processes(folder: str) -> None:
    """Two processes on one file, and a forked child."""
    path = os.path.join(folder, "shared")
    code = "import sys; sys.path.insert(0, sys.argv[1]); import rstore\ntry: rstore.open(sys.argv[2], read_only=len(sys.argv) > 3).close(); print('opened')\nexcept rstore.Busy: print('busy')"

    def other(*more: str) -> str:
        words = [sys.executable, "-c", code, str(Path(rstore.__file__).parent.parent), path, *more]
        return subprocess.run(words, capture_output=True, text=True, check=True).stdout.strip()

    with rstore.open(path, create=True) as db:
        a = db.create_layer("a")
        a[1] = (0, 0, 1, 1)
        assert other() == "busy" and other("reads") == "opened"
        child = os.fork()
        if child == 0:
            try:
                a.window((0, 0, 1, 1))
            except rstore.Closed:
                os._exit(0)
            os._exit(1)
        assert os.waitpid(child, 0)[1] == 0
        assert a.window((0, 0, 1, 1)) == [(1, (0, 0, 1, 1), 0)]
    with rstore.open(path, read_only=True) as one, rstore.open(path, read_only=True) as two:
        assert len(one["a"]) == len(two["a"]) == 1
        assert other() == "opened" and other("reads") == "opened"
        with rstore.open(path):
            assert other() == "busy" and other("reads") == "opened"
            expect(rstore.Busy, rstore.open, path)
    assert other() == "opened"


def journals(folder: str) -> None:
    """A journal that is missing or another's is refused, and nothing is written."""
    path = os.path.join(folder, "journal")
    child = os.fork()
    if child == 0:
        db = rstore.open(path, create=True)
        db.create_layer("a")[1] = (0, 0, 1, 1)
        db.commit()
        db["a"][2] = (5, 5, 6, 6)
        os.kill(os.getpid(), signal.SIGKILL)
    os.waitpid(child, 0)
    before = Path(path).read_bytes()
    with rstore.open(path, read_only=True) as db:
        assert list(db["a"]) == [1]
    os.rename(path + "-journal", path + "-away")
    expect(rstore.NoJournal, rstore.open, path)
    expect(rstore.NoJournal, lambda: rstore.open(path, read_only=True))
    Path(path + "-journal").write_bytes(b"something else" * 1000)
    expect(rstore.NoJournal, rstore.open, path)
    os.rename(path + "-away", path + "-journal")
    assert Path(path).read_bytes() == before
    # by a link the journal is that of the file itself
    link = os.path.join(folder, "link")
    os.symlink(path, link)
    with rstore.open(link) as db:
        assert db.recovered and list(db["a"]) == [1]
    assert not os.path.exists(path + "-journal") and not os.path.exists(link + "-journal")


def exchange(folder: str, program: str) -> None:
    """Files that the program made, and the other way round; and of both one alone writes, beside whom the other reads."""
    path = os.path.join(folder, "exchanged")
    dice = random.Random(3)

    def run(words, text):
        ended = subprocess.run([program, *words], input=text, capture_output=True, text=True)
        return ended.returncode, ended.stdout, ended.stderr

    lines = ["create a 2 10"] + [f"insert a {k} {k} {k} {k + 5} {k + 5} tag {k % 3}" for k in range(500)]
    status, said, _ = run(["--create", path], "\n".join(lines) + "\n")
    assert status == 0 and said == "ok\n" * 501, said[:99]
    with rstore.open(path) as db:
        a = db["a"]
        assert list(a.all_rows()) == [(k, (k, k, k + 5, k + 5), k % 3) for k in range(500)]
        for k in dice.sample(range(500), 100):
            del a[k]
        b = db.create_layer("b", dims=3)
        b.load((k, (k, 0, 0, k + 1, 1, 1), 9) for k in range(1000))
        status, _, said = run([path], "layers\n")
        assert status == 1 and said.startswith("rstore: FILE is in use") and f"(FILE is {path})" in said, said
        status, said, _ = run(["--read-only", path], "count a\nlayers\n")
        assert status == 0 and said == "ok 1\n500\nok 1\na 2 10 500\n", said  # what was kept last
        rows = list(a.all_rows())
    status, said, _ = run(["--read-only", path], "check\nwindow a -9 -9 999 999\ncount b\nwindow b 5 0 0 5 0 0 tag 9\n")
    assert status == 0, said
    replies = said.splitlines()
    assert replies[0].startswith("ok") and replies[1] == "ok 400"
    wanted = [" ".join(map(str, (i, *box))) + (f" tag {tag}" if tag else "") for i, box, tag in rows]
    assert replies[2:402] == wanted, replies[2:4]
    assert replies[402:] == ["ok 1", "1000", "ok 2", "4 4 0 0 5 1 1 tag 9", "5 5 0 0 6 1 1 tag 9"], replies[402:]
    # a kill of the program is finished by the library, and one of the library by the program
    child = subprocess.Popen([program, path], stdin=subprocess.PIPE, stdout=subprocess.PIPE)
    child.stdin.write(b"insert a 9001 0 0 1 1\nreopen\ninsert a 9002 0 0 1 1\n")
    child.stdin.flush()
    for _ in range(2):
        assert child.stdout.readline() == b"ok\n"
    expect(rstore.Busy, rstore.open, path)
    child.kill()
    child.wait()
    child.stdout.close()
    with rstore.open(path) as db:
        assert db.recovered and 9001 in db["a"] and 9002 not in db["a"]
    pid = os.fork()
    if pid == 0:
        db = rstore.open(path)
        db["a"][9003] = (0, 0, 1, 1)
        db.commit()
        db["a"][9004] = (0, 0, 1, 1)
        os.kill(os.getpid(), signal.SIGKILL)
    os.waitpid(pid, 0)
    status, said, told = run([path], "get a 9003\nget a 9004\n")
    assert said.startswith("ok 1\n9003 0 0 1 1\nfail 10 NoObject"), said
    assert told == "rstore: the last run did not end; what changed after its last closing is lost\n", told
    print("python: files exchanged with the program both ways")


def threads(folder: str) -> None:
    """Stores of several threads, each on the least stack that is promised; and one of several threads."""
    failed: list[BaseException] = []

    def guarded(work, *arguments) -> None:
        try:
            work(*arguments)
        except BaseException as error:
            failed.append(error)

    def together(works) -> None:
        started = [threading.Thread(target=guarded, args=work) for work in works]
        for thread in started:
            thread.start()
        for thread in started:
            thread.join()
        assert not failed, failed

    threading.stack_size(256 * 1024)
    together([(session, os.path.join(folder, f"t{k}"), 100 + k, 300) for k in range(4)])
    with rstore.open(os.path.join(folder, "one"), create=True) as db:
        a = db.create_layer("a")

        def fill(first: int) -> None:
            for k in range(first, first + 300):
                a[k] = (k, k, k + 1, k + 1)
                assert a.window((k, k, k, k))[-1][0] in (k, k + 1, k - 1)

        together([(fill, 1000 * k) for k in range(4)])
        assert len(a) == 1200
        db.check()
    threading.stack_size(0)


def main() -> int:
    """Runs all."""
    quick = os.environ.get("RSTORE_QUICK") == "1"
    with tempfile.TemporaryDirectory() as folder:
        errors(folder)
        scales(folder)
        arrays(folder)
        for seed in range(2 if quick else 6):
            session(os.path.join(folder, f"s{seed}"), seed, 300 if quick else 1500)
        print("python: random sessions beside dictionaries agree")
        if os.environ.get("RSTORE_STUB") == "1":
            return 0
        processes(folder)
        journals(folder)
        kills(folder, 5 if quick else 40)
        threads(folder)
        print("python: processes, journals and threads are as they should")
        if len(sys.argv) > 1:
            exchange(folder, os.path.abspath(sys.argv[1]))
    return 0


if __name__ == "__main__":
    sys.exit(main())

"""test_dask_failures.py: what goes wrong with sharded layers is told, and changes nothing: refused objects and
questions, identifiers that stand twice anywhere, files that are missing, cut or changed, before they are opened and
after, manifests and folders that are none or of a later version, two writers at once, a disk that is full in a task,
and workers (two in one build) and builders that are killed. RSTORE_LIBRARY names librstore.so."""

from __future__ import annotations

import json
import os
import resource
import shutil
import signal
import subprocess
import sys
import tempfile
import threading
import time
import warnings
from pathlib import Path

sys.path.insert(0, str(Path(__file__).resolve().parent.parent))
warnings.filterwarnings("ignore")

import numpy

import rstore
import rstore.dask
from rstore import shards as tasks
from rstore.dask import Conflict, NoManifest, ShardError
from rstore.shards import ROW

QUICK = bool(os.environ.get("RSTORE_QUICK"))
ALL = [-(2**31)] * 2 + [2**31 - 1] * 2
tried: "dict[str, int]" = {}


def tell(what: str, times: int = 1) -> None:
    tried[what] = tried.get(what, 0) + times


def refuses(kind, call, *words: str):
    try:
        call()
    except kind as error:
        assert all(word in str(error) for word in words), (words, str(error))
        tell("refusals")
        return error
    raise AssertionError(f"{kind.__name__} was not raised")


def random_rows(count: int, seed: int = 1, first: int = 0):
    dice, rows = numpy.random.default_rng(seed), numpy.zeros(count, ROW)
    rows["id"], rows["axes"], rows["tag"] = dice.permutation(count) + first, 2, dice.integers(0, 9, count)
    rows["low"][:, :2] = dice.integers(-1000, 1000, (count, 2))
    rows["high"][:, :2] = rows["low"][:, :2] + dice.integers(0, 30, (count, 2))
    return rows


def refusals(folder: str) -> None:
    """Objects and questions that a store refuses, by the same errors."""
    rows, where = random_rows(500), os.path.join(folder, "refusals")
    s = rstore.dask.build(rows, where, shards=5)
    before, good = sorted(os.listdir(where)), (0, 0, 1, 1)
    bad = rows.copy()
    bad["low"][7, 0] = bad["high"][7, 0] + 1
    assert refuses(rstore.BadBox, lambda: rstore.dask.build(bad, where)).detail == bad["id"][7]
    far = (0, 0, 2**31, 2**31)
    for wrong in ([(1, (0, 0, 1.5, 2))], [(-1, good)], [(1, good, 2**32)], [(1, far)], [(1,)], [(1, 7)]):
        refuses(rstore.Misuse, lambda: rstore.dask.build(wrong, where))
    refuses(rstore.WrongDims, lambda: rstore.dask.build(rows, where, dims=3))
    refuses(rstore.BadDims, lambda: rstore.dask.build(rows, where, dims=4))
    refuses(rstore.Misuse, lambda: rstore.dask.build(rows, where, shards=0))
    refuses(rstore.BadFanout, lambda: rstore.dask.build(rows, where, fanout=3))
    refuses(rstore.Misuse, lambda: rstore.dask.build(rows, where, columns="id,x,y"))
    refuses(rstore.Misuse, lambda: rstore.dask.build(rows, where, scale=0))
    refuses(FileNotFoundError, lambda: rstore.dask.build(where + "/none-*.csv", where + "new"))
    assert not os.path.exists(where + "new")
    refuses(rstore.NoObject, lambda: s.update((), [10**9]))
    refuses(rstore.DuplicateInLoad, lambda: s.update([(4, good), (4, good)]))
    refuses(rstore.DuplicateInLoad, lambda: s.update([(4, good)], [4]))
    refuses(rstore.BadBox, lambda: s.update([(4, (5, 0, 1, 1))]))
    refuses(rstore.BadBox, lambda: s.window((5, 0, 1, 1)))
    assert refuses(rstore.BadBox, lambda: s.windows([good, (5, 0, 1, 1)])).index == 1
    assert refuses(rstore.Misuse, lambda: s.counts([good, (0, 0, 1)])).index == 1
    assert refuses(rstore.Misuse, lambda: s.windows([good, good], tag=[1, 2**32])).index == 1
    assert refuses(rstore.BadCount, lambda: s.nearest_many([(0, 0)], 0)).index == 0
    refuses(rstore.BadCount, lambda: s.nearest((0, 0), 1_000_001))
    refuses(rstore.WrongDims, lambda: s.window((0, 0, 0, 1, 1, 1)))
    refuses(rstore.Misuse, lambda: s.window(good, -1))
    refuses(rstore.Misuse, lambda: s.windows([good], "near"))
    refuses(rstore.NoObject, lambda: s[10**9])
    refuses(rstore.Misuse, lambda: s.get_many([-1]))
    refuses(rstore.DimsDiffer, lambda: s.join(rstore.dask.build([], where + "3", dims=3)))
    refuses(rstore.Misuse, lambda: s.join(rstore.dask.build([], where + "s", scale=10)))
    refuses(rstore.Misuse, lambda: s.join(s, -1))
    assert s.refresh().generation == 1 and len(s.refresh()) == 500 and sorted(os.listdir(where)) == before


def twice(folder: str) -> None:
    """An identifier that stands twice anywhere: in a part, in two parts, in two shards, in two files."""
    where = os.path.join(folder, "twice")
    s = rstore.dask.build(random_rows(300), where, shards=4)
    before = sorted(os.listdir(where))
    rows = random_rows(500)
    rows["id"][[0, 100, 200, 499]] = [900_000, 800_000, 900_000, 800_000]
    for near in (False, True):
        if near:
            rows["low"][100] = rows["high"][100] = rows["low"][499] = rows["high"][499] = 0  # in one shard
        for parts in (rows, [rows[:150], rows[150:]], list(numpy.array_split(rows, 20))):
            for shards in (1, 5):
                build = lambda: rstore.dask.build(parts, where, shards=shards)
                assert refuses(rstore.DuplicateInLoad, build, "800000").detail == 800_000
    for k in range(3):
        Path(folder, f"twice-{k}.csv").write_text(f"id,x,y\n{k},1,1\n{k + 1},900,900\n")
    error = refuses(rstore.DuplicateInLoad, lambda: rstore.dask.build(folder + "/twice-*.csv", where))
    assert error.detail == 1 and sorted(os.listdir(where)) == before and s.refresh().generation == 1


def damage(folder: str) -> None:
    """A file that is missing, cut or changed is named, also where it was open before; and no answer is given."""
    rows, where = random_rows(500), os.path.join(folder, "damage")
    s = rstore.dask.build(rows, where, shards=5)
    everything = [(int(id), (0, 0, 1, 1)) for id in rows["id"]]
    shard = (
        s.check, lambda: s.window(ALL), lambda: s.windows([ALL]), lambda: s.counts([ALL]), lambda: s.join(s).compute(),
        lambda: s.nearest((0, 0), 500), lambda: s.frame().compute(), lambda: s.get_many(rows["id"]),
        lambda: s.update(everything),
    )
    ids = s.check, lambda: s.get_many(rows["id"]), lambda: s.row(5), lambda: list(s), lambda: s.update((), [5])
    top = s.check, lambda: s.window(ALL), lambda: s.counts([ALL]), lambda: rstore.dask.open(where), lambda: s.join(s)
    entries = s.manifest["shards"][3], s.manifest["ids"][0], s.manifest["top"]
    for entry, calls in zip(entries, (shard, ids, top)):
        path = os.path.join(where, entry["path"])
        data = Path(path).read_bytes()
        for was_open in (False, True):
            for what in damages(data):
                tasks.forget()
                if was_open:
                    assert len(s.window(ALL)) == 500 and 5 in s
                hurt(path, what)
                for call in calls:
                    assert refuses(ShardError, call, path).path == path
                Path(path).write_bytes(data)
        assert len(s.window(ALL)) == 500
    s.check()
    assert s.refresh().generation == 1


def damages(data: bytes) -> "list":
    middle = len(data) // 2
    turned = data[:middle] + bytes([data[middle] ^ 1]) + data[middle + 1 :]
    return [data[:-1], data[:middle], b"", turned, data + b"x", None]


def hurt(path: str, what) -> None:
    """Writes over a file, or removes it."""
    if what is None:
        os.unlink(path)
    else:
        with open(path, "rb+") as out:  # the same file, which may be open
            out.truncate(0)
            out.write(what)


def manifests(folder: str) -> None:
    """Manifests that are cut or changed, folders that are no layer, or one of a later version."""
    where = os.path.join(folder, "manifests")
    refuses(NoManifest, lambda: rstore.dask.open(where), where)
    os.mkdir(where)
    refuses(NoManifest, lambda: rstore.dask.open(where), where)
    refuses(NoManifest, lambda: rstore.dask.vacuum(where), where)
    rstore.dask.build(random_rows(50), where, shards=2).update([(999, (0, 0, 1, 1))])
    path = os.path.join(where, "manifest-00000002.json")
    text = Path(path).read_text()
    table = json.loads(text)
    fewer = {**table, "shards": table["shards"][:1]}
    for wrong in (text[:-2], text[: len(text) // 2], "", text.replace('"count": 51', '"count": 50'), json.dumps(fewer)):
        Path(path).write_text(wrong)
        refuses(ShardError, lambda: rstore.dask.open(where), path)
        refuses(ShardError, lambda: rstore.dask.build(random_rows(5), where), path)
        refuses(ShardError, lambda: rstore.dask.vacuum(where, older_than=0), path)
    for wrong in ("[]", "{}", '{"format": "other"}'):
        Path(path).write_text(wrong)
        refuses(NoManifest, lambda: rstore.dask.open(where), path)
    Path(path).write_text(json.dumps({**table, "version": 2}))
    refuses(rstore.WrongVersion, lambda: rstore.dask.open(where), path)
    refuses(rstore.WrongVersion, lambda: rstore.dask.build(random_rows(5), where), path)
    Path(path).write_text(text)
    assert len(rstore.dask.open(where)) == 51


def writers(folder: str) -> None:
    """Of two writers one is refused, and nothing is lost."""
    where = os.path.join(folder, "writers")
    first = rstore.dask.build(random_rows(100), where, shards=3)
    second, files = rstore.dask.open(where), len(os.listdir(where))
    third = first.update([(1000, (0, 0, 1, 1))])
    before = sorted(os.listdir(where))
    refuses(Conflict, lambda: second.update([(1001, (0, 0, 1, 1))]), "manifest-00000002")
    refuses(Conflict, lambda: second.update((), []))
    assert sorted(os.listdir(where)) == before and len(before) > files
    assert 1000 not in second and 1000 in third and second.refresh().update([(1001, (0, 0, 1, 1))]).generation == 3
    conflicts = []

    def writer(number: int) -> None:
        for k in range(4):
            while True:
                try:
                    rstore.dask.open(where, scheduler="sync").update([(2000 + 10 * number + k, (k, k, k, k))], [])
                    break
                except Conflict:
                    conflicts.append(number)

    threads = [threading.Thread(target=writer, args=(number,)) for number in range(3)]
    for thread in threads:
        thread.start()
    for thread in threads:
        thread.join()
    now = second.refresh()
    assert now.generation == 3 + 12 and len(now) == 114
    assert all(2000 + 10 * number + k in now for number in range(3) for k in range(4))
    now.check()
    tell("conflicts of writers at once", len(conflicts))
    gone = rstore.dask.vacuum(where, older_than=0)
    assert gone and len(rstore.dask.open(where)) == 114 and len(os.listdir(where)) == 6
    refuses(ShardError, lambda: second.window(ALL))


FULL = """
import resource, sys
sys.path.insert(0, sys.argv[1])
import numpy
import rstore.dask
rows = numpy.load(sys.argv[2])
resource.setrlimit(resource.RLIMIT_FSIZE, (int(sys.argv[4]), int(sys.argv[4])))
try:
    rstore.dask.build(list(numpy.array_split(rows, 4)), sys.argv[3], shards=3)
except OSError as error:
    print("refused", type(error).__name__)
"""


def full_disk(folder: str) -> None:
    """A disk that is full in a task, at several moments: the generation that there was is whole, no file is left."""
    rows, where = random_rows(6000), os.path.join(folder, "full")
    numpy.save(where + ".npy", rows)
    s = rstore.dask.build(rows[:200], where, shards=2)
    before, library = sorted(os.listdir(where)), str(Path(__file__).resolve().parent.parent)
    for most in (1000, 20_000, 50_000, 90_000, 150_000):  # a file may have no more bytes
        words = [sys.executable, "-W", "ignore", "-c", FULL, library, where + ".npy", where, str(most)]
        told = subprocess.run(words, capture_output=True, text=True, check=True).stdout
        assert told.startswith("refused"), (most, told)
        assert sorted(os.listdir(where)) == before, (most, told, set(os.listdir(where)) - set(before))
        assert s.refresh().generation == 1, most
        tell("disks that were full in a task")
    disk = os.path.join(folder, "disk")
    os.mkdir(disk)
    if subprocess.run(["mount", "-t", "tmpfs", "-o", "size=1m", "none", disk], capture_output=True).returncode:
        print("only root can mount a small disk: none was filled")
        return
    try:
        s = rstore.dask.build(rows[:2000], disk + "/layer", shards=2)
        before = sorted(os.listdir(s.folder))
        for count in (5000, 9000, 12_000):
            many = random_rows(count, first=9000)
            refuses(OSError, lambda: rstore.dask.build(list(numpy.array_split(many, 6)), s.folder, shards=3))
            refuses(OSError, lambda: s.update(random_rows(count + 5000, first=9000)))
            assert sorted(os.listdir(s.folder)) == before and s.refresh().generation == 1
            tell("disks that were full in a task", 2)
        s.check()
        assert len(s.refresh().update([(7000, (0, 0, 1, 1))])) == 2001
    finally:
        tasks.forget()
        subprocess.run(["umount", "-l", disk], check=False)


def arm(flags: "list[str]", how: str) -> None:
    """Has the worker that it runs in kill itself at a moment of a build, once for each flag."""

    def dies() -> bool:
        for flag in flags:
            try:
                os.close(os.open(flag, os.O_CREAT | os.O_EXCL))
                return True
            except FileExistsError:
                pass
        return False

    def die() -> None:
        os.kill(os.getpid(), signal.SIGKILL)

    if how == "sort":
        sort = tasks.hilbert
        tasks.hilbert = lambda *given: die() if dies() else sort(*given)
    elif how == "load":  # half of a shard is in its file

        def load_rows(self, rows):
            if "part-" in str(self._store.path) and dies():
                loads(self, rows[: len(rows) // 2])
                self._store.commit()
                die()
            return loads(self, rows)

        loads, rstore.Layer.load_rows = rstore.Layer.load_rows, load_rows
    else:  # a shard, or a part of the directory, is whole, and nobody hears of it
        make = getattr(tasks, how)

        def made(*given):
            answer = make(*given)
            if dies():
                die()
            return answer

        setattr(tasks, how, made)


def killed_workers(folder: str) -> None:
    """Workers that are killed in a build, two in one: it goes on, and nothing of them is left."""
    from dask.distributed import Client, LocalCluster

    rows, where = random_rows(4000), os.path.join(folder, "killed")
    with rstore.open(None) as db:
        one = db.create_layer("all")
        one.load_rows(rows.copy())
        for how in ("load",) if QUICK else ("sort", "load", "write_store", "write_ids"):
            flags = [os.path.join(folder, f"killed-{how}-{k}") for k in range(2)]
            options = dict(n_workers=2, threads_per_worker=1, host="127.0.0.1", dashboard_address=None, silence_logs=50)
            with LocalCluster(local_directory=folder, **options) as workers, Client(workers) as client:
                client.run(arm, flags, how)
                s = rstore.dask.build(list(numpy.array_split(rows, 5)), where, shards=7, rows_per_shard=700)
                assert all(map(os.path.exists, flags)), how
                s.check()
                assert s.window((-500, -500, 100, 100)) == one.window((-500, -500, 100, 100))
                assert s.nearest((0, 0), 50) == one.nearest((0, 0), 50)
                tell("workers killed in builds", len(flags))
            rstore.dask.vacuum(where, older_than=0)
            assert len(os.listdir(where)) == 2 + 7 + 1


def killed_builders(folder: str) -> None:
    """A builder that is killed leaves the generation that there was, or a whole one."""
    rows, where = random_rows(3000), os.path.join(folder, "builder")
    library = str(Path(__file__).resolve().parent.parent)
    s = rstore.dask.build(rows, where, shards=3)
    numpy.save(where + ".npy", rows)
    text = (
        "import sys; sys.path.insert(0, sys.argv[1])\nimport numpy, rstore.dask; rows = numpy.load(sys.argv[2])\n"
        "s = rstore.dask.open(sys.argv[3]); print('go', flush=True)\n"
        "while True: rstore.dask.build(rows, sys.argv[3], shards=9)"
    )
    for wait in (0.05, 0.3) if QUICK else (0.0, 0.02, 0.05, 0.1, 0.15, 0.2, 0.3, 0.4, 0.6, 0.8):
        words = [sys.executable, "-W", "ignore", "-c", text, library, where + ".npy", where]
        with subprocess.Popen(words, stdout=subprocess.PIPE) as child:
            child.stdout.readline()
            time.sleep(wait)
            child.kill()
        s = s.refresh()
        s.check()
        assert (s.get_many(rows["id"]).numpy()["tag"] == rows["tag"]).all()
        tell("builders killed")
    rstore.dask.vacuum(where, older_than=0)
    s.refresh().check()
    assert len(os.listdir(where)) == 2 + len(s.manifest["shards"]) + 1


def main() -> None:
    folder = tempfile.mkdtemp(prefix="rstore-dask-")
    try:
        for test in (refusals, twice, damage, manifests, writers, full_disk, killed_builders, killed_workers):
            test(folder)
            tasks.forget()
    finally:
        shutil.rmtree(folder, ignore_errors=True)
    print("sharded layers that go wrong: " + ", ".join(f"{times} {what}" for what, times in tried.items()))


if __name__ == "__main__":
    main()

"""test_dask.py [ROUNDS [SEED]]: sharded layers beside one store with all objects: random layers of two and three axes
in 1 to 16 shards, of each kind of source, with every question, ties, empty shards, more neighbours than objects, joins
and changes, by Dask in this process and by two worker processes on the loopback; a million objects on one spot (fewer
in a quick run); which shards a question asks; and the example of the documentation. RSTORE_LIBRARY names librstore.so.
What goes wrong is tried in test_dask_failures.py."""

from __future__ import annotations

import contextlib
import json
import os
import pickle
import shutil
import sys
import tempfile
import warnings
from pathlib import Path

sys.path.insert(0, str(Path(__file__).resolve().parent.parent))
warnings.filterwarnings("ignore")

import dask
import dask.bag
import dask.dataframe
import numpy
import pandas

import rstore
import rstore.dask
from rstore import shards as tasks
from rstore.shards import ROW

QUICK = bool(os.environ.get("RSTORE_QUICK"))
KINDS = ("window", "inside", "around", "point")
WHOLE = (-(1 << 31), (1 << 31) - 1)
tried: "dict[str, int]" = {}


def tell(what: str, times: int = 1) -> None:
    tried[what] = tried.get(what, 0) + times


def random_rows(dice, n: int, dims: int, spread: int, width: int):
    """Rows of boxes within `spread`, some of them twice the same box, some in a cluster."""
    rows = numpy.zeros(n, ROW)
    rows["id"] = dice.permutation(max(4 * n, 1))[:n].astype(numpy.uint64) * numpy.uint64(dice.choice([1, 2**50]))
    low = dice.integers(-spread, spread, (n, dims))
    if n > 3 and dice.random() < 0.5:
        low[: n // 2] = low[0] + dice.integers(0, max(spread // 50, 1), (n // 2, dims))
    low = numpy.minimum(low, WHOLE[1])
    rows["low"][:, :dims] = low
    rows["high"][:, :dims] = numpy.minimum(low + dice.integers(0, width, (n, dims)), WHOLE[1])
    rows["tag"], rows["axes"] = dice.integers(0, 3, n), dims
    return rows


def boxes_of(rows, dims: int, scale):
    numbers = numpy.hstack([rows["low"][:, :dims], rows["high"][:, :dims]])
    return numbers if scale is None else numbers / scale


def source_of(dice, rows, dims: int, scale, folder: str):
    """The same objects as one kind of source."""
    boxes, parts = boxes_of(rows, dims, scale), int(dice.integers(1, 5))
    triples = [(int(i), tuple(b), int(t)) for i, b, t in zip(rows["id"], boxes.tolist(), rows["tag"])]
    kind = dice.choice(["rows", "parts", "objects", "lists", "delayed", "bag", "frame", "pandas", "csv", "geojson"])
    columns = {name: boxes[:, k] for k, name in enumerate(tasks.names(dims))}
    frame = pandas.DataFrame({"id": rows["id"], **columns, "tag": rows["tag"]})
    tell("built of " + kind)
    if not len(rows) or kind == "rows":
        return rows
    if kind in ("csv", "geojson"):
        return written(kind, frame, triples, parts, dims, folder)
    return {
        "parts": lambda: list(numpy.array_split(rows, parts)),
        "objects": lambda: triples,
        "lists": lambda: [triples[k::parts] for k in range(parts)],
        "delayed": lambda: [dask.delayed(part) for part in numpy.array_split(rows, parts)],
        "bag": lambda: dask.bag.from_sequence(triples, npartitions=parts),
        "frame": lambda: dask.dataframe.from_pandas(frame, npartitions=parts),
        "pandas": lambda: frame,
    }[kind]()


def written(kind: str, frame, triples, parts: int, dims: int, folder: str) -> str:
    """Files of text, by a pattern of their names."""
    for k in range(parts):
        path = os.path.join(folder, f"source-{k}.{kind}")
        if kind == "csv":
            frame.iloc[k::parts].to_csv(path, index=False)
            continue
        with open(path, "w", encoding="utf-8") as text:
            for id, box, tag in triples[k::parts]:
                shape = {"type": "LineString", "coordinates": [list(box[:dims]), list(box[dims:])]}
                feature = {"type": "Feature", "id": id, "properties": {"kind": tag}, "geometry": shape}
                text.write(json.dumps(feature) + "\n")
    return os.path.join(folder, f"source-*.{kind}")


class One:
    """One store with all objects."""

    def __init__(self, rows, dims: int, scale) -> None:
        self.db = rstore.open(None)
        self.again(rows, dims, scale)

    def again(self, rows, dims: int, scale) -> None:
        if "all" in self.db:
            self.db.drop_layer("all")
        self.layer = self.db.create_layer("all", dims, scale=scale)
        self.layer.load_rows(rows.copy())


def questions(dice, rows, dims: int, scale, spread: int, n: int = 25):
    """Boxes: some touch corners of objects, or are these."""
    low = dice.integers(-spread, spread, (n, dims))
    wide = dice.integers(0, spread, (n, dims)) // int(dice.choice([1, 8, 100]))
    asked = numpy.hstack([low, numpy.minimum(low + wide, WHOLE[1])])
    if len(rows):
        some = rows[dice.integers(0, len(rows), 8)]
        asked[:4, :dims] = asked[:4, dims:] = some["high"][:4, :dims]
        asked[4:8] = numpy.hstack([some["low"][4:, :dims], some["high"][4:, :dims]])
    return asked if scale is None else asked / scale


def compare(dice, sharded, layer, rows, spread: int, ks=(1, 3, 50, 10**6)) -> None:
    """Every question, of both."""
    dims = sharded.dims
    assert len(sharded) == len(layer) == len(rows) and sharded.bounds == layer.bounds
    asked = questions(dice, rows, dims, sharded.scale, spread)
    for kind in KINDS:
        compare_ranges(dice, sharded, layer, asked[:, :dims] if kind == "point" else asked, kind)
    assert (sharded.query(asked, "within") == layer.query(asked, "within")).all()
    for distance, tag in ((0, None), (spread // 20, 1), (spread // 9, dice.integers(0, 3, len(asked)))):
        distance = distance if sharded.scale is None else distance / sharded.scale
        ours, own = (it.query(asked, "dwithin", tag, distance=distance) for it in (sharded, layer))
        assert ours.shape == own.shape and (ours == own).all()
    for k in ks:
        points = asked[:12, :dims]
        ours, own = sharded.nearest_many(points, k), layer.nearest_many(points, k)
        assert (ours.ids == own.ids).all() and (ours.squared == own.squared).all()
        assert ours.ids.shape == own.ids.shape == (12, min(k, len(rows)))
        assert sharded.nearest(tuple(points[0].tolist()), k) == layer.nearest(tuple(points[0].tolist()), k)
        tell("questions of the nearest", 13)
    ids = numpy.concatenate([rows["id"][:40], numpy.array([5, 2**64 - 1], numpy.uint64)])
    assert list(sharded.get_many(ids)) == list(layer.get_many(ids))
    for id in ids[[0, -2, -1]].tolist():
        assert (id in sharded) == (id in layer) and sharded.get(id) == layer.get(id)
    tell("identifiers", len(ids))
    assert list(sharded) == list(layer)
    frame = sharded.frame().compute().sort_values("id")
    assert frame["id"].tolist() == list(layer) and frame["tag"].tolist() == [tag for *_, tag in layer.all_rows()]
    assert frame[tasks.names(dims)].values.tolist() == [list(box) for _, box in layer.items()]


def compare_ranges(dice, sharded, layer, numbers, kind: str) -> None:
    for tag in (None, 1, dice.integers(0, 3, len(numbers))):
        offsets, ids = sharded.windows(numbers, kind, tag)
        own = layer.windows_rows(numbers, kind, tag)
        found = sharded.windows_rows(numbers, kind, tag)
        counts = sharded.counts(numbers, kind, tag)
        assert (offsets == own.offsets).all() and (found.offsets == own.offsets).all()
        assert (numpy.diff(own.offsets) == counts).all()
        assert (ids == own.rows.numpy()["id"]).all() and (found.rows.numpy() == own.rows.numpy()).all()
        tell("range questions", 3 * len(numbers))
        if not isinstance(tag, numpy.ndarray):
            for q in range(0, len(numbers), 6):
                box = tuple(numbers[q].tolist())
                wanted = getattr(layer, kind)(box, tag)
                assert getattr(sharded, kind)(box, tag) == wanted
                if kind == "window":
                    assert sharded.window_ids(box, tag) == [id for id, *_ in wanted]
                    assert sharded.window_count(box, tag) == len(wanted)


def pairs(frame) -> "list[tuple[int, int]]":
    return sorted(map(tuple, frame.compute().values.tolist()))


def joins(dice, sharded, one: One, where: str, spread: int, width: int) -> None:
    """With itself, and with another layer in other shards."""
    dims, scale = sharded.dims, sharded.scale
    for within in (0, 3) if spread < 2**31 - 1 else (0,):
        assert pairs(sharded.join(sharded, within)) == one.layer.join(one.layer, within)
        tell("joins")
    others = random_rows(dice, int(dice.choice([0, 7, 300])), dims, spread, width)
    two = one.db.create_layer("other", dims, scale=scale)
    two.load_rows(others.copy())
    other = rstore.dask.build(others, where, dims=dims, scale=scale, shards=int(dice.integers(1, 6)))
    for within in (0, 2, spread // 4):
        within = within if scale is None else within / scale
        assert pairs(sharded.join(other, within)) == one.layer.join(two, within)
        assert pairs(other.join(sharded, within)) == two.join(one.layer, within)
        tell("joins", 2)


def changes(dice, sharded, one: One, rows, spread: int, width: int, steps: int):
    """Updates beside a store that is made anew of a table; the newest generation and its rows."""
    dims, held, table = sharded.dims, sharded, {int(row["id"]): row for row in rows}
    for step in range(steps):
        gone = [int(i) for i in dice.permutation(sorted(table))[: int(dice.integers(0, len(table) // 3 + 1))]]
        puts = random_rows(dice, int(dice.integers(0, 30)), dims, spread, width)
        puts = puts[~numpy.isin(puts["id"], numpy.array(gone, numpy.uint64))]
        sharded = sharded.update(puts if len(puts) else (), gone)
        for i in gone:
            del table[i]
        table.update({int(row["id"]): row for row in puts})
        now = numpy.array(list(table.values()), ROW)
        one.again(now, dims, sharded.scale)
        assert sharded.generation == held.generation + step + 1
        compare(dice, sharded, one.layer, now, spread, ks=(2,))
        tell("updates")
    assert len(held) == len(rows) and list(held) == sorted(rows["id"].tolist())
    return sharded, now


def settings(dice) -> None:
    """Small tasks and parts, or those of every day."""
    rstore.dask._IDS, rstore.dask._CHUNK = int(dice.choice([30, 1 << 22])), int(dice.choice([7, 20_000]))
    rstore.dask._FEW, rstore.dask._PART = int(dice.choice([0, 64])), int(dice.choice([50, 1 << 20]))
    tasks.OPEN_FILES = int(dice.choice([2, 64]))


def rounds(folder: str, count: int, seed: int) -> None:
    for turn in range(count):
        dice = numpy.random.default_rng(seed * 10_000 + turn)
        dims, shards = int(dice.integers(2, 4)), int(dice.integers(1, 17))
        n = int(dice.choice([0, 1, 5, 60, 400, 1500]))
        spread = int(dice.choice([8, 300, 10**6, 2**31 - 1]))
        scale = int(dice.choice([1000, 128])) if dice.random() < 0.3 and spread < 2**31 - 1 else None
        width = max(2, int(spread ** float(dice.choice([0.3, 0.9]))))
        settings(dice)
        where = os.path.join(folder, f"layer{turn}")
        os.mkdir(where)
        rows = random_rows(dice, n, dims, spread, width)
        one = One(rows, dims, scale)
        source = source_of(dice, rows, dims, scale, where)
        columns = ",kind" if isinstance(source, str) and source.endswith("geojson") else None
        sharded = rstore.dask.build(
            source, os.path.join(where, "s"), dims=dims, scale=scale, shards=shards, columns=columns,
            scheduler=str(dice.choice(["sync", "threads"])), blocksize="8kB",
        )
        counts = [entry["count"] for entry in sharded.manifest["shards"]]
        assert len(counts) == shards and sum(counts) == n
        tell(f"layers of {dims} axes")
        tell("shards", shards)
        tell("empty shards", counts.count(0))
        assert len(os.listdir(sharded.folder)) == 2 + shards + len(sharded.manifest["ids"])
        compare(dice, sharded, one.layer, rows, spread)
        joins(dice, sharded, one, os.path.join(where, "o"), spread, width)
        sharded, now = changes(dice, sharded, one, rows, spread, width, 1 if QUICK else 3)
        sharded.check()
        rstore.dask.vacuum(sharded.folder, older_than=0)
        assert len(os.listdir(sharded.folder)) == 2 + shards + len(sharded.manifest["ids"])
        again = pickle.loads(pickle.dumps(rstore.dask.open(sharded.folder)))
        compare(dice, again, one.layer, now, spread, ks=(2,))
        one.db.close()
        shutil.rmtree(where)


def one_spot(folder: str, count: int) -> None:
    """Objects that all lie on one spot are parted equally, too."""
    rows = numpy.zeros(count, ROW)
    rows["id"], rows["axes"] = numpy.random.default_rng(5).permutation(count), 2
    rows["low"][:, :2] = rows["high"][:, :2] = 77
    s = rstore.dask.build(numpy.array_split(rows, 8), os.path.join(folder, "spot"), shards=8)
    counts = [one["count"] for one in s.manifest["shards"]]
    assert sum(counts) == count and max(counts) - min(counts) <= count // 8 / 50, counts
    assert s.window_count((77, 77, 77, 77)) == count and s.nearest((0, 0), 5) == [(id, 2 * 77 * 77) for id in range(5)]
    assert s[count - 1] == (77, 77, 77, 77) and not s.window_ids((78, 77, 79, 79))
    print(f"{count} objects on one spot, in shards of {min(counts)} to {max(counts)}")
    shutil.rmtree(s.folder)


def asks(folder: str) -> None:
    """A question asks each shard at most once, and none that it need not."""
    dice, total, times = numpy.random.default_rng(3), 0, 0
    own, asked = (tasks.ask_near, tasks.ask_range), []
    tasks.ask_near = lambda file, *more: asked.append(file[0]) or own[0](file, *more)
    tasks.ask_range = lambda file, *more: asked.append(file[0]) or own[1](file, *more)
    rstore.dask._FEW = 64
    try:
        for turn in range(4):
            dims = 2 + turn % 2
            rows = random_rows(dice, 3000, dims, 10_000, 100)
            s = rstore.dask.build(rows, os.path.join(folder, f"asks{turn}"), dims=dims, shards=12)
            full = [one for one in s.manifest["shards"] if one["count"]]
            ends = {os.path.join(s.folder, one["path"]): (one["low"], one["high"]) for one in full}
            for _ in range(20):
                point, k = tuple(dice.integers(-11_000, 11_000, dims).tolist()), int(dice.choice([1, 10, 600]))
                asked.clear()
                last = s.nearest(point, k)[-1][1]
                assert len(set(asked)) == len(asked)
                for path, (low, high) in ends.items():
                    gap = sum(max(low[a] - point[a], point[a] - high[a], 0) ** 2 for a in range(dims))
                    assert gap > last or path in asked
                if k == 1:
                    total, times = total + len(asked), times + 1
                box = point + tuple(x + int(dice.integers(0, 3000)) for x in point)
                asks_ranges(s, box, asked, ends)
    finally:
        tasks.ask_near, tasks.ask_range = own
    print(f"{total / times:.2f} of 12 shards asked for the nearest one, on average")


def asks_ranges(s, box, asked: "list[str]", ends) -> None:
    for kind in KINDS:
        asked.clear()
        low, high = box[: s.dims], box[: s.dims] if kind == "point" else box[s.dims :]
        getattr(s, kind)(low if kind == "point" else box)
        wanted = set()
        for path, (least, most) in ends.items():
            meets = all(least[a] <= high[a] and low[a] <= most[a] for a in range(s.dims))
            encloses = all(least[a] <= low[a] and high[a] <= most[a] for a in range(s.dims))
            if encloses if kind == "around" else meets:
                wanted.add(path)
        assert set(asked) == wanted and len(asked) == len(wanted)
        tell("questions whose shards were counted")


def ask_there(points, where: str):
    """Asked in a task of one's own."""
    layer = rstore.dask.open(where, scheduler="sync")
    return [layer.nearest(point, 3) for point in points]


def cluster(folder: str) -> None:
    """Two worker processes on the loopback."""
    from dask.distributed import Client, LocalCluster

    dice = numpy.random.default_rng(7)
    rstore.dask._FEW, rstore.dask._CHUNK, rstore.dask._IDS = 0, 20_000, 1 << 22
    options = dict(n_workers=2, threads_per_worker=1, host="127.0.0.1", dashboard_address=None, silence_logs=50)
    with LocalCluster(local_directory=folder, **options) as workers, Client(workers):
        for dims in (2,) if QUICK else (2, 3):
            rows = random_rows(dice, 4000, dims, 10_000, 200)
            where, one = os.path.join(folder, f"cluster{dims}"), One(rows, dims, None)
            s = rstore.dask.build(list(numpy.array_split(rows, 5)), where, dims=dims, shards=7)
            compare(dice, s, one.layer, rows, 10_000)
            assert pairs(s.join(s, 10)) == one.layer.join(one.layer, 10)
            s.join(s).to_csv(where + "-pairs-*.csv", index=False)
            written = [os.path.join(folder, it) for it in os.listdir(folder) if it.startswith(f"cluster{dims}-pairs")]
            found = pandas.concat([pandas.read_csv(path) for path in written])
            assert sorted(map(tuple, found.values.tolist())) == one.layer.join(one.layer)
            asked = [tuple(int(x) for x in row["low"][:dims]) for row in rows[:60]]
            bag = dask.bag.from_sequence(asked, npartitions=4).map_partitions(ask_there, where)
            assert bag.compute() == [one.layer.nearest(point, 3) for point in asked]
            changes(dice, s, one, rows, 10_000, 200, 1)
            tell("sharded layers by two processes")


def geometries(folder: str) -> None:
    """A data frame of geopandas is taken by the bounds of its geometries."""
    try:
        import geopandas
        from shapely.geometry import LineString
    except ImportError:
        print("geopandas is not installed: data frames of it were not tried")
        return
    lines = [LineString([(k, k), (k + 1.5, k - 2)]) for k in range(200)]
    frame = geopandas.GeoDataFrame({"tag": [k % 3 for k in range(200)]}, geometry=lines)
    s = rstore.dask.build(frame, os.path.join(folder, "geometries"), scale=10, shards=3)
    assert list(s) == list(range(200)) and s.row(7) == (7, (7.0, 5.0, 8.5, 7.0), 1)


def example(folder: str) -> None:
    """The example of the documentation runs as it stands."""
    text = Path(__file__).resolve().parent.parent.parent.joinpath("docs", "LIBRARY.md").read_text(encoding="utf-8")
    before = os.getcwd()
    os.chdir(folder)
    try:
        with contextlib.redirect_stdout(None):
            exec(text.split("## Many machines")[1].split("```python")[1].split("```")[0], {})
        assert len(rstore.dask.open("parks")) == 99_998
    finally:
        os.chdir(before)


def main() -> None:
    count = int(sys.argv[1]) if len(sys.argv) > 1 else 3 if QUICK else 20
    folder = tempfile.mkdtemp(prefix="rstore-dask-")
    try:
        rounds(folder, count, int(sys.argv[2]) if len(sys.argv) > 2 else 1)
        settings(numpy.random.default_rng(0))
        tasks.OPEN_FILES = 64
        one_spot(folder, 100_000 if QUICK else 1_000_000)
        asks(folder)
        geometries(folder)
        example(folder)
        cluster(folder)
    finally:
        shutil.rmtree(folder, ignore_errors=True)
    print("sharded layers beside one store: " + ", ".join(f"{times} {what}" for what, times in tried.items()))


if __name__ == "__main__":
    main()

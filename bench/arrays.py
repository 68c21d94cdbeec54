"""arrays.py [BOXES [QUESTIONS [ROUNDS]]]: processor microseconds a question from Python, over 100,000 uniform boxes of
two axes: windows of about one, ten and a thousand rows, and the ten nearest to points, among the boxes and among as
many points. In one call of arrays of numpy (`windows`, `query`, `counts`, `nearest_many`) and one by one; beside
shapely's STRtree, geopandas' sindex, the package rtree and rstore.rtree, as far as they are installed (Debian's
python3-numpy, python3-shapely, python3-geopandas, python3-rtree). The least of ROUNDS rounds (3), programs in turns;
what has a call of Python a question is asked fewer. All have their boxes made beforehand. The store is in a file, with
4096 pages held.

    PYTHONPATH=library/lib python3 bench/arrays.py
"""

import os
import shutil
import sys
import tempfile
import time
import warnings

import numpy

import rstore
import rstore.rtree

warnings.filterwarnings("ignore")
BOXES, QUESTIONS, ROUNDS = (int(x) for x in (sys.argv[1:] + ["100000", "100000", "3"][len(sys.argv) - 1 :])[:3])
SIDE = 1_000_000
dice = numpy.random.default_rng(7)
low = dice.integers(0, SIDE, (BOXES, 2), dtype=numpy.int32)
corners = numpy.hstack([low, low + dice.integers(0, 1001, (BOXES, 2), dtype=numpy.int32)])


def windows(width: int) -> numpy.ndarray:
    """Square windows."""
    corner = dice.integers(0, SIDE, (QUESTIONS, 2), dtype=numpy.int32)
    return numpy.hstack([corner, corner + numpy.int32(width * (100_000 / BOXES) ** 0.5)])


def each(ask, asked) -> int:
    """One call after the other, and how many rows there are."""
    return sum(len(ask(one)) for one in asked)


#: what is measured: (row, column, a call that answers how many rows it found, of how many questions)
tasks = []


def measured(row: str, column: str, act, questions: int) -> None:
    tasks.append((row, column, act, questions))


def ours(layer, name: str, asked: numpy.ndarray, few: int) -> None:
    tuples = [tuple(one) for one in asked[:few].tolist()]
    measured(name, "rstore", lambda: len(layer.windows(asked).ids), len(asked))
    measured(name, "rstore, pairs (query)", lambda: layer.query(asked).shape[1], len(asked))
    measured(name, "rstore, counts", lambda: int(layer.counts(asked).sum()), len(asked))
    measured(name, "rstore, one by one", lambda: each(layer.window_ids, tuples), len(tuples))


def ours_near(layer, name: str, points: numpy.ndarray) -> None:
    tuples = [tuple(one) for one in points[:5000].tolist()]
    measured(name, "rstore", lambda: layer.nearest_many(points, 10).ids.size, len(points))
    measured(name, "rstore, one by one", lambda: each(lambda one: layer.nearest(one, 10), tuples), len(tuples))


class Shapely:
    """One call a question."""

    def __init__(self) -> None:
        from shapely.geometry import box
        from shapely.strtree import STRtree

        self.box, self.tree = box, STRtree([box(*one) for one in corners.tolist()])

    def ask(self, name: str, asked: numpy.ndarray, few: int) -> None:
        given = [self.box(*one) for one in asked[:few].tolist()]
        measured(name, "shapely STRtree, one by one", lambda: each(self.tree.query, given), len(given))


class Geopandas:
    """All in one call."""

    def __init__(self) -> None:
        import geopandas
        from shapely.geometry import box

        self.series, self.box = geopandas.GeoSeries, box
        index = self.series([box(*one) for one in corners.tolist()]).sindex
        self.query = index.query_bulk if hasattr(index, "query_bulk") else index.query

    def ask(self, name: str, asked: numpy.ndarray, few: int) -> None:
        given = self.series([self.box(*one) for one in asked[: few // 4].tolist()])
        measured(name, "geopandas sindex", lambda: self.query(given).shape[1], len(given))


class Rtree:
    """The package, or rstore.rtree."""

    def __init__(self, module, name: str) -> None:
        self.name, self.tree = name, module.Index([(k, tuple(one), None) for k, one in enumerate(corners.tolist())])

    def ask(self, name: str, asked: numpy.ndarray, few: int) -> None:
        given, ask = [tuple(one) for one in asked[: few // 2].tolist()], self.tree.intersection
        measured(name, f"{self.name}, one by one", lambda: each(lambda one: list(ask(one)), given), len(given))

    def near(self, name: str, points: numpy.ndarray) -> None:
        given, ask = [tuple(one) for one in points[:2000].tolist()], self.tree.nearest
        measured(name, f"{self.name}, one by one", lambda: each(lambda one: list(ask(one, 10)), given), len(given))


def others() -> list:
    made: list = [Rtree(rstore.rtree, "rstore.rtree")]
    for kind in (Shapely, Geopandas):
        try:
            made.append(kind())
        except ImportError:
            pass
    try:
        from rtree import index

        made.append(Rtree(index, "rtree"))
    except ImportError:
        pass
    return made


def measure() -> dict:
    """The least time of each task, and how many rows a question has."""
    best: dict = {}
    for _ in range(ROUNDS):
        for row, column, act, questions in tasks:
            start = time.process_time()
            found = act()
            took = (time.process_time() - start) * 1e6 / questions
            best[row, column] = min(best.get((row, column), (1e18, 0)), (took, found / questions))
    return best


def main() -> None:
    folder = tempfile.mkdtemp(dir="/dev/shm" if os.access("/dev/shm", os.W_OK) else None)
    db = rstore.open(folder + "/arrays.rst", create=True, cache=4096)
    layer, dots = db.create_layer("boxes"), db.create_layer("points")
    layer.load_arrays(numpy.arange(BOXES), corners)
    dots.load_arrays(numpy.arange(BOXES), numpy.hstack([low, low]))
    db.commit()
    beside = others()
    for name, width, few in (("1 row", 2700, 10_000), ("10 rows", 9500, 5_000), ("1000 rows", 99_500, 300)):
        asked = windows(width)
        ours(layer, name, asked, few)
        for other in beside:
            other.ask(name, asked, few)
    points = dice.integers(0, SIDE, (QUESTIONS, 2), dtype=numpy.int32)
    ours_near(layer, "10 nearest", points)
    ours_near(dots, "10 nearest points", points)
    for other in beside:
        if hasattr(other, "near"):
            other.near("10 nearest", points)
    best = measure()
    db.close()
    shutil.rmtree(folder)
    names, columns = list(dict.fromkeys(r for r, _ in best)), list(dict.fromkeys(c for _, c in best))
    print("| | " + " | ".join(names) + " |\n" + "|---" * (len(names) + 1) + "|")
    for column in columns:
        print(f"| {column} | " + " | ".join(f"{best[r, column][0]:.3g}" if (r, column) in best else "" for r in names) + " |")
    print("| rows found | " + " | ".join(f"{best[r, columns[0]][1]:.1f}" for r in names) + " |")


main()

"""test_rtree.py: `rstore.rtree.Index` by the examples of rtree's documentation, by what it refuses, and, where the package
rtree is there, beside it in random sessions. RSTORE_LIBRARY names librstore.so."""

import doctest
import math
import os
import pickle
import random
import sys
import tempfile
from pathlib import Path

sys.path.insert(0, str(Path(__file__).resolve().parent.parent))

import rstore.rtree
import rstore_rtree
from rstore.rtree import SCALE, Index, Property, RTreeError, index

try:
    import rtree.index as other
except ImportError:
    other = None


def tutorial(folder: str) -> None:
    """The tutorial of rtree."""
    idx = index.Index()
    left, bottom, right, top = (0.0, 0.0, 1.0, 1.0)
    idx.insert(0, (left, bottom, right, top))
    assert list(idx.intersection((1.0, 1.0, 2.0, 2.0))) == [0]
    assert list(idx.intersection((1.0000001, 1.0000001, 2.0, 2.0))) == []
    idx.insert(1, (left, bottom, right, top))
    assert sorted(idx.nearest((1.0000001, 1.0000001, 2.0, 2.0), 1)) == [0, 1]
    idx.insert(7, (left, bottom, right, top), obj={"a": 1})
    assert [n.object for n in idx.intersection((left, bottom, right, top), objects=True)] == [None, None, {"a": 1}]

    name = os.path.join(folder, "rtree")
    file_idx = index.Rtree(name)
    file_idx.insert(1, (left, bottom, right, top))
    file_idx.insert(2, (left - 1.0, bottom - 1.0, right + 1.0, top + 1.0))
    assert list(file_idx.intersection((left, bottom, right, top))) == [1, 2]
    file_idx.close()
    with index.Index(name) as again:
        assert len(again) == 2 and again.bounds == [-1.0, -1.0, 2.0, 2.0]
        refused(again.insert, 3, (0, 0, 1, 1), "an object")

    def generator_function():
        for i, obj in enumerate([(1, 2, 3, 4), (5, 6, 7, 8)]):
            yield (i, obj, obj)

    streamed = index.Index(generator_function())
    assert list(streamed.intersection((0, 0, 9, 9), objects="raw")) == [(1, 2, 3, 4), (5, 6, 7, 8)]

    p = index.Property()
    p.dimension = 3
    p.dat_extension = "data"
    p.idx_extension = "index"
    idx3d = index.Index(os.path.join(folder, "3d_index"), properties=p)
    idx3d.insert(1, (0, 60, 22, 0, 62, 43))
    assert list(idx3d.intersection((-1, 62, 22, -0.5, 62, 43))) == []
    assert list(idx3d.intersection((-1, 62, 22, 0.5, 62, 43))) == [1]
    idx3d.close()
    idx3d = index.Index(os.path.join(folder, "3d_index"), interleaved=False, properties=p, overwrite=True)
    idx3d.insert(1, (0, 1, 58, 62, 22, 24))
    assert list(idx3d.intersection((-1, 1, 58, 62, 22, 24))) == [1]
    assert idx3d.bounds == [0, 1, 58, 62, 22, 24]
    idx3d.close()


def refused(call, *arguments) -> None:
    """The call is refused in words."""
    try:
        call(*arguments)
    except RTreeError as error:
        assert len(str(error)) > 10, error
        return
    raise AssertionError((call, arguments))


def refusals() -> None:
    """What the index can't do says so."""
    idx = Index()
    idx.insert(1, (0, 0, 1, 1))
    refused(idx.insert, 2, (1, 1, 0, 0))
    refused(idx.insert, 2, (1, 1, 0))
    refused(idx.insert, 2, (0, 0, math.inf, 1))
    refused(idx.insert, 2, (0, 0, math.nan, 1))
    refused(idx.insert, 2, (0, 0, 1e301, 1))
    refused(Index(scale=SCALE).insert, 2, (0, 0, 300, 1))
    refused(lambda: idx.leaves())
    refused(lambda: Index(properties=Property(type=rstore.rtree.RT_TPRTree)))
    refused(lambda: Index(properties=Property(dimension=4)))
    assert idx.scale == SCALE and len(idx) == 1
    for window in ((-1e9, -1e9, 1e9, 1e9), (-math.inf, -math.inf, math.inf, math.inf)):
        assert list(idx.intersection(window)) == [1]
    wide = Index(scale=100)
    wide.insert(-5, (-1e6, 2e6, 3.25e6, 4e6))
    assert list(wide.nearest((0, 0))) == [-5]
    assert [i.bbox for i in wide.intersection((0, 3e6), objects=True)] == [[-1e6, 2e6, 3.25e6, 4e6]]


def scales(folder: str) -> None:
    """The scale follows the data, what is told stays exact, and a file keeps it all."""
    idx = Index()
    boxes = {1: (0.1, 0.2, 0.30000000000000004, 0.4), 2: (1 / 3, 1 / 7, 200.5, 200.25), 3: (-5e8, 1e-9, 7e8, 2e-9)}
    for id, box in boxes.items():
        idx.insert(id, box)
    assert idx.scale < 1 and idx.bounds == [-5e8, 1e-9, 7e8, 200.25]
    assert [(i.id, tuple(i.bbox)) for i in idx.intersection((-1e300, -1e300, 1e300, 1e300), objects=True)] == list(boxes.items())
    assert list(idx.intersection((0.4, 0.0, 0.5, 0.4))) == [2, 3] and list(idx.intersection((0.4, 1e-8, 0.5, 0.1))) == []
    assert list(idx.contains((0, 0, 0.30000000000000004, 0.4))) == [1] and list(idx.contains((0, 0, 0.3, 0.4))) == []
    huge = Index([(k, (x, -x, x, x), None) for k, x in enumerate((1.0, 1e30, 1e150, 1e300))])
    assert huge.bounds == [1.0, -1e300, 1e300, 1e300] and list(huge.intersection((1e150, 0, 1e150, 0))) == [2]
    assert list(huge.nearest((1e299, 0), 1)) == [0, 1, 2] or list(huge.nearest((1e299, 0), 1))[-1] == 2
    name = os.path.join(folder, "scaled")
    with Index(name) as one:
        for id, box in boxes.items():
            one.insert(id, box)
        one.insert(2, boxes[1])
    with Index(name) as again:
        assert again.scale == idx.scale and again.bounds == idx.bounds
        assert sorted((i.id, tuple(i.bbox)) for i in again.intersection((0, 0, 1, 1), objects=True)) == sorted(
            [*boxes.items(), (2, boxes[1])]
        )
        again.delete(2, boxes[1])
        again.delete(3, boxes[3])
        assert sorted(again.intersection((0, 0, 1, 1))) == [1, 2]
    with Index(name) as again:
        assert sorted(again.intersection((0, 0, 1, 1))) == [1, 2] and again.bounds == [0.1, 1 / 7, 200.5, 200.25]
        refused(again.__getstate__)


def below_zero(folder: str) -> None:
    """Identifiers below 0 come back as such from a file; a box may be given by an iterator."""
    name = os.path.join(folder, "below")
    with Index(name) as one:
        one.insert(-7, (0, 0, 1, 1))
        one.insert(7, (0, 0, 2, 1))
    with Index(name) as again:
        assert sorted(again.intersection(iter((0, 0, 1, 1)))) == [-7, 7] and again.bounds == [0, 0, 2, 1]
        assert list(again.contains([0, 0, 1, 1])) == [-7] and again.count((2, 1)) == 1


def shared() -> None:
    """Identifiers that occur more than once, and indexes that are pickled."""
    idx = Index([(7, (k, k, k + 1, k + 1), f"object {k}") for k in range(5)])
    idx.insert(7, (9, 9, 9, 9), "last")
    idx.insert(-7, (9, 9, 9, 9))
    again = pickle.loads(pickle.dumps(idx))
    for one in (idx, again):
        assert len(one) == 7 and sorted(one.intersection((0, 0, 9, 9))) == [-7, 7, 7, 7, 7, 7, 7]
        assert list(one.intersection((2.5, 2.5, 2.6, 2.6), objects="raw")) == ["object 2"]
        one.delete(7, (8, 8, 8, 8))
        one.delete(7, (2, 2, 3, 3))
        assert one.count((2.5, 2.5, 2.6, 2.6)) == 0 and len(one) == 6
        one.delete(-7, (9, 9, 9, 9))
        assert list(one.intersection((9, 9, 9, 9), objects="raw")) == ["last"]


def beside_any(seed: int, size: float) -> None:
    """A random session beside rtree's with coordinates of any size, which no stored number tells."""
    dice = random.Random(seed)
    here, there, entries = Index(), other.Index(), []

    def box():
        low = [dice.uniform(-size, size) for _ in range(2)]
        return low + [x + dice.choice([0, 0.001, 0.3]) * size for x in low]

    for step in range(300):
        if step % 3 or not entries:
            entries.append((dice.randrange(-50, 50), box()))
            here.insert(*entries[-1])
            there.insert(*entries[-1])
        elif dice.random() < 0.3:
            one = entries.pop(dice.randrange(len(entries)))
            here.delete(*one)
            there.delete(*one)
        else:
            window, k = dice.choice([box(), dice.choice(entries)[1]]), dice.randrange(1, 9)
            assert sorted(here.intersection(window)) == sorted(there.intersection(window)), (size, window)
            assert here.count(window) == there.count(window)
            assert sorted(here.nearest(window, k)) == sorted(there.nearest(window, k)), (size, window, k)
        if step % 50 == 49:
            assert here.bounds == there.bounds and len(here) == len(entries)
            one = sorted((i.id, i.bbox) for i in here.intersection(here.bounds, objects=True))
            assert one == sorted((i.id, i.bbox) for i in there.intersection(there.bounds, objects=True))


def beside(seed: int, dims: int, interleaved: bool, steps: int) -> None:
    """A random session beside rtree's."""
    dice = random.Random(seed)
    here = Index(interleaved=interleaved, properties=Property(dimension=dims), scale=1000)
    there = other.Index(interleaved=interleaved, properties=other.Property(dimension=dims))
    boxes = {}

    def box():
        # eighths, so that both have the numbers exactly
        low = [dice.randrange(-400, 400) / 8 for _ in range(dims)]
        high = [x + dice.choice([0, 1, 30]) * dice.randrange(8) / 8 for x in low]
        made = low + high
        return made if interleaved else Index.deinterleave(made)

    if seed % 2:
        boxes = {k: box() for k in range(50)}
        stream = [(k, b, None) for k, b in boxes.items()]
        here = Index(stream, interleaved=interleaved, properties=Property(dimension=dims), scale=1000)
        there = other.Index(stream, interleaved=interleaved, properties=other.Property(dimension=dims))
    for _ in range(steps):
        turn, id = dice.randrange(10), dice.randrange(-20, 200)
        if turn < 5 and id not in boxes:
            boxes[id] = box()
            here.insert(id, boxes[id])
            there.insert(id, boxes[id])
        elif turn == 5 and boxes:
            id = dice.choice(list(boxes))
            wrong = box()
            here.delete(id, wrong)
            here.delete(id, boxes[id])
            there.delete(id, boxes.pop(id))
        elif turn == 6:
            window = box()
            assert sorted(here.intersection(window)) == sorted(there.intersection(window))
            assert here.count(window) == there.count(window)
            one = sorted((i.id, i.bbox, i.bounds) for i in here.intersection(window, objects=True))
            two = sorted((i.id, i.bbox, i.bounds) for i in there.intersection(window, objects=True))
            assert one == two, (one, two)
        elif turn == 7:
            window = box()
            low, high = (window[:dims], window[dims:]) if interleaved else (window[0::2], window[1::2])
            inside = []
            for key, b in boxes.items():
                b = b if interleaved else Index.interleave(b)
                if all(low[a] <= b[a] and b[a + dims] <= high[a] for a in range(dims)):
                    inside.append(key)
            assert sorted(here.contains(window)) == sorted(inside)
        elif turn == 8 and boxes:
            window, k = box(), dice.randrange(1, 12)
            assert sorted(here.nearest(window, k)) == sorted(there.nearest(window, k)), (window, k)
        elif turn == 9:
            assert len(here) == len(boxes)
            if boxes:
                assert here.bounds == there.bounds, (here.bounds, there.bounds)
                assert here.get_bounds(True) == there.get_bounds(True)


def main() -> int:
    """Runs all."""
    with tempfile.TemporaryDirectory() as folder:
        tutorial(folder)
        scales(folder)
        below_zero(folder)
    refusals()
    shared()
    failed, tried = doctest.testmod(rstore.rtree)
    assert not failed and tried >= 20, (failed, tried)
    if other is None:
        print(f"rtree: the tutorial and {tried} lines of its documentation; the package is not here to compare")
        return 0
    for seed in range(24):
        beside(seed, 2 + seed % 2 if seed < 12 else 2, seed % 3 != 0 or seed % 2 == 1, 400)
    sizes = (1e-3, 1, 1e4, 1e9, 1e100)
    for seed in range(20):
        beside_any(seed, sizes[seed % len(sizes)])
    print(f"rtree: the tutorial, {tried} lines of its documentation, and 44 sessions beside the package agree")
    return 0


if __name__ == "__main__":
    sys.exit(main())

"""test_arrays.py: many questions in one call beside single ones, with numpy where it is installed and without it: kinds,
tags, scales, two and three axes, arrays of other types, shapes and orders, loads of arrays, what is refused with its
index, and Ctrl-C in a long call. RSTORE_LIBRARY names librstore.so."""

from __future__ import annotations

import array
import os
import random
import signal
import sys
import tempfile
import threading
from pathlib import Path

sys.path.insert(0, str(Path(__file__).resolve().parent.parent))

import rstore
from rstore import _given

KINDS = ("window", "inside", "around", "point")
PREDICATES = {"intersects": "window", "contains": "inside", "within": "around"}


def boxes(dice: random.Random, dims: int, count: int, wide: int, scale: int) -> "list[tuple]":
    made = []
    for _ in range(count):
        low = [dice.randrange(1000) for _ in range(dims)]
        high = [x + dice.randrange(wide) for x in low]
        made.append(tuple(x / scale if scale > 1 else x for x in (*low, *high)))
    return made


def pairs(found) -> "list[list[int]]":
    ids, offsets = list(map(int, found.ids)), list(map(int, found.offsets))
    return [ids[a:b] for a, b in zip(offsets, offsets[1:])]


def as_given(numbers, form):
    """The same numbers as another kind of array."""
    if form == "list":
        return numbers
    flat = [x for one in numbers for x in one]
    if form == "buffer":
        return array.array("i", flat)
    import numpy

    made = numpy.array(numbers, dtype={"int32": "i4", "int64": "i8", "floats": "f8", "turned": "i4"}[form])
    return numpy.asfortranarray(made) if form == "turned" else made


def compare(layer: rstore.Layer, dims: int, scale: int, forms: "list[str]") -> int:
    dice, tried = random.Random(dims), 0
    asked = boxes(dice, dims, 40, 200, scale)
    points = [box[:dims] for box in asked]
    tags = [dice.randrange(3) for _ in asked]
    for form in forms:
        for kind in KINDS:
            numbers = points if kind == "point" else asked
            given, single = as_given(numbers, form), getattr(layer, kind)
            for tag in (None, 1, tags):
                each = tags if tag is tags else [tag] * len(asked)
                wanted = [single(one, t) for one, t in zip(numbers, each)]
                assert pairs(layer.windows(given, kind, tag)) == [[id for id, _, _ in rows] for rows in wanted]
                found = layer.windows_rows(given, kind, tag)
                assert list(found.rows) == [row for rows in wanted for row in rows]
                assert list(layer.counts(given, kind, tag)) == [len(rows) for rows in wanted]
                tried += len(asked)
        for k in (1, 10, 5000):
            found = layer.nearest_many(as_given(points, form), k)
            for q, point in enumerate(points):
                single = layer.nearest(point, k)
                assert [int(id) for id in found.ids[q]] == [id for id, _ in single]
                assert all(abs(float(a) - b) <= 1e-9 * b for a, (_, b) in zip(found.squared[q], single))
            tried += len(points)
    ids = [0, 3, 10**9, 6, 3]
    assert list(layer.get_many(ids)) == [layer.row(id) if id in layer else None for id in ids]
    assert layer.get_many(ids)[2] is None and layer.get_many(ids)[-1] == layer.row(3)
    return tried


def apart(one: tuple, other: tuple) -> int:
    """The squared distance of two boxes."""
    dims = len(one) // 2
    gaps = (max(one[a] - other[dims + a], other[a] - one[dims + a], 0) for a in range(dims))
    return sum(int(gap) ** 2 for gap in gaps)


def refused(kind, act, index=None) -> None:
    try:
        act()
    except kind as error:
        assert index is None or error.index == index and str(index) in str(error), (error, index)
    else:
        raise AssertionError(f"{kind.__name__} was expected")


def refusals(layer: rstore.Layer, numpy) -> None:
    good = (0, 0, 9, 9)
    refused(rstore.BadBox, lambda: layer.windows([good, good, (5, 5, 1, 9)]), 2)
    refused(rstore.BadBox, lambda: layer.counts([(5, 5, 1, 9)]), 0)
    refused(rstore.Error, lambda: layer.windows([good, (0, 0, 1 << 31, 9)]), 1)
    refused(rstore.Misuse, lambda: layer.windows([good], "near"))
    refused(rstore.Misuse, lambda: layer.windows([good], tag=1 << 32))
    refused(rstore.Misuse, lambda: layer.windows([good, good], tag=[1, 1 << 32]), 1)
    refused(rstore.Misuse, lambda: layer.windows([good, good], tag=[1]))
    refused(rstore.BadCount, lambda: layer.nearest_many([(0, 0)], 0), 0)
    refused(rstore.Misuse, lambda: layer.get_many([1, -1]), 1)
    assert list(layer.windows([]).offsets) == [0] and not len(layer.windows([]).ids)
    assert not len(layer.counts([])) and not len(layer.nearest_many([]).ids) and not len(layer.get_many([]))
    if numpy is None:
        refused(ImportError, lambda: layer.query([good]))
        return
    refused(rstore.Misuse, lambda: layer.windows(numpy.zeros((3, 6), "i4")))
    refused(rstore.Misuse, lambda: layer.windows(numpy.zeros(4, "i8")))
    refused(rstore.Misuse, lambda: layer.windows(numpy.zeros((3, 4), "f8")))
    refused(rstore.Misuse, lambda: layer.windows(numpy.array([["a"] * 4])))
    refused(rstore.Misuse, lambda: layer.query([good], "touches"))
    refused(rstore.Misuse, lambda: layer.windows(numpy.array([good, (0, 0, 1 << 40, 9)])), 1)
    for predicate, kind in PREDICATES.items():
        found, singles = layer.query(numpy.array([good, (0, 0, 900, 900)]), predicate), []
        for q, one in enumerate((good, (0, 0, 900, 900))):
            singles += [(q, id) for id, _, _ in getattr(layer, kind)(one)]
        assert found.shape == (2, len(singles)) and [tuple(map(int, pair)) for pair in found.T] == singles
    boxes, rows = [(40 * q, 7 * q, 40 * q + 3, 7 * q) for q in range(150)], list(layer.all_rows())
    for distance, tag in ((0, None), (9, None), (30, 1), (30, [q % 3 for q in range(150)])):
        wanted = [
            (q, id)
            for q, box in enumerate(boxes)
            for id, other, kept in rows
            if apart(box, other) <= distance**2 and (tag is None or kept == (tag if isinstance(tag, int) else tag[q]))
        ]
        found = layer.query(numpy.array(boxes), "dwithin", tag, distance=distance)
        assert [tuple(map(int, pair)) for pair in found.T] == wanted
    assert layer.query([], "dwithin", distance=1).shape == (2, 0)
    refused(rstore.Misuse, lambda: layer.query([good], "dwithin"))
    refused(rstore.Misuse, lambda: layer.query([good], "intersects", distance=1))
    refused(rstore.Misuse, lambda: layer.query([good], "dwithin", distance=-1))
    refused(rstore.BadBox, lambda: layer.query([good, (9, 0, 0, 9)], "dwithin", distance=1), 1)
    kept = numpy.array([good], "i4")
    kept.flags.writeable = False
    assert len(layer.windows(kept).offsets) == 2


def wrong_arrays(layer: rstore.Layer, numpy) -> None:
    """Arrays of the wrong type, shape or order, and which member is wrong: nothing is answered, and nothing changed."""
    good = (0, 0, 9, 9)
    wrongs = [[good, one] for one in ((0, 0, 9), (0, 0, 9, 1 << 70), (0, 0, 9, 1.5), 7, "abcd", None)]
    for wrong in [*wrongs, iter([good, None])]:
        refused(rstore.Misuse, lambda: layer.windows(wrong), 1)
    refused(rstore.Misuse, lambda: layer.windows(7))
    refused(rstore.Misuse, lambda: layer.windows([good], tag=1.5))
    refused(rstore.Misuse, lambda: layer.windows([good, good], tag=[1, "x"]), 1)
    refused(rstore.Misuse, lambda: layer.get_many(7))
    refused(rstore.Misuse, lambda: layer.get_many([1, 2, 1 << 64]), 2)
    nine = memoryview(bytes(96)).cast("q", (3, 4)) if numpy is None else numpy.zeros((3, 3), "i8")
    refused(rstore.Misuse, lambda: layer.windows(nine))
    if numpy is None:
        return
    two = numpy.array([good, (5, 5, 30, 30)])
    for tags in (numpy.array([1, 2]), numpy.array([1, 2], "u1"), numpy.array([1, 2], ">i2"), numpy.array([1, 2], "u4")):
        assert pairs(layer.windows(two, tag=tags)) == pairs(layer.windows(two, tag=[1, 2]))
    assert pairs(layer.windows(two, tag=numpy.int64(1))) == pairs(layer.windows(two, tag=1))
    gaps, turns = numpy.repeat(two, 2, axis=0)[::2], [two.astype(kind) for kind in (">i4", "u2", "i8", "u8")]
    for turned in [*turns, gaps, numpy.asfortranarray(two)]:
        assert pairs(layer.windows(turned)) == pairs(layer.windows(two))
    assert list(layer.get_many(numpy.array([3, 5], "i2"))) == list(layer.get_many([3, 5]))
    refused(rstore.Misuse, lambda: layer.windows(two, tag=numpy.array([1, 1 << 32])), 1)
    refused(rstore.Misuse, lambda: layer.windows(two, tag=numpy.array([1, -1])), 1)
    refused(rstore.Misuse, lambda: layer.windows(two, tag=numpy.array([0.0, 1.0])), 0)
    refused(rstore.Misuse, lambda: layer.windows(two, tag=two))
    refused(rstore.Misuse, lambda: layer.get_many(numpy.array([5, 6, -1], "i1")), 2)
    refused(rstore.Misuse, lambda: layer.windows(two.astype("O")))
    refused(rstore.Misuse, lambda: layer.windows(numpy.zeros((2, 4), bool)))
    refused(rstore.Misuse, lambda: layer.windows(numpy.array([good, (0, 0, 1 << 63, 9)], "u8")), 1)
    refused(rstore.BadBox, lambda: layer.windows(two[:, [2, 1, 0, 3]]), 0)
    refused(rstore.BadBox, lambda: layer.counts(numpy.vstack([two, two, (9, 9, 8, 9)])), 4)


def wrong_loads(db: rstore.Store, numpy) -> None:
    """Loads that are refused tell which object it was, and leave the layer empty."""
    layer, good = db.create_layer("loaded"), (0, 0, 9, 9)
    for wrong in (
        [(1, good), (2, (0, 0, 9))], [(1, good), (2, good, 1 << 32)], [(1, good), (-2, good)], [(1, good), (2.0, good)],
        [(1, good), (2,)], [(1, good), 7], [(1, good), (2, (0, 0, 9, 1 << 31))], [(1, good), (2, None)],
    ):
        refused(rstore.Misuse, lambda: layer.load(wrong), 1)
    refused(rstore.WrongDims, lambda: layer.load([(1, good), (2, (0, 0, 0, 9, 9, 9))]), 1)
    refused(rstore.BadBox, lambda: layer.load([(1, good), (2, good), (3, (0, 9, 9, 8))]), 2)
    refused(rstore.DuplicateInLoad, lambda: layer.load([(7, good), (5, good), (5, good), (7, good)]), 2)
    refused(rstore.Misuse, lambda: layer.load_arrays([1, 2, 1 << 64], [good] * 3), 2)
    refused(rstore.Misuse, lambda: layer.load_arrays([1, 2], [good, (0, 0, 1, 1 << 31)]), 1)
    refused(rstore.Misuse, lambda: layer.load_arrays([1, 2], [good, good], [0, 1 << 32]), 1)
    refused(rstore.Misuse, lambda: layer.load_arrays([1, 2], [good, good], [0]))
    refused(rstore.Misuse, lambda: layer.load_arrays([1, 2], [good]))
    refused(rstore.BadBox, lambda: layer.load_arrays([1, 2], [good, (1, 0, 0, 0)]), 1)
    refused(rstore.Misuse, lambda: layer.load_rows(b"123"))
    refused(rstore.Misuse, lambda: layer.load_rows(7))
    refused(rstore.Misuse, lambda: layer.load_rows(array.array("q", [0] * 5)))
    assert len(layer) == 0
    rows = [(k, (k, k, k + 2, k + 3), k % 7) for k in range(100)]
    assert layer.load_arrays([], []) == 0 and layer.load_arrays([], [], []) == 0
    assert layer.load_arrays(range(100), [box for _, box, _ in rows], [tag for *_, tag in rows]) == 100
    assert list(layer.all_rows()) == rows
    refused(rstore.NotEmpty, lambda: layer.load_arrays([1], [good]))
    db.drop_layer("loaded")
    three = db.create_layer("loaded", 3, scale=10)
    assert three.load_arrays([5], [(0.5, 0, 0, 1, 1, 1)], 9) == 1 and three.row(5) == (5, (0.5, 0, 0, 1, 1, 1), 9)
    db.drop_layer("loaded")
    if numpy is None:
        return
    layer = db.create_layer("loaded")
    made = numpy.zeros(100, rstore._rows.ROW_FIELDS)
    made["id"], made["high"][:, :2] = numpy.arange(100), 5
    turned = made.astype([(name, made.dtype[name].newbyteorder(">")) for name in made.dtype.names])
    for wrong in (turned, numpy.zeros((3, 5), "i8"), made["low"], made["id"]):
        refused(rstore.Misuse, lambda: layer.load_rows(wrong))
    assert len(layer) == 0 and layer.load_rows(made[::2]) == 50 and list(layer) == list(range(0, 100, 2))
    db.drop_layer("loaded")
    layer = db.create_layer("loaded")
    assert layer.load_arrays(numpy.arange(5), numpy.full((5, 4), 3.0).astype("i2"), numpy.arange(5)) == 5
    assert list(layer.all_rows()) == [(k, (3, 3, 3, 3), k) for k in range(5)]
    db.drop_layer("loaded")


def interrupts(layer: rstore.Layer) -> None:
    """Ctrl-C in a long call comes when it has ended, and the store goes on."""
    asked = [(0, 0, 2000, 2000)] * 2000
    wanted = list(layer.counts(asked[:2]))
    signal.signal(signal.SIGINT, signal.default_int_handler)  # a shell lets what it starts behind it ignore SIGINT
    try:
        threading.Timer(0.05, os.kill, (os.getpid(), signal.SIGINT)).start()
        for _ in range(50):
            layer.windows_rows(asked)
        raise AssertionError("Ctrl-C did not come")
    except KeyboardInterrupt:
        pass
    assert list(layer.counts(asked[:2])) == wanted


def run(path: str, numpy) -> int:
    """All of it, with numpy or without it."""
    _given._NUMPY = numpy or False
    tried = 0
    with rstore.open(path, create=True) as db:
        for dims in (2, 3):
            for scale in (1, 100):
                layer = db.create_layer(f"d{dims}_{scale}_{'n' if numpy else 'p'}", dims, scale=None if scale == 1 else scale)
                dice = random.Random(7)
                layer.load((3 * k, box, dice.randrange(3)) for k, box in enumerate(boxes(dice, dims, 2000, 40, scale)))
                forms = ["list", "buffer"] if scale == 1 else ["list"]
                if numpy:
                    forms += ["int32", "int64", "turned"] if scale == 1 else ["floats"]
                tried += compare(layer, dims, scale, forms)
        flat = db.create_layer("flat" + ("n" if numpy else "p"))
        flat.load((k, (k, k, k + 5, k + 5)) for k in range(1000))
        refusals(flat, numpy)
        wrong_arrays(flat, numpy)
        wrong_loads(db, numpy)
        interrupts(flat)
        if numpy:
            large = db.create_layer("decimal", scale=100)
            refused(rstore.Misuse, lambda: large.windows(numpy.array([[0, 0, 1, 1], [0, 0, numpy.nan, 1.0]])), 1)
            refused(rstore.Misuse, lambda: large.windows(numpy.array([[0, 0, 1e9, 1.0]])), 0)
    return tried


def main() -> None:
    try:
        import numpy
    except ImportError:
        numpy = None
    with tempfile.TemporaryDirectory() as folder:
        tried = run(folder + "/plain.rst", None)
        print(f"{tried} questions in one call as one by one, without numpy")
        if numpy is None:
            print("numpy is not installed: arrays of it were not tried")
        else:
            print(f"{run(folder + '/arrays.rst', numpy)} with numpy")


main()

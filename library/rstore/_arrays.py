"""Many questions of a layer in one call: arrays in, arrays out. They are numpy's where numpy is installed, else
memoryviews."""

from __future__ import annotations

import operator
from ctypes import addressof, byref, c_size_t, c_uint64
from typing import Any, Iterator, NamedTuple, Optional

from rstore._given import Numbers, coordinates, given_rows, made_rows, numpy_or_none, of_bytes, unsigned
from rstore._library import AROUND, INSIDE, POINT, ROW_SIZE, WINDOW, CRow, Made, whole
from rstore._rows import Rows, tuples
from rstore.errors import Error, Misuse

KINDS = {"window": WINDOW, "inside": INSIDE, "around": AROUND, "point": POINT}
#: the predicates of shapely's and geopandas' trees, for boxes
PREDICATES = {
    "intersects": "window", "contains": "inside", "covers": "inside", "within": "around", "covered_by": "around",
}


class Found(NamedTuple):
    """What many range queries found: of query q the identifiers ids[offsets[q]:offsets[q + 1]], ascending."""

    offsets: Any
    ids: Any


class FoundRows(NamedTuple):
    """The same with whole rows: of query q rows[offsets[q]:offsets[q + 1]]."""

    offsets: Any
    rows: Rows


class Neighbours(NamedTuple):
    """The nearest to many points, nearest first: identifiers and squared distances, both of shape (points, k), or less
    than k where the layer has fewer objects. The distances are floating-point numbers, exact below 2^53; those of
    `Layer.nearest` always are."""

    ids: Any
    squared: Any


class MaybeRows(Rows):
    """Rows of objects that were asked for by their identifiers: None where there is none (with axes 0 in `numpy`)."""

    def _one(self, k: int) -> Any:
        if not self._held[k].axes:
            return None
        return tuples(self._form, self.memory[k * ROW_SIZE : (k + 1) * ROW_SIZE], self._scale)[0]

    def __getitem__(self, k: Any) -> Any:
        if isinstance(k, slice):
            return [self[i] for i in range(*k.indices(self._count))]
        if not -self._count <= k < self._count:
            raise IndexError("no row of that number")
        return self._one(k % self._count)

    def __iter__(self) -> Iterator[Any]:
        return (self._one(k) for k in range(self._count))


class ArrayQuestions:
    """What a `Layer` answers to arrays. Boxes are an array of shape (n, 2 * dims), the lows and then the highs, points one of
    shape (n, dims): of numpy, where int32 in C's order is not copied and, with a scale, decimal numbers are rounded as in
    single questions; or any buffer of 32-bit numbers; or a sequence. Each question is answered by the same proved code as
    a single one, all of one table: the store is not changed meanwhile. Of the first question that is refused the
    exception is raised, with its place as `index`, and nothing is answered. While a call runs other threads do; Ctrl-C
    comes when it has ended."""

    def windows(self: Any, boxes: Any, kind: str = "window", tag: Any = None) -> Found:
        """For each box the identifiers of the objects that meet it (or with another kind that lie "inside" it or
        "around" it, or around a "point"), with a tag only those that have it: one for all, or an array of one for
        each."""
        offsets, made = self._range_many(self._lib.rstore_windows, boxes, kind, tag)
        return Found(_shown(offsets), _taken(made, offsets[-1]))

    def windows_rows(self: Any, boxes: Any, kind: str = "window", tag: Any = None) -> FoundRows:
        """The same with whole rows."""
        offsets, made = self._range_many(self._lib.rstore_windows_rows, boxes, kind, tag)
        return FoundRows(_shown(offsets), Rows(made.array(CRow, offsets[-1]), self.dims, self.scale))

    def query(self: Any, boxes: Any, predicate: str = "intersects", tag: Any = None, distance: Any = None) -> Any:
        """The same as pairs of the index of a box and an identifier, in an array of shape (2, m), as `STRtree.query` of
        shapely 2 and `sindex.query` of geopandas answer. The predicate says how a box is to an object: it "intersects"
        it, "contains" or "covers" it, is "within" it or "covered_by" it, or "dwithin" a distance of it, which is rounded
        up to the numbers that are stored. Wants numpy."""
        if predicate not in PREDICATES and predicate != "dwithin":
            raise Misuse(f"{self.name}: a predicate is one of {', '.join(PREDICATES)}, dwithin: {predicate!r}")
        if (distance is None) == (predicate == "dwithin"):
            raise Misuse(f"{self.name}: a distance goes with dwithin, and with no other predicate")
        numpy = numpy_or_none()
        if numpy is None:
            raise ImportError("query wants numpy; windows does not")
        if predicate == "dwithin":
            return self._query_within(numpy, boxes, tag, distance)
        offsets, ids = self.windows(boxes, PREDICATES[predicate], tag)
        pairs = numpy.empty((2, len(ids)), ids.dtype)
        pairs[0], pairs[1] = numpy.repeat(numpy.arange(len(offsets) - 1, dtype=ids.dtype), numpy.diff(offsets)), ids
        return pairs

    def _query_within(self: Any, numpy: Any, boxes: Any, tag: Any, distance: Any) -> Any:
        """By a join of the boxes, each with its index as its identifier."""
        numbers = coordinates(self, boxes, False)
        tags = self._tags(tag, numbers.count)
        rows = made_rows(self.dims, unsigned(numpy.arange(numbers.count), 64, "an index"), numbers, tags)
        return self._near_rows(numpy, rows, self._squared(distance), tags is not None)

    def _near_rows(self: Any, numpy: Any, rows: Any, squared: int, tagged: bool) -> Any:
        """The pairs of rows, whose identifiers ascend, and objects that are so near, or of these those that have the tag of
        the row, in an array of shape (2, m)."""
        found = numpy.frombuffer(self._joined_rows(given_rows(rows), squared), "u8").reshape(-1, 2).T
        if tagged and found.size:
            asked = rows["tag"][numpy.searchsorted(rows["id"], found[0])]
            found = found[:, self.get_many(found[1]).numpy()["tag"] == asked]
        return found

    def counts(self: Any, boxes: Any, kind: str = "window", tag: Any = None) -> Any:
        """For each box how many objects there are."""
        numbers = coordinates(self, boxes, _kind(kind) == POINT)
        counts = (c_size_t * max(numbers.count, 1))()
        self._ask_many(self._lib.rstore_counts, KINDS[kind], numbers, self._tags(tag, numbers.count), counts)
        return _shown(memoryview(counts).cast("B")[: 8 * numbers.count].cast("Q"))

    def nearest_many(self: Any, points: Any, k: int = 1) -> Neighbours:
        """For each point the k nearest objects, as `nearest` gives them."""
        numbers = coordinates(self, points, True)
        return _neighbours(self._nearest_table(numbers, k), numbers.count, self.scale or 1)

    def _nearest_table(self: Any, numbers: Numbers, k: int) -> Any:
        """The same of points as C takes them: of each neighbour its identifier and the two halves of its squared distance
        in stored numbers, the lower first."""
        made, offsets = Made(self._lib), (c_size_t * (numbers.count + 1))()
        refused, count = c_size_t(), whole(k, 64, "a count")
        with self._lock:
            error = self._lib.rstore_nearest_many(
                self._store._open, self._c_name, count, numbers.at, self.dims, numbers.count, byref(made.address),
                offsets, byref(refused),
            )
            if error:
                raise self._refused(error, refused.value)
        return _taken(made, 3 * offsets[numbers.count])

    def get_many(self: Any, ids: Any) -> MaybeRows:
        """The objects of many identifiers, None where there is none."""
        asked = unsigned(ids, 64, "an identifier")
        held, refused = (CRow * asked.count)(), c_size_t()
        with self._lock:
            error = self._lib.rstore_get_many(
                self._store._open, self._c_name, asked.at, asked.count, addressof(held), byref(refused)
            )
            if error:
                raise self._refused(error, refused.value)
        return MaybeRows(held, self.dims, self.scale)

    def _tags(self: Any, tag: Any, count: int, each: str = "question") -> Optional[Numbers]:
        """A tag for each of so many, or none."""
        if tag is None:
            return None
        try:
            one = operator.index(tag)
        except TypeError:  # an array
            tags = unsigned(tag, 32, "a tag", each)
            if tags.count != count:
                raise Misuse(f"{self.name}: {count} {each}s have {tags.count} tags") from None
            return tags
        return of_bytes(whole(one, 32, "a tag").to_bytes(4, "little") * count, 4)

    def _ask_many(self: Any, call: Any, kind: int, numbers: Numbers, tags: Optional[Numbers], *results: Any) -> None:
        refused = c_size_t()
        with self._lock:
            error = call(
                self._store._open, self._c_name, kind, numbers.at, self.dims, numbers.count,
                tags.at if tags else None, *results, byref(refused),
            )
            if error:
                raise self._refused(error, refused.value)

    def _refused(self: Any, error: int, index: int) -> Error:
        told: Error = self._store._error(error, f"{self.name}, question {index}")
        told.index = index
        return told

    def _range_many(self: Any, call: Any, boxes: Any, kind: str, tag: Any) -> Any:
        """The offsets of the answers to range queries, and the array that holds their rows."""
        numbers, made = coordinates(self, boxes, _kind(kind) == POINT), Made(self._lib)
        offsets = (c_size_t * (numbers.count + 1))()
        self._ask_many(call, KINDS[kind], numbers, self._tags(tag, numbers.count), byref(made.address), offsets)
        return memoryview(offsets).cast("B").cast("Q"), made


def _kind(kind: str) -> int:
    if kind not in KINDS:
        raise Misuse(f"a kind is one of {', '.join(KINDS)}: {kind!r}")
    return KINDS[kind]


def _shown(numbers: memoryview) -> Any:
    """Numbers of 64 bits as numpy has them, where it is there."""
    numpy = numpy_or_none()
    return numbers if numpy is None else numpy.frombuffer(numbers, "i8")


def _taken(made: Made, count: int) -> Any:
    """So many whole numbers of 64 bits that the library made, without a copy."""
    held, numpy = made.array(c_uint64, count), numpy_or_none()
    if numpy is not None:
        return numpy.frombuffer(held, "u8")
    return memoryview(held).cast("B").cast("Q") if count else memoryview(b"").cast("Q")


def _neighbours(rows: Any, points: int, scale: float) -> Neighbours:
    """Identifiers and distances of neighbours, of which each point has as many."""
    each, numpy = len(rows) // 3 // points if points else 0, numpy_or_none()
    if numpy is not None:
        table = rows.reshape(points, each, 3)
        squared = table[:, :, 1].astype(float)
        if table[:, :, 2].any():
            squared += table[:, :, 2] * 2.0**64
        return Neighbours(table[:, :, 0].copy(), squared if scale == 1 else squared / (scale * scale))
    ids, squared = rows[0::3], [(high * 2.0**64 + low) / (scale * scale) for low, high in zip(rows[1::3], rows[2::3])]
    parts = range(0, len(ids), each) if each else []
    return Neighbours([list(ids[k : k + each]) for k in parts], [squared[k : k + each] for k in parts])

"""Rows of answers."""

from __future__ import annotations

import struct
from typing import Any, Iterator, NamedTuple, Optional, Sequence

from rstore._library import ROW_SIZE, ROWS, Number


#: a row as numpy has it
ROW_FIELDS = [("id", "u8"), ("low", "i4", 3), ("high", "i4", 3), ("tag", "u4"), ("axes", "u4")]


class Rows(Sequence["tuple[int, tuple[Number, ...], int]"]):
    """The rows of an answer in the memory of the library, 40 bytes each: taken as a sequence they are tuples
    (identifier, box, tag), and `memory` and `numpy` are views without a copy.

    The memory is freed when nothing has it any more."""

    def __init__(self, held: Any, dims: int, scale: Optional[int]) -> None:
        self._form, self._scale, self._held, self._count = ROWS[dims], scale, held, len(held)

    @property
    def memory(self) -> memoryview:
        """The bytes of the rows, as C has them (rstore_row)."""
        return memoryview(self._held).cast("B") if self._count else memoryview(b"")

    def numpy(self) -> Any:
        """The rows as an array of numpy with the fields id, low, high, tag and axes, by the numbers that are stored."""
        import numpy

        return numpy.frombuffer(self._held, dtype=ROW_FIELDS, count=self._count)

    def numbers(self) -> "Iterator[tuple[int, tuple[int, ...]]]":
        """Identifiers and boxes, by the numbers that are stored."""
        return ((id, box) for id, box, _ in tuples(self._form, self.memory, None))

    def __len__(self) -> int:
        return self._count

    def __getitem__(self, k: Any) -> Any:
        if isinstance(k, slice):
            return [self[i] for i in range(*k.indices(self._count))]
        if not -self._count <= k < self._count:
            raise IndexError("no row of that number")
        at = k % self._count * ROW_SIZE
        return tuples(self._form, self.memory[at : at + ROW_SIZE], self._scale)[0]

    def __iter__(self) -> Iterator[Any]:
        return iter(tuples(self._form, self.memory, self._scale))


def tuples(form: struct.Struct, data: memoryview, scale: Optional[int]) -> "list[tuple[int, tuple[Number, ...], int]]":
    """Rows as tuples."""
    if form is ROWS[2]:
        if scale is None:
            return [(i, (a, b, c, d), t) for i, a, b, c, d, t in form.iter_unpack(data)]
        return [(i, (a / scale, b / scale, c / scale, d / scale), t) for i, a, b, c, d, t in form.iter_unpack(data)]
    if scale is None:
        return [(r[0], r[1:7], r[7]) for r in form.iter_unpack(data)]
    return [(r[0], tuple(x / scale for x in r[1:7]), r[7]) for r in form.iter_unpack(data)]


class LayerInfo(NamedTuple):
    """A layer: its name, axes (2 or 3), entries of a node at most, and number of objects."""

    name: str
    dims: int
    fanout: int
    count: int


class Node(NamedTuple):
    """A node of the tree of a layer: the page where it lies, its level (0 for a leaf), how many entries it has, and the
    least box round them, the lows and then the highs, by the numbers that are stored (None where there is none)."""

    page: int
    level: int
    count: int
    box: "Optional[tuple[int, ...]]"


class LevelStats(NamedTuple):
    """What the nodes of a level have: the level, their number, their entries together, how many there are of a thousand
    that they have room for, and the sum of the overlaps of each two children of one node, in area or volume."""

    level: int
    nodes: int
    entries: int
    fill_per_mille: int
    overlap: int


class LayerStats(NamedTuple):
    """What one tunes a layer by: what `LayerInfo` has, how many levels its tree has, the pages of the tree and of its
    identifier table, the bytes of both for each object (None where there is none), and the levels, from the root down."""

    name: str
    dims: int
    fanout: int
    objects: int
    height: int
    tree_pages: int
    identifier_pages: int
    bytes_per_object: Optional[int]
    levels: "list[LevelStats]"


class StoreInfo(NamedTuple):
    """What is told of a whole store: its file, how many bytes this has on the disk (None in memory), its layers, and
    their objects together."""

    path: str
    size: Optional[int]
    layers: "list[LayerStats]"
    objects: int

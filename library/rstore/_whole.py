"""What is told of a layer as a whole."""

from __future__ import annotations

import os
from ctypes import byref, c_char, c_size_t, c_uint64
from typing import Any, Optional, Union

from rstore._library import BOXES, NODES, POINTS, WHOLE, WINDOW, CRow, Made, Number
from rstore._picture import MOST_ENTRIES, MOST_SHOWN, svg_of
from rstore._rows import LayerInfo, LayerStats, LevelStats, Node
from rstore.errors import Error, NoLayer

# The bytes of a page.
PAGE = 4096


class WholeLayer:
    """What a `Layer` tells of itself."""

    @property
    def info(self: Any) -> LayerInfo:
        """Its name, axes, entries of a node at most, and number of objects."""
        for info in self._store.layers():
            if info.name == self.name:
                return info
        raise NoLayer(f"{self.name}: no layer of that name")

    @property
    def bounds(self: Any) -> "Optional[tuple[Number, ...]]":
        """The least box that has all objects, the lows and then the highs, or None where there is none. It takes some
        questions for each side, which in most layers find few objects; not all are read."""
        box = self._least_box()
        return box if box is None or self.scale is None else tuple(x / self.scale for x in box)

    def _least_box(self: Any) -> "Optional[tuple[int, ...]]":
        """The same in stored numbers, all of one table."""
        with self._lock:
            first = self._near_box([0] * self.dims)
            if first is None:
                return None
            least = _Least(first)
            for side in range(2 * self.dims):
                self._add_side(least, side)
        return (*least.low, *least.high)

    def _add_side(self: Any, least: _Least, side: int) -> None:
        """Adds what reaches farthest on a side, the low one of an axis or, the axes over again, its high one: an object
        near to it, and those that meet the strip beyond that one. The lock is held."""
        dims, (lowest, highest) = self.dims, WHOLE
        axis, is_high = side % dims, side >= dims
        point = [(least.low[a] + least.high[a]) // 2 for a in range(dims)]
        point[axis] = highest if is_high else lowest
        least.add(self._near_box(point))
        low, high = [lowest] * dims, [highest] * dims
        if is_high:
            low[axis] = least.high[axis] + 1
        else:
            high[axis] = least.low[axis] - 1
        if low[axis] <= high[axis]:
            for _, box in self._rows_held(WINDOW, BOXES[dims].pack(*low, *high), None).numbers():
                least.add(box)

    def _near_box(self: Any, point: "list[int]") -> "Optional[tuple[int, ...]]":
        """The stored box of the object nearest to a point. The lock is held."""
        made, count, row, dims = Made(self._lib), c_size_t(), CRow(), self.dims
        numbers = POINTS[dims].pack(*point)
        error = self._lib.rstore_nearest(
            self._store._open, self._c_name, 1, numbers, dims, byref(made.address), byref(count)
        )
        if not error and not count.value:
            return None
        if not error:
            id = made.array(c_uint64, 3)[0]
            error = self._lib.rstore_get(self._store._open, self._c_name, id, byref(row))
        if error:
            raise self._store._error(error, self.name)
        return (*row.low[:dims], *row.high[:dims])

    def nodes(self: Any) -> "list[Node]":
        """The nodes of its tree, the root first, each before those below it, siblings by position."""
        with self._lock:
            return self._nodes_held()

    def _nodes_held(self: Any) -> "list[Node]":
        """The same. The lock is held."""
        made, count = Made(self._lib), c_size_t()
        self._ask_held(self._lib.rstore_nodes, byref(made.address), byref(count))
        form = NODES[self.dims]
        rows = form.iter_unpack(memoryview(made.array(c_char * form.size, count.value)).cast("B"))
        return [Node(page, level, n, tuple(box) if n else None) for n, page, level, *box in rows]

    def stats(self: Any) -> LayerStats:
        """What one tunes it by: its levels, how full they are and how much siblings overlap, and its pages. Each node is
        looked at, and each object."""
        with self._lock:
            return self._stats_held(self._nodes_held())

    def _stats_held(self: Any, nodes: "list[Node]") -> LayerStats:
        """The same of a layer with these nodes. The lock is held."""
        objects, pages = c_uint64(), c_uint64()
        self._ask_held(self._lib.rstore_count, byref(objects))
        self._ask_held(self._lib.rstore_id_pages, byref(pages))
        held = (len(nodes) + pages.value) * PAGE
        levels = [level_of(nodes, level, self.dims, self.fanout) for level in range(nodes[0].level, -1, -1)]
        return LayerStats(
            self.name, self.dims, self.fanout, objects.value, len(levels), len(nodes), pages.value,
            held // objects.value if objects.value else None, levels,
        )

    def _ask_held(self: Any, call: Any, *results: Any) -> None:
        """A call of the library that asks this of the layer. The lock is held."""
        error = call(self._store._open, self._c_name, *results)
        if error:
            raise self._store._error(error, self.name)

    def draw(self: Any, path: "Union[str, os.PathLike[str]]") -> None:
        """Writes a picture of its tree, as SVG: the boxes of its nodes level by level, and of at most 20,000 objects
        theirs. It is the one that the program's `--draw` writes, by the numbers that are stored."""
        picture = self._svg()
        with open(path, "w", encoding="utf-8") as out:
            out.write(picture)

    def _svg(self: Any) -> str:
        boxes: "list[tuple[int, ...]]" = []
        with self._lock:
            nodes = self._nodes_held()
            stats = self._stats_held(nodes)
            if stats.objects <= MOST_ENTRIES:
                low, high = WHOLE
                all_space = BOXES[self.dims].pack(*[low] * self.dims, *[high] * self.dims)
                boxes = [box for _, box in self._rows_held(WINDOW, all_space, None).numbers()]
        return svg_of(stats, nodes, boxes)

    def _repr_svg_(self: Any) -> Optional[str]:
        """The picture that a notebook shows, of a layer of at most 2,000 objects."""
        try:
            return self._svg() if len(self) <= MOST_SHOWN else None
        except Error:
            return None


def level_of(nodes: "list[Node]", level: int, dims: int, fanout: int) -> LevelStats:
    """What the nodes of a level have."""
    counts = [node.count for node in nodes if node.level == level]
    overlap = 0
    for siblings in siblings_on(nodes, level):
        for k, box in enumerate(siblings):
            overlap += sum(overlap_of(box, other, dims) for other in siblings[k + 1 :])
    fill = sum(counts) * 1000 // (len(counts) * fanout)
    return LevelStats(level, len(counts), sum(counts), fill, min(overlap, (1 << 128) - 1))


def siblings_on(nodes: "list[Node]", level: int) -> "list[list[tuple[int, ...]]]":
    """The boxes of the nodes of a level, of each node above apart."""
    groups: "list[list[tuple[int, ...]]]" = [[]]
    for node in nodes:
        if node.level > level:
            groups.append([])
        elif node.level == level and node.box:
            groups[-1].append(node.box)
    return groups


def overlap_of(one: "tuple[int, ...]", other: "tuple[int, ...]", dims: int) -> int:
    """The area or volume that two boxes share."""
    shared = 1
    for a in range(dims):
        shared *= max(0, min(one[a + dims], other[a + dims]) - max(one[a], other[a]))
    return shared


class _Least:
    """The least box that has all those that were added, each of stored numbers."""

    def __init__(self, first: "tuple[int, ...]") -> None:
        half = len(first) // 2
        self.low, self.high = list(first[:half]), list(first[half:])

    def add(self, box: "tuple[int, ...]") -> None:
        """One more box."""
        half = len(self.low)
        self.low = list(map(min, self.low, box[:half]))
        self.high = list(map(max, self.high, box[half:]))

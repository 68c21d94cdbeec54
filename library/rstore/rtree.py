"""The class `Index` of the package rtree (python3-rtree 1.0), over a verified store: a program changes its import alone.

    from rstore.rtree import index        # in the place of: from rtree import index

    idx = index.Index()
    idx.insert(0, (0.0, 0.0, 1.0, 1.0))
    list(idx.intersection((1.0, 1.0, 2.0, 2.0)))

Insertion, deletion, intersection, contains, nearest, count, bounds, size, both orders of coordinates, points, two or three
axes, identifiers that occur more than once, a stream for the constructor, files, `flush` and `close`, and a `with` are as in
rtree. An index without a file is in memory, and may be pickled.

The store keeps whole numbers of 32 bits: coordinates times a scale, boxes rounded outwards. The scale is found from the
data, `index.scale`: it starts at 10_000_000, and where a coordinate goes beyond it, 214.7 at first, the index is packed anew
at a coarser power of ten, up to coordinates of 10^300. Boxes that the stored numbers do not tell are kept beside them (in a
file in layers of their own), so that answers, `bbox` and `bounds` are exact: of the numbers that were given.

What is other, each told by a clear error where it would matter:

- `Index(.., scale=n)` fixes the scale: a coordinate beyond 2^31 / n is then an `RTreeError`.
- **Objects are kept beside an index in memory**, not in a file: an object for an index in a file is an `RTreeError`.
- There are no TPR trees, custom storages, result limits and `leaves` (no call of the library tells what lies in a node).
  Properties of the tree's making (capacities, fill factor, variant ..) are taken and have no effect.
- A file of name `x` is `x.rst`, a store of the layer `rtree`, which other programs may read by rstore.
"""

from __future__ import annotations

import math
import os
import struct
import sys
from typing import Any, Iterator, Optional, Sequence

import rstore
from rstore._exact import GivenBoxes, SharedIds, keep_scale, kept_scale, scale_of
from rstore._library import BOXES, EPSILON, INSIDE, POINTS, WHOLE, WINDOW

__all__ = ["Index", "Rtree", "Property", "Item", "RTreeError", "index", "SCALE"]

#: the scale that an index begins with, a power of ten
SCALE = 10_000_000

RT_RTree, RT_MVRTree, RT_TPRTree = 0, 1, 2
RT_Linear, RT_Quadratic, RT_Star = 0, 1, 2
RT_Memory, RT_Disk, RT_Custom = 0, 1, 2

_LAYER = "rtree"
_NO_OBJECTS = "rstore.rtree keeps no objects in a file: keep them by their identifiers elsewhere"
_low, _high = math.floor, math.ceil
_BIGGEST = sys.float_info.max


class RTreeError(Exception):
    """What an index refuses."""


class Property:
    """The properties of an index. `dimension` (2 or 3) and `overwrite` have an effect."""

    def __init__(self, **properties: Any) -> None:
        self.type, self.variant, self.dimension, self.storage = RT_RTree, RT_Star, 2, RT_Memory
        self.overwrite, self.filename, self.dat_extension, self.idx_extension = False, "", "dat", "idx"
        for name, value in properties.items():
            setattr(self, name, value)

    def as_dict(self) -> "dict[str, Any]":
        """The properties that are set."""
        return dict(vars(self))

    def __repr__(self) -> str:
        return repr(self.as_dict())


class Item:
    """An entry of an index: its `id`, its `object` (or None), its box as `bbox` (interleaved) and `bounds` (not)."""

    __slots__ = ("id", "object", "bounds")

    def __init__(self, id: int, box: Sequence[float], object: Any) -> None:
        self.id, self.object, self.bounds = id, object, Index.deinterleave(box)

    @property
    def bbox(self) -> "list[float]":
        """The box, the lows and then the highs."""
        return Index.interleave(self.bounds)

    def get_object(self, loads: Any = None) -> Any:
        """The object."""
        return self.object

    def __lt__(self, other: Item) -> bool:
        return self.id < other.id

    def __gt__(self, other: Item) -> bool:
        return self.id > other.id


class Index:
    """An index of boxes by identifiers, as rtree's: `Index([filename], [stream], interleaved=True, properties=..,
    overwrite=False, scale=None)`. A stream is an iterable of (id, coordinates, object), which is loaded at once."""

    def __init__(self, *args: Any, **kwargs: Any) -> None:
        self.properties: Property = kwargs.get("properties") or Property()
        if self.properties.type != RT_RTree:
            raise RTreeError("rstore.rtree has R-trees alone (RT_RTree)")
        self._dims = int(self.properties.dimension)
        if self._dims not in (2, 3):
            raise RTreeError("an index has two or three dimensions")
        self.interleaved = bool(kwargs.get("interleaved", True))
        self._fixed = kwargs.get("scale") is not None
        self._scale: Any = int(kwargs["scale"]) if self._fixed else SCALE
        self._pack = BOXES[self._dims].pack
        self._objects: "dict[int, Any]" = {}
        name, stream = None, None
        rest = list(args)
        if rest and isinstance(rest[0], (str, bytes, os.PathLike)):
            name = os.fsdecode(rest.pop(0))
        elif rest and hasattr(rest[0], "registerCallbacks"):
            raise RTreeError("rstore.rtree has no custom storage")
        if rest:
            stream = rest[0]
        self._in_file = self._negative = bool(name)  # identifiers of a file may be below 0
        self._store: Optional[rstore.Store] = self._opened(name, bool(kwargs.get("overwrite", self.properties.overwrite)))
        self._layer = self._found_layer(self._store)
        kept = self._store if self._in_file else None
        self._given, self._shared = GivenBoxes(kept, self._dims), SharedIds(kept)
        self._bounds = self._found_bounds()
        if stream is not None:
            self._load(stream)

    def _opened(self, name: Optional[str], overwrite: bool) -> rstore.Store:
        """The store of a file, or one in memory."""
        if not name:
            return rstore.open(None, cache=4096)
        path = name + ".rst"
        self.properties.storage, self.properties.filename = RT_Disk, name
        if overwrite and os.path.exists(path):
            os.remove(path)
            if os.path.exists(path + "-journal"):
                os.remove(path + "-journal")
        return rstore.open(path, create=True, cache=4096)

    def _found_layer(self, store: rstore.Store) -> rstore.Layer:
        """The layer of the entries, at the scale that the file keeps."""
        if _LAYER not in store:
            if self._in_file and not self._fixed:
                keep_scale(store, _exponent(self._scale))
            return store.create_layer(_LAYER, dims=self._dims)
        layer, kept = store.layer(_LAYER), kept_scale(store)
        if kept is not None:
            self._fixed, self._scale = False, kept
        if layer.dims != self._dims:
            store.close()
            raise RTreeError(f"{store.path} has {layer.dims} dimensions")
        return layer

    @property
    def scale(self) -> Any:
        """How many times as large as a coordinate the number is that is stored for it."""
        return self._scale

    # Coordinates.

    def _box(self, coordinates: Any) -> "tuple[float, ...]":
        """A box as it was given, the lows and then the highs."""
        try:
            box = tuple(coordinates)
        except TypeError:
            raise TypeError("Bounds must be a sequence") from None
        dims = self._dims
        if not self.interleaved:
            box = tuple(Index.interleave(box))
        if len(box) == dims:
            box += box
        if len(box) != 2 * dims:
            raise RTreeError("Coordinates must be in the form (minx, miny, maxx, maxy) or (x, y) for 2D indexes")
        for a in range(dims):
            if not box[a] <= box[a + dims]:
                raise RTreeError("Coordinates must not have minimums more than maximums")
        return box

    def _rounded(self, box: "tuple[float, ...]") -> "tuple[int, ...]":
        """A box in stored numbers, the lows rounded down and the highs up."""
        s = self._scale
        if self._dims == 2:
            a, b, c, d = box
            return _low(a * s + EPSILON), _low(b * s + EPSILON), _high(c * s - EPSILON), _high(d * s - EPSILON)
        return (*[_low(x * s + EPSILON) for x in box[:3]], *[_high(x * s - EPSILON) for x in box[3:]])

    def _tells(self, numbers: Sequence[int], box: "tuple[float, ...]") -> bool:
        """Whether the stored numbers tell the box."""
        s = self._scale
        if len(box) == 4:
            a, b, c, d = box
            return numbers[0] / s == a and numbers[1] / s == b and numbers[2] / s == c and numbers[3] / s == d
        return all(n / s == x for n, x in zip(numbers, box))

    def _stored(self, box: "tuple[float, ...]") -> "tuple[tuple[int, ...], bytes]":
        """The stored numbers of a box that is put in, also in bytes. The index is packed anew at a coarser scale where
        the box goes beyond that of now."""
        try:
            numbers = self._rounded(box)
            return numbers, self._pack(*numbers)
        except (struct.error, OverflowError, ValueError):
            pass
        self._coarsen(box)
        numbers = self._rounded(box)
        return numbers, self._pack(*numbers)

    def _coarsen(self, box: "tuple[float, ...]") -> None:
        biggest = max(map(abs, box))
        if not biggest <= 1e300:
            raise RTreeError(f"a coordinate of {box} is beyond 10^300")
        if self._fixed:
            raise RTreeError(f"a coordinate of {box} is beyond the scale {self._scale}, at most {(1 << 31) / self._scale:g}")
        # room for coordinates eight times as large before the next time
        exponent = min(math.floor(math.log10((1 << 28) / biggest)), _exponent(self._scale) - 1)
        entries = {key: self._box_of(key, numbers) for key, numbers in self._layer.all_rows().numbers()}
        self._scale = scale_of(exponent)
        self._store.drop_layer(_LAYER)
        self._layer = self._store.create_layer(_LAYER, dims=self._dims)
        if self._in_file:
            keep_scale(self._store, exponent)
        self._load_boxes(entries)

    def _load_boxes(self, entries: "dict[int, tuple[float, ...]]") -> None:
        """Puts boxes into the empty layer by their keys."""
        pack, rows, untold = self._layer._form.pack, bytearray(), {}
        for key, box in entries.items():
            numbers = self._rounded(box)
            rows += pack(key, *numbers, 0)
            if not self._tells(numbers, box) and self._given.get(key) is None:
                untold[key] = box
        self._layer.load_rows(rows)
        self._given.put_all(untold)

    def _box_of(self, key: int, numbers: Sequence[int]) -> "tuple[float, ...]":
        """The box that an entry was given."""
        given = self._given.get(key)
        if given is not None:
            return given
        s = self._scale
        return tuple(n / s for n in numbers)

    def _asked(self, coordinates: Any) -> "tuple[tuple[float, ...], tuple[int, ...], bool]":
        """A box that is asked for, its stored numbers, clipped to what can be stored, and whether these tell all: then a
        question by them is the question."""
        box = self._box(coordinates)
        try:
            numbers = self._rounded(box)
            self._pack(*numbers)
            return box, numbers, not self._given.boxes and self._tells(numbers, box)
        except OverflowError:  # of an infinite one
            numbers = self._rounded(tuple(min(max(x, -1e300), 1e300) for x in box))
        except struct.error:
            pass
        low, high = WHOLE
        return box, tuple(min(max(n, low), high) for n in numbers), False

    @staticmethod
    def deinterleave(interleaved: Sequence[Any]) -> "list[Any]":
        """[xmin, ymin, xmax, ymax] => [xmin, xmax, ymin, ymax]

        >>> Index.deinterleave([0, 10, 1, 11])
        [0, 1, 10, 11]
        >>> Index.deinterleave([0, 1, 2, 10, 11, 12])
        [0, 10, 1, 11, 2, 12]
        """
        assert len(interleaved) % 2 == 0, "must be a pairwise list"
        dims = len(interleaved) // 2
        return [x for k in range(dims) for x in (interleaved[k], interleaved[k + dims])]

    @staticmethod
    def interleave(deinterleaved: Sequence[Any]) -> "list[Any]":
        """[xmin, xmax, ymin, ymax, zmin, zmax] => [xmin, ymin, zmin, xmax, ymax, zmax]

        >>> Index.interleave([0, 1, 10, 11])
        [0, 10, 1, 11]
        >>> Index.interleave([0, 10, 1, 11, 2, 12])
        [0, 1, 2, 10, 11, 12]
        >>> Index.interleave((-1, 1, 58, 62, 22, 24))
        [-1, 58, 22, 1, 62, 24]
        """
        assert len(deinterleaved) % 2 == 0, "must be a pairwise list"
        return list(deinterleaved[0::2]) + list(deinterleaved[1::2])

    # Identifiers: rtree's have a sign, and may occur more than once.

    def _own(self, id: int) -> int:
        if id < 0:
            self._negative = True
            return int(id) + (1 << 64)
        return int(id)

    def _id(self, key: int) -> int:
        own = self._shared.own(key)
        return own - (1 << 64) if own >> 63 else own

    def _ids(self, keys: "list[int]") -> "list[int]":
        if self._shared.ids:
            return [self._id(key) for key in keys]
        if self._negative:
            return [key - (1 << 64) if key >> 63 else key for key in keys]
        return keys

    # Changes.

    def insert(self, id: int, coordinates: Any, obj: Any = None) -> None:
        """Adds an entry.

        >>> idx = Index()
        >>> idx.insert(4321, (34.3776829412, 26.7375853734, 49.3776829412, 41.7375853734), obj=42)
        """
        if obj is not None and self._in_file:
            raise RTreeError(_NO_OBJECTS)
        box, key = self._box(coordinates), self._own(id)
        numbers, packed = self._stored(box)
        if key in self._shared:
            key = self._shared.add(key)
        try:
            self._layer._insert(key, packed, 0)
        except rstore.Duplicate:
            key = self._shared.add(key)
            self._layer._insert(key, packed, 0)
        if not self._tells(numbers, box):
            self._given.put(key, box)
        if obj is not None:
            self._objects[key] = obj
        if self._bounds is not None:
            self._bounds = _around(self._bounds, box)

    add = insert

    def delete(self, id: int, coordinates: Any) -> None:
        """Takes out an entry of that identifier and those coordinates, if there is one.

        >>> idx = Index()
        >>> idx.delete(4321, (34.3776829412, 26.7375853734, 49.3776829412, 41.7375853734))
        """
        box, layer = self._box(coordinates), self._layer
        for key in self._shared.keys(self._own(id)):
            try:
                numbers = layer._unpack_box(layer._numbers_of(key))
            except rstore.NoObject:
                continue
            if self._shared.own(key) == self._own(id) and self._box_of(key, numbers) == box:
                layer.delete(key)
                self._given.take(key)
                self._shared.take(key)
                self._objects.pop(key, None)
                self._bounds = None
                return

    def _load(self, stream: Any) -> None:
        """Puts in the entries of a stream, all at once where the index has none."""
        if len(self._layer):
            for entry in stream:
                self.insert(*entry)
            return
        entries, objects = {}, {}
        for id, coordinates, obj in stream:
            key = self._own(id)
            if key in entries or key in self._shared:
                key = self._shared.add(key)
            entries[key] = self._box(coordinates)
            if obj is not None:
                objects[key] = obj
        if objects and self._in_file:
            raise RTreeError(_NO_OBJECTS)
        if entries:
            self._stored(max(entries.values(), key=lambda box: max(map(abs, box))))  # which finds the scale
        self._load_boxes(entries)
        self._objects.update(objects)
        self._bounds = None

    # Questions.

    def intersection(self, coordinates: Any, objects: Any = False) -> Iterator[Any]:
        """The identifiers of the entries that meet the box; with objects=True as `Item`s, with "raw" the objects alone.

        >>> idx = Index()
        >>> idx.insert(4321, (34.3776829412, 26.7375853734, 49.3776829412, 41.7375853734), obj=42)
        >>> hits = list(idx.intersection((0, 0, 60, 60), objects=True))
        >>> [(item.object, item.bbox) for item in hits if item.id == 4321] # doctest: +ELLIPSIS
        [(42, [34.37768294..., 26.73758537..., 49.37768294..., 41.73758537...])]
        >>> list(idx.intersection((0, 0, 60, 60), objects="raw"))
        [42]
        """
        return self._answer(WINDOW, coordinates, objects)

    def contains(self, coordinates: Any, objects: Any = False) -> Iterator[Any]:
        """The same of the entries that lie within the box."""
        return self._answer(INSIDE, coordinates, objects)

    def _answer(self, kind: int, coordinates: Any, objects: Any) -> Iterator[Any]:
        keys = self._keys(kind, coordinates)
        return self._items(keys, objects) if objects else iter(self._ids(keys))

    def _told(self, coordinates: Any) -> Optional[bytes]:
        """The stored numbers of a box of two axes that is asked for, in bytes, where they tell it and all entries: then
        a question by them is the question. None leaves it to `_asked`."""
        if not self.interleaved or self._given.boxes or not isinstance(coordinates, (tuple, list)):
            return None
        try:
            a, b, c, d = coordinates
            s = self._scale
            low_a, low_b, high_c, high_d = round(a * s), round(b * s), round(c * s), round(d * s)
            if low_a / s == a and low_b / s == b and high_c / s == c and high_d / s == d and a <= c and b <= d:
                return self._pack(low_a, low_b, high_c, high_d)
        except (TypeError, ValueError, OverflowError, struct.error):
            pass
        return None

    def _keys(self, kind: int, coordinates: Any) -> "list[int]":
        """The keys of the entries whose boxes, as they were given, meet the box or lie within it."""
        told = self._told(coordinates)
        if told is not None:
            return self._layer._ids(kind, told, None)
        box, numbers, whole = self._asked(coordinates)
        keys = self._layer._ids(kind, self._pack(*numbers), None)
        if whole or not keys:
            return keys
        # Rounding is off by less than one: what is found within two of the border is so for sure, and the rest is looked at.
        dims = self._dims
        inner = (*[n + 2 for n in numbers[:dims]], *[n - 2 for n in numbers[dims:]])
        sure: "set[int]" = set()
        if all(inner[a] <= inner[a + dims] for a in range(dims)):
            packed = self._pack(*inner)
            if self._layer._count_in(kind, packed) == len(keys):
                return keys
            sure = set(self._layer._ids(kind, packed, None))
        passes = _meet if kind == WINDOW else _within
        return [key for key in keys if key in sure or passes(self._box_at(key), box, dims)]

    def _box_at(self, key: int) -> "tuple[float, ...]":
        """The box that the entry of a key was given."""
        return self._given.get(key) or self._box_of(key, self._layer._unpack_box(self._layer._numbers_of(key)))

    def _items(self, keys: "list[int]", objects: Any) -> Iterator[Any]:
        """Entries as rtree shows them."""
        if objects == "raw":
            return iter([self._objects.get(key) for key in keys])
        return iter([Item(self._id(key), self._box_at(key), self._objects.get(key)) for key in keys])

    def count(self, coordinates: Any) -> int:
        """How many entries meet the box.

        >>> idx = Index()
        >>> idx.insert(4321, (34.3776829412, 26.7375853734, 49.3776829412, 41.7375853734), obj=42)
        >>> print(idx.count((0, 0, 60, 60)))
        1
        """
        told = self._told(coordinates)
        return len(self._keys(WINDOW, coordinates)) if told is None else self._layer._count_in(WINDOW, told)

    def nearest(self, coordinates: Any, num_results: int = 1, objects: Any = False) -> Iterator[Any]:
        """The entries nearest to the box or point, by distance; of equally near ones all are given, so there may be more.

        >>> idx = Index()
        >>> idx.insert(4321, (34.37, 26.73, 49.37, 41.73), obj=42)
        >>> hits = idx.nearest((0, 0, 10, 10), 3, objects=True)
        >>> [item.object for item in hits]
        [42]
        """
        box, numbers, whole = self._asked(coordinates)
        k, dims = min(num_results, len(self._layer)), self._dims
        if k < 1:
            return iter([])
        if k > 1_000_000:
            raise RTreeError("rstore.rtree gives the nearest million at most")
        if whole and numbers[:dims] == numbers[dims:]:
            keys = self._near_point(POINTS[dims].pack(*numbers[:dims]), k)
        else:
            keys = self._near_box(box, numbers, k)
        return self._items(keys, objects) if objects else iter(self._ids(keys))

    def _near_point(self, point: bytes, k: int) -> "list[int]":
        """The k nearest to a point, and those as near as the last of them."""
        asked = k + 1
        while True:
            near = self._layer._near(point, min(asked, 1_000_000))
            if len(near) <= k:
                return [id for id, _, _ in near]
            last = near[k - 1][1:]
            if len(near) < asked or near[-1][1:] != last:
                break
            asked *= 2
        while near[k:] and near[k][1:] == last:
            k += 1
        return [id for id, _, _ in near[:k]]

    def _near_box(self, box: "tuple[float, ...]", numbers: "tuple[int, ...]", k: int) -> "list[int]":
        """The k nearest to a box, by the boxes that were given, and those as near as the last of them."""
        layer, dims, unit = self._layer, self._dims, 1.0 if self._scale > 1e-140 else self._scale
        # The k nearest to its middle bound how far away the k nearest are.
        middle = POINTS[dims].pack(*[(numbers[a] + numbers[a + dims]) // 2 for a in range(dims)])
        bound = max(_squared(box, self._box_at(key), dims, unit) for key in layer._nearest_ids(middle, k))
        reach = math.ceil(min(math.sqrt(bound) / unit * self._scale, 1e10)) + 2
        low, high = WHOLE
        wide = (*[max(n - reach, low) for n in numbers[:dims]], *[min(n + reach, high) for n in numbers[dims:]])
        rows = layer._rows(WINDOW, self._pack(*wide), None)
        found = sorted((_squared(box, self._box_of(key, near), dims, unit), key) for key, near in rows.numbers())
        last = found[k - 1][0]
        return [key for squared, key in found if squared <= last]

    # The whole.

    def __len__(self) -> int:
        return len(self._layer)

    def get_size(self) -> int:
        """How many entries there are."""
        return len(self)

    def __bool__(self) -> bool:
        return True

    def __contains__(self, coordinates: Any) -> bool:
        return self.count(coordinates) > 0

    def _found_bounds(self) -> "tuple[float, ...]":
        """The least box that has all entries, empty where there are none."""
        if not self._given.boxes:
            least = self._layer._least_box()
            return () if least is None else tuple(n / self._scale for n in least)
        bounds: "tuple[float, ...]" = ()
        for key, numbers in self._layer.all_rows().numbers():
            bounds = _around(bounds, self._box_of(key, numbers))
        return bounds

    def get_bounds(self, coordinate_interleaved: Optional[bool] = None) -> "list[float]":
        """The least box that has all entries."""
        if self._bounds is None:
            self._bounds = self._found_bounds()
        box = [float(x) for x in self._bounds] or [_BIGGEST] * self._dims + [-_BIGGEST] * self._dims
        interleaved = self.interleaved if coordinate_interleaved is None else coordinate_interleaved
        return box if interleaved else Index.deinterleave(box)

    bounds = property(get_bounds)

    def __repr__(self) -> str:
        return f"rtree.index.Index(bounds={self.bounds}, size={len(self)})"

    def flush(self) -> None:
        """Keeps all changes in the file."""
        if self._in_file and self._store:
            self._store.commit()

    def close(self) -> None:
        """Keeps all changes in the file, and closes it."""
        store, self._store = self._store, None
        if store is not None:
            store.close()

    def __enter__(self) -> Index:
        return self

    def __exit__(self, *_: object) -> None:
        self.close()

    def __del__(self) -> None:
        if getattr(self, "_store", None) is not None:
            try:
                self.close()
            except Exception:
                pass

    def __getstate__(self) -> Any:
        if self._in_file:
            raise RTreeError("an index in a file is not pickled: open the file")
        entries = []
        for key, numbers in self._layer.all_rows().numbers():
            box = self._box_of(key, numbers)
            entries.append((self._id(key), box if self.interleaved else Index.deinterleave(box), self._objects.get(key)))
        scale = self._scale if self._fixed else None
        return {"properties": self.properties, "interleaved": self.interleaved, "scale": scale, "entries": entries}

    def __setstate__(self, state: Any) -> None:
        entries = state.pop("entries")
        self.__init__(entries, **state)  # type: ignore[misc]

    def __getattr__(self, name: str) -> Any:
        if name in ("leaves", "set_result_limit", "get_result_limit", "set_result_offset", "get_result_offset", "clearBuffer", "__and__", "__or__", "dumps", "loads"):
            raise RTreeError(f"rstore.rtree has no {name}")
        raise AttributeError(name)


Rtree = Index


def _exponent(scale: Any) -> int:
    """The exponent of a power of ten."""
    return round(math.log10(scale))


def _around(one: "tuple[float, ...]", other: "tuple[float, ...]") -> "tuple[float, ...]":
    """The least box round both, of which the first may be none."""
    if not one:
        return other
    dims = len(other) // 2
    if _within(other, one, dims):
        return one
    return tuple(map(min, one[:dims], other[:dims])) + tuple(map(max, one[dims:], other[dims:]))


def _meet(one: Sequence[float], other: Sequence[float], dims: int) -> bool:
    if dims == 2:
        return one[0] <= other[2] and other[0] <= one[2] and one[1] <= other[3] and other[1] <= one[3]
    return all(one[a] <= other[a + dims] and other[a] <= one[a + dims] for a in range(dims))


def _within(one: Sequence[float], other: Sequence[float], dims: int) -> bool:
    if dims == 2:
        return other[0] <= one[0] and other[1] <= one[1] and one[2] <= other[2] and one[3] <= other[3]
    return all(other[a] <= one[a] and one[a + dims] <= other[a + dims] for a in range(dims))


def _squared(one: Sequence[float], other: Sequence[float], dims: int, unit: float) -> float:
    """The squared distance of two boxes, in units that do not overflow."""
    total = 0.0
    for a in range(dims):
        apart = max(one[a] - other[a + dims], other[a] - one[a + dims], 0.0) * unit
        total += apart * apart
    return total


index = sys.modules[__name__]

"""A layer of a store."""

from __future__ import annotations

import ctypes
import math
import struct
from ctypes import byref, c_int, c_size_t, c_uint32, c_uint64
from typing import TYPE_CHECKING, Any, Iterable, Iterator, Optional, Sequence

from rstore._arrays import ArrayQuestions
from rstore._given import Numbers, coordinates, given_rows, made_rows, refused_row, unsigned
from rstore._library import (
    AROUND, BOXES, EPSILON, ID_ROOM, INSIDE, NEAR, POINT, POINTS, ROOM, ROW_SIZE, ROWS, WHOLE, WINDOW,
    Box, CRow, Made, Number, Point, name_of, tag_at, whole,
)
from rstore._joins import Joins
from rstore._rows import LayerInfo, Rows, tuples
from rstore._whole import WholeLayer
from rstore.errors import Duplicate, Error, Misuse, NoObject, WrongDims, at_index

if TYPE_CHECKING:
    from rstore._store import Store

_NO_ROOM = c_size_t(0)


class Layer(ArrayQuestions, Joins, WholeLayer):
    """A layer of a store, from `Store.create_layer`, `Store.layer` or `store[name]`.

    It is a mapping from identifiers to boxes: `layer[7] = box` inserts an object or gives it another box, `del layer[7]`
    takes it out, `layer[7]` is its box, `len(layer)` counts, and iteration is over identifiers, ascending.

    **scale**: with `scale=n` coordinates are decimal numbers, which are stored as whole ones, n times as large: 10_000_000
    for degrees is a centimetre. A box that is stored or asked for is rounded outwards, each low down and each high up, and
    a point down, but what is off a whole number by a millionth counts as it: so decimal numbers of as many places as n has
    zeros are exact. No object is missed that meets, lies in or encloses what was asked for by the numbers as given; one
    that is off by less than 1/n may be found, too. Boxes in answers are the rounded ones. Numbers of more than
    (2^31 - 1) / n are refused by `Misuse`. The scale is not kept in the file: give the same one each time."""

    def __init__(self, store: Store, info: LayerInfo, scale: Optional[int]) -> None:
        if scale is not None and not (isinstance(scale, int) and scale > 0):
            raise Misuse(f"a scale is a whole number above 0: {scale!r}")
        self._store, self._lib, self._lock = store, store._lib, store._lock
        self.name, self.dims, self.fanout, self.scale = info.name, info.dims, info.fanout, scale
        self._c_name = name_of(info.name)
        self._form, self._pack_box, self._pack_point = ROWS[self.dims], BOXES[self.dims].pack, POINTS[self.dims].pack
        if scale is not None:
            self._pack_box, self._pack_point = self._scaled_box, self._scaled_point
        self._axes, self._unpack_box = c_uint32(self.dims), BOXES[self.dims].unpack

    def __repr__(self) -> str:
        return f"<rstore.Layer {self.name!r} of {self.dims} axes in {self._store.path!r}>"

    # Numbers.

    def _scaled_box(self, *box: Number) -> bytes:
        dims, scale = self.dims, self.scale
        if len(box) != 2 * dims:
            raise struct.error("another number of axes than the layer")
        lows = [math.floor(x * scale + EPSILON) for x in box[:dims]]
        return BOXES[dims].pack(*lows, *[math.ceil(x * scale - EPSILON) for x in box[dims:]])

    def _scaled_point(self, *point: Number) -> bytes:
        return POINTS[self.dims].pack(*[math.floor(x * self.scale + EPSILON) for x in point])

    def _refuse(self, numbers: Any, what: str, wanted: int) -> Error:
        """What to raise of numbers that could not be packed."""
        try:
            if len(numbers) in (4, 6) and wanted in (4, 6) or len(numbers) in (2, 3) and wanted in (2, 3):
                if len(numbers) != wanted:
                    return WrongDims(f"{self.name}: another number of axes than the layer: {numbers!r}")
        except TypeError:
            pass
        range_of = "of 32 bits" if self.scale is None else f"of at most {(1 << 31) / self.scale:g}"
        kind = "whole numbers" if self.scale is None else "numbers"
        more = " (or give the layer a scale)" if self.scale is None else ""
        return Misuse(f"{self.name}: {what} has {wanted} {kind} {range_of}{more}: {numbers!r}")

    def _box(self, box: Box) -> bytes:
        try:
            return self._pack_box(*box)
        except (struct.error, TypeError, ValueError, OverflowError) as error:
            raise self._refuse(box, "a box", 2 * self.dims) from error

    def _point(self, point: Point) -> bytes:
        try:
            return self._pack_point(*point)
        except (struct.error, TypeError, ValueError, OverflowError) as error:
            raise self._refuse(point, "a point", self.dims) from error

    # Changes.

    def insert(self, id: int, box: Box, tag: int = 0) -> None:
        """Adds an object; raises `Duplicate` where the layer has the identifier."""
        self._insert(whole(id, 64, "an identifier"), self._box(box), whole(tag, 32, "a tag"))

    def _insert(self, id: int, numbers: bytes, tag: int) -> None:
        with self._lock:
            error = self._lib.rstore_insert(self._store._open, self._c_name, id, numbers, self.dims, tag)
            if error:
                raise self._store._error(error, f"{self.name} {id}")

    def move(self, id: int, box: Box) -> None:
        """Gives an object another box; it keeps its tag. Raises `NoObject` where there is none."""
        numbers, id = self._box(box), whole(id, 64, "an identifier")
        with self._lock:
            error = self._lib.rstore_move(self._store._open, self._c_name, id, numbers, self.dims)
            if error:
                raise self._store._error(error, f"{self.name} {id}")

    def __setitem__(self, id: int, box: Box) -> None:
        """Gives an object a box: a new one with tag 0, or one that is there, which keeps its tag."""
        try:
            self.insert(id, box)
        except Duplicate:
            self.move(id, box)

    def delete(self, id: int) -> None:
        """Takes out an object; raises `NoObject` where there is none."""
        id = whole(id, 64, "an identifier")
        with self._lock:
            error = self._lib.rstore_delete(self._store._open, self._c_name, id)
            if error:
                raise self._store._error(error, f"{self.name} {id}")

    __delitem__ = delete

    def load(self, objects: Iterable[Sequence[Any]]) -> int:
        """Puts objects into the layer, which must be empty, all of them or none, and says how many: each a pair of an
        identifier and a box, or a triple with a tag. Several times as fast as inserts, and the tree is packed. Of the
        first that is refused the exception has the place, as `index`; so it has in the two calls below."""
        data, form, pack_box, unpack = bytearray(), self._form, self._pack_box, self._unpack_box
        for index, one in enumerate(objects):
            try:
                data += form.pack(one[0], *unpack(pack_box(*one[1])), one[2] if len(one) > 2 else 0)
            except (struct.error, TypeError, ValueError, OverflowError, LookupError) as error:
                raise at_index(self._refuse_object(one), index, "object") from error
        return self.load_rows(data)

    def _refuse_object(self, one: Any) -> Error:
        """What to raise of an object that could not be packed."""
        try:
            id, box, *tag = one
            self._box(box)
            whole(id, 64, "an identifier")
            whole(*tag or [0], 32, "a tag")
        except Error as error:
            return error
        except (TypeError, ValueError):
            pass
        return Misuse(f"{self.name}: an object is an identifier, a box and perhaps a tag: {one!r}")

    def load_arrays(self, ids: Any, boxes: Any, tags: Any = None) -> int:
        """The same of arrays: identifiers, boxes of shape (n, 2 * dims) as `windows` takes them, and tags: none, one
        for all or one for each."""
        keys, numbers = unsigned(ids, 64, "an identifier", "object"), coordinates(self, boxes, False, "object")
        labels = self._tags(tags, keys.count, "object")
        if keys.count != numbers.count:
            raise Misuse(f"{self.name}: {keys.count} identifiers, and {numbers.count} boxes")
        return self.load_rows(made_rows(self.dims, keys, numbers, labels))

    def load_rows(self, rows: Any) -> int:
        """The same of rows of 40 bytes as C has them (rstore_row), of whole numbers as they are stored: bytes, or an
        array of numpy with the fields of `Rows.numpy`, which is not copied where it may be written."""
        given = given_rows(rows)
        with self._lock:
            error = self._lib.rstore_load(self._store._open, self._c_name, self.dims, given.at, given.count)
            if error:
                raise self._load_refused(self._store._error(error, self.name), given)
        return given.count

    def _load_refused(self, error: Error, rows: Numbers) -> Error:
        index = refused_row(error, self.dims, rows)
        return error if index is None else at_index(error, index, "object")

    # Questions of one object.

    def row(self, id: int) -> "tuple[int, tuple[Number, ...], int]":
        """An object: its identifier, box and tag. Raises `NoObject` where there is none."""
        return tuples(self._form, memoryview(self._row(whole(id, 64, "an identifier"))).cast("B"), self.scale)[0]

    def _row(self, id: int) -> CRow:
        row = CRow()
        with self._lock:
            error = self._lib.rstore_get(self._store._open, self._c_name, id, byref(row))
            if error:
                raise self._store._error(error, f"{self.name} {id}")
        return row

    def _numbers_of(self, id: int) -> bytes:
        """The box of an object as it is stored."""
        row, dims = self._row(id), self.dims
        return bytes(row.low)[: 4 * dims] + bytes(row.high)[: 4 * dims]

    def __getitem__(self, id: int) -> "tuple[Number, ...]":
        """The box of an object; raises `NoObject`, a `KeyError`, where there is none."""
        return self.row(id)[1]

    def get(self, id: int, default: Any = None) -> Any:
        """The box of an object, or `default`."""
        try:
            return self.row(id)[1]
        except NoObject:
            return default

    def __contains__(self, id: object) -> bool:
        try:
            self.row(id)  # type: ignore[arg-type]
        except (NoObject, Misuse):
            return False
        return True

    def __len__(self) -> int:
        count = c_uint64()
        with self._lock:
            error = self._lib.rstore_count(self._store._open, self._c_name, byref(count))
            if error:
                raise self._store._error(error, self.name)
        return count.value

    def __bool__(self) -> bool:
        return True

    def __iter__(self) -> Iterator[int]:
        """The identifiers, ascending, as they are when the iteration begins."""
        for id, _, _ in self.all_rows():
            yield id

    def items(self) -> Iterator[Any]:
        """Pairs of an identifier and its box, ascending."""
        for id, box, _ in self.all_rows():
            yield id, box

    def all_rows(self) -> Rows:
        """All objects, in the memory of the library."""
        low, high = WHOLE
        return self._rows(WINDOW, BOXES[self.dims].pack(*[low] * self.dims, *[high] * self.dims), None)

    # Range queries.

    def window(self, box: Box, tag: Optional[int] = None) -> "list[tuple[int, tuple[Number, ...], int]]":
        """The objects whose boxes meet the box (boxes that touch meet), ascending by identifier: tuples of an identifier,
        a box and a tag. With a tag only those that have it."""
        return self._range(WINDOW, self._box(box), tag)

    def inside(self, box: Box, tag: Optional[int] = None) -> "list[tuple[int, tuple[Number, ...], int]]":
        """The objects whose boxes lie within the box."""
        return self._range(INSIDE, self._box(box), tag)

    def around(self, box: Box, tag: Optional[int] = None) -> "list[tuple[int, tuple[Number, ...], int]]":
        """The objects whose boxes enclose the box."""
        return self._range(AROUND, self._box(box), tag)

    def point(self, point: Point, tag: Optional[int] = None) -> "list[tuple[int, tuple[Number, ...], int]]":
        """The objects whose boxes hold the point."""
        return self._range(POINT, self._point(point), tag)

    def window_rows(self, box: Box, tag: Optional[int] = None) -> Rows:
        """`window` with its rows in the memory of the library, for `memoryview` and numpy without a copy. `inside_rows`,
        `around_rows` and `point_rows` are the same of the others."""
        return self._rows(WINDOW, self._box(box), tag)

    def inside_rows(self, box: Box, tag: Optional[int] = None) -> Rows:
        """`inside`, in the memory of the library."""
        return self._rows(INSIDE, self._box(box), tag)

    def around_rows(self, box: Box, tag: Optional[int] = None) -> Rows:
        """`around`, in the memory of the library."""
        return self._rows(AROUND, self._box(box), tag)

    def point_rows(self, point: Point, tag: Optional[int] = None) -> Rows:
        """`point`, in the memory of the library."""
        return self._rows(POINT, self._point(point), tag)

    def window_ids(self, box: Box, tag: Optional[int] = None) -> "list[int]":
        """The identifiers alone of the objects whose boxes meet the box, ascending."""
        return self._ids(WINDOW, self._box(box), tag)

    def window_count(self, box: Box, tag: Optional[int] = None) -> int:
        """How many objects there are whose boxes meet the box."""
        return self._count_in(WINDOW, self._box(box), tag)

    def _count_in(self, kind: int, numbers: bytes, tag: Optional[int] = None) -> int:
        store = self._store
        with self._lock:
            error = store._range_into(
                store._handle, self._c_name, kind, numbers, self._axes, tag_at(tag), None, _NO_ROOM, store._count_at
            )
            if error:
                raise store._error(error, self.name)
            return store._count.value

    def _ids(self, kind: int, numbers: bytes, tag: Optional[int]) -> "list[int]":
        store = self._store
        with self._lock:
            error = store._ids_into(
                store._handle, self._c_name, kind, numbers, self._axes, tag_at(tag), store._ids_at, store._ids_size,
                store._count_at,
            )
            if error:
                raise store._error(error, self.name)
            count = store._count.value
            if count <= ID_ROOM:
                return store._ids[:count].tolist()
            ids = store._ids.tolist()
            while len(ids) < count:
                got = self._lib.rstore_more_ids(store._handle, len(ids), store._ids_at, ID_ROOM)
                ids += store._ids[:got].tolist()
        return ids

    def _range(self, kind: int, numbers: bytes, tag: Optional[int]) -> "list[tuple[int, tuple[Number, ...], int]]":
        store = self._store
        with self._lock:
            count_at = store._count
            # one call of C for up to 256 rows, into the store's own room
            error = store._range_into(
                store._handle, self._c_name, kind, numbers, self._axes, tag_at(tag), store._room_at, store._room_size,
                store._count_at,
            )
            if error:
                raise store._error(error, self.name)
            count = count_at.value
            if count <= ROOM:
                return tuples(self._form, store._view[: count * ROW_SIZE], self.scale)
            rows = tuples(self._form, store._view, self.scale)
            while len(rows) < count:
                got = self._lib.rstore_more(store._handle, len(rows), store._room_at, ROOM)
                rows += tuples(self._form, store._view[: got * ROW_SIZE], self.scale)
        return rows

    def _rows(self, kind: int, numbers: bytes, tag: Optional[int]) -> Rows:
        with self._lock:
            return self._rows_held(kind, numbers, tag)

    def _rows_held(self, kind: int, numbers: bytes, tag: Optional[int]) -> Rows:
        """The same where the lock is held."""
        lib = self._lib
        ask = (lib.rstore_window, lib.rstore_inside, lib.rstore_around, lib.rstore_point)[kind]
        made, count = Made(lib), c_size_t()
        error = ask(self._store._open, self._c_name, numbers, self.dims, tag_at(tag), byref(made.address), byref(count))
        if error:
            raise self._store._error(error, self.name)
        return Rows(made.array(CRow, count.value), self.dims, self.scale)

    def window_page(
        self, box: Box, limit: int, after: Optional[int] = None, tag: Optional[int] = None
    ) -> "list[tuple[int, tuple[Number, ...], int]]":
        """A page of `window`: the first `limit` of its objects whose identifiers are greater than `after`, or of all. The
        store makes the whole answer for each page; only the page is copied."""
        numbers, most = self._box(box), whole(limit, 32, "a limit")
        behind = None if after is None else byref(c_uint64(whole(after, 64, "an identifier")))
        room, count = (CRow * most)(), c_size_t()
        with self._lock:
            error = self._lib.rstore_range_after(
                self._store._open, self._c_name, WINDOW, numbers, self.dims, tag_at(tag), behind, room, most, byref(count)
            )
            if error:
                raise self._store._error(error, self.name)
        return Rows(room, self.dims, self.scale)[: min(count.value, most)]

    def last(self) -> Optional[int]:
        """The greatest identifier, or None where there is no object. It asks for all objects."""
        id, found = c_uint64(), c_int()
        with self._lock:
            error = self._lib.rstore_last(
                self._store._open, self._c_name, c_uint64((1 << 64) - 1), byref(id), byref(found)
            )
            if error:
                raise self._store._error(error, self.name)
        return id.value if found.value else None

    # Nearest and joins.

    def nearest(self, point: Point, k: int = 1) -> "list[tuple[int, Number]]":
        """The k objects nearest to the point (1 to 1,000,000): pairs of an identifier and the squared distance, by
        distance and then by identifier. The squared distance is a whole number, exact; with a scale it is divided by
        the scale twice."""
        found = self._near(self._point(point), whole(k, 64, "a count"))
        if self.scale is None:
            return [(id, high << 64 | low) for id, low, high in found]
        squared = self.scale * self.scale
        return [(id, (high << 64 | low) / squared) for id, low, high in found]

    def _near(self, numbers: bytes, k: int) -> "list[tuple[int, int, int]]":
        """Identifiers and squared distances, each in two halves, the lower first."""
        store = self._store
        with self._lock:
            error = store._nearest(
                store._handle, self._c_name, c_uint64(k), numbers, self._axes, store._at_at, store._count_at
            )
            if error:
                raise store._error(error, self.name)
            rows = store._taken(store._at, store._count.value, NEAR.size)
        return list(NEAR.iter_unpack(rows))

    def _nearest_ids(self, numbers: bytes, k: int) -> "list[int]":
        return [id for id, _, _ in self._near(numbers, k)]

    def nearest_rows(
        self, point: Point, k: int = 1, tag: Optional[int] = None
    ) -> "list[tuple[int, tuple[Number, ...], int, Number]]":
        """The k nearest as `nearest` orders them, with a tag only of those that have it: tuples of an identifier, a box, a
        tag and the squared distance."""
        numbers, near, rows, count = self._point(point), Made(self._lib), Made(self._lib), c_size_t()
        with self._lock:
            error = self._lib.rstore_nearest_rows(
                self._store._open, self._c_name, c_uint64(whole(k, 64, "a count")), numbers, self.dims, tag_at(tag),
                byref(near.address), byref(rows.address), byref(count),
            )
            if error:
                raise self._store._error(error, self.name)
        found = NEAR.iter_unpack(near.array(ctypes.c_char, count.value * NEAR.size))
        squares = [high << 64 | low for _, low, high in found]
        objects = Rows(rows.array(CRow, count.value), self.dims, self.scale)
        if self.scale is not None:
            squares = [square / (self.scale * self.scale) for square in squares]
        return [(*row, square) for row, square in zip(objects, squares)]

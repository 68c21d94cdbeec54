"""Joins: of two layers, of one store or of two, and of boxes with a layer."""

from __future__ import annotations

import contextlib
import ctypes
import math
from ctypes import byref, c_int, c_size_t
from typing import TYPE_CHECKING, Any, Callable, Sequence

from rstore._given import Numbers, refused_row
from rstore._library import PAIR, WINDOW, Made, Number, whole
from rstore.errors import DimsDiffer, Misuse, at_index

if TYPE_CHECKING:
    from rstore._layer import Layer


class Joins:
    """The joins of a `Layer`."""

    def join(self: Any, other: Layer, within: Number = 0) -> "list[tuple[int, int]]":
        """All pairs of an object of this layer and one of the other whose boxes are at most so far apart (0: that meet),
        ascending. The other may be of another store. With a scale, which both must have, the distance is in its numbers,
        and rounded up."""
        if self.scale != other.scale:
            raise Misuse("the layers of a join have different scales")
        if self.dims != other.dims:
            raise DimsDiffer(f"{self.name}, {other.name}: the layers have different numbers of axes")
        return list(PAIR.iter_unpack(self._joined(other, self._squared(within))))

    def _squared(self: Any, within: Number) -> int:
        """The square of a distance in stored numbers, up to the greatest that is told apart."""
        distance = within if self.scale is None else math.ceil(within * self.scale)
        return min(whole(distance, 64, "a distance") ** 2, (1 << 64) - 1)

    def _joined(self: Any, other: Layer, squared: int) -> Any:
        """The pairs in the memory of the library, by the square of a distance in stored numbers."""
        made, count, second = Made(self._lib), c_size_t(), c_int()
        with _locked(self, other):
            if self._store is other._store:
                error = self._lib.rstore_join(
                    self._store._open, self._c_name, other._c_name, squared, byref(made.address), byref(count)
                )
            else:
                error = self._lib.rstore_join_files(
                    self._store._open, self._c_name, other._store._open, other._c_name, squared, None, self.dims,
                    byref(made.address), byref(count), byref(second),
                )
            if error:
                refused: Any = other if second.value else self
                raise refused._store._error(error, f"{self.name}, {other.name}")
        return made.array(ctypes.c_char, count.value * PAIR.size)

    def _joined_rows(self: Any, rows: Numbers, squared: int) -> Any:
        """The same of rows as C has them and the objects of this layer: pairs of a row's identifier and an object's."""
        made, count = Made(self._lib), c_size_t()
        with self._lock:
            error = self._lib.rstore_join_rows(
                self._store._open, rows.at, rows.count, self.dims, self._c_name, squared, byref(made.address), byref(count)
            )
            if error:
                told = self._store._error(error, self.name)
                index = refused_row(told, self.dims, rows)
                raise told if index is None else at_index(told, index, "box")
        return made.array(ctypes.c_char, count.value * PAIR.size)

    def _found(self: Any, box: Sequence[int], room: "Callable[[int], Numbers]") -> Numbers:
        """The rows of the objects that meet a box of stored numbers, in the order of the tree, in which neighbours are
        near one another, in the memory that `room` gives for so many."""
        numbers, count = (ctypes.c_int32 * len(box))(*box), c_size_t()
        with self._lock:
            db = self._store._open
            error = self._lib.rstore_range_unordered(
                db, self._c_name, WINDOW, numbers, self.dims, None, None, 0, byref(count)
            )
            if error:
                raise self._store._error(error, self.name)
            rows = room(count.value)
            self._lib.rstore_more(db, 0, rows.at, rows.count)
        return rows


@contextlib.contextmanager
def _locked(one: Any, other: Any) -> Any:
    """The locks of the stores of two layers, always in the same order, so that no two calls wait for one another."""
    locks = {id(layer._lock): layer._lock for layer in (one, other)}
    with contextlib.ExitStack() as held:
        for _, lock in sorted(locks.items()):
            held.enter_context(lock)
        yield

"""Arrays that are given: boxes, points, identifiers, tags and rows as C takes them, from arrays of numpy, other buffers
or sequences. What is none of these is refused before the store is asked, with the index of the first that is wrong."""

from __future__ import annotations

import array
import ctypes
import re
import struct
from typing import TYPE_CHECKING, Any, Optional

from rstore._library import BOXES, EPSILON, ROW_SIZE, ROWS, whole
from rstore._rows import ROW_FIELDS
from rstore.errors import BadBox, DuplicateInLoad, Error, Misuse, at_index

if TYPE_CHECKING:
    from rstore._layer import Layer

_NUMPY: Any = None


def numpy_or_none() -> Any:
    """numpy, which is imported at the first such call; or None where it is not installed."""
    global _NUMPY
    if _NUMPY is None:
        try:
            import numpy
        except ImportError:
            _NUMPY = False
        else:
            _NUMPY = numpy
    return _NUMPY or None


class Numbers:
    """Numbers as C takes them: an address, how many rows there are, and what holds them."""

    def __init__(self, held: Any, at: int, count: int) -> None:
        self.held, self.at, self.count = held, at, count


def of_bytes(data: Any, size: int) -> Numbers:
    """Rows of that size, which are copied only where the memory may not be written or has gaps."""
    view = memoryview(data)
    if view.readonly or not view.nbytes or not view.c_contiguous:
        held: Any = ctypes.create_string_buffer(view.tobytes(), max(view.nbytes, 1))
    else:
        held = (ctypes.c_char * view.nbytes).from_buffer(view)
    return Numbers(held, ctypes.addressof(held), view.nbytes // size)


def _of_numpy(made: Any) -> Numbers:
    return Numbers(made, made.ctypes.data, len(made))


def _is_buffer(numbers: Any, formats: str, width: int, size: int) -> bool:
    """Whether these are numbers in memory, of one of the formats and that size, which C takes as they are."""
    try:
        view = memoryview(numbers)
    except (TypeError, ValueError):
        return False
    shape = view.shape or ()
    fits = len(shape) == 1 and shape[0] % width == 0 or len(shape) == 2 and shape[1] == width
    return fits and view.format in formats.split() and view.itemsize == size and view.c_contiguous


def _as_array(numpy: Any, numbers: Any, width: int, kinds: str) -> Any:
    """The numbers as an array of numpy; or None where they are a sequence that is no such array: which member is
    wrong is then found one by one."""
    given_as_array = hasattr(numbers, "__array__") or isinstance(numbers, (array.array, memoryview))
    try:
        given = numpy.asarray(numbers)
    except (TypeError, ValueError):
        return None
    if given.size == 0:
        return given.reshape(0, width)
    fits = given.ndim == 2 and given.shape[1] == width and given.dtype.kind in kinds
    return given if fits or given_as_array else None


def _scaled(numpy: Any, layer: Layer, given: Any, is_point: bool) -> Any:
    """Numbers as a layer with a scale stores them: rounded as in single questions."""
    times = given.astype(float) * layer.scale
    stored = numpy.floor(times + EPSILON)
    if not is_point:
        stored[:, layer.dims :] = numpy.ceil(times[:, layer.dims :] - EPSILON)
    return stored


def _of_array(numpy: Any, layer: Layer, given: Any, what: str, width: int, each: str) -> Numbers:
    """Boxes or points of an array of numpy as 32-bit numbers in C's order, which are not copied where they are that."""
    if given.ndim != 2 or given.shape[1] != width:
        raise Misuse(f"{layer.name}: an array of shape (n, {width}) is wanted, not {given.shape}")
    if given.size and given.dtype.kind not in ("iu" if layer.scale is None else "iuf"):
        wanted = "whole numbers is wanted (or give the layer a scale)" if layer.scale is None else "numbers is wanted"
        raise Misuse(f"{layer.name}: an array of {wanted}, not of {given.dtype}")
    stored = given if layer.scale is None else _scaled(numpy, layer, given, width == layer.dims)
    if not numpy.can_cast(stored.dtype, numpy.int32):
        fits = (stored >= -(1 << 31)) & (stored < 1 << 31)  # false of nan, too
        if not fits.all():
            index = int(fits.all(axis=1).argmin())
            raise at_index(layer._refuse(given[index].tolist(), what, width), index, each)
    return _of_numpy(numpy.ascontiguousarray(stored, dtype=numpy.int32))


def _of_sequences(layer: Layer, numbers: Any, is_point: bool, each: str) -> Numbers:
    """The same of a sequence of boxes or points."""
    data, pack, index = bytearray(), layer._point if is_point else layer._box, 0
    try:
        for index, one in enumerate(numbers):
            data += pack(one)
    except Error as error:
        raise at_index(error, index, each) from None
    except (TypeError, NotImplementedError) as error:
        raise Misuse(f"{layer.name}: no array of boxes or points: {type(numbers).__name__}") from error
    return of_bytes(data, 4 * (layer.dims if is_point else 2 * layer.dims))


def coordinates(layer: Layer, numbers: Any, is_point: bool, each: str = "question") -> Numbers:
    """Boxes or points as C takes them."""
    width, numpy, what = layer.dims, numpy_or_none(), "a point"
    if not is_point:
        width, what = 2 * width, "a box"
    if layer.scale is None and _is_buffer(numbers, "i @i =i", width, 4):
        return of_bytes(numbers, 4 * width)
    given = None if numpy is None else _as_array(numpy, numbers, width, "iu" if layer.scale is None else "iuf")
    if given is None:
        return _of_sequences(layer, numbers, is_point, each)
    return _of_array(numpy, layer, given, what, width, each)


def _of_whole_array(numpy: Any, given: Any, bits: int, what: str, each: str) -> Numbers:
    """Identifiers or tags of an array of whole numbers of another size."""
    wrong = given < 0
    if 8 * given.itemsize > bits:
        wrong |= given >> bits > 0
    if wrong.any():
        index = int(wrong.argmax())
        _whole_at(given[index], bits, what, index, each)
    return _of_numpy(numpy.ascontiguousarray(given, dtype=numpy.uint64 if bits == 64 else numpy.uint32))


def _whole_at(one: Any, bits: int, what: str, index: int, each: str) -> int:
    """The number, where it is of so many bits; else it is refused by its index."""
    try:
        return whole(one, bits, what)
    except Misuse as error:
        raise at_index(error, index, each) from None


def unsigned(numbers: Any, bits: int, what: str, each: str = "question") -> Numbers:
    """Identifiers or tags as C takes them."""
    size, form, numpy = bits // 8, "Q" if bits == 64 else "I", numpy_or_none()
    if _is_buffer(numbers, "Q L @Q @L =Q" if bits == 64 else "I @I =I", 1, size):
        return of_bytes(numbers, size)
    if numpy is not None and hasattr(numbers, "__array__"):
        given = numpy.asarray(numbers)
        if given.ndim == 1 and given.dtype.kind in "iu":
            return _of_whole_array(numpy, given, bits, what, each)
    if isinstance(numbers, (list, tuple, range)):
        try:
            return of_bytes(array.array(form, numbers), size)
        except (TypeError, ValueError, OverflowError):
            pass  # which one is wrong is found below
    try:
        listed = enumerate(numbers)
    except TypeError:
        raise Misuse(f"{what} is a whole number below 2^{bits}, or there is an array of them: {numbers!r}") from None
    return of_bytes(array.array(form, [_whole_at(one, bits, what, index, each) for index, one in listed]), size)


# Rows.


def given_rows(rows: Any) -> Numbers:
    """Rows of 40 bytes as C has them: bytes, or structures with just these fields."""
    try:
        view = memoryview(rows)
    except (TypeError, ValueError) as error:
        raise Misuse(f"rows are bytes, or an array with the fields of Rows.numpy: {type(rows).__name__}") from error
    form = re.sub("[<=@^]|:[^:]*:", "", view.format).replace("L", "Q", 1)
    if (form, view.itemsize) not in (("B", 1), ("b", 1), ("c", 1), ("T{Q(3)i(3)iII}", ROW_SIZE)):
        raise Misuse(f"rows are bytes, or have the fields of Rows.numpy, not {view.format!r}: load_arrays takes arrays")
    if view.nbytes % ROW_SIZE:
        raise Misuse("a row has 40 bytes")
    return of_bytes(view, ROW_SIZE)


def refused_row(error: Error, dims: int, rows: Numbers) -> Optional[int]:
    """The place of the first row for which a load is refused by this error, where that can be told."""
    data, found = memoryview(rows.held).cast("B")[: rows.count * ROW_SIZE], False
    for index, (id, *box, _) in enumerate(ROWS[dims].iter_unpack(data)):
        if isinstance(error, BadBox) and any(box[a] > box[a + dims] for a in range(dims)):
            return index
        if isinstance(error, DuplicateInLoad) and id == error.detail:
            if found:
                return index
            found = True
    return None


def made_rows(dims: int, ids: Numbers, boxes: Numbers, tags: Optional[Numbers]) -> Any:
    """Rows of identifiers, boxes and tags, as many of each."""
    count, numpy = ids.count, numpy_or_none()
    if not count:
        return b""
    if numpy is None:
        each = struct.Struct("=I").iter_unpack(memoryview(tags.held).cast("B")) if tags else iter([(0,)] * count)
        keys = struct.Struct("=Q").iter_unpack(memoryview(ids.held).cast("B"))
        numbers = BOXES[dims].iter_unpack(memoryview(boxes.held).cast("B"))
        return b"".join(ROWS[dims].pack(id, *box, tag) for (id,), box, (tag,) in zip(keys, numbers, each))
    rows = numpy.zeros(count, ROW_FIELDS)
    rows["id"] = numpy.frombuffer(ids.held, "u8")
    box = numpy.frombuffer(boxes.held, "i4").reshape(count, 2 * dims)
    rows["low"][:, :dims], rows["high"][:, :dims] = box[:, :dims], box[:, dims:]
    if tags:
        rows["tag"] = numpy.frombuffer(tags.held, "u4")
    return rows

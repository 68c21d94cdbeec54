"""librstore.so, by ctypes: its functions, and the forms of what they take and give (rstore.h)."""

from __future__ import annotations

import ctypes
import os
import struct
from ctypes import byref, c_char_p, c_int, c_int32, c_size_t, c_uint32, c_uint64, c_void_p
from pathlib import Path
from typing import Any, Optional, Sequence, Union

from rstore.errors import BadName, Misuse

Number = Union[int, float]
Box = Sequence[Number]
Point = Sequence[Number]
# Its number rises where a struct or a call changes.
NAME = "librstore.so.0"

class CRow(ctypes.Structure):
    _fields_ = [
        ("id", c_uint64),
        ("low", c_int32 * 3),
        ("high", c_int32 * 3),
        ("tag", c_uint32),
        ("axes", c_uint32),
    ]


ROW_SIZE = ctypes.sizeof(CRow)
ROOM, ID_ROOM = 256, 1024
# A row without its axes, which are the layer's.
ROWS = {2: struct.Struct("=Qii4xii4xI4x"), 3: struct.Struct("=QiiiiiiI4x")}
NEAR = struct.Struct("=QQQ")
PAIR = struct.Struct("=QQ")
LAYER = struct.Struct("=Q32sII")
# A node, whose box has zeros behind two axes.
NODES = {2: struct.Struct("=QIIii4xii4x"), 3: struct.Struct("=QIIiiiiii")}
BOXES = {2: struct.Struct("=iiii"), 3: struct.Struct("=iiiiii")}
POINTS = {2: struct.Struct("=ii"), 3: struct.Struct("=iii")}
WINDOW, INSIDE, AROUND, POINT = range(4)
EXISTING, CREATE, READ_ONLY = range(3)
WHOLE = (-(1 << 31), (1 << 31) - 1)
# With a scale a number that is so near to a whole one counts as it, so that 0.1 times 10^7 is a million.
EPSILON = 1e-6


def _load_library() -> ctypes.CDLL:
    within = Path(__file__).resolve().parent
    # that of a wheel, of library/build.sh's folder, of the checkout, of a tar; else the system's
    found = [within / NAME, within.parent / NAME, within.parent / "lib" / NAME, within.parent.parent / "lib" / NAME]
    lib = ctypes.CDLL(os.environ.get("RSTORE_LIBRARY") or str(next((p for p in found if p.exists()), NAME)))
    at, text, out = c_void_p, c_char_p, c_void_p
    for name, arguments, result in [
        ("version", [], text),
        ("errstr", [c_int], text),
        ("detail", [at], c_uint64),
        ("open", [text, c_int, c_uint32, out], c_int),
        ("close", [at], c_int),
        ("commit", [at], c_int),
        ("rollback", [at], c_int),
        ("refresh", [at, out], c_int),
        ("check", [at], c_int),
        ("create_layer", [at, text, c_uint32, c_uint32], c_int),
        ("drop_layer", [at, text], c_int),
        ("layers", [at, out, out], c_int),
        ("count", [at, text, out], c_int),
        ("insert", [at, text, c_uint64, text, c_uint32, c_uint32], c_int),
        ("move", [at, text, c_uint64, text, c_uint32], c_int),
        ("delete", [at, text, c_uint64], c_int),
        ("load", [at, text, c_uint32, c_void_p, c_size_t], c_int),
        ("get", [at, text, c_uint64, out], c_int),
        ("window", [at, text, text, c_uint32, c_void_p, out, out], c_int),
        ("inside", [at, text, text, c_uint32, c_void_p, out, out], c_int),
        ("around", [at, text, text, c_uint32, c_void_p, out, out], c_int),
        ("point", [at, text, text, c_uint32, c_void_p, out, out], c_int),
        ("range_into", [at, text, c_int, text, c_uint32, c_void_p, c_void_p, c_size_t, out], c_int),
        ("range_unordered", [at, text, c_int, at, c_uint32, at, at, c_size_t, out], c_int),
        ("range_after", [at, text, c_int, text, c_uint32, c_void_p, out, c_void_p, c_size_t, out], c_int),
        ("last", [at, text, c_uint64, out, out], c_int),
        ("more", [at, c_size_t, c_void_p, c_size_t], c_size_t),
        ("ids_into", [at, text, c_int, text, c_uint32, c_void_p, c_void_p, c_size_t, out], c_int),
        ("more_ids", [at, c_size_t, c_void_p, c_size_t], c_size_t),
        ("nearest", [at, text, c_uint64, text, c_uint32, out, out], c_int),
        ("nearest_rows", [at, text, c_uint64, text, c_uint32, c_void_p, out, out, out], c_int),
        ("join", [at, text, text, c_uint64, out, out], c_int),
        ("join_rows", [at, at, c_size_t, c_uint32, text, c_uint64, out, out], c_int),
        ("join_files", [at, text, at, text, c_uint64, at, c_uint32, out, out, out], c_int),
        ("nodes", [at, text, out, out], c_int),
        ("id_pages", [at, text, out], c_int),
        ("windows", [at, text, c_int, at, c_uint32, c_size_t, at, out, out, out], c_int),
        ("windows_rows", [at, text, c_int, at, c_uint32, c_size_t, at, out, out, out], c_int),
        ("counts", [at, text, c_int, at, c_uint32, c_size_t, at, out, out], c_int),
        ("nearest_many", [at, text, c_uint64, at, c_uint32, c_size_t, out, out, out], c_int),
        ("get_many", [at, text, at, c_size_t, at, out], c_int),
        ("free", [at], None),
    ]:
        function = getattr(lib, "rstore_" + name)
        function.argtypes, function.restype = arguments, result
    return lib


_LIB: Optional[ctypes.CDLL] = None


def library() -> ctypes.CDLL:
    """The library, loaded at the first call."""
    global _LIB
    if _LIB is None:
        _LIB = _load_library()
    return _LIB


def version() -> str:
    """The library's version."""
    return library().rstore_version().decode()


def whole(number: int, bits: int, what: str) -> int:
    """A number that fits: ctypes would cut one that does not."""
    try:
        if 0 <= number < 1 << bits:
            return int(number.__index__())
    except (TypeError, ValueError, AttributeError):
        pass
    raise Misuse(f"{what} is a whole number below 2^{bits}: {number!r}")


def tag_at(tag: Optional[int]) -> Any:
    """What C takes for a tag that is asked for, or not."""
    return None if tag is None else byref(c_uint32(whole(tag, 32, "a tag")))


def name_of(layer: str) -> bytes:
    """The name of a layer, as C takes it."""
    name = layer.encode()
    if not name or b"\0" in name:
        raise BadName(f"not a layer name: {layer!r}")
    return name


class Made:
    """An array that the library makes, whose address a call writes. It is freed with this, which each view of it keeps:
    so also where an exception comes in between, as that of Ctrl-C."""

    def __init__(self, lib: Any) -> None:
        self.address, self._free = c_void_p(), lib.rstore_free

    def array(self, kind: Any, count: int) -> Any:
        """Its elements, without a copy."""
        if not self.address.value or not count:
            return (kind * 0)()
        held = (kind * count).from_address(self.address.value)
        held.made = self
        return held

    def __del__(self) -> None:
        if self.address.value:
            self._free(self.address)

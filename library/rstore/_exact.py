"""What `rstore.rtree` keeps of its entries beside their stored boxes: the box as it was given where the stored numbers do
not tell it, and which entries have an identifier that others have, too. For an index in a file in layers of their own."""

from __future__ import annotations

import struct
from typing import Any, Iterator, Optional, Sequence

from rstore._store import Store

_LOWS, _HIGHS, _SHARED, _SCALE = "given_lows", "given_highs", "shared_ids", "scale"
_PART, _HALF = (1 << 62) - 1, (1 << 31) - 1
_DOUBLES = struct.Struct("<3d")


def _box_of(bits: int) -> "tuple[tuple[int, ...], int]":
    """A box of three axes and a tag that spell 218 bits: 31 in each low, which is below 0, and in each high, 32 in the tag."""
    parts = [bits >> 62 * axis & _PART for axis in range(3)]
    return (*[(part >> 31) - (1 << 31) for part in parts], *[part & _HALF for part in parts]), bits >> 186


def _bits_of(box: Sequence[int], tag: int) -> int:
    """The bits that they spell."""
    bits = tag << 186
    for axis in range(3):
        bits |= ((box[axis] + (1 << 31)) << 31 | box[axis + 3]) << 62 * axis
    return bits


class GivenBoxes:
    """Boxes as they were given, by the keys of entries: the lows and then the highs, floating-point numbers."""

    def __init__(self, store: Optional[Store], dims: int) -> None:
        self.boxes: "dict[int, tuple[float, ...]]" = {}
        self._store, self._dims = store, dims
        if store is not None and _LOWS in store:
            highs = {key: self._doubles(box, tag) for key, box, tag in store[_HIGHS].all_rows()}
            for key, box, tag in store[_LOWS].all_rows():
                self.boxes[key] = self._doubles(box, tag) + highs[key]

    def _doubles(self, box: Sequence[int], tag: int) -> "tuple[float, ...]":
        return _DOUBLES.unpack(_bits_of(box, tag).to_bytes(28, "little")[:24])[: self._dims]

    def get(self, key: int) -> "Optional[tuple[float, ...]]":
        """The box of an entry, where it is kept."""
        return self.boxes.get(key)

    def put(self, key: int, box: "tuple[float, ...]") -> None:
        """Keeps a box of a new entry."""
        self.put_all({key: box})

    def put_all(self, boxes: "dict[int, tuple[float, ...]]") -> None:
        """Keeps the boxes of new entries."""
        self.boxes.update(boxes)
        if self._store is None or not boxes:
            return
        for name, part in ((_LOWS, slice(0, self._dims)), (_HIGHS, slice(self._dims, None))):
            layer = self._store[name] if name in self._store else self._store.create_layer(name, dims=3)
            for key, box in boxes.items():
                doubles = (*box[part], 0.0)[:3]
                layer.insert(key, *_box_of(int.from_bytes(_DOUBLES.pack(*doubles), "little")))

    def take(self, key: int) -> None:
        """Forgets the box of an entry that is taken out."""
        if self.boxes.pop(key, None) is not None and self._store is not None:
            self._store[_LOWS].delete(key)
            self._store[_HIGHS].delete(key)


class SharedIds:
    """Entries whose identifier another had when they came: each has a key of its own, from 2^63 on."""

    def __init__(self, store: Optional[Store]) -> None:
        self.ids: "dict[int, int]" = {}
        self._keys: "dict[int, list[int]]" = {}
        self._store, self._next = store, 1 << 63
        if store is not None and _SHARED in store:
            for key, box, tag in store[_SHARED].all_rows():
                self._note(key, _bits_of(box, tag))

    def _note(self, key: int, own: int) -> None:
        self.ids[key] = own
        self._keys.setdefault(own, []).append(key)
        self._next = max(self._next, key + 1)

    def __contains__(self, key: int) -> bool:
        return key in self.ids

    def own(self, key: int) -> int:
        """The identifier of the entry with this key, in 64 bits."""
        return self.ids.get(key, key)

    def keys(self, own: int) -> Iterator[int]:
        """The keys that entries of an identifier may have: itself, and those that were added."""
        yield own
        yield from list(self._keys.get(own, ()))

    def add(self, own: int) -> int:
        """A key for one more entry of an identifier."""
        key = self._next
        self._note(key, own)
        if self._store is not None:
            layer = self._store[_SHARED] if _SHARED in self._store else self._store.create_layer(_SHARED, dims=3)
            layer.insert(key, *_box_of(own))
        return key

    def take(self, key: int) -> None:
        """Forgets a key, whose entry is taken out."""
        if key in self.ids:
            self._keys[self.ids.pop(key)].remove(key)
            if self._store is not None:
                self._store[_SHARED].delete(key)


def kept_scale(store: Store) -> Any:
    """The scale that a file keeps, or None."""
    if _SCALE not in store:
        return None
    return scale_of(store[_SCALE][0][0])


def keep_scale(store: Store, exponent: int) -> None:
    """Keeps the scale, a power of ten, in the file."""
    layer = store[_SCALE] if _SCALE in store else store.create_layer(_SCALE, dims=2)
    layer[0] = (exponent, 0, exponent, 0)


def scale_of(exponent: int) -> Any:
    """A power of ten: a whole number from 1 on, below it a floating-point one."""
    return 10**exponent if exponent >= 0 else float(f"1e{exponent}")

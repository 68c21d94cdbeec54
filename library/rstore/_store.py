"""A store."""

from __future__ import annotations

import ctypes
import os
import threading
import weakref
from ctypes import byref, c_int, c_size_t, c_uint64, c_void_p
from typing import Any, Callable, Iterator, Optional, Union

from rstore._layer import Layer
from rstore._library import CREATE, EXISTING, ID_ROOM, LAYER, READ_ONLY, ROOM, CRow, library, name_of
from rstore._rows import LayerInfo, StoreInfo
from rstore.errors import KINDS, BadCache, BadDims, BadFanout, CannotOpen, Closed, Error, Misuse, NoLayer


class Store:
    """A store in a file, from `rstore.open`. Close it, or use it in a `with`: left normally that keeps what was changed
    and closes it; left by an exception it gives up what was not committed, and closes it too."""

    def __init__(self, path: Union[str, os.PathLike[str], None], create: bool, read_only: bool, cache: int) -> None:
        self._lib = library()
        # functions of its own, with no argument types: their arguments are made once
        self._range_into: Callable[..., int] = self._lib["rstore_range_into"]
        self._ids_into: Callable[..., int] = self._lib["rstore_ids_into"]
        self._nearest: Callable[..., int] = self._lib["rstore_nearest"]
        self._handle: Optional[c_void_p] = None
        self._lock = threading.Lock()
        self._in_transaction = False
        self._room = (CRow * ROOM)()
        self._view = memoryview(self._room).cast("B")
        self._room_at, self._room_size = c_void_p(ctypes.addressof(self._room)), c_size_t(ROOM)
        held = (c_uint64 * ID_ROOM)()
        self._ids = memoryview(held).cast("B").cast("Q")
        self._ids_at, self._ids_size = c_void_p(ctypes.addressof(held)), c_size_t(ID_ROOM)
        self._count = c_size_t()
        self._count_at = byref(self._count)
        self._at = c_void_p()
        self._at_at = byref(self._at)
        self._in_memory = path is None
        self.path = ":memory:" if path is None else os.fspath(path)
        handle = c_void_p()
        if create and read_only:
            raise Misuse("a store that is only read is not made")
        if not 8 <= cache <= 4096:
            raise BadCache("a cache holds 8 to 4096 pages")
        if path is None and read_only:
            raise Misuse("a store in memory is not only read")
        flags = READ_ONLY if read_only else CREATE if create or path is None else EXISTING
        name = None if path is None else os.fsencode(path)
        if name is not None and (b"\0" in name or not name):
            raise CannotOpen(f"{path!r}: cannot open the file")
        error = self._lib.rstore_open(name, flags, cache, byref(handle))
        if error:
            raise self._error(error, self.path)
        self._handle = handle
        #: whether the last session was cut short after a commit, which was brought back, and may have changed more
        self.recovered: bool = self._lib.rstore_detail(handle) == 1
        _STORES.add(self)

    def _error(self, number: int, what: str = "") -> Error:
        """The exception of an error."""
        if self._handle is None and number == Misuse.number:
            number = Closed.number
        message = self._lib.rstore_errstr(number).decode()
        detail = self._lib.rstore_detail(self._handle) if number in (13, 18, 19) else 0
        more = f": {detail}" if detail else ""
        return KINDS.get(number, Error)(f"{what}: {message}{more}" if what else message + more, detail)

    @property
    def _open(self) -> c_void_p:
        if self._handle is None:
            raise Closed(f"{self.path}: the store is closed")
        return self._handle

    @property
    def closed(self) -> bool:
        """Whether it is closed."""
        return self._handle is None

    def close(self) -> None:
        """Keeps all changes in the file, those that were not committed too, and closes it, whether or not that is
        refused; call `rollback` first to give them up. A second call does nothing. Refused within a transaction."""
        with self._lock:
            self._outside()
            handle, self._handle = self._handle, None
            if handle is not None:
                error = self._lib.rstore_close(handle)
                if error:
                    raise self._error(error, str(self.path))

    def __enter__(self) -> Store:
        self._open
        return self

    def __exit__(self, kind: object, *_: object) -> None:
        if kind is None:
            self.close()
            return
        try:
            self._end(self._lib.rstore_rollback, transaction=True)
        except Error:
            pass  # the store is not open then, and closing keeps nothing
        try:
            self.close()
        except Error:
            pass  # the exception that left the `with` tells more

    def __del__(self) -> None:
        if getattr(self, "_handle", None) is not None:
            try:
                self.close()
            except Error:
                pass

    def __repr__(self) -> str:
        return f"<rstore.Store {self.path!r}{', closed' if self.closed else ''}>"

    def commit(self) -> None:
        """Keeps all changes in the file, and goes on. Refused within a transaction, which commits at its end."""
        self._end(self._lib.rstore_commit)

    def rollback(self) -> None:
        """Gives up what was changed since the last `commit`, or the opening, and goes on with what was kept last, also
        after `StoreFailed`. A layer that was made since is gone, and its `Layer` raises `NoLayer`. Where memory or the
        device refuses this the store is not open, and calls raise `Closed`, until a further `rollback` goes well. Not for
        within a transaction, which an exception gives up."""
        self._end(self._lib.rstore_rollback)

    def refresh(self) -> bool:
        """Of a store that is only read: goes on with the table that its file was closed with last, and tells whether it
        looked at it anew. Else the file is as it was, and nothing is done; so it is for a store that may be changed, too.
        A layer that is gone since raises `NoLayer`. Where the file or memory refuses this the store keeps its table."""
        changed = c_int()
        self._ask(self._lib.rstore_refresh, byref(changed), what=os.fsdecode(self.path))
        return bool(changed.value)

    def transaction(self) -> Transaction:
        """For a `with`: what is changed in it is committed at its end, or given up where an exception leaves it, with
        all that was changed since the last `commit`. Transactions do not nest: a second one raises `Misuse`, and so do
        `commit`, `rollback` and `close` within one, by whatever thread."""
        return Transaction(self)

    def _outside(self) -> None:
        """Refuses a call within a transaction. The lock is held."""
        if self._in_transaction:
            raise Misuse(f"{self.path}: a transaction is open: it ends by itself, and there is no other within it")

    def _end(self, call: Callable[..., int], transaction: bool = False) -> None:
        """Keeps or gives up all changes, also those of a transaction where its end asks for it."""
        with self._lock:
            if not transaction:
                self._outside()
            self._in_transaction = False
            error = call(self._open)
            if error:
                raise self._error(error, str(self.path))

    def check(self) -> None:
        """Reads all pages; raises `Damaged` where the file is not sound."""
        self._ask(self._lib.rstore_check)

    def _ask(self, call: Callable[..., int], *arguments: Any, what: str = "") -> None:
        with self._lock:
            error = call(self._open, *arguments)
            if error:
                raise self._error(error, what)

    def _taken(self, at: c_void_p, count: int, size: int) -> bytes:
        """The bytes of an array of results, which is freed."""
        if not at.value:
            return b""
        try:
            return ctypes.string_at(at.value, count * size)
        finally:
            self._lib.rstore_free(at)

    # Layers.

    def create_layer(self, name: str, dims: int = 2, fanout: int = 100, scale: Optional[int] = None) -> Layer:
        """Makes an empty layer of 2 or 3 axes. Its name is 1 to 24 of a-z, 0-9 and _, the first a letter; a node of its
        tree has at most `fanout` entries (4 to 100, of which 100 is best)."""
        if dims not in (2, 3):
            raise BadDims("a layer has two or three axes")
        if not 4 <= fanout <= 100:
            raise BadFanout("a fanout is 4 to 100")
        layer = Layer(self, LayerInfo(name, dims, fanout, 0), scale)
        self._ask(self._lib.rstore_create_layer, name_of(name), dims, fanout, what=name)
        return layer

    def drop_layer(self, name: str) -> None:
        """Takes out a layer with all its objects."""
        self._ask(self._lib.rstore_drop_layer, name_of(name), what=name)

    def layers(self) -> "list[LayerInfo]":
        """All layers, ascending by name."""
        at, count = c_void_p(), c_size_t()
        self._ask(self._lib.rstore_layers, byref(at), byref(count))
        rows = LAYER.iter_unpack(self._taken(at, count.value, LAYER.size))
        return [LayerInfo(n.split(b"\0")[0].decode(), d, f, c) for c, n, d, f in rows]

    def stats(self) -> StoreInfo:
        """Its file and size, its layers as the program's `--stats` tells them, and how many objects these have
        together. Each node of each tree is looked at, and each object is counted."""
        layers = [Layer(self, info, None).stats() for info in self.layers()]
        size = None if self._in_memory else os.stat(self.path).st_size
        return StoreInfo(os.fsdecode(self.path), size, layers, sum(layer.objects for layer in layers))

    def layer(self, name: str, scale: Optional[int] = None) -> Layer:
        """The layer of that name; raises `NoLayer`, a `KeyError`, where there is none."""
        for info in self.layers():
            if info.name == name:
                return Layer(self, info, scale)
        raise NoLayer(f"{name}: no layer of that name")

    __getitem__ = layer

    def __contains__(self, name: object) -> bool:
        return any(info.name == name for info in self.layers())

    def __iter__(self) -> Iterator[str]:
        """The names of the layers, ascending."""
        return iter([info.name for info in self.layers()])

    def __len__(self) -> int:
        """How many layers there are."""
        return len(self.layers())

    def __bool__(self) -> bool:
        return True

    __delitem__ = drop_layer


class Transaction:
    """A `with` whose changes are committed at its end, or given up, from `Store.transaction`."""

    def __init__(self, store: Store) -> None:
        self._store = store

    def __enter__(self) -> Store:
        store = self._store
        with store._lock:
            store._open
            store._outside()
            store._in_transaction = True
        return store

    def __exit__(self, kind: object, *_: object) -> None:
        store = self._store
        if kind is not None:
            store._end(store._lib.rstore_rollback, transaction=True)
            return
        try:
            store._end(store._lib.rstore_commit, transaction=True)
        except Error:
            store._end(store._lib.rstore_rollback, transaction=True)
            raise


_STORES: "weakref.WeakSet[Store]" = weakref.WeakSet()


def _forget() -> None:
    """In a forked child the stores are the parent's: here they count as closed, and are left as they are."""
    for store in list(_STORES):
        store._handle = None
        store._lock = threading.Lock()


if hasattr(os, "register_at_fork"):
    os.register_at_fork(after_in_child=_forget)


def open(
    path: Union[str, os.PathLike[str], None], *, create: bool = False, read_only: bool = False, cache: int = 1024
) -> Store:
    """Opens the store in the file at `path`, or with None makes one in memory, which goes when it is closed. With `create`
    a file that is missing or empty becomes an empty store; with `read_only` the file is only read, beside a writer too,
    whose commits are seen after `Store.refresh`, and changes are refused. `cache` is how many pages of 4096 bytes are held in memory, 8 to 4096."""
    return Store(path, create, read_only, cache)

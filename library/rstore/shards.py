"""What one machine does with the files of a sharded layer (rstore.dask): the functions here are its tasks. No Dask is
in it. Wants numpy, and pandas for data frames.

A task that is run twice, or whose worker dies, does no harm: each run writes files of names that no other has, in the
work folder of its build, and what is not told to the builder is in no manifest. Here `file` is the triple (path, size
in bytes, CRC-32 or None) of a file of the layer, and `rows` are arrays of type `ROW`, of whole numbers as they are
stored: 40 bytes a row."""

from __future__ import annotations

import contextlib
import glob
import json
import math
import os
import shutil
import threading
import time
import uuid
import zlib
from collections import OrderedDict
from functools import lru_cache
from typing import Any, Callable, Iterator, NamedTuple, Optional, Sequence, Tuple

import numpy

from rstore._given import Numbers, coordinates, made_rows, unsigned
from rstore._layer import Layer
from rstore._library import WHOLE
from rstore._rows import ROW_FIELDS
from rstore._store import open as open_store
from rstore._texts import Text, places_of_names, rows_of_text
from rstore.errors import BadBox, DeviceFailed, Error, Misuse, StoreFailed, WrongDims, WrongVersion

#: a row and a pair of a join as numpy has them
ROW, PAIR = numpy.dtype(ROW_FIELDS), numpy.dtype([("first", "u8"), ("second", "u8")])
#: files that a process keeps open, and how many pages of 4096 bytes each store of them may hold
OPEN_FILES, CACHE = 64, 1024
#: how many objects of a shard are joined at once: their rows, 40 bytes each, stay below what the C library maps anew
PIECE = 3000
#: the name of the layer of each shard
LAYER = "objects"
_FORMAT, _VERSION = "rstore-sharded", 1
_SAMPLE, _STEP = 2000, 1 << 14
File = Tuple[str, int, Optional[int]]
#: what a thread uses again
_own = threading.local()


class ShardError(Error, OSError):
    """A file of a sharded layer is missing, cut or changed; `path` is it."""

    def __init__(self, message: str, path: str = "") -> None:
        super().__init__(message)
        self.path = path

    def __reduce__(self) -> Any:
        return ShardError, (str(self), self.path)


class Conflict(Error):
    """Another writer has made the next generation first; nothing was changed."""


class NoManifest(Error, OSError):
    """The folder holds no sharded layer."""


# The order of objects.

# By which bit k of a number of 32 (of three axes 21) bits comes to bit k * axes: shifts, and what stays.
_SPREADS = {
    2: [
        (16, 0xFFFF0000FFFF), (8, 0xFF00FF00FF00FF), (4, 0xF0F0F0F0F0F0F0F), (2, 0x3333333333333333),
        (1, 0x5555555555555555),
    ],
    3: [
        (32, 0x1F00000000FFFF), (16, 0x1F0000FF0000FF), (8, 0x100F00F00F00F00F), (4, 0x10C30C30C30C30C3),
        (2, 0x1249249249249249),
    ],
}


def hilbert(low: Any, high: Any, dims: int) -> Any:
    """The places of the boxes' centres on the Hilbert curve of 32 bits an axis: an array of shape (words, n), one word
    of 64 bits for two axes, two for three, the greater first."""
    keys = numpy.empty((dims - 1, len(low)), numpy.uint64)
    for start in range(0, len(low), _STEP):  # in pieces that the processor's cache holds
        some = slice(start, start + _STEP)
        centres = (low[some].astype(numpy.int64) + high[some] >> 1) + (1 << 31)
        x = [numpy.ascontiguousarray(centres[:, axis], dtype=numpy.uint32) for axis in range(dims)]
        turned = _transpose(x)
        for word, (shift, bits) in enumerate([(0, 32)] if dims == 2 else [(11, 21), (0, 11)]):
            key = numpy.zeros(len(centres), numpy.uint64)
            for axis in range(dims):
                spread = ((x[axis] ^ turned) >> numpy.uint32(shift)).astype(numpy.uint64)
                spread &= numpy.uint64((1 << bits) - 1)
                for by, mask in _SPREADS[dims]:
                    spread = (spread | (spread << numpy.uint64(by))) & numpy.uint64(mask)
                key |= spread << numpy.uint64(dims - 1 - axis)
            keys[word, some] = key
    return keys


def _transpose(x: "list[Any]") -> Any:
    """Turns coordinates into the places on the curve, a bit of each in turn, before the last step: what each is to be
    combined with."""
    for bit in range(31, 0, -1):
        below = numpy.uint32((1 << bit) - 1)
        for axis in range(len(x)):
            on = ((x[axis] >> numpy.uint32(bit)) & numpy.uint32(1)) * below
            swapped = (x[0] ^ x[axis]) & (below ^ on)
            x[0] ^= on | swapped
            if axis:
                x[axis] ^= swapped
    for axis in range(1, len(x)):
        x[axis] ^= x[axis - 1]
    turned = x[-1] >> numpy.uint32(1)
    for shift in (1, 2, 4, 8, 16):
        turned ^= turned >> numpy.uint32(shift)
    return turned


def along(numbers: Any, dims: int) -> "tuple[Any, Any]":
    """The order of boxes or points along the curve, in which a store's pages are read once, and the order back."""
    order = back = numpy.arange(len(numbers))
    if len(numbers) > 64:
        order, back = numpy.argsort(hilbert(numbers[:, :dims], numbers[:, -dims:], dims)[0]), numpy.empty_like(back)
        back[order] = numpy.arange(len(numbers))
    return order, back


def cut(columns: Any, splitter: Optional[Sequence[int]], default: int) -> int:
    """How many of the sorted tuples, given by their columns, are below the splitter."""
    if splitter is None:
        return default
    low, high = 0, columns.shape[1]
    for column, value in zip(columns, splitter):
        part, number = column[low:high], numpy.uint64(value)
        low, high = low + int(numpy.searchsorted(part, number)), low + int(numpy.searchsorted(part, number, "right"))
    return low


# Rows of what is given.


@lru_cache(maxsize=None)
def form(dims: int, scale: Optional[int]) -> Layer:
    """A layer that tells numbers: an empty one in memory."""
    return open_store(None, cache=8).create_layer(LAYER, dims, scale=scale)


def whole_boxes(layer: Layer, numbers: Any, is_point: bool, each: str = "question") -> Any:
    """Boxes or points as a layer stores them: an array of int32. Raises `Misuse` as the layer does."""
    made, width = coordinates(layer, numbers, is_point, each), layer.dims if is_point else 2 * layer.dims
    flat = numpy.frombuffer(made.held, "i4") if made.count else numpy.empty(0, "i4")
    return flat[: made.count * width].reshape(made.count, width)


def above(numbers: Any, dims: int) -> Any:
    """Of each box whether a low is above its high."""
    return (numbers[:, :dims] > numbers[:, dims:]).any(axis=1)


def whole_ids(numbers: Any, each: str = "question") -> Any:
    """Identifiers as an array of uint64. Raises `Misuse` of others."""
    made = unsigned(numbers, 64, "an identifier", each)
    return numpy.frombuffer(made.held, "u8")[: made.count] if made.count else numpy.empty(0, "u8")


def names(dims: int) -> "list[str]":
    """The columns of a box: minx, miny, maxx, maxy of two axes."""
    return [end + axis for end in ("min", "max") for axis in "xyz"[:dims]]


def rows_of(part: Any, dims: int, scale: Optional[int]) -> Any:
    """A part of a source as rows: such rows (not scaled), a part of a file, a data frame (`_frame_rows`), or an
    iterable of (id, box) or (id, box, tag). Raises `Misuse` or `WrongDims` of what a load would refuse."""
    if isinstance(part, numpy.ndarray) and part.dtype == ROW:
        rows = part
        if len(part) and (part["axes"] != dims).any():
            raise WrongDims(f"rows of another number of axes than {dims}")
    elif isinstance(part, Text):
        rows = rows_of_text(part, dims, scale)
    else:
        ids, boxes, tags = _frame_rows(part, dims) if hasattr(part, "columns") else _listed_rows(part)
        layer = form(dims, scale)
        numbers, keys = coordinates(layer, boxes, False, "object"), unsigned(ids, 64, "an identifier", "object")
        made = made_rows(dims, keys, numbers, layer._tags(tags, keys.count, "object"))
        rows = made if isinstance(made, numpy.ndarray) else numpy.zeros(0, ROW)
        rows["axes"] = dims
    wrong = (rows["low"][:, :dims] > rows["high"][:, :dims]).any(axis=1)
    if wrong.any():
        id = int(rows["id"][wrong][0])
        raise BadBox(f"object {id}: a low is above its high", id)
    return rows


def _listed_rows(part: Any) -> "tuple[list[Any], list[Any], list[Any]]":
    ids, boxes, tags = [], [], []
    for index, one in enumerate(part):
        try:
            id, box, *tag = one
            ids.append(id)
            boxes.append(box)
            tags.extend(tag or [0])
        except (TypeError, ValueError):
            tags.append(None)
        if len(tags) != index + 1 or len(ids) != index + 1:
            raise Misuse(f"object {index}: an object is an identifier, a box and perhaps a tag: {one!r}")
    return ids, boxes, tags


def _frame_rows(frame: Any, dims: int) -> "tuple[Any, Any, Any]":
    """Identifiers, boxes and tags of a data frame: by columns of the names that `--import` knows (id; minx or xmin
    and so on, or x, y and z; tag), or of geopandas by the bounds of its geometries, and the index where no column is
    id."""
    columns = [str(name) for name in frame.columns]
    if hasattr(frame, "geometry") and hasattr(frame.geometry, "bounds"):
        if dims != 2:
            raise WrongDims("geometries of geopandas have bounds of two axes")
        named = dict(zip((name.lower() for name in columns), frame.columns))
        boxes = frame.geometry.bounds.to_numpy()
        id, tag = named.get("id"), named.get("tag")
    else:
        places = places_of_names(columns)
        if len(places.low) != dims:
            raise WrongDims(f"a data frame of {len(places.low)} axes, and a layer of {dims}")
        boxes = frame.iloc[:, places.low + places.high].to_numpy()
        id = None if places.id is None else frame.columns[places.id]
        tag = None if places.tag is None else frame.columns[places.tag]
    ids = frame.index if id is None else frame[id]
    return ids.to_numpy(), boxes, None if tag is None else frame[tag].fillna(0).astype("int64").to_numpy()


# Files.


def token() -> str:
    """What makes a name that no other file has."""
    return uuid.uuid4().hex[:12]


def crc32(path: str) -> int:
    """The CRC-32 of a file, as zlib has it: against damage, and no proof against a forger."""
    made, room = 0, memoryview(bytearray(1 << 17))
    with open(path, "rb", buffering=0) as data:
        while count := data.readinto(room):
            made = zlib.crc32(room[:count], made)
    return made


@contextlib.contextmanager
def work_folder(folder: str) -> "Iterator[str]":
    """A folder in the layer's for the files of one build, for the time of a `with`."""
    work = os.path.join(folder, "work-" + token())
    os.mkdir(work)
    try:
        yield work
    finally:
        for _ in range(100):  # a task that is left behind may still write: it is refused once the folder is gone
            shutil.rmtree(work, ignore_errors=True)
            if not os.path.exists(work):
                break
            time.sleep(0.05)


def _entry(work: str, name: str, **more: Any) -> "dict[str, Any]":
    """What the manifest says of a file that is whole now: its name, size and checksum, and more."""
    path = os.path.join(work, name)
    with open(path, "rb+") as data:
        os.fsync(data.fileno())
    return {"path": name, "size": os.path.getsize(path), "crc32": crc32(path), **more}


def write_store(work: str, kind: str, rows: Any, dims: int, fanout: int) -> "dict[str, Any]":
    """A store with these objects, and what the manifest says of it: path, size, checksum, and the objects' count,
    bounds and least and greatest identifier."""
    name, more = f"{kind}-{token()}.rst", {}
    path = os.path.join(work, name)
    try:
        with open_store(path, create=True, cache=4096) as db:
            db.create_layer(LAYER, dims, fanout).load_rows(numpy.ascontiguousarray(rows))
    except StoreFailed as error:
        if error.detail != DeviceFailed.number:
            raise
        raise DeviceFailed(f"{path}: the device refused to write it, as where it is full") from error
    if len(rows):
        more = {
            "low": rows["low"].min(0).tolist(), "high": rows["high"].max(0).tolist(),
            "ids": [int(rows["id"].min()), int(rows["id"].max())],
        }
    return _entry(work, name, count=len(rows), **more)


def write_ids(work: str, number: int, ids: Any, low: int) -> "tuple[dict[str, Any], Optional[int]]":
    """A part of the directory, of identifiers and their shards, and the least identifier that stands twice in it."""
    ids = ids[:, numpy.argsort(ids[0], kind="stable")]
    twice = ids[0, 1:][ids[0, 1:] == ids[0, :-1]]
    name = f"ids-{number:05d}-{token()}.npy"
    numpy.save(os.path.join(work, name), ids)
    return _entry(work, name, count=ids.shape[1], low=low), int(twice[0]) if len(twice) else None


def check(path: str, size: int, checksum: Optional[int]) -> None:
    """Raises `ShardError` where the file is missing or another one; without a checksum only the size is looked at."""
    try:
        found = os.path.getsize(path)
        wrong = f"has {found} bytes, not {size}" if found != size else ""
        if not wrong and checksum is not None and crc32(path) != checksum:
            wrong = "has another checksum than the manifest says"
    except OSError as error:
        wrong = f"cannot be read: {error.strerror}"
    if wrong:
        raise ShardError(f"{path}: the file of a sharded layer {wrong}", path)


def check_shard(file: File, count: int) -> None:
    """Reads a shard whole: raises `ShardError` of another file, `Damaged` of one that is not sound."""
    check(*file)
    with open_store(file[0], read_only=True) as db:
        db.check()
        if len(db[LAYER]) != count:
            raise ShardError(f"{file[0]}: the shard has {len(db[LAYER])} objects, not {count}", file[0])


class _Kept(NamedTuple):
    mark: Any
    verified: bool
    value: Any


_kept: "OrderedDict[str, _Kept]" = OrderedDict()
_lock = threading.Lock()


def forget() -> None:
    """Lets go all files that this process has open."""
    with _lock:
        _kept.clear()


def _forget_in_child() -> None:
    global _lock
    _lock = threading.Lock()
    _kept.clear()


if hasattr(os, "register_at_fork"):
    os.register_at_fork(after_in_child=_forget_in_child)  # whose parent's stores are closed in it


def _mark(path: str) -> Any:
    """By what a file is known again: where another one has its name, or it was written, this is another."""
    try:
        status = os.stat(path)
    except OSError as error:
        raise ShardError(f"{path}: the file of a sharded layer cannot be read: {error.strerror}", path) from None
    return status.st_dev, status.st_ino, status.st_size, status.st_mtime_ns, status.st_ctime_ns


def kept(file: File, opened: Callable[[str], Any]) -> Any:
    """What `opened` gives of a file, which is kept while it is among the last that this process used. It is checked
    when it is opened, and again where it was touched since. A store that is let go is closed when no thread uses it
    any more. Raises `ShardError`."""
    path, mark = file[0], _mark(file[0])
    with _lock:
        known = _kept.get(path)
        if known is not None and known.mark == mark and (known.verified or file[2] is None):
            _kept.move_to_end(path)
            return known.value
        _kept.pop(path, None)
    check(*file)
    try:
        made = opened(path)
    except (Error, OSError, ValueError) as error:
        raise ShardError(f"{path}: the file of a sharded layer cannot be opened: {error}", path) from error
    with _lock:
        _kept[path] = _Kept(mark, file[2] is not None, made)
        while len(_kept) > OPEN_FILES:
            _kept.popitem(last=False)
    return made


def shard(file: File) -> Layer:
    """The layer of a store of objects, open to be read."""
    return kept(file, lambda path: open_store(path, read_only=True, cache=CACHE)[LAYER])


def ids_of(file: File) -> Any:
    """A part of the directory: an array of shape (2, n), identifiers (ascending) and shards."""
    return kept(file, lambda path: numpy.load(path, mmap_mode="r"))


# Generations.


def generations(folder: str) -> "list[str]":
    """The paths of the manifests, the oldest first."""
    return sorted(glob.glob(os.path.join(glob.escape(folder), "manifest-*.json")))


def _checksum(manifest: "dict[str, Any]") -> int:
    text = json.dumps({name: value for name, value in manifest.items() if name != "crc32"}, sort_keys=True)
    return zlib.crc32(text.encode())


def read(path: str) -> "dict[str, Any]":
    """A manifest. Raises `ShardError` where it is cut or changed, `NoManifest` where it is none, `WrongVersion` of one
    of a later version."""
    with open(path, "rb") as data:
        text = data.read()
    try:
        manifest = json.loads(text)
    except ValueError:
        raise ShardError(f"{path}: the manifest of a sharded layer is cut or changed", path) from None
    if not isinstance(manifest, dict) or manifest.get("format") != _FORMAT:
        raise NoManifest(f"{path}: no manifest of a sharded layer")
    if manifest.get("version") != _VERSION:
        raise WrongVersion(f"{path}: a sharded layer of version {manifest.get('version')}, and {_VERSION} is known")
    if manifest.get("crc32") != _checksum(manifest):
        raise ShardError(f"{path}: the manifest of a sharded layer is cut or changed", path)
    return manifest


def newest(folder: str) -> "dict[str, Any]":
    """The manifest of the newest generation; raises as `read` does, and `NoManifest` where there is none."""
    for path in reversed(generations(folder)):
        with contextlib.suppress(FileNotFoundError):  # vacuum may be at work
            return read(path)
    raise NoManifest(f"{folder}: no sharded layer")


def files_of(manifest: "dict[str, Any]") -> "list[dict[str, Any]]":
    """What a manifest says of each of its files."""
    return [*manifest["shards"], *manifest["ids"], manifest["top"]]


def publish(folder: str, work: str, manifest: "dict[str, Any]") -> None:
    """Writes the store of the shards' bounds, gives all new files their place, and then the manifest its name, whose
    generation nobody may have made: else `Conflict`, and the new files are gone again."""
    dims, shards = manifest["dims"], enumerate(manifest["shards"])
    bounds = numpy.array([(number, one["low"], one["high"], 0, dims) for number, one in shards if one["count"]], ROW)
    manifest = {"format": _FORMAT, "version": _VERSION, **manifest}
    manifest["top"] = write_store(work, "top", bounds, dims, 100)
    manifest["crc32"] = _checksum(manifest)
    written = os.path.join(work, "manifest.json")
    with open(written, "x", encoding="utf-8") as text:
        json.dump(manifest, text, indent=1)
        text.flush()
        os.fsync(text.fileno())
    path, moved = os.path.join(folder, f"manifest-{manifest['generation']:08d}.json"), []
    at = os.open(folder, os.O_RDONLY)
    try:
        for name in (one["path"] for one in files_of(manifest)):
            if os.path.exists(os.path.join(work, name)):
                os.utime(os.path.join(work, name))  # for vacuum: it is new, whenever it was written
                os.rename(os.path.join(work, name), os.path.join(folder, name))
                moved.append(name)
        os.fsync(at)  # the files have their names before the manifest has its own
        os.link(written, path)
        os.fsync(at)
    except FileExistsError:
        raise Conflict(f"{path}: another writer has made this generation") from None
    finally:
        os.close(at)
        if not (os.path.exists(path) and os.path.samefile(written, path)):  # whatever came in between
            for name in moved:
                os.unlink(os.path.join(folder, name))


def vacuum(folder: Any, keep: int = 1, older_than: float = 86400.0) -> "list[str]":
    """Removes all generations but the newest `keep`, and the files that are in none and were not written in the last
    `older_than` seconds, so that they are none of a writer that is at work; tells their names. A reader of a removed
    generation then gets `ShardError`."""
    folder, named = os.path.abspath(os.fspath(folder)), set()
    manifests = [read(path) for path in generations(folder)[-max(keep, 1) :]]
    if not manifests:
        raise NoManifest(f"{folder}: no sharded layer")
    for path in generations(folder)[: -max(keep, 1)]:
        os.unlink(path)
    for manifest in manifests:
        named |= {one["path"] for one in files_of(manifest)}
    gone = []
    for name in sorted(os.listdir(folder)):
        path = os.path.join(folder, name)
        if name not in named and name.split("-")[0] in ("part", "ids", "top", "work"):
            if time.time() - _written(path) >= older_than:
                shutil.rmtree(path) if os.path.isdir(path) else os.unlink(path)
                gone.append(name)
    return gone


def _written(path: str) -> float:
    """When a file, or a file in a folder, was written last."""
    inner = [os.path.join(path, name) for name in os.listdir(path)] if os.path.isdir(path) else []
    return max(os.path.getmtime(one) for one in [path, *inner])


# Tasks of a build.


def sort_run(part: Any, work: str, dims: int, scale: Optional[int]) -> "tuple[str, int, Any]":
    """Sorts a part along the curve into two files of `work`; their stem, how many rows there are, and a sample of
    places."""
    rows = rows_of(part, dims, scale)
    columns = numpy.vstack([hilbert(rows["low"], rows["high"], dims), rows["id"]])
    order = numpy.lexsort(columns[::-1])
    columns, stem = columns[:, order], os.path.join(work, "run-" + token())
    numpy.save(stem + ".places.npy", columns)
    numpy.save(stem + ".rows.npy", rows[order])
    return stem, len(rows), columns[:, numpy.linspace(0, len(rows) - 1, min(len(rows), _SAMPLE)).astype(int)]


def keep_list(work: str, name: str, paths: "list[str]") -> str:
    """Writes a list of paths, which many tasks read, into `work`; its path."""
    path = os.path.join(work, name)
    with open(path, "w", encoding="utf-8") as text:
        json.dump(paths, text)
    return path


def _read_list(path: str) -> "list[str]":
    with open(path, encoding="utf-8") as text:
        return json.load(text)


def load_shard(number: int, runs: str, low: Any, high: Any, work: str, dims: int, fanout: int) -> Any:
    """Makes the shard of the objects from the place `low` on and below `high`: what the manifest says of it, and a
    file of its identifiers. One with an identifier twice is not made."""
    pieces = []
    for stem in _read_list(runs):
        places = numpy.load(stem + ".places.npy", mmap_mode="r")
        start, stop = cut(places, low, 0), cut(places, high, places.shape[1])
        pieces.append(numpy.load(stem + ".rows.npy", mmap_mode="r")[start:stop])
    rows, path = numpy.concatenate(pieces or [numpy.empty(0, ROW)]), os.path.join(work, f"known-{token()}.npy")
    ids = numpy.sort(rows["id"])
    numpy.save(path, numpy.vstack([ids, numpy.full(len(ids), number, numpy.uint64)]))
    if (ids[1:] == ids[:-1]).any():
        return None, path
    return write_store(work, f"part-{number:05d}", rows, dims, fanout), path


def merge_ids(number: int, known: str, low: Any, high: Any, work: str) -> Any:
    """Makes the part of the directory of the identifiers from `low` on and below `high`: what the manifest says of it,
    and the least identifier that stands twice."""
    pieces = []
    for path in _read_list(known):
        ids = numpy.load(path, mmap_mode="r")
        pieces.append(ids[:, cut(ids, low, 0) : cut(ids, high, ids.shape[1])])
    return write_ids(work, number, numpy.concatenate(pieces, axis=1), low[0] if low else 0)


def rebuild_shard(number: int, file: File, drop: Any, add: Any, work: str, dims: int, fanout: int) -> Any:
    """The shard without the objects of some identifiers, and with others: what the manifest says of it."""
    rows = all_rows(shard(file))
    rows = numpy.concatenate([rows[~numpy.isin(rows["id"], drop)], add])
    return write_store(work, f"part-{number:05d}", rows, dims, fanout)


def rebuild_ids(number: int, file: File, drop: Any, add: Any, low: int, work: str) -> Any:
    """The same of a part of the directory."""
    ids = ids_of(file)
    return write_ids(work, number, numpy.concatenate([ids[:, ~numpy.isin(ids[0], drop)], add], axis=1), low)[0]


# Tasks of questions.


def all_rows(layer: Layer) -> Any:
    """The objects of a layer."""
    return layer.all_rows().numpy()


def ask_range(file: File, kind: str, numbers: Any, tags: Any, what: str) -> "tuple[Any, Any]":
    """Range queries of a shard: how many results each has, and all results, one after the other ("ids", "rows"; of
    "counts" None)."""
    layer = shard(file)
    order, back = along(numbers, layer.dims)
    asked, tags = numbers[order], tags[order] if isinstance(tags, numpy.ndarray) else tags
    if what == "counts":
        return layer.counts(asked, kind, tags)[back], None
    if what == "ids":
        offsets, found = layer.windows(asked, kind, tags)
    else:
        offsets, found = layer.windows_rows(asked, kind, tags)
        found = found.numpy()
    counts = numpy.diff(offsets)[back]
    return counts, found[numpy.repeat(offsets[:-1][back] - (numpy.cumsum(counts) - counts), counts)
                         + numpy.arange(len(found))]


def numbered(numbers: Any, dims: int, tags: Any) -> Any:
    """Boxes as rows, each with its index as its identifier."""
    rows = numpy.zeros(len(numbers), ROW)
    rows["id"], rows["axes"], rows["tag"] = numpy.arange(len(numbers)), dims, 0 if tags is None else tags
    rows["low"][:, :dims], rows["high"][:, :dims] = numbers[:, :dims], numbers[:, dims:]
    return rows


def ask_within(file: File, rows: Any, squared: int, tagged: bool) -> Any:
    """The pairs of rows and objects of a shard that are so near, with the tag of the row where that is asked."""
    return numpy.array(shard(file)._near_rows(numpy, rows, squared, tagged))


def ask_near(file: File, points: Any, k: int) -> Any:
    """The k nearest of a shard to each point, as many of each: an array of shape (points, k, 3) of identifiers and
    squared distances in two halves of 64 bits, the lower first."""
    layer = shard(file)
    order, back = along(points, layer.dims)
    return layer._nearest_table(coordinates(layer, points[order], True), k).reshape(len(points), -1, 3)[back]


def ask_rows(file: File, ids: Any) -> Any:
    """The objects of these identifiers."""
    return shard(file).get_many(ids).numpy()


def ask_frame(file: File, kind: str, numbers: Any, tag: Optional[int], dims: int, scale: Optional[int]) -> Any:
    """Range queries of a shard, as one data frame."""
    return as_frame(ask_range(file, kind, numbers, tag, "rows")[1], dims, scale)


def as_frame(rows: Any, dims: int, scale: Optional[int]) -> Any:
    """Rows as a data frame of the columns id, minx, miny, maxx, maxy (and minz, maxz) and tag."""
    import pandas

    numbers = numpy.hstack([rows["low"][:, :dims], rows["high"][:, :dims]])
    numbers = numbers if scale is None else numbers / scale
    return pandas.DataFrame({"id": rows["id"], **dict(zip(names(dims), numbers.T)), "tag": rows["tag"]})


# Joins.


def join_files(first: File, second: File, low: Any, high: Any, squared: int) -> "list[Any]":
    """The pairs of an object of one shard and one of another at most so far apart, in parts; `low` and `high` bound the
    second. This is the one place where two files are joined: the objects of the first that may have a partner go down the
    tree of the second, in the order of their own tree, PIECE of them at once."""
    a, b, reach = shard(first), shard(second), _root(squared)
    rows = a._found(_widened(low, high, a.dims, reach), _room)
    pieces = [
        Numbers(rows.held, rows.at + start * ROW.itemsize, min(PIECE, rows.count - start))
        for start in range(0, rows.count, PIECE)
    ]
    return [numpy.frombuffer(b._joined_rows(piece, squared), PAIR) for piece in pieces]


def _room(count: int) -> Numbers:
    """Memory for so many rows, which the thread uses again: the system clears memory that is mapped anew."""
    size = max(count, 1) * ROW.itemsize
    if len(getattr(_own, "rows", ())) < size:
        _own.rows = numpy.empty(size, "u1")
    return Numbers(_own.rows, _own.rows.ctypes.data, count)


def _widened(low: Any, high: Any, dims: int, reach: int) -> "list[int]":
    """The box, `reach` wider on each side."""
    return [max(x - reach, WHOLE[0]) for x in low[:dims]] + [min(x + reach, WHOLE[1]) for x in high[:dims]]


def near_shards(top: Layer, other: Layer, squared: int) -> "list[Any]":
    """The pairs of shards of two layers whose bounds are at most so far apart."""
    return _pairs(top, other, squared).tolist()


def _pairs(a: Layer, b: Layer, squared: int) -> Any:
    return numpy.frombuffer(a._joined(b, squared), PAIR)


def _root(squared: int) -> int:
    """The least whole number whose square is no less."""
    root = math.isqrt(squared)
    return root + (root * root < squared)


def as_pairs(pairs: Any) -> Any:
    """Pairs as a data frame of the columns first and second."""
    import pandas

    return pandas.DataFrame(pairs)


def join_shard(first: File, others: "list[tuple[File, Any, Any, bool]]", squared: int) -> Any:
    """The pairs of an object of a shard and one of other shards at most so far apart, in no order, as a data frame of the
    columns first and second. Each of the others comes with its bounds, and with whether its pairs are wanted in both
    orders. A shard with itself is joined in its store."""
    layer, found = shard(first), [numpy.empty(0, PAIR)]
    for second, low, high, both in others:
        own = first[0] == second[0]
        pairs = [_pairs(layer, layer, squared)] if own else join_files(first, second, low, high, squared)
        found += pairs
        if both:
            found += [one[["second", "first"]].astype(PAIR) for one in pairs]
    return as_pairs(numpy.concatenate(found))

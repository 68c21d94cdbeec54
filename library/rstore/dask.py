"""Sharded layers: objects in many stores, which Dask builds and asks on many machines.

    import rstore.dask
    from dask.distributed import Client

    client = Client("tcp://10.0.0.1:8786")                  # or none: Dask's threads in this process
    parks = rstore.dask.build("/shared/parks-*.csv", "/shared/parks", scale=10_000_000, rows_per_shard=2_000_000)
    parks = rstore.dask.open("/shared/parks")               # in another program
    parks.window((0.0, 51.0, 0.1, 51.1)), parks.nearest((0.0, 51.0), 5), parks[7], len(parks)
    offsets, ids = parks.windows(boxes)                     # arrays of numpy; a task a shard
    parks.join(roads, within=0.001).to_csv("/shared/near-*.csv")       # a part for each shard

A sharded layer is a folder that all machines see. Its files never change: shards (`part-00017-3f2a90bc51d0.rst`, each a
store with the layer `objects`, which `rstore --read-only` opens), whose objects lie near to each other on a Hilbert
curve; a directory of identifiers (`ids-*.npy`); a store of the shards' bounds (`top-*.rst`); and for each generation a
manifest (`manifest-00000004.json`) that names the others, with their counts, bounds and checksums. Answers are those of
one store with all the objects.

**Generations.** `build` and `update` write new files, and then the manifest of the next generation, by a link that
fails where it is there: of two writers at once the later is refused (`Conflict`), and nothing is lost. What a writer
that was killed leaves is in no manifest; `vacuum` removes it. A `Sharded` stays with its generation; `refresh` opens
the newest.

Boxes, points, scales, tags and identifiers are those of `rstore.Layer`, and so are the errors; more are `ShardError` (a
file is missing, cut or changed), `Conflict` and `NoManifest`. A `Sharded` may be used by threads, and pickled; in a
task of your own open one with scheduler="sync". Wants dask, numpy and pandas, and `distributed` for a cluster."""

from __future__ import annotations

import contextlib
import glob
import math
import os
from bisect import bisect_right
from itertools import accumulate
from typing import Any, Callable, Iterable, Iterator, Optional, Sequence

import dask
import dask.utils
import numpy

from rstore import _texts, shards as tasks
from rstore._arrays import KINDS, ArrayQuestions, Found, FoundRows, MaybeRows, Neighbours, _neighbours
from rstore._layer import Layer
from rstore._library import CRow, Number, whole
from rstore._rows import LayerInfo, Rows
from rstore.errors import BadBox, BadCount, DimsDiffer, DuplicateInLoad, Error, Misuse, NoObject, at_index
from rstore.shards import PAIR, ROW, Conflict, File, NoManifest, ShardError, vacuum

__all__ = ["build", "open", "vacuum", "Sharded", "ShardError", "Conflict", "NoManifest"]
_IDS = 1 << 22  # identifiers in a part of the directory
_CHUNK = 20_000  # questions in a task
_FEW = 64  # pairs of a question and a shard that are asked in this process: a task takes longer than they do
_PART = 1 << 20  # rows in a part of a data frame that is at hand
_SLACK = 2.0**-50  # by which distances in floating point may be off


def _together(
    function: Callable[..., Any], many: "Iterable[Sequence[Any]]", scheduler: Any, few: bool = False
) -> "list[Any]":
    """function(*arguments) of each, as tasks of Dask: of `scheduler` (a Client, "threads", "sync"), or of the one that
    Dask has, the newest Client of the process or else threads. Where it is few, they are calls in this process."""
    if few:
        return [function(*one) for one in many]
    return list(dask.compute(*[dask.delayed(function, pure=False)(*one) for one in many], scheduler=scheduler))


def _groups(keys: Any) -> "list[tuple[int, Any]]":
    """The values of an array, ascending, each with the indices where it stands, in pieces of at most _CHUNK."""
    order = numpy.argsort(keys, kind="stable")
    groups = numpy.split(order, numpy.flatnonzero(numpy.diff(keys[order])) + 1) if len(order) else []
    return [(int(keys[own[0]]), own[start : start + _CHUNK]) for own in groups for start in range(0, len(own), _CHUNK)]


# Building.


def _parts_of(
    source: Any, dims: int, scale: Optional[int], columns: Optional[str], blocksize: Any, scheduler: Any
) -> "list[Any]":
    """The parts of a source, delayed, of files, or at hand as arrays of rows or data frames."""
    if isinstance(source, (str, os.PathLike)):
        source = [source]
    if isinstance(source, (list, tuple)) and source and all(isinstance(one, (str, os.PathLike)) for one in source):
        return _text_parts([os.fspath(one) for one in source], columns, blocksize, scheduler)
    if columns is not None:
        raise Misuse("columns are those of files")
    if hasattr(source, "to_delayed"):
        return list(source.to_delayed())
    if hasattr(source, "columns"):
        return [source.iloc[start : start + _PART] for start in range(0, len(source), _PART)]
    if isinstance(source, numpy.ndarray):
        return [source[start : start + _PART] for start in range(0, len(source), _PART)]
    source = list(source)
    if source and isinstance(source[0], tuple):  # objects
        source = [source]
    at_hand = [hasattr(one, "columns") or dask.is_dask_collection(one) for one in source]
    return [one if ready else tasks.rows_of(one, dims, scale) for one, ready in zip(source, at_hand)]


def _text_parts(patterns: "list[str]", columns: Optional[str], blocksize: Any, scheduler: Any) -> "list[Any]":
    """The parts of files of text, each of which knows how many objects come before it, where these are numbered."""
    size, parts = None if blocksize is None else int(dask.utils.parse_bytes(blocksize)), []
    for pattern in patterns:
        paths = [pattern] if os.path.exists(pattern) else sorted(glob.glob(pattern))
        if not paths:
            raise FileNotFoundError(f"{pattern}: no such file")
        for path in paths:
            parts += _texts.parts_of(os.path.abspath(path), size, columns)
    numbered = [_texts.is_numbered(path, columns) for path in dict.fromkeys(part.path for part in parts)]
    if not any(numbered):
        return parts
    counts = _together(_texts.count, [(part,) for part in parts], scheduler)
    return [part._replace(before=before) for part, before in zip(parts, accumulate([0, *counts]))]


def _splitters(columns: Any, weights: Any, parts: int) -> "list[list[int]]":
    """parts - 1 tuples that part a weighted sample of tuples (by their columns) into equal parts."""
    order = numpy.lexsort(columns[::-1])
    sums = numpy.cumsum(weights[order])
    if not len(sums):
        return [[0] * len(columns)] * (parts - 1)
    return columns[:, order[numpy.searchsorted(sums, sums[-1] * numpy.arange(1, parts) / parts)]].T.tolist()


def _built(
    work: str, parts: "list[Any]", dims: int, scale: Optional[int], fanout: int, shards: Optional[int],
    rows_per_shard: int, scheduler: Any,
) -> "dict[str, Any]":
    """Makes all files of a generation in `work`, and tells what its manifest says of them. It is a sort by samples:
    each part becomes a sorted file, and each shard is loaded from its slices of these."""
    runs = _together(tasks.sort_run, [(part, work, dims, scale) for part in parts], scheduler)
    runs = [run for run in runs if run[1]]
    total, stems = sum(count for _, count, _ in runs), tasks.keep_list(work, "runs.json", [stem for stem, _, _ in runs])
    sample = numpy.concatenate([numpy.empty((dims, 0), numpy.uint64), *[places for *_, places in runs]], axis=1)
    weights = [numpy.full(places.shape[1], count / places.shape[1]) for _, count, places in runs]
    weights = numpy.concatenate([numpy.empty(0), *weights])
    cuts = [None, *_splitters(sample, weights, max(1, shards or math.ceil(total / rows_per_shard))), None]
    ranges = enumerate(zip(cuts, cuts[1:]))
    made = _together(
        tasks.load_shard, [(number, stems, low, high, work, dims, fanout) for number, (low, high) in ranges], scheduler
    )
    known = tasks.keep_list(work, "known.json", [path for _, path in made])
    ends = [None, *_splitters(sample[-1:], weights, max(1, math.ceil(total / _IDS))), None]
    ranges = enumerate(zip(ends, ends[1:]))
    ids = _together(tasks.merge_ids, [(number, known, low, high, work) for number, (low, high) in ranges], scheduler)
    twice = [id for _, id in ids if id is not None]
    if twice:
        raise DuplicateInLoad(f"an identifier stands twice in the load: {min(twice)}", min(twice))
    return {
        "dims": dims, "scale": scale, "fanout": fanout, "count": total, "splitters": cuts[1:-1],
        "shards": [one for one, _ in made], "ids": [one for one, _ in ids],
    }


def build(
    source: Any, folder: Any, *, dims: int = 2, scale: Optional[int] = None, fanout: int = 100,
    shards: Optional[int] = None, rows_per_shard: int = 1_000_000, columns: Optional[str] = None,
    blocksize: Any = "16MB", scheduler: Any = None, verify: bool = True,
) -> Sharded:
    """Makes a sharded layer in the folder, or the next generation of the one that is there, and opens it.

    `source` is paths, or patterns, of files of CSV (`.csv`) and of files with a feature of GeoJSON on a line, which are
    read as the program's `--import --columns=columns` reads them (objects without an identifier are numbered on from
    file to file), in parts of `blocksize` bytes, or whole where that is None; a data frame of pandas, geopandas or
    dask, with columns of the names that `--import` knows, or with geometries, and the index as the identifier where
    no column is `id`; a dask.bag of (id, box) or (id, box, tag); a list of such objects; or a list of parts, delayed
    or at hand: data frames, lists of objects, or arrays of rows (`shards.ROW`). There are `shards` shards, or as many
    as have `rows_per_shard` objects each. A task holds a part or a shard: some 250 bytes of memory a row.

    Raises what one load of all objects would, as `DuplicateInLoad` (the least identifier that stands twice is its
    `detail`), `BadBox`, or `Misuse` of a row of a file; `Conflict`; and what the system refuses in a task. The folder
    then has the generation that it had, and no new file."""
    folder = os.path.abspath(os.fspath(folder))
    is_new = not os.path.isdir(folder)
    if shards is not None and whole(shards, 32, "a count of shards") < 1 or rows_per_shard < 1:
        raise Misuse("a layer has one shard or more")
    tasks.form(dims, scale)  # which refuses what is none
    os.makedirs(folder, exist_ok=True)
    try:
        generation = tasks.newest(folder)["generation"] + 1 if tasks.generations(folder) else 1
        with tasks.work_folder(folder) as work:
            parts = _parts_of(source, dims, scale, columns, blocksize, scheduler)
            made = _built(work, parts, dims, scale, fanout, shards, rows_per_shard, scheduler)
            tasks.publish(folder, work, {"generation": generation, **made})
    except BaseException:
        if is_new:
            with contextlib.suppress(OSError):
                os.rmdir(folder)
        raise
    return Sharded(folder, scheduler, verify)


def open(folder: Any, *, scheduler: Any = None, verify: bool = True) -> Sharded:
    """Opens the newest generation of the sharded layer in a folder. Tasks run where `scheduler` says: a Client,
    "threads", "sync", or None, the newest Client of the process or else threads. With `verify` a process looks at a
    file's checksum when it opens it, and else only at its size. Raises `NoManifest` where there is none,
    `WrongVersion` of one of a later version, and `ShardError` where a file that is read is missing, cut or
    changed."""
    return Sharded(folder, scheduler, verify)


# A sharded layer.


class Sharded:
    """A generation of a sharded layer, from `build`, `open` or `update`: `name`, `dims`, `fanout`, `scale`,
    `generation`, and `manifest`, the file as it was read. It answers the questions of `rstore.Layer`, by the same
    names and with the same answers. A few are asked in this process, and many by tasks, one a shard; all answers are
    in the memory of this process, but those of `frame` and `join`. Each question raises `ShardError` where a shard
    that it asks is missing, cut or changed, and then answers nothing."""

    def __init__(self, folder: Any, scheduler: Any = None, verify: bool = True) -> None:
        self.folder, self.scheduler, self.verify = os.path.abspath(os.fspath(folder)), scheduler, verify
        self.manifest, self.name = tasks.newest(self.folder), os.path.basename(self.folder)
        self.dims, self.fanout, self.scale, self.generation = (
            self.manifest[name] for name in ("dims", "fanout", "scale", "generation")
        )
        self._shards = self.manifest["shards"]
        self._full = numpy.array([number for number, one in enumerate(self._shards) if one["count"]], numpy.int64)
        ends = [[one["low"], one["high"]] for one in self._shards if one["count"]]
        ends = numpy.array(ends, numpy.int64).reshape(-1, 2, 3)
        self._low, self._high = ends[:, 0, : self.dims], ends[:, 1, : self.dims]
        self._counts = numpy.array([self._shards[number]["count"] for number in self._full], numpy.int64)
        self._top()

    def _file(self, entry: "dict[str, Any]", verify: bool = False) -> File:
        return os.path.join(self.folder, entry["path"]), entry["size"], (
            entry["crc32"] if verify or self.verify else None
        )

    def _shard(self, number: int) -> File:
        return self._file(self._shards[number])

    def _top(self) -> Layer:
        """The store of the shards' bounds, by their numbers."""
        return tasks.shard(self._file(self.manifest["top"]))

    @property
    def _form(self) -> Layer:
        return tasks.form(self.dims, self.scale)

    def __repr__(self) -> str:
        size = f"{len(self)} objects in {len(self._shards)} shards"
        return f"<rstore.dask.Sharded {self.folder!r}, generation {self.generation}: {size}>"

    def __len__(self) -> int:
        """How many objects there are."""
        return self.manifest["count"]

    def __bool__(self) -> bool:
        return True

    @property
    def info(self) -> LayerInfo:
        """Its name, axes, entries of a node at most, and number of objects."""
        return LayerInfo(self.name, self.dims, self.fanout, len(self))

    @property
    def bounds(self) -> "Optional[tuple[Number, ...]]":
        """The least box that has all objects, the lows and then the highs, or None where there is none."""
        if not len(self):
            return None
        box = [*self._low.min(0).tolist(), *self._high.max(0).tolist()]
        return tuple(box if self.scale is None else [x / self.scale for x in box])

    def refresh(self) -> Sharded:
        """The newest generation."""
        return Sharded(self.folder, self.scheduler, self.verify)

    def check(self) -> None:
        """Reads every file, whatever `verify` says: `ShardError` of one that is missing, cut or changed, `Damaged` of a
        shard that is not sound."""
        for entry in [*self.manifest["ids"], self.manifest["top"]]:
            tasks.check(*self._file(entry, True))
        _together(
            tasks.check_shard, [(self._file(one, True), one["count"]) for one in self._shards], self.scheduler
        )

    # Range queries.

    def _hits(self, kind: str, numbers: Any) -> "tuple[Any, Any]":
        """The pairs of a question (its index) and a shard that may have results, by the store of the shards' bounds."""
        asked = "window" if kind == "inside" else kind  # what lies within a box meets it, and so does its shard
        offsets, shards = self._top().windows(numbers, asked)
        return numpy.repeat(numpy.arange(len(numbers)), numpy.diff(offsets)), shards.astype(numpy.int64)

    def _given(self, boxes: Any, kind: str, tag: Any) -> "tuple[Any, Any]":
        """Questions as they are asked of shards: numbers and tags. Raises what a layer does."""
        if kind not in KINDS:
            raise Misuse(f"a kind is one of {', '.join(KINDS)}: {kind!r}")
        numbers = tasks.whole_boxes(self._form, boxes, kind == "point")
        tags = self._form._tags(tag, len(numbers))
        above = numpy.zeros(0, bool) if kind == "point" else tasks.above(numbers, self.dims)
        if above.any():
            raise at_index(BadBox(f"{self.name}: a low is above its high"), int(above.argmax()), "question")
        return numbers, None if tags is None else numpy.frombuffer(tags.held, "u4")[: tags.count]

    def _range(self, kind: str, numbers: Any, tags: Any, what: str) -> "tuple[Any, Any]":
        """The counts of each question's results, and all results, in their order; of "counts" None."""
        queries, shards = self._hits(kind, numbers)
        asked = [(shard, queries[own]) for shard, own in _groups(shards)]
        answers = _together(
            tasks.ask_range,
            [(self._shard(shard), kind, numbers[own], tags if tags is None else tags[own], what)
             for shard, own in asked],
            self.scheduler, len(queries) <= _FEW,
        )
        counts = numpy.zeros(len(numbers), numpy.int64)
        for (_, own), (each, _) in zip(asked, answers):
            counts[own] += each  # a question is once among them
        if what == "counts":
            return counts, None
        free, found = numpy.cumsum(counts) - counts, numpy.zeros(counts.sum(), ROW if what == "rows" else numpy.uint64)
        for (_, own), (each, rows) in zip(asked, answers):
            at = numpy.repeat(free[own] - (numpy.cumsum(each) - each), each) + numpy.arange(len(rows))
            found[at] = rows
            free[own] += each
        several = numpy.bincount(queries, minlength=len(numbers)) > 1  # only what is of several shards is to be sorted
        rest = numpy.flatnonzero(numpy.repeat(several, counts))
        owner = numpy.repeat(numpy.flatnonzero(several), counts[several])
        found[rest] = found[rest[numpy.lexsort((found["id"][rest] if what == "rows" else found[rest], owner))]]
        return counts, found

    def _rows(self, rows: Any, kind: Any = Rows) -> Any:
        """Rows of numpy as those of an answer."""
        held = (CRow * len(rows)).from_buffer(rows) if len(rows) else (CRow * 0)()
        return kind(held, self.dims, self.scale)

    def windows(self, boxes: Any, kind: str = "window", tag: Any = None) -> Found:
        """For each box the identifiers of the objects that meet it, ascending, as `Layer.windows` takes boxes (n, 2 *
        dims) and a kind, and one tag for all or one for each."""
        counts, ids = self._range(kind, *self._given(boxes, kind, tag), "ids")
        return Found(numpy.concatenate([[0], numpy.cumsum(counts)]), ids)

    def windows_rows(self, boxes: Any, kind: str = "window", tag: Any = None) -> FoundRows:
        """The same with whole rows."""
        counts, rows = self._range(kind, *self._given(boxes, kind, tag), "rows")
        return FoundRows(numpy.concatenate([[0], numpy.cumsum(counts)]), self._rows(rows))

    def counts(self, boxes: Any, kind: str = "window", tag: Any = None) -> Any:
        """For each box how many objects there are."""
        return self._range(kind, *self._given(boxes, kind, tag), "counts")[0]

    query = ArrayQuestions.query

    def _query_within(self, _: Any, boxes: Any, tag: Any, distance: Any) -> Any:
        """As a layer answers it, with a task for each shard that is as near."""
        numbers, tags = self._given(boxes, "window", tag)
        rows, squared = tasks.numbered(numbers, self.dims, tags), self._form._squared(distance)
        indices, shards = self._top()._near_rows(numpy, rows, squared, False).astype(numpy.int64)
        asked = [(self._shard(shard), rows[indices[own]], squared, tags is not None) for shard, own in _groups(shards)]
        parts = _together(tasks.ask_within, asked, self.scheduler, len(indices) <= _FEW)
        pairs = numpy.concatenate([numpy.empty((2, 0), numpy.uint64), *parts], axis=1)
        return pairs[:, numpy.lexsort(pairs[::-1])]

    def _single(self, kind: str, numbers: Any, tag: Optional[int], what: str) -> Any:
        """One question."""
        packed = self._form._point(numbers) if kind == "point" else self._form._box(numbers)
        asked = numpy.frombuffer(packed, "i4")[None]
        if kind != "point" and tasks.above(asked, self.dims).any():
            raise BadBox(f"{self.name}: a low is above its high")
        tags = None if tag is None else numpy.array([whole(tag, 32, "a tag")], numpy.uint32)
        return self._range(kind, asked, tags, what)

    def window(self, box: Any, tag: Optional[int] = None) -> "list[Any]":
        """The objects whose boxes meet the box, ascending by identifier: tuples of an identifier, a box and a tag.
        With a tag only those that have it."""
        return list(self._rows(self._single("window", box, tag, "rows")[1]))

    def inside(self, box: Any, tag: Optional[int] = None) -> "list[Any]":
        """The objects whose boxes lie within the box."""
        return list(self._rows(self._single("inside", box, tag, "rows")[1]))

    def around(self, box: Any, tag: Optional[int] = None) -> "list[Any]":
        """The objects whose boxes enclose the box."""
        return list(self._rows(self._single("around", box, tag, "rows")[1]))

    def point(self, point: Any, tag: Optional[int] = None) -> "list[Any]":
        """The objects whose boxes hold the point."""
        return list(self._rows(self._single("point", point, tag, "rows")[1]))

    def window_ids(self, box: Any, tag: Optional[int] = None) -> "list[int]":
        """The identifiers alone of the objects whose boxes meet the box, ascending."""
        return self._single("window", box, tag, "ids")[1].tolist()

    def window_count(self, box: Any, tag: Optional[int] = None) -> int:
        """How many objects there are whose boxes meet the box."""
        return int(self._single("window", box, tag, "counts")[0][0])

    def frame(self, box: Any = None, kind: str = "window", tag: Optional[int] = None) -> Any:
        """All objects, or those of a question, as a dask.dataframe that is not computed yet, so that it may be larger
        than memory: the columns id, minx, miny, maxx, maxy (and minz, maxz) and tag, a partition a shard, each
        ascending by identifier."""
        everything = numpy.repeat(numpy.array([-(1 << 31), (1 << 31) - 1], numpy.int32), self.dims)[None]
        numbers, tags = (everything, None) if box is None else self._given([box], kind, None)
        if tag is not None:
            tags = numpy.array([whole(tag, 32, "a tag")], numpy.uint32)
        if kind == "point" and box is None:
            raise Misuse(f"{self.name}: what point is asked for?")
        ask = dask.delayed(tasks.ask_frame)
        shards = self._hits(kind, numbers)[1].tolist()
        parts = [ask(self._shard(shard), kind, numbers, tags, self.dims, self.scale) for shard in shards]
        return _frames(parts, tasks.as_frame(numpy.empty(0, ROW), self.dims, self.scale))

    # Objects by their identifiers.

    def _where(self, ids: Any) -> Any:
        """The shards of identifiers, -1 where there is none."""
        entries, shards = self.manifest["ids"], numpy.full(len(ids), -1, numpy.int64)
        lows = numpy.array([one["low"] for one in entries], numpy.uint64)
        for number, own in _groups(numpy.searchsorted(lows, ids, "right") - 1):
            known = tasks.ids_of(self._file(entries[number]))
            at = numpy.searchsorted(known[0], ids[own])
            own, at = own[at < known.shape[1]], at[at < known.shape[1]]
            here = known[0][at] == ids[own]
            shards[own[here]] = known[1][at[here]]
        return shards

    def get_many(self, ids: Any) -> MaybeRows:
        """The objects of many identifiers, None where there is none."""
        asked_ids = tasks.whole_ids(ids)
        shards, rows = self._where(asked_ids), numpy.zeros(len(asked_ids), ROW)
        asked = [(shard, own) for shard, own in _groups(shards) if shard >= 0]
        found = _together(
            tasks.ask_rows, [(self._shard(shard), asked_ids[own]) for shard, own in asked], self.scheduler,
            len(asked_ids) <= _FEW,
        )
        for (_, own), some in zip(asked, found):
            rows[own] = some
        return self._rows(rows, MaybeRows)

    def row(self, id: int) -> "tuple[int, tuple[Number, ...], int]":
        """An object: its identifier, box and tag. Raises `NoObject` where there is none."""
        found = self.get_many([whole(id, 64, "an identifier")])[0]
        if found is None:
            raise NoObject(f"{self.name} {id}: no object has that identifier")
        return found

    def __getitem__(self, id: int) -> "tuple[Number, ...]":
        """The box of an object; raises `NoObject`, a `KeyError`, where there is none."""
        return self.row(id)[1]

    def get(self, id: int, default: Any = None) -> Any:
        """The box of an object, or `default`."""
        try:
            return self.row(id)[1]
        except NoObject:
            return default

    def __contains__(self, id: object) -> bool:
        try:
            self.row(id)  # type: ignore[arg-type]
        except (NoObject, Misuse):
            return False
        return True

    def __iter__(self) -> Iterator[int]:
        """The identifiers, ascending."""
        for entry in self.manifest["ids"]:
            yield from tasks.ids_of(self._file(entry))[0].tolist()

    # Nearest.

    def nearest(self, point: Any, k: int = 1) -> "list[tuple[int, Number]]":
        """The k objects nearest to the point (1 to 1,000,000): pairs of an identifier and the squared distance, by
        distance and then by identifier, as `Layer.nearest` gives them."""
        asked = numpy.frombuffer(self._form._point(point), "i4")[None]
        found = self._near(asked, whole(k, 64, "a count"))[0].tolist()
        exact = [(id, high << 64 | low) for id, low, high in found]
        return exact if self.scale is None else [(id, squared / (self.scale * self.scale)) for id, squared in exact]

    def nearest_many(self, points: Any, k: int = 1) -> Neighbours:
        """For each point the k nearest objects, as `nearest` gives them: arrays of shape (points, k)."""
        asked = tasks.whole_boxes(self._form, points, True)
        return _neighbours(self._near(asked, whole(k, 64, "a count")).ravel(), len(asked), self.scale or 1)

    def _near(self, points: Any, k: int) -> Any:
        """Identifiers and the halves of squared distances of neighbours: an array of shape (points, k, 3)."""
        if len(points) and not 1 <= k <= 1_000_000:
            raise at_index(BadCount(f"{self.name}: a count is 1 to 1000000"), 0, "question")
        each = min(k, len(self))
        if not each or not len(points):
            return numpy.empty((len(points), 0, 3), numpy.uint64)
        step = max(1, (1 << 21) // max(len(self._full), k))
        blocks = [self._near_block(points[start : start + step], k, each) for start in range(0, len(points), step)]
        return numpy.concatenate(blocks)

    def _near_block(self, points: Any, k: int, each: int) -> Any:
        """In two waves: the shards that are nearest to a point, until they have k objects, and then those of the others
        that may have an object which is as near as the k-th that was found."""
        wide = points[:, None].astype(float)
        gaps = numpy.maximum(numpy.maximum(self._low - wide, wide - self._high), 0)
        least = (gaps * gaps).sum(axis=2) * (1 - _SLACK)  # no more than the squared distance of a shard's bounds
        order = numpy.argsort(least, axis=1, kind="stable")
        before = numpy.cumsum(self._counts[order], axis=1) - self._counts[order]
        first = numpy.zeros(least.shape, bool)
        numpy.put_along_axis(first, order, before < each, axis=1)
        near = self._ask_near(points, first, k, numpy.empty((len(points), 0, 3), numpy.uint64), each)
        bound = (near[:, -1, 2] * 2.0**64 + near[:, -1, 1]) * (1 + _SLACK)
        return self._ask_near(points, (least <= bound[:, None]) & ~first, k, near, each)

    def _ask_near(self, points: Any, wanted: Any, k: int, known: Any, each: int) -> Any:
        """Asks the shards that are wanted of each point: the best `each` of these and of what is known."""
        some, shards = numpy.nonzero(wanted)
        asked = [(shard, some[own]) for shard, own in _groups(shards)]
        answers = _together(
            tasks.ask_near, [(self._shard(self._full[shard]), points[own], k) for shard, own in asked],
            self.scheduler, len(some) <= _FEW,
        )
        alone = (wanted.sum(axis=1) == 1) & (known.shape[1] == 0)  # answered whole, and in order, by one shard
        best = known.copy() if known.shape[1] else numpy.empty((len(points), each, 3), numpy.uint64)
        merged = numpy.flatnonzero(wanted.any(axis=1) & ~alone)
        owners, found = [numpy.repeat(merged, known.shape[1])], [known[merged].reshape(-1, 3)]
        for (_, own), near in zip(asked, answers):
            single = alone[own]
            if single.any():
                best[own[single]] = near[single]
            owners.append(numpy.repeat(own[~single], near.shape[1]))
            found.append(near[~single].reshape(-1, 3))
        owner, rows = numpy.concatenate(owners), numpy.concatenate(found)
        order = numpy.lexsort((rows[:, 0], rows[:, 1], rows[:, 2], owner))
        owner, rows = owner[order], rows[order]
        first = numpy.arange(len(owner)) - numpy.searchsorted(owner, owner) < each
        best[merged] = rows[first].reshape(-1, each, 3)
        return best

    # Joins.

    def join(self, other: Sharded, within: Number = 0) -> Any:
        """All pairs of an object of this layer and one of the other whose boxes are at most so far apart (0: that
        meet), as a dask.dataframe of the columns first and second that is not computed yet, a partition for each shard of
        this layer that has any, in no order: `compute`, `to_csv`, `to_parquet` and the like. A partition is in the memory of
        its task, with the rows of one shard that may have partners. Raises as `Layer.join` does."""
        if self.scale != other.scale:
            raise Misuse("the layers of a join have different scales")
        if self.dims != other.dims:
            raise DimsDiffer(f"{self.name}, {other.name}: the layers have different numbers of axes")
        distance = within if self.scale is None else math.ceil(within * self.scale)
        squared = min(whole(distance, 64, "a distance") ** 2, (1 << 64) - 1)
        same = (self.folder, self.generation) == (other.folder, other.generation)
        partners: "dict[int, list[Any]]" = {}
        for one, two in tasks.near_shards(self._top(), other._top(), squared):
            if not same or one <= two:  # of a layer with itself a task gives both orders
                low, high = (other._shards[two][end] for end in ("low", "high"))
                partners.setdefault(one, []).append((other._shard(two), low, high, same and one < two))
        ask = dask.delayed(tasks.join_shard)
        parts = [ask(self._shard(one), others, squared) for one, others in partners.items()]
        return _frames(parts, tasks.as_pairs(numpy.empty(0, PAIR)))

    # Changes.

    def update(self, puts: Any = (), deletes: Iterable[int] = ()) -> Sharded:
        """The next generation, with some objects put in (a data frame, a list of (id, box) or (id, box, tag), or
        rows; one that is there gets the new box and tag) and some deleted. The shards that change are made anew, each
        as a whole, and so are parts of the directory. Raises `DuplicateInLoad` of an identifier that is given twice,
        `NoObject` of one to delete that is not there, and `Conflict` where another writer was first or this is not
        the newest generation: `refresh`, and try again."""
        rows, gone = tasks.rows_of(puts, self.dims, self.scale), tasks.whole_ids(list(deletes))
        ids = numpy.concatenate([rows["id"], gone])
        known, counts = numpy.unique(ids, return_counts=True)
        if (counts > 1).any():
            least = int(known[counts > 1][0])
            raise DuplicateInLoad(f"{self.name}: an identifier stands twice: {least}", least)
        where = self._where(ids)
        missing = gone[where[len(rows) :] < 0]
        if len(missing):
            raise NoObject(f"{self.name} {missing[0]}: no object has that identifier")
        with tasks.work_folder(self.folder) as work:
            shards, to = self._changed_shards(work, rows, ids, where)
            parts = self._changed_ids(work, rows, ids, to)
            made = {"shards": shards, "ids": parts, "count": sum(one["count"] for one in shards)}
            tasks.publish(self.folder, work, {**self.manifest, "generation": self.generation + 1, **made})
        return self.refresh()

    def _changed_shards(self, work: str, rows: Any, ids: Any, where: Any) -> "tuple[list[Any], Any]":
        """The shards with those that change made anew, and to which of them each row goes."""
        places = numpy.vstack([tasks.hilbert(rows["low"], rows["high"], self.dims), rows["id"]]).T.tolist()
        to = numpy.array([bisect_right(self.manifest["splitters"], place) for place in places], numpy.int64)
        changed = numpy.unique(numpy.concatenate([where[where >= 0], to])).tolist()
        made = _together(
            tasks.rebuild_shard,
            [(shard, self._shard(shard), ids, rows[to == shard], work, self.dims, self.fanout) for shard in changed],
            self.scheduler,
        )
        shards = list(self._shards)
        for shard, entry in zip(changed, made):
            shards[shard] = entry
        return shards, to

    def _changed_ids(self, work: str, rows: Any, ids: Any, to: Any) -> "list[Any]":
        """The directory with those parts that change made anew."""
        parts = list(self.manifest["ids"])
        lows, added = [one["low"] for one in parts], numpy.vstack([rows["id"], to.astype(numpy.uint64)])
        part = numpy.array([bisect_right(lows, id) - 1 for id in ids.tolist()], numpy.int64)
        changed = numpy.unique(part).tolist()
        made = _together(
            tasks.rebuild_ids,
            [(number, self._file(parts[number]), ids, added[:, part[: len(rows)] == number], lows[number], work)
             for number in changed],
            self.scheduler,
        )
        for number, entry in zip(changed, made):
            parts[number] = entry
        return parts


def _frames(parts: "list[Any]", empty: Any) -> Any:
    """A dask.dataframe of delayed parts."""
    import dask.dataframe

    if parts:
        return dask.dataframe.from_delayed(parts, meta=empty)
    return dask.dataframe.from_pandas(empty, npartitions=1)

"""Files of CSV and of features of GeoJSON, a line each, read as the program's `--import` reads them (docs/COMMANDS.md,
"Import"), in parts that begin and end with a line. Wants numpy."""

from __future__ import annotations

import csv
import io
import json
import math
import os
import re
from fractions import Fraction
from itertools import islice
from typing import Any, Callable, Iterator, NamedTuple, Optional, Sequence

import numpy

from rstore._library import WHOLE
from rstore._rows import ROW_FIELDS
from rstore.errors import Misuse, WrongDims

_CHUNK = 1 << 14
_DECIMAL = re.compile(r"[+-]?(?:[0-9]+\.?[0-9]*|\.[0-9]+)(?:[eE][+-]?[0-9]{1,3})?")
_NUMERIC = frozenset("0123456789+-.eE")
#: digits by which a decimal number and the floating-point number of it are told from each other
_DIGITS = 15
_ROLES = {"id": ("id", 0), "tag": ("tag", 0)}
for _axis, _name in enumerate("xyz"):
    _ROLES[_name] = ("at", _axis)
    _ROLES["min" + _name] = _ROLES[_name + "min"] = ("low", _axis)
    _ROLES["max" + _name] = _ROLES[_name + "max"] = ("high", _axis)
_DEPTHS = {"Point": 1, "MultiPoint": 2, "LineString": 2, "MultiLineString": 3, "Polygon": 3, "MultiPolygon": 4}
_MOST_NESTED = 8


class Text(NamedTuple):
    """A part of a file of text: the lines that begin from the byte `start` on and before `stop`, and how many objects
    of the source come before it, which number those that have no identifier."""

    path: str
    start: int
    stop: int
    before: int
    columns: Optional[str]

    @property
    def is_csv(self) -> bool:
        return self.path.endswith(".csv")


class _Refused(Exception):
    """Which of many was refused, where in it, and why."""

    def __init__(self, index: int, place: Any, why: str) -> None:
        super().__init__(index, place, why)
        self.index, self.place, self.why = index, place, why


def parts_of(path: str, size: Optional[int], columns: Optional[str]) -> "list[Text]":
    """The parts of a file, each of about so many bytes; all of it where that is None."""
    length = os.path.getsize(path)
    step = max(length if size is None else size, 1)
    return [Text(path, start, min(start + step, length), 0, columns) for start in range(0, max(length, 1), step)]


def text_of(part: Text) -> str:
    """The lines of a part."""
    with open(part.path, "rb") as data:
        data.seek(max(part.start - 1, 0))
        if part.start and data.read(1) != b"\n":
            data.readline()
        found = data.read(max(part.stop - data.tell(), 0))
        if found and not found.endswith(b"\n"):
            found += data.readline()
    text = found.decode("utf-8", "surrogateescape")
    return text[1:] if not part.start and text.startswith("\ufeff") else text


def _lines_before(part: Text) -> int:
    """How many lines of the file begin before the part."""
    lines = 0
    with open(part.path, "rb") as data:
        left = max(part.start - 1, 0)
        while left and (block := data.read(min(left, 1 << 20))):
            lines, left = lines + block.count(b"\n"), left - len(block)
        return lines + bool(part.start and data.readline())


def is_numbered(path: str, columns: Optional[str]) -> bool:
    """Whether objects of a file may have no identifier, and are numbered."""
    if path.endswith(".csv"):
        return _places_in(path, columns).id is None
    return columns is None or not columns.split(",")[0].strip()


def count(part: Text) -> int:
    """By how much a part moves the numbers of the objects behind it: lines of GeoJSON, rows of CSV that has no
    identifiers, and else nothing."""
    if not part.is_csv:
        text = text_of(part)
        return text.count("\n") + bool(text and not text.endswith("\n"))
    if not is_numbered(part.path, part.columns):
        return 0
    return sum(len(chunk) for chunk in _records(part, _has_header(part.columns)))


def rows_of_text(part: Text, dims: int, scale: Optional[int]) -> Any:
    """The objects of a part as rows, their numbers rounded outwards exactly. Raises `Misuse` of a row or a line that
    `--import` would refuse, by its file, line and column, and `WrongDims` of columns of another number of axes."""
    read: Callable[..., Any] = _csv_rows if part.is_csv else _feature_rows
    return read(part, dims, scale)


# Numbers.


def _careful(text: str, scale: Optional[int]) -> "tuple[int, int]":
    """A decimal number times the scale, rounded down and up; or else why not, as `ValueError`."""
    if not _DECIMAL.fullmatch(text):
        raise ValueError("is no number")
    exact = Fraction(text) * (scale or 1)
    down, up = math.floor(exact), math.ceil(exact)
    if down < WHOLE[0] or up > WHOLE[1]:
        raise ValueError("is out of range")
    if scale is None and down != up:
        raise ValueError("is no whole number: a scale multiplies coordinates")
    return down, up


def _quick(texts: "list[str]", scale: Optional[int]) -> Any:
    """The same of many, by floating-point numbers, and which of them are to be looked at with care; None where all are.
    Of a decimal t and the whole number r that is next to t times the scale the order of t and r / scale is that of
    the floating-point numbers of both, since rounding is monotone, unless these are equal; and then both decimals are
    equal where they have no more than 15 digits."""
    times, joined = scale or 1, "".join(texts)
    if set(joined) - _NUMERIC:
        return None
    try:
        values = numpy.fromiter(map(float, texts), float, len(texts))
    except ValueError:
        return None
    with numpy.errstate(all="ignore"):
        near = numpy.rint(values * times)
        quotients = near / times
    down, up = near - (quotients > values), near + (quotients < values)
    doubtful = ~((down >= WHOLE[0]) & (up <= WHOLE[1]))
    if scale is None:
        doubtful |= down != up
    if str(times).strip("0") != "1":
        doubtful |= quotients == values
    elif max(map(len, texts), default=0) > _DIGITS:
        doubtful |= (quotients == values) & numpy.fromiter((len(text) > _DIGITS for text in texts), bool, len(texts))
    if "e" in joined or "E" in joined:
        doubtful |= numpy.fromiter(("e" in text or "E" in text for text in texts), bool, len(texts))
    return down, up, doubtful


def rounded(texts: "list[str]", scale: Optional[int], place: Any = None) -> "tuple[Any, Any]":
    """Decimal numbers times the scale, rounded down and up, exactly: two arrays."""
    quick = _quick(texts, scale)
    if quick is None:
        texts = [text.strip() for text in texts]
        quick = numpy.zeros(len(texts)), numpy.zeros(len(texts)), numpy.ones(len(texts), bool)
    down, up, doubtful = quick
    for index in numpy.flatnonzero(doubtful).tolist():
        try:
            down[index], up[index] = _careful(texts[index], scale)
        except ValueError as error:
            raise _Refused(index, place, str(error)) from None
    return down.astype(numpy.int64), up.astype(numpy.int64)


def _wholes(texts: "list[str]", bits: int, place: Any, why: str) -> Any:
    """Whole numbers in digits, below 2^bits."""
    made = numpy.zeros(len(texts), numpy.uint64)
    for index, text in enumerate(texts):
        number = text.strip()
        if not (number.isascii() and number.isdigit() and len(number.lstrip("0")) <= 20 and int(number) < 1 << bits):
            raise _Refused(index, place, why)
        made[index] = int(number)
    return made


def _quick_wholes(texts: "list[str]", bits: int, place: Any, why: str) -> Any:
    """The same, where they are plain in one go."""
    joined = "".join(texts)
    if joined.isascii() and joined.isdigit() and all(texts) and max(map(len, texts)) < 20:
        made = numpy.fromiter(map(int, texts), numpy.uint64, len(texts))
        if bits == 64 or int(made.max()) < 1 << bits:
            return made
    return _wholes(texts, bits, place, why)


# CSV.


class Places(NamedTuple):
    """The columns of an object's parts: of the identifier, if there is one, the lows, the highs and the tag, if any."""

    id: Optional[int]
    low: "list[int]"
    high: "list[int]"
    tag: Optional[int]


def _has_header(columns: Optional[str]) -> bool:
    """Whether a text has a header: all have one but those whose columns are listed by numbers alone."""
    return columns is None or any(it.strip() and not it.strip().isdigit() for it in columns.split(","))


def _first_record(path: str) -> "list[str]":
    with open(path, encoding="utf-8-sig", errors="surrogateescape", newline="\n") as text:
        return [name.strip() for name in next(_reader(text), [])]


def _reader(lines: Any) -> Any:
    csv.field_size_limit(max(csv.field_size_limit(), 1 << 30))  # a column may hold a whole geometry as text
    return csv.reader(lines)


def _places_in(path: str, columns: Optional[str]) -> Places:
    """The columns of a file, by its header or by a list."""
    names = _first_record(path) if _has_header(columns) else []
    try:
        return _named(names) if columns is None else _listed(names, columns)
    except Misuse as error:
        raise Misuse(f"{path}: {error}") from None


def places_of_names(names: "list[str]") -> Places:
    """The columns that a header or a data frame names; raises `Misuse` where one is missing or there twice."""
    return _named(names)


def _named(names: "list[str]") -> Places:
    found: "dict[tuple[str, int], int]" = {}
    for place, name in enumerate(names):
        role = _ROLES.get(name.lower().replace("_", ""))
        if role in found:
            raise Misuse(f"column {name} is given twice")
        if role is not None:
            found[role] = place
    if any(role in ("low", "high") for role, _ in found):
        axes = 3 if ("low", 2) in found or ("high", 2) in found else 2
        wanted = [(end, axis) for end in ("low", "high") for axis in range(axes)]
    else:
        axes = 3 if ("at", 2) in found else 2
        wanted = [("at", axis) for axis in range(axes)] * 2
        if not {("at", 0), ("at", 1)} & set(found):
            wanted[0] = ("low", 0)
    for role, axis in wanted:
        if (role, axis) not in found:
            raise Misuse(f"no column {dict(low='min', high='max', at='')[role]}{'xyz'[axis]}: name the columns")
    places = [found[role] for role in wanted]
    return Places(found.get(("id", 0)), places[:axes], places[axes:], found.get(("tag", 0)))


def _listed(names: "list[str]", columns: str) -> Places:
    entries = [entry.strip() for entry in columns.split(",")]
    id = None if not entries[0] else _place_of(names, entries[0])
    places, tag = [_place_of(names, entry) for entry in entries[1:]], None
    if len(places) in (5, 7):
        tag = places.pop()
    if len(places) not in (2, 3, 4, 6):
        raise Misuse(f"{columns!r} is no list of columns")
    axes = len(places) if len(places) < 4 else len(places) // 2
    low, high = places[:axes], places[-axes:]
    spans = [place for span in zip(low, high) for place in sorted(set(span))]
    used = spans + [place for place in (id, tag) if place is not None]
    twice = [place for k, place in enumerate(used) if place in used[:k]]
    if twice:
        raise Misuse(f"column {twice[0] + 1} is given twice in {columns!r}")
    return Places(id, low, high, tag)


def _place_of(names: "list[str]", entry: str) -> int:
    """The column of an entry of a list, a name in the header or a number from 1."""
    if entry.isascii() and entry.isdigit():
        if int(entry):
            return int(entry) - 1
    else:
        found = [place for place, name in enumerate(names) if name.lower() == entry.lower()]
        if len(found) > 1:
            raise Misuse(f"column {entry} is given twice")
        if found:
            return found[0]
    raise Misuse(f"no column {entry}: name the columns")


def _records(part: Text, has_header: bool) -> "Iterator[list[list[str]]]":
    """The rows of a part that are not blank, in chunks."""
    text = text_of(part)
    if text.count('"') % 2:
        raise Misuse(f"{part.path}: a row of several lines, or a quote without end (blocksize=None reads whole files)")
    reader = _reader(io.StringIO(text, newline="\n"))
    try:
        if has_header and not part.start:
            next(reader, None)
        while chunk := list(islice(reader, _CHUNK)):
            yield [row for row in chunk if len(row) > 1 or row and row[0].strip()]
    except csv.Error as error:
        raise Misuse(f"{part.path}: {error}") from error


def _csv_rows(part: Text, dims: int, scale: Optional[int]) -> Any:
    names, has_header, places = _first_record(part.path), _has_header(part.columns), _places_in(part.path, part.columns)
    if len(places.low) != dims:
        raise WrongDims(f"{part.path}: columns of {len(places.low)} axes, and a layer of {dims}")
    made, read = [], 0
    for chunk in _records(part, has_header):
        try:
            made.append(_chunk_rows(chunk, places, len(names), dims, scale, part.before + read))
        except _Refused as refused:
            line, row = _line_of(part, has_header, read + refused.index), chunk[refused.index]
            raise Misuse(f"{part.path}: line {line}, {_shown(refused, row, names, has_header)}") from None
        read += len(chunk)
    return numpy.concatenate(made or [numpy.zeros(0, ROW_FIELDS)])


def _shown(refused: _Refused, row: "list[str]", names: "list[str]", has_header: bool) -> str:
    """A refusal of a row, as `--import` tells it."""
    place = refused.place
    name = names[place] if has_header and place < len(names) else str(place + 1)
    text = "" if refused.why == "is missing" else json.dumps(row[place].strip()[:60]) + " "
    return f"column {name}: {text}{refused.why}"


def _chunk_rows(
    chunk: "list[list[str]]", places: Places, width: int, dims: int, scale: Optional[int], before: int
) -> Any:
    """Rows of fields as rows of objects; of the first that is refused `_Refused` says why."""
    rows = numpy.zeros(len(chunk), ROW_FIELDS)
    try:
        for index, row in enumerate(chunk):
            if len(row) != width:
                raise _Refused(index, min(len(row), width), "is missing" if len(row) < width else "is a field too many")
        if not chunk or max(place for place in [*places.low, *places.high, places.id or 0, places.tag or 0]) >= width:
            if chunk:
                raise _Refused(0, width, "is missing")
            return rows
        _fill(rows, list(zip(*chunk)), places, dims, scale, before)
    except _Refused as refused:
        if refused.index:  # one before it may be wrong in another column
            _chunk_rows(chunk[: refused.index], places, width, dims, scale, before)
        raise
    rows["axes"] = dims
    return rows


def _fill(rows: Any, columns: "list[Any]", places: Places, dims: int, scale: Optional[int], before: int) -> None:
    """Writes columns of fields into rows of objects."""
    if places.id is None:
        rows["id"] = numpy.arange(before + 1, before + 1 + len(rows), dtype=numpy.uint64)
    else:
        rows["id"] = _quick_wholes(columns[places.id], 64, places.id, "is no identifier")
    for axis in range(dims):
        low, high = places.low[axis], places.high[axis]
        lows = rounded(columns[low], scale, low)
        highs = lows if low == high else rounded(columns[high], scale, high)
        above = (lows[0] > highs[0]) | (lows[1] > highs[1])
        if above.any():
            raise _Refused(int(above.argmax()), low, "is above its high")
        rows["low"][:, axis], rows["high"][:, axis] = lows[0], highs[1]
    if places.tag is not None:
        texts = [text if text and not text.isspace() else "0" for text in columns[places.tag]]
        rows["tag"] = _quick_wholes(texts, 32, places.tag, "is no tag")


def _line_of(part: Text, has_header: bool, index: int) -> int:
    """The line of a file in which the row of that index of a part begins."""
    reader = _reader(io.StringIO(text_of(part), newline="\n"))
    if has_header and not part.start:
        next(reader, None)
    for row in reader:
        if len(row) > 1 or row and row[0].strip():
            if not index:
                return _lines_before(part) + reader.line_num - sum(field.count("\n") for field in row)
            index -= 1
    return 0


# GeoJSON.


class _Number(str):
    """A number as it is written."""


class _Members(dict):
    """The members of an object of JSON, and which of them are there twice."""

    def __init__(self, pairs: "list[tuple[str, Any]]") -> None:
        super().__init__(pairs)
        self.twice: "set[str]" = set()
        if len(self) < len(pairs):
            names = [name for name, _ in pairs]
            self.twice = {name for name in names if names.count(name) > 1}

    def once(self, name: str, default: Any = None) -> Any:
        if name in self.twice:
            raise ValueError(f"member {name}: is given twice")
        return self.get(name, default)


def _no_constant(name: str) -> Any:
    raise ValueError("member feature: is no JSON")


def _feature_rows(part: Text, dims: int, scale: Optional[int]) -> Any:
    texts: "list[str]" = []
    lines, ids, tags = [], [], []
    for number, line in enumerate(text_of(part).split("\n"), 1):
        line = line.strip(" \t\r")
        line = line[1:].strip(" \t\r") if line.startswith("\x1e") else line
        if not line:
            continue
        try:
            id, tag, extent = _feature(line, part.columns, dims, scale)
        except (ValueError, RecursionError) as error:
            why = str(error) if str(error).startswith("member") else "member feature: is no JSON"
            raise Misuse(f"{part.path}: line {_lines_before(part) + number}, {why}") from None
        lines.append(number)
        ids.append(part.before + number if id is None else id)
        tags.append(tag)
        texts += extent
    rows = numpy.zeros(len(ids), ROW_FIELDS)
    try:
        down, up = rounded(texts, scale)
    except _Refused as refused:
        line, text = _lines_before(part) + lines[refused.index // (2 * dims)], json.dumps(texts[refused.index][:60])
        raise Misuse(f"{part.path}: line {line}, member coordinates: {text} {refused.why}") from None
    rows["id"], rows["tag"], rows["axes"] = numpy.array(ids, numpy.uint64), tags, dims
    rows["low"][:, :dims] = down.reshape(-1, 2, dims)[:, 0]
    rows["high"][:, :dims] = up.reshape(-1, 2, dims)[:, 1]
    return rows


def _feature(
    line: str, columns: Optional[str], dims: int, scale: Optional[int]
) -> "tuple[Optional[int], int, list[str]]":
    """The identifier of a feature, if it has one, its tag, and the texts of its lows and highs."""
    line.encode()  # refused where it was no UTF-8
    feature = json.loads(line, parse_float=_Number, parse_int=_Number, parse_constant=_no_constant,
                         object_pairs_hook=_Members)
    if not isinstance(feature, _Members):
        raise ValueError("member feature: is no JSON")
    if feature.once("type") != "Feature":
        raise ValueError("member type: is no feature")
    properties = feature.get("properties") or _Members([])
    if not isinstance(properties, _Members):
        raise ValueError("member properties: is no JSON")
    names = [] if columns is None else [name.strip() for name in columns.split(",")]
    tag = _number_in(properties.get(names[1]), names[1], 32, "is no tag") if len(names) > 1 and names[1] else None
    if names and names[0]:
        id = _number_in(properties.get(names[0]), names[0], 64, "is no identifier")
        if id is None:
            raise ValueError(f"member {names[0]}: is missing")
    else:
        id = _number_in(feature.get("id"), "id", 64, "is no identifier")
    positions: "list[list[str]]" = []
    geometry = feature.once("geometry")
    if geometry is not None:
        _add_positions(geometry, positions, _MOST_NESTED)
    return id, tag or 0, _extent(positions, dims, scale)


def _number_in(value: Any, name: str, bits: int, why: str) -> Optional[int]:
    """The whole number that a member is, None where it is not there."""
    if value is None:
        return None
    if isinstance(value, str):
        try:
            return int(_wholes([value], bits, None, why)[0]) if value == value.strip() else int("x")
        except (_Refused, ValueError):
            pass
    raise ValueError(f"member {name}: {why}")


def _add_positions(geometry: Any, positions: "list[list[str]]", nested: int) -> None:
    """Adds the positions of a geometry."""
    if not isinstance(geometry, _Members) or not nested:
        raise ValueError("member geometry: is no geometry")
    kind, collection = geometry.once("type"), geometry.once("geometries")
    coordinates = geometry.once("coordinates")
    if kind == "GeometryCollection" and isinstance(collection, list) and "coordinates" not in geometry:
        for one in collection:
            _add_positions(one, positions, nested - 1)
    elif isinstance(kind, str) and kind in _DEPTHS and "coordinates" in geometry and "geometries" not in geometry:
        _add_nested(coordinates, positions, _DEPTHS[kind])
    else:
        raise ValueError("member geometry: is no geometry")


def _add_nested(coordinates: Any, positions: "list[list[str]]", depth: int) -> None:
    if not isinstance(coordinates, list):
        raise ValueError("member coordinates: is no position")
    if depth > 1:
        for one in coordinates:
            _add_nested(one, positions, depth - 1)
    elif coordinates:
        positions.append(coordinates)


def _extent(positions: "list[list[str]]", dims: int, scale: Optional[int]) -> "list[str]":
    """The texts of the least and of the greatest coordinates."""
    if not positions:
        raise ValueError("member geometry: has no position")
    for position in positions:
        if len(position) < dims or not all(type(text) is _Number for text in position):
            raise ValueError("member coordinates: is no position")
    lows, highs = [], []
    for axis in range(dims):
        texts: Sequence[str] = [position[axis] for position in positions]
        if scale is None and any(not text.lstrip("-").isdigit() for text in texts):
            for text in texts:
                try:
                    _careful(text, None)
                except ValueError as error:
                    raise ValueError(f"member coordinates: {json.dumps(text[:60])} {error}") from None
        values = list(map(float, texts))
        lows.append(_one_of(texts, values, min))
        highs.append(_one_of(texts, values, max))
    return lows + highs


def _one_of(texts: Sequence[str], values: "list[float]", least: Callable[..., Any]) -> str:
    """The text of the least (or greatest) number, where several may have one floating-point number."""
    end = least(values)
    same = {text for text, value in zip(texts, values) if value == end}
    return same.pop() if len(same) == 1 or math.isinf(end) else least(same, key=Fraction)

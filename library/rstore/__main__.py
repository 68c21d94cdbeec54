"""A small shell over a store: python3 -m rstore [--create | --read-only] [--cache N] [FILE]

It answers the lines of standard input as the program rstore does (docs/COMMANDS.md), for those who have the library and
not the program: `reopen` keeps all changes, as does the end of the input. Without FILE the store is in memory."""

from __future__ import annotations

import argparse
import itertools
import os
import re
import sys
from ctypes import byref, c_size_t, c_uint32, c_uint64, c_void_p
from typing import Any, BinaryIO, Callable, Iterator, Optional, Sequence

from rstore import _store
from rstore._library import AROUND, BOXES, INSIDE, NEAR, PAIR, POINT, POINTS, ROWS, WHOLE, WINDOW, CRow, Made
from rstore._rows import LayerInfo, Rows
from rstore.errors import BadDims, BadFanout, BadName, DeviceFailed, Error, OutOfMemory, ReadOnly, WrongDims

LONGEST = 4096
BAD_LINE = "fail 24 BadLine"
NAMES = {OutOfMemory: "Memory", DeviceFailed: "Device"}
KINDS_OF_QUERIES = {"window": WINDOW, "inside": INSIDE, "around": AROUND, "point": POINT}
Reply = Optional[Sequence[str]]


class BadLine(Exception):
    """A line that is none of the language."""


def natural(word: str, below: int = 1 << 64) -> int:
    if not re.fullmatch("[0-9]+", word) or int(word) >= below:
        raise BadLine
    return int(word)


def coordinates(words: Sequence[str], counts: Sequence[int]) -> "list[int]":
    if len(words) not in counts:
        raise BadLine
    numbers = [int(word) if re.fullmatch("-?[0-9]+", word) else 1 << 31 for word in words]
    if not all(WHOLE[0] <= it <= WHOLE[1] for it in numbers):
        raise BadLine
    return numbers


def tagged(words: "list[str]") -> "tuple[list[str], Optional[int]]":
    """The words before a tag at their end, and the tag, if there is one."""
    if len(words) >= 2 and words[-2] == "tag":
        return words[:-2], natural(words[-1], 1 << 32)
    return words, None


def split(line: bytes) -> "list[str]":
    """The words of a line."""
    if len(line) > LONGEST:
        raise BadLine
    return [word.decode("utf-8", "surrogateescape") for word in re.split(rb"[ \t\r]+", line) if word]


def c_name(layer: str) -> bytes:
    """A layer's name as C takes it."""
    name = layer.encode("utf-8", "surrogateescape")
    if b"\0" in name:
        raise BadName
    return name


def row(id: int, box: "tuple[Any, ...]", tag: int) -> str:
    return " ".join(map(str, (id, *box))) + (f" tag {tag}" if tag else "")


class Shell:
    """The commands over a store. Each takes the words behind its name, and gives its rows, or None."""

    def __init__(self, store: _store.Store, lines: Iterator[bytes]) -> None:
        self.store, self.lib, self.lines, self.asked_in_vain = store, store._lib, lines, False

    def reply(self, line: bytes) -> str:
        """The reply to a line with those that belong to it, '' where it has none."""
        if len(line) <= LONGEST and line.strip(b" \t\r")[:1] in (b"", b"#"):
            return ""
        try:
            words = split(line)
            command = getattr(self, f"do_{words[0]}", None) if words[0].isidentifier() else None
            if words[0] in KINDS_OF_QUERIES:
                rows: Reply = self.query(KINDS_OF_QUERIES[words[0]], words[1:])
            elif command:
                rows = command(words[1:])
            else:
                raise BadLine
        except BadLine:
            return f"{BAD_LINE}\n"
        except Error as error:
            return self.refusal(error)
        return "".join(f"{it}\n" for it in (["ok"] if rows is None else [f"ok {len(rows)}", *rows]))

    def refusal(self, error: Error) -> str:
        """A refusal, as the program tells it."""
        kind = DeviceFailed if isinstance(error, ReadOnly) else type(error)
        self.asked_in_vain |= isinstance(error, ReadOnly)
        more = f" {error.detail}" if kind.number in (13, 18, 19) else ""
        return f"fail {kind.number} {NAMES.get(kind, kind.__name__)}{more}\n"

    def ask(self, call: Callable[..., int], layer: str, *arguments: Any) -> None:
        self.store._ask(call, c_name(layer), *arguments)

    def array(self, call: Callable[..., int], size: int, layer: str, *arguments: Any) -> bytes:
        at, count = c_void_p(), c_size_t()
        self.ask(call, layer, *arguments, byref(at), byref(count))
        return self.store._taken(at, count.value, size)

    def info(self, layer: str) -> LayerInfo:
        """What is known of a layer, which must be there."""
        self.ask(self.lib.rstore_count, layer, byref(c_uint64()))
        return next(it for it in self.store.layers() if it.name == layer)

    def words(self, words: "list[str]", *counts: int) -> "list[str]":
        if len(words) not in counts:
            raise BadLine
        return words

    # Layers.

    def do_create(self, words: "list[str]") -> Reply:
        layer, dims, fanout = self.words(words, 3)
        axes, most = natural(dims), natural(fanout)
        if not re.fullmatch("[a-z][a-z0-9_]{0,23}", layer):
            raise BadName
        if axes not in (2, 3):
            raise BadDims
        if most > 100:
            raise BadFanout
        self.ask(self.lib.rstore_create_layer, layer, axes, most)
        return None

    def do_drop(self, words: "list[str]") -> Reply:
        self.ask(self.lib.rstore_drop_layer, *self.words(words, 1))
        return None

    def do_layers(self, words: "list[str]") -> Reply:
        self.words(words, 0)
        return [f"{it.name} {it.dims} {it.fanout} {it.count}" for it in self.store.layers()]

    def do_count(self, words: "list[str]") -> Reply:
        count = c_uint64()
        self.ask(self.lib.rstore_count, *self.words(words, 1), byref(count))
        return [str(count.value)]

    def do_dump(self, words: "list[str]") -> Reply:
        self.words(words, 0)
        rows = []
        for it in self.store.layers():
            rows.append(f"create {it.name} {it.dims} {it.fanout}")
            rows += [f"insert {it.name} {row(*found)}" for found in self.store[it.name].all_rows()]
        return rows

    # Changes.

    def do_insert(self, words: "list[str]") -> Reply:
        words, tag = tagged(words)
        if len(words) < 2:
            raise BadLine
        id, box = natural(words[1]), coordinates(words[2:], (4, 6))
        axes = len(box) // 2
        self.ask(self.lib.rstore_insert, words[0], id, BOXES[axes].pack(*box), axes, tag or 0)
        return None

    def do_move(self, words: "list[str]") -> Reply:
        if len(words) < 2:
            raise BadLine
        id, box = natural(words[1]), coordinates(words[2:], (4, 6))
        axes = len(box) // 2
        self.ask(self.lib.rstore_move, words[0], id, BOXES[axes].pack(*box), axes)
        return None

    def do_delete(self, words: "list[str]") -> Reply:
        layer, id = self.words(words, 2)
        self.ask(self.lib.rstore_delete, layer, natural(id))
        return None

    def do_load(self, words: "list[str]") -> Reply:
        layer, count = self.words(words, 2)
        entries, wanted = [], natural(count, (1 << 30) + 1)
        for line in itertools.islice(self.lines, wanted):  # all are read, also behind one that is bad
            try:
                one, tag = tagged(split(line))
                entries.append((natural(one[0]), coordinates(one[1:], (4, 6)), tag or 0))
            except (BadLine, IndexError):
                pass
        if len(entries) < wanted:
            raise BadLine
        info = self.info(layer)
        if any(len(box) != 2 * info.dims for _, box, _ in entries):
            raise WrongDims
        rows = bytearray().join(ROWS[info.dims].pack(id, *box, tag) for id, box, tag in entries)
        held = (CRow * len(entries)).from_buffer(rows) if entries else None
        self.ask(self.lib.rstore_load, layer, info.dims, held, len(entries))
        return None

    # Questions.

    def do_get(self, words: "list[str]") -> Reply:
        layer, id = self.words(words, 2)
        one = CRow()
        self.ask(self.lib.rstore_get, layer, natural(id), byref(one))
        return [row(one.id, (*one.low[: one.axes], *one.high[: one.axes]), one.tag)]

    def query(self, kind: int, words: "list[str]") -> Reply:
        words, tag = tagged(words)
        if not words:
            raise BadLine
        numbers = coordinates(words[1:], (2, 3) if kind == POINT else (4, 6))
        axes = len(numbers) if kind == POINT else len(numbers) // 2
        packed = (POINTS if kind == POINT else BOXES)[axes].pack(*numbers)
        call = (self.lib.rstore_window, self.lib.rstore_inside, self.lib.rstore_around, self.lib.rstore_point)[kind]
        wanted, made, count = None if tag is None else byref(c_uint32(tag)), Made(self.lib), c_size_t()
        self.ask(call, words[0], packed, axes, wanted, byref(made.address), byref(count))
        return [row(*found) for found in Rows(made.array(CRow, count.value), axes, None)]

    def do_nearest(self, words: "list[str]") -> Reply:
        if len(words) < 2:
            raise BadLine
        count, point = natural(words[1]), coordinates(words[2:], (2, 3))
        packed = POINTS[len(point)].pack(*point)
        rows = self.array(self.lib.rstore_nearest, NEAR.size, words[0], count, packed, len(point))
        return [f"{id} {high << 64 | low}" for id, low, high in NEAR.iter_unpack(rows)]

    def do_join(self, words: "list[str]") -> Reply:
        first, second, *within = self.words(words, 2, 3)
        squared = natural(within[0]) if within else 0
        rows = self.array(self.lib.rstore_join, PAIR.size, first, c_name(second), squared)
        return [f"{one} {other}" for one, other in PAIR.iter_unpack(rows)]

    # The store.

    def do_check(self, words: "list[str]") -> Reply:
        self.words(words, 0)
        self.store.check()
        return None

    def do_reopen(self, words: "list[str]") -> Reply:
        self.words(words, 0)
        self.store.commit()
        return None


def lines_of(text: BinaryIO) -> Iterator[bytes]:
    """The lines of a text without their newlines; of a line that is too long one byte more than it may have."""
    while line := text.readline(LONGEST + 1):
        rest = line
        while not rest.endswith(b"\n") and len(rest) > LONGEST:
            rest = text.readline(LONGEST + 1)
        yield line[:-1] if line.endswith(b"\n") else line


def serve(store: _store.Store) -> int:
    """Answers all lines, and gives the status. Where reading or writing fails that ends them, and what was changed is
    kept, as the program does."""
    try:
        return answer(store)
    except OSError:
        print("rstore: input or output failed", file=sys.stderr)
        os.dup2(os.open(os.devnull, os.O_WRONLY), sys.stdout.fileno())  # for what Python writes as it ends
        return 1


def answer(store: _store.Store) -> int:
    is_terminal = sys.stdin.isatty()
    lines = lines_of(sys.stdin.buffer)
    shell = Shell(store, lines)
    while True:
        if is_terminal:
            print("> ", end="", file=sys.stderr, flush=True)
        line = next(lines, None)
        if line is None:
            return 1 if shell.asked_in_vain else 0
        sys.stdout.write(shell.reply(line))
        sys.stdout.flush()


def main() -> int:
    told = argparse.ArgumentParser("python3 -m rstore", description=__doc__)
    told.add_argument("file", nargs="?", metavar="FILE", help="the file of the store; without it the store is in memory")
    told.add_argument("--create", action="store_true", help="make FILE, which must be missing or empty")
    told.add_argument("--read-only", action="store_true", help="only read FILE, also beside a run that writes it")
    told.add_argument("--cache", type=int, default=1024, metavar="N", help="pages in memory, 8 to 4096 (%(default)s)")
    asked = told.parse_args()
    if asked.create and asked.read_only:
        told.error("--create or --read-only, not both")
    if asked.create and asked.file and os.path.isfile(asked.file) and os.path.getsize(asked.file):
        print("rstore: FILE is not empty: without --create it is opened as it is", file=sys.stderr)
        return 1
    try:
        with _store.open(asked.file, create=asked.create, read_only=asked.read_only, cache=asked.cache) as store:
            return serve(store)
    except Error as error:
        print(f"rstore: {error}", file=sys.stderr)
        return 1


if __name__ == "__main__":
    sys.exit(main())

"""test_shell.py: python3 -m rstore beside a plain table (tests/plain_table.py) in random sessions, over a file that is
opened again, and on lines that are bad. RSTORE_LIBRARY names librstore.so."""

from __future__ import annotations

import os
import random
import subprocess
import sys
import tempfile
from pathlib import Path
from typing import BinaryIO

TOP = Path(__file__).resolve().parent.parent.parent
sys.path.insert(0, str(TOP / "tests"))

from plain_table import RandomText, Table  # noqa: E402

LINES = 400
# of a copy of the tests alone (package/test.sh) the package is the one that is installed
SOURCES = TOP / "library"
ENVIRONMENT = {**os.environ, **({"PYTHONPATH": str(SOURCES)} if (SOURCES / "rstore").exists() else {})}


def run(text: bytes, *words: str, output: "int | BinaryIO" = subprocess.PIPE) -> "tuple[bytes, int]":
    told = subprocess.run(
        [sys.executable, "-m", "rstore", *words],
        input=text,
        stdout=output,
        stderr=subprocess.PIPE,
        env=ENVIRONMENT,
        check=False,
    )
    assert not told.stderr or told.returncode, told.stderr
    return told.stdout, told.returncode


def replies(table: Table, text: str) -> str:
    lines, told = iter(text.split("\n")[:-1]), []
    while True:
        try:
            told.append(table.answer(lines))
        except StopIteration:
            return "".join(told)


def sessions(folder: str, rounds: int) -> None:
    for seed in range(rounds):
        source, table, file = RandomText(random.Random(seed)), Table(), os.path.join(folder, f"{seed}.rst")
        text = "".join(f"create {name} {dims} {4 + seed}\n" for name, dims in source.LAYERS)
        for part in range(3):
            text += "".join(f"{source.line()}\n" for _ in range(LINES)) + "reopen\ndump\ncheck\n"
            got, status = run(text.encode(), *(["--create"] if part == 0 else []), file)
            assert (got.decode(), status) == (replies(table, text), 0), (seed, part)
            text = ""
        assert run(b"dump\n", "--read-only", file)[0].decode() == replies(table, "dump\n")
    print(f"{rounds} sessions of the shell of Python: each reply is that of a plain table")


def lines(folder: str) -> None:
    file = os.path.join(folder, "lines.rst")
    bad = b"fail 24 BadLine\n"
    for text, wanted in [
        (b"", b""),
        (b"create a 2 4", b"ok\n"),
        (b"create a 2 4\r\n \t# said\n\n count a \n", b"ok\nok 1\n0\n"),
        (b"layers" + b" " * 4090 + b"\n" + b"layers" + b" " * 4091 + b"\nlayers\n", b"ok 0\n" + bad + b"ok 0\n"),
        (b"#" * 5000 + b"\nlayers\n", bad + b"ok 0\n"),
        (b"x" * 20000, bad),
        (b"create \xff 2 4\ncreate a\0b 2 4\ncount \xc3\xa9\n", b"fail 1 BadName\n" * 3),
        (b"create a 2 4\nload a 2\n1 0 0 1 1\n", b"ok\n" + bad),
        (b"create a 2 4\nload a 0\nload a 2\n1 0 0 1 1 tag 7\n1 2 2 3 3\n", b"ok\nok\nfail 13 DuplicateInLoad 1\n"),
        (b"create a 2 18446744073709551615\ncreate a 2 18446744073709551616\n", b"fail 5 BadFanout\n" + bad),
        (b"do_dump\n_ask\nDUMP\ndump x\ncheck x\nreopen x\n", bad * 6),
    ]:
        assert run(text) == (wanted, 0), (text, run(text))
    assert run(b"create a 2 4\ninsert a 1 0 0 1 1\n", "--create", file) == (b"ok\nok\n", 0)
    assert run(b"insert a 2 0 0 1 1\nget a 1\n", "--read-only", file) == (b"fail 17 Device\nok 1\n1 0 0 1 1\n", 1)
    assert run(b"", "--create", file)[1] == 1
    assert run(b"", os.path.join(folder, "none"))[1] == 1
    assert run(b"", "--create", "--read-only", file)[1] == 2
    # what was changed before an output that failed is kept
    with open("/dev/full", "wb") as full:
        assert run(b"insert a 2 0 0 1 1\ninsert a 3 0 0 1 1\n", file, output=full)[1] == 1
    assert run(b"count a\nget a 3\n", file) == (b"ok 1\n2\nfail 10 NoObject\n", 0)
    print("lines that are bad, and words, of the shell of Python")


def main() -> None:
    with tempfile.TemporaryDirectory() as folder:
        lines(folder)
        sessions(folder, 2 if os.environ.get("RSTORE_QUICK") else 12)


main()

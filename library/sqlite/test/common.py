"""What the tests share: connections, refusals, and how often what was tried. EXTENSION and RUNS are test.py's words."""

import contextlib
import os
import re
import sqlite3
import sys
import tempfile

sys.path.insert(0, os.path.abspath(os.environ["RSTORE_LIB"]))
import rstore  # noqa: E402, which the tests have from here

EXTENSION = os.path.abspath(sys.argv[1])
RUNS = int(sys.argv[2]) if len(sys.argv) > 2 else 60
TRIED = {}


def tried(what, times=1):
    TRIED[what] = TRIED.get(what, 0) + times


def connect(path=":memory:", timeout=0.0):
    db = sqlite3.connect(path, isolation_level=None, timeout=timeout, check_same_thread=False)
    db.enable_load_extension(True)
    db.load_extension(EXTENSION)
    return db


@contextlib.contextmanager
def folder():
    with tempfile.TemporaryDirectory() as there:
        before = os.getcwd()
        os.chdir(there)
        try:
            yield there
        finally:
            os.chdir(before)


def refuses(kind, words, db, sql, *values):
    try:
        db.execute(sql, *values).fetchall()
    except sqlite3.Error as error:
        assert type(error) is kind and words in str(error), (type(error), error, kind, words)
        tried("refusals")
        return
    raise AssertionError("not refused: " + sql)


def rows(db, sql, *values):
    """The rows of a statement: in their order, where one is asked for or told, and else sorted."""
    found = db.execute(sql, *values).fetchall()
    if not re.match("SELECT|WITH", sql) or re.search("ORDER BY|nearest|rstore_join|LIMIT", sql):
        return found
    return sorted(found, key=lambda row: [(value is None, isinstance(value, str), value) for value in row])


def same(db, sql, values, wanted):
    found = rows(db, sql, values)
    assert found == wanted, (sql, values, found[:9], wanted[:9])


def plan(db, sql, *values):
    return "; ".join(row[3] for row in rows(db, "EXPLAIN QUERY PLAN " + sql, *values))


ROW = "(?, 0, 1, 0, 1, 0)"
MANY = "WITH RECURSIVE n(i) AS (SELECT 1 UNION ALL SELECT i + 1 FROM n WHERE i < {}) "


def ids(db, table="p"):
    return [id for id, in rows(db, f"SELECT id FROM {table} ORDER BY id")]


def sound(db, *tables):
    for table in tables:
        assert rows(db, "SELECT rstore_check(?)", (table,)) == [("ok",)], table
    assert rows(db, "PRAGMA integrity_check") == [("ok",)]

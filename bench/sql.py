#!/usr/bin/env python3
"""sql.py EXTENSION [BOXES [ROUNDS [PAGES]]]: measures a table of rstore_sqlite.so beside rtree and rtree_i32 of the
same connection, over the same uniform boxes (100,000), in a file, with so many cached pages of SQLite's (4096):
microseconds of processor time of one row or one question, the least of the rounds (5), and of twenty slices of the
questions of each, so that what else the machine does is in it as little as can be; of commits the time on the clock.
The answers are the same, or it stops.

`by statement`: one statement a question, from Python, with its rows fetched, so one to two microseconds are Python's.
`in SQL`: one statement with all questions, from an ordinary table. TMPDIR says where the files are."""

import os
import random
import sqlite3
import sys
import tempfile
import time

EXTENSION = os.path.abspath(sys.argv[1])
BOXES = int(sys.argv[2]) if len(sys.argv) > 2 else 100_000
ROUNDS = int(sys.argv[3]) if len(sys.argv) > 3 else 5
PAGES = int(sys.argv[4]) if len(sys.argv) > 4 else 4096
SIDE, EXTENT = 1_000_000, 1000
best, answers = {}, {}


def measure(what, table, count, call, clock=time.process_time):
    before = clock()
    answer = call()
    taken = (clock() - before) / count * 1e6
    best[what, table] = min(taken, best.get((what, table), 1e30))
    if answer is not None and answers.setdefault(what, answer) != answer:
        sys.exit(f"{what}: {table} answers otherwise")


def slices(what, table, count, call):
    """Questions from the first one up to the last, a twentieth at a time."""
    size, found = count // 20, []
    for first in range(0, size * 20, size):
        measure(what, table, size, lambda: found.append(call(first, first + size)))
    if answers.setdefault(what, found) != found:
        sys.exit(f"{what}: {table} answers otherwise")


def connect():
    db = sqlite3.connect("b.db", isolation_level=None)
    db.enable_load_extension(True)
    db.load_extension(EXTENSION)
    db.execute(f"PRAGMA cache_size = {PAGES}")
    return db


MAKE = {
    "rstore": "CREATE VIRTUAL TABLE rstore USING rstore",
    "rtree": "CREATE VIRTUAL TABLE rtree USING rtree(id, minx, maxx, miny, maxy, +tag)",
    "rtree_i32": "CREATE VIRTUAL TABLE rtree_i32 USING rtree_i32(id, minx, maxx, miny, maxy, +tag)",
}
WINDOW = "minx <= ?2 AND maxx >= ?1 AND miny <= ?4 AND maxy >= ?3"
WINDOW_OF = "t.minx <= w.x2 AND t.maxx >= w.x1 AND t.miny <= w.y2 AND t.maxy >= w.y1"


def windows(r, rows, count):
    side = int(SIDE * (rows / BOXES) ** 0.5) - EXTENT // 2
    found = []
    for _ in range(count):
        x, y = r.randrange(SIDE - side), r.randrange(SIDE - side)
        found.append((x, x + side, y, y + side))
    return found


def one_round(seed):
    r = random.Random(seed)
    boxes = []
    for id in r.sample(range(1, 10 * BOXES), BOXES):
        x, y = r.randrange(SIDE), r.randrange(SIDE)
        boxes.append((id, x, x + r.randrange(EXTENT), y, y + r.randrange(EXTENT), id % 16))
    db = connect()
    db.execute("CREATE TABLE plain(id INTEGER, minx, maxx, miny, maxy, tag)")
    db.execute("CREATE TABLE windows(x1, x2, y1, y2)")
    with db:
        db.execute("BEGIN")
        db.executemany("INSERT INTO plain VALUES(?, ?, ?, ?, ?, ?)", boxes)
    asked = {rows: windows(r, rows, count) for rows, count in ((1, 20000), (10, 10000), (1000, 400))}
    some = r.sample(boxes, min(5000, BOXES // 2))
    answers.clear()
    for table in r.sample(list(MAKE), len(MAKE)):
        make = MAKE[table]

        def insert():
            db.execute("BEGIN")
            db.executemany(f"INSERT INTO {table} VALUES(?, ?, ?, ?, ?, ?)", boxes)
            db.execute("COMMIT")

        def bulk():
            db.execute(f"INSERT INTO {table} SELECT * FROM plain")

        def load():
            db.execute(f"SELECT rstore_load('{table}', id, minx, maxx, miny, maxy, tag) FROM plain")

        ways = [("INSERT in one transaction", insert), ("rstore_load", load), ("INSERT .. SELECT", bulk)]
        for what, call in ways:
            if call is load and table != "rstore":
                continue
            db.execute(make)
            measure(what, table, BOXES, call)
            if call is not bulk:
                db.execute(f"DROP TABLE {table}")
        for rows, given in asked.items():
            sql = f"SELECT id, minx, maxx, miny, maxy FROM {table} WHERE {WINDOW}"
            slices(f"window of {rows}, by statement", table, len(given),
                   lambda a, b: sum(len(db.execute(sql, w).fetchall()) for w in given[a:b]))
            db.execute("DELETE FROM windows")
            with db:
                db.execute("BEGIN")
                db.executemany("INSERT INTO windows VALUES(?, ?, ?, ?)", given)
            slices(f"window of {rows}, in SQL", table, len(given),
                   lambda a, b: db.execute(f"SELECT count(*), sum(t.id) FROM windows w CROSS JOIN {table} t WHERE "
                                           f"{WINDOW_OF} AND w.rowid > ? AND w.rowid <= ?", (a, b)).fetchall())
        sql = f"SELECT minx, tag FROM {table} WHERE id = ?"
        slices("by identifier, by statement", table, len(some), lambda a,
               b: [db.execute(sql, (s[0],)).fetchone() for s in some[a:b]])
        slices("by identifier, in SQL", table, BOXES,
               lambda a, b: db.execute(f"SELECT sum(t.minx) FROM plain p CROSS JOIN {table} t WHERE t.id = p.id "
                                       "AND p.rowid > ? AND p.rowid <= ?", (a, b)).fetchall())
        sql = f"SELECT id FROM {table} WHERE tag = 3 AND {WINDOW}"
        slices("window of 1000 with a tag, by statement", table, len(asked[1000]),
               lambda a, b: sum(len(db.execute(sql, w).fetchall()) for w in asked[1000][a:b]))
        measure("all rows, a row", table, BOXES,
                lambda: db.execute(f"SELECT count(*), sum(minx), sum(maxy) FROM {table}").fetchall())

        def update():
            db.execute("BEGIN")
            db.executemany(f"UPDATE {table} SET minx = minx + 1, maxx = maxx + 1 WHERE id = ?", [(b[0],) for b in some])
            db.execute("COMMIT")

        def delete():
            db.execute("BEGIN")
            db.executemany(f"DELETE FROM {table} WHERE id = ?", [(b[0],) for b in some])
            db.execute("COMMIT")

        def commits():
            for b in some[:200]:
                db.execute(f"INSERT INTO {table} VALUES(?, ?, ?, ?, ?, ?)", b)

        def undone():
            db.execute("BEGIN")
            db.execute(f"DELETE FROM {table} WHERE id % 10 = 3")
            db.execute("ROLLBACK")

        measure("UPDATE", table, len(some), update)
        measure("DELETE", table, len(some), delete)
        measure("commit of one row (clock)", table, 200, commits, time.perf_counter)
        measure("DELETE of a tenth and ROLLBACK, a row", table, BOXES // 10, undone)
        measure("rows at the end", table, 1,
                lambda: db.execute(f"SELECT count(*), sum(id), sum(minx) FROM {table}").fetchall())
    if seed == 1:
        others(db, asked)
    db.close()


def others(db, asked):
    """What rtree has not, and a join beside SQL's over rtree and rtree_i32."""
    sql = "SELECT id, distance FROM rstore WHERE nearest = ? ORDER BY distance LIMIT 10"
    slices("ten nearest, by statement", "rstore", 5000, lambda a,
           b: [db.execute(sql, (f"{w[0]} {w[2]}",)).fetchall() for w in asked[10][a:b]])
    meet = "a.minx <= b.maxx AND a.maxx >= b.minx AND a.miny <= b.maxy AND a.maxy >= b.miny"
    db.execute("CREATE VIRTUAL TABLE again USING rstore")
    db.execute("SELECT rstore_load('again', id, minx, maxx, miny, maxy, tag) FROM rstore")
    measure("join of two tables, a box", "rstore", BOXES,
            lambda: db.execute("SELECT count(*) FROM rstore_join('rstore', 'again')").fetchall())
    for table in ("rtree", "rtree_i32"):
        db.execute(MAKE[table].replace(f"TABLE {table} ", f"TABLE again_{table} "))
        db.execute(f"INSERT INTO again_{table} SELECT * FROM {table}")
        measure("join of two tables, a box", table, BOXES,
                lambda: db.execute(f"SELECT count(*) FROM {table} a, again_{table} b WHERE {meet}").fetchall())
    measure("join with itself, a box", "rstore", BOXES,
            lambda: db.execute("SELECT count(*) FROM rstore_join('rstore', 'rstore')").fetchall())


for seed in range(1, ROUNDS + 1):
    with tempfile.TemporaryDirectory() as there:
        os.chdir(there)
        one_round(seed)
        os.chdir("/")
print(f"{BOXES} boxes, {PAGES} pages, SQLite {sqlite3.sqlite_version}, microseconds")
print(f"| | {' | '.join(MAKE)} |\n|---|---|---|")
for what in dict.fromkeys(what for what, _ in best):
    if what != "rows at the end":
        print(f"| {what} | " + " | ".join(f"{best[what, t]:.3g}" if (what, t) in best else "" for t in MAKE) + " |")

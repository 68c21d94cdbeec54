"""Other connections, copies, kills and damage."""

import random
import signal
import sqlite3
import subprocess
import sys
import time

from common import EXTENSION, MANY, RUNS, connect, folder, ids, refuses, rows, sound, tried


def connections():
    for mode in ("DELETE", "WAL"):
        with folder():
            one = connect("a.db")
            one.execute(f"PRAGMA journal_mode = {mode}")
            one.execute("CREATE VIRTUAL TABLE p USING rstore(+name)")
            two, three = connect("a.db"), connect("a.db")
            turn, there = [one, two, three], []
            r = random.Random(9)
            for k in range(150):
                db = r.choice(turn)
                if there and r.random() < 0.3:
                    gone = there.pop(r.randrange(len(there)))
                    db.execute("DELETE FROM p WHERE id = ?", (gone,))
                else:
                    db.execute("INSERT INTO p VALUES(?, ?, ?, 0, 1, 0, ?)", (k, k, k + 5, f"n{k}"))
                    there.append(k)
                assert ids(r.choice(turn)) == sorted(there)
                tried(f"changes of three connections in turn, {mode}")
            # a reader keeps what it has begun to read
            two.execute("BEGIN")
            before = ids(two)
            if mode == "WAL":
                one.execute("INSERT INTO p VALUES(1000, 0, 1, 0, 1, 0, 'x')")
                one.execute("INSERT INTO p VALUES(1001, 0, 1, 0, 1, 0, 'x')")
                assert ids(two) == before and ids(three) == before + [1000, 1001]
                refuses(sqlite3.OperationalError, "database is locked", two,
                        "INSERT INTO p VALUES(1002, 0, 1, 0, 1, 0, 'x')")
            else:
                refuses(sqlite3.OperationalError, "database is locked", one,
                        "INSERT INTO p VALUES(1000, 0, 1, 0, 1, 0, 'x')")
                assert ids(two) == before
            two.execute("COMMIT")
            # a commit that is refused may be tried again, or given up
            one.execute("BEGIN")
            one.execute("INSERT INTO p VALUES(2000, 0, 1, 0, 1, 0, 'x')")
            refuses(sqlite3.OperationalError, "database is locked", two,
                    "INSERT INTO p VALUES(2001, 0, 1, 0, 1, 0, 'x')")
            if mode == "DELETE":
                three.execute("BEGIN")
                ids(three)
                refuses(sqlite3.OperationalError, "database is locked", one, "COMMIT")
                one.execute("INSERT INTO p VALUES(2003, 0, 1, 0, 1, 0, 'y')")
                three.execute("COMMIT")
            one.execute("COMMIT")
            assert 2000 in ids(two) and ids(one) == ids(two) == ids(three)
            sound(one, "p")
            sound(two, "p")


def copies():
    with folder():
        db = connect("c.db")
        db.execute("CREATE VIRTUAL TABLE p USING rstore(+name)")
        db.execute(MANY.format(1000) + "INSERT INTO p SELECT i, i, i + 3, -i, -i, i % 7, 'n' || i FROM n")
        wanted = rows(db, "SELECT * FROM p")
        target = connect("b.db")
        db.backup(target)
        assert rows(target, "SELECT * FROM p") == wanted
        target.execute("DELETE FROM p WHERE id > 10")
        target.backup(db)  # restored into a connection that has the table open
        assert ids(db) == list(range(1, 11))
        db.execute("VACUUM")
        assert ids(db) == list(range(1, 11))
        db.execute("VACUUM INTO 'v.db'")
        db.execute("ATTACH 'v.db' AS other")
        db.execute("DELETE FROM other.p WHERE id = 3")
        assert len(ids(db)) == 10 and len(ids(db, "other.p")) == 9
        db.execute("CREATE VIRTUAL TABLE temp.t USING rstore")
        db.execute("INSERT INTO t SELECT id, minx, maxx, miny, maxy, tag FROM other.p")
        assert rows(db, "SELECT count(*) FROM t") == [(9,)]
        assert rows(db,
                    "SELECT first FROM rstore_join('other.p', 't') WHERE first = second") == [(k,) for k in ids(db,
                                                                                                                "t")]
        db.execute("BEGIN")
        db.execute("DELETE FROM p")
        db.execute("DELETE FROM other.p")
        db.execute("ROLLBACK")
        assert len(ids(db)) == 10 and len(ids(db, "other.p")) == 9
        db.execute("DETACH other")
        sound(db, "p")
        blob = db.serialize() if hasattr(db, "serialize") else None
        if blob:
            again = connect()
            again.deserialize(blob)
            assert len(ids(again)) == 10
        tried("backup, restore, VACUUM, VACUUM INTO, ATTACH", 5)


def interrupts():
    """Statements that are interrupted anywhere, triggers of the shadow table, databases that are only read."""
    with folder():
        db = connect("i.db")
        db.execute("CREATE VIRTUAL TABLE p USING rstore(cache=8, fanout=9, +name)")
        db.execute(MANY.format(500) + "INSERT INTO p SELECT i, i % 71, i % 71 + 3, i, i + 2, 0, i FROM n")
        r, cut = random.Random(3), 0
        for turn in range(20 * RUNS):
            before = rows(db, "SELECT * FROM p")
            if turn % 3 == 0:
                db.execute("BEGIN")
            left = [r.choice([1, 3, 10, 30, 100, 300])]

            def handler():
                left[0] -= 1
                return left[0] < 0

            sql = r.choice(["UPDATE p SET maxx = maxx + 1, tag = tag + 1 WHERE id % 5 = 1",
                            "DELETE FROM p WHERE id > 480", "UPDATE p SET id = -id WHERE id < 20",
                            "INSERT INTO p SELECT id + 1000, minx, maxx, miny, maxy, tag, 0 FROM p WHERE id < 9"])
            db.set_progress_handler(handler, r.choice([1, 5, 20, 100, 500]))
            done = True
            try:
                db.execute(sql)
            except sqlite3.Error as error:
                done = False
                assert "interrupted" in str(error) or "UNIQUE" in str(error), error
            db.set_progress_handler(None, 0)
            cut += not done
            if db.in_transaction:
                db.execute("ROLLBACK")
                done = False
            assert done or rows(db, "SELECT * FROM p") == before
        assert cut > RUNS
        sound(db, "p")
        tried("statements that are interrupted", cut)
        for action in ("SELECT count(*) FROM p", "DELETE FROM p", "SELECT raise(ROLLBACK, 'no')",
                       "INSERT INTO p(id, minx, maxx, miny, maxy) VALUES(1, 1, 1, 1, 1)"):
            before = rows(db, "SELECT * FROM p")
            db.execute(f"CREATE TRIGGER t AFTER INSERT ON p_blocks BEGIN {action}; END")
            for begin in ("", "BEGIN", "BEGIN; SAVEPOINT a"):
                for word in filter(None, begin.split(";")):
                    db.execute(word)
                refused = False
                try:
                    db.execute("INSERT INTO p VALUES(-100, 1, 1, 1, 1, 1, 0)")
                    if begin:
                        db.execute("SAVEPOINT b")
                except sqlite3.Error:
                    refused = True
                assert refused, (action, begin)
                if db.in_transaction:
                    db.execute("ROLLBACK")
                assert rows(db, "SELECT * FROM p") == before
            db.execute("DROP TRIGGER t")
        sound(db, "p")
        tried("triggers of a shadow table", 12)
        db.close()
        for uri in ("file:i.db?mode=ro", "file:i.db?immutable=1"):
            db = sqlite3.connect(uri, uri=True, isolation_level=None)
            db.enable_load_extension(True)
            db.load_extension(EXTENSION)
            assert rows(db, "SELECT * FROM p") == before
            sound(db, "p")
            refuses(sqlite3.OperationalError, "readonly", db, "DELETE FROM p")
        tried("databases that are only read", 2)


CHILD = """
import sys, sqlite3
db = sqlite3.connect("k.db", isolation_level=None)
db.enable_load_extension(True)
db.load_extension(sys.argv[1])
n = db.execute("SELECT coalesce(max(id), 0) FROM p").fetchone()[0]
while True:
    db.execute("BEGIN")
    for k in range(1, 8):
        db.execute("INSERT INTO p VALUES(?, ?, ?, 0, 1, 0)", (n + k, n + k, n + k + 5))
        db.execute("INSERT INTO plain VALUES(?)", (n + k,))
    db.execute("COMMIT")
    n += 7
    print(n, flush=True)
"""


def kills():
    for mode in ("DELETE", "WAL"):
        with folder():
            db = connect("k.db")
            db.execute(f"PRAGMA journal_mode = {mode}")
            db.execute("CREATE VIRTUAL TABLE p USING rstore")
            db.execute("CREATE TABLE plain(id INTEGER PRIMARY KEY)")
            db.close()
            r = random.Random(8)
            for _ in range(max(3, RUNS // 4)):
                process = subprocess.Popen([sys.executable, "-c", CHILD, EXTENSION], stdout=subprocess.PIPE)
                told = 0
                for _ in range(r.randint(1, 12)):
                    told = int(process.stdout.readline())
                time.sleep(r.random() * 0.01)
                process.send_signal(signal.SIGKILL)
                told = int((process.stdout.read().split() or [told])[-1]) or told
                process.wait()
                db = connect("k.db")
                store, plain = rows(db, "SELECT count(*), max(id) FROM p")[0], rows(db,
                                "SELECT count(*), max(id) FROM plain")[0]
                assert store == plain and store[0] == store[1] and store[0] % 7 == 0, (store, plain)
                assert told <= store[0] <= told + 7, (told, store)
                sound(db, "p")
                db.close()
                tried("kills")


def block_at(db, no):
    found = db.execute("SELECT block FROM p_blocks WHERE no = ? AND typeof(block) = 'blob'", (no,)).fetchone()
    return found[0] if found and found[0] else bytes(4096)


def damage():
    """Pages that anything was written into: a code and a message, or right rows, and rstore_check names it."""
    with folder():
        db = connect("whole.db")
        db.execute("CREATE VIRTUAL TABLE p USING rstore(fanout=6)")
        db.execute(MANY.format(2000) + "INSERT INTO p SELECT i, i % 71, i % 71 + 3, i % 37, i % 37 + 2, i % 5 FROM n")
        blocks = rows(db, "SELECT count(*) FROM p_blocks")[0][0]
        db.close()
        with open("whole.db", "rb") as file:
            whole = file.read()
        r, refused = random.Random(4), 0
        for _ in range(4 * RUNS):
            with open("d.db", "wb") as file:
                file.write(whole)
            plain = sqlite3.connect("d.db", isolation_level=None)
            for _ in range(r.choice([1, 1, 3])):
                no = r.choice([0, 1, 2, r.randrange(blocks)])
                block = bytearray(block_at(plain, no))
                kind = r.random()
                if kind < 0.5:
                    for _ in range(r.choice([1, 1, 5, 40])):
                        block[r.randrange(len(block))] = r.randrange(256)
                elif kind < 0.6:
                    block = bytes(4096)
                elif kind < 0.7:
                    block = r.choice([b"", b"short", bytes(8192), None, "text", 7])
                elif kind < 0.8:
                    block = block_at(plain, r.randrange(blocks))
                block = bytes(block) if isinstance(block, bytearray) else block
                if kind < 0.9:
                    plain.execute("UPDATE p_blocks SET block = ? WHERE no = ?", (block, no))
                else:
                    plain.execute("DELETE FROM p_blocks WHERE no = ?", (no,))
                    if r.random() < 0.2:
                        plain.execute("INSERT INTO p_blocks VALUES(?, ?)",
                                      (r.choice([-1, 2**31 - 1, 2**31, 2**62]), bytes(4096)))
                        break
                    if not plain.execute("SELECT 1 FROM p_blocks").fetchone():
                        break
            plain.close()
            db = connect("d.db")
            told = []
            for sql in ("SELECT rstore_check('p')", "SELECT * FROM p", "SELECT id FROM p WHERE nearest = '3 3' LIMIT 3",
                        "SELECT * FROM p WHERE id = 77", "INSERT INTO p VALUES(9999, 1, 1, 1, 1, 1)",
                        "DELETE FROM p WHERE id = 5", "UPDATE p SET maxx = maxx + 50 WHERE minx < 9",
                        "SELECT count(*) FROM rstore_join('p', 'p')", "DROP TABLE p"):
                try:
                    told.append(rows(db, sql))
                except sqlite3.DatabaseError as error:
                    assert "damaged" in str(error) or "malformed" in str(error), error
                    told.append(None)
            if told[0] == [("ok",)]:
                assert told[1] is not None
            else:
                assert told[0] is None or "damaged" in told[0][0][0], told[0]
                refused += 1
            db.close()
            tried("damaged tables")
        tried("of these refused by rstore_check", refused)
        assert refused > 2 * RUNS

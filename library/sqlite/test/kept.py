"""What transactions keep, definitions and loads."""

import random
import sqlite3

from common import MANY, ROW, connect, folder, ids, refuses, rows, sound, tried


def savepoints():
    with folder():
        db = connect("t.db")
        db.execute("CREATE VIRTUAL TABLE p USING rstore")
        db.execute("CREATE VIRTUAL TABLE o USING rstore(+name)")
        db.execute("CREATE TABLE plain(id)")
        db.execute("INSERT INTO p VALUES" + ROW, (1,))
        db.execute("BEGIN")
        db.execute("INSERT INTO p VALUES" + ROW, (2,))
        db.execute("INSERT INTO o VALUES(2, 0, 1, 0, 1, 0, 'two')")
        db.execute("INSERT INTO plain VALUES(2)")
        db.execute("ROLLBACK")
        assert ids(db) == [1] and ids(db, "o") == [] == rows(db, "SELECT * FROM plain")
        # a table that comes into a transaction after a savepoint
        db.execute("BEGIN")
        db.execute("INSERT INTO p VALUES" + ROW, (2,))
        db.execute("SAVEPOINT a")
        db.execute("INSERT INTO p VALUES" + ROW, (3,))
        db.execute("SAVEPOINT b")
        db.execute("INSERT INTO o VALUES(4, 0, 1, 0, 1, 0, 'four')")
        db.execute("INSERT INTO p VALUES" + ROW, (5,))
        db.execute("ROLLBACK TO b")
        assert ids(db) == [1, 2, 3] and ids(db, "o") == []
        db.execute("INSERT INTO o VALUES(6, 0, 1, 0, 1, 0, 'six')")
        db.execute("RELEASE b")
        db.execute("ROLLBACK TO a")
        assert ids(db) == [1, 2] and ids(db, "o") == [] == rows(db, "SELECT * FROM o_aux")
        db.execute("COMMIT")
        assert ids(connect("t.db")) == [1, 2]
        # a statement that is refused halfway leaves what was before it
        for many in (2, 3000):
            db.execute("BEGIN")
            db.execute("INSERT INTO p VALUES" + ROW, (50000,))
            refuses(sqlite3.IntegrityError, "UNIQUE constraint failed: p.id", db,
                    MANY.format(many) + f"INSERT INTO p SELECT 50000 - {many} + i, i, i, i, i, 0 FROM n")
            assert ids(db) == [1, 2, 50000]
            db.execute("ROLLBACK")
            assert ids(db) == [1, 2]
        # rows that are read on while others are rolled back
        db.execute(MANY.format(100) + "INSERT INTO p SELECT 100 + i, i, i, i, i, 0 FROM n")
        db.execute("BEGIN")
        db.execute("SAVEPOINT c")
        db.execute("DELETE FROM p WHERE id > 150")
        cursor = db.execute("SELECT id FROM p WHERE nearest = '0 0' AND distance >= 0 ORDER BY distance")
        some = [cursor.fetchone()[0] for _ in range(5)]
        db.execute("ROLLBACK TO c")
        db.execute("COMMIT")
        assert len(some) == 5 and len(ids(db)) == 102
        sound(db, "p", "o")
        tried("savepoints by hand", 5)


def blocks():
    """The rows of a shadow table: a block each, without the zeros at its end. Those of an earlier build have 4096 bytes."""
    with folder():
        db = connect("t.db")
        db.execute("CREATE VIRTUAL TABLE p USING rstore(cache=8)")
        assert rows(db, MANY.format(3000) + "SELECT rstore_load('p', i, i, i + 1, -i, -i, i % 3) FROM n") == [(3000,)]
        db.execute("DELETE FROM p WHERE id % 7 = 0")

        def lengths():
            found = rows(db, "SELECT no, block FROM p_blocks ORDER BY no")
            assert [no for no, _ in found] == list(range(len(found)))
            return [(len(block), len(block.rstrip(b"\0"))) for _, block in found]

        assert all(whole == bare for whole, bare in lengths()) and 8 < len(lengths()) < 200
        wanted = rows(db, "SELECT * FROM p ORDER BY id")
        assert len(wanted) == 3000 - 3000 // 7
        db.execute("UPDATE p_blocks SET block = CAST(block || zeroblob(4096 - length(block)) AS BLOB)")
        assert {whole for whole, _ in lengths()} == {4096}
        db.close()
        db = connect("t.db")
        assert rows(db, "SELECT * FROM p ORDER BY id") == wanted
        sound(db, "p")
        db.execute("UPDATE p SET tag = 9 WHERE id < 50")
        assert 0 < sum(whole < 4096 for whole, _ in lengths()) < len(lengths())
        assert rows(db, "SELECT count(*) FROM p WHERE tag = 9") == [(42,)]
        sound(db, "p")
        tried("blocks of two lengths")


def held_blocks():
    """What is held of a shadow table is what it has, however the table came to it."""
    with folder():
        one, two = connect("t.db"), connect("t.db")
        one.execute("PRAGMA cache_size = 64")
        two.execute("PRAGMA cache_size = -1000")
        one.execute("CREATE VIRTUAL TABLE p USING rstore(cache=8, fanout=4)")
        one.execute("CREATE TABLE plain(id INTEGER PRIMARY KEY, x)")
        one.execute(MANY.format(2000) + "INSERT INTO plain SELECT i, i * 7919 % 2003 FROM n")
        one.execute("SELECT rstore_load('p', id, x, x, x, x) FROM plain").fetchall()
        windows = "SELECT count(*), sum(id) FROM {} WHERE {} AND {}"

        def same(db):
            for low in range(0, 2003, 97):
                found = rows(db, windows.format("p", f"minx <= {low + 200}", f"maxx >= {low}"))
                assert found == rows(db, windows.format("plain", f"x <= {low + 200}", f"x >= {low}")), low

        r = random.Random(3)
        for _ in range(30):
            db, how = r.choice([one, two]), r.choice(["COMMIT", "COMMIT", "ROLLBACK", "ROLLBACK TO s"])
            gone, x = r.randrange(1, 2000), r.randrange(2003)
            db.execute("BEGIN")
            db.execute("DELETE FROM p WHERE id < ? AND id > ?", (gone, gone - 30))
            db.execute("DELETE FROM plain WHERE id < ? AND id > ?", (gone, gone - 30))
            db.execute("SAVEPOINT s")
            db.execute("UPDATE p SET minx = ?1, maxx = ?1 WHERE id = ?2", (x, gone))
            db.execute("UPDATE plain SET x = ?1 WHERE id = ?2", (x, gone))
            same(db)
            db.execute(how)
            same(db)
            if db.in_transaction:
                db.execute("COMMIT")
            same(one)
            same(two)
            tried("transactions over blocks that are held")
        sound(one, "p")
        sound(two, "p")


def definitions():
    """CREATE, DROP and ALTER, within transactions; words that are not known."""
    with folder():
        db = connect("t.db")
        db.execute("CREATE VIRTUAL TABLE p USING rstore(+name, +note TEXT)")
        db.execute("INSERT INTO p VALUES(1, 0, 1, 0, 1, 7, 'a', 2)")
        tables = rows(db, "SELECT name FROM sqlite_schema ORDER BY 1")
        assert tables == [("p",), ("p_aux",), ("p_blocks",)], tables
        db.execute("BEGIN")
        db.execute("DROP TABLE p")
        refuses(sqlite3.OperationalError, "no such table", db, "SELECT * FROM p")
        db.execute("CREATE VIRTUAL TABLE p USING rstore")
        db.execute("INSERT INTO p VALUES" + ROW, (9,))
        assert ids(db) == [9]
        db.execute("ROLLBACK")
        assert rows(db, "SELECT * FROM p") == [(1, 0, 1, 0, 1, 7, "a", 2)]
        db.execute("BEGIN")
        db.execute("SAVEPOINT x")
        db.execute("DROP TABLE p")
        db.execute("ROLLBACK TO x")
        db.execute("INSERT INTO p(id, minx, maxx, miny, maxy) VALUES(9, 0, 1, 0, 1)")
        db.execute("CREATE VIRTUAL TABLE o USING rstore(dims=3)")
        db.execute("INSERT INTO o VALUES(1, 2, 3, 4, 5, 6, 7, 8)")
        db.execute("SAVEPOINT y")
        db.execute("INSERT INTO o VALUES(2, 2, 3, 4, 5, 6, 7, 8)")
        db.execute("ROLLBACK TO y")
        db.execute("COMMIT")
        assert rows(db, "SELECT * FROM o") == [(1, 2, 3, 4, 5, 6, 7, 8)] and ids(db) == [1, 9]
        db.execute("BEGIN")
        db.execute("CREATE VIRTUAL TABLE gone USING rstore")
        db.execute("INSERT INTO gone VALUES" + ROW, (9,))
        db.execute("ROLLBACK")
        refuses(sqlite3.OperationalError, "no such table", db, "SELECT * FROM gone")
        db.execute("BEGIN")
        db.execute("INSERT INTO p(id, minx, maxx, miny, maxy) VALUES(10, 0, 1, 0, 1)")
        db.execute("ALTER TABLE p RENAME TO park")
        db.execute("INSERT INTO park(id, minx, maxx, miny, maxy, name) VALUES(11, 0, 1, 0, 1, 'x')")
        assert ids(db, "park") == [1, 9, 10, 11]
        db.execute("ROLLBACK")
        assert ids(db) == [1, 9]
        db.execute("ALTER TABLE p RENAME TO park")
        assert ids(db, "park") == [1, 9] and rows(db, "SELECT name FROM park WHERE id = 1") == [("a",)]
        refuses(sqlite3.IntegrityError, "UNIQUE constraint failed: park.id", db,
                "INSERT INTO park(id, minx, maxx, miny, maxy) VALUES(1, 0, 0, 0, 0)")
        sound(db, "park", "o")
        db.execute("DROP TABLE park")
        db.execute("DROP TABLE o")
        assert rows(db, "SELECT name FROM sqlite_schema") == []
        tried("CREATE, DROP and ALTER in transactions", 7)
        for words in ("colour=red", "dims=4", "dims=2.5", "dims", "scale=0", "scale=x", "scale=-1", "fanout=3",
                      "fanout=101", "cache=7",
                      "+", "dims=2 3"):
            refuses(sqlite3.OperationalError, "not known, or out of range: " + words, db,
                    f"CREATE VIRTUAL TABLE z USING rstore({words})")
        refuses(sqlite3.OperationalError, "duplicate column name", db, "CREATE VIRTUAL TABLE z USING rstore(+tag)")
        db.execute("CREATE TABLE z_blocks(x)")
        refuses(sqlite3.OperationalError, "already exists", db, "CREATE VIRTUAL TABLE z USING rstore")
        assert rows(db, "SELECT name FROM sqlite_schema") == [("z_blocks",)]
        db.execute('CREATE VIRTUAL TABLE "a b"" c" USING rstore( dims = 3 , +"n ""1""" , +[m 2])')
        db.execute('INSERT INTO "a b"" c" VALUES(1, 0, 0, 0, 0, 0, 0, 0, 5, 6)')
        assert rows(db, 'SELECT "n ""1""", "m 2" FROM "a b"" c" WHERE minz = 0') == [(5, 6)]
        sound(db, 'a b" c')
        tried("words that are not known", 12)


def triggers_and_loads():
    with folder():
        db = connect("t.db")
        db.execute("CREATE VIRTUAL TABLE p USING rstore")
        db.executemany("INSERT INTO p VALUES" + ROW, [(1,), (3,)])
        db.execute("CREATE TABLE things(id INTEGER PRIMARY KEY, x, y)")
        db.execute("CREATE TRIGGER things_in AFTER INSERT ON things "
                   "BEGIN INSERT INTO p VALUES(new.id, new.x, new.x, new.y, new.y, 0); END")
        db.execute("CREATE TRIGGER things_out AFTER DELETE ON things BEGIN DELETE FROM p WHERE id = old.id; END")
        db.execute("INSERT INTO things VALUES(10, 5, 5), (11, 6, 6)")
        refuses(sqlite3.IntegrityError, "UNIQUE", db, "INSERT INTO things VALUES(12, 1, 1), (3, 9, 9)")
        assert ids(db, "things") == [10, 11] and ids(db) == [1, 3, 10, 11]
        db.execute("DELETE FROM things")
        assert ids(db) == [1, 3]
        tried("triggers")
        db.execute("CREATE VIRTUAL TABLE o USING rstore(+name)")
        db.execute("BEGIN")
        assert rows(db, MANY.format(5000) + "SELECT rstore_load('o', i, i, i + 1, -i, -i, i % 3) FROM n") == [(5000,)]
        assert rows(db, "SELECT count(*), sum(tag) FROM o") == [(5000, sum(i % 3 for i in range(1, 5001)))]
        db.execute("ROLLBACK")
        assert rows(db, "SELECT count(*) FROM o") == [(0,)]
        db.execute("BEGIN")
        db.execute("SAVEPOINT a")
        assert rows(db, MANY.format(3000) + "SELECT rstore_load('main.o', i, i, i + 1, -i, -i) FROM n") == [(3000,)]
        db.execute("ROLLBACK TO a")
        assert rows(db, MANY.format(2000) + "SELECT rstore_load('o', i, i, i + 1, -i, -i) FROM n") == [(2000,)]
        db.execute("COMMIT")
        assert rows(connect("t.db"), "SELECT count(*), sum(id) FROM o") == [(2000, 2001000)]
        refuses(sqlite3.IntegrityError, "has rows", db, "SELECT rstore_load('o', 1, 1, 1, 1, 1)")
        assert rows(db, "SELECT count(*) FROM o") == [(2000,)]
        db.execute("DELETE FROM o")
        refuses(sqlite3.IntegrityError, "1 stands twice", db,
                "SELECT rstore_load('o', 1, 1, 1, 1, 1) FROM (SELECT 1 UNION ALL SELECT 2)")
        refuses(sqlite3.OperationalError, "rstore_load(table", db, "SELECT rstore_load('o', 1, 1, 1, 1)")
        refuses(sqlite3.OperationalError, "no such table of rstore", db, "SELECT rstore_load('things', 1, 1, 1, 1, 1)")
        refuses(sqlite3.IntegrityError, "o.maxx is no number: x", db, "SELECT rstore_load('o', 1, 1, 'x', 1, 1)")
        assert rows(db, "SELECT rstore_load('o', id, x, x, y, y) FROM things") == [(0,)]
        db.execute("INSERT INTO o VALUES(3, 0, 1, 0, 1, 0, 'three')")
        assert ids(connect("t.db"), "o") == [3]
        # of a table of the same database, read while it is loaded
        db.execute("DELETE FROM o")
        assert rows(db, "SELECT rstore_load('o', id, minx, maxx, miny, maxy, tag) FROM p") == [(2,)] and ids(db,
                        "o") == [1, 3]
        sound(db, "o", "p")
        tried("loads", 5)

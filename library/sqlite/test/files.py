"""Tables over a file: reads, changes, transactions, other connections, kills, disks that are full."""

import os
import random
import signal
import sqlite3
import subprocess
import sys
import time

from common import EXTENSION, MANY, ROW, RUNS, connect, folder, ids, refuses, rows, rstore, sound, tried


def files():
    """Tables over layers of a file, which others write."""
    with folder():
        os.mkdir("there")
        with rstore.open("there/map.rst", create=True) as store:
            parks, rivers = store.create_layer("parks"), store.create_layer("rivers")
            for k in range(200):
                parks.insert(k, (k, 0, k + 3, 5), tag=k % 3)
                rivers.insert(k, (3 * k, 3, 3 * k, 9))
        db = connect("there/t.db")
        db.execute("CREATE VIRTUAL TABLE p USING rstore('map.rst', 'parks')")
        db.execute('CREATE VIRTUAL TABLE r USING rstore("map.rst", rivers, cache=8)')
        db.execute("CREATE VIRTUAL TABLE o USING rstore(plain)")
        wanted = [(k, k, k + 3, 0, 5, k % 3) for k in range(200)]
        assert rows(db, "SELECT * FROM p") == wanted
        assert rows(db,
                    "SELECT id FROM p WHERE minx <= 50 AND maxx >= 40 AND tag = 1") == [(k,) for k in range(37,
                                    51) if k % 3 == 1]
        assert rows(db, "SELECT id FROM p WHERE nearest = '10 9' AND k = 2 AND tag = 2") == [(8,), (11,)]
        db.execute("INSERT INTO o SELECT id, minx, maxx, miny, maxy FROM r")
        pairs = [(a, b) for a in range(200) for b in range(200) if a <= 3 * b <= a + 3]
        assert rows(db, "SELECT first, second FROM rstore_join('p', 'r')") == pairs == rows(db,
                        "SELECT first, second FROM rstore_join('p', 'o')")
        sql = "SELECT a.id, b.id FROM p a JOIN r b ON a.minx <= b.maxx AND a.maxx >= b.minx ORDER BY 1, 2"
        assert rows(db, sql) == pairs
        sound(db, "p", "r", "o")
        cursor = db.execute("SELECT id FROM p")
        cursor.fetchone()
        with rstore.open("there/map.rst") as store:
            before = len(store["parks"])
            store["parks"][1000] = (7, 7, 7, 7)
            store.commit()
            assert len(cursor.fetchall()) == before - 1
            del store["parks"][1000]
            assert len(rows(db, "SELECT id FROM p")) == before + 1
            store.rollback()
        assert rows(db, "SELECT id FROM p WHERE around = '7 7'") == [(1000,)]
        for words, kind, told in [
            ("'map.rst', 'lakes'", sqlite3.OperationalError, "no layer of that name"), ("'map.rst', 'parks', dims=3",
                            sqlite3.OperationalError, "number of axes"),
            ("'none.rst', 'parks'", sqlite3.OperationalError, "cannot open"), ("'t.db', 'parks'", sqlite3.DatabaseError,
                                                                               "not a store"),
            ("'map.rst', 'parks', +name", sqlite3.OperationalError, "not known"), ("'map.rst'",
                            sqlite3.OperationalError, "wants a layer"),
        ]:
            refuses(kind, told, db, f"CREATE VIRTUAL TABLE z USING rstore({words})")
        db.execute("DROP TABLE r")
        with rstore.open("there/map.rst") as store:
            assert len(store["rivers"]) == 200
        os.rename("there/map.rst", "there/away.rst")
        refuses(sqlite3.OperationalError, "cannot open", db, "SELECT * FROM p")
        db.execute("DROP TABLE p")
        tried("tables over a file", 2)


# ---- changes


def there(path="m.rst", layer="p"):
    """The identifiers in a file, as another program has them."""
    with rstore.open(path, read_only=True) as store:
        return sorted(store[layer])


def is_locked(path="m.rst"):
    try:
        rstore.open(path).close()
    except rstore.Busy:
        return True
    return False


def made(*layers):
    with rstore.open("m.rst", create=True) as store:
        for layer in layers:
            store.create_layer(layer)
    db = connect("f.db")
    for layer in layers:
        db.execute(f"CREATE VIRTUAL TABLE {layer} USING rstore('m.rst', '{layer}')")
    return db


def changes():
    """Each statement is in the file at its end, each transaction at its commit, and none that is rolled back."""
    with folder():
        db = made("p", "o")
        db.execute("CREATE TABLE plain(id)")
        db.execute("INSERT INTO p VALUES" + ROW, (1,))
        assert there() == [1] and not os.path.exists("m.rst-journal")
        db.execute("UPDATE p SET id = 2, maxx = 50, tag = 7")
        with rstore.open("m.rst") as store:
            assert store["p"].window((0, 0, 99, 99)) == [(2, (0, 0, 50, 1), 7)]
        db.execute("INSERT INTO p(minx, maxx, miny, maxy) VALUES(4, 5, 6, 7)")
        assert there() == [2, 3]
        db.execute("BEGIN")
        assert not is_locked()
        db.execute("DELETE FROM p WHERE id = 2")
        db.execute("INSERT INTO o VALUES" + ROW, (9,))
        db.execute("INSERT INTO plain VALUES(1)")
        assert is_locked() and ids(db) == [3] and ids(db, "o") == [9]
        assert rows(db, "SELECT * FROM rstore_join('p', 'o')") == []
        refuses(sqlite3.OperationalError, "locked", db, "DROP TABLE o")
        other = connect("f.db")
        refuses(sqlite3.OperationalError, "database is locked", other, "DELETE FROM p")
        assert ids(other) == [2, 3]
        db.execute("ROLLBACK")
        assert not is_locked() and there() == [2, 3] and ids(db, "o") == [] == rows(db, "SELECT * FROM plain")
        assert ids(other) == [2, 3]
        db.execute("BEGIN")
        db.execute("DELETE FROM p WHERE id = 2")
        db.execute("INSERT INTO o VALUES" + ROW, (9,))
        db.execute("COMMIT")
        assert not is_locked() and there() == [3] == ids(other) and there("m.rst", "o") == [9]
        # a statement that is refused changes nothing, alone and in a transaction
        for begin, end in (("SELECT 1", "SELECT 1"), ("BEGIN", "COMMIT"), ("SAVEPOINT a", "RELEASE a")):
            db.execute(begin)
            db.execute("INSERT OR REPLACE INTO p VALUES" + ROW, (3,))
            refuses(sqlite3.IntegrityError, "UNIQUE constraint failed: p.id", db,
                    "INSERT INTO p VALUES(1, 0, 0, 0, 0, 0), (2, 0, 0, 0, 0, 0), (3, 0, 0, 0, 0, 0)")
            refuses(sqlite3.IntegrityError, "is above", db, "UPDATE p SET minx = 7 * id, maxx = 20")
            assert ids(db) == [3]
            db.execute(end)
            assert there() == [3]
        # a file that another has open
        with rstore.open("m.rst"):
            refuses(sqlite3.OperationalError, "database is locked", db, "DELETE FROM p")
        with rstore.open("m.rst", read_only=True) as store:
            db.execute("INSERT INTO p VALUES" + ROW, (4,))
            assert list(store["p"]) == [3] and ids(db) == [3, 4] and store.refresh() and list(store["p"]) == [3, 4]
            db.execute("DELETE FROM p WHERE id = 4")
            assert ids(db) == [3] and list(store["p"]) == [3, 4]
        # a cursor that reads on while the file is changed
        db.execute(MANY.format(100) + "INSERT INTO p SELECT 100 + i, i, i, 0, 0, 0 FROM n")
        seen = []
        for id, in db.execute("SELECT id FROM p WHERE nearest = '0 0'"):
            seen.append(id)
            db.execute("DELETE FROM p WHERE id = ?", (id,))
        assert len(seen) == 101 and there() == []
        sound(db, "p", "o")
        tried("changes of a file by hand", 12)


def waits():
    """A connection with a timeout waits until the file is let go."""
    with folder():
        made("p").close()
        db = connect("f.db", 5.0)
        child = subprocess.Popen([sys.executable, "-c", HOLDS, os.environ["RSTORE_LIB"]], stdout=subprocess.PIPE)
        child.stdout.readline()
        before = time.monotonic()
        db.execute("INSERT INTO p VALUES" + ROW, (1,))
        assert time.monotonic() - before > 0.1
        child.wait(), child.stdout.close()
        assert there() == [1]
        tried("waits for a file")


HOLDS = """
import os, sys, time
sys.path.insert(0, os.path.abspath(sys.argv[1]))
import rstore
with rstore.open("m.rst") as store:
    print("open", flush=True)
    time.sleep(0.3)
"""


def savepoints():
    with folder():
        db = made("p", "o")
        db.execute("INSERT INTO p VALUES" + ROW, (1,))
        db.execute("BEGIN")
        db.execute("INSERT INTO p VALUES" + ROW, (2,))
        db.execute("SAVEPOINT a")
        db.execute("UPDATE p SET maxx = 40 WHERE id = 1")
        db.execute("SAVEPOINT b")
        db.execute("INSERT INTO o VALUES" + ROW, (4,))  # the table comes in here
        db.execute("INSERT INTO p VALUES" + ROW, (5,))
        db.execute("SAVEPOINT c")
        db.execute("DELETE FROM p")
        db.execute("INSERT INTO p VALUES(1, 7, 7, 7, 7, 7)")
        db.execute("ROLLBACK TO c")
        assert ids(db) == [1, 2, 5] and rows(db, "SELECT maxx, tag FROM p WHERE id = 1") == [(40, 0)]
        db.execute("RELEASE c")
        db.execute("ROLLBACK TO b")
        assert ids(db) == [1, 2] and ids(db, "o") == []
        assert rows(db, MANY.format(300) + "SELECT rstore_load('o', i, i, i, i, i) FROM n") == [(300,)]
        db.execute("ROLLBACK TO b")
        assert ids(db, "o") == []
        assert rows(db, MANY.format(200) + "SELECT rstore_load('o', i, i, i, i, i) FROM n") == [(200,)]
        db.execute("ROLLBACK TO a")
        db.execute("INSERT INTO o VALUES" + ROW, (6,))
        db.execute("COMMIT")
        assert rows(db, "SELECT id, maxx FROM p") == [(1, 1), (2, 1)] and ids(db, "o") == [6]
        sound(db, "p", "o")
        # a savepoint that begins the transaction
        db.execute("SAVEPOINT a")
        db.execute("INSERT INTO p VALUES" + ROW, (7,))
        db.execute("ROLLBACK TO a")
        assert is_locked() and ids(db) == [1, 2]
        db.execute("INSERT INTO o VALUES" + ROW, (8,))
        db.execute("ROLLBACK TO a")
        db.execute("RELEASE a")
        assert not is_locked() and ids(db) == [1, 2] and there("m.rst", "o") == [6]
        # a table that is made in a transaction
        db.execute("BEGIN")
        db.execute("CREATE VIRTUAL TABLE again USING rstore('m.rst', 'p')")
        assert ids(db, "again") == [1, 2]
        refuses(sqlite3.OperationalError, "made in this transaction", db, "DELETE FROM again")
        db.execute("DELETE FROM p WHERE id = 1")
        assert ids(db, "again") == [2]
        db.execute("COMMIT")
        db.execute("DELETE FROM again")
        assert there() == [] == ids(db)
        # a transaction in which tables are made and gone, and the schema is read anew
        db.execute("BEGIN")
        db.execute("INSERT INTO p VALUES" + ROW, (1,))
        db.execute("SAVEPOINT a")
        db.execute("CREATE TABLE z(x)")
        db.execute("INSERT INTO p VALUES" + ROW, (2,))
        db.execute("ROLLBACK TO a")
        db.execute("INSERT INTO p VALUES" + ROW, (3,))
        db.execute("ALTER TABLE p RENAME TO park")
        db.execute("INSERT INTO park VALUES" + ROW, (4,))
        assert ids(db, "park") == [1, 3, 4]
        db.execute("COMMIT")
        assert there() == [1, 3, 4] == ids(db, "park")
        db.execute("BEGIN")
        db.execute("DELETE FROM park")
        db.close()
        assert there() == [1, 3, 4]
        tried("savepoints of a file by hand", 8)


def turns():
    """Three connections, and Python, in turn."""
    with folder():
        first = made("p")
        turn, wanted, r = [first, connect("f.db"), connect("f.db")], set(), random.Random(11)
        for k in range(20 * RUNS // 3 + 20):
            if r.random() < 0.2:
                with rstore.open("m.rst") as store:
                    store["p"][k] = (k, 0, k, 0)
                wanted.add(k)
                continue
            db, gone = r.choice(turn), r.choice(sorted(wanted)) if wanted and r.random() < 0.4 else None
            keeps = r.random() < 0.7
            db.execute("BEGIN")
            db.execute("INSERT INTO p VALUES" + ROW, (k,))
            if gone is not None:
                db.execute("DELETE FROM p WHERE id = ?", (gone,))
            other = r.choice([t for t in turn if t is not db])
            refuses(sqlite3.OperationalError, "database is locked", other, "DELETE FROM p WHERE id = 0")
            assert ids(other) == sorted(wanted)
            db.execute("COMMIT" if keeps else "ROLLBACK")
            if keeps:
                wanted = (wanted | {k}) - {gone}
            assert ids(r.choice(turn)) == sorted(wanted)
            tried("transactions of three connections over a file in turn")
        assert there() == sorted(wanted)


# ---- kills, and full disks

CHILD = """
import sys, sqlite3
db = sqlite3.connect("f.db", isolation_level=None)
db.enable_load_extension(True)
db.load_extension(sys.argv[1])
n = db.execute("SELECT coalesce(max(id), 0) FROM plain").fetchone()[0]
while True:
    db.execute("BEGIN")
    for k in range(1, 8):
        db.execute("INSERT INTO p VALUES(?, ?, ?, 0, 1, 0)", (n + k, n + k, n + k + 5))
        db.execute("INSERT INTO plain VALUES(?)", (n + k,))
    db.execute("COMMIT")
    n += 7
    print(n, flush=True)
"""


def kills():
    """Both have each transaction whole, and the file is at most one behind the database."""
    with folder():
        db = made("p")
        db.execute("CREATE TABLE plain(id INTEGER PRIMARY KEY)")
        db.close()
        r = random.Random(8)
        for _ in range(max(4, RUNS // 3)):
            process = subprocess.Popen([sys.executable, "-c", CHILD, EXTENSION], stdout=subprocess.PIPE)
            told = 0
            for _ in range(r.randint(1, 8)):
                told = int(process.stdout.readline())
            time.sleep(r.random() * 0.01)
            process.send_signal(signal.SIGKILL)
            told = int((process.stdout.read().split() or [told])[-1]) or told
            process.wait(), process.stdout.close()
            db = connect("f.db")
            ids(db)  # of what was committed last, by the journal
            db.execute("DELETE FROM p WHERE id = -1")  # which brings back what was kept
            count, last = rows(db, "SELECT count(*), coalesce(max(id), 0) FROM p")[0]
            of_plain = rows(db, "SELECT count(*), max(id) FROM plain")[0]
            assert count == last and count % 7 == 0 and of_plain[0] == of_plain[1], (count, last, of_plain)
            assert told <= count <= of_plain[0] <= told + 7, (told, count, of_plain)
            tried("of these kills between the two commits", count < of_plain[0])
            db.execute("DELETE FROM plain WHERE id > ?", (count,))
            sound(db, "p")
            db.close()
            assert there() == list(range(1, count + 1))
            tried("kills of a writer of a file")


FULL = """
import resource, signal, sys, sqlite3
signal.signal(signal.SIGXFSZ, signal.SIG_IGN)
most, cache, sql = sys.argv[2:]
db = sqlite3.connect(":memory:", isolation_level=None)
db.enable_load_extension(True)
db.load_extension(sys.argv[1])
db.execute(f"CREATE VIRTUAL TABLE p USING rstore('m.rst', 'p', cache={cache})")
resource.setrlimit(resource.RLIMIT_FSIZE, (int(most), resource.RLIM_INFINITY))
told = []
for word in ("BEGIN", sql, "COMMIT"):
    try:
        db.execute(word)
    except sqlite3.Error as error:
        told.append(str(error))
if db.in_transaction:
    db.execute("ROLLBACK")
resource.setrlimit(resource.RLIMIT_FSIZE, (resource.RLIM_INFINITY, resource.RLIM_INFINITY))
try:
    db.execute("SELECT count(*) FROM p").fetchall()
except sqlite3.Error as error:
    told.append(str(error))
db.execute("DELETE FROM p WHERE id = -1")
print(*db.execute("SELECT count(*), sum(tag) FROM p").fetchone(), "|".join(told))
"""
# The first writes blocks as it goes, as the file grows and little is held; of the second the commit writes all.
GROWS = MANY.format(2000) + "INSERT INTO p SELECT i + 9999, i * 79 % 4000, i * 79 % 4000 + 9, 0, 9, 0 FROM n"
STAYS = "UPDATE p SET minx = minx + 1, maxx = maxx + 1, tag = 2"


def full():
    """A file that may grow so far only: the change is there, or something was told, also of a commit in xCommit."""
    with folder():
        with rstore.open("m.rst", create=True) as store:
            layer = store.create_layer("p")
            for k in range(500):
                layer[k] = (k * 7919 % 4000, 0, k * 7919 % 4000 + 9, 9)
        with open("m.rst", "rb") as file:
            whole = file.read()
        late, r = 0, random.Random(12)
        for turn in range(max(8, RUNS // 3)):
            with open("m.rst", "wb") as file:
                file.write(whole)
            most = len(whole) + 4096 * r.randrange(100) if turn % 2 else 4096 * r.randrange(40)
            words, changed = (["8", GROWS], (2500, 0)) if turn % 2 else (["4096", STAYS], (500, 1000))
            done = subprocess.run([sys.executable, "-c", FULL, EXTENSION, str(most), *words], stdout=subprocess.PIPE,
                                  check=True, text=True).stdout
            count, tags, told = (done.strip() + " ").split(" ", 2)
            found, after = (int(count), int(tags)), "last commit was refused" in told
            assert found == changed and (after or not told.strip()) or found == (500, 0) and told.strip(), done
            late += after
            with rstore.open("m.rst", read_only=True) as store:
                store.check()
                assert len(store["p"]) == found[0]
            tried("full disks")
        tried("of these told after the commit", late)
        assert late or RUNS < 100

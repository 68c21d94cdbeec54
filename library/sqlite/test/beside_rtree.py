"""Random runs beside SQLite's own rtree_i32 of the same connection, of tables in the database and over a file."""

import random
import sqlite3

from common import RUNS, connect, folder, rows, rstore, tried


class Run:
    """The same statements on `r`, a table of the extension, and `q`, an rtree_i32 whose tag is an auxiliary column."""

    def __init__(self, seed, over_file):
        self.random = random.Random(seed)
        self.over_file = over_file
        self.axes = self.random.choice([2, 2, 2, 3])
        self.names = ["minx", "maxx", "miny", "maxy", "minz", "maxz"][: 2 * self.axes]
        self.size = self.random.choice([8, 30, 200])
        self.path = self.random.choice(["s.db", "s.db", "s.db", ":memory:"])
        self.held = self.random.choice([-2000, 16, 0])  # blocks that are held, or kilobytes of them
        self.connect()
        self.db.execute(f"PRAGMA journal_mode = {self.random.choice(['DELETE', 'WAL', 'TRUNCATE'])}")
        columns = ", ".join(self.names)
        fanout, cache = self.random.choice([4, 7, 100]), self.random.choice([8, 8, 4096])
        self.more = [] if over_file else ["name"]
        if over_file:
            with rstore.open("s.rst", create=True) as store:
                store.create_layer("r", dims=self.axes, fanout=fanout)
            words = f"'s.rst', 'r', dims={self.axes}, cache={cache}"
        else:
            words = f"dims={self.axes}, fanout={fanout}, cache={cache}, +name"
        self.db.execute(f"CREATE VIRTUAL TABLE r USING rstore({words})")
        self.db.execute(f"CREATE VIRTUAL TABLE q USING rtree_i32(id, {columns}, +tag{', +name' * (not over_file)})")
        self.db.execute("CREATE TABLE counted(n)")
        self.savepoints = []

    def connect(self):
        self.db = connect(self.path)
        self.db.execute(f"PRAGMA cache_size = {self.held}")

    def both(self, sql, ordered=False):
        """A statement with TABLE for the name, on both. A refusal is of the same kind."""
        found = []
        for name in "rq":
            try:
                result = rows(self.db, sql.replace("TABLE", name))
                found.append(result if ordered else sorted(result, key=repr))
            except sqlite3.Error as error:
                found.append(type(error))
        assert found[0] == found[1], (sql, found[0], found[1])
        tried("statements beside rtree_i32")
        return found[0]

    def same(self):
        everything = f"SELECT {', '.join(['id', *self.names, 'tag', *self.more])} FROM TABLE"
        self.both(everything)
        self.both(everything + " ORDER BY id", True)

    def sound(self):
        assert rows(self.db, "SELECT rstore_check('r')") == [("ok",)]
        if self.over_file and not self.db.in_transaction:
            with rstore.open("s.rst", read_only=True) as store:
                assert sorted(store["r"]) == sorted(id % 2**64 for id, in rows(self.db, "SELECT id FROM q"))
            tried("files that Python reads")

    def number(self):
        return self.random.randint(-self.size, self.size)

    def box(self):
        found = []
        for _ in range(self.axes):
            low = self.number()
            found += [low,
                      low + self.random.choice([0, 0, 1, 2, self.size // 3, -1 if self.random.random() < 0.05 else 1])]
        return found

    def id(self):
        return self.random.choice([self.random.randint(1, 60), self.random.randint(-3, 3), "NULL"])

    def row(self):
        values = [self.id(), *self.box(), self.random.randint(0, 3), self.name()]
        return f"({', '.join(map(str, values[: len(self.names) + 2 + len(self.more)]))})"

    def name(self):
        return self.random.choice(["NULL", "'a'", "'b'", "2.5", "x'00ff'"])

    def value(self):
        one = self.number()
        return self.random.choice([one, one, one, f"{one}.0", f"{one}.5", f"'{one}'", "NULL", "'x'", "1e300", "-1e300",
                                   f"{one} + 0.25"])

    def where(self):
        kind, r = self.random.random(), self.random
        if kind < 0.35:  # a window, inside, around
            box = self.box()
            ops = r.choice([("<=", ">="), (">=", "<="), ("<", ">"), ("<=", ">=")])
            parts = []
            for k in range(self.axes):
                low, high = sorted(box[2 * k : 2 * k + 2])
                if r.random() < 0.3:
                    low, high = high, low
                parts += [f"{self.names[2 * k]} {ops[0]} {high}", f"{self.names[2 * k + 1]} {ops[1]} {low}"]
        else:
            parts = [f"{r.choice(self.names)} {r.choice(['<', '<=', '>', '>=', '='])} {self.value()}"
                     for _ in range(r.randint(0, 6))]
        if r.random() < 0.15:
            id = r.choice([r.randint(1, 60), r.randint(1, 60), r.randint(-3, 3), "2.5", "'x'", "NULL", "9223372036854775807"])
            parts.append(f"id {r.choice(['=', '=', '=', '<', '<=', '>', '>='])} {id}")
        if r.random() < 0.1:
            parts.append("id IN (1, 3, 5, 7, 11, 13, '17', 19.0, 'x', NULL, 2.5)")
        if r.random() < 0.15:
            parts.append(f"tag = {r.choice([0, 1, 2, 3, 7, -1])}")
        if r.random() < 0.1:
            parts.append("tag IN (0, 2, 77)")
        if r.random() < 0.1 and self.more:
            parts.append(r.choice(["name = 'a'", "name IS NULL", "name > 2"]))
        if r.random() < 0.1 and len(parts) > 1:
            return "(" + " OR ".join(parts) + ")"
        return " AND ".join(parts) if parts else "1"

    def step(self):
        r = self.random
        kind = r.random()
        conflict = r.choice(["", "", " OR ABORT", " OR FAIL", " OR IGNORE", " OR REPLACE", " OR ROLLBACK"])
        columns = ", ".join(["id", *self.names, "tag", *self.more])
        if kind < 0.22:
            many = r.choice([1, 1, 2, 5])
            self.change(f"INSERT{conflict} INTO TABLE({columns}) VALUES {', '.join(self.row() for _ in range(many))}")
        elif kind < 0.26:
            self.change(f"INSERT{conflict} INTO TABLE({columns}) SELECT id + {r.randint(1, 30)}, {columns[4:]} "
                        "FROM TABLE ORDER BY id LIMIT 20")
        elif kind < 0.34:
            k = r.randrange(self.axes)
            low, high = self.number(), self.number() + self.size // 2
            where = r.choice([f"id = {r.randint(1, 60)}", self.where()])
            self.change(f"UPDATE{conflict} TABLE SET {self.names[2 * k]} = {low}, {self.names[2 * k + 1]} = {high} "
                        f"WHERE {where}", True)
        elif kind < 0.39:
            box = self.box()
            sets = ", ".join(f"{n} = {b}" for n, b in zip(self.names, box))
            self.change(f"UPDATE{conflict} TABLE SET id = {r.randint(1, 60)}, {sets} WHERE id = {r.randint(1, 60)}")
        elif kind < 0.42:
            sets = r.choice([f"tag = {r.randint(0, 3)}", f"name = {self.name()}", f"tag = tag, name = {self.name()}"])
            sets = sets if self.more else f"tag = {r.randint(0, 3)}"
            self.change(f"UPDATE TABLE SET {sets} WHERE {self.where()}")
        elif kind < 0.50:
            self.change(f"DELETE FROM TABLE WHERE {r.choice([f'id = {r.randint(1, 60)}', self.where()])}")
        elif kind < 0.75:
            more = r.choice(["", "", " ORDER BY id", " ORDER BY id DESC", " ORDER BY id LIMIT 3",
                             " ORDER BY id DESC LIMIT 4 OFFSET 2"])
            self.both(f"SELECT id, {', '.join(self.names)}, tag FROM TABLE WHERE {self.where()}{more}", bool(more))
        elif kind < 0.78:
            self.both(f"SELECT count(*), min(minx), max(maxy), sum(tag) FROM TABLE WHERE {self.where()}")
        elif kind < 0.81:
            self.both("SELECT a.id, b.id FROM TABLE a, TABLE b WHERE a.minx <= b.maxx AND a.maxx >= b.minx "
                      "AND a.miny <= b.maxy AND a.maxy >= b.miny AND a.id < b.id")
        elif kind < 0.86:
            if not self.db.in_transaction:
                self.db.execute(r.choice(["BEGIN", "BEGIN IMMEDIATE"]))
        elif kind < 0.91:
            if self.db.in_transaction or r.random() < 0.3:  # where there is no transaction it begins one
                name = f"s{len(self.savepoints)}"
                self.savepoints.append(name)
                self.db.execute(f"SAVEPOINT {name}")
        elif kind < 0.96:
            if self.savepoints:
                at, releases = r.randrange(len(self.savepoints)), r.random() < 0.3
                self.db.execute(f"{'RELEASE' if releases else 'ROLLBACK TO'} s{at}")
                del self.savepoints[at + (not releases) :]
                tried("savepoints")
                self.same()
        elif kind < 0.98:
            if self.db.in_transaction:
                self.db.execute(r.choice(["COMMIT", "ROLLBACK"]))
                tried("transactions")
                self.savepoints = []
                self.same()
        elif kind < 0.99 and self.path != ":memory:":
            self.db.close()  # what was not committed is lost
            tried("connections that end")
            self.connect()
            self.savepoints = []
            self.same()
        elif kind < 0.995:
            self.sound()
        elif not self.db.in_transaction:
            self.db.execute("VACUUM")
            self.same()
        if not self.db.in_transaction:
            self.savepoints = []

    def change(self, sql, moves=False):
        """A change, on both and then all of both. OR ROLLBACK ends a transaction for both, so each has its own here."""
        if " OR ROLLBACK" in sql:
            if self.db.in_transaction:
                return
        if moves and any(word in sql for word in (" OR FAIL", " OR IGNORE")):
            sql = sql.replace(" OR FAIL", "")  # how far it came depends on the order of the rows
        self.both(sql)
        self.savepoints = self.savepoints if self.db.in_transaction else []
        if self.random.random() < 0.3:
            self.same()


def random_runs():
    for seed in range(RUNS):
        for over_file in (False, True):
            with folder():
                run = Run(seed, over_file)
                for _ in range(250 if not over_file else 150):
                    run.step()
                run.same()
                if run.db.in_transaction:
                    run.db.execute("COMMIT")
                run.sound()
                run.db.close()
            tried("random runs over a file" if over_file else "random runs")

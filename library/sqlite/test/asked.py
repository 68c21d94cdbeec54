"""Questions, numbers and plans."""

import math
import random
import sqlite3

from common import connect, folder, plan, refuses, rows, same, tried

# ---- nearest, and the other hidden columns


def boxes(r, count, size, extent):
    found = []
    for id in range(1, count + 1):
        x, y = r.randint(-size, size), r.randint(-size, size)
        found.append((id, x, x + r.randint(0, extent), y, y + r.randint(0, extent), r.randint(0, 4)))
    return found


def squared(box, x, y):
    _, x1, x2, y1, y2, _ = box
    return max(x1 - x, x - x2, 0) ** 2 + max(y1 - y, y - y2, 0) ** 2


def nearest():
    r = random.Random(5)
    with folder():
        db = connect()
        db.execute("CREATE VIRTUAL TABLE p USING rstore()")
        all = boxes(r, 700, 300, 9)
        db.executemany("INSERT INTO p VALUES(?, ?, ?, ?, ?, ?)", all)
        for _ in range(300):
            x, y, k = r.randint(-400, 400), r.randint(-400, 400), r.choice([1, 2, 10, 17, 200, 5000])
            tag, offset = r.randint(0, 4), r.choice([0, 0, 3, 40])
            by = sorted(all, key=lambda b: (squared(b, x, y), b[0]))
            wanted = [(b[0], math.sqrt(squared(b, x, y))) for b in by]
            point = f"{x} {y}"
            columns, near = "id, minx, tag", "FROM p WHERE nearest = ?"
            of_tag = [b for b in by if b[5] == tag]
            same(db, f"SELECT id, distance {near} ORDER BY distance LIMIT ? OFFSET ?", (point, k, offset),
                 wanted[offset:][:k])
            same(db, f"SELECT {columns} {near} AND tag = ? ORDER BY distance LIMIT ?", (point, tag, k),
                 [(b[0], b[1], b[5]) for b in of_tag][:k])
            same(db, f"SELECT {columns} {near} AND tag + 0 = ? AND k = 300 ORDER BY distance LIMIT ?", (point, tag, k),
                 [(b[0], b[1], b[5]) for b in by[:300] if b[5] == tag][:k])
            same(db, f"SELECT id, tag {near} AND tag = ? AND k = ?", (point, tag, k),
                 [(b[0], b[5]) for b in of_tag][:k])
            far = r.choice([0, 5, 50.5, wanted[20][1]])
            same(db, f"SELECT id, distance {near} AND distance <= ?", (point, far), [w for w in wanted if w[1] <= far])
            same(db, f"SELECT id, distance {near} AND distance < ? ORDER BY distance DESC, id", (point, far),
                 sorted([w for w in wanted if w[1] < far], key=lambda w: (-w[1], w[0])))
            west = r.randint(-300, 300)
            same(db, f"SELECT id {near} AND maxx < ? ORDER BY distance LIMIT ?", (point, west, k),
                 [(b[0],) for b in by if b[2] < west][:k])
            low, high = sorted(r.sample(range(-300, 300), 2))
            box = f"{low} {low} {high} {high}"
            same(db, "SELECT id FROM p WHERE meets = ? ORDER BY id", (box,),
                 [(b[0],) for b in all if b[1] <= high and b[2] >= low and b[3] <= high and b[4] >= low])
            same(db, "SELECT id FROM p WHERE inside = ? ORDER BY id", (box,),
                 [(b[0],) for b in all if b[1] >= low and b[2] <= high and b[3] >= low and b[4] <= high])
            same(db, "SELECT id FROM p WHERE around = ? ORDER BY id", (f"{x} {y} {x + 1} {y + 2}",),
                 [(b[0],) for b in all if b[1] <= x and b[2] >= x + 1 and b[3] <= y and b[4] >= y + 2])
            same(db, "SELECT id FROM p WHERE meets = ? AND tag = ? AND minx > ? ORDER BY id", (point, tag, west),
                 [(b[0],) for b in all if b[1] <= x <= b[2] and b[3] <= y <= b[4] and b[5] == tag and b[1] > west])
            tried("nearest, meets, inside, around beside a scan", 11)
        # so many rows, whichever they are
        everything = set(rows(db, "SELECT *, distance FROM p"))
        for limit, offset in ((1, 0), (10, 0), (10, 5), (0, 3), (-1, 0), (-1, 690), (700, 0), (701, 0), (5, 2000000),
                              (2000000, 0), (999999, 999999), (50, 690), (50, -3), (16, 16)):
            some = rows(db, "SELECT *, distance FROM p LIMIT ? OFFSET ?", (limit, offset))
            wanted = max(0, 700 - max(0, offset))
            assert len(some) == len(set(some)) == (wanted if limit < 0 else min(wanted, limit)), (limit, offset)
            assert set(some) <= everything and {row[-1] for row in some} <= {None}
            tried("LIMIT without more")
        assert rows(db, "SELECT EXISTS (SELECT 1 FROM p)") == [(1,)]
        assert len(rows(db, "SELECT * FROM (SELECT id FROM p LIMIT 9) WHERE id > 0 LIMIT 7")) == 7
        # the nearest of each row of another table
        db.execute("CREATE TABLE c(name, x, y)")
        cities = [(f"c{n}", r.randint(-300, 300), r.randint(-300, 300)) for n in range(20)]
        db.executemany("INSERT INTO c VALUES(?, ?, ?)", cities)
        found = rows(db, "SELECT c.name, p.id FROM c JOIN p ON p.nearest = c.x || ' ' || c.y AND p.k = 3 "
                         "ORDER BY c.rowid, p.distance, p.id")
        wanted = [(n, b[0]) for n, x, y in cities for b in sorted(all, key=lambda b: (squared(b, x, y), b[0]))[:3]]
        assert found == wanted, (found[:9], wanted[:9])
        db.execute("BEGIN")
        same(db, "SELECT count(*) FROM p WHERE nearest = '5 5' AND tag IN (1, 3) AND distance <= 50", (),
             [(sum(b[5] in (1, 3) and squared(b, 5, 5) <= 2500 for b in all),)])
        db.execute("DELETE FROM p WHERE nearest = '5 5' AND k = 40 AND tag = 3")
        gone = [b[0] for b in sorted((b for b in all if b[5] == 3), key=lambda b: (squared(b, 5, 5), b[0]))[:40]]
        assert rows(db, "SELECT id FROM p ORDER BY id") == [(b[0],) for b in all if b[0] not in gone]
        db.execute("UPDATE p SET maxx = maxx + 900 WHERE nearest = '5 5' AND distance < 100")
        same(db, "SELECT sum(maxx) FROM p", (),
             [(sum(b[2] + 900 * (squared(b, 5, 5) < 10000) for b in all if b[0] not in gone),)])
        db.execute("ROLLBACK")
        # changes while the rows are read
        seen = []
        for id, in db.execute("SELECT id FROM p WHERE nearest = '0 0'"):
            seen.append(id)
            db.execute("DELETE FROM p WHERE id = ?", (id,))
        assert len(seen) == 700 == len(set(seen)) and rows(db, "SELECT * FROM p") == []
        refuses(sqlite3.OperationalError, "wants a point", db, "SELECT * FROM p WHERE nearest = '1 2 3'")
        refuses(sqlite3.OperationalError, "wants a box", db, "SELECT * FROM p WHERE inside = '1 2'")
        refuses(sqlite3.OperationalError, "wants a box", db, "SELECT * FROM p WHERE meets = '9 9 1 1'")


# ---- joins, with an ordinary table of attributes, and the plans


def joins():
    r = random.Random(6)
    with folder():
        db = connect("j.db")
        parks, roads = boxes(r, 300, 200, 9), boxes(r, 400, 200, 20)
        for name, objects in (("parks", parks), ("roads", roads)):
            db.execute(f"CREATE VIRTUAL TABLE {name} USING rstore")
            db.execute(f"CREATE VIRTUAL TABLE {name}_q USING rtree_i32(id, minx, maxx, miny, maxy, +tag)")
            db.execute("BEGIN")
            db.executemany(f"INSERT INTO {name} VALUES(?, ?, ?, ?, ?, ?)", objects)
            db.execute(f"INSERT INTO {name}_q SELECT * FROM {name}")
            db.execute("COMMIT")
        db.execute("CREATE TABLE names(id INTEGER PRIMARY KEY, name TEXT, kind INT)")
        db.executemany("INSERT INTO names VALUES(?, ?, ?)", [(p[0], f"park {p[0]}", p[0] % 7) for p in parks])
        meet = "a.minx <= b.maxx AND a.maxx >= b.minx AND a.miny <= b.maxy AND a.maxy >= b.miny"
        named = f"SELECT n.name, b.id FROM names n JOIN parks a ON a.id = n.id JOIN roads b ON {meet} WHERE n.kind = 3"
        by_columns = rows(db, named + " ORDER BY 1, 2")
        by_rtree = rows(db, named.replace("parks", "parks_q").replace("roads", "roads_q") + " ORDER BY 1, 2")
        by_join = rows(db, "SELECT n.name, j.second "
                           "FROM rstore_join('parks', 'roads') j JOIN names n ON n.id = j.first "
                           "WHERE n.kind = 3 ORDER BY 1, 2")
        assert by_columns == by_rtree == by_join and len(by_join) > 20, len(by_join)
        for within in (0, 1, 2.5, 30):
            found = rows(db, "SELECT first, second FROM rstore_join('parks', 'roads', ?)", (within,))
            wanted = [(a[0], b[0]) for a in parks for b in roads
                      if max(a[1] - b[2], b[1] - a[2], 0) ** 2 + max(a[3] - b[4], b[3] - a[4], 0) ** 2 <= within**2]
            assert found == wanted, within
            tried("joins beside a scan")
        assert rows(db, "SELECT count(*) FROM rstore_join('parks', 'roads', -1)") == [(0,)]
        refuses(sqlite3.OperationalError, "no such table of rstore", db, "SELECT * FROM rstore_join('names', 'roads')")
        refuses(sqlite3.OperationalError, "wants two tables", db, "SELECT * FROM rstore_join('parks')")
        refuses(sqlite3.OperationalError, "", db, "INSERT INTO rstore_join(first) VALUES(1)")
        # a connection that has not used the tables yet
        db.close()
        db = connect("j.db")
        assert rows(db, "SELECT first, second FROM rstore_join('parks', 'roads', 30)") == wanted

        window = "minx <= ? AND maxx >= ? AND miny <= ? AND maxy >= ?"
        for sql, values, words in [
            (f"SELECT * FROM parks WHERE {window} AND tag = 3 ORDER BY id DESC", (9, 1, 9, 1),
             "VIRTUAL TABLE INDEX 12:range: minx<= maxx>= miny<= maxy>= tag="),
            ("SELECT * FROM parks WHERE id = 7", (), "VIRTUAL TABLE INDEX 1:get: id="),
            ("SELECT * FROM parks LIMIT ? OFFSET 3", (5,), "VIRTUAL TABLE INDEX 3:first: limit offset"),
            ("SELECT * FROM parks ORDER BY id LIMIT 3", (), "VIRTUAL TABLE INDEX 8:range:"),
            (f"SELECT * FROM parks WHERE id > 7 AND {window} ORDER BY id LIMIT 3", (9, 1, 9, 1),
             "VIRTUAL TABLE INDEX 8:range: id> minx<= maxx>= miny<= maxy>="),
            ("SELECT * FROM parks WHERE nearest = '1 1' ORDER BY distance LIMIT 3", (),
             "VIRTUAL TABLE INDEX 2:nearest: nearest= limit"),
            ("SELECT * FROM parks WHERE inside = '1 1 9 9'", (), "VIRTUAL TABLE INDEX 0:range: inside="),
        ]:
            told = plan(db, sql, values)
            assert words in told and "TEMP B-TREE" not in told, told
            tried("plans")
        told = plan(db, named)
        assert "SCAN b VIRTUAL TABLE INDEX 0:range: " in told, told
        assert all(term in told for term in ("minx<=", "maxx>=", "miny<=", "maxy>=")), told
        told = plan(db, "SELECT a.minx FROM names n CROSS JOIN parks a ON a.id = n.id WHERE n.kind = 3")
        assert told == "SCAN n; SCAN a VIRTUAL TABLE INDEX 1:get: id=", told
        told = plan(db, f"SELECT n.name FROM names n JOIN parks a ON a.id = n.id WHERE {window}", (9, 1, 9, 1))
        assert told.startswith("SCAN a VIRTUAL TABLE INDEX 0:range:"), told
        assert "SEARCH n USING INTEGER PRIMARY KEY" in told, told
        told = plan(db, "SELECT n.name, j.second FROM rstore_join('parks', 'roads') j JOIN names n ON n.id = j.first")
        assert told.startswith("SCAN j VIRTUAL TABLE") and "SEARCH n USING INTEGER PRIMARY KEY" in told, told
        tried("plans", 4)
        db.close()


def random_joins():
    """Of tables of many sizes, with numbers at the ends of their range and distances beyond all: beside a scan."""
    r = random.Random(13)
    ends = [-(2**31), -(2**31) + 1, 2**31 - 2, 2**31 - 1]
    for dims, sizes in ((2, (3, 200)), (2, (200, 3)), (2, (150, 150)), (3, (120, 130)), (3, (90, 5)), (2, (0, 9)),
                        (2, (9, 0)), (2, (1, 1))):
        db, tables = connect(), []
        for name, size in zip("ab", sizes):
            db.execute(f"CREATE VIRTUAL TABLE {name} USING rstore(dims={dims}, fanout=5)")
            found = []
            for id in sorted(r.sample(range(2**62), size)):
                box = []
                for _ in range(dims):
                    low = r.choice(ends) if r.random() < 0.1 else r.randint(-60, 60)
                    box += [low, min(low + r.choice([0, 1, 7, 2**32 if r.random() < 0.03 else 3]), 2**31 - 1)]
                found.append((id - 2**61, *box))
            marks = ", ".join("?" * (2 * dims + 1))
            db.executemany(f"INSERT INTO {name} VALUES({marks}, 0)", found)
            tables.append(sorted(found, key=lambda row: row[0] % 2**64))
        for within in (0, 1, 4, 5.5, 60, 2**31, 2**32 - 2, 2**32 - 1, 1e150):
            most = min(int(float(within) * float(within) + 1e-6), 2**64 - 1)
            wanted = [(a[0], b[0]) for a in tables[0] for b in tables[1]
                      if sum(max(a[k] - b[k + 1], b[k] - a[k + 1], 0) ** 2 for k in range(1, 2 * dims, 2)) <= most]
            same(db, "SELECT first, second FROM rstore_join('a', 'b', ?)", (within,), wanted)
            tried("joins beside a scan")


# ---- numbers


def numbers():
    r = random.Random(7)
    with folder():
        db = connect()
        db.execute("CREATE VIRTUAL TABLE p USING rstore(scale=10000000)")
        db.execute("CREATE TABLE plain(id INTEGER PRIMARY KEY, minx REAL, maxx REAL, miny REAL, maxy REAL)")
        given = []
        for id in range(1, 400):
            x, y = round(r.uniform(-180, 180), r.choice([0, 1, 7, 12])), round(r.uniform(-90, 90), 7)
            given.append((id, x, x + r.choice([0, 0.1, 1e-8]), y, y + 0.25))
        db.executemany("INSERT INTO p(id, minx, maxx, miny, maxy) VALUES(?, ?, ?, ?, ?)", given)
        db.execute("INSERT INTO plain SELECT id, minx, maxx, miny, maxy FROM p")
        for (id, *before), (_, *now) in zip(given, rows(db, "SELECT * FROM plain")):
            assert all(abs(a - b) < 1.001e-7 for a, b in zip(before, now))
            assert now[0] <= before[0] + 1e-13 and now[1] >= before[1] - 1e-13
            assert now[2] <= before[2] + 1e-13 and now[3] >= before[3] - 1e-13
        seven = rows(db, "SELECT id, minx FROM p")
        assert [m for _, m in seven if m == round(m, 7)]
        for _ in range(1500):  # comparisons are those of the numbers that are shown, to the last bit
            value = r.choice(rows(db, "SELECT minx, maxx, miny, maxy FROM plain WHERE id = ?", (r.randint(1, 399),))[0])
            value = r.choice([value, math.nextafter(value, 999), math.nextafter(value, -999), r.uniform(-200, 200),
                              round(value)])
            where = f"{r.choice(['minx', 'maxx', 'miny', 'maxy'])} {r.choice(['<', '<=', '>', '>=', '='])} ?"
            same(db, f"SELECT id FROM p WHERE {where} ORDER BY id", (value,),
                 rows(db, f"SELECT id FROM plain WHERE {where} ORDER BY id", (value,)))
            tried("decimal comparisons beside a plain table")
        x, y = 3.25, 1.5
        by = sorted((math.hypot(max(a - x, x - b, 0), max(c - y, y - d, 0)), id)
                    for id, a, b, c, d in rows(db, "SELECT * FROM plain"))
        found = rows(db, "SELECT distance, id FROM p WHERE nearest = '3.25 1.5' ORDER BY distance LIMIT 20")
        assert [id for _, id in by[:20]] == [id for _, id in found]
        assert all(abs(a[0] - b[0]) < 1e-9 for a, b in zip(by, found))
        for value in ("NULL", "'x'", "x'00'"):
            refuses(sqlite3.IntegrityError, "minx is no number", db, f"INSERT INTO p VALUES(1000, {value}, 1, 1, 1, 0)")
        refuses(sqlite3.IntegrityError, "out of range", db, "INSERT INTO p VALUES(1000, 1, 300, 1, 1, 0)")
        refuses(sqlite3.IntegrityError, "minx<=maxx", db, "INSERT INTO p VALUES(1000, 2, 1, 1, 1, 0)")
        refuses(sqlite3.IntegrityError, "id is no whole", db, "INSERT INTO p VALUES('x', 1, 1, 1, 1, 0)")
        refuses(sqlite3.IntegrityError, "tag is no whole", db, "INSERT INTO p VALUES(1000, 1, 1, 1, 1, -1)")
        refuses(sqlite3.IntegrityError, "tag is no whole", db, "INSERT INTO p VALUES(1000, 1, 1, 1, 1, 4294967296)")
        db.execute("INSERT INTO p VALUES(1000, 1, 1, 1, 1, 4294967295)")
        assert rows(db, "SELECT id FROM p WHERE tag = 4294967295") == [(1000,)]
        # identifiers from 2^63 on are SQL's negative ones
        db.execute("CREATE VIRTUAL TABLE n USING rstore(dims=2)")
        ids = [-(2**63), -5, -1, 0, 3, 2**63 - 1]
        for id in r.sample(ids, len(ids)):
            db.execute("INSERT INTO n VALUES(?, 0, 0, 0, 0, 0)", (id,))
        for value in (*ids, -3, 1, 2.5, "NULL", "'x'"):  # the rows behind an identifier, for pages
            for op in (">", ">="):
                where = f"WHERE id {op} {value}"
                wanted = sorted(id for id, in rows(db, f"SELECT id FROM n WHERE +id {op} {value}"))
                assert [id for id, in rows(db, f"SELECT id FROM n {where} AND minx <= 0 ORDER BY id")] == wanted
                assert [id for id, in rows(db, f"SELECT id FROM n {where} ORDER BY id DESC LIMIT 2")] == wanted[:-3:-1]
                tried("rows behind an identifier")
        for where in ("", "WHERE minx <= 1", "WHERE id > -3"):
            up = rows(db, f"SELECT id FROM n {where} ORDER BY id")
            assert up == sorted(up) and up == rows(db, f"SELECT rowid FROM n {where} ORDER BY rowid DESC")[::-1]
        refuses(sqlite3.OperationalError, "no identifier is above", db,
                "INSERT INTO n(minx, maxx, miny, maxy) VALUES(1, 1, 1, 1)")
        db.execute("DELETE FROM n WHERE id = 9223372036854775807")
        db.execute("INSERT INTO n(minx, maxx, miny, maxy) VALUES(1, 1, 1, 1)")
        assert rows(db, "SELECT max(id) FROM n") == [(4,)]
        db.execute("UPDATE n SET rowid = 77 WHERE id = 4")
        db.execute("INSERT INTO n(rowid, minx, maxx, miny, maxy) VALUES(90, 1, 1, 1, 1)")
        assert db.execute("SELECT last_insert_rowid()").fetchone() == (90,)
        assert rows(db, "SELECT id FROM n WHERE id >= 5") == [(77,), (90,)]


def bounds_of_values():
    with folder():
        db = connect()
        db.execute("CREATE VIRTUAL TABLE p USING rstore(scale=100)")
        db.execute("INSERT INTO p VALUES(1, 1, 2, 3, 4, 5)")
        before = rows(db, "SELECT * FROM p")
        for kind, words, values in [
            (sqlite3.IntegrityError, "p.minx is no number: x", "(2, 'x', 1, 1, 1, 0)"),
            (sqlite3.IntegrityError, "p.maxy is no number: NULL", "(2, 1, 1, 1, NULL, 0)"),
            (sqlite3.IntegrityError, "p.miny is no number: a blob", "(2, 1, 1, x'00', 1, 0)"),
            (sqlite3.IntegrityError, "p.maxx is out of range: 21474836.48", "(2, 1, 21474836.48, 1, 1, 0)"),
            (sqlite3.IntegrityError, "p.minx is out of range: -1.0e+300", "(2, -1e300, 1, 1, 1, 0)"),
            (sqlite3.IntegrityError, "p.(minx<=maxx): 3 is above 1", "(2, 3, 1, 1, 1, 0)"),
            (sqlite3.IntegrityError, "p.tag is no whole number below 2^32: -1", "(2, 1, 1, 1, 1, -1)"),
            (sqlite3.IntegrityError, "p.id is no whole number: 2.5", "(2.5, 1, 1, 1, 1, 1)"),
            (sqlite3.IntegrityError, "UNIQUE constraint failed: p.id", "(1, 1, 1, 1, 1, 1)"),
        ]:
            refuses(kind, words, db, "INSERT INTO p VALUES" + values)
            assert rows(db, "SELECT * FROM p") == before
        db.execute("INSERT INTO p VALUES(2, -21474836.48, 21474836.47, 1, 1, 0)")
        assert rows(db, "SELECT minx, maxx FROM p WHERE id = 2") == [(-21474836.48, 21474836.47)]


def beside_rtree():
    """What users of rtree write, with nothing but the CREATE changed."""
    with folder():
        db = connect()
        for using in ("rtree(id, minX, maxX, minY, maxY)", "rstore(scale=10000000, plain)"):
            db.execute(f"CREATE VIRTUAL TABLE demo_index USING {using}")
            db.execute("""INSERT INTO demo_index VALUES
                (28215, -80.781227, -80.604706, 35.208813, 35.297367),
                (28216, -80.957283, -80.840599, 35.235920, 35.367825),
                (28217, -80.960869, -80.869431, 35.133682, 35.208233),
                (28226, -80.878983, -80.778275, 35.060287, 35.154446)""")
            found = [
                [round(v, 3) for v in rows(db, "SELECT * FROM demo_index WHERE id=28226")[0]],
                rows(db, "SELECT id FROM demo_index WHERE minX>=-81.08 AND maxX<=-80.58 AND minY>=35.00 "
                         "AND maxY<=35.44 ORDER BY id"),
                rows(db, "SELECT id FROM demo_index WHERE maxX>=-81.08 AND minX<=-80.58 AND maxY>=35.00 AND minY<=35.2 "
                         "ORDER BY id"),
                rows(db, "SELECT id FROM demo_index WHERE maxY>=35.0 AND minY<=35.0"),
                rows(db, "SELECT rowid FROM demo_index WHERE rowid IN (28215, 28216)"),
            ]
            db.execute("DROP TABLE demo_index")
            if using.startswith("rtree"):
                wanted = found
        assert found == wanted, (found, wanted)
        tried("statements of rtree's manual", 5)

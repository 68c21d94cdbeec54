"""shards.py BOXES SHAPE WHO [SHARDS [FOLDER]]: seconds by the clock, and of all processors together, of layers of so
many boxes of two axes, `uniform`, `clustered` or of the `coast` of the world (examples/coast.py; boxes are taken by
chance and moved a little), a line each with tabs between: two layers are made and joined, one joined with itself within
a distance of 100, and 100,000 windows of about ten boxes and as many points asked for their ten nearest. WHO is

    one          one store, in this process
    N            a sharded layer and N worker processes of Dask on the loopback, a thread each (0: threads of this
                 process); also what memory a worker had at most, and what files and the loopback moved
    geopandas    `GeoDataFrame`, `sjoin` and `sindex`, as far as there are such calls
    postgis      PostGIS: a server of its own in the folder, tables with a GiST index

    PYTHONPATH=library/lib python3 bench/shards.py 1000000 uniform 2
"""

import os
import shutil
import subprocess
import sys
import tempfile
import time
import warnings

import numpy

warnings.filterwarnings("ignore")
QUESTIONS = 100_000
WORKERS = []  # the processes of the workers


def uniform(count, dice, side):
    return dice.integers(0, side, (count, 2))


def clustered(count, dice, side):
    """A third of them uniform, the others about 300 places of very unequal weight."""
    places, weight = numpy.random.default_rng(3).integers(0, side, (300, 2)), 1 / numpy.arange(1, 301) ** 0.7
    which = dice.choice(300, count, p=weight / weight.sum())
    near = places[which] + dice.normal(0, side / 60, (count, 2))
    return numpy.where(dice.random((count, 1)) < 1 / 3, uniform(count, dice, side), near).astype(numpy.int64)


def coast(count, dice):
    made = os.path.join(os.path.dirname(__file__), "..", "examples", "coast.py")
    kept = os.path.join(tempfile.gettempdir(), "rstore-coast.npy")
    if not os.path.exists(kept):
        text = subprocess.run([sys.executable, made, "coast"], capture_output=True, check=True, text=True).stdout
        numpy.save(kept, numpy.array([line.split(",")[1:5] for line in text.split()[1:]], numpy.int64))
    lines = numpy.load(kept)
    some = lines[dice.integers(0, len(lines), count)]
    return some + numpy.tile(dice.integers(-200, 201, (count, 2)), 2)


def rows_of(count, shape, seed):
    """Boxes that meet about one of as many others, uniform ones; identifiers are shuffled."""
    from rstore.shards import ROW

    dice, side, rows = numpy.random.default_rng(seed), int(3_162 * count**0.5), numpy.zeros(count, ROW)
    if shape == "coast":
        boxes = coast(count, dice)
    else:
        low = {"uniform": uniform, "clustered": clustered}[shape](count, dice, side)
        boxes = numpy.hstack([low, low + dice.integers(0, 3001, (count, 2))])
    rows["id"], rows["axes"] = dice.permutation(count), 2
    rows["low"][:, :2], rows["high"][:, :2] = boxes[:, :2], boxes[:, 2:]
    return rows


def questions(count, shape):
    """Windows and points where boxes are."""
    some, dice = rows_of(count, shape, 1)["low"][:QUESTIONS, :2], numpy.random.default_rng(11)
    low = some - dice.integers(0, 4000, some.shape).astype(numpy.int32)
    return numpy.hstack([low, low + 8000]).astype(numpy.int32), some + numpy.int32(5)


def boxes_of(rows):
    return numpy.hstack([rows["low"][:, :2], rows["high"][:, :2]])


def used():
    """Seconds of processor time of this process and of the workers."""
    own = os.times()
    return own.user + own.system + sum(sum(worker.cpu_times()[:2]) for worker in WORKERS)


def timed(name, act):
    start, before = time.time(), used()
    result = act()
    print(f"{name}\t{time.time() - start:.2f}\t{used() - before:.2f}\t{result}", flush=True)
    return result


def one(count, shape, folder, shards):
    import rstore

    windows, points = questions(count, shape)
    with rstore.open(os.path.join(folder, "one.rst"), create=True, cache=4096) as db:
        for name, seed in (("a", 1), ("b", 2)):
            rows = rows_of(count, shape, seed)

            def load():
                db.create_layer(name).load_rows(rows)
                db.commit()

            timed(f"make {name}", load)
        a, b = db["a"], db["b"]
        timed("join", lambda: len(a._joined(b, 0)) // 16)
        timed("join within 100", lambda: len(a._joined(a, 10_000)) // 16)
        timed("windows", lambda: len(a.windows(windows).ids))
        timed("ten nearest", lambda: a.nearest_many(points, 10).ids.size)


def parts_of(rows, folder, name, parts):
    """Delayed parts, from files."""
    import dask

    paths = []
    for k, some in enumerate(numpy.array_split(rows, parts)):
        paths.append(os.path.join(folder, f"{name}-{k}.npy"))
        numpy.save(paths[-1], some)
    return [dask.delayed(numpy.load)(path) for path in paths]


def sharded(count, shape, folder, shards):
    import dask.dataframe  # noqa: F401

    import rstore.dask

    shards = shards or max(4, count // 250_000)
    made = {}
    for name, seed in (("a", 1), ("b", 2)):
        parts = parts_of(rows_of(count, shape, seed), folder, name, max(8, shards))
        where = os.path.join(folder, name)
        made[name] = timed(f"make {name}", lambda: rstore.dask.build(parts, where, shards=shards))
    a, b = made["a"], made["b"]
    counts, windows_points = [one["count"] for one in a.manifest["shards"]], questions(count, shape)
    print(f"shards\t{len(counts)}\t\tof {min(counts)} to {max(counts)} objects", flush=True)
    timed("join", lambda: int(a.join(b).map_partitions(len).compute().sum()))
    timed("join within 100", lambda: int(a.join(a, within=100).map_partitions(len).compute().sum()))
    timed("windows", lambda: len(a.windows(windows_points[0]).ids))
    timed("ten nearest", lambda: a.nearest_many(windows_points[1], 10).ids.size)
    timed("check", a.check)


def peak():
    """The most bytes of memory that the process had, and what it read and wrote by the system."""
    with open("/proc/self/status") as text:
        most = next(int(line.split()[1]) << 10 for line in text if line.startswith("VmHWM"))
    with open("/proc/self/io") as text:
        moved = {line.split(":")[0]: int(line.split()[1]) for line in text}
    return most, moved["rchar"], moved["wchar"]


def clustered_workers(count, shape, workers, folder, shards):
    import psutil
    from dask.distributed import Client, LocalCluster

    options = dict(n_workers=workers, threads_per_worker=1, host="127.0.0.1", dashboard_address=None)
    with LocalCluster(**options) as cluster, Client(cluster) as client:
        WORKERS[:] = [psutil.Process(pid) for pid in client.run(os.getpid).values()]
        client.run(lambda: __import__("rstore.dask") and __import__("dask.dataframe"))
        moved = psutil.net_io_counters(pernic=True)["lo"].bytes_sent
        sharded(count, shape, folder, shards)
        moved, of_workers = psutil.net_io_counters(pernic=True)["lo"].bytes_sent - moved, client.run(peak).values()
        print(f"memory a worker\t{max(most for most, *_ in of_workers) >> 20}\t\tmegabytes at most")
        total = sum(read + written for _, read, written in of_workers)
        print(f"moved\t{total >> 20}\t{moved >> 20}\tmegabytes by files, and by the loopback")


def geopandas(count, shape, folder, shards):
    import geopandas
    from shapely.geometry import box

    frames = []
    for name, seed in (("a", 1), ("b", 2)):
        boxes = [box(*one) for one in boxes_of(rows_of(count, shape, seed)).tolist()]
        frames.append(geopandas.GeoDataFrame(geometry=boxes))
        timed(f"make {name}", lambda: len(frames[-1].sindex))
    timed("join", lambda: len(geopandas.sjoin(*frames)))
    asked = geopandas.GeoSeries([box(*one) for one in questions(count, shape)[0].tolist()])
    timed("windows", lambda: frames[0].sindex.query_bulk(asked).shape[1])


def postgis(count, shape, folder, shards):
    """A server of the user postgres, by a socket in the folder."""
    home = "/usr/lib/postgresql/15/bin/"
    as_user = ["runuser", "-u", "postgres", "--"] if os.geteuid() == 0 else []
    os.chmod(folder, 0o777)
    data = os.path.join(folder, "data")
    settings = f"-k {folder} -c listen_addresses= -c shared_buffers=1GB -c maintenance_work_mem=512MB -c jit=off"
    control = [*as_user, home + "pg_ctl", "-D", data]
    quiet = dict(stdout=subprocess.DEVNULL, check=True)
    subprocess.run([*as_user, home + "initdb", "-D", data, "-A", "trust", "-U", "postgres"], **quiet)
    subprocess.run([*control, "-l", folder + "/log", "-w", "-o", settings, "start"], **quiet)
    try:
        ask_postgis(count, shape, folder)
    finally:
        subprocess.run([*control, "-m", "immediate", "stop"], **quiet)


def ask_postgis(count, shape, folder):
    def sql(text):
        words = ["psql", "-h", folder, "-U", "postgres", "-qAt", "-v", "ON_ERROR_STOP=1", "-c", text]
        return subprocess.run(words, check=True, capture_output=True, text=True).stdout.strip()

    sql("CREATE EXTENSION postgis")
    windows, points = questions(count, shape)
    points = numpy.hstack([points, points])
    given = {name: boxes_of(rows_of(count, shape, seed)) for name, seed in (("a", 1), ("b", 2))}
    given.update(w=windows, p=points)
    for name, boxes in given.items():
        path = os.path.join(folder, name + ".csv")
        with open(path, "w") as text:
            text.writelines(f"{k},{x},{y},{z},{w}\n" for k, (x, y, z, w) in enumerate(boxes.tolist()))
        os.chmod(path, 0o644)

        def make():
            sql(f"CREATE UNLOGGED TABLE t{name} (id bigint, x float, y float, z float, w float)")
            sql(f"COPY t{name} FROM '{path}' CSV")
            sql(f"CREATE UNLOGGED TABLE {name} AS SELECT id, ST_MakeEnvelope(x, y, z, w) AS box FROM t{name}")
            if name in "ab":
                sql(f"CREATE INDEX ON {name} USING gist (box)")
            sql(f"ANALYZE {name}")

        timed(f"make {name}", make) if name in "ab" else make()
    timed("join", lambda: sql("SELECT count(*) FROM a, b WHERE a.box && b.box"))
    timed("join within 100", lambda: sql("SELECT count(*) FROM a, a b WHERE ST_DWithin(a.box, b.box, 100)"))
    timed("windows", lambda: sql("SELECT count(*) FROM w, a WHERE a.box && w.box"))
    near = "(SELECT id FROM a ORDER BY a.box <-> p.box LIMIT 10) n"
    timed("ten nearest", lambda: sql(f"SELECT count(*) FROM p, LATERAL {near}"))


def main():
    count, shape, who = int(sys.argv[1]), sys.argv[2], sys.argv[3]
    shards = int(sys.argv[4]) if len(sys.argv) > 4 else 0
    folder = tempfile.mkdtemp(prefix="bench-", dir=sys.argv[5] if len(sys.argv) > 5 else None)
    try:
        if who.isdigit() and who != "0":
            clustered_workers(count, shape, int(who), folder, shards)
        else:
            {"one": one, "0": sharded, "geopandas": geopandas, "postgis": postgis}[who](count, shape, folder, shards)
    finally:
        shutil.rmtree(folder, ignore_errors=True)


if __name__ == "__main__":
    main()

"""library_times.py MODULE BOXES ROUNDS FOLDER: the same from Python, of the module rstore, rstore.rtree or rtree: processor
microseconds a call, the least of the rounds. Rows come as lists of tuples from rstore, and as lists of identifiers else;
"ids" are identifiers of the windows of ten rows, also from rstore."""

import os
import sys
import time

module, text, rounds, folder = sys.argv[1], sys.argv[2], int(sys.argv[3]), sys.argv[4]
boxes, windows = [], {}
with open(text) as lines:
    for line in lines:
        word, *numbers = line.split()
        box = tuple(map(int, numbers))
        if word == "box":
            boxes.append(box)
        else:
            windows.setdefault(word, []).append(box)


def report(name, calls, act, times=rounds) -> None:
    """The least of the rounds; a round that answers gives how many rows there were."""
    best, found = 1e18, 0
    for _ in range(times):
        start = time.process_time()
        found = act() or 0
        best = min(best, (time.process_time() - start) * 1e6 / calls)
    print(f"{name}\t{best:.3f}\t{found / calls:.2f}", flush=True)


def each(ask, asked):
    """One call after the other."""
    total = 0
    for one in asked:
        total += len(ask(one))
    return total


if module == "rstore":
    import rstore

    path = os.path.join(folder, "python.rst")
    db = rstore.open(path, create=True, cache=4096)
    objects = list(enumerate(boxes))

    def load() -> None:
        """A layer anew."""
        if "boxes" in db:
            db.drop_layer("boxes")
        db.create_layer("boxes").load(objects)

    report("load", len(boxes), load)
    layer = db["boxes"]
    db.commit()
    window, near, ids = layer.window, layer.nearest, layer.window_ids
    more = db.create_layer("more")
    insert, delete = more.insert, lambda k, _: more.delete(k)
    report("get", len(boxes), lambda: each(layer.__getitem__, range(len(boxes))), 3)
    report("count", 100_000, lambda: [len(layer) for _ in range(100_000)] and None, 3)
    nearest = lambda box: near(box[:2], 10)
else:
    if module == "rtree":
        from rtree import index
    else:
        import rstore.rtree as index

        index.SCALE = 1
    stream = [(k, box, None) for k, box in enumerate(boxes)]
    made = []

    def load() -> None:
        """An index anew."""
        made[:] = [index.Index(stream)]

    report("load", len(boxes), load, min(rounds, 3))
    idx = made[0]
    window = ids = lambda box: list(idx.intersection(box))
    nearest = lambda box: list(idx.nearest(box[:2], 10))
    more = index.Index()
    insert, delete = more.insert, more.delete

for word, asked in windows.items():
    report(word, len(asked), lambda: each(window, asked))
    if word == "ten":
        report("ids", len(asked), lambda: each(ids, asked))
        report("nearest", len(asked), lambda: each(nearest, asked))


def inserts() -> None:
    """All boxes, one by one."""
    for k, box in enumerate(boxes):
        insert(k, box)


def deletes() -> None:
    """And out again."""
    for k, box in enumerate(boxes):
        delete(k, box)


report("insert", len(boxes), inserts, 1)
report("delete", len(boxes), deletes, 1)

#!/usr/bin/env python3
"""Writes the commands of a benchmark.

usage: generate.py windows [N]    N windows (a million) on an empty layer, to standard output
       generate.py rows [N]       a thousand objects, and windows that show N rows (a million), to standard output
       generate.py mixed WORD..   some thousand commands on small layers, those of WORDs among them, to standard output
       generate.py scene FOLDER BOXES [SHAPE [AXES [FANOUT]]]
           files in FOLDER, each of one operation on a layer of so many boxes (`scene` says which), and the file `counts`:
           a line for each, its name and how many commands it has. SHAPE is `uniform`, `clustered` or `coast`, AXES 2 or 3,
           and a node of the layer has at most FANOUT entries (100). Boxes of `coast` are those of examples/coast.py, so
           many of them as are asked for, in a shuffled order, and windows and points lie on them

       generate.py tags FOLDER [BOXES]
           files in FOLDER, each of one operation: so many boxes (100,000) with a hundred tags that are inserted, and windows
           of about a thousand of them, for all tags and for one
       generate.py closings FOLDER BOXES MORE
           files in FOLDER: `made`, which makes a layer of so many uniform boxes of two axes and closes it, and `more`, as many
           inserts on it

A box of a scene has sides that are uniform from 0 to a length with which a point is held by a tenth of a box.
"""
import itertools
import os
import random
import subprocess
import sys
from statistics import NormalDist

LAST = 2**31 - 1
WIDTH = 2**20  # of the space of uniform boxes
CLUSTERS, DEVIATION = 20, WIDTH // 100  # of clustered ones, whose centres are uniform


class Scene:
    """Boxes of one shape, and windows and points that lie as they do."""

    def __init__(self, boxes, shape, axes):
        self.boxes, self.clustered, self.axes = boxes, shape == "clustered", axes
        self.centres = [[random.randrange(WIDTH) for _ in range(axes)] for _ in range(CLUSTERS)]
        self.margin = self.width(0.1)

    def width(self, rows):
        """The sides of a window that holds about so many of as many points."""
        if not self.clustered:
            return WIDTH * (rows / self.boxes) ** (1 / self.axes)
        part = min(0.99, (rows * CLUSTERS / self.boxes) ** (1 / self.axes))
        return 4 * DEVIATION * NormalDist().inv_cdf((1 + part) / 2) / 2**0.5

    def point(self):
        if not self.clustered:
            return [random.randrange(WIDTH) for _ in range(self.axes)]
        return [int(random.gauss(at, DEVIATION)) for at in random.choice(self.centres)]

    def box(self):
        sides = 2 * self.margin
        lows = self.point()
        return lows + [low + int(random.random() * sides) for low in lows]

    def window(self, rows):
        sides = int(self.width(rows) - self.margin)
        lows = [at - sides // 2 for at in self.point()]
        return lows + [low + sides for low in lows]


class Coast:
    """So many lines of the coast of the world, and windows and points on them."""

    def __init__(self, boxes):
        made = os.path.join(os.path.dirname(__file__), "..", "examples", "coast.py")
        with subprocess.Popen([sys.executable, made, "coast"], stdout=subprocess.PIPE, text=True) as process:
            rows = itertools.islice(process.stdout, 1, None)
            self.all = [list(map(int, row.split(",")[1:5])) for row in rows]
        random.shuffle(self.all)
        del self.all[boxes:]
        self.next, self.sides = itertools.cycle(self.all), {}

    def width(self, rows):
        """The sides of a window on the coast that meets about so many boxes, by a hundredth of them."""
        if rows not in self.sides:
            some, asked = self.all[:: max(1, len(self.all) // 20000)], [self.point() for _ in range(25)]
            low, high = 0, 1 << 24
            while high - low > 1 + low // 50:
                side = (low + high) // 2
                half = side // 2
                met = sum(
                    low_x <= x + half and x - half <= high_x and low_y <= y + half and y - half <= high_y
                    for x, y in asked
                    for low_x, low_y, high_x, high_y in some
                )
                low, high = (low, side) if met * len(self.all) > rows * len(some) * len(asked) else (side, high)
            self.sides[rows] = high
        return self.sides[rows]

    def point(self):
        return random.choice(self.all)[:2]

    def box(self):
        return next(self.next)

    def window(self, rows):
        side = int(self.width(rows))
        lows = [at - side // 2 for at in self.point()]
        return lows + [low + side for low in lows]


def text(*words):
    return " ".join(str(each) for word in words for each in (word if isinstance(word, list) else [word]))


def shuffled(count):
    places = list(range(count))
    random.shuffle(places)
    return places


def scene(folder, boxes, shape="uniform", axes="2", fanout="100"):
    """Each operation's commands, but for how a layer is made and that changes are kept."""
    boxes, axes = int(boxes), int(axes)
    at = Coast(boxes) if shape == "coast" else Scene(boxes, shape, axes)
    changes = min(boxes // 10, 100000)
    operations = {
        "insert": (boxes, (text("insert a", place, at.box()) for place in shuffled(boxes))),
        "window of 1": (20000, (text("window a", at.window(1)) for _ in range(20000))),
        "window of 10": (20000, (text("window a", at.window(10)) for _ in range(20000))),
        "window of 1000": (1000, (text("window a", at.window(1000)) for _ in range(1000))),
        "point": (20000, (text("point a", at.point()) for _ in range(20000))),
        "ten nearest": (10000, (text("nearest a 10", at.point()) for _ in range(10000))),
        "move": (changes, (text("move a", place, at.box()) for place in shuffled(boxes)[:changes])),
        "delete": (changes, (text("delete a", place) for place in shuffled(boxes)[:changes])),
        "load": (boxes, (text(place, at.box()) for place in shuffled(boxes))),
        "join": (boxes, ["join a b"]),
        "join within": (boxes, [text("join a b", int(at.width(1) / 2) ** 2)]),
    }
    before = {"insert": f"create a {axes} {fanout}", "load": f"create b {axes} {fanout}\nload b {boxes}"}
    with open(f"{folder}/counts", "w") as counts:
        for name, (count, lines) in operations.items():
            with open(f"{folder}/{name}", "w") as file:
                if name in before:
                    print(before[name], file=file)
                file.writelines(line + "\n" for line in lines)
                if name in ("insert", "move", "delete", "load"):
                    print("reopen", file=file)
            print(f"{name}\t{count}", file=counts)


def tags(folder, boxes="100000"):
    at = Scene(int(boxes), "uniform", 2)
    windows = [at.window(1000) for _ in range(1000)]
    operations = {
        "insert": [
            "create a 2 100",
            *(text("insert a", place, at.box(), "tag", random.randrange(100)) for place in shuffled(int(boxes))),
            "reopen",
        ],
        "window": [text("window a", window) for window in windows],
        "window of a tag": [text("window a", window, "tag", random.randrange(100)) for window in windows],
    }
    for name, lines in operations.items():
        with open(f"{folder}/{name}", "w") as file:
            file.writelines(line + "\n" for line in lines)


def closings(folder, boxes, more):
    at = Scene(int(boxes), "uniform", 2)
    lines = [text("insert a", place, at.box()) for place in shuffled(int(boxes) + int(more))]
    files = {"made": ["create a 2 100", *lines[: int(boxes)], "reopen"], "more": lines[int(boxes) :]}
    for name, lines in files.items():
        with open(f"{folder}/{name}", "w") as file:
            file.writelines(line + "\n" for line in lines)


def small_box(axes):
    lows = [random.randint(-40, 40) for _ in range(axes)]
    return lows + [low + random.randrange(12) for low in lows]


def small_command(axes, there, words):
    """One command on the layer that has so many axes, and these identifiers."""
    layer, box, new = f"l{axes}", small_box(axes), random.randrange(10**9)
    word = random.choice(["insert", "insert", "window", "inside", "around", "point", "nearest", "count", *words])
    if word == "insert" and new not in there:
        there.append(new)
        return text(word, layer, new, box)
    if word == "delete" and there:
        return text(word, layer, there.pop(random.randrange(len(there))))
    if word == "move" and there:
        return text(word, layer, random.choice(there), box)
    if word in ("window", "inside", "around"):
        sides = random.randrange(20) if word != "around" else -random.randrange(4)
        return text(word, layer, box[:axes], [max(low, high + sides) for low, high in zip(box, box[axes:])])
    if word == "join":
        return text(word, layer, random.choice([layer, f"packed{axes}"]), random.choice([[], random.randrange(200)]))
    tail = {"point": box[:axes], "nearest": [random.choice([1, 3, 1000]), *box[:axes]], "count": [], "reopen": []}
    return text(word, layer, tail[word]) if word in tail else "reopen"


def mixed(words):
    """Sessions of all commands, with small numbers, so that boxes touch and distances are equal."""
    there = {2: [], 3: []}
    for axes in there:
        yield f"create l{axes} {axes} 4"
        yield f"create packed{axes} {axes} 4"
        if "load" in words:
            yield f"load packed{axes} 300"
            yield from (text(place, small_box(axes)) for place in shuffled(300))
    for _ in range(4000):
        axes = random.choice([2, 3])
        yield small_command(axes, there[axes], [word for word in words if word != "load"])


def windows(count):
    yield "create a 2 100"
    for _ in range(count):
        x, y = random.randint(-LAST, LAST - 1000), random.randint(-LAST, LAST - 1000)
        yield f"window a {x} {y} {x + 1000} {y + 1000}"


def shown(count):
    yield "create a 2 100"
    for number in range(1000):
        x, y = random.randint(-10**6, 10**6), random.randint(-10**6, 10**6)
        yield f"insert a {number} {x} {y} {x + 100} {y + 100}"
    yield from [f"window a {-LAST} {-LAST} {LAST} {LAST}"] * (count // 1000)


def main():
    what, words = sys.argv[1], sys.argv[2:]
    random.seed(1)
    if what == "scene":
        return scene(*words)
    if what == "tags":
        return tags(*words)
    if what == "closings":
        return closings(*words)
    lines = mixed(words) if what == "mixed" else {"windows": windows, "rows": shown}[what](int((words or [10**6])[0]))
    sys.stdout.writelines(line + "\n" for line in lines)


main()

"""The command language over a plain table that is scanned whole (docs/COMMANDS.md), as an oracle for the tests of the
program, and random texts of commands."""
import itertools
import re

NAMES = {1: "BadName", 2: "LayerExists", 3: "NoLayer", 4: "BadDims", 5: "BadFanout", 6: "TooManyLayers", 7: "BadBox",
         8: "WrongDims", 9: "Duplicate", 10: "NoObject", 12: "NotEmpty", 13: "DuplicateInLoad", 14: "BadCount",
         15: "DimsDiffer", 24: "BadLine"}
NAME = re.compile(r"[a-z][a-z0-9_]{0,23}")


class Refused(Exception):
    """A refusal by its number, and 13 with the identifier."""

    def __init__(self, number, *words):
        self.text = " ".join(["fail", str(number), NAMES[number], *map(str, words)])


def natural(word, below=2**64):
    if not re.fullmatch(r"[0-9]+", word) or int(word) >= below:
        raise Refused(24)
    return int(word)


def coordinates(words, counts):
    if len(words) not in counts:
        raise Refused(24)
    for word in words:
        if not re.fullmatch(r"-?[0-9]+", word) or not -2**31 <= int(word) < 2**31:
            raise Refused(24)
    return [int(word) for word in words]


def tagged(words):
    """The words without a tag at their end, and the tag, if there is one."""
    if len(words) >= 2 and words[-2] == "tag":
        return words[:-2], natural(words[-1], 2**32)
    return words, None


def sides(box):
    half = len(box) // 2
    return list(zip(box[:half], box[half:]))


TESTS = {
    "window": lambda box, given: all(l <= h2 and l2 <= h for (l, h), (l2, h2) in zip(sides(box), sides(given))),
    "inside": lambda box, given: all(l2 <= l and h <= h2 for (l, h), (l2, h2) in zip(sides(box), sides(given))),
    "around": lambda box, given: all(l <= l2 and h2 <= h for (l, h), (l2, h2) in zip(sides(box), sides(given))),
    "point": lambda box, given: all(l <= p <= h for (l, h), p in zip(sides(box), given)),
}


def distance(box, point):
    return sum(max(l - p, 0, p - h) ** 2 for (l, h), p in zip(sides(box), point))


def gap(a, b):
    return sum(max(l - h2, 0, l2 - h) ** 2 for (l, h), (l2, h2) in zip(sides(a), sides(b)))


class Layer:
    def __init__(self, dims, fanout, objects=()):
        self.dims, self.fanout, self.objects = dims, fanout, dict(objects)

    def box(self, given):
        if len(given) != 2 * self.dims:
            raise Refused(8)
        if any(low > high for low, high in sides(given)):
            raise Refused(7)
        return given

    def point(self, given):
        if len(given) != self.dims:
            raise Refused(8)
        return given

    def there(self, ident):
        if ident not in self.objects:
            raise Refused(10)
        return self.objects[ident]


def row(ident, kept):
    box, tag = kept
    return " ".join(map(str, [ident, *box])) + (f" tag {tag}" if tag else "")


class Table:
    """Layers by name, each object with its box and tag by identifier."""

    def __init__(self):
        self.layers = {}

    def copy(self):
        table = Table()
        table.layers = {name: Layer(l.dims, l.fanout, l.objects) for name, l in self.layers.items()}
        return table

    def answer(self, lines):
        """Takes one command from an iterator of lines: its reply as a text, '' for a blank line or a comment."""
        words = re.split(r"[ \t\r]+", next(lines).strip(" \t\r"))
        if words == [""] or words[0].startswith("#"):
            return ""
        try:
            rows = getattr(self, "do_" + words[0], self.bad)(words[1:], lines)
        except Refused as refused:
            return refused.text + "\n"
        if rows is None:
            return "ok\n"
        return "".join(f"{line}\n" for line in [f"ok {len(rows)}", *rows])

    def bad(self, words, lines):
        raise Refused(24)

    def layer(self, name):
        if not NAME.fullmatch(name):
            raise Refused(1)
        if name not in self.layers:
            raise Refused(3)
        return self.layers[name]

    def do_create(self, words, lines):
        if len(words) != 3:
            raise Refused(24)
        name, dims, fanout = words[0], natural(words[1]), natural(words[2])
        for refused, number in [(not NAME.fullmatch(name), 1), (dims not in (2, 3), 4), (not 4 <= fanout <= 100, 5),
                                (name in self.layers, 2), (len(self.layers) == 60, 6)]:
            if refused:
                raise Refused(number)
        self.layers[name] = Layer(dims, fanout)

    def do_drop(self, words, lines):
        if len(words) != 1:
            raise Refused(24)
        self.layer(words[0])
        del self.layers[words[0]]

    def do_insert(self, words, lines):
        words, tag = tagged(words)
        if len(words) < 2:
            raise Refused(24)
        ident, given = natural(words[1]), coordinates(words[2:], (4, 6))
        layer = self.layer(words[0])
        box = layer.box(given)
        if ident in layer.objects:
            raise Refused(9)
        layer.objects[ident] = box, tag or 0

    def do_move(self, words, lines):
        if len(words) < 2:
            raise Refused(24)
        ident, given = natural(words[1]), coordinates(words[2:], (4, 6))
        layer = self.layer(words[0])
        box = layer.box(given)
        layer.objects[ident] = box, layer.there(ident)[1]

    def do_delete(self, words, lines):
        if len(words) != 2:
            raise Refused(24)
        ident, layer = natural(words[1]), self.layer(words[0])
        layer.there(ident)
        del layer.objects[ident]

    def do_load(self, words, lines):
        if len(words) != 2:
            raise Refused(24)
        entries, bad = [], False
        for line in list(itertools.islice(lines, natural(words[1], 2**30 + 1))):
            entry, tag = tagged(re.split(r"[ \t\r]+", line.strip(" \t\r")))
            try:
                entries.append((natural(entry[0]), coordinates(entry[1:], (4, 6)), tag or 0))
            except Refused:
                bad = True
        if bad or len(entries) < natural(words[1]):
            raise Refused(24)
        layer = self.layer(words[0])
        if any(len(given) != 2 * layer.dims for _, given, _ in entries):
            raise Refused(8)
        boxes = [(ident, (layer.box(given), tag)) for ident, given, tag in entries]
        if layer.objects:
            raise Refused(12)
        if len(dict(boxes)) < len(boxes):
            idents = sorted(ident for ident, _ in boxes)
            raise Refused(13, next(a for a, b in zip(idents, idents[1:]) if a == b))
        layer.objects.update(boxes)

    def do_get(self, words, lines):
        if len(words) != 2:
            raise Refused(24)
        ident, layer = natural(words[1]), self.layer(words[0])
        return [row(ident, layer.there(ident))]

    def do_count(self, words, lines):
        if len(words) != 1:
            raise Refused(24)
        return [str(len(self.layer(words[0]).objects))]

    def do_layers(self, words, lines):
        if words:
            raise Refused(24)
        return [f"{name} {l.dims} {l.fanout} {len(l.objects)}" for name, l in sorted(self.layers.items())]

    def range(self, test, words):
        words, tag = tagged(words)
        if not words:
            raise Refused(24)
        given = coordinates(words[1:], (2, 3) if test == "point" else (4, 6))
        layer = self.layer(words[0])
        given = layer.point(given) if test == "point" else layer.box(given)
        return [row(ident, kept) for ident, kept in sorted(layer.objects.items())
                if TESTS[test](kept[0], given) and tag in (None, kept[1])]

    def do_window(self, words, lines):
        return self.range("window", words)

    def do_inside(self, words, lines):
        return self.range("inside", words)

    def do_around(self, words, lines):
        return self.range("around", words)

    def do_point(self, words, lines):
        return self.range("point", words)

    def do_nearest(self, words, lines):
        if len(words) < 2:
            raise Refused(24)
        k, given, layer = natural(words[1]), coordinates(words[2:], (2, 3)), self.layer(words[0])
        point = layer.point(given)
        if not 1 <= k <= 1000000:
            raise Refused(14)
        found = sorted((distance(box, point), ident) for ident, (box, _) in layer.objects.items())
        return [f"{ident} {far}" for far, ident in found[:k]]

    def do_join(self, words, lines):
        if len(words) not in (2, 3):
            raise Refused(24)
        within = natural(words[2]) if len(words) == 3 else 0
        if not all(NAME.fullmatch(name) for name in words[:2]):
            raise Refused(1)
        a, b = self.layer(words[0]), self.layer(words[1])
        if a.dims != b.dims:
            raise Refused(15)
        return [f"{i} {j}" for i, (box, _) in sorted(a.objects.items()) for j, (other, _) in sorted(b.objects.items())
                if gap(box, other) <= within]

    def do_dump(self, words, lines):
        if words:
            raise Refused(24)
        rows = []
        for name, layer in sorted(self.layers.items()):
            rows.append(f"create {name} {layer.dims} {layer.fanout}")
            rows += [f"insert {name} " + row(ident, kept) for ident, kept in sorted(layer.objects.items())]
        return rows

    def do_check(self, words, lines):
        if words:
            raise Refused(24)

    do_reopen = do_check


class RandomText:
    """Random lines of commands, of which most change something: few names, identifiers and coordinates, so that boxes
    meet, and some lines that are bad or refused."""

    LAYERS = [("a", 2), ("b", 2), ("c", 3), ("tag", 2), ("d", 3)]

    def __init__(self, random):
        self.random = random
        # how far apart boxes lie, and how many identifiers there are
        self.spread = random.choice([8, 100, 10**6, 2**31 - 1])
        self.idents = random.choice([30, 300])

    def layer(self):
        if self.random.random() < 0.01:
            return self.random.choice(["", "B", "nosuch", "a" * 25]), 2
        return self.random.choice(self.LAYERS)

    def ident(self):
        ident = self.random.randrange(self.idents)
        return self.random.choice([ident] * 30 + [2**64 - 1 - ident, 1000 * ident])

    def at(self):
        return self.random.randint(-self.spread, self.spread)

    def box(self, dims):
        lows = [self.at() for _ in range(dims)]
        most = self.random.choice([0, 1, self.spread // 16 + 1])
        highs = [min(low + self.random.randint(0, most), 2**31 - 1) for low in lows]
        if self.random.random() < 0.01:
            lows, highs = highs, lows
        return " ".join(map(str, lows + highs))

    def point(self, dims):
        return " ".join(str(self.at()) for _ in range(dims))

    def tag(self):
        return self.random.choice(["", "", " tag 7", f" tag {self.random.randrange(3)}", " tag 4294967295"])

    def line(self):
        """A command, and the entry lines of a load."""
        name, dims = self.layer()
        if self.random.random() < 0.01:
            dims = 5 - dims
        kinds = [(30, lambda: f"insert {name} {self.ident()} {self.box(dims)}{self.tag()}"),
                 (10, lambda: f"delete {name} {self.ident()}"),
                 (12, lambda: f"move {name} {self.ident()} {self.box(dims)}"),
                 (4, lambda: self.load(name, dims)),
                 (3, lambda: f"create {name} {dims} {self.random.choice([3, 4, 5, 8, 16, 100])}"),
                 (0.15, lambda: f"drop {name}"),
                 (3, lambda: f"get {name} {self.ident()}"),
                 (8, lambda: f"{self.random.choice(['window', 'inside', 'around'])} {name} {self.box(dims)}{self.tag()}"),
                 (2, lambda: f"point {name} {self.point(dims)}{self.tag()}"),
                 (3, lambda: f"nearest {name} {self.random.choice([0, 1, 3, 40, 10**6, 10**7])} {self.point(dims)}"),
                 (1, lambda: f"join {name} {self.layer()[0]} {self.random.choice(['', 0, 2, 10**9, 2**64])}"),
                 (1, lambda: self.random.choice(["layers", f"count {name}", "dump", "check", "# said", " \t"])),
                 (1, lambda: self.random.choice(["insert a 1 +5 0 6 6", "get a 5 tag 5", "window", "load a x", "LAYERS"]))]
        weights, makers = zip(*kinds)
        return self.random.choices(makers, weights)[0]()

    def load(self, name, dims):
        count = self.random.choice([0, 1, 5, 60, 400])
        entries = [f"{self.random.randrange(10 * count)} {self.box(dims)}{self.tag()}" for _ in range(count)]
        if self.random.random() < 0.8:
            entries = [f"{ident} {self.box(dims)}{self.tag()}" for ident in range(count)]
        return "\n".join([f"load {name} {count}", *entries])

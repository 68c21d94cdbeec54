"""test_whole.py: what is told of a layer as a whole: its bounds beside those of a list, for boxes in many forms, its
facts, its nodes and its picture, as the program tells them. RSTORE_LIBRARY names librstore.so."""

from __future__ import annotations

import json
import math
import os
import random
import subprocess
import sys
import tempfile
import xml.etree.ElementTree as xml
from pathlib import Path

sys.path.insert(0, str(Path(__file__).resolve().parent.parent))

import rstore

LOWEST, HIGHEST = -(1 << 31), (1 << 31) - 1


def shapes(dice: random.Random, dims: int, form: str, count: int) -> "list[tuple[int, ...]]":
    """Boxes in a form: spread, in a small part far off, on a sphere, as wide as can be, or points on a line."""
    made = []
    for k in range(count):
        wide = dice.randrange(50)
        if form == "far":
            low = [1_900_000_000 + dice.randrange(1000) for _ in range(dims)]
        elif form == "sphere":
            turn = [dice.gauss(0, 1) for _ in range(dims)]
            low = [int(2e9 * x / math.hypot(*turn)) for x in turn]
        elif form == "whole":
            low = [dice.choice([LOWEST, HIGHEST - wide, dice.randrange(-1000, 1000)]) for _ in range(dims)]
        elif form == "line":
            low, wide = [k] * dims, 0
        else:
            low = [dice.randrange(LOWEST, HIGHEST - wide) for _ in range(dims)]
        made.append((*low, *[x + wide for x in low]))
    return made


def least(boxes: "list[tuple]", dims: int) -> tuple:
    ends = [(min if a < dims else max)(box[a] for box in boxes) for a in range(2 * dims)]
    return tuple(ends)


def bounds(db: rstore.Store) -> int:
    """Of layers that are loaded, change, and are empty."""
    dice, tried = random.Random(3), 0
    for dims in (2, 3):
        for form in ("spread", "far", "sphere", "whole", "line"):
            for count in (1, 2, 30, 3000):
                layer = db.create_layer("bounded", dims)
                assert layer.bounds is None
                boxes = dict(enumerate(shapes(dice, dims, form, count)))
                layer.load(boxes.items())
                for _ in range(12):
                    assert layer.bounds == least(list(boxes.values()), dims), (dims, form, count)
                    tried += 1
                    # one at a border goes
                    axis = dice.randrange(2 * dims)
                    end = (min if axis < dims else max)(boxes, key=lambda id: boxes[id][axis])
                    del layer[end], boxes[end]
                    if not boxes:
                        assert layer.bounds is None
                        break
                db.drop_layer("bounded")
    scaled = db.create_layer("decimal", scale=100)
    scaled[1] = (-1.5, 2.25, 3, 4)
    assert scaled.bounds == (-1.5, 2.25, 3, 4)
    return tried


def facts(path: str) -> None:
    with rstore.open(path, create=True) as db:
        one = db.create_layer("one", dims=3, fanout=8)
        two = db.create_layer("two")
        one.load((k, (k, k, k, k, k, k)) for k in range(500))
        assert one.info == rstore.LayerInfo("one", 3, 8, 500) and two.info.count == 0
        db.commit()
        told = db.stats()
        assert told.path == path and told.size == os.stat(path).st_size > 4096 and told.objects == 500
        assert [(it.name, it.dims, it.fanout, it.objects) for it in told.layers] == db.layers() == [one.info, two.info]
        db.drop_layer("two")
        refused(rstore.NoLayer, lambda: two.info)
        refused(rstore.NoLayer, lambda: two.bounds)
    refused(rstore.Closed, lambda: one.info)
    refused(rstore.Closed, lambda: one.bounds)
    with rstore.open(None) as memory:
        assert memory.stats() == rstore.StoreInfo(":memory:", None, [], 0)


def refused(kind, act) -> None:
    try:
        act()
    except kind as error:
        assert str(error), error
        return
    raise AssertionError(f"{kind.__name__} was expected")


def node_boxes(nodes: "list[rstore.Node]", entries: "list[tuple]", dims: int) -> None:
    """Each node's box is the least round its entries, and the leaves have as many as there are objects."""
    assert nodes[0].level == max(node.level for node in nodes) and len({node.page for node in nodes}) == len(nodes)
    assert sum(node.count for node in nodes if node.level == 0) == len(entries)
    for level in range(1, nodes[0].level + 1):
        below = [node for node in nodes if node.level == level - 1]
        assert sum(node.count for node in nodes if node.level == level) == len(below)
    for k, node in enumerate(nodes):
        children = []
        for other in nodes[k + 1 :]:
            if other.level >= node.level:
                break
            children += [other.box] if other.level == node.level - 1 else []
        assert len(children) == (node.count if node.level else 0)
        assert not children or node.box == least(children, dims), node
    assert nodes[0].box == (least(entries, dims) if entries else None)


def as_the_program(path: str, program: str) -> None:
    """What the program tells and draws of the same file."""
    run = subprocess.run([program, "--stats", "--json", path], capture_output=True, text=True, check=True)
    with rstore.open(path, read_only=True) as db:
        told = db.stats()
        for one, layer in zip(json.loads(run.stdout)["layers"], told.layers, strict=True):
            assert list(one.values())[:-1] == list(layer)[:-1], (one, layer)
            assert [list(level.values()) for level in one["levels"]] == [list(level) for level in layer.levels]
        for layer in told.layers:
            db[layer.name].draw(path + ".svg")
            run = subprocess.run([program, "--draw", layer.name, path], capture_output=True, text=True, check=True)
            assert Path(path + ".svg").read_text() == run.stdout, layer.name


def trees(folder: str, program: "str | None") -> None:
    """The nodes of layers in many forms, what is told of them, and their pictures."""
    dice, path = random.Random(4), os.path.join(folder, "trees")
    with rstore.open(path, create=True) as db:
        for dims in (2, 3):
            for form in ("spread", "far", "sphere", "whole", "line"):
                for count in (0, 1, 40, 1500):
                    layer = db.create_layer(f"{form}_{dims}_{count}", dims, fanout=8)
                    boxes = shapes(dice, dims, form, count)
                    for id, box in enumerate(boxes):
                        layer[id] = box
                    node_boxes(layer.nodes(), boxes, dims)
                    assert xml.fromstring(layer._repr_svg_()) is not None
        layer = db.create_layer("many")
        layer.load(enumerate(shapes(dice, 2, "spread", 20_001)))
        assert layer._repr_svg_() is None
    if program:
        as_the_program(path, program)
    refused(rstore.Closed, layer.nodes)
    refused(rstore.Closed, layer.stats)
    refused(rstore.Closed, lambda: layer.draw(path))
    assert layer._repr_svg_() is None


def main() -> None:
    with tempfile.TemporaryDirectory() as folder:
        with rstore.open(os.path.join(folder, "bounds"), create=True) as db:
            tried = bounds(db)
        facts(os.path.join(folder, "facts"))
        program = Path(__file__).resolve().parents[2] / "crates" / "rstore" / "out" / "rstore"
        trees(folder, str(program) if program.exists() else None)
    beside = "told and drawn as by the program" if program.exists() else "no program here to hold pictures against"
    print(f"a layer as a whole: {tried} bounds as of a list, facts, nodes, {beside}")


main()

#!/usr/bin/env python3
"""Reads a file of a store, of versions 1 to 3, with its journal beside it where there is one. It was written from
docs/FORMAT.md alone, and shares nothing with the program and its other tests. It recovers in memory, writes no file,
and checks all that the page says of the image of a table: the free pages, each tree, each identifier table, and that
each page is in one place. What it prints has the text form of the program's replies (docs/COMMANDS.md).

format_reader.py FILE [--layers | --dump | --nodes LAYER]

It prints the reply of `layers` or of `dump` (which is done where no word is given), or the nodes of the layer's tree,
from the root down: page, level, number of entries, and the least box round them. A file that is refused is told on
standard error, with status 1.
"""
import argparse
import fcntl
import os
import re
import struct
import sys

SIZE = 4096
SHUT = b"RSTARGAT\1".ljust(SIZE, b"\0")
TITLES = b"RSTARLOG", b"RSTARTTL"
NO_JOURNAL = "FILE-journal is missing, or is no journal"
OTHER_JOURNAL = "FILE-journal is the journal of another file"
NAME = re.compile("[a-z][a-z0-9_]*")

CATALOG, OLD_NODE, DIRECTORY, OLD_BUCKET, FREE, NODE, BUCKET, FORK, LEAF = range(1, 10)  # byte 0 of a page


class Refused(Exception):
    """Why a file is refused."""


class Damaged(Refused):
    """A page that is not what it has to be."""

    def __init__(self, page, why):
        super().__init__(f"fail 18 Damaged {page}: {why}")


def number(block, offset, size):
    return int.from_bytes(block[offset : offset + size], "big")


# ---- the blocks of both files


def blocks_of(data):
    """The blocks of a file, of which the last may be cut short."""
    return [data[at : at + SIZE].ljust(SIZE, b"\0") for at in range(0, len(data), SIZE)]


def says(block, text, value):
    """Whether the gate of FILE, or the flag of a region, has that value."""
    return block[:8] == text and block[8] == value


def recovered(base, journal):
    """The blocks of FILE as they are read beside its journal, None where there is none."""
    marked = bool(base) and says(base[0], b"RSTARGAT", 2)
    header = (base[1] if len(base) > 1 else bytes(SIZE))[8:]
    if journal is None or len(journal) < 2 or journal[0][:8] not in TITLES:
        if marked or (journal is not None and len(journal) > 2):
            raise Refused(NO_JOURNAL)
        return base
    shut = [SHUT, *base[1:]]
    if journal[1] == b"RSTAREND" + header:
        return shut if len(base) > 1 else base
    has_slots = len(journal) > 4
    has_commit = has_slots and says(journal[2], b"RSTARJNL", 1)
    if marked:
        return brought_back(shut, journal[2:]) if has_commit else shut
    if not has_slots:
        return base
    if len(base) < 2 or journal[0][8:] != header:
        raise Refused(OTHER_JOURNAL)
    return brought_back(base, journal[2:]) if has_commit else base


def brought_back(base, log):
    """The base with the bytes of each slot of the log in their block, region by region."""
    if len(base) < 2:
        raise Refused(NO_JOURNAL)
    blocks, at = list(base), 0
    while at < len(log) and says(log[at], b"RSTARJNL", 1):
        at += bring_back(blocks, log[at:])
    _, following, _, _ = open_header(blocks)
    open_catalog(blocks[2], following)
    if blocks[0] != SHUT:
        raise Refused(NO_JOURNAL)
    return blocks


def bring_back(blocks, region):
    """Puts the bytes of each slot of a region into their block. How many blocks the region has is answered."""
    slots = number(region[1], 8, 4) if len(region) > 1 else 0
    size = 2 + slots + -(-slots // 1024)
    if len(region) < size:
        raise Refused(NO_JOURNAL)
    for slot in range(slots):
        block = number(region[2 + slots + slot // 1024], 4 * (slot % 1024), 4)
        if block >= len(blocks):
            raise Refused(NO_JOURNAL)
        blocks[block] = region[2 + slot]
    return size


# ---- opening


def open_header(blocks):
    """The version, next, first and count of a file, checked in the order of the page."""
    if len(blocks) < 3 or blocks[0][:8] != b"RSTARGAT":
        raise Refused("fail 21 NotAStore")
    if blocks[0][8] != 1:
        raise Refused("fail 20 NotClosed")
    if blocks[1][:8] != b"RSTARHDR":
        raise Refused("fail 21 NotAStore")
    version, following, first, count = struct.unpack_from(">H2xIII", blocks[1], 8)
    if version not in (1, 2, 3):
        raise Refused("fail 22 WrongVersion")
    if not 3 <= following <= len(blocks) or (first != 0 and not 3 <= first < following):
        raise Damaged(1, "next or first is out of range")
    if (first == 0) != (count == 0) or count > following - 3:
        raise Damaged(1, "the count of free pages is wrong")
    return version, following, first, count


class Layer:
    """A record of the catalog."""

    def __init__(self, record):
        self.name = record[1 : 1 + record[0]].decode("latin-1")
        self.axes, self.fanout, self.level = record[25:28]
        self.root, self.table, self.count = struct.unpack_from(">IIQ", record, 28)


def open_catalog(page, following):
    """The layers of a good catalog."""
    if page[0] != CATALOG or page[1] > 60:
        raise Damaged(2, "it is no catalog")
    records = [page[at : at + 64] for at in range(256, 256 + 64 * page[1], 64)]
    if not all(1 <= record[0] <= 24 for record in records):
        raise Damaged(2, "it is no catalog")
    layers = [Layer(record) for record in records]
    for layer in layers:
        if not NAME.fullmatch(layer.name):
            raise Damaged(2, "a name has another byte than a name may have")
        if layer.axes not in (2, 3) or not 4 <= layer.fanout <= 100 or layer.level > 40:
            raise Damaged(2, "axes, fanout or level are out of range")
        if not (3 <= layer.root < following and 3 <= layer.table < following):
            raise Damaged(2, "a root or a table is out of range")
    if any(one.name >= other.name for one, other in zip(layers, layers[1:])):
        raise Damaged(2, "names do not ascend")
    if sum(layer.count for layer in layers) > 2**30:
        raise Damaged(2, "there are too many objects")
    return layers


# ---- one page each


def boxes_ordered(boxes, axes):
    return all(low <= high for box in boxes for low, high in zip(box[:axes], box[axes:]))


def node_of(page, at, axes, level):
    """The entries of a node: of each its reference, its box and its tag."""
    kind, dimension, count, found = struct.unpack_from(">BBHB", page)
    if kind not in (NODE, OLD_NODE) or dimension != axes or count > 100 or (found > 0 and count == 0):
        raise Damaged(at, "it is no node")
    if found != level:
        raise Damaged(at, "it is a node of another level")
    # lows and highs take turns
    columns = [struct.unpack_from(f">{count}i", page, 16 + 400 * k) for k in range(2 * axes)]
    boxes = list(zip(*columns[0::2], *columns[1::2]))
    references = struct.unpack_from(f">{count}Q", page, 16 + 800 * axes)
    tags = (0,) * count
    if kind == NODE and level == 0:
        tags = struct.unpack_from(f">{count}I", page, 816 + 800 * axes)
    if not boxes_ordered(boxes, axes):
        raise Damaged(at, "a low is above its high")
    if level > 0 and not all(3 <= reference < 2**31 for reference in references):
        raise Damaged(at, "a child is out of range")
    return list(zip(references, boxes, tags))


def objects_of(page, at, axes, most, tagged):
    """The objects of a bucket or a leaf: of each its identifier, its box and its tag."""
    dimension, count = struct.unpack_from(">xBH", page)
    if dimension != axes or count > most:
        raise Damaged(at, "it has other axes, or too many objects")
    entry = struct.Struct(f">Q{2 * axes}i" + "I" * tagged)
    found = [entry.unpack_from(page, 16 + entry.size * place) for place in range(count)]
    objects = [(row[0], row[1 : 1 + 2 * axes], row[-1] if tagged else 0) for row in found]
    if not boxes_ordered([box for _, box, _ in objects], axes):
        raise Damaged(at, "a low is above its high")
    return objects


def bucket_of(page, at, axes):
    """The next page of a bucket, and its objects."""
    if page[0] not in (BUCKET, OLD_BUCKET):
        raise Damaged(at, "it is no bucket")
    objects = objects_of(page, at, axes, 100, page[0] == BUCKET)
    if not objects:
        raise Damaged(at, "it is an empty bucket")
    return number(page, 4, 4), objects


def fork_of(page, at, axes, level):
    """The children of a fork: of each its key and its page."""
    kind, dimension, count, found = struct.unpack_from(">BBHB", page)
    if kind != FORK or dimension != axes or count > 340 or found != level:
        raise Damaged(at, f"it is no fork of level {level}")
    return list(struct.iter_unpack(">QI", page[16 : 16 + 12 * count]))


def least_box(boxes, axes):
    columns = list(zip(*boxes))
    return (*map(min, columns[:axes]), *map(max, columns[axes:]))


# ---- the whole file


class Store:
    """The layers of a file that is an image of a table; else Damaged."""

    def __init__(self, blocks):
        self.blocks = blocks
        self.version, self.following, first, count = open_header(blocks)
        self.layers = open_catalog(blocks[2], self.following)
        self.placed = {2}  # pages of which the place is known
        self.read_free_pages(first, count)
        self.nodes = {}  # of each layer its nodes: page, level, number of entries and box
        self.objects = {}  # and its objects, by identifier
        for layer in self.layers:
            objects = self.read_tree(layer)
            if objects != self.read_table(layer):
                raise Damaged(layer.table, "tree and table have other objects")
            if len(objects) != layer.count:
                raise Damaged(2, "it counts other objects")
            self.objects[layer.name] = objects
        for page in range(2, self.following):
            if page not in self.placed:
                raise Damaged(page, "it has no place")

    def page(self, at):
        """A page that is in no other place yet."""
        if not 3 <= at < self.following:
            raise Damaged(at, "it was not given out")
        if at in self.placed:
            raise Damaged(at, "it is in two places")
        self.placed.add(at)
        return self.blocks[at]

    def read_free_pages(self, first, count):
        at = first
        for left in range(count, 0, -1):
            page = self.page(at)
            link = number(page, 4, 4)
            if page[0] != FREE or not (link == 0 if left == 1 else 3 <= link < self.following):
                raise Damaged(at, "it is no free page of the chain")
            at = link

    def read_tree(self, layer):
        """The objects of a layer's tree, which has the shape."""
        self.nodes[layer.name] = nodes = []
        objects, least = {}, max(2, 2 * layer.fanout // 5)
        waiting = [(layer.root, layer.level, None)]  # page, level and the box that the node above has
        while waiting:
            at, level, box = waiting.pop()
            entries = node_of(self.page(at), at, layer.axes, level)
            if len(entries) > layer.fanout:
                raise Damaged(at, "it has too many entries")
            if len(entries) < (least if box is not None else 2 if level > 0 else 0):
                raise Damaged(at, "it has too few entries")
            found = least_box([entry for _, entry, _ in entries], layer.axes) if entries else None
            if box is not None and box != found:
                raise Damaged(at, "its box is not the least")
            nodes.append((at, level, len(entries), found))
            if level > 0:
                waiting.extend((reference, level - 1, entry) for reference, entry, _ in reversed(entries))
            for identifier, entry, tag in entries if level == 0 else []:
                if identifier in objects:
                    raise Damaged(at, "an identifier is there twice")
                objects[identifier] = entry, tag
        return objects

    def read_table(self, layer):
        """The objects of a layer's identifier table."""
        page = self.page(layer.table)
        if page[0] == FORK and self.version == 3:
            return self.read_id_tree(page, layer)
        if page[0] != DIRECTORY or page[1] != layer.axes:
            raise Damaged(layer.table, "no table begins so in a file of this version")
        objects = {}
        for remainder, at in enumerate(struct.unpack_from(">1000I", page, 16)):
            is_first = True
            while at != 0:
                following, found = bucket_of(self.page(at), at, layer.axes)
                if not is_first and len(found) < 100:
                    raise Damaged(at, "it is not full")
                if any(identifier % 1000 != remainder for identifier, _, _ in found):
                    raise Damaged(at, "an identifier is in another chain")
                self.add(objects, found, at)
                at, is_first = following, False
        return objects

    def add(self, objects, found, at):
        for identifier, box, tag in found:
            if identifier in objects:
                raise Damaged(at, "an identifier is there twice")
            objects[identifier] = box, tag

    def read_id_tree(self, root, layer):
        level = root[4]
        if not 1 <= level <= 6:
            raise Damaged(layer.table, "its level is out of range")
        children = fork_of(root, layer.table, layer.axes, level)
        if level > 1 and len(children) < 2:
            raise Damaged(layer.table, "it has too few children")
        objects = {}
        self.read_children(layer, layer.table, level, children, True, objects)
        return objects

    def read_children(self, layer, at, level, children, at_edge, objects):
        """Reads what is below a fork of this level into a map: the least and the greatest identifier."""
        least = greatest = None
        for place, (key, child) in enumerate(children):
            is_edge = at_edge and place == len(children) - 1
            low, high = self.read_child(layer, child, level - 1, is_edge, objects)
            if place > 0 and not greatest < key <= low:
                raise Damaged(at, "a key does not part its children")
            least, greatest = low if place == 0 else least, high
        return least, greatest

    def read_child(self, layer, at, level, is_edge, objects):
        page = self.page(at)
        if level > 0:
            found, fewest = fork_of(page, at, layer.axes, level), 85
        elif page[0] == LEAF:
            most, fewest = {2: (145, 37), 3: (113, 29)}[layer.axes]
            found = objects_of(page, at, layer.axes, most, True)
        else:
            raise Damaged(at, "it is no leaf")
        if len(found) < (1 if is_edge else fewest):
            raise Damaged(at, "it has too little")
        if level > 0:
            return self.read_children(layer, at, level, found, is_edge, objects)
        self.add(objects, found, at)
        identifiers = [identifier for identifier, _, _ in found]
        return min(identifiers), max(identifiers)


# ---- what is printed


def layer_rows(store):
    return [f"{layer.name} {layer.axes} {layer.fanout} {layer.count}" for layer in store.layers]


def dump_rows(store):
    rows = []
    for layer in store.layers:
        rows.append(f"create {layer.name} {layer.axes} {layer.fanout}")
        for identifier, (box, tag) in sorted(store.objects[layer.name].items()):
            words = ["insert", layer.name, identifier, *box, *(("tag", tag) if tag else ())]
            rows.append(" ".join(map(str, words)))
    return rows


def node_rows(store, name):
    if name not in store.nodes:
        raise Refused("fail 3 NoLayer")
    return [" ".join(map(str, [*head, *(box or ())])) for *head, box in store.nodes[name]]


def read_store(path):
    """The store of a file, whose journal lies beside the file that links lead to."""
    path, journal = os.path.realpath(path), None
    with open(path, "rb") as file:
        fcntl.flock(file, fcntl.LOCK_SH | fcntl.LOCK_NB)
        if os.path.exists(path + "-journal"):
            with open(path + "-journal", "rb") as beside:
                journal = blocks_of(beside.read())
        return Store(recovered(blocks_of(file.read()), journal))


def main():
    words = argparse.ArgumentParser(description="Reads a file of a store as docs/FORMAT.md says.")
    words.add_argument("file")
    asked = words.add_mutually_exclusive_group()
    asked.add_argument("--layers", action="store_true", help="print the reply of `layers`")
    asked.add_argument("--dump", action="store_true", help="print the reply of `dump`, as where no word is given")
    asked.add_argument("--nodes", metavar="LAYER", help="print the nodes of a layer's tree")
    given = words.parse_args()
    try:
        store = read_store(given.file)
        if given.nodes is not None:
            rows = node_rows(store, given.nodes)
        else:
            rows = layer_rows(store) if given.layers else dump_rows(store)
    except (Refused, OSError) as why:
        sys.exit(f"format_reader.py: {why}")
    sys.stdout.write("".join(f"{row}\n" for row in [f"ok {len(rows)}", *rows]))


if __name__ == "__main__":
    main()

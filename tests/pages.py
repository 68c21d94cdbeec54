#!/usr/bin/env python3
"""Runs the program over files of which pages are read and written by hand, as docs/FORMAT.md says: the examples of
the format, full pages, nodes above leaves and a full catalog have its bytes; bytes that are not named are not looked at, in
any kind of page; and each thing by itself that makes a page no node, no bucket or no catalog is answered as damage.
It tests the programs that `rt ci` made, by both compilers; where there is none, one is made.

pages.py [WORDS OF unittest, as the name of a class or Class.test]
"""
from blocks import BUCKET, FORK, NODE, OLD_BUCKET, OLD_NODE, PLANE, SIZE, SPACE
from blocks import RunsOver, block_of, blocks_of, number_at, pages_of, text_of, with_numbers
from runs import main

DIRECTORY, FREE, LEAF = 3, 5, 9  # kinds of pages
EVERY = {2: PLANE, 3: SPACE}
RECORD = 256  # of the first layer, in the catalog; each has 64 bytes


def numbers_of(data, page, at, width, count):
    return [number_at(data, page, at + width * k, width) for k in range(count)]


def signed(number):
    return number - 2**32 if number >= 2**31 else number


def entries_of(data, page, axes):
    """The entries of a node: of each the reference, the lows and highs, and the tag."""
    count = number_at(data, page, 2, 2)
    lows = [numbers_of(data, page, 16 + 800 * axis, 4, count) for axis in range(axes)]
    highs = [numbers_of(data, page, 416 + 800 * axis, 4, count) for axis in range(axes)]
    references = numbers_of(data, page, 16 + 800 * axes, 8, count)
    tags = numbers_of(data, page, 816 + 800 * axes, 4, count)
    return [(r, [*map(signed, box)], tag) for r, *box, tag in zip(references, *lows, *highs, tags)]


def objects_of(data, page, axes):
    """The objects of a bucket or a leaf of identifiers."""
    width, found = 12 + 8 * axes, []
    for place in range(number_at(data, page, 2, 2)):
        begin = 16 + width * place
        box = numbers_of(data, page, begin + 8, 4, 2 * axes)
        found.append((number_at(data, page, begin, 8), [*map(signed, box)], number_at(data, page, begin + width - 4, 4)))
    return found


def named(data, page):
    """The places of a page that have a name, as ranges."""
    kind, axes, count = (number_at(data, page, k, width) for k, width in ((0, 1), (1, 1), (2, 2)))
    if page == 0:
        return [range(9)]
    if page == 1:
        return [range(10), range(12, 24)]
    if page == 2:
        found = [range(2)]
        for record in range(RECORD, RECORD + 64 * number_at(data, 2, 1, 1), 64):
            found += [range(record, record + 1 + number_at(data, 2, record, 1)), range(record + 25, record + 44)]
        return found
    if kind in (NODE, OLD_NODE):
        found = [range(5), range(16 + 800 * axes, 16 + 800 * axes + 8 * count)]
        for axis in range(axes):
            found += [range(begin, begin + 4 * count) for begin in (16 + 800 * axis, 416 + 800 * axis)]
        leaf = kind == NODE and number_at(data, page, 4, 1) == 0
        return found + [range(816 + 800 * axes, 816 + 800 * axes + 4 * count)] if leaf else found
    width = {BUCKET: 12 + 8 * axes, OLD_BUCKET: 8 + 8 * axes, LEAF: 12 + 8 * axes, FORK: 12}
    if kind in width:
        head = {BUCKET: 8, OLD_BUCKET: 8, LEAF: 4, FORK: 5}[kind]
        return [range(head), range(16, 16 + width[kind] * count)]
    return [range(2), range(16, 4016)] if kind == DIRECTORY else [range(1), range(4, 8)]  # or a free page


class Pages(RunsOver):
    """The bytes of pages."""

    # A new file of these commands: its bytes.
    def made(self, words, commands):
        self.write("store", b"")
        self.answers(f"--create {words} store", text_of(commands), "ok\n" * len(commands))
        return self.store()

    # Questions are answered so of a file, which they leave as it was.
    def tells(self, data, questions, replies):
        self.write("store", data)
        self.answers("--cache 8 store", text_of(questions), replies)
        self.assertTrue(self.store() == data, "the file was changed")

    # All bytes of a page that have no name are zeros.
    def is_tidy(self, data, page):
        places = {place for places in named(data, page) for place in places}
        self.assertFalse(any(byte for place, byte in enumerate(block_of(data, page)) if place not in places), page)


class Bytes(Pages):
    """Pages that the program writes."""

    def test_each_page_has_zeros_where_no_byte_has_a_name(self):
        for words in ("", "--format 2"):
            objects = [f"{k} {37 * k % 97} {k} {37 * k % 97 + 9} {k + 7} tag {k}" for k in range(400)]
            commands = ["create a 2 4", "\n".join(["load a 400", *objects]), "create b 3 5", "insert b 1 2 3 4 5 6 7"]
            commands += [f"delete a {k}" for k in range(0, 300, 2)] + [f"move a {k} 0 0 1 1" for k in range(1, 40, 2)]
            data = self.made(words, commands)
            kinds = {kind for _, kind in pages_of(data)}
            self.assertEqual(kinds, {NODE, FREE, BUCKET, DIRECTORY} if words else {NODE, FREE, FORK, LEAF})
            for page in range(blocks_of(data)):
                self.is_tidy(data, page)

    def test_the_examples_of_the_format(self):
        data = self.made("--format 2", ["create a 2 4", "insert a 1 -1 2 3 4 tag 7"])
        example = with_numbers(
            b"",
            # the gate and the header
            (0, 0, 8, 0x5253544152474154),
            (0, 8, 1, 1),
            (1, 0, 8, 0x5253544152484452),
            (1, 8, 2, 2),
            (1, 12, 4, 6),
            # the catalog, the leaf, the directory and the bucket
            (2, 0, 2, 0x0101),
            (2, 256, 2, 0x0161),
            (2, 281, 3, 0x020400),
            (2, 284, 8, 0x00000003_00000004),
            (2, 292, 8, 1),
            (3, 0, 4, 0x06020001),
            (3, 16, 4, 0xFFFFFFFF),
            (3, 416, 4, 3),
            (3, 816, 4, 2),
            (3, 1216, 4, 4),
            (3, 1616, 8, 1),
            (3, 2416, 4, 7),
            (4, 0, 2, 0x0302),
            (4, 20, 4, 5),
            (5, 0, 4, 0x07020001),
            (5, 16, 8, 1),
            (5, 24, 8, 0xFFFFFFFF_00000002),
            (5, 32, 8, 0x00000003_00000004),
            (5, 40, 4, 7),
        )
        for block in range(6):
            self.assertTrue(block_of(data, block) == block_of(example, block), block)
        self.assertEqual(len(data), len(example))

    def test_two_objects_in_three_axes(self):
        first, second = 0x0102030405060708, 72_623_859_790_381_856  # in one chain
        boxes = ["-2 256 -2147483648 5 16909060 2147483647", "1 -1 3 1 -1 3"]
        commands = [f"insert a {first} {boxes[0]} tag 4294967294", f"insert a {second} {boxes[1]} tag 151521030"]
        data = self.made("--format 2", ["create a 3 100", *commands])
        bucket = with_numbers(
            b"",
            (0, 0, 4, 0x07030002),
            (0, 16, 8, first),
            (0, 24, 12, 0xFFFFFFFE_00000100_80000000),
            (0, 36, 12, 0x00000005_01020304_7FFFFFFF),
            (0, 48, 4, 0xFFFFFFFE),
            (0, 52, 8, second),
            (0, 60, 12, 0x00000001_FFFFFFFF_00000003),
            (0, 72, 12, 0x00000001_FFFFFFFF_00000003),
            (0, 84, 4, 0x09080706),
        )
        leaf = with_numbers(
            b"",
            (0, 0, 4, 0x06030002),
            (0, 16, 8, 0xFFFFFFFE_00000001),
            (0, 416, 8, 0x00000005_00000001),
            (0, 816, 8, 0x00000100_FFFFFFFF),
            (0, 1216, 8, 0x01020304_FFFFFFFF),
            (0, 1616, 8, 0x80000000_00000003),
            (0, 2016, 8, 0x7FFFFFFF_00000003),
            (0, 2416, 8, first),
            (0, 2424, 8, second),
            (0, 3216, 8, 0xFFFFFFFE_09080706),
        )
        for kind, wanted in ((BUCKET, bucket), (NODE, leaf)):
            (page,) = (page for page, found in pages_of(data) if found == kind)
            self.assertTrue(block_of(data, page) == wanted, kind)
        rows = f"ok 2\n{second} {boxes[1]} tag 151521030\n{first} {boxes[0]} tag 4294967294\n"
        self.tells(data, [f"window a {SPACE}"], rows)

    def test_full_pages_with_numbers_at_the_ends_of_their_ranges(self):
        for axes, end in ((2, 2816), (3, 3616)):
            lows, highs = [[-(2**31) + k] * axes for k in range(100)], [2**31 - 2] * axes
            objects = [(2**64 - 1 - 1000 * k, [*lows[k], *highs], 2**32 - 1 - k) for k in range(100)]
            rows = [" ".join(map(str, [ident, *box, "tag", tag])) for ident, box, tag in objects]
            data = self.made("--format 2", [f"create a {axes} 100", "\n".join(["load a 100", *rows])])
            for kind, listed in ((NODE, entries_of), (BUCKET, objects_of)):
                (page,) = (page for page, found in pages_of(data) if found == kind)
                self.assertEqual(sorted(listed(data, page, axes)), sorted(objects), (kind, axes))
                self.assertEqual(number_at(data, page, end - 1, 2) & 0xFF, 0)
                self.assertNotEqual(number_at(data, page, end - 4, 4), 0)
                self.is_tidy(data, page)
                ask = f"window a {EVERY[axes]}" if kind == NODE else f"get a {objects[0][0]}"
                for count in (101, 0x0164):
                    self.tells(with_numbers(data, (page, 2, 2, count)), [ask], f"fail 18 Damaged {page}\n")
            replies = "".join(f"ok 1\n{row}\n" for row in rows)
            self.tells(data, [f"get a {ident}" for ident, _, _ in objects] + ["check"], replies + "ok\n")

    def test_a_node_above_leaves_has_their_boxes_and_no_tags(self):
        for axes in (2, 3):
            boxes = [[50 * k, -k, k][:axes] + [50 * k + 3, k, k][:axes] for k in range(9)]
            commands = [f"insert a {k} {' '.join(map(str, box))} tag 9" for k, box in enumerate(boxes)]
            data = self.made("", [f"create a {axes} 4", *commands])
            root, level = number_at(data, 2, RECORD + 28, 4), number_at(data, 2, RECORD + 27, 1)
            self.assertEqual((number_at(data, root, 0, 2), number_at(data, root, 4, 1), level), (0x0600 + axes, 1, 1))
            for child, box, tag in entries_of(data, root, axes):
                below = [found for _, found, _ in entries_of(data, child, axes)]
                lows = [min(found[axis] for found in below) for axis in range(axes)]
                highs = [max(found[axes + axis] for found in below) for axis in range(axes)]
                self.assertEqual((box, tag, number_at(data, child, 4, 1)), ([*lows, *highs], 0, 0))

    def test_a_full_catalog(self):
        names = sorted(f"n{k}" + "_" * (21 if k == 30 else 0) for k in range(10, 70))
        commands = [f"create {name} {2 + k % 2} {4 + k}" for k, name in enumerate(names)]
        data = self.made("", [*commands, f"insert {names[59]} 7 1 1 1 2 2 2"])
        self.assertEqual(number_at(data, 2, 0, 2), 0x013C)
        for k, name in enumerate(names):
            record = RECORD + 64 * k
            length = number_at(data, 2, record, 1)
            self.assertEqual(block_of(data, 2)[record + 1 : record + 1 + length].decode(), name)
            numbers = [number_at(data, 2, record + at, width) for at, width in ((25, 1), (26, 1), (27, 1), (36, 8))]
            self.assertEqual(numbers, [2 + k % 2, 4 + k, 0, 1 if k == 59 else 0])
            root, table = number_at(data, 2, record + 28, 4), number_at(data, 2, record + 32, 4)
            self.assertEqual((number_at(data, root, 0, 1), number_at(data, table, 0, 1)), (NODE, FORK))
        self.is_tidy(data, 2)
        rows = "".join(f"{name} {2 + k % 2} {4 + k} {1 if k == 59 else 0}\n" for k, name in enumerate(names))
        self.tells(data, ["layers"], "ok 60\n" + rows)


class Unnamed(Pages):
    """Files in which each byte that has no name is another one."""

    def test_bytes_without_a_name_are_not_looked_at(self):
        for words in ("", "--format 2"):
            objects = [f"{k} {37 * k % 97} {k} {37 * k % 97 + 9} {k + 7} tag {k}" for k in range(1, 400)]
            commands = ["create a 2 4", "\n".join(["load a 399", *objects]), "create b 3 100", "create c 2 4"]
            commands += [f"insert b {k} 1 2 3 4 5 {k + 7} tag 8" for k in range(9)] + ["insert c 1 1 1 1 1", "drop c"]
            data = self.made(words, commands)
            other = bytearray(b"\x7f" * len(data))
            for page in range(blocks_of(data)):
                for places in named(data, page):
                    begin, end = SIZE * page + places.start, SIZE * page + places.stop
                    other[begin:end] = data[begin:end]
            rows = "".join(f"{row}\n" for row in objects)
            gets = "".join(f"ok 1\n{row}\n" for row in objects[::7])
            asks = ["check", f"window a {PLANE}", *(f"get a {k}" for k in range(1, 400, 7)), "count b"]
            self.tells(other, asks, f"ok\nok 399\n{rows}{gets}ok 1\n9\n")
            # and such a page is changed
            changes = ["delete a 1", "insert a 1 0 0 1 1", "move a 3 5 5 5 5", "delete b 4", "check", "get a 1"]
            self.answers("store", text_of(changes), "ok\n" * 5 + "ok 1\n1 0 0 1 1\n")


# What is written over the root of a tree of three axes and two leaves, as the block 5, or over its record.
ROOT = [
    ("another kind", [(5, 0, 1, 4)]),
    ("the kind of a bucket", [(5, 0, 1, 7)]),
    ("another dimension", [(5, 1, 1, 2)]),
    ("another level", [(5, 4, 1, 2)]),
    ("another level in the record", [(2, RECORD + 27, 1, 2)]),
    ("a leaf in the record", [(2, RECORD + 27, 1, 0)]),
    ("an entry of zeros more", [(5, 2, 2, 3)]),
    ("no entry above the leaves", [(5, 2, 2, 0)]),
    ("the last low above its high", [(5, 16 + 1600 + 4, 4, 2**31 - 1)]),
    ("a reference of 2", [(5, 16 + 2400 + 8, 8, 2)]),
    ("a reference of 2^31", [(5, 16 + 2400 + 8, 8, 2**31)]),
    ("a reference of 2^31 + 4", [(5, 16 + 2400 + 8, 8, 2**31 + 4)]),
    ("a reference of 2^56 + 4", [(5, 16 + 2400 + 8, 8, 2**56 + 4)]),
]


class NoNodes(Pages):
    """Each thing by itself makes a page no node."""

    def test_no_nodes(self):
        data = self.made("", ["create a 3 4", *(f"insert a {k} {k} {k} {k} {k} {k} {k}" for k in range(5))])
        root = number_at(data, 2, RECORD + 28, 4)
        self.assertEqual(len(entries_of(data, root, 3)), 2)
        for what, numbers in ROOT:
            numbers = [(root if page == 5 else page, *number) for page, *number in numbers]
            with self.subTest(what=what):
                self.tells(with_numbers(data, *numbers), [f"window a {SPACE}"], f"fail 18 Damaged {root}\n")


if __name__ == "__main__":
    main()

#!/usr/bin/env python3
"""Runs the program over files that are written by hand, byte for byte as docs/FORMAT.md says: files of each
format are read and changed, and have the bytes that the program writes; of a file each number is changed, one
at a time, and it is opened or refused for what is damaged; and files of format 1 are changed beside a plain
table (plain_table.py). It tests the programs that `rt ci` made, by both compilers; where there is none, one is
made.

images.py [WORDS OF unittest, as the name of a class or Class.test]
"""
import random

from blocks import BUCKET, FORK, NODE, OLD_BUCKET, OLD_NODE, PLANE, SIZE, SPACE, VERSION
from blocks import RunsOver, block_of, blocks_of, number_at, pages_of, put, text_of, with_numbers
from plain_table import Table
from runs import NO_JOURNAL, NOT_A_STORE, UNCLOSED, main

UNKNOWN = "rstore: fail 22 WrongVersion\n"
HEADER = "rstore: fail 18 Damaged 1\n"
CATALOG = "rstore: fail 18 Damaged 2\n"

# The numbers of blocks: block, place, count of bytes, number. The gate, shut: RSTARGAT; and RSTARHDR.
HEADS = [(0, 0, 8, 0x5253544152474154), (0, 8, 1, 1), (1, 0, 8, 0x5253544152484452)]

# A new store: version 2, next 3, no free page, and a catalog of no layer.
NEW = with_numbers(b"", *HEADS, (1, 8, 2, 2), (1, 12, 4, 3), (2, 0, 1, 1))

# A file of format 1.
OLD = with_numbers(
    b"",
    *HEADS,
    # version 1, next 8, no free page
    (1, 8, 2, 1),
    (1, 12, 4, 8),
    # the catalog of three layers
    (2, 0, 2, 0x0103),
    # `a`: two axes, fanout 4, root 3 on level 0, directory 4, one object
    (2, 256, 2, 0x0161),
    (2, 281, 3, 0x020400),
    (2, 284, 4, 3),
    (2, 288, 4, 4),
    (2, 292, 8, 1),
    # `b`: three axes, fanout 100, root 6, directory 7, no object
    (2, 320, 2, 0x0162),
    (2, 345, 3, 0x036400),
    (2, 348, 4, 6),
    (2, 352, 4, 7),
    # `c`: the same pages, which opening does not look at
    (2, 384, 2, 0x0163),
    (2, 409, 3, 0x036400),
    (2, 412, 4, 6),
    (2, 416, 4, 7),
    # the leaf of `a`: identifier 1, box (-1,2) to (3,4)
    (3, 0, 2, 0x0202),
    (3, 2, 2, 1),
    (3, 16, 4, 0xFFFFFFFF),
    (3, 416, 4, 3),
    (3, 816, 4, 2),
    (3, 1216, 4, 4),
    (3, 1616, 8, 1),
    # its directory: the chain of remainder 1 begins in page 5
    (4, 0, 2, 0x0302),
    (4, 20, 4, 5),
    # its bucket of that object
    (5, 0, 2, 0x0402),
    (5, 2, 2, 1),
    (5, 16, 8, 1),
    (5, 24, 4, 0xFFFFFFFF),
    (5, 28, 4, 2),
    (5, 32, 8, 0x0000000300000004),
    # the empty leaf and directory of `b`
    (6, 0, 2, 0x0203),
    (7, 0, 2, 0x0303),
)

# The same with the layer `a` alone. The bytes where format 2 has the tags of the leaf are no tags.
SMALL = with_numbers(
    OLD[: 6 * SIZE],
    (1, 12, 4, 6),
    (2, 1, 1, 1),
    *((3, 2416 + 4 * place, 4, 0xFFFFFFFF) for place in range(100)),
)

# What three objects of one layer have in files of the formats 2 and 3.
THREE = [
    *HEADS,
    # the catalog of one layer `a`: two axes, fanout 4, root 3 on level 0, identifiers in 4, three objects
    (2, 0, 2, 0x0101),
    (2, 256, 2, 0x0161),
    (2, 281, 3, 0x020400),
    (2, 284, 8, 0x0000000300000004),
    (2, 292, 8, 3),
    # the leaf: lows and highs on the first axis, on the second, identifiers and tags
    (3, 0, 4, 0x06020003),
    (3, 16, 12, 0x00000001_FFFFFFFF_00000000),
    (3, 416, 12, 0x00000001_00000003_00000000),
    (3, 816, 12, 0x00000002_00000000_00000000),
    (3, 1216, 12, 0x00000002_00000004_00000000),
    (3, 1616, 16, 0x000000000000000A_000000000000000B),
    (3, 1632, 8, 7),
    (3, 2416, 12, 0x00000005_00000006_00000007),
]
# An object of a table: identifier, lows, highs and tag.
TEN = 0x000000000000000A_00000001_00000002_00000001_00000002_00000005
ELEVEN = 0x000000000000000B_FFFFFFFF_00000000_00000003_00000004_00000006
SEVEN = 0x0000000000000007_00000000_00000000_00000000_00000000_00000007

# Version 2, next 8; the directory with the chains of the remainders 7, 10 and 11, a bucket for each.
CHAINED = with_numbers(
    b"",
    *THREE,
    (1, 8, 2, 2),
    (1, 12, 4, 8),
    (4, 0, 2, 0x0302),
    (4, 44, 4, 7),
    (4, 56, 8, 0x0000000500000006),
    *((5 + k, 0, 4, 0x07020001) for k in range(3)),
    *((5 + k, 16, 28, number) for k, number in enumerate((TEN, ELEVEN, SEVEN))),
)

# Version 3, next 6; the root of the identifiers with one leaf.
FORKED = with_numbers(
    b"",
    *THREE,
    (1, 8, 2, 3),
    (1, 12, 4, 6),
    (4, 0, 5, 0x08020001_01),
    (4, 24, 4, 5),
    (5, 0, 4, 0x09020003),
    *((5, 16 + 28 * k, 28, number) for k, number in enumerate((TEN, ELEVEN, SEVEN))),
)

# A number of gate, header or catalog of `OLD` in its place, and why opening refuses the file then, if it does.
CHANGED = [
    (0, 0, 1, 0x72, NOT_A_STORE),
    (0, 8, 1, 0, UNCLOSED),
    (0, 8, 1, 2, f"rstore: {NO_JOURNAL} (FILE is store)\n"),
    (0, 8, 1, 3, UNCLOSED),
    (1, 7, 1, 0x72, NOT_A_STORE),
    (1, 8, 2, 0, UNKNOWN),
    (1, 8, 2, 2, None),
    (1, 8, 2, 3, None),
    (1, 8, 2, 4, UNKNOWN),
    (1, 8, 2, 0x0101, UNKNOWN),
    # next, first and count
    (1, 12, 4, 2, HEADER),
    (1, 12, 4, 9, HEADER),
    (1, 16, 4, 3, HEADER),
    (1, 20, 4, 1, HEADER),
    (1, 16, 8, 0x0000000800000001, HEADER),
    (1, 16, 8, 0x0000000300000006, HEADER),
    (1, 16, 8, 0x0000000300000001, None),
    # the catalog's kind, and the count of layers
    (2, 0, 1, 0, CATALOG),
    (2, 0, 1, 4, CATALOG),
    (2, 1, 1, 4, CATALOG),
    (2, 1, 1, 61, CATALOG),
    (2, 1, 1, 0, None),
    # no name, one that is too long, `0`, `A` and `a-`
    (2, 256, 1, 0, CATALOG),
    (2, 320, 1, 0, CATALOG),
    (2, 256, 1, 25, CATALOG),
    (2, 257, 1, 0x30, CATALOG),
    (2, 257, 1, 0x41, CATALOG),
    (2, 256, 3, 0x02612D, CATALOG),
    # names out of order, and a name twice
    (2, 257, 1, 0x64, CATALOG),
    (2, 384, 3, 0x02617A, CATALOG),
    (2, 257, 1, 0x62, CATALOG),
    (2, 385, 1, 0x62, CATALOG),
    # axes, fanout and level
    (2, 281, 1, 1, CATALOG),
    (2, 281, 1, 4, CATALOG),
    (2, 282, 1, 3, CATALOG),
    (2, 282, 1, 101, CATALOG),
    (2, 283, 1, 41, CATALOG),
    (2, 283, 1, 40, None),
    # root and directory
    (2, 284, 4, 2, CATALOG),
    (2, 284, 4, 8, CATALOG),
    (2, 288, 4, 2, CATALOG),
    (2, 416, 4, 8, CATALOG),
    # objects: 2^30 in all layers, and one more
    (2, 292, 8, 2**30, None),
    (2, 292, 8, 2**30 + 1, CATALOG),
    (2, 420, 8, 2**30, CATALOG),
    (2, 420, 8, 2**64 - 1, CATALOG),
    # pages that opening does not read
    (3, 0, 8, 2**64 - 1, None),
    (7, 0, 8, 2**64 - 1, None),
]


class Images(RunsOver):
    """Files of each format are read and changed, and are what the program writes."""

    ROW = "ok 1\n1 -1 2 3 4\n"
    MAKES = [
        "create a 2 4\n",
        "insert a 10 1 2 1 2 tag 5\n",
        "insert a 11 -1 0 3 4 tag 6\n",
        "insert a 7 0 0 0 0 tag 7\n",
    ]

    # A run with these words goes well, and the file then is this one.
    def leaves(self, wanted, words, given, replies):
        self.answers(words, given, replies)
        data = self.store()
        self.assertEqual(blocks_of(data), blocks_of(wanted), words)
        for block in range(blocks_of(data)):
            self.assertTrue(block_of(data, block) == block_of(wanted, block), f"{words}: block {block}")

    def test_a_new_store(self):
        for words in ("--create store", "--create --format 2 store"):
            self.write("store", b"")
            self.leaves(NEW, words, "", "")

    def test_a_file_of_format_1(self):
        self.write("store", OLD)
        self.leaves(OLD, "store", f"window a {PLANE}\nget a 1\ncount b\n", self.ROW * 2 + "ok 1\n0\n")
        self.answers("store", "insert b 1 0 0 0 1 1 1\n", "ok\n")
        self.answers("store", "get b 1\nget a 1\n", "ok 1\n1 0 0 0 1 1 1\n" + self.ROW)

    def test_a_file_of_format_1_becomes_one_of_format_2_where_it_is_changed(self):
        self.write("store", SMALL)
        self.leaves(SMALL, "store", "check\nwindow a 0 0 9 9\n", "ok\n" + self.ROW)
        self.answers("store", "insert a 2 0 0 0 0 tag 5\n", "ok\n")
        data = self.store()
        self.assertEqual((number_at(data, *VERSION), dict(pages_of(data))[3]), (2, NODE))
        rows = "ok 2\n1 -1 2 3 4\n2 0 0 0 0 tag 5\n"
        self.answers("store", "window a -9 -9 9 9\ncheck\n", rows + "ok\n")

    def test_files_of_the_formats_2_and_3(self):
        for version, words, data in ((2, "--create --format 2 store", CHAINED), (3, "--create store", FORKED)):
            self.write("store", b"")
            self.leaves(data, words, "".join(self.MAKES), "ok\n" * 4)
            self.write("store", data)
            create, ten, eleven, seven = self.MAKES
            asks = "dump\ncheck\nget a 11\nwindow a 0 0 0 0 tag 7\n"
            rows = f"ok 4\n{create}{seven}{ten}{eleven}"
            self.leaves(data, "store", asks, rows + "ok\nok 1\n11 -1 0 3 4 tag 6\nok 1\n7 0 0 0 0 tag 7\n")
            self.answers("store", "delete a 11\nmove a 7 5 5 6 6\ninsert a 1011 8 8 9 9\n", "ok\n" * 3)
            rows = "ok 3\n7 5 5 6 6 tag 7\n10 1 2 1 2 tag 5\n1011 8 8 9 9\n"
            asks = f"check\nwindow a {PLANE}\nget a 1011\nget a 11\n"
            self.answers("store", asks, f"ok\n{rows}ok 1\n1011 8 8 9 9\nfail 10 NoObject\n")
            self.assertEqual(number_at(self.store(), *VERSION), version)


class Openings(RunsOver):
    """What opening answers, and what is answered where a damaged page is read."""

    # Questions are answered so of a file, by a store that goes on.
    def tells(self, data, questions, replies):
        self.write("store", data)
        self.answers("--cache 8 store", questions, replies)

    def test_each_number_that_opening_looks_at(self):
        for *number, said in CHANGED:
            data = with_numbers(OLD, tuple(number))
            self.write("store", data)
            with self.subTest(number=number):
                if said is None:
                    self.answers("store", "")
                    self.assertTrue(self.store() == data, "the file was changed")
                else:
                    self.refuses(1, "store", said)

    def test_the_first_check_that_fails_is_answered(self):
        for numbers, said in (
            ([(0, 8, 1, 0), (1, 8, 2, 9)], UNCLOSED),
            ([(0, 0, 1, 0x72), (0, 8, 1, 0)], NOT_A_STORE),
            ([(1, 7, 1, 0x72), (1, 8, 2, 0)], NOT_A_STORE),
            ([(1, 8, 2, 0), (1, 12, 4, 2)], UNKNOWN),
            ([(1, 12, 4, 2), (2, 0, 1, 0)], HEADER),
        ):
            self.write("store", with_numbers(OLD, *numbers))
            with self.subTest(numbers=numbers):
                self.refuses(1, "store", said)

    def test_missing_blocks(self):
        for count in range(3):
            self.write("store", OLD[: SIZE * count])
            self.refuses(1, "store", NOT_A_STORE)

    def test_a_damaged_page_is_answered_where_it_is_read(self):
        # the root of `a` is on level 1, and its child is itself; and `b` has as many objects as may be
        numbers = [(2, 283, 1, 1), (3, 4, 1, 1), (3, 1616, 8, 3), (2, 356, 8, 2**30 - 1)]
        asks = f"window a {PLANE}\ncount a\ninsert c 1 0 0 0 0 0 0\n"
        self.tells(with_numbers(OLD, *numbers), asks, "fail 18 Damaged 3\nok 1\n1\nfail 11 TooManyObjects\n")

    # And so of the small file with a number.
    def tells_with(self, number, question, reply):
        with self.subTest(number=number):
            self.tells(with_numbers(SMALL, number), question, reply)

    def test_a_page_of_another_kind_is_damaged(self):
        # a bucket of either format in a node's place, a node in a bucket's, and kinds that there are not
        for kind in (0, 1, 3, 4, 5, 7, 8, 9, 255):
            self.tells_with((3, 0, 1, kind), f"window a {PLANE}", "fail 18 Damaged 3\n")
        for kind in (0, 1, 2, 3, 5, 6, 8, 9, 255):
            self.tells_with((5, 0, 1, kind), "get a 1", "fail 18 Damaged 5\n")
        # a leaf of format 2 with more entries than a page holds
        self.tells_with((3, 0, 4, 0x06020065), f"window a {PLANE}", "fail 18 Damaged 3\n")

    def test_tags_above_the_leaves_are_not_looked_at(self):
        objects = [f"{k} {37 * k % 997} {k} {37 * k % 997 + 9} {k + 7}" for k in range(200)]
        self.answers("--create store", "\n".join(["create a 2 4", "load a 200", *objects]), "ok\nok\n")
        data = self.store()
        above = [page for page, kind in pages_of(data) if kind == NODE and number_at(data, page, 4, 1) > 0]
        self.assertGreater(len(above), 10)
        data = with_numbers(data, *((page, 2416, 8, 2**64 - 1) for page in above))
        rows = "ok 200\n" + "".join(f"{row}\n" for row in objects)
        self.tells(data, f"window a {PLANE}\ncheck\n", rows + "ok\n")

    def test_a_tree_of_identifiers_in_a_file_of_version_2_is_damaged(self):
        fork = next(page for page, kind in pages_of(FORKED) if kind == FORK)
        for version, reply in ((2, f"fail 18 Damaged {fork}\n"), (3, "ok\n")):
            data = with_numbers(FORKED, (*VERSION, version))
            self.tells(data, "check\n", reply)


def as_format_1(data):
    """The closed file of objects of two axes without tags as one of format 1. The bytes in the places of the
    tags of a leaf are no tags, and the entries of a bucket are without theirs."""
    data = with_numbers(data, (*VERSION, 1))
    for page, kind in pages_of(data):
        if kind == NODE:
            data[SIZE * page] = OLD_NODE
            for place in range(100):
                put(data, page, 2416 + 4 * place, 4, 0x01020304)
        elif kind == BUCKET:
            data[SIZE * page] = OLD_BUCKET
            for place in range(100):
                put(data, page, 16 + 24 * place, 24, number_at(data, page, 16 + 28 * place, 24))
    return data


class OldFiles(RunsOver):
    """A great file of format 1 is changed beside a plain table, and becomes one of later formats page by page."""

    def setUp(self):
        super().setUp()
        self.random = random.Random(44)
        self.table = Table()

    # A box of the plane, some hundred wide.
    def box(self):
        lows = [self.random.randrange(100_000) for _ in range(2)]
        return " ".join(map(str, lows + [low + self.random.randrange(200) for low in lows]))

    def load(self, layer, count):
        entries = [f"{ident} {self.box()}" for ident in range(count)]
        return ["\n".join([f"load {layer} {count}", *entries])]

    # A change of an object of the layer, or a question. Some identifiers are of no object.
    def command(self, layer):
        ident, box, tag = self.random.randrange(5_100), self.box(), self.random.randrange(3)
        insert, move = f"insert {layer} {ident} {box} tag {tag}", f"move {layer} {ident} {box}"
        asks = [f"get {layer} {ident}", f"window {layer} {box} tag {tag}"]
        return self.random.choice([insert, move, f"delete {layer} {ident}"] * 2 + asks)

    # A run answers as the plain table does, and the file then is sound and has its objects.
    def stands(self, commands, layers, words="store"):
        asks = ["layers", "dump", "check"]
        for layer in layers:
            asks += [f"window {layer} {PLANE}", f"window {layer} {SPACE}", f"count {layer}", f"get {layer} 0"]
        for words, lines in ((words, commands), ("store", asks)):
            wanted = "".join(self.table.answer(iter(line.splitlines())) for line in lines)
            status, replies, said, _ = self.result(words, text_of(lines))
            self.assertEqual((status, said), (0, ""))
            self.assertTrue(replies == wanted, "the replies are not those of the plain table")

    # How many pages there are of these kinds.
    def counts(self, *kinds):
        found = [kind for _, kind in pages_of(self.store())]
        return [found.count(kind) for kind in kinds]

    def test_a_great_file(self):
        every = (OLD_NODE, OLD_BUCKET, NODE, BUCKET)
        self.stands(["create a 2 5", *self.load("a", 5_000)], "a", "--create --format 2 store")
        self.write("store", as_format_1(self.store()))
        old = self.counts(*every)
        self.assertGreater(old[0], 1000)
        self.assertEqual(old[1:], [1000, 0, 0])
        for _ in range(4):
            self.stands([self.command("a") for _ in range(100)], "a")
        # both kinds stand in one tree, and in the tables of one layer
        self.assertEqual(number_at(self.store(), *VERSION), 2)
        self.assertTrue(all(self.counts(*every)), self.counts(*every))
        # a layer that is made now has a tree of identifiers, beside the chains of the older one
        self.stands(["create b 2 20", *self.load("b", 1000)], "ab")
        self.assertEqual((number_at(self.store(), *VERSION), self.counts(FORK)), (3, [1]))
        for _ in range(2):
            self.stands([self.command(layer) for layer in "ab" for _ in range(100)], "ab")


if __name__ == "__main__":
    main()

#!/usr/bin/env python3
"""Runs the program over files with damage in their trees, tables, free pages or catalog: files written by hand
with one thing wrong, and a thousand that are damaged by chance. Each run ends in time, and answers each
command, or refuses it by a refusal that it may have. What meets the damage names its page, a check finds it, a
refusal leaves the pages as they were, and a store that failed half way is not closed and says so. Where a
check finds nothing wrong, the store answers as a plain table (plain_table.py) of its dump. It tests the
programs that `rt ci` made, by both compilers; where there is none, one is made.

damaged.py [WORDS OF unittest, as the name of a class or Class.test]

SEED=N in the environment makes others of the files that are damaged by chance.
"""
import os
import random

from blocks import BUCKET, FORK, NODE, OLD_BUCKET, OLD_NODE, PLANE, SIZE, SPACE
from blocks import RunsOver, block_of, blocks_of, number_at, parted, put, text_of, with_numbers
from plain_table import Table
from runs import BUILT, main

DIRECTORY, LEAF = 3, 9  # kinds of pages
CHANGES = ("create", "insert", "load", "move", "delete", "drop")
HALF_DONE = "fail 19 StoreFailed 18\n"  # by a change that met damage half way through
FAILED = "fail 19 StoreFailed 19\n"  # by each command after it

# The numbers of the refusals that a plain table has for a command.
REFUSALS = {
    "create": (1, 2, 4, 5, 6),
    "insert": (1, 3, 7, 8, 9, 11),
    "load": (1, 3, 7, 8, 11, 12, 13),
    "move": (1, 3, 7, 8, 10),
    "delete": (1, 3, 10),
    "drop": (1, 3),
    "get": (1, 3, 10),
    "count": (1, 3),
    "window": (1, 3, 7, 8),
    "inside": (1, 3, 7, 8),
    "around": (1, 3, 7, 8),
    "point": (1, 3, 8),
    "nearest": (1, 3, 8, 14),
    "join": (1, 3, 15),
    "layers": (),
    "dump": (),
    "check": (),
    "reopen": (),
}


def is_change(command):
    return command.split()[0] in CHANGES


def may_answer(command, reply):
    """Whether a live store over any file that was opened may answer so. Damage is met where a page is read,
    and in a change perhaps half way through. A closing meets none that opening did not."""
    word, status = command.split()[0], reply.split("\n")[0].split()
    if status[0] == "ok":
        return True
    if status[1] == "18":
        return word not in ("layers", "count", "reopen")
    if status[1] == "19":
        return reply == HALF_DONE and is_change(command)
    return int(status[1]) in REFUSALS[word]


def told(table, commands):
    """What a plain table answers."""
    return [table.answer(iter(command.splitlines())) for command in commands]


def table_of(dump):
    """The plain table that the rows of a dump make."""
    table = Table()
    replies = told(table, dump.splitlines()[1:])
    if replies != ["ok\n"] * len(replies):
        raise AssertionError(f"no commands: {dump}")
    return table


class Live(RunsOver):
    """What is asked of a file that is opened, and how the run ends."""

    def ended(self, commands, status, replies, said):
        """The replies of a run, of which each is one that its command may have, up to the one by which the store
        fails, if one does. Then the run ends so, and with no fault otherwise."""
        replies = parted(replies)
        self.assertEqual(len(replies), len(commands), replies)
        end = replies.index(HALF_DONE) + 1 if HALF_DONE in replies else len(replies)
        for command, reply in zip(commands, replies[:end]):
            self.assertTrue(may_answer(command, reply), f"{command}: {reply}")
        self.assertEqual(replies[end:], [FAILED] * (len(replies) - end))
        self.assertEqual((status, said), (1, f"rstore: {FAILED}") if HALF_DONE in replies else (0, ""))
        return replies

    def asked(self, data, commands):
        """The same of a run over this file with these commands."""
        self.write("store", data)
        status, replies, said, _ = self.result("--cache 8 store", text_of(commands))
        return self.ended(commands, status, replies, said)

    def questioned(self, data, questions):
        """The same of questions, which leave the file as it was."""
        replies = self.asked(data, questions)
        self.assertTrue(self.store() == data, "a question changed the file")
        return replies


def node(level, *entries):
    """A node page of two axes, of entries with an identifier or a page, the lows and the highs."""
    numbers = [(0, 0, 2, 0x0602), (0, 2, 2, len(entries)), (0, 4, 1, level)]
    for k, (reference, x, y, right, top) in enumerate(entries):
        numbers += [(0, 16 + 4 * k, 4, x), (0, 416 + 4 * k, 4, right), (0, 816 + 4 * k, 4, y)]
        numbers += [(0, 1216 + 4 * k, 4, top), (0, 1616 + 8 * k, 8, reference)]
    return with_numbers(b"", *numbers)


def directory(*chains):
    """A directory page of two axes, by remainders with the first page of each one's chain."""
    return with_numbers(b"", (0, 0, 2, 0x0302), *((0, 16 + 4 * rest, 4, page) for rest, page in chains))


def bucket(*entries):
    """A bucket page of two axes of format 1, the last of its chain."""
    numbers = [(0, 0, 2, 0x0402), (0, 2, 2, len(entries))]
    for k, (ident, *box) in enumerate(entries):
        at = 16 + 24 * k
        numbers += [(0, at, 8, ident), *((0, at + 8 + 4 * n, 4, bound) for n, bound in enumerate(box))]
    return with_numbers(b"", *numbers)


def free(after):
    """A free page, with the next one."""
    return with_numbers(b"", (0, 0, 1, 5), (0, 4, 4, after))


# The gate, shut: RSTARGAT; RSTARHDR and version 2; and the layer `a`: two axes, fanout 4, root 3 on level 1,
# directory 6, four objects.
HEADS = [
    (0, 0, 8, 0x5253544152474154),
    (0, 8, 1, 1),
    (1, 0, 8, 0x5253544152484452),
    (1, 8, 2, 2),
    (2, 0, 2, 0x0101),
    (2, 256, 2, 0x0161),
    (2, 281, 3, 0x020401),
    (2, 284, 8, 0x0000000300000006),
    (2, 292, 8, 4),
]

# Two layers. Next is 15, and the first of 2 free pages 13.
SOUND = with_numbers(
    b"",
    *HEADS,
    (1, 12, 4, 15),
    (1, 16, 8, 0x0000000D00000002),
    (2, 1, 1, 2),
    # `b`: two axes, fanout 4, root 10 on level 0, directory 11, one object
    (2, 320, 2, 0x0162),
    (2, 345, 3, 0x020400),
    (2, 348, 8, 0x0000000A0000000B),
    (2, 356, 8, 1),
) + b"".join(
    [
        # the tree of `a`, from page 3 on, and its table
        node(1, (4, 0, 0, 3, 3), (5, 10, 10, 13, 13)),
        node(0, (1, 0, 0, 1, 1), (2, 2, 2, 3, 3)),
        node(0, (3, 10, 10, 11, 11), (1001, 12, 12, 13, 13)),
        directory((1, 7), (2, 8), (3, 9)),
        bucket((1, 0, 0, 1, 1), (1001, 12, 12, 13, 13)),
        bucket((2, 2, 2, 3, 3)),
        bucket((3, 10, 10, 11, 11)),
        # the tree and the table of `b`, from page 10 on
        node(0, (5, 1, 1, 2, 2)),
        directory((5, 12)),
        bucket((5, 1, 1, 2, 2)),
        free(14),
        free(0),
    ]
)

ALL, FIRST = f"window a {PLANE}", "get a 1"
NEW = "create c 2 4"  # takes two pages, so damage that it meets at the second is met half way through

# Each command once or twice.
WHOLE = [
    NEW,
    "create a 3 100",
    "insert a 2001 1 1 12 12",
    "insert a 7 11 11 12 12",
    "insert b 6 1 1 1 1",
    "insert a 1 0 0 0 0",
    f"load a 1\n8 {PLANE}",
    "load b 0",
    "move a 1 1 1 2 2",
    "move a 1001 0 0 0 0",
    "move b 5 1 1 2 2",
    "delete a 1",
    "delete a 3",
    "delete b 5",
    "drop a",
    "drop b",
    FIRST,
    "get a 2001",
    "get a 3",
    "count a",
    ALL,
    "window a 5 5 6 6",
    "inside a 0 0 4 4",
    "around a 12 12 13 13",
    "point a 2 2",
    "nearest a 9 6 6",
    "nearest b 1 6 6",
    "join a b",
    "join b a",
    "join a a",
    "layers",
    "dump",
    "check",
    "reopen",
]


def at(page):
    return f"fail 18 Damaged {page}\n"


NONE = "fail 10 NoObject\n"

# What is wrong, the numbers that make it so, and commands that meet it, with what they answer. First nodes that
# are no tree, or none of the shape.
TREES = [
    ("the root is its own child", [(3, 1616, 8, 3)], {ALL: at(3)}),
    (
        "the root is its own child and has no other, the table is empty, and all other pages are free",
        [
            (3, 2, 2, 1),
            (3, 1616, 8, 3),
            (2, 292, 8, 0),
            (6, 20, 4, 0),
            (6, 24, 8, 0),
            (14, 4, 4, 4),
            (4, 0, 8, 0x0500000000000005),
            (5, 0, 8, 0x0500000000000007),
            (7, 0, 8, 0x0500000000000008),
            (8, 0, 8, 0x0500000000000009),
            (9, 0, 8, 0x0500000000000000),
            (1, 20, 4, 7),
        ],
        {ALL: at(3), "check": at(3)},
    ),
    (
        "a child points to its parent",
        [(2, 283, 1, 2), (3, 4, 1, 2), (4, 4, 1, 1), (4, 1616, 8, 3), (4, 1624, 8, 3)],
        {ALL: at(3)},
    ),
    ("a leaf where a level above is expected", [(2, 283, 1, 2), (3, 4, 1, 2)], {ALL: at(4)}),
    ("a root on another level than its record says", [(2, 283, 1, 0)], {ALL: at(3)}),
    ("a page twice in a tree", [(3, 1624, 8, 4)], {}),
    (
        "one tree and one table in two layers, and the other layer's pages free",
        [
            (2, 345, 3, 0x020401),
            (2, 348, 4, 3),
            (2, 352, 4, 6),
            (2, 356, 8, 4),
            (14, 4, 4, 10),
            (10, 0, 8, 0x050000000000000B),
            (11, 0, 8, 0x050000000000000C),
            (12, 0, 8, 0x0500000000000000),
            (1, 20, 4, 5),
        ],
        {},
    ),
    (
        "the root of `b` is a leaf of `a`, with all its objects",
        [(2, 348, 4, 4), (2, 356, 8, 2), (11, 36, 4, 0), (11, 20, 4, 7), (11, 24, 4, 8)],
        {},
    ),
    ("a box above a leaf that is too large", [(3, 416, 4, 4)], {}),
    ("a box above a leaf that is too small", [(3, 416, 4, 2)], {}),
    (
        "a leaf with one object, which the table lacks too",
        [(4, 2, 2, 1), (3, 416, 4, 1), (3, 1216, 4, 1), (6, 24, 4, 0)],
        {},
    ),
    ("a leaf with more objects than there is room for", [(5, 2, 2, 101)], {ALL: at(5)}),
    ("a low above a high", [(5, 16, 4, 12)], {ALL: at(5)}),
    ("a leaf of another dimension", [(4, 1, 1, 3)], {ALL: at(4)}),
    ("a child beyond the pages that were given out", [(3, 1616, 8, 15)], {ALL: at(15)}),
]

# Tables that are none, or not the tree's; and a wrong count.
TABLES = [
    ("a chain that goes on with itself", [(7, 4, 4, 7)], {"get a 2001": at(7)}),
    ("a page in two chains", [(8, 4, 4, 7)], {}),
    ("identifiers in the chains of other remainders", [(6, 24, 8, 0x0000000900000008)], {"get a 3": NONE}),
    ("an object of the tree that the table lacks", [(7, 2, 2, 1)], {"get a 1001": NONE, "delete a 1001": NONE}),
    ("an object of the table that the tree lacks", [(9, 16, 8, 1003)], {"delete a 1003": at(3)}),
    ("another box in the table than in the tree", [(7, 24, 4, 1)], {"delete a 1": at(3)}),
    ("an identifier twice", [(7, 40, 8, 1), (7, 48, 8, 0), (7, 56, 8, 0x0000000100000001)], {}),
    ("a bucket that is none", [(7, 0, 1, 2)], {FIRST: at(7)}),
    ("the catalog as a bucket", [(6, 20, 4, 2)], {FIRST: at(2)}),
    ("a bucket beyond the pages that were given out", [(6, 20, 4, 15)], {FIRST: at(15)}),
    ("a tag in the tree that the table does not have", [(4, 2416, 4, 1)], {}),
    ("more objects than the tree has", [(2, 292, 8, 5)], {}),
]

# Free pages that are no chain, or not all pages that stand nowhere else.
CHAINS = [
    ("a page in a tree that is the first free one", [(1, 16, 8, 0x0000000400000001)], {NEW: at(4)}),
    ("a page in a tree and in the chain", [(14, 4, 4, 5), (1, 20, 4, 3)], {}),
    ("a chain that closes on itself", [(14, 4, 4, 13)], {NEW: HALF_DONE}),
    ("a chain that closes on itself, after twelve pages", [(14, 4, 4, 13), (1, 20, 4, 12)], {}),
    ("a chain that leaves the file", [(13, 4, 4, 15)], {NEW: at(13)}),
    ("a chain that ends too soon", [(13, 4, 4, 0)], {NEW: at(13)}),
    ("a free page that stands nowhere", [(13, 4, 4, 0), (1, 20, 4, 1)], {}),
    ("a page that was given out and stands nowhere", [(15, 0, 2, 0x0602), (1, 12, 4, 16)], {}),
]


def shared_file():
    """A file of one layer whose tree has a root on level 40, and in each node above the leaf the same child a
    hundred times."""
    levels = range(40, -1, -1)
    pages = [node(level, *[(4 + 40 - level, 0, 0, 0, 0)] * 100) for level in levels]
    last = 3 + len(pages)
    heads = [*HEADS, (1, 12, 4, last + 1), (2, 282, 2, 0x6428), (2, 288, 4, last)]
    return with_numbers(b"", *heads) + b"".join([*pages, directory()])


class Hostile(Live):
    """Files written by hand with one thing wrong: all questions of one in one run, each change in its own."""

    # What a change of a file is answered. A refusal that names a page leaves the pages as they were, one of a
    # plain table the whole file; and so does a store that failed, which perhaps has added blocks behind.
    def changed(self, data, change):
        reply, closed, _ = self.asked(data, [change, "reopen", ALL])
        after = self.store()
        if reply == HALF_DONE:
            self.assertTrue(after.startswith(data), "a store that failed changed the file")
            return reply
        self.assertEqual(closed, "ok\n")
        if reply.startswith("fail 18 "):
            self.assertTrue(block_of(after, 0) == block_of(data, 0), "the gate")
            self.assertTrue(after[2 * SIZE :] == data[2 * SIZE :], "a refused change changed a page")
        elif reply != "ok\n":
            self.assertTrue(after == data, "a refused change changed the file")
        return reply

    # What each command is answered, each put to the store of the file.
    def answers_of(self, data, commands):
        questions = [command for command in commands if not is_change(command)]
        replies = dict(zip(questions, self.questioned(data, questions)))
        for change in commands:
            if is_change(change):
                with self.subTest(change=change):
                    replies[change] = self.changed(data, change)
        return replies

    def survives(self, damages):
        for what, numbers, met in damages:
            with self.subTest(what=what):
                replies = self.answers_of(with_numbers(SOUND, *numbers), [*WHOLE, *(met.keys() - set(WHOLE))])
                self.assertEqual({command: replies.get(command) for command in met}, met)
                self.assertTrue(replies["check"].startswith("fail 18 "), replies["check"])

    def test_trees_that_are_none(self):
        self.survives(TREES)

    def test_tables_that_are_none(self):
        self.survives(TABLES)

    def test_chains_that_are_none(self):
        self.survives(CHAINS)

    def test_without_damage_the_answers_are_those_of_a_plain_table(self):
        replies = self.answers_of(SOUND, WHOLE)
        for command, reply in replies.items():
            self.assertEqual([reply], told(table_of(replies["dump"]), [command]), command)

    def test_a_file_is_opened_again_where_a_store_failed(self):
        data = with_numbers(SOUND, (14, 4, 4, 13))
        self.assertEqual(self.changed(data, NEW), HALF_DONE)
        self.assertEqual(self.questioned(self.store(), ["count a", "count c"]), ["ok 1\n4\n", "fail 3 NoLayer\n"])

    # A query would look at one hundred nodes for each, forty levels deep.
    def test_a_check_of_pages_that_are_shared_ends_soon(self):
        asks = ["check", "delete a 1", "get a 1", "insert a 1 0 0 0 0", "drop a"]
        replies = self.asked(shared_file(), asks)
        self.assertEqual(replies, [at(43), NONE, NONE, at(3), HALF_DONE])


# Layers with so many axes, fanout and objects. In files of version 2 one of `CHAINED` has a chain of two
# buckets, and in those of version 3 one of `FORKED` a fork with three leaves.
FEW = [("a", 2, 4, 11), ("b", 3, 5, 6), ("c", 2, 4, 0)]
DEEP = [("a", 2, 4, 17), ("b", 2, 5, 6)]
CHAINED = [("a", 2, 100, 103), ("b", 3, 4, 6)]
FORKED = [("a", 2, 100, 330), ("b", 3, 4, 6)]

# Objects by identifiers that are there, or that damage may make.
GETS = [f"get {layer} {1000 * k + more}" for layer in "ab" for k in range(6) for more in range(3)]
GETS += [f"get a {1000 * k}" for k in range(6, 330, 9)]

# Each question, and each change with a closing, in two ways.
ASKED = [
    [
        f"window a {PLANE}",
        "inside a 0 0 9 9",
        "around a 4 4 4 4",
        "point b 8 3 1",
        "nearest a 3 6 6",
        "get b 1",
        "count a",
        "join a b",
        "layers",
    ],
    [
        f"window b {SPACE}",
        f"inside b {PLANE}",
        "around c 4 4 4 4",
        "point a 8 3",
        "nearest b 100 6 6 6",
        "get a 1001",
        "count c",
        "join a a",
        "layers",
    ],
]
CHANGED = [
    [
        "insert a 5001 7 7 8 8",
        "delete a 1001",
        "move a 2 1 1 20 20",
        "load c 5\n" + "\n".join(f"{ident} {PLANE}" for ident in range(1, 6)),
        "create d 3 4",
        "drop b",
        "reopen",
    ],
    [
        "insert b 5002 7 7 7 8 8 8",
        "move b 1000 1 1 1 2 2 2",
        "delete b 1",
        "create e 2 4",
        f"load e 1\n7 {PLANE}",
        "reopen",
        "drop a",
    ],
]


def making(layers):
    """The commands that make layers, of boxes near the origin. Many objects have identifiers in one chain, few
    in three."""
    for name, axes, fanout, count in layers:
        yield f"create {name} {axes} {fanout}"
        for k in range(count):
            ident = 1000 * k if count > 100 else 1000 * (k // 3) + k % 3
            x, y, size = 37 * k % 23, 17 * k % 19, k % 3
            box = [x, y, x + size, y + 1] if axes == 2 else [x, y, size, x + size, y + 1, 2]
            yield " ".join(map(str, ["insert", name, ident, *box]))


def add_free_pages(data):
    """Adds three free pages behind all others of a file that has none."""
    first = blocks_of(data)
    for page, after in ((first, first + 1), (first + 1, first + 2), (first + 2, 0)):
        put(data, page, 0, 1, 5)
        put(data, page, 4, 4, after)
    for place, number in ((12, first + 3), (16, first), (20, 3)):
        put(data, 1, place, 4, number)


class Damage:
    """Things that go wrong in a file by chance. A new number is a place in a page, a count of bytes, and the
    number; those that stand more than once come as much more often."""

    def __init__(self, dice, data):
        self.dice, self.data = dice, data

    # A number for a page: one of the file, or the one after them all.
    def page(self):
        return self.dice.randrange(blocks_of(self.data) + 1)

    # Of a node: its level, its count, a reference, a bound, a tag, or its kind or dimension.
    def of_node(self, page, axes):
        place, axis, small = self.dice.randrange(6), self.dice.randrange(2), self.dice.randrange(30)
        return [
            (4, 1, small % 4),
            (2, 2, small % 7),
            *[(16 + 800 * axes + 8 * place, 8, self.page())] * 3,
            *[(16 + 800 * axis + 4 * place, 4, small)] * 2,
            *[(416 + 800 * axis + 4 * place, 4, small)] * 2,
            (816 + 800 * axes + 4 * place, 4, small % 2),
            (axis, 1, small % 9),
        ]

    # Of a directory: the first page of a chain.
    def of_directory(self, page, axes):
        return [(16 + 4 * self.dice.randrange(4), 4, self.page())]

    # Of an object of a table: its identifier, or a bound or its tag.
    def of_object(self, axes, small):
        begin = 16 + (12 + 8 * axes) * self.dice.randrange(6)
        identifier = (begin, 8, 1000 * (small % 5) + small % 3)
        return [identifier] * 2 + [(begin + 8 + 4 * self.dice.randrange(5), 4, small)] * 3

    # Of a bucket: the next page, its count, an object, or its kind or dimension.
    def of_bucket(self, page, axes):
        small = self.dice.randrange(30)
        return [
            (4, 4, self.page()),
            (4, 4, page),
            (2, 2, small % 7),
            *self.of_object(axes, small),
            (self.dice.randrange(2), 1, small % 9),
        ]

    # Of a fork: its count, its level, a key, a child, or its kind or dimension.
    def of_fork(self, page, axes):
        begin, small = 16 + 12 * self.dice.randrange(4), self.dice.randrange(30)
        return [
            (2, 2, small % 7),
            (4, 1, small % 4),
            *[(begin, 8, 1000 * small)] * 2,
            *[(begin + 8, 4, self.page())] * 4,
            (self.dice.randrange(2), 1, small % 11),
        ]

    # Of a leaf of identifiers: its count, an object, or its kind or dimension.
    def of_leaf(self, page, axes):
        small = self.dice.randrange(30)
        return [
            *[(2, 2, small % 7)] * 2,
            *self.of_object(axes, small),
            (self.dice.randrange(2), 1, small % 11),
        ]

    # Of a record of the catalog, which mostly is still one that opening takes.
    def of_record(self):
        begin, small = 256 + 64 * self.dice.randrange(3), self.dice.randrange(30)
        return [
            (begin + 25, 1, 2 + small % 2),
            (begin + 26, 1, 3 + small % 4),
            (begin + 27, 1, small % 4),
            *[(begin + 28, 4, self.page())] * 2,
            *[(begin + 32, 4, self.page())] * 2,
            (begin + 36, 8, small),
        ]

    def put_one(self, page, numbers):
        put(self.data, page, *self.dice.choice(numbers))

    # A new number for the free pages, in the header or in one of them; or a byte anywhere in a page.
    def in_chain(self):
        kind, last = self.dice.randrange(6), blocks_of(self.data) - 1
        if kind < 3:
            number = self.dice.randrange(6) if kind == 2 else self.page()
            self.put_one(1, [(12 + 4 * kind, 4, number)])
        elif kind < 5:
            self.put_one(last - self.dice.randrange(3), [(4, 4, self.page())])
        else:
            self.put_one(max(2, self.page()), [(self.dice.randrange(SIZE), 1, self.dice.randrange(256))])

    # A page in the place of another one, or in each other's place.
    def in_places(self):
        one, other = self.page(), self.page()
        if min(one, other) < 3 or max(one, other) >= blocks_of(self.data):
            return
        left, right = block_of(self.data, one), block_of(self.data, other)
        self.data[SIZE * one : SIZE * one + SIZE] = right
        if self.dice.randrange(2) == 0:
            self.data[SIZE * other : SIZE * other + SIZE] = left

    OF_KINDS = {
        NODE: of_node,
        OLD_NODE: of_node,
        DIRECTORY: of_directory,
        BUCKET: of_bucket,
        OLD_BUCKET: of_bucket,
        FORK: of_fork,
        LEAF: of_leaf,
    }

    def do(self):
        """One thing goes wrong, or none where it would be in a page that is free, or not there."""
        where = self.dice.randrange(16)
        if where == 0:
            self.put_one(2, self.of_record())
        elif where == 1:
            self.in_chain()
        elif where == 2:
            self.in_places()
        else:
            page = self.page()
            kind, axes = number_at(self.data, page, 0, 1), number_at(self.data, page, 1, 1)
            if kind in self.OF_KINDS:
                self.put_one(page, self.OF_KINDS[kind](self, page, 3 if axes == 3 else 2))


class ByChance(Live):
    """Files that are damaged by chance."""

    # The file of a store with these layers, and three free pages.
    def made(self, words, layers):
        commands = list(making(layers))
        self.write("store", b"")
        self.answers(f"--create {words} store", "\n".join(commands), "ok\n" * len(commands))
        data = bytearray(self.store())
        add_free_pages(data)
        return data

    # Puts the whole language to the store of a file, and closes it: what became of it.
    def fate(self, data, number):
        way, begin = number % 2, number // 2 % 7
        commands = ["check", "dump", *ASKED[way], *GETS]
        for change in CHANGED[way][begin:] + CHANGED[way][:begin] + ["dump", "check", "reopen"]:
            commands += [change, "layers"] if change == "reopen" else [change]
        self.write("store", data)
        status, replies, said, _ = self.result("--cache 8 store", text_of(commands))
        if said in (f"rstore: {at(1)}", f"rstore: {at(2)}"):
            self.assertEqual((status, replies), (1, ""))
            self.assertTrue(self.store() == data, "a file that is refused was changed")
            return "refused"
        replies = self.ended(commands, status, replies, said)
        if replies[0] == "ok\n":
            wanted = told(table_of(replies[1]), commands)
            for command, reply, want in zip(commands, replies, wanted):
                self.assertTrue(reply == want, f"{command}: {reply[:300]} and not {want[:300]}")
        # the file has the layers of the last closing
        layers = [reply for command, reply in zip(commands, replies) if command == "layers" and reply != FAILED]
        self.assertEqual(self.result("store", "layers\n")[:3], (0, layers[-1], ""))
        return "sound" if replies[0] == "ok\n" else "failed" if HALF_DONE in replies else "closed"

    def test_a_thousand_files(self):
        seed = os.environ.get("SEED", "13")
        few, few_in_chains = self.made("", FEW), self.made("--format 2", FEW)
        deep, chained, forked = self.made("", DEEP), self.made("--format 2", CHAINED), self.made("", FORKED)
        files = [chained] + [forked] * 2 + [deep] * 14 + [few_in_chains] * 10 + [few] * 13
        tally = {}
        for number in range(1000 if self.program == BUILT else 200):
            with self.subTest(seed=seed, file=number):
                dice, data = random.Random(f"{seed} {number}"), bytearray(files[number % 40])
                for _ in range(1 + dice.randrange(3)):
                    Damage(dice, data).do()
                fate = self.fate(data, number)
                tally[fate] = tally.get(fate, 0) + 1
        self.assertEqual(sorted(tally), ["closed", "failed", "refused", "sound"], tally)


if __name__ == "__main__":
    main()

#!/usr/bin/env python3
"""Runs the program over files whose tables of identifiers, trees and chains, grow and shrink: many identifiers that
ascend, descend, look random and come in clusters, in two and three axes, are added, moved and deleted beside a
dictionary, and the table has as few pages as it is to have then; 100,000 come and go in chains; the leaves of a
tree share, are cut and are joined as docs/RULES.md says; and buckets and chains have the bytes and the counts of
docs/FORMAT.md after each change, those of format 1 too. It tests the programs that `rt ci` made, by both
compilers; where there is none, one is made.

identifiers.py [WORDS OF unittest, as the name of a class or Class.test]
"""
import json
import random

from blocks import BUCKET, FORK, OLD_BUCKET, SIZE
from blocks import RunsOver, block_of, number_at, text_of, with_numbers
from runs import BUILT, main

NONE = "fail 10 NoObject\n"
RECORD = 256  # of the first layer, in the catalog


def scattered(number):
    """Another number for each: a number like a random one, also where the numbers follow one another."""
    once = number * 11400714819323198485 % 2**64
    twice = (once ^ once >> 30) * 13787848793156543929 % 2**64
    return (twice ^ twice >> 27) * 10723151780598845931 % 2**64


# The identifier that comes as that one.
ORDERS = {
    "ascending": lambda number: number,
    "descending": lambda number: 2**64 - 1 - number,
    "random": lambda number: number * 11400714819323198485 % 2**64,
    "scattered": scattered,
    "clustered": lambda number: (number % 64 * 2**58 + number // 64) % 2**64,
}

# Objects in an order: axes, how they come, how many there are and how many are looked for, how many pages the
# tree of identifiers has at most in the end, and what becomes of them: every third one moves where there is no
# number, or all go but each one of so many, where that is 0 all. Those that ascend leave full leaves, and others
# leaves that are 78 % full.
ROUNDS = [
    (2, "ascending", 12_000, 24_000, 87, None),
    (3, "descending", 8_000, 16_000, 91, None),
    (2, "random", 12_000, 24_000, 107, None),
    (3, "clustered", 8_000, 16_000, 91, None),
    (2, "scattered", 20_000, 400, 177, None),
    (3, "scattered", 20_000, 400, 227, None),
    (2, "descending", 20_000, 400, 177, None),
    (2, "random", 12_000, 12_000, 22, 10),
    (3, "descending", 8_000, 8_000, 10, 20),
    (3, "clustered", 8_000, 8_000, 36, 5),
    (3, "ascending", 39_000, 39_000, 1, 0),
    (2, "random", 6_000, 6_000, 1, 0),
]


class Tables(RunsOver):
    """Runs over a file with one layer, whose first block of identifiers the catalog names."""

    def says(self, words, commands, wanted):
        """A run with these commands goes well, and has just these replies."""
        status, replies, said, _ = self.result(words, text_of(commands))
        self.assertEqual((status, said), (0, ""))
        self.assertTrue(replies == wanted, f"{replies[:300]} and not {wanted[:300]}")

    def pages(self):
        """How many pages the table has."""
        status, told, _, _ = self.result("--stats --json store", "")
        self.assertEqual(status, 0)
        return json.loads(told)["layers"][0]["identifier_pages"]


def row(ident, place, axes, tag):
    """An object at a point, as rows and entries of loads have it."""
    point = f"{place % 997} {place // 997} {place % 31}".split()[:axes]
    return " ".join([str(ident), *point, *point]) + (f" tag {tag}" if tag else "")


class Orders(Tables):
    """Objects that come in some order are found, moved and deleted, in a table of few pages."""

    # The commands that change the objects in their order, and what is kept.
    def changes(self, axes, order, count, every):
        kept, commands = {}, [f"create a {axes} 100"]
        for number in range(count):
            tag = number * 2_654_435_761 % 2**32
            kept[ORDERS[order](number)] = row(ORDERS[order](number), number, axes, tag)
            commands.append("insert a " + kept[ORDERS[order](number)])
        for number in range(count):
            ident, moved = ORDERS[order](number), number * 7 + 1
            if every is None and number % 3 == 0:
                tag = number * 2_654_435_761 % 2**32
                kept[ident] = row(ident, moved, axes, tag)
                commands.append("move a " + row(ident, moved, axes, 0))
            elif every is not None and (every == 0 or number % every != 0):
                del kept[ident]
                commands.append(f"delete a {ident}")
        return kept, commands

    # A round over a new file: how many pages the table has then.
    def round(self, words, axes, order, count, looked, every):
        kept, commands = self.changes(axes, order, count, every)
        self.write("store", b"")
        self.says(f"--create {words} store", commands, "ok\n" * len(commands))
        idents = [ORDERS[order](number) for number in range(looked)]
        asks = ["check", "count a", *(f"get a {ident}" for ident in idents), "dump"]
        wanted = ["ok\n", f"ok 1\n{len(kept)}\n"]
        wanted += [f"ok 1\n{kept[ident]}\n" if ident in kept else NONE for ident in idents]
        wanted += [f"ok {len(kept) + 1}\ncreate a {axes} 100\n"]
        wanted += [f"insert a {kept[ident]}\n" for ident in sorted(kept)]
        self.says(f"{words} store", asks, "".join(wanted))
        return self.pages()

    def test_trees_of_identifiers(self):
        for axes, order, count, looked, most, every in ROUNDS:
            with self.subTest(axes=axes, order=order, count=count, every=every):
                for words in ("--cache 8", "--cache 4096"):
                    self.assertLessEqual(self.round(words, axes, order, count, looked, every), most)

    def test_chains_of_identifiers(self):
        for axes, order, count, looked, _, every in ROUNDS:
            with self.subTest(axes=axes, order=order, count=count, every=every):
                found = self.round("--format 2 --cache 64", axes, order, count, looked, every)
                self.assertLessEqual(found, 1 if every == 0 else 1001 + count // 100)


class Many(Tables):
    """100,000 objects with random identifiers come and go in chains, in an order that is random, too."""

    def test_a_hundred_thousand_objects_come_and_go(self):
        dice = random.Random(1)
        many = 100_000 if self.program == BUILT else 20_000
        idents = [scattered(number + 1) for number in range(many)]
        kept = {ident: row(ident, number, 2, number % 1000) for number, ident in enumerate(idents)}
        commands = ["create a 2 100", *(f"insert a {kept[ident]}" for ident in idents)]
        self.write("store", b"")
        self.says("--create --format 2 store", commands, "ok\n" * len(commands))
        dice.shuffle(idents)
        for begin, end, least, most in ((0, 0, 1001, 2**32), (0, many // 2, 1, 1099), (many // 2, many, 1, 1)):
            self.says("store", [f"delete a {ident}" for ident in idents[begin:end]], "ok\n" * (end - begin))
            for ident in idents[begin:end]:
                del kept[ident]
            asks = ["check", *(f"get a {ident}" for ident in idents)]
            rows = (f"ok 1\n{kept[ident]}\n" if ident in kept else NONE for ident in idents)
            self.says("store", asks, "".join(["ok\n", *rows]))
            self.assertTrue(least <= self.pages() <= most, self.pages())


def objects(first, count, step=2):
    return [f"{first + step * k} 0 0 0 0 tag {7 + k}" for k in range(count)]


def added(first, count=1, step=2):
    return [f"insert a {entry}" for entry in objects(first, count, step)]


def deleted(first, count=1, step=2):
    return [f"delete a {first + step * k}" for k in range(count)]


# How many objects the leaves of a tree of identifiers have, once so many with the even identifiers from 0 on were
# loaded, 400 into leaves of 144, 144 and 112, and changes were made.
FULL, MORE = added(303), added(301)  # the second leaf is full, and gets one more
LEAVES = [
    ("loaded", 400, [], [144, 144, 112]),
    ("shares with the one before it, which is emptier", 400, FULL + deleted(0, 44) + MORE, [123, 123, 112]),
    ("and which is as full as the one behind", 400, FULL + deleted(0, 32) + MORE, [129, 129, 112]),
    ("shares with the one behind it, which is emptier", 400, FULL + deleted(0, 31) + MORE, [113, 129, 129]),
    ("shares with one that is four fifths full", 400, FULL + added(701, 4) + MORE, [144, 131, 131]),
    ("is cut between two that are fuller", 400, FULL + added(701, 5) + MORE, [144, 73, 73, 117]),
    ("a first leaf shares with the one behind it", 400, deleted(288, 71) + added(1, 2), [110, 109, 112]),
    ("is cut, and one half loses objects", 145, added(1) + deleted(0, 15), [58, 73]),
    ("has two fifths, and loses one", 145, added(1) + deleted(0, 15) + deleted(100), [57, 73]),
    ("has less, loses one, and is joined", 145, added(1) + deleted(0, 15) + deleted(100, 2), [129]),
    ("the last object goes, and the leaf with it", 1, deleted(0), []),
]


class Leaves(Tables):
    """Full leaves share or are cut, and those with little are joined."""

    # The counts of the leaves of the file, of which the root is the fork.
    def leaves(self):
        data = self.store()
        root = number_at(data, 2, RECORD + 32, 4)
        self.assertEqual((number_at(data, root, 0, 1), number_at(data, root, 4, 1)), (FORK, 1))
        children = [number_at(data, root, 24 + 12 * k, 4) for k in range(number_at(data, root, 2, 2))]
        return [number_at(data, child, 2, 2) for child in children]

    def test_where_leaves_share_are_cut_and_joined(self):
        for about, count, changes, wanted in LEAVES:
            with self.subTest(about=about):
                self.write("store", b"")
                load = f"load a {count}\n" + "\n".join(objects(0, count))
                commands = ["create a 2 100", load, *changes, "check"]
                self.says("--create store", commands, "ok\n" * len(commands))
                self.assertEqual((self.leaves(), self.pages()), (wanted, 1 + len(wanted)))


def point(ident, at, tag, width=28):
    """The number that an object at the point (at, at) is in a bucket, of format 1 without its tag."""
    number = ident
    for bound in (at, at, at, at):
        number = number << 32 | bound
    return number << 32 | tag if width == 28 else number


def bucket(*numbers, kind=BUCKET, width=28):
    """The page of a bucket of these objects, the last of its chain."""
    places = [(0, 16 + width * place, width, number) for place, number in enumerate(numbers)]
    return with_numbers(b"", (0, 0, 2, kind << 8 | 2), (0, 2, 2, len(numbers)), *places)


# Objects of one chain, the second one with the greatest tag.
SEVEN, NEXT = "insert a 7 1 1 1 1 tag 70", "insert a 1007 2 2 2 2 tag 4294967295"
OLD = ["insert a 7 1 1 1 1", "insert a 1007 2 2 2 2"]
OLD_PAGE = bucket(point(7, 1, 0, 24), point(1007, 2, 0, 24), kind=OLD_BUCKET, width=24)
ONE, OTHER = point(7, 1, 70), point(1007, 2, 2**32 - 1)


class Chains(Tables):
    """The buckets of chains, by their bytes, and how full they are."""

    # A new file with these changes of a layer of so many axes.
    def makes(self, commands, axes=2):
        self.write("store", b"")
        commands = [f"create a {axes} 100", *commands, "check"]
        self.says("--create --format 2 store", commands, "ok\n" * len(commands))

    def changes(self, commands):
        self.says("--format 2 store", [*commands, "check"], "ok\n" * (len(commands) + 1))

    # The pages of the chain of a remainder, the first one first.
    def chain(self, rest):
        data = self.store()
        page, found = number_at(data, number_at(data, 2, RECORD + 32, 4), 16 + 4 * rest, 4), []
        while page:
            found.append(page)
            page = number_at(data, page, 4, 4)
        return found

    def counts(self, rest):
        return [number_at(self.store(), page, 2, 2) for page in self.chain(rest)]

    # The one page of the chain of 7.
    def has(self, wanted):
        (page,) = self.chain(7)
        self.assertTrue(block_of(self.store(), page) == wanted)

    def test_two_objects_share_a_bucket(self):
        for commands, wanted in (
            ([SEVEN, NEXT], bucket(ONE, OTHER)),
            ([SEVEN, NEXT, "delete a 7"], bucket(OTHER)),
            ([SEVEN, NEXT, "delete a 1007"], bucket(ONE)),
            ([SEVEN, NEXT, "move a 7 5 5 5 5"], bucket(point(7, 5, 70), OTHER)),
            (["load a 3\n7 1 1 1 1 tag 70\n8 2 2 2 2\n1007 2 2 2 2 tag 4294967295"], bucket(ONE, OTHER)),
        ):
            with self.subTest(commands=commands):
                self.makes(commands)
                self.has(wanted)

    def test_buckets_of_format_1_are_read_and_written_anew(self):
        asks = ["get a 7", "get a 1007", "get a 2007"]
        rows = "ok 1\n7 1 1 1 1\nok 1\n1007 2 2 2 2\n" + NONE
        for commands, wanted in (
            ([], OLD_PAGE),
            (["insert a 2007 3 3 3 3 tag 9"], bucket(point(7, 1, 0), point(1007, 2, 0), point(2007, 3, 9))),
            (["move a 1007 5 5 5 5"], bucket(point(7, 1, 0), point(1007, 5, 0))),
            (["delete a 7"], bucket(point(1007, 2, 0))),
        ):
            with self.subTest(commands=commands):
                self.makes(OLD)
                (page,) = self.chain(7)
                data = self.store()
                data = data[: SIZE * page] + OLD_PAGE + data[SIZE * page + SIZE :]
                self.write("store", data)
                self.says("store", asks, rows)
                self.assertTrue(self.store() == data)
                self.changes(commands)
                self.has(wanted)

    def test_chains_are_of_full_buckets_behind_their_first(self):
        self.makes(["\n".join(["load a 250", *objects(7, 249, 1000), "8 0 0 0 0"])])
        self.assertEqual((self.counts(7), self.counts(8)), ([49, 100, 100], [1]))
        self.changes([*added(1008), *added(249_007)])
        self.assertEqual((self.counts(7), self.counts(8)), ([50, 100, 100], [2]))
        self.says("store", ["get a 249007", "get a 250007"], "ok 1\n249007 0 0 0 0 tag 7\n" + NONE)

    def test_a_first_page_that_becomes_empty_is_freed(self):
        def sevens(word, first, count, *rest):
            return [" ".join([word, "a", str(7 + 1000 * k), *rest]) for k in range(first, first + count)]

        box = ("5 6 7 5 6 7", "tag 70")
        self.makes(sevens("insert", 0, 250, *box), 3)
        self.assertEqual(self.counts(7), [50, 100, 100])
        self.says("store", ["get a 250007", "get a 8"], NONE * 2)
        self.changes(sevens("move", 0, 1, "9 9 9 9 9 9"))
        rows = "".join(f"ok 1\n{1000 * k + 7} 5 6 7 5 6 7 tag 70\n" for k in range(1, 250))
        self.says("store", sevens("get", 0, 250), "ok 1\n7 9 9 9 9 9 9 tag 70\n" + rows)
        self.changes(sevens("delete", 0, 1))
        self.assertEqual(self.counts(7), [49, 100, 100])
        self.changes(sevens("insert", 0, 1, *box) + sevens("delete", 100, 51))
        self.assertEqual(self.counts(7), [99, 100])
        self.changes(sevens("delete", 0, 100) + sevens("delete", 151, 99))
        self.assertEqual((self.chain(7), self.pages()), ([], 1))
        self.changes(["drop a"])
        data = self.store()
        self.assertEqual(number_at(data, 1, 20, 4), number_at(data, 1, 12, 4) - 3)

    def test_pages_of_no_table_are_damaged(self):
        self.makes(["insert a 5 1 1 1 1 tag 6"])
        data = self.store()
        (page,) = self.chain(5)
        table = number_at(data, 2, RECORD + 32, 4)
        for numbers, commands, replies in (
            # a bucket as a directory, a directory of another dimension, and a bucket that names itself
            ([(2, RECORD + 32, 4, page)], ["get a 5"], f"fail 18 Damaged {page}\n"),
            ([(table, 1, 1, 3)], ["get a 5"], f"fail 18 Damaged {table}\n"),
            (
                [(page, 4, 4, page)],
                ["get a 5", "get a 1005", "delete a 1005", "insert a 1005 0 0 0 0"],
                "ok 1\n5 1 1 1 1 tag 6\n" + f"fail 18 Damaged {page}\n" * 3,
            ),
        ):
            with self.subTest(numbers=numbers):
                self.write("store", with_numbers(data, *numbers))
                self.says("store", commands, replies)


if __name__ == "__main__":
    main()

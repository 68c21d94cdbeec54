#!/usr/bin/env python3
"""Runs the program over files that are written by hand, whose one layer has a table of identifiers with one thing
wrong: chains of buckets, of formats 1 and 2, and a fork over leaves. A check of the file without damage answers
ok, and one of each other file names the page that is wrong; and each command of such a file ends, with an answer
that it may have, and leaves the file as it was where it is a question. It tests the programs that `rt ci` made, by
both compilers; where there is none, one is made.

damaged_tables.py [WORDS OF unittest, as the name of a class or Class.test]
"""
from blocks import BUCKET, FORK, OLD_BUCKET, with_numbers
from damaged import DIRECTORY, LEAF, Live, at, free, node
from runs import main

ZEROS = bytes(4096)


def page(kind, axes, count, *numbers):
    """A page by its kind, its axes, a count, and numbers: of each the place, the count of bytes and the number."""
    head = [(0, 0, 1, kind), (0, 1, 1, axes), (0, 2, 2, count)]
    return with_numbers(b"", *head, *((0, *number) for number in numbers))


def objects(first, count, apart, width=28):
    """Objects whose identifiers are so far apart, at the point 0, 0, with the tags 5 and so on if they have tags."""
    for place in range(count):
        yield 16 + width * place, 8, first + apart * place
        if width == 28:
            yield 40 + 28 * place, 4, 5 + place


def bucket(after, first, count):
    return page(BUCKET, 2, count, (4, 4, after), *objects(first, count, 1000))


def old_bucket(after, first, count):
    return page(OLD_BUCKET, 2, count, (4, 4, after), *objects(first, count, 1000, 24))


def directory(*chains):
    """A directory whose chains of the remainders 7, 8 and 9 begin at these pages."""
    return page(DIRECTORY, 2, 0, *((44 + 4 * k, 4, chain) for k, chain in enumerate(chains)))


def leaf(first, count, apart=1):
    return page(LEAF, 2, count, *objects(first, count, apart))


def fork(level, keys, children):
    numbers = [(16 + 12 * k, 8, key) for k, key in enumerate(keys)]
    numbers += [(24 + 12 * k, 4, child) for k, child in enumerate(children)]
    return page(FORK, 2, len(children), (4, 1, level), *numbers)


def over(data, *numbers):
    """A page with numbers written over it."""
    return with_numbers(data, *((0, *number) for number in numbers))


def ident(data, place, number):
    """A page with another identifier in a place."""
    return over(data, (16 + 28 * place, 8, number))


def outside_in(data):
    """A page in which the low of the first object on the first axis is 1, above its high."""
    return over(data, (24, 4, 1))


def scene(version, table, entries):
    """A file of one layer `a` of two axes, fanout 100: its table of identifiers from page 3 on, then a free page,
    and a tree of these objects, all of them at the point 0, 0."""
    first, leaves = 4 + len(table), [entries[k : k + 70] for k in range(0, len(entries), 70)]
    if len(entries) <= 100:
        leaves = [entries]
    rest = 4 + len(table)
    tree = [node(0, *((number, 0, 0, 0, 0) for number, _ in part)) for part in leaves]
    for data, part in zip(tree, leaves):
        for place, (_, tag) in enumerate(part):
            data[2416 + 4 * place : 2420 + 4 * place] = tag.to_bytes(4, "big")
    if len(leaves) > 1:
        tree.append(node(1, *((rest + k, 0, 0, 0, 0) for k in range(len(leaves)))))
    heads = [
        # the gate, shut; the header: version, next, one free page; and the catalog of `a`
        (0, 0, 8, 0x5253544152474154),
        (0, 8, 1, 1),
        (1, 0, 8, 0x5253544152484452),
        (1, 8, 2, version),
        (1, 12, 4, first + len(tree)),
        (1, 16, 4, 3 + len(table)),
        (1, 20, 4, 1),
        (2, 0, 2, 0x0101),
        (2, 256, 2, 0x0161),
        (2, 281, 3, 0x026400 + min(1, len(leaves) - 1)),
        (2, 284, 4, first + len(tree) - 1),
        (2, 288, 4, 3),
        (2, 292, 8, len(entries)),
    ]
    return with_numbers(b"", *heads) + b"".join([*table, free(0), *tree])


def tags(first, count, apart, tag=5, more=1):
    return [(first + apart * k, tag + more * k) for k in range(count)]


# The directory, the last bucket of a chain, a page of format 1, and its first one, a bucket alone, and the middle
# of that chain; page 8 is free.
LINKS, LAST, FIRST, ALONE, MIDDLE = (
    directory(5, 6, 0),
    bucket(0, 7, 100),
    bucket(7, 200_007, 2),
    bucket(0, 8, 1),
    bucket(4, 100_007, 100),
)
CHAINS = [LINKS, old_bucket(0, 7, 100), FIRST, ALONE, MIDDLE]
IN_CHAINS = tags(200_007, 2, 1000) + tags(100_007, 100, 1000) + tags(7, 100, 1000, 0, 0) + tags(8, 1, 1)

# What is wrong, the page that is another one, its bytes, and the page that a check names.
DAMAGED_CHAINS = [
    ("an identifier twice in a bucket", 5, ident(FIRST, 1, 200_007), 5),
    ("an identifier of a bucket before", 4, ident(LAST, 50, 201_007), 4),
    ("an identifier in another bucket", 6, bucket(0, 9, 1), 6),
    ("one of them in another bucket", 7, ident(MIDDLE, 99, 8), 7),
    ("a chain that closes on itself", 4, bucket(5, 7, 100), 5),
    ("a bucket that names itself", 6, bucket(6, 8, 1), 6),
    ("the first page of two chains", 3, directory(5, 6, 5), 5),
    ("the last page of two chains", 6, bucket(4, 8, 1), 4),
    ("a directory in a chain", 3, directory(5, 6, 3), 3),
    ("the catalog in a chain", 3, directory(5, 6, 2), 2),
    ("a free page in a chain", 3, directory(5, 6, 8), 8),
    ("a page past the last", 3, directory(5, 6, 99), 99),
    ("room in a middle page", 7, bucket(4, 100_007, 99), 7),
    ("room in a last page", 4, bucket(0, 7, 99), 4),
    ("room in an old last page", 4, old_bucket(0, 7, 99), 4),
    ("no objects", 6, over(ALONE, (2, 2, 0)), 6),
    ("a hundred and one objects", 6, over(ALONE, (2, 2, 101)), 6),
    ("a bucket of another dimension", 6, over(ALONE, (1, 1, 3)), 6),
    ("a node", 6, over(ALONE, (0, 1, 6)), 6),
    ("a count in the high byte", 6, over(ALONE, (2, 1, 1)), 6),
    ("a low above its high", 6, outside_in(ALONE), 6),
    ("the last low above its high", 7, over(MIDDLE, (16 + 28 * 99 + 8, 1, 0x7F)), 7),
    ("a directory of another dimension", 3, over(LINKS, (1, 1, 3)), 3),
    ("a bucket as a directory", 3, over(LINKS, (0, 4, 0x07020001)), 3),
]

# The root and its three leaves; page 7 is free.
KEYS, CHILDREN = [0, 100, 200], [4, 5, 6]
ROOT, SECOND = fork(1, KEYS, CHILDREN), leaf(100, 40)
TREE = [ROOT, leaf(10, 40), SECOND, leaf(200, 2)]
IN_TREE = tags(10, 40, 1) + tags(100, 40, 1) + tags(200, 2, 1)


def second(key, child):
    """The root with another second child."""
    return fork(1, [0, key, 200], [4, child, 6])


DAMAGED_TREES = [
    ("an identifier twice in a leaf", 5, ident(SECOND, 7, 100), 5),
    ("an identifier of the next leaf", 5, ident(SECOND, 7, 200), 5),
    ("an identifier of the leaf before", 5, ident(SECOND, 39, 99), 5),
    ("too few objects", 5, leaf(100, 36), 5),
    ("no objects at the edge", 6, leaf(200, 0), 6),
    ("too many objects", 6, over(leaf(200, 145), (2, 2, 146)), 6),
    ("a leaf of another dimension", 5, over(SECOND, (1, 1, 3)), 5),
    ("a fork in a leaf's place", 5, ROOT, 5),
    ("a bucket in a leaf's place", 5, over(SECOND, (0, 1, BUCKET)), 5),
    ("a low above its high", 5, outside_in(SECOND), 5),
    ("a root of another dimension", 3, over(ROOT, (1, 1, 3)), 3),
    ("a leaf as a root", 3, leaf(10, 40), 3),
    ("no level", 3, fork(0, KEYS, CHILDREN), 3),
    ("a level too high", 3, fork(7, KEYS, CHILDREN), 3),
    ("forks that are none", 3, fork(2, KEYS, CHILDREN), 4),
    ("a child twice", 3, second(100, 4), 4),
    ("the root as a child", 3, second(100, 3), 3),
    ("the catalog as a child", 3, second(100, 2), 2),
    ("a free page as a child", 3, second(100, 7), 7),
    ("a page past the last", 3, second(100, 99), 99),
    ("a key below objects that are before it", 3, second(40, 5), 4),
    ("a key above its objects", 3, second(101, 5), 5),
    ("a key of zero", 3, second(0, 5), 3),
    # of these a check may name the one page or the other
    ("too many children", 3, over(ROOT, (2, 2, 341)), None),
    ("as many children as fit", 3, over(ROOT, (2, 2, 340)), None),
    ("no children", 3, over(ROOT, (2, 2, 0)), None),
    ("itself below a high level", 3, fork(255, KEYS, [4, 3, 6]), None),
    ("keys that descend", 3, fork(1, [0, 200, 100], CHILDREN), None),
    ("no objects", 5, leaf(100, 0), None),
    ("one object", 5, leaf(120, 1), None),
    ("a full leaf of one identifier", 5, leaf(120, 145, 0), None),
    ("zeros", 5, ZEROS, None),
]


class Tables(Live):
    """What a check names, and what is answered otherwise."""

    # What a check answers of the scene with each damage, and then what each command does, put to the file alone.
    def survives(self, scene, damages, commands):
        self.assertEqual(self.questioned(scene, ["check", *(c for c in commands if c.startswith("get "))])[0], "ok\n")
        for what, place, data, named in damages:
            with self.subTest(what=what):
                damaged = scene[: 4096 * place] + data + scene[4096 * place + 4096 :]
                (check,) = self.questioned(damaged, ["check"])
                self.assertTrue(check == at(named) if named else check.startswith("fail 18 "), check)
                self.questioned(damaged, [command for command in commands if command.startswith("get ")])
                for command in commands:
                    if not command.startswith("get "):
                        self.asked(damaged, [command, "count a", "reopen"])

    def test_chains(self):
        some = (7, 8, 9, 1007, 99_007, 100_007, 200_007, 201_007, 250_007)
        gets = [f"get a {number}" for number in some]
        changes = [f"insert a {number} 0 0 0 0" for number in (8, 9, 1009, 250_007)]
        changes += [f"{word} a {number}{box}" for number in (7, 8, 100_007) for word, box in
                    (("delete", ""), ("move", " 1 1 2 2"))]
        self.survives(scene(2, CHAINS, IN_CHAINS), DAMAGED_CHAINS, [*gets, *changes, "drop a"])

    def test_trees(self):
        gets = [f"get a {number}" for number in (0, 10, 49, 60, 100, 120, 139, 150, 200, 201, 2**64 - 1)]
        changes = [f"insert a {number} 0 0 0 0" for number in (0, 60, 120, 150, 300)]
        changes += [f"{word} a {number}{box}" for number in (10, 120, 200) for word, box in
                    (("delete", ""), ("move", " 1 1 2 2"))]
        self.survives(scene(3, TREE, IN_TREE), DAMAGED_TREES, [*gets, *changes, "drop a"])


if __name__ == "__main__":
    main()

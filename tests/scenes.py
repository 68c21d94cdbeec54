#!/usr/bin/env python3
"""Worked scenes: small stores, by the shapes of whose trees queries go different ways (docs/RULES.md), with what is
answered there, as it was worked out by hand: at once, after a `reopen`, after a closing and an opening, and over a file
that is only read. A closing without a change before it writes nothing. (How many nodes the queries look at is tested by
`looks` of the crate image_tests.) It tests the programs that `rt ci` made, by both compilers; where there is none, one
is made.

scenes.py [WORDS OF unittest, as the name of a class or Class.test]
"""
from plain_table import Table
from rows import Answers, rows_of, told
from runs import main

# Two boxes that touch in a point; and points on a line, of which the leaves are {1,2} and {3,4,5}.
TWO = """
create a 2 4 -> ok
insert a 1 0 0 1 1 -> ok
insert a 2 1 1 2 2 -> ok
"""
FIVE = """
create l 2 4 -> ok
insert l 1 0 0 0 0 -> ok
insert l 2 1 0 1 0 -> ok
insert l 3 2 0 2 0 -> ok
insert l 4 3 0 3 0 -> ok
insert l 5 10 0 10 0 -> ok
"""

# Points of a layer of seven entries to a node. The last one takes two out of a leaf, of which the first splits it, and
# so the root, while the second still waits.
SPREAD = [f"{i} {7 * i % 101} {40 * i % 101} {7 * i % 101} {40 * i % 101}" for i in range(1, 35)]

# What a scene is of, what is made, and what is asked then.
SCENES = [
    (
        "an empty layer, and the greatest identifier",
        """
create a 2 4 -> ok
create b 2 100 -> ok
insert b LAST 0 0 0 0 -> ok
""",
        """
window a MIN MIN MAX MAX -> ok 0
count a -> ok 1 / 0
nearest a 3 0 0 -> ok 0
get b LAST -> ok 1 / LAST 0 0 0 0
get b 0 -> fail 10 NoObject
""",
    ),
    (
        "extremes",
        """
create c 3 4 -> ok
insert c 1 MIN MIN MIN MAX MAX MAX -> ok
insert c 2 MAX MAX MAX MAX MAX MAX -> ok
""",
        """
point c MIN MIN MIN -> ok 1 / 1 MIN MIN MIN MAX MAX MAX
nearest c 2 MIN MIN MIN -> ok 2 / 1 0 / 2 55340232195358851075
""",
    ),
    (
        "boxes that touch, and commands that are refused",
        TWO,
        """
window a 1 1 1 1 -> ok 2 / 1 0 0 1 1 / 2 1 1 2 2
window a 0 0 0 1 -> ok 1 / 1 0 0 1 1
window a 2 2 9 9 -> ok 1 / 2 1 1 2 2
point a 1 1 -> ok 2 / 1 0 0 1 1 / 2 1 1 2 2
inside a 0 0 1 1 -> ok 1 / 1 0 0 1 1
around a 1 1 2 2 -> ok 1 / 2 1 1 2 2
insert a 1 5 5 6 6 -> fail 9 Duplicate
get a 1 -> ok 1 / 1 0 0 1 1
layers -> ok 1 / a 2 4 2
dump -> ok 3 / create a 2 4 / insert a 1 0 0 1 1 / insert a 2 1 1 2 2
insert a 3 1 0 0 0 -> fail 7 BadBox
insert a 1 1 1 1 0 0 0 -> fail 8 WrongDims
count a -> ok 1 / 2
create A 2 4 -> fail 1 BadName
create abcdefghijklmnopqrstuvwxy 2 4 -> fail 1 BadName
create a 4 4 -> fail 4 BadDims
create b 2 3 -> fail 5 BadFanout
create b 2 101 -> fail 5 BadFanout
create a 2 4 -> fail 2 LayerExists
window q 0 0 1 1 -> fail 3 NoLayer
""",
    ),
    (
        "points on a line: all ties of the split are equal",
        FIVE,
        """
window l 10 0 10 0 -> ok 1 / 5 10 0 10 0
window l 0 0 10 0 -> ok 5 / 1 0 0 0 0 / 2 1 0 1 0 / 3 2 0 2 0 / 4 3 0 3 0 / 5 10 0 10 0
""",
    ),
    (
        "a first overflow below a root, which inserts object 6 again: the leaves are {1,2,7,6} and {3,4,5,8}",
        """
create r 2 4 -> ok
insert r 1 0 0 0 0 -> ok
insert r 2 2 2 2 2 -> ok
insert r 3 100 100 100 100 -> ok
insert r 4 102 102 102 102 -> ok
insert r 5 104 100 104 100 -> ok
insert r 6 60 60 60 60 -> ok
insert r 7 42 42 42 42 -> ok
insert r 8 103 101 103 101 -> ok
""",
        """
window r 60 60 60 60 -> ok 1 / 6 60 60 60 60
window r 0 0 104 102 -> ok 8 / 1 0 0 0 0 / 2 2 2 2 2 / 3 100 100 100 100 / 4 102 102 102 102 / 5 104 100 104 100 \
    / 6 60 60 60 60 / 7 42 42 42 42 / 8 103 101 103 101
""",
    ),
    (
        "a second overflow, which splits the leaf to which object 1 comes back: {1,2}, {3,4,5} and {7,8,6}",
        FIVE
        + """
insert l 6 11 0 11 0 -> ok
insert l 7 4 0 4 0 -> ok
insert l 8 5 0 5 0 -> ok
""",
        """
window l 6 0 12 0 -> ok 2 / 5 10 0 10 0 / 6 11 0 11 0
""",
    ),
    (
        "a root that is split while an entry waits, which is not lost",
        "create w 2 7 -> ok\n" + "".join(f"insert w {row} -> ok\n" for row in SPREAD),
        f"window w MIN MIN MAX MAX -> ok {len(SPREAD)} / {' / '.join(SPREAD)}\ncheck -> ok\n",
    ),
    (
        "objects, and nodes, at equal distances: the leaves are {2,7} and {9,5,4}, and {9,8} and {1,2,3}",
        """
create n 2 4 -> ok
insert n 9 5 0 5 0 -> ok
insert n 4 0 5 0 5 -> ok
insert n 7 -5 0 -5 0 -> ok
insert n 2 0 -5 0 -5 -> ok
insert n 5 3 4 3 4 -> ok
create t 2 4 -> ok
insert t 8 -5 0 -5 0 -> ok
insert t 9 -6 0 -6 0 -> ok
insert t 1 5 0 5 0 -> ok
insert t 2 6 0 6 0 -> ok
insert t 3 7 0 7 0 -> ok
""",
        """
nearest n 3 0 0 -> ok 3 / 2 25 / 4 25 / 5 25
nearest t 1 0 0 -> ok 1 / 1 25
""",
    ),
    (
        "more objects asked for than there are",
        """
create a 2 4 -> ok
insert a 1 1 0 1 0 -> ok
insert a 2 2 0 2 0 -> ok
insert a 3 3 0 3 0 -> ok
insert a 4 4 0 4 0 -> ok
""",
        """
nearest a 10 0 0 -> ok 4 / 1 1 / 2 4 / 3 9 / 4 16
nearest a 0 0 0 -> fail 14 BadCount
nearest a 1000001 0 0 -> fail 14 BadCount
""",
    ),
    (
        "tags: queries choose by them, rows show them, and a move keeps them",
        """
create a 2 4 -> ok
insert a 1 0 0 1 1 tag 7 -> ok
insert a 2 1 1 2 2 -> ok
create b 2 4 -> ok
insert b 1 0 0 1 1 tag 7 -> ok
insert b 2 1 1 2 2 -> ok
move b 1 5 5 6 6 -> ok
create c 3 100 -> ok
load c 2 / 9 0 0 0 3 3 3 tag TAG / 8 1 1 1 2 2 2 tag 1 -> ok
""",
        """
window a 0 0 2 2 -> ok 2 / 1 0 0 1 1 tag 7 / 2 1 1 2 2
window a 0 0 2 2 tag 7 -> ok 1 / 1 0 0 1 1 tag 7
window a 0 0 2 2 tag 9 -> ok 0
point a 1 1 tag 0 -> ok 1 / 2 1 1 2 2
get b 1 -> ok 1 / 1 5 5 6 6 tag 7
inside c MIN MIN MIN MAX MAX MAX tag TAG -> ok 1 / 9 0 0 0 3 3 3 tag TAG
around c 1 1 1 1 1 1 tag 1 -> ok 1 / 8 1 1 1 2 2 2 tag 1
nearest a 2 0 0 -> ok 2 / 1 0 / 2 2
join a b -> ok 2 / 1 2 / 2 2
dump -> ok 9 / create a 2 4 / insert a 1 0 0 1 1 tag 7 / insert a 2 1 1 2 2 / create b 2 4 / insert b 1 5 5 6 6 tag 7 \
    / insert b 2 1 1 2 2 / create c 3 100 / insert c 8 1 1 1 2 2 2 tag 1 / insert c 9 0 0 0 3 3 3 tag TAG
""",
    ),
    (
        "a move to the box that the object has, and one to another",
        TWO
        + """
move a 1 0 0 1 1 -> ok
move a 1 5 5 6 6 -> ok
""",
        """
point a 0 0 -> ok 0
point a 6 6 -> ok 1 / 1 5 5 6 6
get a 1 -> ok 1 / 1 5 5 6 6
count a -> ok 1 / 2
move a 9 0 0 1 1 -> fail 10 NoObject
move a 9 1 0 0 0 -> fail 7 BadBox
move a 1 1 1 1 0 0 0 -> fail 8 WrongDims
move q 1 0 0 1 1 -> fail 3 NoLayer
delete a 99 -> fail 10 NoObject
drop A -> fail 1 BadName
drop b -> fail 3 NoLayer
check -> ok
""",
    ),
    (
        "a removal: the leaf of object 2 alone is given up, and the root with it, and the leaf is {3,4,5,2}",
        FIVE
        + """
delete l 1 -> ok
""",
        """
window l 1 0 1 0 -> ok 1 / 2 1 0 1 0
get l 1 -> fail 10 NoObject
delete l 1 -> fail 10 NoObject
check -> ok
""",
    ),
    (
        "an identifier that comes back with another box",
        FIVE
        + """
delete l 1 -> ok
delete l 2 -> ok
insert l 2 7 7 8 8 -> ok
""",
        """
window l 1 0 1 0 -> ok 0
get l 2 -> ok 1 / 2 7 7 8 8
count l -> ok 1 / 4
check -> ok
""",
    ),
    (
        "loads: the leaves are {1,2,3} and {4,5}; and loads that are refused, or of nothing",
        """
create t 2 4 -> ok
load t 5 / 1 0 0 0 0 / 2 1 0 1 0 / 3 2 0 2 0 / 4 3 0 3 0 / 5 10 0 10 0 -> ok
create u 2 4 -> ok
load u 0 -> ok
""",
        """
window t 10 0 10 0 -> ok 1 / 5 10 0 10 0
window t 3 0 3 0 -> ok 1 / 4 3 0 3 0
window t 0 0 2 0 -> ok 3 / 1 0 0 0 0 / 2 1 0 1 0 / 3 2 0 2 0
get t 4 -> ok 1 / 4 3 0 3 0
count t -> ok 1 / 5
load t 0 -> fail 12 NotEmpty
load u 3 / 1 0 0 0 0 / 2 0 0 0 0 / 1 0 0 0 0 -> fail 13 DuplicateInLoad 1
load u 2 / 1 1 0 0 0 / 1 0 0 0 0 0 0 -> fail 8 WrongDims
load t 2 / 1 0 0 0 0 / 1 1 0 0 0 -> fail 7 BadBox
count u -> ok 1 / 0
check -> ok
""",
    ),
    (
        "joins of layers, also with themselves, and what there is",
        TWO
        + FIVE
        + """
create c 3 4 -> ok
insert c 2 MAX MAX MAX MAX MAX MAX -> ok
""",
        """
join a a -> ok 4 / 1 1 / 1 2 / 2 1 / 2 2
join l a -> ok 2 / 1 1 / 2 1
join a l -> ok 2 / 1 1 / 1 2
join l a 1 -> ok 5 / 1 1 / 2 1 / 2 2 / 3 1 / 3 2
join l a 2 -> ok 7 / 1 1 / 1 2 / 2 1 / 2 2 / 3 1 / 3 2 / 4 2
join c c LAST -> ok 1 / 2 2
join a c 5 -> fail 15 DimsDiffer
join q C -> fail 1 BadName
join a q -> fail 3 NoLayer
layers -> ok 3 / a 2 4 2 / c 3 4 1 / l 2 4 5
dump -> ok 11 / create a 2 4 / insert a 1 0 0 1 1 / insert a 2 1 1 2 2 / create c 3 4 \
    / insert c 2 MAX MAX MAX MAX MAX MAX / create l 2 4 / insert l 1 0 0 0 0 / insert l 2 1 0 1 0 / insert l 3 2 0 2 0 \
    / insert l 4 3 0 3 0 / insert l 5 10 0 10 0
check -> ok
""",
    ),
]


class Scenes(Answers):
    """Each scene is answered so."""

    def test_each(self):
        for what, made, asked in SCENES:
            for words in ("--create store", "--create --format 2 --cache 8 store"):
                with self.subTest(scene=what, words=words):
                    self.write("store", b"")
                    self.stands(words, rows_of(made), rows_of(asked))

    def test_the_plain_table_answers_so(self):
        for what, made, asked in SCENES:
            rows = rows_of(made) + rows_of(asked)
            self.assertEqual(told(Table(), rows), rows, what)


main()

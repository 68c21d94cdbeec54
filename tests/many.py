#!/usr/bin/env python3
"""Stores with a thousand objects, and with sixty layers, whose replies were worked out by hand; and changes that end
as they began, which leave no more blocks: a layer is made and dropped a thousand times, and an object moved to the box
that it has. It tests the programs that `rt ci` made, by both compilers; where there is none, one is made.

many.py [WORDS OF unittest, as the name of a class or Class.test]
"""
from blocks import blocks_of
from rows import Answers, rows_of
from runs import main

NEW = ("--create --cache 8 store", "--create --format 2 --cache 8 store")

# Of a thousand objects, object i with the box from (i,2i) to (i+1,2i+1).
THOUSAND = rows_of(
    """
window b 10 20 12 24 -> ok 3 / 10 10 20 11 21 / 11 11 22 12 23 / 12 12 24 13 25
nearest b 2 0 0 -> ok 2 / 1 5 / 2 20
count b -> ok 1 / 1000
get b 1000 -> ok 1 / 1000 1000 2000 1001 2001
get b 1001 -> fail 10 NoObject
insert b 500 0 0 0 0 -> fail 9 Duplicate
"""
)

# Of sixty layers, each with one object.
SIXTY = rows_of(
    """
create z 2 4 -> fail 6 TooManyLayers
window l00 MIN MIN MAX MAX -> ok 1 / 0 0 0 0 0
window l37 MIN MIN MAX MAX -> ok 1 / 37 -37 -37 37 37
get l59 59 -> ok 1 / 59 -59 -59 59 59
window l60 MIN MIN MAX MAX -> fail 3 NoLayer
"""
)

# Of sixty layers, of which one went and another came.
STILL_SIXTY = rows_of(
    """
count l00 -> fail 3 NoLayer
count b -> ok 1 / 0
count l59 -> ok 1 / 1
create z 2 4 -> fail 6 TooManyLayers
check -> ok
"""
)


def made(*lines):
    """Rows of changes that are made."""
    return [(f"{line}\n", "ok\n") for line in lines]


def objects(count):
    return [f"{i} {i} {2 * i} {i + 1} {2 * i + 1}" for i in range(1, count + 1)]


def layers():
    """The changes that make sixty layers, the last one first."""
    rows = []
    for i in reversed(range(60)):
        rows += made(f"create l{i:02} 2 {4 + i}", f"insert l{i:02} {i} {-i} {-i} {i} {i}")
    return rows


class Many(Answers):
    """Many objects and many layers come back."""

    def each_stands(self, changes, asked):
        for words in NEW:
            self.write("store", b"")
            with self.subTest(words=words):
                self.stands(words, changes, asked)

    def test_a_thousand_objects(self):
        self.each_stands(made("create b 2 4", *(f"insert b {row}" for row in objects(1000))), THOUSAND)

    def test_a_thousand_objects_that_are_left_of_two_thousand(self):
        load = "\n".join(["load b 2000", *objects(2000)])
        deletes = [f"delete b {ident}" for ident in range(1001, 2001)]
        self.each_stands(made("create b 2 4", load, "check", *deletes, "check"), THOUSAND)

    def test_sixty_layers(self):
        self.each_stands(layers(), SIXTY)

    def test_a_dropped_layer_leaves_room_for_another(self):
        full = [("create b 2 4\n", "fail 6 TooManyLayers\n")]
        self.each_stands(layers() + full + made("drop l00", "create b 2 4"), STILL_SIXTY)


class AsTheyBegan(Answers):
    """Changes that end as they began leave no more blocks than before, or the file as it was."""

    # How many blocks a new file has after these changes.
    def blocks_after(self, words, changes):
        self.write("store", b"")
        self.answers_rows(words, made(*changes, "check"))
        return blocks_of(self.store())

    def test_a_layer_that_is_made_and_dropped_a_thousand_times(self):
        for changes in (
            ("create d 2 4", "drop d"),
            ("create d 2 4", "insert d 1 0 0 1 1", "drop d"),
            ("create d 2 4", "reopen", "drop d", "reopen"),
        ):
            for words in NEW:
                with self.subTest(words=words, changes=changes):
                    once = self.blocks_after(words, changes)
                    self.assertEqual([self.blocks_after(words, changes * times) for times in (100, 1000)], [once] * 2)

    def test_a_move_to_the_box_that_the_object_has(self):
        self.answers_rows("--create store", made("create a 2 4", "insert a 1 0 0 1 1", "insert a 2 1 1 2 2"))
        before = self.store()
        for words in ("store", "--read-only store"):
            self.answers_rows(words, made("reopen", "move a 1 0 0 1 1", "check"))
            self.assertTrue(self.store() == before, "a move to the same box changed the file")


main()

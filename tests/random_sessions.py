#!/usr/bin/env python3
"""Random sessions of thousands of commands beside a plain table (plain_table.py): each reply is the same, and in the
end the file is sound and has the layers and the objects of the table. A session is cut into runs, which cache from 8
pages on, and some of its lines close the store and open it again. It tests the programs that `rt ci` made, by both
compilers; where there is none, one is made.

random_sessions.py [WORDS OF unittest, as the name of a class or Class.test]

SEED=N in the environment makes other sessions.
"""
import functools
import os
import random

from blocks import PLANE, SPACE
from plain_table import RandomText, Table
from rows import Answers, told
from runs import main

SESSIONS = 16
RUNS_OF_A_SESSION = 16
LINES_OF_A_RUN = 125


def commands(source, chance):
    """The commands of a run. Some load a layer that is made anew."""
    for _ in range(LINES_OF_A_RUN):
        what = chance.randrange(64)
        if what == 0:
            yield "reopen"
        elif what == 1:
            name, dims = source.layer()
            yield from (f"drop {name}", f"create {name} {dims} 4", source.load(name, dims))
        else:
            yield source.line()


def rows_of_commands(table, lines):
    """The rows of commands, with the replies of the plain table."""
    return told(table, [(f"{line}\n", "") for line in lines])


@functools.cache
def session(seed):
    """The runs of a session: of each its rows and how many pages it caches; and what is asked in the end."""
    chance = random.Random(seed)
    source, table = RandomText(chance), Table()
    creates = [f"create {name} {dims} {chance.choice([4, 4, 5, 7, 20, 100])}" for name, dims in source.LAYERS]
    runs = [(rows_of_commands(table, creates), 8)]
    for _ in range(RUNS_OF_A_SESSION):
        runs.append((rows_of_commands(table, commands(source, chance)), chance.randrange(8, 68)))
    asks = ["layers", "dump", "check"]
    for name, _ in source.LAYERS:
        asks += [f"window {name} {PLANE}", f"window {name} {SPACE}", f"count {name}"]
        asks += [f"get {name} {ident}" for ident in range(source.idents)]
    return runs, rows_of_commands(table, asks)


class Sessions(Answers):
    """Sessions in memory and over a file, of each version, answer as the plain table does."""

    def setUp(self):
        super().setUp()
        begin = SESSIONS * int(os.environ.get("SEED", "0"))
        self.seeds = range(begin, begin + SESSIONS)

    def test_over_a_file(self):
        for seed in self.seeds:
            words = "--format 2 store" if seed % 2 else "store"
            runs, asked = session(seed)
            self.write("store", b"")
            with self.subTest(seed=seed):
                self.answers_rows(f"--create {words}", [])
                for rows, cache in runs:
                    self.answers_rows(f"--cache {cache} {words}", rows)
                self.answers_rows("--read-only store", asked)

    def test_in_memory(self):
        for seed in self.seeds:
            runs, asked = session(seed)
            with self.subTest(seed=seed):
                self.answers_rows("--cache 8", sum((rows for rows, _ in runs), []) + asked)

    def test_a_missing_object_is_seen(self):
        rows = rows_of_commands(Table(), ["create a 2 4", "insert a 1 0 0 0 0", "check"])
        asked = [("get a 1\n", "ok 1\n1 0 0 0 0\n")]
        self.answers_rows("", rows + asked)
        with self.assertRaises(AssertionError):
            self.answers_rows("", rows[:1] + rows[2:] + asked)


main()

#!/usr/bin/env python3
"""Sessions that close again and again, so that the log of commits grows, is copied home and begins anew
(docs/FORMAT.md, "The journal"). Behind each closing the reader that was written from docs/FORMAT.md alone finds in both
files the table that was closed, as a kill then would leave it; and behind a kill so does the program, which then leaves
FILE alone. It tests the programs that `rt ci` made, by both compilers; where there is none, one is made.

log.py [WORDS OF unittest, as the name of a class or Class.test]
"""
import random

import format_reader
from blocks import SIZE, block_of, blocks_of, number_at, text_of
from format import UNENDED, Read, box_of, load, objects_of, reply_of
from runs import main

LONG = 4096  # so many blocks of committed regions are copied home before the next write


def regions(journal):
    """How many blocks each committed region of a journal has."""
    found, at = [], 2
    while at < blocks_of(journal) and block_of(journal, at)[:9] == b"RSTARJNL\1":
        slots = number_at(journal, at + 1, 8, 4)
        found.append(2 + slots + -(-slots // 1024))
        at += found[-1]
    return found


def homes(journal):
    """The blocks of FILE that the slots of its committed regions are of."""
    found, at = [], 2
    for size in regions(journal):
        slots = number_at(journal, at + 1, 8, 4)
        found += [number_at(journal, at + 2 + slots + k // 1024, 4 * (k % 1024), 4) for k in range(slots)]
        at += size
    return found


class Session(Read):
    """A session over 12,000 objects, each part of which moves 400 of them and closes."""

    parts = 14
    words = "--cache 256 store"

    def setUp(self):
        super().setUp()
        self.dice = random.Random(21)
        self.makes("", ["create a 2 16", load("a", objects_of(self.dice, 2, range(12_000)))])
        self.base = self.store()
        self.session = self.held(self.words, "count a\n", "ok 1\n12000\n")

    # What the run replies to these commands, a line each.
    def asks(self, commands):
        self.session.stdin.write(text_of(commands).encode())
        self.session.stdin.flush()
        return [self.session.stdout.readline().decode() for _ in commands]

    # The rows that the run dumps.
    def dumped(self):
        rows = int(self.asks(["dump"])[0][3:])
        return f"ok {rows}\n" + "".join(self.session.stdout.readline().decode() for _ in range(rows))

    # Moves some objects and closes.
    def closes(self):
        moves = [f"move a {ident} {box_of(self.dice, 2)}" for ident in self.dice.sample(range(12_000), 400)]
        self.assertEqual(set(self.asks([*moves, "reopen"])), {"ok\n"})

    # What both files hold now: the reader of the format finds the same table.
    def found(self):
        files = self.files()
        base, journal = (format_reader.blocks_of(files[name]) for name in ("store", "store-journal"))
        return reply_of(format_reader.dump_rows(format_reader.Store(format_reader.recovered(base, journal))))

    def test_each_closing_is_found(self):
        sizes, homes = [], []
        for _ in range(self.parts):
            self.closes()
            told = self.dumped()
            self.assertTrue(self.found() == told, "another table is found than the one that was closed")
            files = self.files()
            sizes.append(regions(files["store-journal"]))
            homes.append(files["store"][SIZE:])
        # each adds a region, up to a long log, and changes no block of FILE but its gate
        self.assertEqual([len(it) for it in sizes[:4]], [1, 2, 3, 4])
        self.assertTrue(homes[3].startswith(self.base[SIZE:]), "a closing has changed a block of FILE")
        anew = [k for k in range(1, self.parts) if len(sizes[k]) <= len(sizes[k - 1])]
        self.assertTrue(anew, sizes)
        for k in anew:
            self.assertGreaterEqual(sum(sizes[k - 1]), LONG)
            self.assertEqual(len(sizes[k]), 1)
        for k in range(1, self.parts):
            if k not in anew:
                self.assertLess(sum(sizes[k - 1]), LONG)

    def test_a_kill_behind_each_closing(self):
        for part in range(6):
            self.closes()
            told = self.dumped()
            self.asks([f"delete a {part}"])  # is not closed
            self.session.kill()
            self.session.wait()
            status, replies, said, _ = self.result("store", "dump\ncheck\n")
            self.assertEqual((status, said), (0, UNENDED))
            self.assertTrue(replies == told + "ok\n")
            self.assertEqual(list(self.files()), ["store"])
            self.session = self.held(self.words, "count a\n", "ok 1\n12000\n")
            for _ in range(part):
                self.closes()

    # An opening writes the log anew, as one region that has the newest slot of each block.
    def test_an_opening_leaves_one_region(self):
        for _ in range(5):
            self.closes()
        told = self.dumped()
        self.session.kill()
        self.session.wait()
        was = self.files()["store-journal"]
        self.assertEqual(len(regions(was)), 5)
        self.session = self.held(self.words, "count a\n", "ok 1\n12000\n")
        now = self.files()["store-journal"]
        self.assertEqual(len(regions(now)), 1)
        self.assertEqual(homes(now), sorted(set(homes(was))))
        self.assertTrue(self.found() == told)
        self.closes()
        self.assertEqual(len(regions(self.files()["store-journal"])), 2)
        self.assertTrue(self.found() == self.dumped())

    def test_the_end_copies_all_home(self):
        for _ in range(3):
            self.closes()
        told = self.dumped()
        self.session.stdin.close()
        self.assertEqual(self.session.wait(60), 0)
        self.assertEqual(list(self.files()), ["store"])
        self.assertTrue(self.read() == told)
        self.agrees()


if __name__ == "__main__":
    main()

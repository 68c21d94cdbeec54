#!/usr/bin/env python3
"""Compares the program with the reader that was written from docs/FORMAT.md alone (format_reader.py): files that the
program makes, of two and three axes, small and large fanouts, each version and kind of table, with free pages, are
dumped by both; so are files whose run was killed, with their journal, at each step that a commit and a clean end come
to, behind one commit and behind several, and a run that only reads tells the same of them; of files with a wrong byte
both say whether they are sound; and the hexdumps of the page are what the program writes. It tests the programs that
`rt ci` made, by both compilers; where there is none, one is made.

format.py [WORDS OF unittest, as the name of a class or Class.test]
"""
import json
import os
import random
import re
import subprocess
import sys

import damaged
import damaged_tables as tables
import format_reader
from blocks import BUCKET, FORK, NODE, OLD_BUCKET, OLD_NODE, SIZE, VERSION
from blocks import RunsOver, block_of, blocks_of, number_at, pages_of, put, text_of, with_numbers
from images import CHAINED, FORKED, SMALL, as_format_1
from pages import named
from runs import TOP, main

UNENDED = "rstore: the last run did not end; what changed after its last closing is lost\n"
DIRECTORY, FREE, LEAF = 3, 5, 9  # kinds of pages
FLAG = 2  # the block of a journal that is the flag of its first region
NO_FLAG = b"RSTARJNL".ljust(SIZE, b"\0")  # of a region that is not committed
OLDER = int.from_bytes(b"RSTARTTL", "big")  # the text of the titles of older programs


def reply_of(rows):
    return "".join(f"{row}\n" for row in [f"ok {len(rows)}", *rows])


class Read(RunsOver):
    """Files that both read."""

    # What the reader says of the file: the reply to a `dump`, or why it is refused; no file is changed.
    def read(self):
        before = self.files()
        try:
            told = reply_of(format_reader.dump_rows(format_reader.read_store(self.path("store"))))
        except format_reader.Refused as why:
            told = str(why)
        self.assertTrue(self.files() == before, "a file was changed, made or removed")
        return told

    # Both dump the file alike, which is sound, and so does a run that only reads, which changes nothing.
    def agrees(self, may_say=("",)):
        told = self.read()
        self.assertTrue(told.startswith("ok "), told[:200])
        before = self.files()
        status, replies, said, _ = self.result("--read-only store", "dump\ncheck\n")
        self.assertEqual((status, said), (0, ""))
        self.assertTrue(replies == told + "ok\n", f"{replies[:300]} and not {told[:300]}")
        self.assertTrue(self.files() == before, "a file was changed, made or removed")
        status, replies, said, _ = self.result("store", "dump\ncheck\n")
        self.assertEqual(status, 0, said)
        self.assertIn(said, may_say)
        self.assertTrue(replies == told + "ok\n", f"{replies[:300]} and not {told[:300]}")

    # Both refuse the file, for the same reason.
    def both_refuse(self, why):
        told = self.read()
        self.assertEqual(told.split(":")[0], why)
        for words in ("--read-only store", "store"):
            status, replies, said, _ = self.result(words, "dump\n")
            self.assertEqual((status, replies), (1, ""), words)
            self.assertTrue(said.startswith(f"rstore: {why}"), said)

    # A new file of these commands.
    def makes(self, words, commands):
        self.write("store", b"")
        status, replies, said, _ = self.result(f"--create {words} store", text_of(commands))
        self.assertEqual((status, said, replies.count("fail")), (0, "", 0))

    def changes(self, commands, words="store"):
        self.answers(words, text_of(commands), "ok\n" * len(commands))

    def kinds(self):
        return {kind for _, kind in pages_of(self.store())}


def box_of(dice, axes, wide=50):
    lows = [dice.randrange(-(10**6), 10**6) for _ in range(axes)]
    return " ".join(map(str, lows + [low + dice.randrange(wide) for low in lows]))


def objects_of(dice, axes, idents, tag=True):
    return [f"{ident} {box_of(dice, axes)}" + (f" tag {dice.randrange(2**32)}" if tag else "") for ident in idents]


def load(layer, objects):
    return "\n".join([f"load {layer} {len(objects)}", *objects])


class Made(Read):
    """Files that the program makes."""

    LAYERS = [("a4", 2, 4), ("b100", 3, 100), ("c5", 3, 5), ("d_1", 2, 100), ("e", 2, 9)]

    def test_layers_of_each_kind(self):
        for words, kinds in (("", {NODE, FREE, FORK, LEAF}), ("--format 2", {NODE, FREE, DIRECTORY, BUCKET})):
            dice = random.Random(5)
            commands = [f"create {name} {axes} {fanout}" for name, axes, fanout in self.LAYERS]
            for name, axes, _ in self.LAYERS[:4]:
                idents = [dice.randrange(2**64) for _ in range(300)] + list(range(7, 150_007, 1000))
                commands += [f"insert {name} {it}" for it in objects_of(dice, axes, idents[:150])]
                commands += [f"delete {name} {ident}" for ident in idents[50:100]]
                commands += [f"insert {name} {it}" for it in objects_of(dice, axes, idents[150:], False)]
                commands += [f"move {name} {ident} {box_of(dice, axes)}" for ident in idents[300::3]]
            self.makes(words, commands)
            with self.subTest(words=words):
                self.agrees()
                self.changes([f"delete d_1 {ident}" for ident in range(7, 150_007, 1000)] + ["drop a4"])
                self.assertEqual(self.kinds(), kinds)
                self.agrees()

    def test_trees_of_identifiers_of_two_levels_of_forks(self):
        dice = random.Random(6)
        self.makes("", ["create a 3 100", load("a", objects_of(dice, 3, range(1, 80_001, 2), False))])
        self.assertEqual(number_at(self.store(), number_at(self.store(), 2, 256 + 32, 4), 4, 1), 2)
        self.agrees()
        self.changes([f"delete a {ident}" for ident in range(1, 6000, 2)] + ["insert a 2 1 1 1 2 2 2"])
        self.agrees()

    def test_files_of_format_1_and_files_that_were(self):
        for data in (SMALL, CHAINED, FORKED):
            self.write("store", data)
            self.agrees()
        dice = random.Random(7)
        idents = list(range(2000)) + list(range(2_005, 120_005, 1000))
        self.makes("--format 2", ["create a 2 4", load("a", objects_of(dice, 2, idents, False))])
        self.write("store", as_format_1(self.store()))
        self.assertEqual(number_at(self.store(), *VERSION), 1)
        self.assertEqual(self.kinds() - {FREE}, {OLD_NODE, DIRECTORY, OLD_BUCKET})
        self.agrees()
        self.changes([f"delete a {ident}" for ident in range(0, 200, 3)] + ["insert a 9999999 0 0 1 1 tag 8"])
        self.agrees()
        self.assertTrue({OLD_NODE, OLD_BUCKET, NODE, BUCKET} <= self.kinds())
        self.makes_a_layer_of_trees()

    # A file of an older version gets a layer with a tree of identifiers.
    def makes_a_layer_of_trees(self):
        self.changes(["create b 2 5", load("b", objects_of(random.Random(8), 2, range(500)))])
        self.assertEqual(number_at(self.store(), *VERSION), 3)
        self.assertTrue({OLD_BUCKET, FORK, LEAF} <= self.kinds())
        self.agrees()

    def test_the_words_of_the_reader(self):
        dice = random.Random(9)
        commands = ["create a 2 4", load("a", objects_of(dice, 2, range(300))), "create b 3 100"]
        self.makes("", commands)
        told, reader = {}, [sys.executable, os.path.join(TOP, "tests", "format_reader.py"), "store"]
        for words in ("", "--dump", "--layers", "--nodes a", "--nodes b"):
            run = subprocess.run([*reader, *words.split()], cwd=self.folder, capture_output=True, check=True)
            told[words] = run.stdout.decode()
        for words, command in (("", "dump"), ("--dump", "dump"), ("--layers", "layers")):
            self.answers("store", f"{command}\n", told[words])
        stats = json.loads(self.result("--stats --json store", "")[1])["layers"]
        for layer in stats:
            count, *rows = told[f"--nodes {layer['name']}"].splitlines()
            nodes = [tuple(map(int, row.split()[:3])) for row in rows]
            self.assertEqual(count, f"ok {layer['tree_pages']}")
            for level in layer["levels"]:
                found = [entries for _, on_level, entries in nodes if on_level == level["level"]]
                self.assertEqual((len(found), sum(found)), (level["nodes"], level["entries"]))
        self.write("store", self.store()[:8000])
        run = subprocess.run(reader, cwd=self.folder, capture_output=True, check=False)
        wanted = (1, b"", b"format_reader.py: fail 21 NotAStore\n")
        self.assertEqual((run.returncode, run.stdout, run.stderr), wanted)


def regions_of(journal):
    """The regions of a journal that say that they are committed, of each the block of its flag and the count of its
    slots; and the block behind them."""
    found, at = [], FLAG
    while block_of(journal, at)[:9] == b"RSTARJNL\1":
        slots = number_at(journal, at + 1, 8, 4)
        found.append((at, slots))
        at += 2 + slots + -(-slots // 1024)
    return found, at


def anew(journal):
    """The journal that an opening writes anew of this one: one region, with the last slot of each block."""
    newest = {}
    for at, slots in regions_of(journal)[0]:
        for k in range(slots):
            home = number_at(journal, at + 2 + slots + k // 1024, 4 * (k % 1024), 4)
            newest[home] = block_of(journal, at + 2 + k)
    homes = sorted(newest)
    count = b"RSTARJNL" + len(homes).to_bytes(4, "big")
    index = b"".join(home.to_bytes(4, "big") for home in homes)
    region = [b"RSTARJNL\1", count, *(newest[home] for home in homes), index]
    padded = b"".join(part.ljust(-(-len(part) // SIZE) * SIZE, b"\0") for part in region)
    return b"RSTARLOG" + journal[8 : FLAG * SIZE] + padded + NO_FLAG + bytes(SIZE)


class Killed(Read):
    """Files whose run was killed, with their journal: as the kill left them, and as stops at other moments would."""

    def setUp(self):
        super().setUp()
        dice = random.Random(10)
        self.makes("--format 2", ["create a 2 4", *(f"insert a {it}" for it in objects_of(dice, 2, range(40)))])
        self.old = self.store()
        commands = ["insert a 1000 1 1 2 2 tag 3", "move a 7 5 5 6 6", *(f"delete a {k}" for k in range(20, 30))]
        commands += [f"insert a {it}" for it in objects_of(dice, 2, range(2000, 2060))]
        self.kill("store", text_of([*commands, "reopen"]), "ok\n" * (len(commands) + 1))
        store, self.complete = self.files()["store"], self.files()["store-journal"]
        # the file of a stop behind the commit, before it had the mark
        self.base = self.old + store[len(self.old) :]
        self.assertTrue(store == with_numbers(self.base, (0, 8, 1, 2)))
        # the file once all is copied home, and the journal then
        self.new = with_numbers(self.home(self.base, self.complete), (0, 8, 1, 2))
        self.journal = with_numbers(self.complete, (FLAG, 8, 1, 0))
        self.slots = number_at(self.journal, FLAG + 1, 8, 4)

    # The file that recovery makes of both.
    def home(self, base, journal):
        return b"".join(format_reader.recovered(format_reader.blocks_of(base), format_reader.blocks_of(journal)))

    def clear(self):
        for name in self.files():
            os.remove(self.path(name))

    def puts(self, base, journal):
        self.clear()
        self.write("store", base)
        if journal is not None:
            self.write("store-journal", journal)

    # Both files behind these further commands of a run, each of which it does.
    def behind(self, run, commands):
        run.stdin.write(text_of(commands).encode())
        run.stdin.flush()
        self.assertEqual(b"".join(run.stdout.readline() for _ in commands), b"ok\n" * len(commands))
        files = self.files()
        return files["store"], files["store-journal"]

    # The same behind each of these parts of a run, which is then killed.
    def parts(self, *parts):
        run = self.held("store", "", "")
        found = [self.behind(run, commands) for commands in parts]
        run.kill()
        run.wait()
        return found

    # These files are read so, or refused.
    def tells(self, base, journal, why=None):
        self.puts(base, journal)
        if why is None:
            self.agrees(("", UNENDED))
            self.assertEqual(list(self.files()), ["store"])
        else:
            before = self.files()
            self.both_refuse(why)
            self.assertTrue(self.files() == before, "a file was changed, made or removed")

    def test_as_kills_leave_them(self):
        self.tells(with_numbers(self.base, (0, 8, 1, 2)), self.complete)
        self.tells(self.new, self.journal)
        self.assertIn("insert a 1000 1 1 2 2 tag 3\n", self.read())
        twice = ["reopen", "delete a 1000", "reopen"]
        for commands in (["delete a 1000"], [f"delete a {k}" for k in range(20)], twice):
            self.tells(self.new, self.journal)
            self.kill("--cache 8 store", text_of(commands), "ok\n" * len(commands))
            files = self.files()
            self.tells(files["store"], files["store-journal"])

    def test_a_commit_is_brought_back(self):
        marked = with_numbers(self.base, (0, 8, 1, 2))
        half = bytearray(marked)
        for slot in range(1, self.slots, 2):
            home = number_at(self.journal, 4 + self.slots, 4 * slot, 4)
            half[SIZE * home : SIZE * home + SIZE] = block_of(self.journal, 4 + slot)
        for base in (self.base, marked, half, with_numbers(half, (0, 9, 8, 2**64 - 1), (1, 0, 8, 5))):
            for cut in (None, -SIZE, -2 * SIZE):  # nothing need stand behind the region
                self.tells(base, self.complete[:cut])
                self.assertTrue(self.store() == with_numbers(self.new, (0, 0, 16, number_at(self.old, 0, 0, 16))))

    def test_an_index_of_two_blocks(self):
        self.clear()
        dice = random.Random(12)
        self.makes("", ["create a 2 4", load("a", objects_of(dice, 2, range(5000)))])
        old = self.store()
        moves = [f"move a {ident} {box_of(dice, 2)}" for ident in range(0, 5000, 3)]
        self.kill("store", text_of([*moves, "reopen"]), "ok\n" * (len(moves) + 1))
        base, journal = self.files()["store"], self.files()["store-journal"]
        self.assertGreater(number_at(journal, FLAG + 1, 8, 4), 1024)
        home = self.home(base, journal)
        for left in (base, old + base[len(old) :]):
            self.tells(left, journal)
            self.assertTrue(self.store() == home)

    def test_journals_without_a_commit(self):
        shut = with_numbers(self.new, (0, 8, 1, 1))
        ended = self.journal[:SIZE] + b"RSTAREND" + block_of(self.new, 1)[8:] + self.journal[2 * SIZE :]
        torn = with_numbers(shut, (0, 0, 8, 77), (0, 4000, 8, 78))
        for base, journal in (
            (self.base, self.journal),  # before the commit
            (self.base, self.journal[: 6 * SIZE]),
            (self.base, with_numbers(self.journal, (FLAG, 8, 1, 7))),
            (self.base, with_numbers(self.complete, (FLAG, 0, 8, 7))),
            (shut, None),
            (shut, b""),
            (shut, b"some bytes"),
            (shut, b"\7" * 2 * SIZE),
            (shut, self.complete[: 4 * SIZE]),  # no slots, be it of another file
            (self.new, self.journal[: 2 * SIZE]),
            (self.new, with_numbers(self.journal, (1, 0, 8, 3))),  # an end that was torn
            (self.new, ended),
            (shut, ended),
            (torn, ended),
        ):
            self.tells(base, journal)

    def test_what_is_refused(self):
        marked, other = with_numbers(self.base, (0, 8, 1, 2)), with_numbers(self.complete, (0, 100, 1, 9))
        behind = (self.slots + 4, 0, 4, blocks_of(self.base))  # slot 0 is of a block that is not there
        for base, journal, why in (
            (marked, None, format_reader.NO_JOURNAL),
            (marked, b"\7" * 5 * SIZE, format_reader.NO_JOURNAL),
            (self.base, b"\7" * 2 * SIZE + b"\7", format_reader.NO_JOURNAL),
            (self.base, other, format_reader.OTHER_JOURNAL),
            (self.base, with_numbers(other, (FLAG, 8, 1, 0)), format_reader.OTHER_JOURNAL),
            (self.base, with_numbers(other, (0, 0, 8, OLDER)), format_reader.OTHER_JOURNAL),
            (self.base, with_numbers(self.complete, (0, 0, 8, 7)), format_reader.NO_JOURNAL),
            (self.base[:SIZE], self.complete, format_reader.OTHER_JOURNAL),
            (marked[:SIZE], self.complete, format_reader.NO_JOURNAL),
            (self.base, with_numbers(self.complete, (3, 8, 4, self.slots + 1025)), format_reader.NO_JOURNAL),
            (self.base, self.complete[: -3 * SIZE], format_reader.NO_JOURNAL),
            (marked, with_numbers(self.complete, behind), format_reader.NO_JOURNAL),
            (marked, with_numbers(self.complete, (4, 4095, 1, 1)), format_reader.NO_JOURNAL),
            (marked, with_numbers(self.complete, (4, 8, 1, 0)), "fail 20 NotClosed"),
            (marked, with_numbers(self.complete, (self.slots + 3, 8, 2, 4)), "fail 22 WrongVersion"),
            (with_numbers(self.base, (0, 8, 1, 0)), None, "fail 20 NotClosed"),
        ):
            with self.subTest(why=why):
                self.tells(base, journal, why)

    # FILE keeps its blocks but for the mark, and gets others behind them.
    def test_a_log_of_several_commits(self):
        self.tells(self.new, self.journal)
        idents = [3000, 3001, 3002]
        states = self.parts(*([f"insert a {it} 1 1 2 2", f"delete a {it - 3000}", "reopen"] for it in idents))
        for count, (base, journal) in enumerate(states):
            regions, behind = regions_of(journal)
            self.assertEqual((len(regions), number_at(base, 0, 8, 1)), (count + 1, 2))
            self.assertTrue(base.startswith(states[0][0]))
            self.assertTrue(journal[SIZE * behind :].startswith(NO_FLAG + bytes(SIZE)))
            self.tells(base, journal)
            self.has(idents[: count + 1], idents[count + 1 :])
        self.tell_logs_that_are_cut(*states[1])

    # The file has the first of these objects, and none of the others.
    def has(self, some, others=()):
        rows = self.read()
        for idents, are_there in ((some, True), (others, False)):
            self.assertEqual([f"insert a {it} 1 1 2 2\n" in rows for it in idents], [are_there] * len(idents))

    # Of two regions the last one is not committed, or says that it is and is not whole.
    def tell_logs_that_are_cut(self, base, journal):
        [_, (last, slots)], behind = regions_of(journal)
        torn = [with_numbers(journal, (last, *number)) for number in ((8, 1, 0), (8, 1, 7), (0, 8, 7))]
        for cut in (*torn, journal[: SIZE * last]):
            self.tells(base, cut)
            self.has([3000], [3001])
        and_one_without_slots = with_numbers(journal, (behind, 8, 1, 1))
        for whole in (journal[: SIZE * behind], and_one_without_slots):
            self.tells(base, whole)
            self.has([3000, 3001])
        for broken in (
            journal[: SIZE * (last + 1)],
            journal[: SIZE * (behind - 1)],
            with_numbers(journal, (last + 1, 8, 4, slots + 1025)),
            with_numbers(journal, (last + 2 + slots, 4 * slots - 4, 4, blocks_of(base))),
            and_one_without_slots[: SIZE * (behind + 1)],
        ):
            self.tells(base, broken, format_reader.NO_JOURNAL)

    # A run that finds a commit writes its journal anew, copies nothing home but the gate, and adds its own commit behind.
    def test_a_run_goes_on_with_the_log_that_it_finds(self):
        self.puts(self.base, self.complete)
        found, (base, journal) = self.parts(["check"], ["insert a 3000 1 1 2 2", "reopen"])
        self.assertTrue(found == (self.base, anew(self.complete)))
        self.assertEqual(len(regions_of(journal)[0]), 2)
        self.assertTrue(journal[: SIZE * (self.slots + 5)] == found[1][: SIZE * (self.slots + 5)])
        older = self.base + base[len(self.base) :]
        self.assertTrue(base == with_numbers(older, (0, 8, 1, 2)))
        for left in (older, base):
            self.tells(left, journal)
            self.has([3000])

    # It has another text in its title, and nothing behind its one region: it is written anew, as those of today.
    def test_a_journal_of_an_older_program(self):
        older = b"RSTARTTL" + self.journal[8 : -2 * SIZE]
        complete = with_numbers(older, (FLAG, 8, 1, 1))
        marked = with_numbers(self.base, (0, 8, 1, 2))
        for base, journal in ((self.new, older), (self.base, older), (self.base, complete), (marked, complete)):
            self.tells(base, journal)
        self.puts(self.base, complete)
        [(base, journal)] = self.parts(["check"])
        self.assertTrue(base == self.base)
        self.assertTrue(journal == anew(complete))
        self.tells(base, journal)
        self.assertIn("insert a 1000 1 1 2 2 tag 3\n", self.read())

    # The first write behind a commit copies a log of 4096 blocks or more into FILE.
    def test_a_long_log_is_copied_home(self):
        self.clear()
        dice = random.Random(13)
        self.makes("", ["create a 2 4", load("a", objects_of(dice, 2, range(5000)))])
        run, long = self.held("store", "", ""), False
        for turn in range(8):
            moves = [f"move a {ident} {box_of(dice, 2)}" for ident in range(turn % 3, 5000, 3)]
            base, journal = self.behind(run, [*moves, "reopen"])
            regions, behind = regions_of(journal)
            base_then, journal_then = self.behind(run, ["insert a 3000000 1 1 2 2"])
            if long := behind - FLAG >= 4096:
                break
            self.assertTrue(base_then.startswith(base) and regions_of(journal_then)[0] == regions)
            self.behind(run, ["delete a 3000000"])
        run.kill()
        run.wait()
        self.assertTrue(long and len(regions) > 1)
        home = format_reader.recovered(format_reader.blocks_of(base), format_reader.blocks_of(journal))
        self.assertTrue(base_then.startswith(base[:SIZE] + b"".join(home[1:])))
        self.assertEqual(regions_of(journal_then)[0], [])
        for files in ((base, journal), (base_then, journal_then)):
            self.tells(*files)
            self.has([], [3000000])


class Damaged(Read):
    """Files with a wrong byte: the reader and the program say alike whether they are sound."""

    def test_files_with_a_wrong_byte(self):
        dice = random.Random(11)
        objects = objects_of(dice, 2, range(0, 600_000, 250))
        commands = ["create a 2 4", load("a", objects[:120]), "create b 2 100", load("b", objects[:1200])]
        commands += [f"delete a {ident}" for ident in range(0, 8000, 250)]
        files = [FORKED, CHAINED, SMALL]
        for words in ("", "--format 2"):
            self.makes(words, commands)
            files.append(self.store())
        sound = 0
        for turn in range(250):
            data = bytearray(files[turn % len(files)])
            page = dice.randrange(3, blocks_of(data)) if turn % 4 else dice.randrange(3)
            place = dice.choice([place for places in named(data, page) for place in places])
            byte = number_at(data, page, place, 1)
            put(data, page, place, 1, dice.choice([0, 255, byte ^ 1, byte ^ 2, byte ^ 8, (byte + 1) % 256]))
            self.write("store", data)
            with self.subTest(turn=turn, page=page, place=place):
                sound += self.says_alike(data)
        self.assertTrue(10 < sound < 150, sound)

    # Both find a file sound, and not sound with each of these damages.
    def falls(self, sound, damages):
        for what, data in [(None, sound), *damages]:
            self.write("store", data)
            with self.subTest(what=what):
                self.assertEqual(self.says_alike(data), what is None)

    def test_files_with_one_thing_wrong(self):
        changed = [*damaged.TREES, *damaged.TABLES, *damaged.CHAINS]
        self.falls(damaged.SOUND, [(what, with_numbers(damaged.SOUND, *numbers)) for what, numbers, _ in changed])
        for sound, damages in (
            (tables.scene(2, tables.CHAINS, tables.IN_CHAINS), tables.DAMAGED_CHAINS),
            (tables.scene(3, tables.TREE, tables.IN_TREE), tables.DAMAGED_TREES),
        ):
            cut = ((what, SIZE * page, data) for what, page, data, _ in damages)
            self.falls(sound, [(what, sound[:at] + data + sound[at + SIZE :]) for what, at, data in cut])
        self.falls(FORKED, [("a tree of identifiers in a file of version 2", with_numbers(FORKED, (*VERSION, 2)))])

    def test_pages_with_too_little_and_a_key_too_low(self):
        leaves, few = tables.TREE[1:], tables.leaf(100, 36)
        tags, chain = tables.tags, tables.bucket(4, 100_007, 99)
        in_chains = tags(200_007, 2, 1000) + tags(100_007, 99, 1000) + tags(7, 100, 1000, 0, 0) + tags(8, 1, 1)
        in_tree = tags(10, 40, 1) + tags(100, 36, 1) + tags(200, 2, 1)
        # a leaf of boxes with one object, of which the table and the record know, and the page of the other is free
        numbers = [(4, 2, 2, 1), (3, 416, 4, 1), (3, 1216, 4, 1), (6, 24, 4, 0), (2, 292, 8, 3)]
        numbers += [(14, 4, 4, 8), (8, 0, 8, 0x0500000000000000), (1, 20, 4, 3)]
        for data in (
            tables.scene(3, [tables.ROOT, leaves[0], few, leaves[2]], in_tree),
            tables.scene(3, [tables.second(49, 5), *leaves], tables.IN_TREE),
            tables.scene(2, [*tables.CHAINS[:4], chain], in_chains),
            with_numbers(damaged.SOUND, *numbers),
        ):
            self.write("store", data)
            self.assertFalse(self.says_alike(data))

    # Whether both find the file sound.
    def says_alike(self, data):
        told = self.read()
        status, replies, said, _ = self.result("store", "check\ndump\n")
        if told.startswith("ok "):
            self.assertEqual((status, said), (0, ""))
            self.assertTrue(replies == "ok\n" + told, f"{replies[:300]} and not {told[:300]}")
        elif status == 1:
            self.assertTrue(said.startswith("rstore: " + told.split(":")[0]), f"{said} and not {told}")
        else:
            self.assertTrue(replies.startswith("fail 18 Damaged "), f"{replies[:300]} and not {told}")
        self.assertTrue(self.store() == data)
        return told.startswith("ok ")


def examples():
    """The hexdumps of docs/FORMAT.md: of each the heading that it stands below, and its rows by their place. A line
    `*` stands for rows like the one before; what is not shown is not there."""
    with open(os.path.join(TOP, "docs", "FORMAT.md"), encoding="utf-8") as file:
        lines = file.read().splitlines()
    found, heading, last, starred = {}, None, None, False
    for line in lines:
        row = re.fullmatch(r" *([0-9a-f]{4,8})((?: {1,2}[0-9a-f]{2}){1,16})(?:  \|(.*)\|.*)?", line)
        end = re.fullmatch(r" *([0-9a-f]{8})", line)
        if re.fullmatch(r"#+ .*|page [0-9]+", line):
            heading, last, starred = line.lstrip("# "), None, False
        elif line.strip() == "*" and last is not None:
            starred = True
        elif row or (end and last is not None):
            at, rows = int((row or end)[1], 16), found.setdefault(heading, {})
            while starred and last + 16 < at:
                rows[last + 16] = rows[last]
                last += 16
            starred, last = False, at
            if row:
                rows[at] = bytes.fromhex(row[2])
                shown = "".join(chr(byte) if 32 <= byte < 127 else "." for byte in rows[at])
                assert row[3] in (None, shown), line
    return found


class Examples(Read):
    """The hexdumps of the page."""

    # The bytes are those that the rows show.
    def shows(self, rows, data, whole=True):
        for at, row in rows.items():
            self.assertEqual(data[at : at + len(row)].hex(" "), row.hex(" "), at)
        self.assertTrue(not whole or sum(map(len, rows.values())) == len(data))

    def test_pages(self):
        shown = examples()
        self.makes("--format 2", ["create a 2 4", "insert a 1 -1 2 3 4 tag 7"])
        for heading, block in (("Catalog", 2), ("Node pages", 3), ("Bucket pages", 5)):
            self.shows(shown[heading], block_of(self.store(), block))
        commands = ["insert a 10 1 2 1 2 tag 5", "insert a 11 -1 0 3 4 tag 6", "insert a 7 0 0 0 0 tag 7"]
        self.makes("", ["create a 2 4", *commands])
        fork = with_numbers(block_of(self.store(), 4), (0, 24, 4, 4))
        for heading, page in (("page 3", fork), ("page 4", block_of(self.store(), 5))):
            self.shows(shown[heading], page, False)
            self.assertFalse(any(page[max(shown[heading]) + 16 :]))

    def test_a_file_of_pages_without_a_place(self):
        rows = examples()["Pages"]
        data = b"".join(rows[at] for at in sorted(rows))
        self.assertEqual(len(data), 5 * SIZE)
        self.write("store", data)
        self.assertEqual(self.read(), "fail 18 Damaged 3: it has no place")
        self.answers("store", "check\n", "fail 18 Damaged 3\n")

    def test_the_journal_of_a_killed_run(self):
        self.makes("--format 2", ["create a 2 4", "insert a 1 0 0 1 1"])
        self.kill("store", "insert a 2 0 0 1 1\nreopen\n", "ok\nok\n")
        journal = self.files()["store-journal"]
        self.shows(examples()["Example"], journal, False)
        self.assertEqual(len(journal), 0xC000)


if __name__ == "__main__":
    main()

#!/usr/bin/env python3
"""Runs the program with words, a file and a text, and looks at its replies, its standard error, its status
and the bytes of its file (docs/COMMANDS.md, "The program"): sessions in memory and in a file, limits, files
that are refused or only read, runs that are cut short, strict runs, versions, what is shown of a file,
imports, and what is told at a terminal. What tests/status.sh looks at is left to it. It tests the programs
that `rt ci` made, by both compilers; where there is none, one is made.

program.py [WORDS OF unittest, as the name of a class or Class.test]
"""
import ctypes
import os
import pty
import shutil
import socket
import string
import struct
import tty

from runs import FIRST, NO_JOURNAL, NOT_A_STORE, TOP, UNCLOSED, Runs, main

UNENDED = "rstore: the last run did not end; what changed after its last closing is lost\n"
FAULT = "rstore: input or output failed\n"
NOT_EMPTY = "rstore: FILE is not empty: without --create it is opened as it is\n"
WRONG_VERSION = "rstore: fail 22 WrongVersion\n"
READ_UNCLOSED = "rstore: fail 20 NotClosed: open FILE once for writing\n"
BAD_LINE = "fail 24 BadLine\n"
OTHER_JOURNAL = "FILE-journal is the journal of another file: move it beside its own file"

ROWS = "ok 2\n1 0 0 10 10\n2 20 20 30 30\n"
SAID = "ok\nok\nok\n" + ROWS + "ok 0\n"

GATE_BYTE = 8  # where the gate says that the file was closed (docs/FORMAT.md)
VERSION_AT = 4096 + 8  # where the header says its version, as two bytes
NO_FLAG = b"RSTARJNL" + bytes(4088)  # the flag of a journal that has nothing to bring back


def failing(text):
    """An input that fails behind this text: its other end is gone with a byte that was not read there."""
    end, other = socket.socketpair()
    end.sendall(b"x")
    other.sendall(text.encode())
    other.close()
    return end


def let_no_file_be_locked():
    """Has the system refuse this process each lock, as where a file system has none, by a filter of calls."""
    number = {"x86_64": 73, "aarch64": 32}[os.uname().machine]  # of the call flock
    load, equal, answer = 0x20, 0x15, 0x06
    refused, allowed = 0x00050000 | 37, 0x7FFF0000  # 37: no lock is to be had
    steps = [(load, 0, 0, 0), (equal, 0, 1, number), (answer, 0, 0, refused), (answer, 0, 0, allowed)]
    code = ctypes.create_string_buffer(b"".join(struct.pack("HBBI", *step) for step in steps))
    calls = ctypes.create_string_buffer(struct.pack("HL", len(steps), ctypes.addressof(code)))
    prctl = ctypes.CDLL(None).prctl
    prctl.argtypes = [ctypes.c_int] + [ctypes.c_ulong] * 4
    if prctl(38, 1, 0, 0, 0) != 0 or prctl(22, 2, ctypes.addressof(calls), 0, 0) != 0:
        raise OSError("the system takes no filter of calls")


def with_byte(files, block, offset, value):
    """FILE and its journal with another byte in this block, in FILE and in each slot that the log has of it."""
    store, journal = bytearray(files["store"]), bytearray(files["store-journal"])
    store[4096 * block + offset] = value
    at = 2
    while journal[4096 * at : 4096 * at + 9] == b"RSTARJNL\1":
        count = int.from_bytes(journal[4096 * at + 4104 : 4096 * at + 4108], "big")
        index = 4096 * (at + 2 + count)
        for slot in range(count):
            if int.from_bytes(journal[index + 4 * slot : index + 4 * slot + 4], "big") == block:
                journal[4096 * (at + 2 + slot) + offset] = value
        at += 2 + count + -(-count // 1024)
    return bytes(store), bytes(journal)


def text_of(file):
    """A file of the repository."""
    with open(os.path.join(TOP, file), encoding="utf-8") as it:
        return it.read()


class Sessions(Runs):
    """The words, and the texts that are answered in memory and over a file."""

    def test_in_memory(self):
        for words in ("", "--create", "--create --cache 8", "--cache=4096"):
            self.answers(words, FIRST, SAID)

    def test_in_a_file(self):
        self.answers("--create store", FIRST, SAID)
        self.answers("store", "window a 5 5 25 25", ROWS)

    def test_an_empty_file_is_made_a_store_by_words_in_either_order(self):
        self.write("store", b"")
        self.answers("store --create", FIRST, SAID)

    def test_the_session_that_a_newcomer_tries(self):
        self.answers("", text_of("examples/first.txt"), text_of("examples/first.out"))

    def test_what_is_told_before_anything_is_built_is_what_the_program_tells(self):
        told = self.result("--help", "")[1].replace(os.path.basename(self.program), "rstore", 1)
        self.assertEqual(told, text_of("docs/help.txt"))

    def test_words_that_are_told(self):
        for words in ("--help", "-h", "--version"):
            status, replies, said, _ = self.result(words, "create a 2 4")
            self.assertEqual((status, said), (0, ""), words)
            self.assertNotEqual(replies, "", words)

    def test_words_that_are_refused(self):
        for words in ("--cache -8", "--cache 64 --cache 64"):
            status, replies, said, read = self.result(words, "create a 2 4")
            self.assertEqual((status, replies, read), (2, "", 0), words)
            self.assertNotEqual(said, "", words)

    def test_what_was_made_before_input_or_output_failed_is_kept(self):
        with failing("create a 2 4\n") as stdin:
            run = self.run_on(stdin, "--create store")
        self.assertEqual((run.returncode, run.stdout, run.stderr.decode()), (1, b"ok\n", FAULT))
        with open("/dev/full", "wb") as full:
            self.ends(1, "store", "insert a 1 0 0 10 10\n", "", FAULT, stdout=full)
        self.answers("store", "window a 0 0 1 1", "ok 1\n1 0 0 10 10\n")


class Limits(Runs):
    """Lines up to the limit of a line and beyond, loads that lack entry lines, and layers up to the most."""

    def test_a_line_has_at_most_4096_bytes(self):
        for ending in ("", "\n", "\n# more\n#"):
            for length, reply in (
                (4096, ""),
                (4097, BAD_LINE),
                (65_535, BAD_LINE),  # about the size of a buffer
                (65_536, BAD_LINE),
                (200_000, BAD_LINE),
            ):
                self.answers("", "#" * length + ending, reply)
        for line, reply in (
            ("create b 2 4", "ok\n"),
            ("count a", "ok 1\n0\n"),
            ("# a comment", ""),
            ("", ""),
        ):
            self.answers("", "create a 2 4\n" + line.ljust(4096), "ok\n" + reply)
            self.answers("", "create a 2 4\n" + line.ljust(4097), "ok\n" + BAD_LINE)

    def test_a_load_that_lacks_entry_lines_is_answered_once_at_the_end_of_the_text(self):
        for text in (
            "load a 3\n1 0 0 1 1\n2 0 0 1 1\n",
            "load a 3\n1 0 0 1 1\n2 0 0 1 1",
            "load a 1",
        ):
            self.answers("", "create a 2 4\n" + text, "ok\n" + BAD_LINE)

    def test_sixty_layers_are_the_most(self):
        names = [letter + digit for letter in string.ascii_lowercase for digit in string.digits]
        text = "".join(f"create {name} 2 4\n" for name in names)
        self.answers("", text, "ok\n" * 60 + "fail 6 TooManyLayers\n" * 200)


class Openings(Runs):
    """Files that are refused, and stay as they were."""

    def test_files_that_hold_no_store_or_are_not_empty(self):
        self.answers("--create store", FIRST, SAID)
        store = self.files()["store"]
        unclosed = bytearray(store)
        unclosed[GATE_BYTE] = 0
        for data, words, said in (
            (b"", "store", NOT_A_STORE),
            (b"some bytes", "store", NOT_A_STORE),
            (unclosed, "store", UNCLOSED),
            (b"some bytes", "--create store", NOT_EMPTY),
            (store, "--create store", NOT_EMPTY),
            (unclosed, "--create store", NOT_EMPTY),
            (b"some bytes", "--read-only store", NOT_A_STORE),
            (unclosed, "--read-only store", READ_UNCLOSED),
        ):
            self.write("store", data)
            self.refuses(1, words, said)

    def test_missing_bytes_read_as_zero_and_a_missing_page_is_damage(self):
        self.answers("--create store", FIRST, SAID)
        cut = self.files()["store"][:-4000]
        self.write("store", cut)
        self.answers("store", "window a 5 5 25 25", ROWS)
        self.write("store", cut[:-97])
        self.refuses(1, "store", "rstore: fail 18 Damaged 1\n")

    # The same of a file with each of these words.
    def each_unopens(self, words, file, why, **ways):
        for word in words:
            self.unopens(f"{word} {file}", why, **ways)

    def test_what_is_no_file(self):
        os.mkdir(self.path("folder"))
        missing = "cannot open FILE: no such file: --create makes one"
        self.each_unopens(("", "--read-only", "--stats"), "none", missing)
        every = ("", "--read-only", "--stats", "--create")
        self.each_unopens(every, "folder", "cannot open FILE: is a directory")
        self.each_unopens(every, "/dev/null", "cannot open FILE")

    def test_files_that_can_not_be_had(self):
        every = ("", "--read-only", "--stats", "--create")
        self.answers("--create store", FIRST, SAID)
        self.each_unopens(every, "store", "FILE cannot be locked", preexec_fn=let_no_file_be_locked)
        self.each_unopens(every, "store", "a standard stream is closed", preexec_fn=lambda: os.close(1))
        in_use = "FILE is in use: wait until the program that has it open ends"
        self.held("store", "layers\n", "ok 1\na 2 4 2\n")
        self.each_unopens(("", "--create", "--cache 8"), "store", in_use)

    def test_a_file_without_permission(self):
        self.answers("--create store", FIRST, SAID)
        os.chmod(self.path("store"), 0)
        ways = {}
        if os.geteuid() == 0:  # which may do anything, so another user runs the program
            shutil.copy(self.program, self.path("program"))
            self.program = self.path("program")
            os.chmod(self.folder, 0o755)
            ways = {"user": 65534, "group": 65534, "extra_groups": []}
        every = ("", "--read-only", "--stats", "--create")
        for word in every:
            said = "rstore: cannot open FILE: permission denied (FILE is store)\n"
            self.assertEqual(self.result(f"{word} store", FIRST, **ways), (1, "", said, 0))


class OnlyRead(Runs):
    """Questions are answered with status 0, and a change is refused with the store alive."""

    def setUp(self):
        super().setUp()
        self.answers("--create store", FIRST, SAID)
        self.before = self.files()

    def tearDown(self):
        self.assertTrue(self.files() == self.before, "a file that is only read was changed")

    def test_questions(self):
        self.answers("--read-only store", "window a 5 5 25 25", ROWS)

    def test_what_changes_nothing_is_no_change_nor_what_the_table_refuses(self):
        asked = "reopen\nmove a 1 0 0 10 10\ninsert a 1 0 0 1 1\ncheck\ncount a\n"
        self.answers("--read-only store", asked, "ok\nok\nfail 9 Duplicate\nok\nok 1\n2\n")

    def test_changes(self):
        asked = "insert a 3 0 0 1 1\ndelete a 1\ncreate b 2 4\nreopen\nwindow a 5 5 25 25\n"
        self.ends(1, "--read-only store", asked, "fail 17 Device\n" * 4 + ROWS, "rstore: fail 17 Device\n")

    def test_strict_runs(self):
        words = "--read-only --strict store"
        self.answers(words, "count a\n", "ok 1\n2\n")
        said = "rstore: line 2: drop a: fail 17 Device\n"
        self.ends(3, words, "count a\ndrop a\ncount a\n", "ok 1\n2\nfail 17 Device\n", said)


class BesideAWriter(Runs):
    """Runs that only read, beside one that writes: each sees one table that was closed, and nobody waits."""

    def setUp(self):
        super().setUp()
        self.answers("--create store", FIRST, SAID)
        self.writer = self.held("store", "layers\n", "ok 1\na 2 4 2\n")

    # What a held run replies to these lines, each by one line but for the last, whose rows follow.
    def asks(self, run, *lines):
        run.stdin.write("".join(f"{line}\n" for line in lines).encode())
        run.stdin.flush()
        said = [run.stdout.readline().decode() for _ in lines]
        rows = int(said[-1][3:]) if said[-1].startswith("ok ") else 0
        return "".join(said + [run.stdout.readline().decode() for _ in range(rows)])

    def test_each_reader_sees_the_table_that_was_closed_last(self):
        readers = []
        for ident in range(3, 9):
            readers.append((self.held("--read-only store", "count a\n", f"ok 1\n{ident - 1}\n"), ident - 1))
            self.assertEqual(self.asks(self.writer, f"insert a {ident} 0 0 1 1"), "ok\n")
            self.answers("--read-only store", "count a\n", f"ok 1\n{ident - 1}\n")
            self.assertEqual(self.asks(self.writer, "reopen"), "ok\n")
            self.answers("--read-only store", "count a\ncheck\n", f"ok 1\n{ident}\nok\n")
        for reader, count in readers:
            asked = self.asks(reader, "check", "reopen", "count a")
            self.assertEqual(asked, f"ok\nok\nok 1\n{count}\n")

    def test_what_only_reads_writes_nothing(self):
        self.asks(self.writer, "insert a 3 0 0 1 1", "reopen", "insert a 4 0 0 1 1")
        before = self.files()
        self.assertEqual(sorted(before), ["store", "store-journal"])
        for words in ("--read-only store", "--stats store", "--draw a store"):
            status, replies, said, _ = self.result(words, "dump\ncheck\n")
            self.assertEqual((status, said), (0, ""))
            self.assertTrue(replies)
        self.ends(1, "--read-only store", "insert a 9 0 0 1 1\n", "fail 17 Device\n", "rstore: fail 17 Device\n")
        self.assertTrue(self.files() == before, "a file was changed, made or removed")

    def test_a_writer_that_ends_beside_a_reader_leaves_the_journal(self):
        self.asks(self.writer, "insert a 3 0 0 1 1", "reopen", "insert a 4 0 0 1 1")
        reader = self.held("--read-only store", "count a\n", "ok 1\n3\n")
        self.writer.stdin.close()
        self.assertEqual(self.writer.wait(60), 0)
        kept = self.files()
        self.assertEqual(sorted(kept), ["store", "store-journal"])
        self.answers("--read-only store", "count a\n", "ok 1\n4\n")
        self.answers("store", "count a\ndelete a 1\nreopen\n", "ok 1\n4\nok\nok\n")
        self.answers("--read-only store", "count a\n", "ok 1\n3\n")
        self.assertEqual(self.asks(reader, "count a"), "ok 1\n3\n")
        self.assertEqual(self.asks(reader, "window a 5 5 6 6"), "ok 1\n1 0 0 10 10\n")
        reader.stdin.close()
        reader.wait(60)
        self.answers("store", "count a\ncheck\n", "ok 1\n3\nok\n")
        self.assertEqual(list(self.files()), ["store"])

    def test_a_second_writer_is_refused_also_once_the_first_has_closed(self):
        in_use = "FILE is in use: wait until the program that has it open ends"
        self.unopens("store", in_use)
        self.asks(self.writer, "insert a 3 0 0 1 1", "reopen")
        self.unopens("store", in_use)
        self.writer.kill()
        self.writer.wait()
        self.answers("store", "count a\n", "ok 1\n3\n")

    def test_a_file_of_two_names_has_one_writer_and_no_readers_beside_it(self):
        self.writer.kill()
        self.writer.wait()
        self.answers("store", "count a\n", "ok 1\n2\n")
        os.link(self.path("store"), self.path("other"))
        self.held("store", "count a\n", "ok 1\n2\n")
        in_use = "FILE is in use: wait until the program that has it open ends"
        for words in ("store", "other", "--read-only store", "--read-only other"):
            self.unopens(words, in_use)


class CutShort(Runs):
    """A run that is killed with one object that was closed and one that was not: what was closed is kept."""

    def setUp(self):
        super().setUp()
        text = "create a 2 8\ninsert a 1 0 0 5 5\nreopen\ninsert a 2 0 0 5 5\n"
        self.kill("--create store", text, "ok\n" * 4)

    # The file has the object that was closed. The run says whether the last one had not ended, and ends it.
    def holds_one(self, said):
        self.ends(0, "store", "count a\ncheck\n", "ok 1\n1\nok\n", said)
        self.assertEqual(list(self.files()), ["store"])

    def test_what_was_closed_is_kept(self):
        self.holds_one(UNENDED)
        self.holds_one("")

    def test_a_file_is_not_read_without_its_journal(self):
        before = self.files()
        self.answers("--read-only store", "count a\ncheck\n", "ok 1\n1\nok\n")
        self.assertTrue(self.files() == before, "a file that is only read was changed")
        os.rename(self.path("store-journal"), self.path("aside"))
        self.unopens("--read-only store", NO_JOURNAL)
        self.unopens("store", NO_JOURNAL)
        os.rename(self.path("aside"), self.path("store-journal"))
        self.holds_one(UNENDED)

    def test_what_is_no_journal_is_not_written(self):
        self.holds_one(UNENDED)
        self.write("store-journal", b"a" * 9000)
        self.unopens("store", NO_JOURNAL)
        os.remove(self.path("store-journal"))
        self.holds_one("")

    def test_a_refused_start_leaves_both_files(self):
        kept = self.files()
        for block, at, value, refusal in ((1, 9, 99, "22 WrongVersion"), (1, 15, 0, "18 Damaged 1"), (2, 0, 0, "18 Damaged 2")):
            store, journal = with_byte(kept, block, at, value)
            self.write("store", store)
            self.write("store-journal", journal)
            before = self.files()
            for words, said in (("store", f"rstore: fail {refusal}\n"), ("--create store", NOT_EMPTY)):
                self.assertEqual(self.result(words, FIRST), (1, "", said, 0))
                self.assertTrue(self.files() == before, (words, refusal))
        for name in kept:
            self.write(name, kept[name])
        self.holds_one(UNENDED)

    # Each making of the file is refused, and what stands there stays.
    def is_not_made(self):
        for words in ("--create store", "--create --strict store", "--create --format 2 store"):
            self.refuses(1, words, NOT_EMPTY)
        before = self.files()
        self.ends(1, "--create --import b store", "id,x,y\n1,5,5\n", "", NOT_EMPTY)
        self.assertTrue(self.files() == before, "an import changed a file, made or removed one")

    def test_a_store_is_not_made_anew_over_one_with_a_journal(self):
        self.is_not_made()
        self.holds_one(UNENDED)
        header = self.files()["store"][4104:8192]
        end = b"RSTAREND" + header
        for title in (b"RSTARLOG" + header, b"RSTARTTL" + header):
            for journal in (b"", title, title + bytes(4096), title + end, title + bytes(4096) + NO_FLAG):
                self.write("store-journal", journal)
                self.is_not_made()
                self.holds_one("")

    def test_a_file_that_was_moved_away_keeps_its_journal_where_another_is_made(self):
        os.rename(self.path("store"), self.path("away"))
        before = self.files()
        said = f"rstore: {OTHER_JOURNAL} (FILE is store)\n"
        self.assertEqual(self.result("--create store", FIRST), (1, "", said, 0))
        after = self.files()
        self.assertEqual(after.pop("store", b""), b"")
        self.assertTrue(after == before)
        os.rename(self.path("away"), self.path("store"))
        self.holds_one(UNENDED)

    def test_a_run_removes_no_other_journal_where_its_link_was_turned(self):
        self.answers("--create other", FIRST, SAID)
        os.symlink("other", self.path("link"))
        run = self.held("link", "insert a 3 0 0 1 1\nreopen\n", "ok\nok\n")
        os.remove(self.path("link"))
        os.symlink("store", self.path("link"))
        run.stdin.close()
        self.assertEqual(run.wait(), 0)
        self.assertEqual(sorted(self.files()), ["link", "other", "store", "store-journal"])
        self.answers("other", "count a\n", "ok 1\n3\n")
        os.remove(self.path("link"))
        os.remove(self.path("other"))
        self.holds_one(UNENDED)


class Strict(Runs):
    """The first line that is refused ends the run, is told by its number, and nothing is closed."""

    def test_a_refused_line_undoes_those_before_it(self):
        self.answers("--strict --create store", "create a 2 4\ninsert a 1 0 0 1 1\n", "ok\nok\n")
        before = self.files()["store"]
        text = "# changes\n\ninsert a 2 5 5 6 6\ninsert a 1 7 7 8 8\ninsert a 3 9 9 9 9\n"
        said = "rstore: line 4: insert a 1 7 7 8 8: fail 9 Duplicate\n"
        self.ends(3, "--strict store", text, "ok\nfail 9 Duplicate\n", said)
        after = self.files()
        self.assertEqual(list(after), ["store"])
        self.assertTrue(after["store"].startswith(before))

    def test_what_a_reopen_closed_before_a_refused_line_stands(self):
        text = "create a 2 4\ninsert a 1 0 0 1 1\ninsert a 2 5 5 6 6\nreopen\ndelete a 1\ncount b"
        said = "rstore: line 6: count b: fail 3 NoLayer\n"
        self.ends(3, "--strict --create store", text, "ok\n" * 5 + "fail 3 NoLayer\n", said)
        self.answers("store", "dump\n", "ok 3\ncreate a 2 4\ninsert a 1 0 0 1 1\ninsert a 2 5 5 6 6\n")

    def test_the_line_is_told_by_its_number(self):
        bad = "fail 24 BadLine"
        none = "fail 24 BadLine: no command begins so"
        long = "count a123456789 123456789 123456789 123456789 123456789 123"
        for text, oks, reply, told in (
            ("x", 0, bad, f"1: x: {none}"),
            ("  get\ta 1\r\n", 0, "fail 3 NoLayer", "1:   get?a 1?: fail 3 NoLayer"),
            ("\x1b[0m caf\u00e9\n", 0, bad, f"1: ?[0m caf??: {none}"),
            (
                "create a 2 4\nload a 3\n1 0 0 1 1\n2 0 0\n3 0 0 1 1\ncount a\n",
                1,
                bad,
                "2: load a 3: fail 24 BadLine: line 4 is no entry",
            ),
            (
                "create a 2 4\nload a 2\n1 0 0 1 1\n2 0 0 1 1\n# four lines so far\n\nx\ncount a\n",
                2,
                bad,
                f"7: x: {none}",
            ),
            (
                "create a 2 4\nload a 2\n1 0 0 1 1",
                1,
                bad,
                "2: load a 2: fail 24 BadLine: usage: load LAYER N, and N lines ID BOX [tag N]",
            ),
            (f"create a 2 4\n{long}456789\n", 1, bad, f"2: {long}..: fail 24 BadLine: usage: count LAYER"),
            (
                "create a 2 4\n\tinsert a +3 7 7 8 8\ncount a\n",
                1,
                bad,
                "2: ?insert a +3 7 7 8 8: fail 24 BadLine: usage: insert LAYER ID BOX [tag N]",
            ),
            (
                "create a 2 4\nload a 4\n1 0 0 1 1\n2 0 0 1 1\n\ncount a",
                1,
                bad,
                "2: load a 4: fail 24 BadLine: line 5 is no entry",
            ),
            ("x" * 4097 + "\ncount a\n", 0, bad, "1: ..: fail 24 BadLine: a line has at most 4096 bytes"),
        ):
            self.ends(3, "--strict", text, "ok\n" * oks + reply + "\n", f"rstore: line {told}\n")

    def test_what_follows_a_refused_load_is_not_read_as_lines(self):
        text = "create a 2 4\nreopen\nload a 1\n1 0 0\ninsert a 1 0 0 1 1\nreopen\n"
        said = "rstore: line 3: load a 1: fail 24 BadLine: line 4 is no entry\n"
        self.ends(3, "--strict --create store", text, "ok\nok\n" + BAD_LINE, said)
        self.answers("store", "count a\n", "ok 1\n0\n")

    def test_a_run_without_a_refusal_is_as_another(self):
        self.answers("--strict", "create a 2 4\ncount a", "ok\nok 1\n0\n")
        self.answers("--strict", "")


class Versions(Runs):
    """The version that the header of a file has, by `--format N` and without that word, and what that word refuses."""

    MAKES = "create a 2 4\ninsert a 1 0 0 10 10\ninsert a 2 20 20 30 30\n"
    MADE = "ok\nok\nok\n"
    ASKS = "check\nget a 1\nget a 3\nwindow a 5 5 25 25\n"
    TOLD = "ok\nok 1\n1 0 0 10 10\nfail 10 NoObject\n" + ROWS
    POINT = "id,x,y\n1,5,5\n"

    # A run with these words goes well, and leaves a file of this version.
    def leaves(self, version, words, given, replies):
        self.answers(words, given, replies)
        file = "another" if "another" in words else "store"
        with self.subTest(words=words):
            self.assertEqual(self.files()[file][VERSION_AT : VERSION_AT + 2], bytes([0, version]))

    def test_a_new_file_has_the_version_that_is_asked_and_each_answers_the_same(self):
        for version, words in (
            (3, "--create store"),
            (2, "--create --format 2 store"),
            (3, "--format=3 store --create"),
        ):
            self.leaves(version, words, self.MAKES, self.MADE)
            self.leaves(version, "--read-only store", self.ASKS, self.TOLD)
            os.remove(self.path("store"))

    def test_a_file_of_version_2_stays_one(self):
        self.leaves(2, "--create --format 2 store", self.MAKES, self.MADE)
        text = "create b 3 4\ninsert b 7 0 0 0 1 1 1\nget b 7\n"
        self.leaves(2, "--format 2 store", text, "ok\nok\nok 1\n7 0 0 0 1 1 1\n")
        self.leaves(2, "store", self.ASKS, self.TOLD)

    def test_a_new_layer_raises_the_version_and_nothing_else_does_and_no_word_lowers_it(self):
        self.leaves(2, "--create --format 2 store", self.MAKES, self.MADE)
        self.leaves(2, "store", "insert a 4 70 70 71 71\ndelete a 4\n", "ok\nok\n")
        self.leaves(2, "--format 2 store", self.ASKS, self.TOLD)
        self.leaves(3, "store", "create b 2 4\ninsert b 7 0 0 1 1\n", "ok\nok\n")
        self.leaves(3, "store", "drop b\n", "ok\n")
        self.leaves(3, "--format 3 store", self.ASKS, self.TOLD)

    def test_the_word_holds_for_strict_runs_and_imports_too_and_in_memory(self):
        self.leaves(2, "--strict --create --format 2 store", self.MAKES, self.MADE)
        self.leaves(2, "--import b --format 2 store", self.POINT, "")
        self.leaves(3, "--import c store", self.POINT, "")
        os.remove(self.path("store"))
        self.leaves(2, "--create --import b --format 2 store", self.POINT, "")
        self.answers("--format 2", self.MAKES, self.MADE)

    def test_where_nothing_is_written_the_word_changes_nothing(self):
        self.leaves(2, "--create --format 2 store", self.MAKES, self.MADE)
        before = self.files()
        for word in ("--format 2", "--format 3", ""):
            self.leaves(2, f"--read-only {word} store", self.ASKS, self.TOLD)
            self.assertEqual(self.result(f"--stats {word} store", "")[::2], (0, ""))
        self.assertTrue(self.files() == before)

    def test_a_newer_file_is_refused_whatever_is_asked_of_it(self):
        self.leaves(3, "--create store", self.MAKES, self.MADE)
        before = self.files()
        words = ("", "--read-only", "--strict", "--strict --read-only", "--stats", "--stats --json", "--draw a")
        for word in words:
            self.refuses(1, f"{word} --format 2 store", WRONG_VERSION)
        self.ends(1, "--import b --format 2 store", self.POINT, "", WRONG_VERSION)
        self.assertTrue(self.files() == before)
        self.leaves(2, "--create --format 2 another", self.MAKES, self.MADE)
        self.leaves(3, "store", self.ASKS, self.TOLD)

    # A run over the file, whose version is newer, was cut short. A start that may have version 2 alone is refused, and
    # both files stay.
    def is_refused_unended(self):
        before = self.files()
        self.assertEqual(sorted(before), ["store", "store-journal"])
        for word in ("", "--strict", "--cache 8"):
            self.refuses(1, f"{word} --format 2 store", WRONG_VERSION)
        self.refuses(1, "--read-only --format 2 store", WRONG_VERSION)
        self.ends(1, "--import b --format 2 store", self.POINT, "", WRONG_VERSION)
        self.assertTrue(self.files() == before, "an import changed a file, made or removed one")

    def test_a_newer_file_whose_run_was_cut_short_is_refused_and_both_files_stay(self):
        self.kill("--create store", self.MAKES + "reopen\ninsert a 3 40 40 50 50\n", self.MADE + "ok\nok\n")
        self.is_refused_unended()
        self.ends(0, "store", self.ASKS, self.TOLD, UNENDED)
        self.leaves(3, "store", self.ASKS, self.TOLD)

    def test_a_version_that_a_journal_brings_is_that_of_the_file(self):
        self.leaves(2, "--create --format 2 store", self.MAKES, self.MADE)
        old = self.files()["store"]
        self.kill("store", "create b 2 4\nreopen\n", "ok\nok\n")
        kept = self.files()
        self.write("store", kept["store"][:4096] + old[4096:8192] + kept["store"][8192:])
        self.is_refused_unended()
        self.ends(0, "store", self.ASKS, self.TOLD, "")
        self.leaves(3, "store", "count b\n", "ok 1\n0\n")

    def test_a_version_that_no_closing_wrote_is_not_that_of_the_file(self):
        self.leaves(2, "--create --format 2 store", self.MAKES, self.MADE)
        self.kill("store", "create b 2 4\n", "ok\n")
        self.assertEqual(sorted(self.files()), ["store", "store-journal"])
        self.leaves(2, "--format 2 store", self.ASKS + "count b\n", self.TOLD + "fail 3 NoLayer\n")


PICTURE = """\
<svg xmlns="http://www.w3.org/2000/svg" viewBox="0 0 10000 10940" width="1000" height="1094">
<style>text { font: 140px sans-serif; fill: #222222 }</style>
<rect width="10000" height="10940" fill="#ffffff"/>
<text x="300" y="280" style="font-size:200px;font-weight:bold">a</text>
<text x="300" y="500">fanout 4; x 0 to 30, y 0 to 30</text>
<g fill="none" stroke="#333333" stroke-width="5" stroke-opacity="0.7">
<rect x="300" y="6886" width="3133" height="3134"/>
<rect x="6566" y="620" width="3134" height="3133"/>
</g>
<g id="level0" fill="#0072b2" fill-opacity="0.12" stroke="#0072b2" stroke-width="8" stroke-opacity="0.85">
<rect x="300" y="620" width="9400" height="9400"/>
</g>
<rect x="300" y="10360" width="260" height="140" fill="#0072b2" fill-opacity="0.12" \
stroke="#0072b2" stroke-width="8"/>
<text x="700" y="10480">level 0 (root): nodes 1, entries 2, fill 50.0 %</text>
<rect x="300" y="10590" width="260" height="140" fill="none" stroke="#333333" stroke-width="5"/>
<text x="700" y="10710">boxes of objects: all 2</text>
</svg>
"""

TABLE = """\
layer a: 2 axes, fanout 4, objects 2, height 1
   level       nodes     entries   fill %   overlap of siblings
       0           1           2     50.0   0
   pages: 1 of the tree, 2 of identifiers; 6144 bytes an object
layer b: 3 axes, fanout 100, objects 0, height 1
   level       nodes     entries   fill %   overlap of siblings
       0           1           0      0.0   0
   pages: 1 of the tree, 1 of identifiers
"""

JSON = """\
{"layers":[{"name":"a","axes":2,"fanout":4,"objects":2,"height":1,"tree_pages":1,"identifier_pages":2,\
"bytes_per_object":6144,"levels":[{"level":0,"nodes":1,"entries":2,"fill_per_mille":500,"overlap":0}]},
{"name":"b","axes":3,"fanout":100,"objects":0,"height":1,"tree_pages":1,"identifier_pages":1,\
"bytes_per_object":null,"levels":[{"level":0,"nodes":1,"entries":0,"fill_per_mille":0,"overlap":0}]}]}
"""


class Shown(Runs):
    """Runs that show something of a file, and read no line: a tree as a picture, and what one tunes by."""

    def test_a_file_is_shown_and_stays(self):
        text = "create a 2 4\ninsert a 1 0 0 10 10\ninsert a 2 20 20 30 30\ncreate b 3 100\n"
        self.answers("--create store", text, "ok\n" * 4)
        before = self.files()
        for words, shown in (
            ("--draw a store", PICTURE),
            ("--stats store", TABLE),
            ("--read-only --stats store", TABLE),
            ("--stats --json store", JSON),
        ):
            self.assertEqual(self.result(words, "create c 2 4\n"), (0, shown, "", 0), words)
        self.assertTrue(self.files() == before)
        self.refuses(1, "--draw c store", "rstore: fail 3 NoLayer\n")
        self.refuses(1, "--draw C store", "rstore: fail 1 BadName\n")

    def test_words_that_do_not_go_together(self):
        nameless = "no FILE is named: --draw LAYER FILE and --stats FILE show one that is there"
        alone = "--json is for --stats: say it too"
        for words, why in (
            ("--stats", nameless),
            ("--draw a", nameless),
            ("--json x.rst", alone),
            ("--json --draw a x.rst", alone),
            ("--create --stats x.rst", "--draw and --stats show a FILE that is there: leave out --create"),
            ("--stats --draw a x.rst", "--draw LAYER and --stats are two runs: leave out one of them"),
            (
                "--stats --import a x.rst",
                "--draw and --stats put nothing in: leave out the words of an import",
            ),
            ("--strict --stats none", "--draw and --stats read no line: leave out --strict"),
            ("--strict --import a none", "--import puts in all objects or none: leave out --strict"),
        ):
            self.refuses(2, words, f"rstore: {why}\n")


class Imports(Runs):
    """Objects of CSV and of GeoJSON, put into a layer of a file, all of them or none."""

    BOXES = "id,minx,miny,maxx,maxy,tag\n7,-1.26,2,3.01,4,5\n8,0,0,1,1,\n"
    FEATURES = (
        '{"type":"Feature","id":9,"properties":{"kind":3},'
        '"geometry":{"type":"LineString","coordinates":[[0.5,1],[2,-1.5]]}}\n'
        '{"type":"Feature","properties":{"kind":4,"no":12},"geometry":{"type":"Point","coordinates":[7,8]}}\n'
    )
    BAD_ROW = ("id,minx,miny,maxx,maxy\n1,0,0,1,1\n2,0,0,1x,1\n", 'line 3, column maxx: "1x" is no number')

    def test_rows_and_features_are_put_into_a_layer_each_at_its_scale(self):
        self.answers("--create --import a:8 --scale 10 store", self.BOXES)
        self.answers("--import a --geojson --scale 1 --columns ,kind store", self.FEATURES)
        dumped = (
            "ok 5\ncreate a 2 8\ninsert a 2 7 8 7 8 tag 4\ninsert a 7 -13 20 31 40 tag 5\n"
            "insert a 8 0 0 10 10\ninsert a 9 0 -2 2 1 tag 3\nok\n"
        )
        self.answers("store", "dump\ncheck\n", dumped)

    def test_three_axes_and_a_layer_without_objects(self):
        self.answers("--create --import s store", "x,y,z\n")
        solid = (
            '{"type":"Feature","properties":{"no":"3"},'
            '"geometry":{"type":"MultiPoint","coordinates":[[1,2,3],[0,5,9]]}}\n'
        )
        self.answers("--import s --geojson --axes 3 --columns no store", solid)
        self.answers("store", "dump\n", "ok 2\ncreate s 3 100\ninsert s 3 0 2 3 1 5 9\n")

    # An import of this text is refused, and the files are as they were.
    def stays(self, status, words, text, why):
        before = self.files()
        self.ends(status, words, text, "", f"rstore: {why}\n")
        self.assertTrue(self.files() == before, f"{words} changed a file")

    def test_a_bad_row_changes_nothing(self):
        self.answers("--create store", "create a 2 8\ncreate b 3 8\n", "ok\nok\n")
        head = "id,minx,miny,maxx,maxy\n"
        for text, why in (
            self.BAD_ROW,
            (head + "1,5,0,1,1\n", 'line 2, column minx: "5" is above its high'),
            (head + "-1,0,0,1,1\n", 'line 2, column id: "-1" is no identifier'),
            (head + "1,0,0,3e10,1\n", 'line 2, column maxx: "3e10" is out of range'),
            ("id,minx,miny,maxx\n", "no column maxy: --columns LIST names the columns"),
            (
                "id,x,y\n1,3,55.00\n2,-0.1276,51.5\n",
                'line 3, column x: "-0.1276" is no whole number: --scale N multiplies coordinates, '
                "--scale 1 widens them to whole numbers",
            ),
            ("id,x,y,_X\n", "column _X is given twice"),
        ):
            self.stays(3, "--import a store", text, why)
        os.remove(self.path("store"))
        self.stays(3, "--create --import a store", *self.BAD_ROW)

    def test_what_the_store_refuses_changes_nothing(self):
        self.answers("--create store", "create a 2 8\ncreate b 3 8\n", "ok\nok\n")
        twins = "id,minx,miny,maxx,maxy\n3,0,0,1,1\n3,0,0,1,1\n"
        for layer, text, why in (
            ("a", twins, "fail 13 DuplicateInLoad 3"),
            ("b", self.BOXES, "fail 8 WrongDims"),
            ("B", self.BOXES, "fail 1 BadName"),
            ("c:3", self.BOXES, "fail 5 BadFanout"),
        ):
            self.stays(1, f"--import {layer} --scale 1 store", text, why)

    def test_an_object_that_is_there_undoes_those_before_it(self):
        self.answers("--create --import a store", "id,x,y\n5,0,0\n")
        before = self.files()["store"]
        said = "rstore: object 5: fail 9 Duplicate\n"
        self.ends(1, "--import a store", "id,x,y\n4,1,1\n5,2,2\n6,3,3\n", "", said)
        self.assertEqual(list(self.files()), ["store"])
        self.answers("store", "dump\n", "ok 2\ncreate a 2 100\ninsert a 5 0 0 0 0\n")
        self.assertTrue(self.files()["store"].startswith(before))

    def test_a_read_that_fails_opens_no_file(self):
        for words, text in (
            ("--create --import a store", ""),
            ("--create --import a store", "id,x,y\n1,2,3\n"),
            ("--geojson --import a store", ""),
        ):
            with failing(text) as stdin:
                run = self.run_on(stdin, words)
            self.assertEqual((run.returncode, run.stdout), (1, b""))
            self.assertTrue(run.stderr.startswith(b"rstore: the input could not be read: "), run.stderr)
            self.assertEqual(self.files(), {})

    def test_words_that_do_not_go_together(self):
        fanout = "--import LAYER:FANOUT: FANOUT is a number from 4 to 100"
        scale = "--scale N: N is a number from 1 to 1000000000"
        no_import = "--columns, --scale, --axes and --geojson are for --import LAYER: say it too"
        for words, why in (
            ("--import a", "no FILE is named: --import LAYER FILE puts objects into it"),
            ("--import a: x.rst", fanout),
            ("--import a:x x.rst", fanout),
            ("--import a --read-only x.rst", "--import writes FILE: leave out --read-only"),
            ("--import a --scale 0 x.rst", scale),
            ("--import a --scale 4294967297 x.rst", scale),
            (
                "--import a --axes 3 x.rst",
                "--axes N is for --geojson: the columns of CSV say how many axes there are",
            ),
            ("--import a --geojson --axes 4 x.rst", "--axes N: N is 2 or 3"),
            (
                "--import a --geojson --columns a,b,c x.rst",
                "--columns LIST: of GeoJSON LIST is ID,TAG and no more",
            ),
            ("--columns 1,2,3 x.rst", no_import),
            ("--scale 10 x.rst", no_import),
            ("--axes 2 x.rst", no_import),
            ("--geojson", no_import),
        ):
            self.refuses(2, words, f"rstore: {why}\n")


class AtATerminal(Runs):
    """What is told a person whose standard input or standard error is a terminal."""

    # A terminal, and the end of it that the program has.
    def terminal(self):
        ours, end = pty.openpty()
        self.addCleanup(os.close, ours)
        return ours, end

    def test_where_the_store_is_and_when_changes_are_kept(self):
        self.answers("--create store", "create a 2 4\n", "ok\n")
        for words, has, has_not in (
            ("store", ["store is in store", "`reopen`"], ["in memory"]),
            ("", ["in memory"], ["`reopen`"]),
            ("store --read-only", ["the store in store"], ["`reopen`"]),
        ):
            ours, end = self.terminal()
            os.write(ours, b"\x04")  # the end of the input
            run = self.run_on(end, words)
            os.close(end)
            said = run.stderr.decode()
            self.assertEqual((run.returncode, run.stdout), (0, b""), words)
            self.assertTrue(said.startswith("rstore: ") and said.endswith("\n"), said)
            self.assertEqual(said.count("\n"), 1)
            self.assertTrue(all(word in said for word in has), said)
            self.assertFalse(any(word in said for word in has_not), said)
        _, end = self.terminal()
        run = self.run_on(end, "--help")
        os.close(end)
        self.assertEqual((run.returncode, run.stderr), (0, b""))

    # What an import of this text says at a terminal.
    def told(self, status, words, text):
        ours, end = self.terminal()
        tty.setraw(end)
        self.assertEqual(self.result(words, text, stderr=end)[:2], (status, ""))
        os.write(end, b"\0")  # so that there is something to read
        said = b""
        while not said.endswith(b"\0"):
            said += os.read(ours, 65536)
        os.close(end)
        return said[:-1].decode()

    def test_how_much_of_a_long_text_was_read(self):
        text = "id,x,y\n" + (" " * 99 + "\n") * 25_000
        told = self.told(0, "--create --import a store", text)
        self.assertEqual(told, "\rrstore: 1 MB read\rrstore: 2 MB read\n")
        os.remove(self.path("store"))
        self.answers("--create --import a store", text)

    def test_how_many_of_many_objects_were_put_in(self):
        def rows(first, count):
            return "id,x,y\n" + "".join(f"{first + k},{k % 9},1\n" for k in range(count))

        def steps(everyone, *counts):
            return "".join(f"\rrstore: {count} of {everyone} objects put in" for count in counts)

        self.assertEqual(self.told(0, "--create --import a store", rows(0, 32_767)), "")
        self.assertEqual(self.told(0, "--import a store", rows(32_767, 32_767)), "")
        inserted = steps(70_000, 0, 32_768, 65_536, 70_000) + "\n"
        self.assertEqual(self.told(0, "--import a store", rows(100_000, 70_000)), inserted)
        self.assertEqual(self.told(0, "--import b store", rows(0, 40_000)), steps(40_000, 0, 40_000) + "\n")
        refused = steps(40_000, 0) + "\nrstore: fail 13 DuplicateInLoad 5\n"
        self.assertEqual(self.told(1, "--import c store", rows(0, 39_999) + "5,1,1\n"), refused)


main()

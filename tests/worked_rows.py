#!/usr/bin/env python3
"""Worked rows of the command language (docs/COMMANDS.md): one session of two hundred lines, each of which is asked
what the lines before it left. Its replies, which were worked out by hand, are those of the program in memory and over a
file, of each version; of the plain table with which other tests compare the program (plain_table.py); and of a run that
is given a byte at a time. Where the output has no more room, what is written is a front of them. And the sessions of
docs/COMMANDS.md are answered as it says. It tests the programs that `rt ci` made, by both compilers; where there is
none, one is made.

worked_rows.py [WORDS OF unittest, as the name of a class or Class.test]
"""
import os
import re
import resource
import signal
import socket
import threading

from plain_table import Table
from rows import Answers, given_by, replies_by, rows_of, told
from runs import TOP, main

FAULT = "rstore: input or output failed\n"

ROWS = rows_of(
    """
# the first run
create a 2 4 -> ok
insert a 1 0 0 10 10 -> ok
insert a 2 20 20 30 30 -> ok
window a 5 5 25 25 -> ok 2 / 1 0 0 10 10 / 2 20 20 30 30
window a 11 11 19 19 -> ok 0
# an empty layer
create b 2 100 -> ok
window b MIN MIN MAX MAX -> ok 0
count b -> ok 1 / 0
nearest b 3 0 0 -> ok 0
# extremes
create c 3 4 -> ok
insert c 2 MAX MAX MAX MAX MAX MAX -> ok
insert c 1 MIN MIN MIN MAX MAX MAX -> ok
window c MIN MIN MIN MIN MIN MIN -> ok 1 / 1 MIN MIN MIN MAX MAX MAX
point c MIN MIN MIN -> ok 1 / 1 MIN MIN MIN MAX MAX MAX
window c MAX MAX MAX MAX MAX MAX -> ok 2 / 1 MIN MIN MIN MAX MAX MAX / 2 MAX MAX MAX MAX MAX MAX
nearest c 2 MIN MIN MIN -> ok 2 / 1 0 / 2 55340232195358851075
# equal distances
create n 2 4 -> ok
insert n 9 5 0 5 0 -> ok
insert n 4 0 5 0 5 -> ok
insert n 7 -5 0 -5 0 -> ok
insert n 2 0 -5 0 -5 -> ok
insert n 5 3 4 3 4 -> ok
nearest n 3 0 0 -> ok 3 / 2 25 / 4 25 / 5 25
nearest n 1000000 3 3 -> ok 5 / 5 1 / 4 13 / 9 13 / 2 73 / 7 73
nearest n 0 0 0 -> fail 14 BadCount
nearest n 1000001 0 0 -> fail 14 BadCount
nearest n 0 0 0 0 -> fail 8 WrongDims
nearest q 0 0 0 -> fail 3 NoLayer
# touching
insert b 2 1 1 2 2 -> ok
insert b 1 0 0 1 1 -> ok
window b 1 1 1 1 -> ok 2 / 1 0 0 1 1 / 2 1 1 2 2
window b 2 0 2 0 -> ok 0
point b 1 1 -> ok 2 / 1 0 0 1 1 / 2 1 1 2 2
point b 2 0 -> ok 0
inside b 0 0 1 1 -> ok 1 / 1 0 0 1 1
inside b 1 1 1 1 -> ok 0
around b 1 1 2 2 -> ok 1 / 2 1 1 2 2
around b 0 0 2 2 -> ok 0
get b 2 -> ok 1 / 2 1 1 2 2
count b -> ok 1 / 2
# refusals
insert b 1 5 5 6 6 -> fail 9 Duplicate
get b 1 -> ok 1 / 1 0 0 1 1
count b -> ok 1 / 2
get b 99 -> fail 10 NoObject
get a 99 -> fail 10 NoObject
get q 1 -> fail 3 NoLayer
get B 1 -> fail 1 BadName
count q -> fail 3 NoLayer
count _ -> fail 1 BadName
point b 0 0 0 -> fail 8 WrongDims
point q 0 0 -> fail 3 NoLayer
inside b 1 1 1 0 0 0 -> fail 8 WrongDims
around b 1 0 0 0 -> fail 7 BadBox
insert b 3 1 0 0 0 -> fail 7 BadBox
create A 2 4 -> fail 1 BadName
create abcdefghijklmnopqrstuvwxy 2 4 -> fail 1 BadName
create b 4 4 -> fail 4 BadDims
create d 2 3 -> fail 5 BadFanout
create d 2 101 -> fail 5 BadFanout
create b 2 4 -> fail 2 LayerExists
window q 0 0 1 1 -> fail 3 NoLayer
insert b 1 1 1 1 0 0 0 -> fail 8 WrongDims
insert b LAST 0 0 0 0 -> ok
insert b 18446744073709551616 0 0 0 0 -> fail 24 BadLine
insert b 5 0 0 0 2147483648 -> fail 24 BadLine
window b 0 0 1 1 -> ok 3 / 1 0 0 1 1 / 2 1 1 2 2 / LAST 0 0 0 0
# what a reopening keeps
reopen -> ok
window b 2 2 9 9 -> ok 1 / 2 1 1 2 2
# all that there is
layers -> ok 4 / a 2 4 2 / b 2 100 3 / c 3 4 2 / n 2 4 5
join b b -> ok 7 / 1 1 / 1 2 / 1 LAST / 2 1 / 2 2 / LAST 1 / LAST LAST
join n b -> ok 0
join a b -> ok 3 / 1 1 / 1 2 / 1 LAST
join a b 0 -> ok 3 / 1 1 / 1 2 / 1 LAST
join a b 18446744073709551616 -> fail 24 BadLine
join b c 5 -> fail 15 DimsDiffer
join b c -> fail 15 DimsDiffer
join b q -> fail 3 NoLayer
join q B -> fail 1 BadName
join b -> fail 24 BadLine
layers b -> fail 24 BadLine
check -> ok
check b -> fail 24 BadLine
# moves and removals
move b 1 0 0 1 1 -> ok
move b 1 5 5 6 6 -> ok
point b 0 0 -> ok 1 / LAST 0 0 0 0
point b 6 6 -> ok 1 / 1 5 5 6 6
move b 9 0 0 1 1 -> fail 10 NoObject
move b 9 1 0 0 0 -> fail 7 BadBox
move b 1 0 0 0 1 1 1 -> fail 8 WrongDims
move q 1 0 0 1 1 -> fail 3 NoLayer
delete b 99 -> fail 10 NoObject
delete q 1 -> fail 3 NoLayer
delete b LAST -> ok
point b 0 0 -> ok 0
drop c -> ok
drop c -> fail 3 NoLayer
drop C -> fail 1 BadName
drop n -> ok
drop a -> ok
dump -> ok 3 / create b 2 100 / insert b 1 5 5 6 6 / insert b 2 1 1 2 2
check -> ok
reopen -> ok
# loads
create t 2 4 -> ok
load t 5 / 1 0 0 0 0 / 2 1 0 1 0 / 3 2 0 2 0 / 4 3 0 3 0 / 5 10 0 10 0 -> ok
window t 10 0 10 0 -> ok 1 / 5 10 0 10 0
load t 0 -> fail 12 NotEmpty
create u 2 4 -> ok
load u 3 / 1 0 0 0 0 / 2 0 0 0 0 / 1 0 0 0 0 -> fail 13 DuplicateInLoad 1
load u 2 / 1 0 0 0 0 /  /  -> fail 24 BadLine
load u 2 / 1 0 0 0 0 / # 2 0 0 0 0 -> fail 24 BadLine
load u 2 / count u / 1 0 0 0 0 / count u -> fail 24 BadLine / ok 1 / 0
load u 1 / 1 0 0 0 0 0 0 -> fail 8 WrongDims
load u 1 / 1 1 0 0 0 -> fail 7 BadBox
load q 1 / 1 0 0 0 0 -> fail 3 NoLayer
load U 1 / 1 0 0 0 0 -> fail 1 BadName
load u 1073741825 -> fail 24 BadLine
load u 0 -> ok
count u -> ok 1 / 0
load u 1 / 7 0 0 1 1 / count u -> ok / ok 1 / 1
layers -> ok 3 / b 2 100 2 / t 2 4 5 / u 2 4 1
check -> ok
# tags
create tag 2 4 -> ok
insert tag 1 0 0 1 1 -> ok
insert tag 2 0 0 1 1 tag 5 -> ok
insert tag 3 4 4 5 5 tag 5 -> ok
insert tag 4 0 0 1 1 tag TAG -> ok
insert tag 2 0 0 1 1 tag 7 -> fail 9 Duplicate
get tag 2 -> ok 1 / 2 0 0 1 1 tag 5
window tag 0 0 9 9 -> ok 4 / 1 0 0 1 1 / 2 0 0 1 1 tag 5 / 3 4 4 5 5 tag 5 / 4 0 0 1 1 tag TAG
window tag 0 0 9 9 tag 5 -> ok 2 / 2 0 0 1 1 tag 5 / 3 4 4 5 5 tag 5
window tag 0 0 1 1 tag 5 -> ok 1 / 2 0 0 1 1 tag 5
window tag 0 0 9 9 tag 0 -> ok 1 / 1 0 0 1 1
window tag 0 0 9 9 tag 6 -> ok 0
inside tag 0 0 2 2 tag TAG -> ok 1 / 4 0 0 1 1 tag TAG
around tag 0 0 0 0 tag 5 -> ok 1 / 2 0 0 1 1 tag 5
point tag 5 5 tag 5 -> ok 1 / 3 4 4 5 5 tag 5
point tag 5 5 tag 0 -> ok 0
window q 0 0 1 1 tag 5 -> fail 3 NoLayer
window tag 1 0 0 0 tag 5 -> fail 7 BadBox
window tag 0 0 9 9 tag 4294967296 -> fail 24 BadLine
# what a move and a reopening keep of tags
move tag 2 8 8 9 9 tag 7 -> fail 24 BadLine
move tag 2 8 8 9 9 -> ok
get tag 2 -> ok 1 / 2 8 8 9 9 tag 5
reopen -> ok
window tag 0 0 9 9 tag 5 -> ok 2 / 2 8 8 9 9 tag 5 / 3 4 4 5 5 tag 5
nearest tag 1 8 8 -> ok 1 / 2 0
delete tag 1 -> ok
delete tag 3 -> ok
create v 3 4 -> ok
load v 2 / 9 0 0 0 1 1 1 tag 6 / 8 0 0 0 1 1 1 tag -> fail 24 BadLine
load v 2 / 9 0 0 0 1 1 1 tag 6 / 8 0 0 0 1 1 1 -> ok
point v 0 0 0 tag 6 -> ok 1 / 9 0 0 0 1 1 1 tag 6
drop b -> ok
drop t -> ok
dump -> ok 8 / create tag 2 4 / insert tag 2 8 8 9 9 tag 5 / insert tag 4 0 0 1 1 tag TAG / create u 2 4 \
    / insert u 7 0 0 1 1 / create v 3 4 / insert v 8 0 0 0 1 1 1 / insert v 9 0 0 0 1 1 1 tag 6
check -> ok
# the longest rows
create LONG 3 100 -> ok
insert LONG LAST MIN MIN MIN MIN MIN MIN tag TAG -> ok
nearest LONG 1 MAX MAX MAX -> ok 1 / LAST 55340232195358851075
join LONG LONG -> ok 1 / LAST LAST
layers -> ok 4 / LONG 3 100 1 / tag 2 4 2 / u 2 4 1 / v 3 4 2
drop tag -> ok
drop u -> ok
drop v -> ok
dump -> ok 2 / create LONG 3 100 / insert LONG LAST MIN MIN MIN MIN MIN MIN tag TAG
insert LONG 0 MIN MIN MIN MAX 0 MIN -> ok
point LONG MIN MIN MIN -> ok 2 / 0 MIN MIN MIN MAX 0 MIN / LAST MIN MIN MIN MIN MIN MIN tag TAG
"""
)

# What the session leaves.
LEFT = rows_of(
    """
layers -> ok 1 / LONG 3 100 2
dump -> ok 3 / create LONG 3 100 / insert LONG 0 MIN MIN MIN MAX 0 MIN \
    / insert LONG LAST MIN MIN MIN MIN MIN MIN tag TAG
check -> ok
"""
)


class Rows(Answers):
    """The session is answered so, whatever it runs over."""

    def test_the_plain_table_answers_so(self):
        for row, found in zip(ROWS, told(Table(), ROWS)):
            self.assertEqual(found, row)

    def test_in_memory(self):
        for words in ("", "--format 2", "--cache 8"):
            self.answers_rows(words, ROWS)

    def test_over_a_file(self):
        for words in ("--create --cache 8 store", "--create --format 2 store"):
            self.write("store", b"")
            self.answers_rows(words, ROWS)
            self.answers_rows("--read-only store", LEFT)

    def test_a_strict_run_without_the_lines_that_are_refused(self):
        self.answers_rows("--strict", [row for row in ROWS if "fail" not in row[1]])

    def test_the_sessions_of_the_documentation(self):
        with open(os.path.join(TOP, "docs", "COMMANDS.md"), encoding="utf-8") as file:
            text = file.read()
        sessions = [found[0] for found in re.finditer(r"(?m)^    > (.*\n(    .*\n)*)", text)]
        self.assertEqual(len(sessions), 2)
        for session in sessions:
            rows = []
            for line in session.splitlines():
                if line.startswith("    > "):
                    rows.append((line[6:] + "\n", ""))
                else:
                    rows[-1] = (rows[-1][0], rows[-1][1] + line[4:] + "\n")
            self.answers_rows("", rows)


class Broken(Answers):
    """Inputs that come in parts, and outputs that break off."""

    def test_a_byte_at_a_time(self):
        # each read gets what one call sent
        ours, end = socket.socketpair(socket.AF_UNIX, socket.SOCK_SEQPACKET)

        def feed():
            for byte in given_by(ROWS).encode():
                ours.send(bytes([byte]))
            ours.close()

        feeder = threading.Thread(target=feed)
        feeder.start()
        run = self.run_on(end, "")
        end.close()
        feeder.join()
        self.are_rows(ROWS, (run.returncode, run.stdout.decode(), run.stderr.decode()))

    def test_an_output_that_has_no_more_room(self):
        replies = replies_by(ROWS)
        for room in range(0, len(replies), 61):
            with open(self.path("replies"), "wb") as output:
                ways = {"stdout": output, "preexec_fn": lambda: let_files_have(room)}
                status, _, said, _ = self.result("", given_by(ROWS), **ways)
            self.assertEqual((status, said), (1, FAULT), room)
            self.assertEqual(self.files()["replies"].decode(), replies[:room], room)


def let_files_have(room):
    """No file may get more than so many bytes; a write that is to go beyond them fails."""
    signal.signal(signal.SIGXFSZ, signal.SIG_IGN)
    resource.setrlimit(resource.RLIMIT_FSIZE, (room, room))


main()

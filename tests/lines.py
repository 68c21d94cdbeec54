#!/usr/bin/env python3
"""What lines mean (docs/COMMANDS.md, "Lines" and "Commands"): lines that are written in each way that is allowed, with
replies that show what was understood, and lines that are bad, which leave the store as it was. The replies were worked
out by hand; the plain table (plain_table.py) has the same. How long a line may be is tested by tests/program.py. It
tests the programs that `rt ci` made, by both compilers; where there is none, one is made.

lines.py [WORDS OF unittest, as the name of a class or Class.test]
"""
from plain_table import Table
from rows import Answers, given_by, told
from runs import main

LAST = 2**64 - 1
MIN, MAX = -(2**31), 2**31 - 1
BAD_LINE = "fail 24 BadLine\n"
OK = "ok\n"


def found(*rows):
    """The reply to a question that has these rows."""
    return f"ok {len(rows)}\n" + "".join(f"{row}\n" for row in rows)


# A line, or a load with its entry lines, and its reply. A byte above 127 stands for itself.
GOOD = [
    # names, blanks and numbers
    ("create a 2 4", OK),
    (" \t\rcreate\tb  0002 00000000000000000000000004\t \r", OK),
    ("layers", found("a 2 4 0", "b 2 4 0")),
    ("create \xff#\0 18446744073709551615 0", "fail 1 BadName\n"),
    ("create c 18446744073709551615 0", "fail 4 BadDims\n"),
    ("create c 3 18446744073709551615", "fail 5 BadFanout\n"),
    ("create c 3 0", "fail 5 BadFanout\n"),
    ("drop b\r", OK),
    # names of layers that are words of the language
    ("create tag 3 4", OK),
    ("create window 3 4", OK),
    ("create count 2 4", OK),
    ("create drop 2 4", OK),
    ("count count", found("0")),
    ("drop drop", OK),
    ("drop count", OK),
    ("window window 1 2 3 -4 -5 -6", "fail 7 BadBox\n"),
    ("window window -4 -5 -6 1 2 3", found()),
    ("drop window", OK),
    # boxes and tags
    ("insert a 18446744073709551615 -2147483648 -0 2147483647 00", OK),
    ("insert a 7 1 -2 3 4 tag 0007", OK),
    ("insert tag 7 1 2 3 4 5 6\ttag 4294967295 \r", OK),
    ("insert tag 5 1 2 3 4 5 6 tag 0", OK),
    ("get a 18446744073709551615", found(f"{LAST} {MIN} 0 {MAX} 0")),
    ("get a 007", found("7 1 -2 3 4 tag 7")),
    ("get tag 7", found("7 1 2 3 4 5 6 tag 4294967295")),
    ("get tag 5", found("5 1 2 3 4 5 6")),
    # queries, each of which finds one of the two objects by its own test alone
    ("window a 3 4 3 9", found("7 1 -2 3 4 tag 7")),
    ("window a 4 4 3 9", "fail 7 BadBox\n"),
    ("inside a 1 -2 3 4", found("7 1 -2 3 4 tag 7")),
    ("inside a 1 -2 3 3", found()),
    ("around a 1 0 3 0", found("7 1 -2 3 4 tag 7", f"{LAST} {MIN} 0 {MAX} 0")),
    ("around a 1 -2 3 4", found("7 1 -2 3 4 tag 7")),
    ("point a 1 -2", found("7 1 -2 3 4 tag 7")),
    ("point tag 1 2 3", found("5 1 2 3 4 5 6", "7 1 2 3 4 5 6 tag 4294967295")),
    ("point a 1 2 3", "fail 8 WrongDims\n"),
    ("window tag 0 0 1 1", "fail 8 WrongDims\n"),
    ("window a 1 2 3 4 5 6 tag 0", "fail 8 WrongDims\n"),
    ("window a -1 -2 3 4 tag 0", found(f"{LAST} {MIN} 0 {MAX} 0")),
    ("inside a 1 -2 3 4 tag 0007", found("7 1 -2 3 4 tag 7")),
    ("around tag 1 2 3 4 5 6 tag 4294967295", found("7 1 2 3 4 5 6 tag 4294967295")),
    ("point tag 4 5 6 tag 5", found()),
    ("point a 1 0 tag 7", found("7 1 -2 3 4 tag 7")),
    # the nearest, moves and joins
    ("nearest a 3 5 -5", found("7 13", f"{LAST} 25")),
    ("nearest a 001 -2147483648 5", found(f"{LAST} 25")),
    ("move a 7 1 2 3 4", OK),
    ("get a 7", found("7 1 2 3 4 tag 7")),
    ("create b 2 4", OK),
    ("insert b 1 -7 -7 -7 -7", OK),
    ("join a b", found()),
    ("join a b 48", found()),
    ("join a b 0000049", found(f"{LAST} 1")),
    ("join a b 18446744073709551615", found("7 1", f"{LAST} 1")),
    ("delete a 007", OK),
    ("count a", found("1")),
    # what has one form alone, and what is no command
    ("layers", found("a 2 4 1", "b 2 4 1", "tag 3 4 2")),
    (
        " dump ",
        found(
            "create a 2 4",
            f"insert a {LAST} {MIN} 0 {MAX} 0",
            "create b 2 4",
            "insert b 1 -7 -7 -7 -7",
            "create tag 3 4",
            "insert tag 5 1 2 3 4 5 6",
            "insert tag 7 1 2 3 4 5 6 tag 4294967295",
        ),
    ),
    ("check", OK),
    ("\treopen \r", OK),
    ("", ""),
    (" \t\r", ""),
    ("#", ""),
    ("  #create a 2 4", ""),
]

# Two layers with an object of each of two identifiers, that no bad line changes.
MADE = [
    ("create a 2 4", OK),
    ("create b 2 4", OK),
    ("insert a 1 0 0 1 1", OK),
    ("insert a 5 0 0 1 1 tag 5", OK),
    ("insert b 1 0 0 1 1", OK),
]
KEPT = found(
    "create a 2 4", "insert a 1 0 0 1 1", "insert a 5 0 0 1 1 tag 5", "create b 2 4", "insert b 1 0 0 1 1"
)

BAD = [
    "create",
    "create a 2",
    "create c 2 4 4",
    "create c 2 +4",
    "create c 2 -4",
    "create c 2\0 4",
    "create c\x0b2 4",
    "CREATE c 2 4",
    "creat c 2 4",
    "creates c 2 4",
    "insert a 18446744073709551616 0 0 0 0",
    "insert a 99999999999999999999999 0 0 0 0",
    "insert a 2 0 0 0",
    "insert a 2 0 0 0 2147483648",
    "insert a 2 -2147483649 0 0 0",
    "insert a 2 0 0 0 +5",
    "insert a 2 0 0 0 -",
    "insert a 2 0 0 0 --1",
    "insert a 2 0 0 0 0.0",
    "window a",
    "window a 0 0 0 1 1",
    "window a 0 0 0 0 1 1 1",
    "window a 0 0 0 0 # a comment",
    "inside a 0 0",
    "around a 0 0 0",
    "point a",
    "point a 0",
    "point a 0 0 0 0",
    "get a",
    "get a 1 2",
    "get a -1",
    "count",
    "count a b",
    "nearest a 3",
    "nearest a 3 0",
    "nearest a -3 0 0",
    "load a",
    "load a -1",
    "load a 1 2",
    "load a 1073741825",
    "move a 1 0 0 0",
    "delete a",
    "delete a 1 2",
    "drop",
    "drop a b",
    "join a",
    "join a b c",
    "join a b +1",
    "join a b -1",
    "join a b 1 2",
    "join a b 18446744073709551616",
    "layers a",
    "dump a",
    "check a",
    "reopen a",
    "REOPEN",
    "\xff\xfe",
    "\0",
    "window a 0 0 1 1 tag",
    "window a 0 0 1 1 tag 5 6",
    "window a 0 0 1 1 tag 5 tag 5",
    "window a 0 0 1 1 tag 4294967296",
    "window a 0 0 1 1 tag -0",
    "window a 0 0 1 1 TAG 5",
    "window a 0 0 1 1 5",
    "window a 0 0 tag 5 1 1",
    "window a tag 5",
    "inside a 0 0 0 0 1 1 1 tag 5",
    "point a 0 0 tag x",
    "insert a 2 0 0 0 0 tag",
    "insert a 2 0 0 0 0 tag 99999999999999999999999",
    "move a 1 0 0 1 1 tag 7",
    "get a 5 tag 5",
    "nearest a 3 0 0 tag 5",
    "join a b tag 5",
]

# An entry line of a load into a layer of as many axes, and its object, if it is one.
ENTRIES = [
    (2, " 007 1 -2 3 4\r", "7 1 -2 3 4"),
    (3, "0 1 2 3 4 5 6 tag 4294967295", "0 1 2 3 4 5 6 tag 4294967295"),
    (2, "  7 0 0 1 1 ", "7 0 0 1 1"),
    (2, "", None),
    (2, " \t\r", None),
    (2, "# 7 1 2 3 4", None),
    (2, "7 1 2 3", None),
    (2, "-7 1 2 3 4", None),
    (2, "insert a 7 1 2 3 4", None),
    (2, "7 1 2 3 4 tag", None),
    (2, "7 1 2 3 4 tag 4294967296", None),
    (2, "7 1 2 3 4 tag 5 5", None),
    (2, "7 tag 5 1 2 3 4", None),
]


class Lines(Answers):
    """Each line is answered so, by the program and by the plain table."""

    def answers_lines(self, lines):
        rows = [(line + "\n", reply) for line, reply in lines]
        self.are_rows(rows, self.result("", given_by(rows).encode("latin-1")))
        self.assertEqual(told(Table(), rows), rows)

    def test_good_lines(self):
        self.answers_lines(GOOD)

    def test_bad_lines(self):
        self.answers_lines(MADE + [(line, BAD_LINE) for line in BAD] + [("dump", KEPT)])

    def test_entry_lines(self):
        for axes, entry, row in ENTRIES:
            replies = [BAD_LINE, found()] if row is None else [OK, found(row)]
            window = " ".join([str(MIN)] * axes + [str(MAX)] * axes)
            load = [(f"load e 1\n{entry}", replies[0]), (f"window e {window}", replies[1])]
            self.answers_lines([(f"create e {axes} 4", OK), *load])

    def test_a_load_takes_as_many_lines_as_it_says(self):
        # of the greatest count all that follow are entry lines, and of one more none is
        for count, reply in ((2**30, BAD_LINE), (2**30 + 1, BAD_LINE + found("0"))):
            self.answers("", f"create a 2 4\nload a {count}\ncount a\n", OK + reply)

    def test_lines_without_a_reply(self):
        for text in ("", "\n\n", "# a comment", "# a comment\n", " \t\r\n#"):
            self.answers("", text)

    def test_a_last_line_without_its_newline(self):
        for text in ("drop", "drop\n\n# a comment\n\xff", "drop\ndrop"):
            replies = BAD_LINE * sum(1 for line in text.split("\n") if line and line[0] != "#")
            self.answers("", text, replies)


main()

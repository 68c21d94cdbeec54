"""Tables of command lines with their replies, worked by hand, for tests of the program.

A row of a table is `line -> reply`; ` / ` stands between the lines of a load and between those of a reply. A row
without a reply is a comment, which the program reads too. Some words stand for long ones: MIN and MAX for the least
and the greatest coordinate, LAST for the greatest identifier, TAG for the greatest tag, LONG for a name of 24 letters.
"""
import re

from blocks import RunsOver

WORDS = {
    "MIN": str(-(2**31)),
    "MAX": str(2**31 - 1),
    "LAST": str(2**64 - 1),
    "TAG": str(2**32 - 1),
    "LONG": "abcdefghijklmnopqrstuvwx",
}


def rows_of(table):
    """The rows of a table: of each the text that is given, and the reply."""
    table = re.sub(r"\b(MIN|MAX|LAST|TAG|LONG)\b", lambda word: WORDS[word[0]], table)
    rows = []
    for row in filter(None, table.splitlines()):
        given, _, reply = row.partition(" -> ")
        rows.append((lines_of(given), lines_of(reply)))
    return rows


def lines_of(text):
    return "".join(line.strip() + "\n" for line in text.split("/")) if text.strip() else ""


def given_by(rows):
    return "".join(given for given, _ in rows)


def replies_by(rows):
    return "".join(reply for _, reply in rows)


def told(table, rows):
    """The rows with the replies of a plain table, which is changed by them."""
    found = []
    for given, _ in rows:
        ahead, replies = iter(given.split("\n")[:-1]), ""
        while True:
            try:
                replies += table.answer(ahead)
            except StopIteration:
                break
        found.append((given, replies))
    return found


class Answers(RunsOver):
    """Runs that go well, and whose replies are looked at row by row."""

    def answers_rows(self, words, rows):
        """A run with these words answers each row so, and says nothing."""
        self.are_rows(rows, self.result(words, given_by(rows)))

    def are_rows(self, rows, result):
        """A run with this result has answered each row so, and said nothing."""
        status, replies, said = result[:3]
        at = 0
        for given, reply in rows:
            self.assertEqual(replies[at : at + len(reply)], reply, given)
            at += len(reply)
        self.assertEqual((replies[at:], status, said), ("", 0, ""))

    def stands(self, words, made, asked):
        """A run with these words, over a file, answers what is made and then what is asked: at once, after a `reopen`,
        and in later runs, of which one only reads. What is asked changes nothing, and none of them writes the file."""
        reopened = asked + [("reopen\n", "ok\n")] + asked
        self.answers_rows(words, made + reopened)
        before = self.store()
        for words in ("--cache 8 store", "--read-only store"):
            self.answers_rows(words, reopened)
            self.assertTrue(self.store() == before, "a question changed the file")

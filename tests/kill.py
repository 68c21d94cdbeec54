#!/usr/bin/env python3
"""Kills runs of the program at random moments of sessions of random commands, and opens the file again.

What a run had answered until then has to be what a plain table answers (plain_table.py). The file must never be refused,
must be sound, and must hold a table that was closed, or whose closing the run may have come to: none older than that of
the last `reopen` whose reply was read.

Beside each run two readers open the file again and again. Each asks for the whole table twice, with a check between and
some time, and is killed now and then. Both times it has to see one and the same table that was closed, or whose closing
the run may have come to: none older than that of the last `reopen` whose reply was read before the reader began. One
more reader of some runs stays while the file is opened again: that run must leave the journal, with all that is kept.

kill.py PROGRAM KILLS SEED
"""
import os
import random
import signal
import subprocess
import sys
import tempfile
import threading
import time

from plain_table import RandomText, Table

UNENDED = "rstore: the last run did not end; what changed after its last closing is lost\n"
SIGNALS = [signal.SIGKILL, signal.SIGINT, signal.SIGTERM]
KILLS_OF_A_FILE = 40
READERS = 2


class Script:
    """The text of a session, the replies of a plain table to it, and that table at each closing."""

    def __init__(self, table, commands):
        source = RandomText(random)
        lines = [f"create {name} {dims} {random.choice([4, 16, 100])}" for name, dims in source.LAYERS]
        while len(lines) < commands:
            lines.append(source.line())
            if random.random() < 0.05:
                lines.append("reopen")
        self.text = "".join(f"{line}\n" for line in lines)
        self.replies, self.closings, said, table = [], [(0, table.copy())], 0, table.copy()
        ahead = iter(self.text.splitlines())
        for line in ahead:
            reply = table.answer(iter([line]) if not line.startswith("load ") else rest(line, ahead))
            self.replies.append(reply)
            said += len(reply)
            if line == "reopen":
                self.closings.append((said, table.copy()))
        self.replies = "".join(self.replies)
        self.closings.append((said, table))


def rest(line, ahead):
    """A line, and then those after it."""
    yield line
    yield from ahead


def run(program, words, text):
    """The status of a run that ends, its replies and what it said."""
    ended = subprocess.run([program, *words], input=text, capture_output=True, text=True, timeout=300)
    return ended.returncode, ended.stdout, ended.stderr


class Run:
    """A session that is killed after so many seconds."""

    def __init__(self, program, file, text):
        self.child = subprocess.Popen(
            [program, file], stdin=subprocess.PIPE, stdout=subprocess.PIPE, stderr=subprocess.DEVNULL
        )
        self.replies = b""
        self.threads = [threading.Thread(target=self.feed, args=[text]), threading.Thread(target=self.hear)]
        for thread in self.threads:
            thread.start()

    def feed(self, text):
        try:
            self.child.stdin.write(text.encode())
            self.child.stdin.close()
        except (BrokenPipeError, ValueError):
            pass

    def hear(self):
        while some := os.read(self.child.stdout.fileno(), 1 << 16):
            self.replies += some

    def killed(self, moment):
        """Its replies, and whether it had ended before."""
        time.sleep(moment)
        had_ended = self.child.poll() is not None
        self.child.send_signal(random.choice(SIGNALS))
        for thread in self.threads:
            thread.join()
        self.child.wait()
        return self.replies.decode(), had_ended


class Reader:
    """A run that only reads, beside one that writes."""

    def __init__(self, program, file, script, session):
        self.script, self.told = script, told_before(script, len(session.replies))
        self.child = subprocess.Popen(
            [program, "--read-only", file], stdin=subprocess.PIPE, stdout=subprocess.PIPE, stderr=subprocess.PIPE, text=True
        )

    def sees(self, pause, is_killed):
        """Tests what it sees, unless it is killed."""
        self.child.stdin.write("dump\ncheck\n")
        self.child.stdin.flush()
        time.sleep(pause)
        if is_killed:
            self.child.kill()
            self.child.communicate()
            return False
        rows, said = self.child.communicate("dump\n", timeout=300)
        if self.child.returncode != 0 or said:
            raise AssertionError(f"a reader ends with {self.child.returncode}, {rows[-200:]}{said}")
        for _, table in self.script.closings[self.told :]:
            dump = table.answer(iter(["dump"]))
            if rows == dump + "ok\n" + dump:
                return True
        raise AssertionError(f"a reader sees a table that was not closed last, or two: {rows}")


def told_before(script, said):
    """The last closing whose reply stands in so many bytes of replies."""
    return [k for k, (end, _) in enumerate(script.closings[:-1]) if end <= said][-1]


def read_beside(program, file, script, session, dice, ended, tally, wrongs):
    """Reads again and again until the session has ended."""
    try:
        while not ended.is_set():
            reader = Reader(program, file, script, session)
            seen = reader.sees(dice.random() * 0.02, dice.random() < 0.05)
            tally["readings"] = tally.get("readings", 0) + seen
    except Exception as wrong:  # of a thread: told by who waits for it
        wrongs.append(wrong)


def killed(program, file, script, moment, tally):
    """The replies of a session that is killed after so many seconds beside readers, and whether it had ended before."""
    session = Run(program, file, script.text)
    ended, wrongs = threading.Event(), []
    readers = [
        threading.Thread(
            target=read_beside,
            args=[program, file, script, session, random.Random(random.random()), ended, tally, wrongs],
        )
        for _ in range(READERS)
    ]
    for reader in readers:
        reader.start()
    replies, had_ended = session.killed(moment)
    ended.set()
    for reader in readers:
        reader.join()
    if wrongs:
        raise AssertionError(wrongs[0])
    return replies, had_ended


def found(program, file, script, replies):
    """The table that the file holds after a session with these replies, and whether it was brought back."""
    if not script.replies.startswith(replies):
        raise AssertionError(f"replies {replies!r}\nand not {script.replies[:len(replies)]!r}")
    told = told_before(script, len(replies))
    if random.random() < 0.2:
        keeps_beside(program, file)
    status, rows, said = run(program, [file], "check\ndump\n")
    if status != 0 or said not in ["", UNENDED] or os.path.exists(file + "-journal"):
        raise AssertionError(f"status {status}, {rows[:200]}{said}")
    for _, table in script.closings[told:]:
        if rows == "ok\n" + table.answer(iter(["dump"])):
            return table, said != ""
    raise AssertionError(f"a table that was not closed last: {rows}")


def keeps_beside(program, file):
    """Opens the file beside a reader that stays: both see one table, and the reader sees it to its end."""
    with tempfile.TemporaryFile() as said_by_reader:
        reader = subprocess.Popen(
            [program, "--read-only", file],
            bufsize=0,
            stdin=subprocess.PIPE,
            stdout=subprocess.PIPE,
            stderr=said_by_reader,
        )
        reader.stdin.write(b"dump\n")
        begun = reader.stdout.read(1)
        status, rows, said = run(program, [file], "dump\n")
        rest_of, _ = reader.communicate(b"dump\n", timeout=300)
        if (status, reader.returncode, said_by_reader.tell()) != (0, 0, 0) or said not in ["", UNENDED]:
            raise AssertionError(f"beside a reader: status {status}, {reader.returncode}, {said}")
        if begun + rest_of != 2 * rows.encode():
            raise AssertionError(f"a reader and a run beside it see two tables: {begun + rest_of}{rows}")


def main():
    program, kills, seed = sys.argv[1], int(sys.argv[2]), int(sys.argv[3])
    random.seed(seed)
    tally, longest = {}, 0.5
    with tempfile.TemporaryDirectory() as folder:
        file = os.path.join(folder, "store")
        for count in range(kills):
            if count % KILLS_OF_A_FILE == 0:
                if os.path.exists(file):
                    os.remove(file)
                table = Table()
                if run(program, ["--create", file], "") != (0, "", ""):
                    sys.exit("tests/kill.py: a new store is refused")
            script = Script(table, random.randrange(10, 1000))
            try:
                replies, had_ended = killed(program, file, script, random.random() * longest, tally)
                table, brought_back = found(program, file, script, replies)
            except AssertionError as wrong:
                sys.exit(f"tests/kill.py: {wrong}; seed {seed}, kill {count}")
            longest *= 0.97 if had_ended else 1.02
            what = "had ended" if had_ended else "brought back" if brought_back else "opened"
            tally[what] = tally.get(what, 0) + 1
    print("tests/kill.sh:", ", ".join(f"{n} {what}" for what, n in sorted(tally.items())))


main()

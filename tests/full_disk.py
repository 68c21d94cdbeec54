#!/usr/bin/env python3
"""Fills the disk under sessions of the program, and looks at what the file holds, against tables that are kept here.

A session changes and reopens a store until something is refused, and some more. At once, at its end, and once there is
room again the file has to hold the table of the last `reopen` that answered `ok`, or of a closing that was tried since.
Then it is sound, and the work goes on. In every other trial somebody reads the file from the beginning to the end of the
session, and keeps the table that there was. The disk fills in one of these ways:

    disk    it is a file system in memory of some size, with a filler that is taken away when there is to be room
    limit   no file may get more than some bytes (RLIMIT_FSIZE), so the last write may be made in part
    signal  the same, and the program is ended by the system where it tries
    below   the same of a file that is there and longer, so that a block that was there can't be written
    write   a write of the file or its journal is refused, that one or all from it on (strace)
    sync    a sync is refused, that one or all from it on

Or it does not fill, and some reads and writes of the file and its journal are interrupted, which nobody is to see:

    again   each second one, or each third one, and so on (strace)

full_disk.py PROGRAM RUNS SEED
"""
import os
import random
import resource
import shutil
import signal
import subprocess
import sys
import tempfile

UNENDED = "rstore: the last run did not end; what changed after its last closing is lost\n"
DEVICE = "fail 17 Device"
FAILED = "fail 19 StoreFailed"
FILLER = 192 * 1024
LAYERS = "create a 2 16\ncreate b 3 4\n"
WRITES = "write,pwrite64"  # a block is written at an offset


class Wrong(Exception):
    """What the program did that it must not."""


class Hindrance:
    """What keeps a run from writing, beside a disk that is full."""

    def __init__(self, before=(), bound=None, ignored=True):
        self.before, self.bound, self.ignored = before, bound, ignored

    def begin(self):
        if self.bound is not None:
            resource.setrlimit(resource.RLIMIT_FSIZE, (self.bound, self.bound))
            signal.signal(signal.SIGXFSZ, signal.SIG_IGN if self.ignored else signal.SIG_DFL)


class Session:
    """A run of the program that is asked line by line."""

    begun = []  # all of them

    def __init__(self, words, hindrance):
        pipes = {"stdin": subprocess.PIPE, "stdout": subprocess.PIPE, "stderr": subprocess.PIPE}
        self.process = subprocess.Popen([*hindrance.before, *words], text=True, preexec_fn=hindrance.begin, **pipes)
        Session.begun.append(self.process)

    def ask(self, command):
        """The reply's lines, or none where the program has ended."""
        try:
            self.process.stdin.write(command + "\n")
            self.process.stdin.flush()
        except BrokenPipeError:
            return []
        status = self.process.stdout.readline().rstrip("\n")
        rows = int(status[3:]) if status.startswith("ok ") else 0
        return [status] * bool(status) + [self.process.stdout.readline().rstrip("\n") for _ in range(rows)]

    def end(self):
        """The status of the run, negative for a signal, and what it said on standard error."""
        try:
            said = self.process.communicate(timeout=300)[1]
        except BrokenPipeError:
            said = self.process.stderr.read()
        return self.process.wait(timeout=300), said


class Plain:
    """The table as it has to be, and the tables that the file may hold where the run stops now."""

    def __init__(self):
        self.now = {"a": {}, "b": {}}
        self.kept = [self.dump()]
        self.has_failed = False
        self.next = 0

    def dump(self):
        """The rows of a `dump` of the table."""
        rows = []
        for layer, line in zip("ab", LAYERS.splitlines()):
            rows += [line] + [f"insert {layer} {ident} {box}" for ident, box in sorted(self.now[layer].items())]
        return rows

    def box(self, axes):
        lows = [random.randrange(1000) for _ in range(axes)]
        return " ".join(map(str, lows + [low + random.randrange(50) for low in lows]))

    def command(self):
        """A change that is answered `ok`, and the layers after it."""
        layer, after = "a", {"a": dict(self.now["a"]), "b": dict(self.now["b"])}
        there = list(after["a"])
        word = random.choices(["insert", "move", "delete", "load"], [100, 15, 10, 1])[0]
        if word == "load" and not after["b"]:
            after["b"] = {1000 * k + k % 5: self.box(3) for k in range(random.randrange(1, 60))}
            rows = [f"{ident} {box}" for ident, box in after["b"].items()]
            return "\n".join([f"load b {len(rows)}", *rows]), after
        if word == "load":
            ident = random.choice(list(after["b"]))
            del after["b"][ident]
            return f"delete b {ident}", after
        if word == "insert" or not there:
            self.next += 1
            ident = self.next * 1000 + random.randrange(5)  # few remainders, so that a new object is not a new page
            after[layer][ident] = self.box(2)
            return f"insert a {ident} {after[layer][ident]}", after
        ident = random.choice(there)
        if word == "delete":
            del after[layer][ident]
            return f"delete a {ident}", after
        after[layer][ident] = self.box(2)
        return f"move a {ident} {after[layer][ident]}", after

    def take(self, line, status, after):
        """Takes the reply to a command."""
        is_closing = line == "reopen"
        if self.has_failed:
            if status != f"{FAILED} 19":
                raise Wrong(f"a store that had failed answered {status} to {line}")
        elif status == "ok" and is_closing:
            self.kept = [self.dump()]
        elif status == "ok":
            self.now = after
        elif status == DEVICE and is_closing:
            self.kept.append(self.dump())
        elif status.startswith(FAILED):
            self.has_failed = True
            if is_closing:
                self.kept = [self.dump()]
        elif status != DEVICE:
            raise Wrong(f"{line} answered {status}")

    def take_end(self, status, said, is_killed):
        """Takes how the run ended."""
        if self.has_failed:
            if (status, said) != (1, f"rstore: {FAILED} 19\n"):
                raise Wrong(f"after a store that failed status {status}, {said}")
        elif (status, said) == (0, ""):
            self.kept = [self.dump()]
        elif (status, said) == (1, f"rstore: {DEVICE}\n") or is_killed:
            self.kept.append(self.dump())
        else:
            raise Wrong(f"status {status}, {said}")


class Trial:
    """One disk that fills, and what is done on it."""

    def __init__(self, program, folder, room, hindrance=Hindrance()):
        self.program, self.folder, self.room, self.hindrance = program, folder, room, hindrance
        self.file = os.path.join(folder, "store")
        self.plain = Plain()
        self.batch = random.choice([1, 3, 10, 30, 100])
        self.cache = random.choice(["8", "16", "64"])
        self.refused = []  # what was refused, command and reply

    def begin(self, *words):
        return Session([self.program, "--cache", self.cache, *words, self.file], self.hindrance)

    def note(self, line, status):
        if status != "ok" and status != f"{FAILED} 19":
            self.refused.append((line.split()[0], status))

    def work(self, session, count):
        """Changes and reopens so often, or until something is refused. Whether the program goes on is answered."""
        for _ in range(count):
            line, after = ("reopen", None) if random.random() * (self.batch + 1) < 1 else self.plain.command()
            reply = session.ask(line)
            if not reply:
                self.refused.append((line.split()[0], "signal"))
                if line == "reopen":
                    self.plain.kept.append(self.plain.dump())
                return False
            self.note(line, reply[0])
            self.plain.take(line, reply[0], after)
            if reply[0] != "ok":
                return True
        return True

    def ask_whole(self, session):
        """Asks for the whole table in the middle of a session, which is refused or right."""
        reply = session.ask("dump")
        if not reply or reply[0] in (DEVICE, f"{FAILED} 19"):
            return
        if reply[1:] != self.plain.dump():
            raise Wrong(f"in a session that goes on a dump answered {reply}, and not {self.plain.dump()}")

    def copied(self):
        """A copy of the file and its journal, where there is room."""
        for name in ("store", "store-journal"):
            target = os.path.join(self.room, name)
            if os.path.exists(target):
                os.remove(target)
            if os.path.exists(os.path.join(self.folder, name)):
                shutil.copyfile(os.path.join(self.folder, name), target)
        return os.path.join(self.room, "store")

    def stands(self, when):
        """FILE alone is refused or has a table that was kept, and with its journal it has one."""
        file = self.copied()
        alone = os.path.join(self.room, "alone")
        shutil.copyfile(file, alone)
        session = Session([self.program, "--read-only", alone], Hindrance())
        dump = session.ask("dump")
        if session.end()[0] != 1 and dump[1:] not in self.plain.kept:
            raise Wrong(f"{when}: FILE alone is not refused, and has {len(dump) - 1} rows: {dump[:9]}")
        self.holds(file, when)

    def holds(self, file, when):
        """Opens a file that has room: it is sound and holds a table that was kept. What was said, and its rows."""
        session = Session([self.program, file], Hindrance())
        checked, dump = session.ask("check"), session.ask("dump")
        status, said = session.end()
        if status != 0 or said not in ("", UNENDED) or checked != ["ok"]:
            raise Wrong(f"{when}: status {status}, {said}, check answered {checked}")
        if dump[1:] not in self.plain.kept:
            sizes = [len(rows) for rows in self.plain.kept]
            raise Wrong(f"{when}: {len(dump) - 1} rows, and of the tables that were kept {sizes}: {dump}")
        if os.path.exists(file + "-journal"):
            raise Wrong(f"{when}: a run that ended left its journal")
        return said, dump[1:]

    def reader(self):
        """Somebody who reads from now on, and the rows that are read; or in every other trial nobody."""
        if random.random() < 0.5:
            return None
        session = Session([self.program, "--cache", "8", "--read-only", self.file], Hindrance())
        rows = session.ask("dump")[1:]
        if rows not in self.plain.kept:
            raise Wrong(f"a reader beside a writer has {len(rows)} rows: {rows[:9]}")
        return session, rows

    def still_has(self, session, rows):
        """The reader goes, who has what it had."""
        dump = session.ask("dump")
        ended = session.end()
        if dump[1:] != rows or ended != (0, ""):
            raise Wrong(f"a reader of {len(rows)} rows has {len(dump) - 1} beside a full disk, and ends with {ended}")

    def fill(self, session):
        """Works until the disk is full, and on, and ends the session. What stands there at once is looked at too."""
        goes_on = self.work(session, 3000)
        if goes_on:
            self.stands("at once")
            for _ in range(random.randrange(4)):
                self.ask_whole(session)
                goes_on = goes_on and self.work(session, 20)
            self.stands("before the end")
        status, said = session.end()
        self.plain.take_end(status, said.replace(UNENDED, ""), status == -signal.SIGXFSZ and not self.hindrance.ignored)
        self.stands("after the end")

    def open_full(self, *words):
        """Opens the file while the disk is full, which may be refused, and changes nothing."""
        session = self.begin(*words)
        reply = session.ask("dump")
        status, said = session.end()
        if reply and reply[0].startswith("ok") and reply[1:] not in self.plain.kept:
            raise Wrong(f"on a full disk {len(reply) - 1} rows, {words}: {reply}")
        if not reply and (status not in (1, -signal.SIGXFSZ) or not said and status == 1):
            raise Wrong(f"on a full disk status {status}, {said}")
        self.stands("after an opening on a full disk")

    def go_on(self, free):
        """Makes room, and works on."""
        free()
        self.hindrance = Hindrance()
        said, rows = self.holds(self.file, "with room again")
        self.plain.has_failed = False
        self.plain.kept = [rows]
        self.plain.now = layers_in(rows)
        session = self.begin()
        self.batch, count = 10, len(self.refused)
        if not self.work(session, 30) or session.ask("reopen") != ["ok"] or self.refused[count:]:
            raise Wrong(f"with room again {self.refused[count:]}")
        self.plain.take_end(*session.end(), False)
        self.holds(self.file, "at last")
        return "brought back" if said else "opened"

    def make(self):
        """Makes the store in a session that goes on, or answers none where that was refused."""
        session = self.begin("--create")
        if all(session.ask(line) == ["ok"] for line in [*LAYERS.splitlines(), "reopen"]):
            self.plain.kept = [self.plain.dump()]
            return session
        self.refused.append(("making", ""))
        session.end()
        return None

    def make_again(self, free):
        """After a making that was refused: the file is removed, and made again where there is room."""
        free()
        self.hindrance = Hindrance()
        if os.path.exists(self.file):
            self.look_at_unmade()
            os.remove(self.file)
        session = self.make()
        if not session:
            raise Wrong("with room again no store was made")
        self.plain.take_end(*session.end(), False)
        self.holds(self.file, "made again")
        return "made again"

    def look_at_unmade(self):
        """Opens what a making left that was refused, or its first commands: it is refused, or has their table."""
        session = Session([self.program, self.file], Hindrance())
        reply = session.ask("dump")
        status, said = session.end()
        refused = ("rstore: fail 20 NotClosed: the run that made FILE was cut short", "rstore: fail 21 NotAStore\n")
        tables = [LAYERS.splitlines()[:count] for count in range(3)]
        if not (status == 1 and said.startswith(refused) and not reply) and not (status == 0 and reply[1:] in tables):
            raise Wrong(f"after a making that was refused status {status}, {said} {reply}")

    def run(self, free):
        """The whole trial, and how the file was opened when there was room again; or that there was room throughout."""
        session = self.begin() if os.path.exists(self.file) else self.make()
        if not session:
            return self.make_again(free)
        reader = self.reader()
        self.fill(session)
        if reader:
            self.still_has(*reader)
        if not self.refused:
            return "never full"
        for _ in range(random.randrange(3)):
            self.open_full(*random.choice([[], ["--read-only"]]))
        return self.go_on(free)


def layers_in(rows):
    """The table of the rows of a dump."""
    layers = {"a": {}, "b": {}}
    for row in rows:
        word, layer, number, rest = row.split(" ", 3)
        if word == "insert":
            layers[layer][int(number)] = rest
    return layers


def is_mountable(folder):
    """Whether a file system in memory can be mounted there."""
    mount = ["mount", "-t", "tmpfs", "-o", "size=64k", "tmpfs", folder]
    if os.geteuid() != 0 or subprocess.run(mount, capture_output=True).returncode != 0:
        return False
    subprocess.run(["umount", folder], check=True)
    return True


def on_disk(program, folder, room, size):
    """A trial on a disk of so many bytes beside a filler."""
    options = f"size={size + FILLER}"
    subprocess.run(["mount", "-t", "tmpfs", "-o", options, "tmpfs", folder], check=True)
    try:
        filler = os.path.join(folder, "filler")
        with open(filler, "wb") as file:
            file.write(bytes(FILLER))
        trial = Trial(program, folder, room)
        return trial, trial.run(lambda: os.remove(filler))
    finally:
        for process in Session.begun:
            process.kill()  # where the trial went wrong it may still run
            process.wait()
        Session.begun.clear()
        subprocess.run(["umount", folder], check=True)


def with_bound(program, folder, room, size, ignored):
    """A trial with files that may have so many bytes."""
    trial = Trial(program, folder, room, Hindrance(bound=size, ignored=ignored))
    return trial, trial.run(lambda: None)


def below(program, folder, room, size):
    """A trial over a file that has more bytes than it may have."""
    trial = Trial(program, folder, room)
    session = trial.make()
    trial.batch = 50
    trial.work(session, 400)
    trial.plain.take_end(*session.end(), False)
    trial.hindrance, trial.batch = Hindrance(bound=size), random.choice([1, 3, 10, 30])
    return trial, trial.run(lambda: None)


def traced(folder, calls, fate):
    """What makes of such calls of a run what is told. Of reads and writes it is those of the file and its journal."""
    words = ["strace", "-f", "-o", "/dev/null", "-e", f"trace={calls}", "-e", f"inject={calls}:{fate}"]
    if WRITES in calls:
        words += ["-P", os.path.join(folder, "store"), "-P", os.path.join(folder, "store-journal")]
    return Hindrance(words)


def refusing(program, folder, room, calls, number):
    """A trial in which such a call of this number is refused, or each from it on."""
    when = f"error=ENOSPC:when={number}" + random.choice(["", "+"])
    trial = Trial(program, folder, room, traced(folder, calls, when))
    return trial, trial.run(lambda: None)


def interrupting(program, folder, room, number):
    """A trial in which each call of so many that reads or writes is interrupted: it is made again."""
    trial = Trial(program, folder, room, traced(folder, f"pread64,{WRITES}", f"error=EINTR:when=1+{number}"))
    for begin in (trial.make, trial.begin):
        session = begin()
        if not session or not trial.work(session, 200) or trial.refused:
            raise Wrong(f"where calls are interrupted {trial.refused} was refused")
        trial.plain.take_end(*session.end(), False)
        trial.holds(trial.file, "after a run whose calls were interrupted")
    return trial, "interrupted"


KINDS = {
    "disk": lambda *places, n: on_disk(*places, 4096 * (4 + n)),
    "limit": lambda *places, n: with_bound(*places, 20480 + 2731 * n, True),
    "signal": lambda *places, n: with_bound(*places, 20480 + 2731 * n, False),
    "below": lambda *places, n: below(*places, 24576 + 3777 * n),
    "write": lambda *places, n: refusing(*places, WRITES, 1 + n * 3),
    "sync": lambda *places, n: refusing(*places, "fsync,fdatasync", 1 + n),
    "again": lambda *places, n: interrupting(*places, 2 + n),
}


def kinds_here(folder):
    """The kinds that this machine has, and what is said of the others."""
    kinds, told = dict(KINDS), []
    if not is_mountable(folder):
        del kinds["disk"]
        told.append("disk skipped, since none can be mounted here")
    if not shutil.which("strace"):
        del kinds["write"], kinds["sync"], kinds["again"]
        told.append("write, sync and again skipped, since there is no strace here")
    return kinds, told


def main():
    program, runs, seed = os.path.abspath(sys.argv[1]), int(sys.argv[2]), int(sys.argv[3])
    tally = {}
    memory = "/dev/shm" if os.access("/dev/shm", os.W_OK) else None  # where syncs take no time
    with tempfile.TemporaryDirectory(dir=memory) as work:
        folder, room = os.path.join(work, "disk"), os.path.join(work, "room")
        os.mkdir(folder)
        kinds, told = kinds_here(folder)
        for kind, number in ((kind, number) for kind in kinds for number in range(runs)):
            for path in (folder, room):
                shutil.rmtree(path, ignore_errors=True)
                os.mkdir(path)
            random.seed(f"{seed} {kind} {number}")
            try:
                trial, how = kinds[kind](program, folder, room, n=number)
            except Wrong as wrong:
                sys.exit(f"tests/full_disk.py: {kind} {number}, seed {seed}: {wrong}")
            tally[how] = tally.get(how, 0) + 1
            if "VERBOSE" in os.environ:
                print(kind, number, how, trial.refused[:3], flush=True)
    if 2 * tally.get("never full", 0) > sum(tally.values()):
        sys.exit(f"tests/full_disk.py: most disks were not filled: {tally}")
    print("tests/full_disk.sh:", "; ".join([", ".join(f"{n} {what}" for what, n in sorted(tally.items())), *told]))


main()

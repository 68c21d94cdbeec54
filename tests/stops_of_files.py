#!/usr/bin/env python3
"""What a stop of the machine leaves of FILE and FILE-journal, by the system calls of runs (after ALICE: Pillai et al.,
"All File Systems Are Not Created Equal", OSDI 2014).

Each script is run under `strace`. Behind each of its calls states of the folder are made that a stop there may leave
(stops.py), and the program opens each, checks it and dumps it. It has to find the table of the last closing that was
answered, or of the one in progress, and the same when it opens it again, and to refuse none once the store stood; where
it refuses, it changes nothing. So it has to be

    stop    behind each call of a script; and where the opening that follows, or the run after that, is stopped in turn
    kill    where the run is killed there, the next one reads what was never synced, and then the machine stops
    sync    where a sync fails, whose blocks are then read and not on the disk, and the next run goes on

and where both files were damaged by hand, or FILE is a link that is turned while it is open. And the checker is
checked: where a sync is left out of the calls, or a call is moved ahead, it has to find what is wrong.

stops_of_files.py [SECONDS [SEED [SCRIPT ..]]]      without SECONDS, or with 0: all, which takes hours

PROGRAM names another program than the built one, JOBS how many tasks are done at once, and ONLY, as "closings kill 31",
does one task of a seed alone.
"""
import collections
import contextlib
import copy
import itertools
import multiprocessing
import os
import random
import shutil
import subprocess
import sys
import tempfile
import time
import traceback
from typing import NamedTuple

from runs import BUILT, TOP
from stops import FILE, JOURNAL, NONE, Disk, Run, asked, put_state, state_of
from stops_scripts import BASE, CHANGES, NEXT, REFUSED, SCRIPTS
from stops_scripts import answer_of, commits, damages, filters, loads_of, may_be, moments_of, place, syncs_of, table_of
from stops_scripts import writes

UNENDED = "rstore: the last run did not end; what changed after its last closing is lost\n"
SYNCS = ("sync", "folder")
# The syncs by which both files are looked at: of the folder, of FILE and of its journal.
LOOKING = (("fsync", 1), ("fdatasync", 1), ("fdatasync", 2))
MOST_KNOWN = 200000  # states of which it is kept what is found there
REFUSED_WRITES = "a refused start writes"
DAMAGED_WRITES = "a refused start of damaged files writes"
FAILED_SYNC_WRITES = "a start that is refused, and of which a sync failed, writes"
WHOLE = ("filtered", "damaged", "turned")  # tasks of no script
SHARED = os.environ.get("RSTORE_LIBRARY", os.path.join(TOP, "library", "lib", "librstore.so"))
# The words of a session of the library.
LIBRARY = [os.path.realpath(sys.executable), "-I", "-S", os.path.join(TOP, "tests", "library_session.py"), SHARED]
# The faults that are known, which are told and let pass.
KNOWN = {"added blocks whose sync failed"}


class Found(NamedTuple):
    """What an opening finds: a table, by its dump, or a refusal; or what goes wrong. And the state that it leaves."""

    what: str
    text: str
    left: tuple


class OutOfTime(Exception):
    """The seconds are over."""


class Checker:
    """Runs, and what is found where they are stopped."""

    def __init__(self, program, work, seed, until):
        self.program, self.work, self.seed, self.until = program, work, seed, until
        self.known, self.firsts, self.tally, self.wrong = {}, {}, collections.Counter(), {}
        self.task, self.chance = "", random.Random(seed)
        os.mkdir(os.path.join(work, "run"))
        put_state(work, NONE)
        made = self.opens("".join(f"{line}\n" for line in BASE), "--create")
        if made.returncode:
            sys.exit(f"tests/stops_of_files.py: {program} makes no store: {made.stderr}")
        self.base = state_of(work)

    def opens(self, text, *words):
        """Runs the program over the state in the folder."""
        ways = {"capture_output": True, "text": True, "cwd": self.work, "timeout": 60, "close_fds": False}
        return subprocess.run([self.program, *words, FILE], input=text, **ways)

    def found(self, state):
        """What is found in a state."""
        if state not in self.known:
            if len(self.known) == MOST_KNOWN:
                self.known = {}
            self.tally["opened"] += 1
            put_state(self.work, state)
            try:
                run = self.opens("check\ndump\n")
            except subprocess.TimeoutExpired:
                run = subprocess.CompletedProcess([], None, "no end", "")
            if run.returncode == 0 and run.stdout.startswith("ok\nok ") and run.stderr in ("", UNENDED):
                what, text = "a table", run.stdout[3:]
            elif run.returncode == 1 and not run.stdout and run.stderr.startswith("rstore: "):
                what, text = REFUSED, run.stderr.strip()
            else:
                what, text = "no table", f"status {run.returncode}, {run.stdout[:60]!r}, {run.stderr[:200]!r}"
            self.known[state] = Found(what, text, state_of(self.work))
        return self.known[state]

    def fault_of(self, state, may):
        """What is wrong with what is found in a state, where one of these may be found, or none."""
        found = self.found(state)
        if found.what == "a table" and found.text in may:
            again = self.found(found.left)
            if found.left[1] is not None:
                return "its journal is left"
            return None if again[:2] == found[:2] else f"opened again it has {again.what}: {again.text[:300]}"
        if found.what == REFUSED and REFUSED in may:
            return f"{REFUSED_WRITES}: {found.text}" if is_changed(state, found.left) else None
        if found.what == "a table":
            return f"a table that was not closed: {found.text[:300]}"
        return f"{found.what}: {found.text}"

    def look(self, states, may, *story):
        """Looks at states that a stop leaves; one of these may be found."""
        for state in states:
            if time.time() > self.until:
                raise OutOfTime
            self.tally["stops"] += 1
            if fault := self.fault_of(state, may):
                self.tell(fault, *story)

    def tell(self, fault, *story):
        """Takes a fault, by the first words of its story; the first of each kind is kept whole."""
        self.tally["wrong"] += 1
        kind = REFUSED_WRITES if fault.startswith(REFUSED_WRITES) else story[0]
        self.wrong.setdefault(kind, f"{self.task}: {'; '.join(map(str, story))}: {fault}")

    def first(self, script, fails=None):
        """The state before a script, its run, perhaps with a sync that fails, and what may be found, by the count of
        its replies."""
        if fails or script not in self.firsts:
            words, given, is_there = SCRIPTS[script]
            state = self.base if is_there else NONE
            run = Run(self.work, state, [*LIBRARY] if script == "library" else [self.program, *words], given, fails)
            table = table_of(self.found(state).text if is_there else "")
            before = {answer_of(table, "dump")} | (set() if is_there else {REFUSED})
            first = state, run, moments_of(run, before, table, loads_of(words, given))
            if fails:
                return first
            self.firsts[script] = first
        return self.firsts[script]

    def stop(self, script, number):
        """The machine stops behind so many calls."""
        state, run, moments = self.first(script)
        disk = Disk.behind(state, run.calls[:number])
        may = may_be(run, moments, number)
        states = disk.outcomes(self.chance, 20)
        self.look(states, may, "stop", self.at(run, number))
        state = self.chance.choice(states)
        if self.found(state).what == "a table":
            self.ever |= may
            self.follow(Disk(state), {self.found(state).text}, 1, "stop, then a stop", self.at(run, number))

    def kill(self, script, number):
        """The run is killed behind so many calls, where some of it is not on the disk, and the next one goes on."""
        state, run, moments = self.first(script)
        disk = Disk.behind(state, run.calls[:number])
        if not disk.is_sure():
            story = name_of("a run that is killed", disk, True), self.at(run, number)
            self.follow(disk, may_be(run, moments, number), 1, *story)

    def sync(self, script, number, more=""):
        """The sync that is the call of this number fails, or all from it on, and then the next run goes on."""
        call = self.first(script)[1].calls[number]
        before = sum(other.data == call.data for other in self.first(script)[1].calls[:number] if other.word in SYNCS)
        state, run, moments = self.first(script, f"{call.data.decode()}:error=EIO:when={before + 1}{more}")
        if run.status == 0 and call.word == "sync":
            self.tell("status 0", "a failed sync that is not told", self.at(run, number + 1))
        disk = Disk.behind(state, run.calls[:number])
        ends = self.chance.sample(range(number + 1, len(run.calls) + 1), 1) + [len(run.calls)]
        for count, call in enumerate(run.calls[number:], number + 1):
            disk.take(call)
            story = name_of("a failed sync", disk, True), self.at(run, number + 1)
            may = may_be(run, moments, count)
            self.look(disk.outcomes(self.chance, 3, True), may, *story, self.at(run, count))
            if count in ends:
                self.follow(disk, may, 0, *story, self.at(run, count))

    def follow(self, disk, before, more, *story):
        """Another run over the state as it is read, where one of these may be found before, which is stopped behind
        each call; and so on from one of them. A sync of it may fail."""
        given = ["dump", *self.chance.choice(NEXT)]
        words = self.chance.choice([[], [], [], ["--cache", "8"], ["--read-only"]])
        fails = f"fdatasync:error=EIO:when={self.chance.randrange(1, 10)}{self.chance.choice(['', '+'])}"
        fails = fails if self.chance.random() < 0.2 else None
        is_reader = "--read-only" in words
        run = Run(self.work, disk.shown(), [self.program, *words], given[:1] if is_reader else given, fails)
        disk = disk.restarted()
        story = (*story, " ".join(["a run", *words, "reads", str(given[1:]), *([fails] if fails else [])]))
        opened = run.told[0] if run.told else REFUSED
        self.ever |= before
        if opened not in (self.ever if is_reader else before) | ({REFUSED} if is_reader or fails else set()):
            return self.tell(f"it finds {opened[:300]} {run.said}", *story)
        if is_reader and any(call.word in ("write", "make", "remove", "rename") for call in run.calls):
            return self.tell("it writes", *story)
        moments = moments_of(run, before, table_of(opened)) if run.told and not is_reader else [before] * 3
        goes_on = self.chance.randrange(len(run.calls) + 1) if more else None
        for count, call in enumerate(run.calls, 1):
            disk.take(call)
            may, kind = may_be(run, moments, count), name_of(story[0], disk)
            states = disk.outcomes(self.chance, 3, True)
            self.look(states, may, kind, *story[1:], self.at(run, count))
            if count == goes_on:
                self.go_on(disk, states, may, more - 1, kind, *story[1:], f"cut short at {self.at(run, count)}")
        return None

    def go_on(self, disk, states, may, more, *story):
        """The run that follows where one is killed, or where a stop has left one of these states."""
        state = self.chance.choice(states)
        if self.chance.random() < 0.5:
            self.follow(disk.copy(), may, more, name_of(story[0], disk, True), *story[1:])
        elif self.found(state).what == "a table":
            self.follow(Disk(state), {self.found(state).text}, more, *story)

    @staticmethod
    def at(run, count):
        """Where so many calls of a run are made."""
        return f"call {count} of {len(run.calls)}, {run.calls[count - 1] if count else 'none'}"

    def do(self, task):
        """Does a task."""
        self.task, self.chance = task, random.Random(f"{self.seed} {task}")
        self.ever = set()  # what might be found so far, which one that only reads may find without the journal
        if task in WHOLE:
            getattr(self, task)()
        else:
            script, kind, number, *more = task.rsplit(" ", 3 if task[-1] == "+" else 2)
            getattr(self, kind)(script, int(number), *more)

    def tasks(self, script):
        """The tasks of a script, in a random order."""
        calls = self.first(script)[1].calls
        syncs = [number for number, call in enumerate(calls) if call.word in SYNCS]
        tasks = [f"{script} stop {number}" for number in range(len(calls) + 1)]
        tasks += [f"{script} kill {number}" for number in range(1, len(calls))]
        tasks += [f"{script} sync {number}{more}" for number in syncs for more in ("", " +")]
        return random.Random(self.seed).sample(tasks, len(tasks))

    def damaged(self):
        """Files whose journal has a commit, not copied yet or copied, or two commits, which are damaged: where they are
        refused, they stay as they were."""
        state, run, _ = self.first("closings")
        flags = [k for k, call in enumerate(run.calls) if commits(call)]
        first, *_, last = (place(run.calls, syncs_of(JOURNAL), flag) + 1 for flag in flags)
        for count in (first, place(run.calls, writes(JOURNAL, 2, 0), first), last):
            behind = Disk.behind(state, run.calls[:count]).shown()
            for what, other in damages(behind, state):
                self.tally["damaged"] += 1
                found = self.found(other)
                if found.what == REFUSED and is_changed(other, found.left):
                    self.tell(found.text, DAMAGED_WRITES, what)
                if found.text.startswith("status") and not found.text.startswith(("status 0,", "status 1,")):
                    self.tell(found.text, "damaged files", what)
                if found.what == REFUSED and self.chance.random() < 0.4:
                    self.refused_beside_a_sync_that_fails(other, what)

    def refused_beside_a_sync_that_fails(self, state, what):
        """Files that are refused stay as they were, also where a sync fails as they are looked at."""
        call, number = self.chance.choice(LOOKING)
        fails = f"{call}:error=EIO:when={number}"
        run = Run(self.work, state, [self.program], [], fails)
        self.tally["damaged, and a sync fails"] += 1
        if is_changed(state, state_of(os.path.join(self.work, "run"))):
            self.tell(f"status {run.status}, {run.said}", FAILED_SYNC_WRITES, what, fails)

    def turned(self):
        """FILE is a link, which is turned to another file whose run was killed: that one keeps its journal."""
        folder = os.path.join(self.work, "links")
        states = {name: os.path.join(folder, name) for name in ("one", "two")}
        for path in states.values():
            os.makedirs(path)
            put_state(path, self.base)
        link = os.path.join(folder, "link")
        pipes = {"stdin": subprocess.PIPE, "stdout": subprocess.PIPE, "stderr": subprocess.DEVNULL, "text": True}

        def begun(path):
            process = subprocess.Popen([self.program, path], **pipes)
            for command in CHANGES:
                asked(process, command)
            return process

        killed = begun(os.path.join(states["two"], FILE))
        killed.kill()
        killed.communicate()
        os.symlink(os.path.join(states["one"], FILE), link)
        process = begun(link)
        os.remove(link)
        os.symlink(os.path.join(states["two"], FILE), link)
        process.communicate()
        table = table_of(self.found(self.base).text)
        for command in CHANGES[:-1]:
            answer_of(table, command)
        for name, path in states.items():
            fault = self.fault_of(state_of(path), {answer_of(table, "dump")})
            if fault:
                self.tell(fault, "a link that is turned", f"of both files {name}")

    def filtered(self):
        """Calls that were put in another order, or lack some: each is found wrong."""
        state, run, moments = self.first("closings")
        for what, calls in filters(run.calls):
            other = copy.copy(run)
            other.calls = calls
            begin = place(zip(calls, run.calls), lambda both: both[0] != both[1])
            if not any(
                self.fault_of(left, may_be(other, moments, count))
                for count in range(begin, len(calls) + 1)
                for left in Disk.behind(state, calls[:count]).outcomes(self.chance, 20)
            ):
                self.tell("no stop shows it", "the checker", what)
            self.tally["filters"] += 1


def name_of(kind, disk, is_killed=False):
    """The name of a fault of this kind, or by what a failed sync has dropped, or was not synced by a run that is
    killed."""
    dropped = disk.dropped()
    if "store-journal block 1" in dropped or is_killed and "store-journal block 1" in disk.unsynced():
        return "an end that was not synced"
    if "store-journal block 2" in dropped:
        return "a journal's flag whose sync failed"
    if "store block 0" in dropped:
        return "a mark whose sync failed"
    if "store added" in dropped:
        return "added blocks whose sync failed"
    return "a failed sync" if dropped and kind not in KNOWN else kind


def is_changed(before, after):
    """Whether a file that was there, or its journal, is another one or gone."""
    return any(was not in (now, None) for was, now in zip(before[:2], after))


def work_on(checker, number, tasks, results):
    """Does tasks in a folder of its own, as long as there is time."""
    checker.work = os.path.join(checker.work, str(number))
    checker.tally = collections.Counter()
    os.makedirs(os.path.join(checker.work, "run"))
    with contextlib.suppress(OutOfTime):
        for task in tasks:
            if time.time() > checker.until:
                break
            try:
                checker.do(task)
            except (ValueError, OSError, subprocess.TimeoutExpired) as error:
                checker.tell(repr(error), "a task that could not be done", traceback.format_exc())
            checker.tally["tasks"] += 1
    results.put((checker.tally, checker.wrong))


def main():
    seconds = int(sys.argv[1]) if len(sys.argv) > 1 else 0
    seed = int(sys.argv[2]) if len(sys.argv) > 2 else random.randrange(10**6)
    program = os.path.abspath(os.environ.get("PROGRAM", BUILT))
    if not shutil.which("strace"):
        print("tests/stops_of_files.py: there is no strace here: apt-get install strace", flush=True)
        subprocess.run(["apt-get", "install", "-y", "-q", "strace"], check=True)
    if not os.access(program, os.X_OK):
        subprocess.run([os.path.join(TOP, "rstore")], stdin=subprocess.DEVNULL, stdout=subprocess.DEVNULL, check=True)
    memory = "/dev/shm" if os.access("/dev/shm", os.W_OK) else None  # where syncs take no time
    with tempfile.TemporaryDirectory(dir=memory) as work:
        until = time.time() + (seconds or 10**6)
        checker = Checker(program, os.path.realpath(work), seed, until)
        scripts = sys.argv[3:] or [name for name in SCRIPTS if name != "library" or os.path.exists(SHARED)]
        told = check(checker, scripts)
    print(f"tests/stops_of_files.py: seed {seed}: {told}")
    for kind, wrong in sorted(checker.wrong.items()):
        print(f"{'known' if kind in KNOWN else 'WRONG'}: {kind}: {wrong}")
    sys.exit(0 if set(checker.wrong) <= KNOWN else 1)


def check(checker, scripts):
    """Does all that there is time for, and tells how much that was."""
    if "ONLY" in os.environ:
        with contextlib.suppress(OutOfTime):
            checker.do(os.environ["ONLY"])
        return f"{dict(checker.tally)}"
    tasks = list(itertools.zip_longest(*(checker.tasks(script) for script in scripts)))
    tasks = [*(WHOLE if len(scripts) > 1 else ()), *(task for row in tasks for task in row if task)]
    results, jobs = multiprocessing.Queue(), int(os.environ.get("JOBS", os.cpu_count()))
    parts = [(checker, number, tasks[number::jobs], results) for number in range(jobs)]
    workers = [multiprocessing.Process(target=work_on, args=part) for part in parts]
    for worker in workers:
        worker.start()
    for _ in workers:
        tally, wrong = results.get()
        checker.tally += tally
        checker.wrong = {**wrong, **checker.wrong}
    for worker in workers:
        worker.join()
    counts = ", ".join(f"{count} {what}" for what, count in sorted(checker.tally.items()))
    return f"{', '.join(scripts)}: of {len(tasks)} tasks {counts}"


if __name__ == "__main__":
    main()

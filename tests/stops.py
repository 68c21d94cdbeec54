"""What a stop of the machine may leave of a file and its journal: the calls of a run as `strace` tells them, and a disk
that has taken no more of them than syncs say (docs/STOPS.md, "The disk model of a stop").

A block that was written since the last sync that succeeded may be as it was, as it was written, or hold any bytes; one
that was added may be missing; a name that was made or removed since the folder was synced may be there or not. After a
sync that failed the system takes its blocks for clean: they are read as they were written, and no later sync writes
them.
"""
import os
import random
import re
import subprocess
import threading
from typing import NamedTuple

SIZE = 4096  # of a block
MOST = 1 << 24  # bytes of a file that are looked at
FILE, JOURNAL, _ = NAMES = "store", "store-journal", "store-journal-part"  # all that a run may make
NONE = (None,) * len(NAMES)  # the state of an empty folder
ZEROS = bytes(SIZE)
BLOCKS = {}  # those that were read, so that each is held once
GARBAGE = [random.Random(number).randbytes(SIZE) for number in range(3)]

TRACED = "openat,pwrite64,write,fsync,fdatasync,unlink,unlinkat,rename,renameat,renameat2,exit_group"
# Of the files no run may make these: the disk below does not know them.
UNKNOWN = (
    "open,creat,pwritev,pwritev2,writev,ftruncate,truncate,fallocate,link,linkat,symlink,symlinkat,"
    "copy_file_range,sendfile,splice,sync,syncfs,sync_file_range,fadvise64,mmap,io_uring_setup,dup,dup2,dup3"
)
STRACE = ["strace", "-f", "--seccomp-bpf", "-y", "-xx", "-s", "100000", "-e", "signal=none", "-e",
          f"trace={TRACED},{UNKNOWN}"]
LINE = re.compile(r"\d+ +(\w+)\((.*)\) += (-?\d+|\?)")
TEXT = re.compile(r'"((?:\\x[0-9a-f]{2})*)"')
NUMBER = re.compile(r"(\d+)<((?:\\x[0-9a-f]{2})*)>")


class Call(NamedTuple):
    """A call of a run, or a moment of it:

        make    a file of this name is made
        write   these bytes are written from a place on
        sync    of a file, by the call that is its data, which may fail
        folder  a sync of the folder, likewise
        remove  a name is removed
        rename  a file gets the name that is the data, and loses its own
        reply   these bytes are answered
        end     the run ends with a status, its place
    """

    word: str
    file: tuple = ()  # the name by which it was made or found, and how many had that name before it
    at: int = 0
    data: bytes = b""
    went: bool = True

    def __str__(self):
        block = f" block {self.at // SIZE}" if self.word == "write" else ""
        return " ".join([self.word, *map(str, self.file[:1])]) + block + ("" if self.went else ", which failed")


def plain(text):
    """The bytes that strace has written in hexadecimal digits."""
    return bytes.fromhex(text.replace("\\x", ""))


class Trace:
    """The calls of a run in a folder, where files of these names were before."""

    def __init__(self, folder, names):
        self.folder = folder
        self.named = {name: (name, 0) for name in names}
        self.count = {name: 1 for name in names}  # how many files were made or found by this name
        self.numbers = {}  # what file has this number, or '.' for the folder
        self.calls = []

    def name_of(self, path):
        """The name in the folder, or '.' for the folder itself, or none."""
        path = os.path.normpath(os.path.join(self.folder, os.fsdecode(plain(path))))
        if path == self.folder:
            return "."
        return os.path.basename(path) if os.path.dirname(path) == self.folder else None

    def read(self, lines):
        """The calls."""
        for line in lines:
            found = LINE.match(line)
            if found:
                self.take(*found.groups())
            elif "unfinished" in line or "resumed" in line:
                raise ValueError(f"a call beside another: {line[:100]}")
        return self.calls

    def take(self, word, given, answer):
        """Takes a call that is one of the files, their folder or the replies, with its operands and answer."""
        went = answer == "?" or int(answer) >= 0
        files = [self.numbers.get(int(number)) for number, _ in NUMBER.findall(given)]
        names = [] if "write" in word else [self.name_of(path) for path in TEXT.findall(given)]
        file = files[0] if files else None
        if word == "exit_group":
            self.calls.append(Call("end", at=int(given)))
        elif word == "openat":
            self.open(names[0], given, int(answer))
        elif word in ("unlink", "unlinkat"):
            if went and names[0] in self.named:
                self.calls.append(Call("remove", self.named.pop(names[0])))
        elif word.startswith("rename"):
            if went and names[0] in self.named:
                self.named[names[1]] = file = self.named.pop(names[0])
                self.calls.append(Call("rename", file, data=names[1].encode()))
        elif word == "write" and given.startswith("1<"):
            self.calls.append(Call("reply", data=plain(TEXT.search(given)[1])))
        elif word in ("fsync", "fdatasync") and file:
            of = ("folder", ()) if file == "." else ("sync", file)
            self.calls.append(Call(*of, data=word.encode(), went=went))
        elif word == "pwrite64" and file and went:
            data, at = plain(TEXT.search(given)[1])[: int(answer)], int(given.rsplit(",", 1)[1])
            self.calls.append(Call("write", file, at, data))
        elif file and "write" in word or went and (any(files) or word == "sync" or set(names) & set(NAMES)):
            raise ValueError(f"a call that the disk does not know: {word} {answer}")

    def open(self, name, given, number):
        if number < 0:
            return
        self.numbers.pop(number, None)
        if name == ".":
            self.numbers[number] = "."
        elif name in NAMES:
            if re.search("O_TRUNC|O_DIRECT[|,)]|O_APPEND", given):
                raise ValueError(f"a file that is opened otherwise: {given[-80:]}")
            if name not in self.named:
                self.named[name] = name, self.count.get(name, 0)
                self.count[name] = self.count.get(name, 0) + 1
                self.calls.append(Call("make", self.named[name]))
            self.numbers[number] = self.named[name]
        elif name and "O_CREAT" in given:
            raise ValueError(f"a file that the disk does not know: {name}")


class File:
    """The blocks of a file as they are read; those that are on the disk for sure; and those of which that is not known,
    each with all that was written there since."""

    def __init__(self, blocks=()):
        self.read, self.sure, self.loose = list(blocks), list(blocks), {}
        self.dropped = set()  # those that a failed sync has dropped
        self.added = set()  # those of them that the disk did not have

    def copy(self):
        file = File()
        file.read, file.sure = list(self.read), list(self.sure)
        file.dropped, file.added = set(self.dropped), set(self.added)
        file.loose = {block: list(written) for block, written in self.loose.items()}
        return file

    def write(self, at, data):
        while data:
            block, begin = divmod(at, SIZE)
            count = min(len(data), SIZE - begin)
            self.read += [ZEROS] * (block + 1 - len(self.read))
            before = self.read[block]
            self.read[block] = before[:begin] + data[:count] + before[begin + count :]
            self.loose.setdefault(block, []).append(self.read[block])
            self.dropped.discard(block)
            self.added.discard(block)
            at, data = at + count, data[count:]

    def sync(self, went):
        if not went:
            self.dropped |= set(self.loose)
            self.added |= {block for block in self.loose if block >= len(self.sure)}
            return
        for block in sorted(set(self.loose) - self.dropped):
            self.sure += [ZEROS] * (block + 1 - len(self.sure))
            self.sure[block] = self.read[block]
            del self.loose[block]

    def old(self, block):
        """What the disk has there where nothing came that is not sure."""
        return self.sure[block] if block < len(self.sure) else ZEROS

    def as_left(self, blocks, size):
        """The file with these of the blocks that are not sure, and so many blocks."""
        left = self.sure + [ZEROS] * (size - len(self.sure))
        for block, data in blocks.items():
            if block < size:
                left[block] = data
        return tuple(left)


class Disk:
    """A folder. Its state are the blocks of each file in it, or none, in the order of their names."""

    def __init__(self, state=NONE):
        self.names = {name: (name, 0) for name, blocks in zip(NAMES, state) if blocks is not None}
        self.files = {(name, 0): File(blocks) for name, blocks in zip(NAMES, state) if blocks is not None}
        self.earlier = {}  # of a name, what it named since the folder was synced, the first of it on the disk

    @staticmethod
    def behind(state, calls):
        """The disk of a folder in a state, behind these calls."""
        disk = Disk(state)
        for call in calls:
            disk.take(call)
        return disk

    def copy(self):
        disk = Disk()
        disk.names, disk.earlier = dict(self.names), {name: list(was) for name, was in self.earlier.items()}
        disk.files = {file: kept.copy() for file, kept in self.files.items()}
        return disk

    def restarted(self):
        """The same disk for another run of the same boot, whose files of a name are numbered from 0 again."""
        numbers = {now: (name, 0) for name, now in self.names.items()}
        for file in self.files:
            numbers.setdefault(file, (file[0], -1 - len(numbers)))
        disk = self.copy()
        disk.names = {name: numbers[now] for name, now in self.names.items()}
        disk.files = {numbers[file]: kept for file, kept in disk.files.items()}
        disk.earlier = {name: [was and numbers[was] for was in list_] for name, list_ in self.earlier.items()}
        return disk

    def take(self, call):
        """Takes a call."""
        if call.word == "make":
            self.name(call.file[0], call.file)
            self.files[call.file] = File()
        elif call.word in ("remove", "rename"):
            self.name(next(name for name, file in self.names.items() if file == call.file), None)
            if call.word == "rename":
                self.name(call.data.decode(), call.file)
        elif call.word == "write":
            self.files[call.file].write(call.at, call.data)
        elif call.word == "sync":
            self.files[call.file].sync(call.went)
        elif call.word == "folder" and call.went:
            self.earlier = {}

    def name(self, name, now):
        self.earlier.setdefault(name, []).append(self.names.get(name))
        self.names.pop(name, None)
        if now:
            self.names[name] = now

    def shown(self):
        """The state as it is read."""
        return tuple(tuple(self.files[self.names[name]].read) if name in self.names else None for name in NAMES)

    def is_sure(self):
        """Whether a stop leaves what is read and nothing else."""
        return not self.earlier and not any(self.files[now].loose for now in self.names.values())

    def unsynced(self):
        """The names and blocks that are read and may not be on the disk, as texts."""
        blocks = {f"{file[0]} block {block}" for file, kept in self.files.items() for block in kept.loose}
        return {*self.earlier, *blocks}

    def dropped(self):
        """The blocks that failed syncs have dropped, and the files of which that were added ones, as texts."""
        files = self.files.items()
        added = {f"{file[0]} added" for file, kept in files if kept.added}
        return added | {f"{file[0]} block {block}" for file, kept in files for block in kept.dropped - kept.added}

    def choices(self):
        """What a stop chooses: of each name, size and block that is not sure what it may be, the first as it is read
        and the second as it is on the disk."""
        found, files = {}, set(self.names.values())
        for name, earlier in self.earlier.items():
            found["name", name] = [self.names.get(name), *earlier]
            files |= {file for file in earlier if file}
        for file in sorted(files):
            kept = self.files[file]
            if len(kept.read) > len(kept.sure):
                found["size", file] = [len(kept.read), *range(len(kept.sure), len(kept.read))]
            for block, written in sorted(kept.loose.items()):
                found["block", file, block] = [written[-1], kept.old(block), *written[:-1]]
        return found

    def left(self, chosen):
        """The state that a stop with these choices leaves."""
        state = []
        for name in NAMES:
            file = chosen.get(("name", name), self.names.get(name))
            if file is None:
                state.append(None)
                continue
            kept = self.files[file]
            blocks = {block: chosen["block", file, block] for block in kept.loose}
            state.append(kept.as_left(blocks, chosen.get(("size", file), len(kept.read))))
        return tuple(state)

    def outcomes(self, chance, sets, brief=False):
        """The states that a stop may leave: all kept, all lost, each choice alone kept or lost; where it is not to be
        brief each other thing that a choice may be, garbage and zeros too, among what is kept and among what is lost,
        and one file kept and the others lost; and so many random sets."""
        choices = self.choices()
        kept = {what: may[0] for what, may in choices.items()}
        lost = {what: may[1] for what, may in choices.items()}
        found = [self.left(kept), self.left(lost)]
        for what, may in choices.items():
            found += [self.left({**kept, what: may[1]}), self.left(self.reached({**lost, what: may[0]}, what))]
            if not brief:
                is_block = what[0] == "block"
                others = [*may[2:], *([torn_of(chance, *may[:2]), chance.choice(GARBAGE), ZEROS] if is_block else [])]
                found += [self.left({**kept, what: other}) for other in others]
                found += [self.left(self.reached({**lost, what: other}, what)) for other in others]
        for name in () if brief else NAMES:
            found.append(self.left({what: may[name in (what[1], what[1][0])] for what, may in choices.items()}))
        for _ in range(sets if choices else 0):
            found.append(self.left({what: any_of(chance, what, may) for what, may in choices.items()}))
        return list(dict.fromkeys(found))

    def reached(self, chosen, what):
        """The same where the file has the block that was chosen, whatever became of its size."""
        if what[0] == "block" and ("size", what[1]) in chosen:
            chosen["size", what[1]] = max(chosen["size", what[1]], what[2] + 1)
        return chosen


def torn_of(chance, new, old):
    """A block of which a part was written, or of which only the first bytes are what they are to be."""
    cut = chance.choice([8, 9, 16, 512, 1024, 2048, 3584])
    first, second = chance.sample([new, old, chance.choice(GARBAGE)], 2)
    return first[:cut] + second[cut:]


def any_of(chance, what, may):
    """One of what a choice may be."""
    if what[0] != "block" or chance.random() < 0.7:
        return chance.choice(may)
    return chance.choice([torn_of(chance, *may[:2]), ZEROS, *GARBAGE])


def state_of(folder):
    """The state of a folder."""
    state = []
    for name in NAMES:
        path = os.path.join(folder, name)
        data = None
        if os.path.exists(path):
            with open(path, "rb") as file:
                data = file.read(MOST)
            blocks = [data[at : at + SIZE] for at in range(0, len(data), SIZE)]
            data = tuple(BLOCKS.setdefault(block, block) for block in blocks)
        state.append(data)
    return tuple(state)


def put_state(folder, state):
    """Brings a folder into a state."""
    for name, blocks in zip(NAMES, state):
        path = os.path.join(folder, name)
        if os.path.exists(path):
            os.remove(path)
        if blocks is not None:
            with open(path, "wb") as file:
                file.write(b"".join(blocks))


def asked(process, command):
    """The reply to a command, empty where there is none."""
    try:
        process.stdin.write(command + "\n")
        process.stdin.flush()
    except BrokenPipeError:
        return ""
    status = process.stdout.readline()
    rows = int(status[3:]) if status.startswith("ok ") else 0
    return status + "".join(process.stdout.readline() for _ in range(rows))


class Run:
    """A run that is recorded, over a folder in a state: its calls, its replies, its status and what it said. It is
    given commands, each when the one before was answered, or a text."""

    def __init__(self, work, state, program, given, fails=None):
        folder, trace = os.path.join(work, "run"), os.path.join(work, "trace")
        put_state(folder, state)
        self.given, self.told = given, []
        inject = ["-e", f"inject={fails}"] if fails else []
        pipes = {"stdin": subprocess.PIPE, "stdout": subprocess.PIPE, "stderr": subprocess.PIPE}
        process = subprocess.Popen([*STRACE, *inject, "-o", trace, *program, FILE], cwd=folder, text=True, **pipes)
        limit = threading.Timer(60, process.kill)  # of a run that doesn't answer
        limit.start()
        is_text = isinstance(given, str)
        for command in [] if is_text else given:
            self.told += [reply for reply in [asked(process, command)] if reply]
        try:
            self.said = process.communicate(given if is_text else None, timeout=300)[1]
        except BrokenPipeError:
            self.said = process.stderr.read()
        self.status = process.wait(timeout=300)
        limit.cancel()
        names = [name for name, blocks in zip(NAMES, state) if blocks is not None]
        with open(trace, encoding="ascii") as lines:
            self.calls = Trace(folder, names).read(lines)
        if Disk.behind(state, self.calls).shown() != state_of(folder):
            raise ValueError(f"the calls of {program} do not tell what became of the files")

    def answered(self, count):
        """How many replies were told by so many calls."""
        said = sum(len(call.data) for call in self.calls[:count] if call.word == "reply")
        told = [len("".join(self.told[: k + 1])) for k in range(len(self.told))]
        return sum(length <= said for length in told)

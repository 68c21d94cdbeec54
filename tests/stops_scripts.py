"""The scripts of tests/stops_of_files.py, the tables that may be found where they are stopped, and what is changed by
hand: calls of a run and states of a folder."""
from plain_table import Table
from stops import FILE, JOURNAL, SIZE, ZEROS

REFUSED = "a refusal"  # in the place of a table
FIRST = ["create a 2 4", *(f"insert a {k} {k} 0 {k + 2} 1" for k in range(1, 9))]
BASE = [*FIRST, "insert a 9 0 0 9 9", "insert a 10 5 5 6 6", "create b 3 4", "insert b 7 0 0 0 9 9 9"]
CHANGES = ["insert a 20 5 5 6 6", "delete a 3", "create c 2 4", "insert c 1 0 0 1 1 tag 7", "reopen"]
LATER = ["insert a 3 1 1 2 2", "insert b 8 1 1 1 2 2 2"]  # on other pages than the changes before them, too
LOAD = "\n".join(["load d 40", *(f"{k} {k} {k} {k + 5} {k}" for k in range(40))])
BOXES = "id,minx,miny,maxx,maxy\n" + "".join(f"{k},{k},0,{k + 1},1\n" for k in range(30, 40))

# Words, what is read, and whether the store is there before.
SCRIPTS = {
    "creation": (["--create"], [*FIRST, "reopen", "insert a 50 0 0 1 1"], False),
    "closings": ([], [*CHANGES, "delete a 7", "move a 1 9 9 9 9", "reopen", "reopen", *LATER], True),
    "growth": (["--cache", "8"], ["create d 2 4", LOAD, "delete a 1", "reopen", "drop a", "reopen", *FIRST], True),
    "import": (["--import", "a"], BOXES, True),
    "new import": (["--create", "--import", "n:4"], BOXES, False),
    "strict": (["--strict"], [*CHANGES, "delete a 5", "delete a 5", "insert a 70 0 0 1 1"], True),
    "read-only": (["--read-only"], ["dump", "insert a 60 0 0 1 1", "count a"], True),
    "library": (["library"], [*CHANGES, "insert a 21 5 5 6 6", "delete a 8", "reopen", "delete a 2"], True),
}
# What a run that follows may read behind a dump.
NEXT = [
    [],
    ["insert a 90 3 3 4 4", "reopen", "delete a 90"],
    ["create z 2 4", "insert z 1 0 0 1 1", "delete a 5", "reopen", "drop z", "reopen"],
    ["delete a 1", "reopen"],
]


def answer_of(table, command):
    """The reply of a plain table to a command, which it takes."""
    return table.answer(iter(command.split("\n")))


def table_of(dump):
    """The table that a dump tells."""
    table = Table()
    for line in dump.splitlines()[1:]:
        answer_of(table, line)
    return table


def loads_of(words, given):
    """The commands that do what an import of a text does."""
    if not isinstance(given, str):
        return []
    layer, _, fanout = words[-1].partition(":")
    made = [f"create {layer} 2 {fanout}"] if fanout else []
    return made + [f"insert {layer} {row.replace(',', ' ')}" for row in given.splitlines()[1:]]


def moments_of(run, before, table, loads=()):
    """What may be found, by how many replies were told, of a run over this table before which the tables `before` might
    be found; and at last what may be found once it has ended. What its text has it do are the loads."""
    if not run.told and not loads:
        return [before, before]
    kept, moments, closes = before, [], True
    for command, told in zip(run.given, run.told):
        now = answer_of(table, "dump")
        moments.append(kept | {now} if command == "reopen" else kept)
        kept = {now} if len(moments) == 1 else kept  # the store stands
        if told.startswith("fail 19"):
            closes = False
            kept = {now} if command == "reopen" and told != "fail 19 StoreFailed 19\n" else kept
        elif command == "reopen":
            kept = {now} if told == "ok\n" else kept | {now}
        elif not told.startswith("fail 17") and told != answer_of(table, command):
            raise ValueError(f"{command} was answered {told}")
    if "rstore: line " in run.said:  # a strict run closes nothing
        return [*moments, kept, kept]
    for command in loads:
        answer_of(table, command)
    now = answer_of(table, "dump")
    moments.append(kept | {now} if closes else kept)
    return [*moments, {now} if closes and run.status == 0 else moments[-1]]


def may_be(run, moments, count):
    """What may be found behind so many calls of a run."""
    return moments[-1] if count == len(run.calls) else moments[run.answered(count)]


def writes(name, block=None, byte=None):
    """Whether a call writes a file, that block, with that byte behind the text that it begins with."""
    return lambda call: call.word == "write" and call.file[0] == name and (
        block in (None, call.at // SIZE) and byte in (None, call.data[8])
    )


def commits(call):
    """Whether a call says that a region of the journal is committed."""
    return call.word == "write" and call.file[0] == JOURNAL and call.data[:9] == b"RSTARJNL\1"


def syncs_of(name):
    """Whether a call is a sync of a file."""
    return lambda call: call.word == "sync" and call.file[0] == name


def place(calls, test, begin=0):
    """The place of the first call from one on that passes a test."""
    return next(k for k, call in enumerate(calls) if k >= begin and test(call))


def is_reply(call):
    return call.word == "reply"


def filters(calls):
    """What is done to the calls of a run that changes a store, and the calls then."""

    def without(test, begin, end):
        return [call for k, call in enumerate(calls) if not (begin <= k < end and test(call))]

    def moved(there, to):
        others = calls[:there] + calls[there + 1 :]
        return others[:to] + [calls[there]] + others[to:]

    def all_moved(test, begin, end, to):
        them = [call for k, call in enumerate(calls) if begin <= k < end and test(call)]
        others = without(test, begin, end)
        return others[:to] + them + others[to:]

    def last(test, end):
        return max(k for k in range(end) if test(calls[k]))

    # the first commit of the run, behind which FILE has the mark
    added = place(calls, writes(FILE))
    flag = place(calls, commits)
    entry = last(writes(JOURNAL), flag)
    first = place(calls, syncs_of(JOURNAL), flag)
    mark = place(calls, writes(FILE, 0, 2))
    told = place(calls, is_reply, max(flag, mark))
    yield "no sync of the folder with the journal", without(lambda call: call.word == "folder", 0, flag)
    yield "no sync of the blocks that are added", without(syncs_of(FILE), added, flag)
    yield "no sync of the slots", without(syncs_of(JOURNAL), entry, flag)
    yield "no sync of the flag", without(syncs_of(JOURNAL), flag, told)
    yield "the flag before the sync of the slots", moved(flag, place(calls, syncs_of(JOURNAL), entry))
    yield "a reply before the sync of the flag", moved(told, flag)
    # the second, in a region behind it
    flag = place(calls, commits, told)
    entry = last(writes(JOURNAL), flag)
    told = place(calls, is_reply, flag)
    yield "no sync of the slots of a later commit", without(syncs_of(JOURNAL), entry, flag)
    yield "no sync of the flag of a later commit", without(syncs_of(JOURNAL), flag, told)
    yield "the flag of a later commit before the sync of its slots", moved(flag, place(calls, syncs_of(JOURNAL), entry))
    yield "a reply before the sync of the flag of a later commit", moved(told, flag)
    # the third, and the end of the run, which copies all home
    flag = place(calls, commits, told)
    commit = place(calls, syncs_of(JOURNAL), flag)
    home = place(calls, writes(FILE), commit)
    clear = place(calls, writes(JOURNAL, 2, 0), home)
    end = place(calls, lambda call: call.data[:8] == b"RSTAREND", clear)
    shut = place(calls, writes(FILE, 0, 1), end)
    gone = place(calls, lambda call: call.word == "remove", shut)
    yield "no sync of the mark", without(syncs_of(FILE), mark, home)
    yield "no sync of the flag of a third region", without(syncs_of(JOURNAL), flag, home)
    yield "copies before the sync of a flag", all_moved(writes(FILE), home, clear, first)
    yield "no sync of what is copied", without(syncs_of(FILE), home, clear)
    yield "the flag is cleared before the sync of what is copied", moved(clear, place(calls, syncs_of(FILE), home))
    yield "no sync of the end", without(syncs_of(JOURNAL), end, shut)
    yield "no sync of the shut gate", without(syncs_of(FILE), shut, gone)
    yield "the removal before the sync of the shut gate", moved(gone, place(calls, syncs_of(FILE), shut))


def damages(state, older):
    """Pairs that were damaged, and how: of `older` there is an older copy of FILE."""
    for side, name in enumerate((FILE, JOURNAL)):
        for number, block in enumerate(state[side]):
            for at in (0, 5, 8, 11, 15, 19, 23, 256, 290, 400, 4095):
                other = list(state[side])
                other[number] = block[:at] + bytes([block[at] ^ 1 << at % 8]) + block[at + 1 :]
                yield f"{name} block {number} byte {at}", put(state, side, other)
            yield f"{name} cut to {number}", put(state, side, state[side][:number])
            other = [*state[side][:number], ZEROS, *state[side][number + 1 :]]
            yield f"{name} block {number} is zeros", put(state, side, other)
    for count in range(1, len(older[0]) + 1):
        yield f"an older copy of FILE, cut to {count}", put(state, 0, older[0][:count])


def put(state, side, blocks):
    """The state with these blocks on a side."""
    return tuple(tuple(blocks) if k == side else kept for k, kept in enumerate(state))

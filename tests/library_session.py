"""A session over a file by the library, which answers lines as the program does: library_session.py LIBRARY FILE, where
LIBRARY is the path of librstore.so. It knows `create`, `insert`, `move`, `delete`, `reopen`, which commits, and `dump`.
"""
import os
import sys

os.environ["RSTORE_LIBRARY"] = sys.argv[1]
sys.path.append(os.path.join(os.path.dirname(os.path.dirname(os.path.abspath(__file__))), "library"))
import rstore  # noqa: E402


def dump(db):
    """The rows of a dump."""
    rows = []
    for name, dims, fanout, _ in db.layers():
        rows.append(f"create {name} {dims} {fanout}")
        for ident, box, tag in db[name].all_rows():
            rows.append(" ".join(map(str, ["insert", name, ident, *box])) + (f" tag {tag}" if tag else ""))
    return rows


def answer(db, word, *given):
    """The reply to a command."""
    if word == "dump":
        rows = dump(db)
        return "\n".join([f"ok {len(rows)}", *rows])
    if word == "reopen":
        db.commit()
    elif word == "create":
        db.create_layer(given[0], int(given[1]), int(given[2]))
    elif word == "delete":
        db[given[0]].delete(int(given[1]))
    else:
        numbers = [int(number) for number in given[1:] if number != "tag"]
        count = 1 + 2 * db[given[0]].dims
        getattr(db[given[0]], word)(numbers[0], tuple(numbers[1:count]), *numbers[count:])
    return "ok"


def main():
    try:
        with rstore.open(sys.argv[2]) as db:
            for line in sys.stdin:
                try:
                    reply = answer(db, *line.split())
                except rstore.Error as error:
                    reply = f"fail {error.number} {type(error).__name__}"
                print(reply, flush=True)
    except rstore.Error as error:
        sys.exit(f"rstore: {error}")


main()

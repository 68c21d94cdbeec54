#!/usr/bin/env python3
"""Counts what a reader meets, as tables for docs/ARCHITECTURE.md, "What a reader meets".

    tools/readers.py               writes the tables into docs/ARCHITECTURE.md, between their marks
    tools/readers.py -             prints them instead
    tools/readers.py COMMAND       prints which functions of which files `Store::COMMAND` walks through

Crates of tests are left out (`TESTS` of tools/layers.py). What is counted stands in docs/ARCHITECTURE.md, and how a
call is resolved at the head of tools/calls.py. tests/documents.py tests that the tables are up to date.
"""
import os
import re
import sys

sys.dont_write_bytecode = True
import calls  # of tools/, as the next two
import layers
import lines

DOCUMENT = os.path.join(layers.TOP, "docs", "ARCHITECTURE.md")
MARKS = "<!-- from here on tools/readers.py writes -->", "<!-- up to here tools/readers.py writes -->"

# Where a walk begins: the public functions of `Store` in layer_store.
WALKS = ["insert", "range", "close"]
NAMES = {"insert": "insertion", "range": "window", "close": "closing"}

# The goals of the house.
MOST_PROOF_A_LINE = 3.2
MOST_PROOF_A_LINE_OF = {"id_tree": 5}
MOST_PROOFS = 85000
MOST_FILES_OF = {"insert": (90, 18)}  # files and crates of a walk
MOST_CLAUSES = 5  # of a private function of the next crates
CLAUSES_IN = "id_tree id_chains layer_pages node_page live_layers"
MOST_CRATES = 48
MOST_REPEATS = 600


def proof_lines(crate):
    """The lines of a crate's proofs without blanks, comments and imports."""
    every = [line.strip() for text in lines.texts(crate, "proofs") for line in text.splitlines()]
    return sum(not re.match(r"--|(pub )?use\b|$", line) for line in every)


class Counts:
    """What is counted of a crate, or of all."""

    def __init__(self, files, proof):
        functions = [function for file in files for function in file.functions if not function.test]
        pairs = [file.lines() for file in files]
        self.code, self.contract, self.proof = sum(a for a, _ in pairs), sum(b for _, b in pairs), proof
        self.functions = len(functions)
        self.clauses = sum(function.clauses for function in functions)
        self.most = max((function.clauses for function in functions), default=0)
        over = [function for function in functions if function.clauses > MOST_CLAUSES and not function.public]
        self.over = sum(function.private for function in over)
        self.over_in_crate = len(over) - self.over

    def row(self, name):
        """A row of the table."""
        each = f"{self.contract / self.code:.2f} | {self.proof / self.code:.1f}"
        mean = f"{self.clauses / self.functions:.1f} | {self.most}"
        return f"| {name} | {self.code} | {each} | {self.functions} | {mean} |"


def tables():
    """The tables, as they stand in the document."""
    house = calls.House()
    counts = {crate: Counts(files, proof_lines(crate)) for crate, files in house.files.items()}
    every = Counts([file for files in house.files.values() for file in files], sum(c.proof for c in counts.values()))
    out = ["| crate | code | contract a line | proof a line | functions | clauses a function | the most of one |"]
    out += ["|---|---|---|---|---|---|---|"]
    out += [counts[crate].row(f"`{crate}`") for crate in counts]
    out += [every.row(f"all {len(counts)}"), ""]

    out += ["| command | begins at | functions | files | crates |", "|---|---|---|---|---|"]
    sizes = {}
    for name in WALKS:
        reached = house.walk("layer_store", "Store", name)
        files = {function.file for function in reached}
        sizes[name] = len(files), len({file.crate for file in files})
        out.append(f"| {NAMES[name]} | `Store::{name}` | {len(reached)} | {sizes[name][0]} | {sizes[name][1]} |")

    out += ["", "| what | now | goal |", "|---|---|---|"]
    out += [f"| proof a line of code, in all | {every.proof / every.code:.2f} | at most {MOST_PROOF_A_LINE} |"]
    for crate, most in MOST_PROOF_A_LINE_OF.items():
        ratio = counts[crate].proof / counts[crate].code
        out += [f"| proof a line of code, in `{crate}` | {ratio:.2f} | at most {most} |"]
    whole = sum(text.count("\n") for crate in layers.crates() for text in lines.texts(crate, "proofs"))
    out += [f"| lines of proof in the crates above | {every.proof} | |"]
    out += [f"| lines of all files of proofs, with blanks, comments and imports | {whole} | at most {MOST_PROOFS} |"]
    for name, (files, crates) in MOST_FILES_OF.items():
        now = f"{sizes[name][0]} files in {sizes[name][1]} crates"
        out += [f"| walk of an {NAMES[name]} | {now} | at most {files} files in {crates} crates |"]
    for crate in CLAUSES_IN.split():
        now = f"{counts[crate].over}, and {counts[crate].over_in_crate} of the crate alone"
        out += [f"| private functions of `{crate}` with more than {MOST_CLAUSES} clauses | {now} | none |"]
    out += [f"| crates, with those of tests | {len(layers.crates())} | at most {MOST_CRATES} |"]
    out += [f"| pairs of repeated places | not counted here | at most {MOST_REPEATS} |"]
    return "\n".join(out) + "\n"


def parts():
    """The document before its tables, its tables, and the rest."""
    with open(DOCUMENT, encoding="utf-8") as file:
        text = file.read()
    if [text.count(mark) for mark in MARKS] != [1, 1]:
        sys.exit(f"readers.py: {DOCUMENT} has not each mark once")
    before, rest = text.split(MARKS[0])
    now, behind = rest.split(MARKS[1])
    return before, now.strip("\n") + "\n", behind


def walked(name):
    """What a walk comes to, file by file."""
    house = calls.House()
    if not any(f.name == name and f.public for file in house.files["layer_store"] for f in file.functions):
        sys.exit(f"readers.py: Store has no {name}")
    found = {}
    for function in house.walk("layer_store", "Store", name):
        path = f"{function.file.crate}/src/{function.file.name}"
        found.setdefault(path, set()).add(function.name)
    order = list(house.files)
    for path in sorted(found, key=lambda path: (order.index(path.split("/")[0]), path)):
        print(path, *sorted(found[path]))
    for (caller, method), chosen in house.guessed.items():
        print(f"by its name alone: {caller} calls {method} of", *chosen)


def main():
    words = sys.argv[1:]
    if len(words) > 1 or words and words[0].startswith("-") and words[0] != "-":
        sys.exit(__doc__)
    if words == ["-"]:
        print(tables(), end="")
    elif words:
        walked(words[0])
    else:
        before, _, behind = parts()
        made = f"{before}{MARKS[0]}\n\n{tables()}\n{MARKS[1]}{behind}"
        with open(DOCUMENT, "w", encoding="utf-8") as file:
            file.write(made)


if __name__ == "__main__":
    main()

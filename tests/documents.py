#!/usr/bin/env python3
"""Looks at the documents: docs/layers.svg is what tools/layers.py draws of crates.txt; the tables of
docs/ARCHITECTURE.md and docs/PERFORMANCE.md have each crate, in the order of crates.txt; the tables of what a reader
meets are what tools/readers.py counts; each file that a document names is there, and each contract that
docs/REGISTER.md names. It runs no program.

documents.py [WORDS OF unittest]
"""
import glob
import os
import re
import sys
import unittest

TOP = os.path.dirname(os.path.dirname(os.path.abspath(__file__)))
sys.path.insert(0, os.path.join(TOP, "tools"))
sys.dont_write_bytecode = True
import layers  # of tools/, as the next one
import readers

DOCUMENTS = [os.path.relpath(path, TOP) for path in glob.glob(f"{TOP}/*.md") + glob.glob(f"{TOP}/docs/*.md")]
MADE = re.compile(r"NAME|sqlite3ext")  # names that no file here has
ENDINGS = "rt|antt|py|sh|c|h|cpp|txt|md|svg|edit|rattle|out"
CODE = re.compile(r"\b(?:fn|struct|enum|trait|type|const|ensures\*?|ghost) (\w+)")  # what it defines
SPEC = re.compile(r"(?m)^\s*(?:(?:pub|abbrev|record|data|mutual) )*(\w+)")  # what definitions define: the first name of a line


def text_of(file):
    """A file of the repository."""
    with open(os.path.join(TOP, file), encoding="utf-8") as it:
        return it.read()


def files():
    """The paths of all files, but of what is made."""
    found = []
    for folder, below, names in os.walk(TOP):
        below[:] = [name for name in below if name not in (".git", "out", "lib", "__pycache__")]
        found += [os.path.relpath(os.path.join(folder, name), TOP) for name in names]
    return found


def defined():
    """What each file of src/ and specs/ defines, by its path: functions, clauses, types, definitions and fields."""
    paths = [path for path in files() if re.match(r"crates/\w+/(src|specs)/.*\.(rt|antt)$", path)]
    return {path: set((CODE if path.endswith(".rt") else SPEC).findall(text_of(path))) for path in paths}


class Documents(unittest.TestCase):
    """What documents say of other files."""

    def test_the_picture_of_the_layers(self):
        self.assertTrue(layers.picture() == text_of("docs/layers.svg"), "run tools/layers.py")

    def test_the_tables_of_what_a_reader_meets(self):
        self.assertTrue(readers.tables() == readers.parts()[1], "run tools/readers.py")

    def test_the_tables_of_crates(self):
        crates = list(layers.crates())
        for document in ("docs/ARCHITECTURE.md", "docs/PERFORMANCE.md"):
            tables = re.split(r"\n\n+", text_of(document))
            rows = [re.findall(r"(?m)^\| `(\w+)` \|", table) for table in tables]
            self.assertIn(crates, rows, f"{document} has no table of all crates in their order")
        self.assertIn(f"{len(crates)} crates", text_of("docs/ARCHITECTURE.md"))

    def test_the_files_that_are_linked(self):
        for document in DOCUMENTS:
            for link in re.findall(r"\]\(([^)\s]+)\)", text_of(document)):
                path = os.path.join(TOP, os.path.dirname(document), link.split("#")[0])
                self.assertTrue("://" in link or os.path.exists(path), f"{document}: {link}")

    def test_the_files_that_are_named(self):
        there = ["/" + path for path in files()]
        for document in DOCUMENTS:
            for path in sorted(set(re.findall(rf"`([\w./-]+\.(?:{ENDINGS}))`", text_of(document)))):
                with self.subTest(document=document, path=path):
                    end = "/" + re.sub(r"^\./", "", path)
                    self.assertTrue(MADE.search(path) or any(name.endswith(end) for name in there))

    def test_the_register(self):
        """In the second and third column of docs/REGISTER.md each path is there, and each other name is a crate, or
        defined in a file or crate that stands in its cell."""
        names_of = defined()
        rows = [row.strip("| ").split(" | ")[1:] for row in text_of("docs/REGISTER.md").splitlines() if row.startswith("| ")]
        for cell in [cell for row in rows for cell in row]:
            names = re.findall(r"`([^`]+)`", cell)
            places = [name for name in names if os.path.exists(os.path.join(TOP, name))]
            crates = [name for name in names if os.path.isdir(f"{TOP}/crates/{name}")]
            within = tuple(places + [f"crates/{crate}/" for crate in crates])
            known = set().union(*[names_of[path] for path in names_of if path.startswith(within)])
            for name in set(names) - set(places) - set(crates):
                with self.subTest(cell=cell, name=name):
                    self.assertIn(name.split("::")[-1], known)
        named = set(re.findall(r"crates/\w+/must-fail/\w+\.edit", text_of("docs/REGISTER.md")))
        self.assertEqual(named, {path for path in files() if path.endswith(".edit")})


unittest.main(verbosity=0)

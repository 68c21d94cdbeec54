#!/usr/bin/env python3
"""test.py EXTENSION [RUNS]: tests rstore_sqlite.so by Python's sqlite3: random runs beside SQLite's own rtree_i32 of
the same connection, and each thing that docs/SQL.md promises. EXTENSION is the file, RUNS how many of these (60). It
says what it has tried, a line each. RSTORE_LIB in the environment is the folder of the library."""

import asked
import beside_rtree
import files
import kept
import others
from common import TRIED

for test in (
    asked.beside_rtree, asked.numbers, asked.bounds_of_values, asked.nearest, asked.joins, asked.random_joins,
    kept.savepoints, kept.blocks, kept.held_blocks, kept.definitions, kept.triggers_and_loads, others.connections,
    others.copies, others.interrupts, others.kills, others.damage, files.files, files.changes, files.waits,
    files.savepoints, files.turns, files.kills, files.full, beside_rtree.random_runs,
):
    test()
for what, times in TRIED.items():
    print(f"{times:7} {what}")
print("all passed")

#!/usr/bin/env python3
"""Counts the lines of each crate of crates.txt, its tests and its must-fail edits, as rows for docs/PERFORMANCE.md.

    tools/lines.py
"""
import os
import re

TOP = os.path.dirname(os.path.dirname(os.path.abspath(__file__)))


def texts(crate, part):
    """The files of a folder of a crate."""
    for folder, _, files in os.walk(os.path.join(TOP, "crates", crate, part)):
        for name in files:
            with open(os.path.join(folder, name), encoding="utf-8") as file:
                yield file.read()


def main():
    print("| crate | code with tests | specs | proofs | tests | must-fail edits |\n|---|---|---|---|---|---|")
    sums = [0] * 5
    with open(os.path.join(TOP, "crates.txt"), encoding="utf-8") as file:
        crates = [re.match(r"\w+", line)[0] for line in file if not line.startswith("#")]
    for crate in crates:
        lines = [sum(text.count("\n") for text in texts(crate, part)) for part in ("src", "specs", "proofs")]
        tests = sum(len(re.findall(r"(?m)^ *#\[test\]", text)) for text in texts(crate, "src"))
        counts = [*lines, tests, len(list(texts(crate, "must-fail")))]
        sums = [a + b for a, b in zip(sums, counts)]
        print(f"| `{crate}` | " + " | ".join(str(count or "") for count in counts) + " |")
    print(f"| all {len(crates)} | " + " | ".join(map(str, sums)) + " |")


if __name__ == "__main__":
    main()

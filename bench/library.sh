#!/usr/bin/env bash
# Measures the library from C and from Python beside Boost's R*-tree in C++ and the package rtree in Python (Debian's
# libboost-dev and python3-rtree), over BOXES uniform boxes of two axes (100,000), and prints a table: microseconds of
# processor time of a call, the least of ROUNDS rounds (15). What is not here is left out.
#
#   bench/library.sh [BOXES [ROUNDS]]
#
# The store is in a file, with 4096 cached pages, all others are in memory. Rows: windows of no row, of ten and of 900, and
# of ten into an array of the caller's or as identifiers alone; the ten nearest to a point; an object by its identifier; a
# count (what a call alone costs); insertions and deletions one by one; a load, of a box. Of rstore rows are tuples; of
# rtree and of rstore.rtree identifiers. Behind it stands the table of bench/arrays.py, many questions in one call, where
# numpy is here.
set -eu
here=$(cd "$(dirname "$0")" && pwd)
boxes=${1:-100000} rounds=${2:-15}
lib=$here/../library/lib
[ -f "$lib/librstore.so" ] || "$here/../library/build.sh" >/dev/null
work=$(mktemp -d)
trap 'rm -rf "$work"' EXIT
python=python3
for other in /usr/bin/python3 python3; do
    if "$other" -c 'import rtree' 2>/dev/null; then python=$other; fi
done
python3 - "$boxes" >"$work/boxes" <<'PY'
import random, sys
n, dice, side = int(sys.argv[1]), random.Random(7), 1_000_000
def box(width):
    x, y = dice.randrange(side), dice.randrange(side)
    return f"{x} {y} {x + dice.randrange(width + 1) if width == 1000 else x + width} {y + dice.randrange(width + 1) if width == 1000 else y + width}"
for _ in range(n):
    print("box", box(1000))
scale = (100_000 / n) ** 0.5
for kind, width, count in (("none", 0, 5000), ("ten", int(9500 * scale), 5000), ("many", int(94_500 * scale), 300)):
    for _ in range(count):
        print(kind, box(width))
PY
cc -O2 -std=c11 -Wall -Wextra -I"$lib" -o "$work/times" "$here/library_times.c" "$lib/librstore.a"
"$work/times" "$work/boxes" "$rounds" "$work/store" >"$work/1"
echo "rstore, C" >"$work/names"
if echo '#include <boost/geometry/index/rtree.hpp>' | g++ -x c++ -fsyntax-only - 2>/dev/null; then
    g++ -O2 -std=c++17 -o "$work/boost" "$here/library_boost.cpp"
    "$work/boost" "$work/boxes" "$rounds" >"$work/2"
else
    : >"$work/2"
fi
echo "Boost, C++" >>"$work/names"
number=3
for module in rstore rstore.rtree rtree; do
    : >"$work/$number"
    if [ $module != rtree ] || "$python" -c 'import rtree' 2>/dev/null; then
        PYTHONPATH=$here/../library RSTORE_LIBRARY=$lib/librstore.so \
            "$python" "$here/library_times.py" $module "$work/boxes" "$rounds" "$work" >"$work/$number"
    fi
    echo "$module, Python" >>"$work/names"
    number=$((number + 1))
done
python3 - "$work" <<'PY'
import sys
work = sys.argv[1]
names = [line.strip() for line in open(f"{work}/names")]
columns = []
for k in range(len(names)):
    rows = [line.rstrip("\n").split("\t") for line in open(f"{work}/{k + 1}")]
    columns.append({name: (float(took), float(found)) for name, took, found in rows})
said = [("none", "window of no row"), ("ten", "of ten rows"), ("ten, own room", "of ten, the caller's array"),
        ("ids", "of ten, identifiers"), ("many", "of 900"), ("nearest", "ten nearest"), ("get", "get"), ("count", "count"),
        ("insert", "insert"), ("delete", "delete"), ("load", "load, a box")]
print("| | " + " | ".join(names) + " | rtree to rstore | rtree to rstore.rtree |")
print("|---" * (len(names) + 3) + "|")
def ratio(a, b, name):
    return f"{a[name][0] / b[name][0]:.1f}" if name in a and name in b and b[name][0] else ""
for name, text in said:
    cells = [f"{c[name][0]:.2f}" if name in c else "" for c in columns]
    print(f"| {text} | " + " | ".join(cells) + f" | {ratio(columns[4], columns[2], name)} | {ratio(columns[4], columns[3], name)} |")
found = {name: columns[0][name][1] for name in ("none", "ten", "many")}
print(f"rows of a window: {found}")
for k, c in enumerate(columns):
    for name in ("none", "ten", "many"):
        if name in c and abs(c[name][1] - found[name]) > 0.005:
            sys.exit(f"bench/library.sh: {names[k]} has {c[name][1]} rows, not {found[name]}")
PY
if "$python" -c 'import numpy' 2>/dev/null; then
    PYTHONPATH=$lib "$python" "$here/arrays.py" "$boxes"
fi

#!/usr/bin/env bash
# test.sh [QUICK]: builds the library where that is not done, and tests it: an example in C compiled with all warnings as
# errors, in C++ too, worked rows of each question and each misuse, address and undefined-behaviour sanitizers over them,
# 2,000 allocations that fail in turn, a thread with the least stack that is promised, sessions that are stopped at each
# call of the system, 100,000 random boxes beside plain lists, many questions in one call, changes that are given up,
# and from Python random sessions beside dictionaries, kills, processes and threads, readers beside a writer, files exchanged
# with the program both ways, `Index` by its documentation and beside rtree, what stops of the machine leave of the calls of
# a session (tests/stops_of_files.py), sharded layers beside one store and what goes wrong with them (where Dask is there),
# the extension of SQLite (sqlite/test.sh, where libsqlite3-dev and sqlite3 are there), and what README.md shows
# (tests/readme.py). It says what it has tried, a line each. With a word after its name it tries less; of shards and SQL
# it always does, whose own scripts try more.
set -eu
here="$(cd "$(dirname "$0")" && pwd)"
top="$(cd "$here/.." && pwd)"
if [ -w /dev/shm ]; then export TMPDIR=/dev/shm; fi  # where a sync takes no time
work="$(mktemp -d)"
trap 'rm -rf "$work"' EXIT
lib="$work/lib"
"$here/build.sh" "$lib" 2>"$work/log" || { cat "$work/log" >&2; exit 1; }
program="$top/crates/rstore/out/rstore"
[ -x "$program" ] || "$top/rstore" </dev/null >/dev/null
warnings="-Wall -Wextra -Werror -Wpedantic"
rounds=2000 quick=""
[ -z "${1:-}" ] || { rounds=200 quick=quick; export RSTORE_QUICK=1; }
cd "$work"

# The example, from each library and each language.
cc -std=c11 $warnings -I"$lib" "$here/test/example.c" "$lib/librstore.a" -o example
./example a && ./example b >b.txt && diff b.txt "$here/test/example.txt"
cc -std=c11 $warnings -I"$lib" "$here/test/example.c" -L"$lib" -lrstore -Wl,-rpath,"$lib" -o shared
./shared c | diff - "$here/test/example.txt"
echo '#include "rstore.h"' >header.cpp
c++ -std=c++11 $warnings -fsyntax-only -I"$lib" header.cpp
[ ! -e a-journal ] && cmp a b && cmp a c
nm -D --undefined-only "$lib/librstore.so" | grep -w -e abort -e exit -e printf && { echo "test.sh: it may end a program" >&2; exit 1; }
[ "$(nm -D --defined-only "$lib/librstore.so" | grep -vc ' rstore_' || true)" = 0 ]
for name in rows misuse; do
    cc -std=c11 $warnings -I"$lib" "$here/test/$name.c" "$lib/librstore.a" -o "$name"
done
./rows d
./misuse e

# The same under sanitizers.
sanitize="-fsanitize=address,undefined -fno-sanitize-recover=all -g"
CFLAGS="$sanitize" "$here/build.sh" "$work/checked" 2>"$work/log" || { cat "$work/log" >&2; exit 1; }
for name in example rows misuse; do
    cc -std=c11 $warnings $sanitize -I"$lib" "$here/test/$name.c" "$work/checked/librstore.a" -o "${name}_checked"
done
./example_checked f | diff - "$here/test/example.txt"
./rows_checked j >/dev/null
./misuse_checked g >/dev/null
echo "sanitizers find nothing"

# Many questions in one call.
cc -std=c11 $warnings -I"$lib" "$here/test/many.c" "$lib/librstore.a" -Wl,--wrap=realloc -o many
./many j
cc -std=c11 $warnings $sanitize -I"$lib" "$here/test/many.c" "$work/checked/librstore.a" -Wl,--wrap=realloc -o many_checked
./many_checked k >/dev/null

# Memory and stack.
cc -std=c11 $warnings -O1 -I"$lib" "$here/test/no_memory.c" "$lib/librstore.a" \
    -Wl,--wrap=malloc,--wrap=realloc,--wrap=calloc -o no_memory
./no_memory h "$rounds"
cc -std=c11 $warnings -I"$lib" "$here/test/stack.c" "$lib/librstore.a" -pthread -o stack
./stack 256 i

# Changes given up.
failing=""
for call in malloc realloc calloc pread pwrite fdatasync; do failing="$failing -Wl,--wrap=$call"; done
cc -std=c11 $warnings -O1 -I"$lib" "$here/test/rollback.c" "$lib/librstore.a" $failing -o rollback
./rollback l
cc -std=c11 $warnings $sanitize -I"$lib" "$here/test/rollback.c" "$work/checked/librstore.a" $failing \
    -o rollback_checked
./rollback_checked m >/dev/null

# Stops, over files in memory, and many boxes.
wrapped=""
for call in open close flock nanosleep fstat stat lstat rename realpath unlink fsync fdatasync pread pwrite; do wrapped="$wrapped -Wl,--wrap=$call"; done
cc -std=c11 $warnings -O2 -I"$lib" "$here/test/stops.c" "$lib/librstore.a" $wrapped -o stops
./stops $quick
cc -std=c11 $warnings -O2 -I"$lib" "$here/test/boxes.c" "$lib/librstore.a" -o boxes
./boxes k $quick

# Blocks of the caller's.
mkdir blocks
memory="-Wl,--wrap=malloc,--wrap=realloc,--wrap=calloc"
cc -std=c11 $warnings -O2 -I"$lib" "$here/test/blocks.c" "$lib/librstore.a" $memory -o over_blocks
./over_blocks blocks $quick
cc -std=c11 $warnings $sanitize -I"$lib" "$here/test/blocks.c" "$work/checked/librstore.a" $memory -o over_blocks_checked
./over_blocks_checked blocks quick >/dev/null

# Python. The package rtree is Debian's, so its Python is taken where it has one.
export RSTORE_LIBRARY="$lib/librstore.so" PYTHONDONTWRITEBYTECODE=1
python=python3
if /usr/bin/python3 -c 'import rtree' 2>/dev/null; then python=/usr/bin/python3; fi
"$python" "$here/test/test_rstore.py" "$program"
"$python" "$here/test/test_rtree.py"
"$python" "$here/test/test_arrays.py"
"$python" "$here/test/test_shell.py"
"$python" "$here/test/test_whole.py"
"$python" "$here/test/test_rollback.py"
"$python" "$here/test/test_readers.py"
"$top/tests/stops_of_files.py" "$((rounds / 60))" "$RANDOM" library

# Sharded layers, where a Python has Dask.
dask=""
for other in python3 /usr/bin/python3; do
    if "$other" -c 'import dask.dataframe, distributed' 2>/dev/null; then dask=$other; fi
done
if [ -n "$dask" ]; then
    RSTORE_QUICK=1 "$dask" "$here/test/test_texts.py" "$program"
    RSTORE_QUICK=1 "$dask" "$here/test/test_dask.py"
    RSTORE_QUICK=1 "$dask" "$here/test/test_dask_failures.py"
else
    echo "Dask is not installed (Debian: python3-dask, python3-distributed): sharded layers were not tried"
fi

# The extension of SQLite, where there is what it wants.
if echo '#include <sqlite3ext.h>' | cc -x c -fsyntax-only - 2>/dev/null && command -v sqlite3 >/dev/null; then
    RSTORE_LIB="$lib" RSTORE_CHECKED="$work/checked" "$here/sqlite/test.sh" quick
    "$here/sqlite/build.sh" "$lib" 2>"$work/log" || { cat "$work/log" >&2; exit 1; }
fi

# What README.md shows, also of the library.
RSTORE_LIB="$lib" "$top/tests/readme.py"

#!/usr/bin/env bash
# test.sh [QUICK]: builds the extension of SQLite, and tests it: test.py, again under address and undefined-behaviour
# sanitizers, and allocations that fail in turn. It says what it has tried, a line each. With a word after its name it
# tries less. Wants what build.sh wants, sqlite3 and a Python whose sqlite3 loads extensions (Debian's).
set -eu
here="$(cd "$(dirname "$0")" && pwd)"
if [ -w /dev/shm ]; then export TMPDIR=/dev/shm; fi  # where a sync takes no time
work="$(mktemp -d)"
trap 'rm -rf "$work"' EXIT
runs=300 less=30 rounds=4000
[ -z "${1:-}" ] || runs=40 less=8 rounds=1000
python=python3
if [ -x /usr/bin/python3 ]; then python=/usr/bin/python3; fi
lib="${RSTORE_LIB:-$here/../lib}" # a folder that library/build.sh has made
checked="${RSTORE_CHECKED:-$lib}" # and one that it has made with sanitizers
"$here/build.sh" "$lib" "$work" 2>"$work/log" || { cat "$work/log" >&2; exit 1; }
export PYTHONDONTWRITEBYTECODE=1 RSTORE_LIB="$lib" RSTORE_LIBRARY="$lib/librstore.so"
"$python" "$here/test/test.py" "$work/rstore_sqlite.so" "$runs"

sanitize="-fsanitize=address,undefined -fno-sanitize-recover=all -g"
CFLAGS="$sanitize" "$here/build.sh" "$checked" "$work/checked" 2>"$work/log" || { cat "$work/log" >&2; exit 1; }
LD_PRELOAD="$(cc -print-file-name=libasan.so):$(cc -print-file-name=libubsan.so)" ASAN_OPTIONS=detect_leaks=0 \
  "$python" "$here/test/test.py" "$work/checked/rstore_sqlite.so" "$less" >"$work/log" ||
  { cat "$work/log" >&2; exit 1; }
cc -std=c11 -O1 $sanitize -Wall -Wextra -I"$lib" "$here"/{table,store,held,files,changes,questions,joins,functions}.c \
  "$here/test/no_memory.c" "$checked/librstore.a" \
  -Wl,--wrap=malloc,--wrap=realloc,--wrap=calloc -lsqlite3 -lm -o "$work/no_memory"
"$work/no_memory" "$rounds" "$work/no_memory.rst"
echo "sanitizers find nothing"

# The session of docs/SQL.md, from the shell.
awk '/^```sql/ { on = 1; next } /^```/ { on = 0 } on' "$here/../../docs/SQL.md" |
  sed "s|library/lib/|$work/|" >"$work/session.sql"
awk '/^```/ { n++; next } n == 3' "$here/../../docs/SQL.md" >"$work/session.txt"
sqlite3 :memory: <"$work/session.sql" | diff - "$work/session.txt"
echo "the session of docs/SQL.md"

#!/usr/bin/env bash
# Measures tables of the extension of SQLite beside SQLite's own rtree and rtree_i32 in the same connection, over BOXES
# uniform boxes of two axes (100,000), and prints a table: microseconds of a row or a question, the least of ROUNDS
# rounds (5), with PAGES cached pages of SQLite's (4096). Before it library/sqlite/build.sh.
#
#   bench/sql.sh [BOXES [ROUNDS [PAGES]]]
set -eu
here=$(cd "$(dirname "$0")" && pwd)
lib=${RSTORE_LIB:-$here/../library/lib}
[ -f "$lib/rstore_sqlite.so" ] || "$here/../library/sqlite/build.sh" "$lib"
python=python3
if [ -x /usr/bin/python3 ]; then python=/usr/bin/python3; fi # whose sqlite3 loads extensions
"$python" "$here/sql.py" "$lib/rstore_sqlite.so" "${1:-100000}" "${2:-5}" "${3:-4096}"

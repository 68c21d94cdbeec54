#!/usr/bin/env bash
# Measures sharded layers on Dask beside one store, PostGIS and geopandas over the same boxes, and prints a table for
# each size and shape: seconds by the clock, and in parentheses of all processors together (not those of PostGIS's
# server). Wants a built library, Debian's python3-dask and python3-distributed; of python3-geopandas, postgresql and
# postgis what is not here is left out, and the coast where gmt-gshhg-high and netcdf-bin are not.
#
#   bench/shards.sh [BOXES.. [SHAPE..]]     4000000 16000000 uniform clustered coast, where none is said
#
# WORKERS (1 2 4) are how many worker processes there are, SHARDS how many shards (one for 250,000 boxes), GEOPANDAS
# (100000) of how many boxes geopandas is asked, in a table of its own, and DISK the folder of all files.
set -eu
here=$(cd "$(dirname "$0")" && pwd)
export PYTHONPATH=${RSTORE_LIB:-$here/../library/lib} PYTHONDONTWRITEBYTECODE=1
[ -f "$PYTHONPATH/librstore.so.0" ] || "$here/../library/build.sh" >/dev/null
python=python3
for other in python3 /usr/bin/python3; do
    if "$other" -c 'import distributed, dask.dataframe' 2>/dev/null; then python=$other; fi
done
sizes="" shapes=""
for word in "$@"; do
    case $word in [0-9]*) sizes="$sizes $word" ;; *) shapes="$shapes $word" ;; esac
done
work=$(mktemp -d)
trap 'rm -rf "$work"' EXIT

# run SIZE SHAPE WHO: into a file of its own; nothing where it is not here.
run() {
    "$python" "$here/shards.py" "$1" "$2" "$3" "${SHARDS:-0}" ${DISK:+"$DISK"} >"$work/$3" 2>"$work/log" || {
        tail -1 "$work/log" >&2
        echo "shards.sh: $3 of $1 $2 boxes was left out" >&2
        rm -f "$work/$3"
    }
}

# table NAME..: the columns, those that there are, with the rows of the first.
table() {
    "$python" - "$work" "$@" <<'PY'
import os, sys
work, names = sys.argv[1], [name for name in sys.argv[2:] if os.path.exists(f"{sys.argv[1]}/{name}")]
columns = []
for name in names:
    lines = [line.rstrip("\n").split("\t") for line in open(f"{work}/{name}")]
    columns.append({line[0]: line[1:] for line in lines})
rows = list(dict.fromkeys(name for column in columns for name in column))
print("\n| | " + " | ".join(f"{name} workers" if name.isdigit() else name for name in names) + " |")
print("|---" * (len(names) + 1) + "|")
for row in rows:
    cells = []
    for column in columns:
        clock, used, more = column.get(row, ("", "", ""))
        cells.append(f"{clock} ({used})" if used else f"{clock} {more}".strip())
    print(f"| {row} | " + " | ".join(cells) + " |")
for row in ("join", "join within 100", "windows", "ten nearest"):
    found = {column[row][2] for column in columns if row in column}
    if len(found) > 1:
        print(f"shards.sh: {row}: other answers: {found}", file=sys.stderr)
PY
}

for size in ${sizes:-4000000 16000000}; do
    for shape in ${shapes:-uniform clustered coast}; do
        rm -f "$work"/*
        for who in one ${WORKERS:-1 2 4} postgis; do run "$size" "$shape" "$who"; done
        echo "$size $shape boxes, seconds by the clock (of all processors)"
        table one ${WORKERS:-1 2 4} postgis
    done
done
rm -f "$work"/*
for who in one geopandas; do run "${GEOPANDAS:-100000}" uniform "$who"; done
echo "${GEOPANDAS:-100000} uniform boxes"
table one geopandas

#!/usr/bin/env bash
# Measures closings (`reopen`) of a file beside commits of SQLite's R*Tree (peers.cpp; Debian's libsqlite3-dev): so many
# uniform boxes are inserted into a file, closed, and then more before each closing. Prints the milliseconds of a closing, and
# of the inserts with it, wall and processor time, the least of the rounds' means, and how often it syncs (with `strace`). The
# time of a closing is from when `reopen` is written into a pipe until its reply is read, and the inserts before it were
# answered by then. All tables are the same, or it stops. The file system decides, so it is told; the files are in TMPDIR.
#
#   bench/commit.sh            a million boxes
#   bench/commit.sh BOXES
#   ROUNDS=N bench/commit.sh   N rounds, and three where it is not said
#
# SQLite: rtree_i32, the inserts prepared, one transaction a closing, synchronous=FULL, as many cached pages as the store
# (4096). Its rollback journal is measured as it is by default (DELETE: made and removed at each commit), and where the
# file stays locked, as the store's does, and the journal is kept (PERSIST).
set -eu
here=$(cd "$(dirname "$0")" && pwd)
boxes=${1:-1000000} rounds=${ROUNDS:-3} pages=4096
counts=(1:50 100:20 10000:2)
work=$(mktemp -d)
trap 'rm -rf "$work"' EXIT
g++ -O2 -std=c++17 -DSQLITE -o "$work/sqlite" "$here/peers.cpp" -lsqlite3
"$here/../rstore" </dev/null # proves and builds the program where needed
cp "$here/../crates/rstore/out/rstore" "$work/rstore"

# The columns: a name, and the words of a call.
names=(rstore rollback 'rollback, kept' WAL)
calls=("$work/rstore --cache $pages $work/store" "$work/sqlite $pages $work/DELETE DELETE"
    "$work/sqlite $pages $work/PERSIST PERSIST" "$work/sqlite $pages $work/WAL WAL")

# The first inserts, closed, in a file of each column. What was written is on the disk before anything is measured.
make_files() {
    "$work/rstore" --create --cache $pages "$work/store" <"$work/made" >/dev/null
    "$work/sqlite" $pages "$work/DELETE" <"$work/made" >/dev/null
    cp "$work/DELETE" "$work/PERSIST"
    cp "$work/DELETE" "$work/WAL"
    sync -f "$work"
}

# round FIRST COUNT..: a round of all columns, from this line of the inserts on.
round() {
    local first=$1 column
    shift
    for column in "${!calls[@]}"; do
        # shellcheck disable=SC2086
        python3 "$here/closings.py" "$work/times.$column" "$work/replies.$column" "$work/more" "$first" "$@" \
            -- ${calls[$column]}
        cmp "$work/replies.$column" "$work/replies.0"
    done
}

# syncs FIRST CLOSINGS COLUMN: how often a run syncs that closes so often after one insert, from its begin to its end.
syncs() {
    # shellcheck disable=SC2086
    python3 "$here/closings.py" "$work/none" "$work/replies" "$work/more" "$1" "1:$2" \
        -- strace -f -c -o "$work/calls" -e trace=fsync,fdatasync ${calls[$3]}
    rm -f "$work/none"
    awk '$NF ~ /^f(data)?sync$/ { sum += $4 } END { print sum + 0 }' "$work/calls"
}

# rows NAME COLUMN: the rows of the table for a time in this column of the files and the processor time behind it.
rows() {
    local row=0 count column
    for count in "${counts[@]}"; do
        row=$((row + 1))
        printf '| %s %s |' "${count%:*}" "$1"
        for column in "${!calls[@]}"; do
            awk -v r=$row -v c="$2" 'NR == r { printf " %.2f, %.2f |", $c, $(c + 1) }' "$work/times.$column"
        done
        paste "$work/times.0" "$work/times.1" "$work/times.2" |
            awk -v r=$row -v c="$2" 'NR == r { printf " %.2f, %.2f |\n", $c / $(c + 4), $c / $(c + 8) }'
    done
}

used=1 # of each round one insert is closed before the counted ones
for count in "${counts[@]}"; do used=$((used + ${count%:*} * ${count#*:})); done
python3 "$here/generate.py" closings "$work" "$boxes" $((rounds * used + 100))
make_files
for number in $(seq 0 $((rounds - 1))); do round $((number * used)) "${counts[@]}"; done
printf '\n%s boxes in a file on %s, milliseconds of a closing: wall, processor\n\n| inserts |' \
    "$boxes" "$(df --output=fstype "$work" | tail -n 1)"
printf ' %s |' "${names[@]}" 'wall time of the first by the rollbacks'
printf '\n|---|---|---|---|---|---|\n'
rows 'closed' 1
rows 'inserted and closed' 3
if command -v strace >/dev/null; then
    printf '| syncs of a closing |'
    at=$((rounds * used))
    for column in "${!calls[@]}"; do
        syncs $at 0 "$column" >/dev/null # what an earlier run left is done with
        few=$(syncs $((at + 1)) 1 "$column")
        many=$(syncs $((at + 3)) 21 "$column")
        awk -v a="$few" -v b="$many" 'BEGIN { printf " %.1f |", (b - a) / 20 }'
    done
    echo ' |'
fi

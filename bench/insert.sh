#!/usr/bin/env bash
# Measures insertions of boxes of two axes, a hundred to a node, into a tree whose pages are all held, through
# insert_times.rattle, which is proved and built in a copy of the crates below it. Prints the microseconds of one
# insertion of a hundred thousand, the least of five runs, less what a run without boxes takes.
set -eu
here=$(cd "$(dirname "$0")" && pwd)
work=$(mktemp -d)
trap 'rm -rf "$work"' EXIT
mkdir -p "$work/crates/insert_times/src" "$work/crates/insert_times/proofs/insert_boxes"
. "$here/below.sh"
copy_crates reinsert
cp "$here/insert_times.rattle" "$work/crates/insert_times/src/main.rt"
cp "$here/insert_times.invariants" "$work/crates/insert_times/proofs/insert_boxes/Invariants.antt"
echo 'insert_times: reinsert tree_node node_page page_cache page_file block_device box_math arrayvec' >>"$work/crates.txt"
build_program insert_times
program="$work/crates/insert_times/out/insert_times"

# The least processor seconds of five runs.
least() {
    for _ in 1 2 3 4 5; do
        ( TIMEFORMAT='%U %S'; time "$program" "$1" >"$work/answer" ) 2>&1 | awk '{ print $1 + $2 }'
    done | sort -n | head -n 1
}

empty=$(least 0)
all=$(least 100000)
cat "$work/answer"
awk -v a="$all" -v b="$empty" 'BEGIN { printf "%.2f microseconds an insertion\n", (a - b) * 10 }'

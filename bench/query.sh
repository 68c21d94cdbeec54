#!/usr/bin/env bash
# Measures range queries over a tree of a hundred leaves of a hundred points, all pages held (query_times.rattle, proved
# and built over a copy of the crates below range_query): windows of one row, two looks each, and windows of all 10,000
# rows. Prints the nanoseconds of a look of the first, and of a row of the second without its looks; the least of five
# runs each, without what the making of the tree takes.
set -eu
here=$(cd "$(dirname "$0")" && pwd)
work=$(mktemp -d)
trap 'rm -rf "$work"' EXIT
mkdir -p "$work/crates/query_times/src" "$work/crates/query_times/proofs/tree"
. "$here/below.sh"
copy_crates range_query
cp "$here/query_times.rattle" "$work/crates/query_times/src/main.rt"
cp "$here/query_times.invariants" "$work/crates/query_times/proofs/tree/Invariants.antt"
echo 'query_times: range_query node_page page_cache page_file block_device block_bytes box_math' >>"$work/crates.txt"
build_program query_times

# The least processor seconds of five runs.
least() {
    for _ in 1 2 3 4 5; do
        ( TIMEFORMAT='%U %S'; time "$work/crates/query_times/out/query_times" "$1" >"$work/printed" ) 2>&1 | awk '{ print $1 + $2 }'
    done | sort -n | head -n 1
}

made=$(least none)
one=$(least one)
all=$(least all)
awk -v a="$one" -v b="$made" -v c="$all" 'BEGIN {
    look = (a - b) / 400000 * 1e9
    printf "a look           %6.1f ns\n", look
    printf "a row            %6.1f ns\n", ((c - b) / 200 * 1e9 - 101 * look) / 10000
}'

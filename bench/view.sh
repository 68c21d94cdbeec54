#!/usr/bin/env bash
# Measures a node of a hundred entries of two axes read in its page (view_times.rattle, proved and built over a copy of
# node_bytes and the crates below it): the view alone, and with the mask of a window, on level 0 and above it. Prints the
# nanoseconds of one, the least of five runs each, without what the making of the windows takes.
set -eu
here=$(cd "$(dirname "$0")" && pwd)
work=$(mktemp -d)
trap 'rm -rf "$work"' EXIT
mkdir -p "$work/crates/view_times/src"
. "$here/below.sh"
copy_crates node_bytes
cp "$here/view_times.rattle" "$work/crates/view_times/src/main.rt"
echo 'view_times: node_bytes block_bytes box_math' >>"$work/crates.txt"
build_program view_times

# The least processor seconds of five runs.
least() {
    for _ in 1 2 3 4 5; do
        ( TIMEFORMAT='%U %S'; time "$work/crates/view_times/out/view_times" "$1" "$2" >"$work/printed" ) 2>&1 | awk '{ print $1 + $2 }'
    done | sort -n | head -n 1
}

for level in 0 1; do
    made=$(least none "$level")
    for what in view mask; do
        asked=$(least "$what" "$level")
        awk -v w="$what on level $level" -v a="$asked" -v b="$made" 'BEGIN { printf "%-16s %6.1f ns\n", w, (a - b) / 2000000 * 1e9 }'
    done
done

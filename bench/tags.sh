#!/usr/bin/env bash
# Measures what a tag saves: 100,000 uniform boxes of two axes in a file have a hundred tags, and windows of about a
# thousand of them are asked for all tags, and then the same windows for one. Prints the microseconds of processor time of
# a window of each kind, the least of three rounds.
set -eu
here=$(cd "$(dirname "$0")" && pwd)
work=$(mktemp -d)
trap 'rm -rf "$work"' EXIT
"$here/../rstore" </dev/null # proves and builds the program where needed
python3 "$here/generate.py" tags "$work"
for _ in 1 2 3; do
    rm -f "$work/store"
    python3 "$here/phases.py" "$work/times" "$work/replies" "$work/store" "$work/insert" "$work/window" \
        "$work/window of a tag" -- "$here/../crates/rstore/out/rstore" --create "$work/store"
done
awk '{ printf "%s: %.1f\n", (NR == 1 ? "insert" : NR == 2 ? "window" : "window of a tag"), $1 / (NR == 1 ? 0.1 : 0.001) }' "$work/times"

#!/usr/bin/env bash
# Measures meet_mask on a hundred boxes of two axes (mask_times.rattle, proved and built in a copy of box_math) and a plain
# loop of C++ (mask_times.cpp) in the same run. Prints the nanoseconds of one mask, the least of five runs each, without
# what the making of the windows takes.
set -eu
here=$(cd "$(dirname "$0")" && pwd)
work=$(mktemp -d)
trap 'rm -rf "$work"' EXIT
. "$here/below.sh"
mkdir -p "$work/crates/mask_times/src"
cp -a "$here/../crates/box_math" "$work/crates/box_math"
cp "$here/mask_times.rattle" "$work/crates/mask_times/src/main.rt"
printf 'box_math:\nmask_times: box_math\n' >"$work/crates.txt"
build_program mask_times
g++ -O2 -std=c++17 -o "$work/reference" "$here/mask_times.cpp"

# The least processor seconds of five runs.
least() {
    for _ in 1 2 3 4 5; do
        ( TIMEFORMAT='%U %S'; time "$1" "$2" >"$3" ) 2>&1 | awk '{ print $1 + $2 }'
    done | sort -n | head -n 1
}

for who in crates/mask_times/out/mask_times reference; do
    asked=$(least "$work/$who" meets "$work/$(basename "$who").met")
    made=$(least "$work/$who" windows "$work/none")
    awk -v w="$(basename "$who")" -v a="$asked" -v b="$made" 'BEGIN { printf "%-11s %6.1f ns\n", w, (a - b) / 2000000 * 1e9 }'
done
cmp "$work/mask_times.met" "$work/reference.met"

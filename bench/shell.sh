#!/usr/bin/env bash
# Measures the shell: a million windows on an empty layer, and a million rows, through the program and through
# reference.cpp in the same run. Prints the processor seconds of each, the least of five, and their ratio.
set -eu
here=$(cd "$(dirname "$0")" && pwd)
work=$(mktemp -d)
trap 'rm -rf "$work"' EXIT
g++ -O2 -std=c++17 -o "$work/reference" "$here/reference.cpp"
"$here/../rstore" </dev/null # proves and builds the program where needed
program="$here/../crates/rstore/out/rstore"

# The least processor seconds of five runs.
least() {
    for _ in 1 2 3 4 5; do
        ( TIMEFORMAT='%U %S'; time "$1" <"$2" >"$3" ) 2>&1 | awk '{ print $1 + $2 }'
    done | sort -n | head -n 1
}

printf '%-9s %9s %11s %7s\n' what rstore reference ratio
for what in windows rows; do
    python3 "$here/generate.py" "$what" >"$work/$what"
    ours=$(least "$program" "$work/$what" "$work/ours")
    theirs=$(least "$work/reference" "$work/$what" "$work/theirs")
    cmp "$work/ours" "$work/theirs"
    awk -v w="$what" -v a="$ours" -v b="$theirs" 'BEGIN { printf "%-9s %9.2f %11.2f %7.2f\n", w, a, b, a / b }'
done

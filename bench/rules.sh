#!/usr/bin/env bash
# Measures the rules of the tree on nodes of a hundred boxes of two axes, through rule_times.rattle, which is proved and
# built in a copy of the crates below it, and through rules.cpp in the same run. Prints the microseconds of one choice, split or far set of each, the least of five runs, and their
# ratio. `boxes` is what the making of the boxes takes, which is in the line of a split and of a far set too.
set -eu
here=$(cd "$(dirname "$0")" && pwd)
work=$(mktemp -d)
trap 'rm -rf "$work"' EXIT
g++ -O2 -std=c++17 -o "$work/reference" "$here/rules.cpp"
mkdir -p "$work/crates/rule_times/src"
. "$here/below.sh"
copy_crates reinsert
cp "$here/rule_times.rattle" "$work/crates/rule_times/src/main.rt"
echo 'rule_times: choose_subtree rstar_split reinsert node_page tree_node box_math arrayvec' >>"$work/crates.txt"
build_program rule_times
program="$work/crates/rule_times/out/rule_times"

# The least processor seconds of five runs.
least() {
    for _ in 1 2 3 4 5; do
        ( TIMEFORMAT='%U %S'; time "$1" "$2" >"$3" ) 2>&1 | awk '{ print $1 + $2 }'
    done | sort -n | head -n 1
}

printf '%-9s %9s %11s %7s\n' what ours reference ratio
for what in choose split farthest boxes; do
    ours=$(least "$program" "$what" "$work/ours")
    theirs=$(least "$work/reference" "$what" "$work/theirs")
    cmp "$work/ours" "$work/theirs"
    awk -v w="$what" -v a="$ours" -v b="$theirs" 'BEGIN { printf "%-9s %9.2f %11.2f %7.2f\n", w, a * 5, b * 5, a / b }'
done

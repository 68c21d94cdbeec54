#!/usr/bin/env bash
# Measures calls on identifier tables (ids_times.rattle, proved and built in a copy of the crates below it) and on
# std::unordered_map (ids_times.cpp), in the same run. Prints the nanoseconds of one get, add and remove among 100,000
# objects, all pages held, and of one object of a fill and one get among a million and among ten million, where 4096 pages
# are: of a table of chains, of a tree, and of the reference; the least of five runs without what comes before. All find
# the same.
set -eu
here=$(cd "$(dirname "$0")" && pwd)
work=$(mktemp -d)
trap 'rm -rf "$work"' EXIT
g++ -O2 -std=c++17 -o "$work/reference" "$here/ids_times.cpp"
mkdir -p "$work/crates/ids_times/src"
. "$here/below.sh"
copy_crates id_table
cp "$here/ids_times.rattle" "$work/crates/ids_times/src/main.rt"
for loop in add_all remove_all sum_of; do
    mkdir -p "$work/crates/ids_times/proofs/$loop"
    cp "$here/ids_times_$loop.invariants" "$work/crates/ids_times/proofs/$loop/Invariants.antt"
done
echo 'ids_times: id_table node_page page_cache page_file block_device box_math' >>"$work/crates.txt"
build_program ids_times
program="$work/crates/ids_times/out/ids_times"

# least PROGRAM WORDS..: the least processor seconds of five runs.
least() {
    for _ in 1 2 3 4 5; do
        ( TIMEFORMAT='%U %S'; time "$@" >"$work/answer" ) 2>&1 | awk '{ print $1 + $2 }'
    done | sort -n | head -n 1
}

printf '%-14s %9s %9s %9s\n' what chains tree reference
while read -r name times what before count; do
    row=$name
    for column in "$program chains" "$program tree" "$work/reference any"; do
        bare=$(least $column "$before" $count)
        whole=$(least $column "$what" $count)
        row+=" $(awk -v a="$whole" -v b="$bare" -v n="$times" 'BEGIN { print (a - b) / n * 1e9 }')"
        [ -e "$work/wanted.$name" ] || cp "$work/answer" "$work/wanted.$name"
        cmp "$work/answer" "$work/wanted.$name"
    done
    printf '%-14s %9.0f %9.0f %9.0f\n' $row
done <<'WHAT'
add 100000 again remove 100000
get 1000000 get add 100000
remove 100000 remove add 100000
fill_1000000 1000000 fill list 1000000
find_1000000 20000 find fill 1000000
fill_10000000 10000000 fill list 10000000
find_10000000 20000 find fill 10000000
WHAT

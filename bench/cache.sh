#!/usr/bin/env bash
# Measures the page cache (cache_times.rattle, proved and built in a copy of the crates below it) and its twin of C++, a list
# and a hash table (cache_times.cpp), in the same run. Prints the nanoseconds of one page lent that is held, of one put that
# is held, and of one lent that is not while 64 of a thousand are, the least of five runs each, and their ratio.
set -eu
here=$(cd "$(dirname "$0")" && pwd)
work=$(mktemp -d)
trap 'rm -rf "$work"' EXIT
g++ -O2 -std=c++17 -o "$work/reference" "$here/cache_times.cpp"
mkdir -p "$work/crates/cache_times/src"
. "$here/below.sh"
copy_crates page_cache
cp "$here/cache_times.rattle" "$work/crates/cache_times/src/main.rt"
for loop in scene put_all; do
    mkdir -p "$work/crates/cache_times/proofs/$loop"
    cp "$here/cache_times_$loop.invariants" "$work/crates/cache_times/proofs/$loop/Invariants.antt"
done
echo 'cache_times: page_cache page_file block_device' >>"$work/crates.txt"
build_program cache_times
program="$work/crates/cache_times/out/cache_times"

# The least processor seconds of five runs.
least() {
    for _ in 1 2 3 4 5; do
        ( TIMEFORMAT='%U %S'; time "$1" "$2" >"$3" ) 2>&1 | awk '{ print $1 + $2 }'
    done | sort -n | head -n 1
}

printf '%-6s %9s %11s %7s\n' what ours reference ratio
none=$(least "$program" none "$work/ours")
bare=$(least "$work/reference" none "$work/theirs")
for what in held:4000000 put:2000000 miss:1000000; do
    name=${what%:*}
    ours=$(least "$program" "$name" "$work/ours")
    theirs=$(least "$work/reference" "$name" "$work/theirs")
    cmp "$work/ours" "$work/theirs"
    awk -v w="$name" -v n="${what#*:}" -v a="$ours" -v b="$theirs" -v o="$none" -v r="$bare" \
        'BEGIN { a -= o * n / 4e6; b -= r * n / 4e6; printf "%-6s %9.1f %11.1f %7.2f\n", w, a / n * 1e9, b / n * 1e9, a / b }'
done

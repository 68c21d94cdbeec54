#!/usr/bin/env bash
# Measures a device in a file: a cached file of 64 MiB is appended, written and read by blocks, through FileDevice
# (file_times) and by pwrite and pread (file_times.cpp), in turn. Prints the microseconds that a block takes, the least of
# the rounds (20, or the number after the script's name), and their ratio. The program of the first (file_times.rattle) is
# proved and built in a copy of the crates below it.
set -eu
here=$(cd "$(dirname "$0")" && pwd)
rounds=${1:-20}
blocks=16384
work=$(mktemp -d)
trap 'rm -rf "$work"' EXIT
. "$here/below.sh"
mkdir -p "$work/crates"
for crate in refusing block_device file_device; do
    cp -a "$here/../crates/$crate" "$work/crates/$crate"
done
mkdir -p "$work/crates/file_times/src"
cp "$here/file_times.rattle" "$work/crates/file_times/src/main.rt"
grep -E '^(refusing|block_device|file_device):' "$here/../crates.txt" >"$work/crates.txt"
echo 'file_times: file_device block_device anyhow' >>"$work/crates.txt"
build_program file_times
g++ -O2 -std=c++17 -o "$work/reference" "$here/file_times.cpp"

for _ in $(seq "$rounds"); do
    for who in "$work/crates/file_times/out/file_times" "$work/reference"; do
        rm -f "$work/blocks"
        "$who" "$work/blocks" "$blocks" >>"$work/$(basename "$who").times"
    done
done
printf '%-7s %11s %10s %6s\n' what FileDevice reference ratio
column=0
for what in read write append; do
    column=$((column + 1))
    least() { cut -d ' ' -f "$column" "$work/$1.times" | sort -n | head -n 1; }
    awk -v w="$what" -v a="$(least file_times)" -v b="$(least reference)" -v n="$blocks" \
        'BEGIN { printf "%-7s %11.2f %10.2f %6.2f\n", w, a / n / 1000, b / n / 1000, a / b }'
done

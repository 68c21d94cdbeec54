#!/usr/bin/env bash
# Measures what memory a load takes: prints, for each number of boxes, the bytes of memory an object that are resident at
# most while the program loads so many uniform boxes of two axes into a file with 64 cached pages, and the processor
# seconds of the run. What a run of one object takes is taken off.
#
#   bench/load.sh            1,000,000 boxes
#   bench/load.sh BOXES..    these numbers of boxes
set -eu
here=$(cd "$(dirname "$0")" && pwd)
work=$(mktemp -d)
trap 'rm -rf "$work"' EXIT
"$here/../rstore" </dev/null # proves and builds the program where needed
program=$here/../crates/rstore/out/rstore
[ $# -gt 0 ] || set -- 1000000

# lines BOXES: a layer, and so many boxes to load.
lines() {
    awk -v boxes="$1" 'BEGIN {
        srand(1)
        printf "create a 2 100\nload a %d\n", boxes
        for (id = 1; id <= boxes; id++) {
            x = int(rand() * 1048576); y = int(rand() * 1048576)
            printf "%d %d %d %d %d\n", id, x, y, x + int(rand() * 300), y + int(rand() * 300)
        }
    }'
}

# most BOXES: the kilobytes resident at most, and the processor seconds.
most() {
    lines "$1" >"$work/lines"
    rm -f "$work"/store*
    python3 - "$work/lines" "$program" --create --cache 64 "$work/store" <<'PYTHON'
import re, resource, subprocess, sys
program = subprocess.Popen(sys.argv[2:], stdin=subprocess.PIPE, stdout=subprocess.PIPE)
with open(sys.argv[1], "rb") as lines:
    while piece := lines.read(1 << 20):
        program.stdin.write(piece)
program.stdin.flush()
if [program.stdout.readline() for _ in range(2)] != [b"ok\n", b"ok\n"]:
    sys.exit("load.sh: the load was refused")
# What wait4 tells counts what Python held before it became the program.
with open(f"/proc/{program.pid}/status") as status:
    most = re.search(r"VmHWM:\s*(\d+) kB", status.read())[1]
program.communicate()
used = resource.getrusage(resource.RUSAGE_CHILDREN)
print(most, used.ru_utime + used.ru_stime)
PYTHON
}

read -r bare _ < <(most 1)
for boxes; do
    read -r kilobytes seconds < <(most "$boxes")
    awk -v n="$boxes" -v k="$kilobytes" -v b="$bare" -v s="$seconds" \
        'BEGIN { printf "%d boxes: %.0f bytes an object, %.2f s\n", n, (k - b) * 1024 / n, s }'
done

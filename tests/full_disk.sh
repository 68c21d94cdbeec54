#!/usr/bin/env bash
# Fills the disk under runs of the program, and looks at what their files hold then, and once there is room again
# (tests/full_disk.py): small disks in memory, which only root can mount, files that may have no more than so many bytes,
# and writes and syncs that are refused (with `strace`). In runs of one more kind nothing is full, and reads and writes
# are interrupted. A number after the script's name is how many runs there are of each kind, and one after that is the
# seed of the sessions.
set -eu
cd "$(dirname "$0")/.."
program=crates/rstore/out/rstore
[ -x "$program" ] || ./rstore </dev/null >/dev/null
exec python3 tests/full_disk.py "$program" "${1:-40}" "${2:-$RANDOM}"

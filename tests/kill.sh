#!/usr/bin/env bash
# Kills 200 runs of random commands at random moments, and looks at what they had answered and at what the next opening
# gives (tests/kill.py). A number after the script's name is how many runs are killed, and one after that the seed.
set -eu
cd "$(dirname "$0")/.."
program=crates/rstore/out/rstore
[ -x "$program" ] || ./rstore </dev/null >/dev/null
exec python3 tests/kill.py "$program" "${1:-200}" "${2:-$RANDOM}"

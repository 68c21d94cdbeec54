#!/usr/bin/env bash
# Times what a newcomer waits for, in a fresh clone of the last commit with nothing kept, alone on the machine: the
# session that is tried before any proof, the first ./rstore, and library/build.sh after it. Prints the minutes of each,
# those of a processor, and the seconds of each crate. It wants 12 GB of disk. What `rt ci` proved of the same files on
# this machine would be taken: it stops where there is any.
set -eu -o pipefail
here=$(cd "$(dirname "$0")" && pwd)
if compgen -G "$(dirname "$(dirname "$(rt doc)")")/rattle-kept/proof-*" >/dev/null; then
    echo "build.sh: rt ci has kept proofs on this machine, beside the kit" >&2
    exit 1
fi
work=$(mktemp -d)
trap 'rm -rf "$work"' EXIT
git clone -q "$here/.." "$work/clone"
cd "$work/clone"
TIMEFORMAT='%R %U %S'

# The name, and the minutes of a command and of a processor in it; what it says goes to $work/NAME.
timed() {
    local name=$1
    shift
    { time "$@" >"$work/replies" 2>"$work/$name"; } 2>"$work/time" || { cat "$work/$name" >&2; exit 1; }
    awk -v name="$name" '{ printf "%-8s %6.1f min, %6.1f of a processor\n", name, $1 / 60, ($2 + $3) / 60 }' "$work/time"
}

try() { (cd crates/rstore && rt try <../../examples/first.txt); }
program() { ./rstore <examples/first.txt; }

echo "on $(nproc) processors"
timed try try
cmp "$work/replies" examples/first.out
timed program program
cmp "$work/replies" examples/first.out
timed library library/build.sh
sed -n 's/^build: proved \(.*\) (.*/    \1/p' "$work/program" "$work/library"

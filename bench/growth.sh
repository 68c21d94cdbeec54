#!/usr/bin/env bash
# Measures how an operation of the program grows with its layer, and draws docs/growth.svg (growth.py): each operation of
# peers.sh but the large window and the join, on uniform boxes of two axes in a file, with 4096 cached pages. Prints a
# line for each: the boxes, the microseconds of processor time of one (of a load those of a box), and its name.
#
#   bench/growth.sh            10,000, 100,000 and 1,000,000 boxes
#   bench/growth.sh BOXES..    these numbers of boxes, as 10000 100000 1000000 10000000
#   ROUNDS=N FANOUT=M bench/growth.sh
#                              the least of N rounds, and of three where it is not said; at most M entries a node, or 100
set -eu
here=$(cd "$(dirname "$0")" && pwd)
work=$(mktemp -d)
trap 'rm -rf "$work"' EXIT
"$here/../rstore" </dev/null # proves and builds the program where needed
program="$here/../crates/rstore/out/rstore"
[ $# -gt 0 ] || set -- 10000 100000 1000000

# What the program answers BadLine to is left out.
left='window of 1000|join'
for line in 'load a 0' 'delete a 1'; do
    ! printf 'create a 2 4\n%s\n' "$line" | "$program" | grep -q BadLine || left+="|${line%% *}"
done

for boxes; do
    python3 "$here/generate.py" scene "$work" "$boxes" uniform 2 "${FANOUT:-100}"
    grep -Evx "($left)	.*" "$work/counts" >"$work/chosen"
    mapfile -t phases < <(cut -f 1 "$work/chosen" | sed "s|^|$work/|")
    rm -f "$work/times"
    for _ in $(seq "${ROUNDS:-3}"); do
        rm -f "$work/store"
        python3 "$here/phases.py" "$work/times" "$work/replies" "$work/store" "${phases[@]}" -- \
            "$program" --create --cache 4096 "$work/store"
    done
    paste "$work/chosen" "$work/times" | awk -F '\t' -v boxes="$boxes" '{ printf "%d %.2f %s\n", boxes, $3 / $2 * 1e6, $1 }'
done | tee "$work/growth"
python3 "$here/growth.py" <"$work/growth" >"$here/../docs/growth.svg"

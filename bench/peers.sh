#!/usr/bin/env bash
# Measures the program beside SQLite's R*Tree, libspatialindex and Boost's tree on the same command lines (peers.cpp;
# Debian's libsqlite3-dev, libspatialindex-dev and libboost-dev), and prints the microseconds of processor time of one
# command, the least of the rounds; of a load and a join those of a box. All replies are the same, or it stops.
#
#   bench/peers.sh                              100,000 uniform boxes of two axes in memory
#   bench/peers.sh BOXES [SHAPE [AXES [PLACE]]] each may be a list, as '100000 1000000' 'uniform clustered' '2 3' 'memory file'
#   bench/peers.sh all                          these four lists
#   bench/peers.sh coast                        the coast of the world, 1.8 million boxes in a shuffled order (examples/coast.py)
#   ROUNDS=N FANOUT=M bench/peers.sh ..         N rounds, and three where it is not said; at most M entries a node of
#                                               the program's trees, and 100 where it is not said
#
# Each peer as it is best: all sort their rows as the program does; a reopening keeps the changes since the last one.
# SQLite: rtree_i32, each statement prepared once, one transaction, no journal (the store has none), as many cached pages
# as the store's; the ten nearest in the order of a query callback's scores; it has no packed load, so a load is inserts.
# libspatialindex: the R*-tree with 16 entries a node in memory, and with nodes of 1024 bytes in a file, where it is faster
# than with 4096, and a buffer of as many bytes; packed by sort-tile-recursive. Boost: rstar<16>, its packing constructor,
# in memory alone. Both have beside the tree a hash table from identifier to box, by which to delete. The joins of all
# three are a window for each box, in the order of the leaves.
# A reopening closes and opens the files, so the first question after it finds no page cached.
set -eu
here=$(cd "$(dirname "$0")" && pwd)
[ "${1:-}" != coast ] || set -- 1835089 coast 2 'memory file'
[ "${1:-}" != all ] || set -- '100000 1000000' 'uniform clustered' '2 3' 'memory file'
sizes=${1:-100000} shapes=${2:-uniform} axes=${3:-2} places=${4:-memory}
work=$(mktemp -d)
trap 'rm -rf "$work"' EXIT
march=$(grep -qw avx2 /proc/cpuinfo && echo x86-64-v3 || echo x86-64-v2) # as the program is built (rstore)
for peer in sqlite spatialindex boost; do
    library=$([ $peer = boost ] || echo "-l${peer/sqlite/sqlite3}")
    g++ -O2 -std=c++17 "-march=$march" "-D${peer^^}" -o "$work/$peer" "$here/peers.cpp" $library 2>"$work/log" ||
        { cat "$work/log" >&2; exit 1; }
done
"$here/../rstore" </dev/null # proves and builds the program where needed
cp "$here/../crates/rstore/out/rstore" "$work/rstore"

# The words of a call of a program, with so many pages cached; the store is in a file where one is named.
call() {
    if [ "$1" = rstore ]; then echo "$work/rstore --create --cache $2 ${3:-}"; else echo "$work/$1 ${2:-64} ${3:-}"; fi
}

# Whether the program reads a command yet.
reads() {
    ! printf 'create a 2 4\n%s\n' "$1" | "$work/rstore" | grep -q BadLine
}

# measure COLUMN PROGRAM PAGES [FILE]: a round of a column, whose replies have to be those of the first one.
measure() {
    local times=$work/column.$1
    shift
    rm -f "$work"/store*
    python3 "$here/phases.py" "$times" "$work/replies" "$work/store" "${phases[@]}" -- $(call "$@")
    [ -e "$work/wanted" ] || cp "$work/replies" "$work/wanted"
    cmp "$work/replies" "$work/wanted"
}

# columns_in PLACE BOXES: the columns of a table, each a program and its pages: without a file a peer's pages are no
# matter. libspatialindex with many pages is left out of large files: its buffer walks to the page that it gives up.
columns_in() {
    printf '%s\n' 'rstore 64' 'rstore 4096'
    if [ "$1" = memory ]; then
        printf '%s\n' sqlite spatialindex boost
    else
        printf '%s\n' 'sqlite 64' 'sqlite 4096' 'spatialindex 64'
        [ "$2" -gt 500000 ] || echo 'spatialindex 4096'
    fi
}

# The rows of a table, from the names of the operations with their counts, and the columns beside each other.
rows() {
    awk -F '\t' -v place="$1" '{
        row = "| " $1 " |"; bytes = "| bytes, " $1 " |"
        for (i = 3; i <= NF; i += 2) { row = row sprintf(" %.2f |", $i / $2 * 1e6); bytes = bytes sprintf(" %d |", $(i + 1)) }
        print row
        if (place == "file" && ($1 == "insert" || $1 == "load")) last = last bytes "\n"
    } END { printf "%s", last }'
}

# table BOXES SHAPE AXES PLACE: each round measures all columns, one after the other.
table() {
    local file='' columns column
    [ "$4" = memory ] || file=$work/store
    mapfile -t columns < <(columns_in "$4" "$1")
    rm -f "$work/wanted" "$work"/column.*
    for _ in $(seq "${ROUNDS:-3}"); do
        for column in "${!columns[@]}"; do measure "$column" ${columns[$column]} $file; done
    done
    printf '\n%s %s boxes, %s axes, %s\n\n| |' "$1" "$2" "$3" "${4/file/in a file}"
    printf ' %s |' "${columns[@]}"
    printf '\n|---|%s\n' "$(printf -- '---|%.0s' "${columns[@]}")"
    paste "$work/chosen" $(seq -f "$work/column.%g" 0 $((${#columns[@]} - 1))) | rows "$4"
}

# What the program does not read yet is left out; without a load there are no two layers to join.
words=() left=none
for line in 'load a 0' 'delete a 1' 'move a 1 0 0 1 1' 'join a a'; do
    word=${line%% *}
    if reads "$line"; then words+=("$word"); else left+="|$word"; fi
done
if [[ $left == *load* && $left != *join* ]]; then left+='|join'; fi
[ "$left" = none ] || echo "left out, since rstore does not read it yet: ${left#none|}"
python3 "$here/generate.py" mixed ${words[@]+"${words[@]}"} >"$work/mixed"
"$work/rstore" <"$work/mixed" >"$work/wanted"
for peer in sqlite spatialindex boost; do
    "$work/$peer" 64 <"$work/mixed" | cmp "$work/wanted"
done

for size in $sizes; do for shape in $shapes; do for dims in $axes; do
    python3 "$here/generate.py" scene "$work" "$size" "$shape" "$dims" "${FANOUT:-100}"
    grep -Ev "^($left)" "$work/counts" >"$work/chosen"
    mapfile -t phases < <(cut -f 1 "$work/chosen" | sed "s|^|$work/|")
    for place in $places; do table "$size" "$shape" "$dims" "$place"; done
done; done; done

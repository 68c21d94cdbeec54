#!/usr/bin/env bash
# The coast of the world and its rivers in a store: 1.8 and 0.6 million boxes, each of a line between two points, in
# 1/32768 of a degree (coast.py). It asks what can be checked on a map, and draws the trees of the coasts and of the
# rivers of Britain and Ireland.
#
#   examples/coast.sh [FOLDER]      the store and the pictures are left in FOLDER, by default in a new one
set -eu -o pipefail
here="$(cd "$(dirname "$0")" && pwd)"
rstore="$here/../rstore"
[ -x "$rstore" ] || rstore=rstore # that of a package
folder="${1:-$(mktemp -d)}"
store="$folder/coast.rst"
mkdir -p "$folder"
rm -f "$store" "$store-journal"

# The lines that load a layer from CSV with a header; those of a window of degrees of such a file, inserted one by one.
loaded() { awk -F, -v layer="$1" 'NR > 1 { row[++n] = $1 " " $2 " " $3 " " $4 " " $5 " tag " $6 }
    END { print "create " layer " 2 100\nload " layer " " n; for (k = 1; k <= n; k++) print row[k] }' "$folder/$1.csv"; }
inserted() { awk -F, -v layer="$1" -v west="$3" -v south="$4" -v east="$5" -v north="$6" 'BEGIN { print "create " layer " 2 100" }
    NR > 1 && $2 >= west * 32768 && $3 >= south * 32768 && $4 <= east * 32768 && $5 <= north * 32768 {
        print "insert " layer " " $1 " " $2 " " $3 " " $4 " " $5 " tag " $6 }' "$folder/$2.csv"; }
# Degrees as the store has them.
at() { for degree in "$@"; do awk -v d="$degree" 'BEGIN { printf "%d ", d * 32768 }'; done; }

for kind in coast rivers; do
    python3 "$here/coast.py" $kind >"$folder/$kind.csv"
done
britain="-11 49.5 2.5 61"
{ loaded coast; loaded rivers; inserted britain coast $britain; inserted waters rivers $britain; } | "$rstore" --create --cache 4096 "$store" | sort | uniq -c
echo "How many lines of coast has Iceland? (a window)"
echo "window coast $(at -25 63 -13 67)" | "$rstore" --read-only "$store" | awk 'NR == 1 { print $2 }'
echo "Which line of a coast is nearest to Ulan Bator, and how far is it, in degrees? (the nearest, of a lake)"
echo "nearest coast 1 $(at 106.9 47.9)" | "$rstore" --read-only "$store" | awk 'NR > 1 { print $1, sqrt($2) / 32768 }'
echo "At how many places does a river's line come within 1/100 of a degree of a coast of the sea or a lake? (a join)"
echo "join rivers coast 107584" | "$rstore" --read-only --cache 4096 "$store" | awk 'NR == 1 { print $2 }'
for layer in britain waters; do "$rstore" --draw $layer "$store" >"$folder/$layer.svg"; done
"$rstore" --stats "$store"
echo "$folder/britain.svg, $folder/waters.svg, $store"

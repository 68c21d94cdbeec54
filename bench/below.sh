# To be sourced, with $here and $work set.

# Copies crates, and those that they stand on, into $work, with their lines of crates.txt, which has the lowest first.
copy_crates() {
    mkdir -p "$work/crates"
    tac "$here/../crates.txt" | awk -v asked="$*" -F '[: ]+' '
        BEGIN { split(asked, names, " "); for (k in names) needed[names[k]] = 1 }
        $1 in needed { print; for (k = 2; k <= NF; k++) needed[$k] = 1 }' | tac >>"$work/crates.txt"
    cut -d : -f 1 "$work/crates.txt" | while read -r crate; do
        cp -a "$here/../crates/$crate" "$work/crates/$crate"
    done
}

# Proves and builds a program of crates in $work, for the processors that the kit builds for where none is named.
build_program() {
    "$here/../tools/build" --top "$work" --cpu x86-64-v2 "$1" 2>"$work/log" || { cat "$work/log" >&2; exit 1; }
}

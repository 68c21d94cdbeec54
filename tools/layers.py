#!/usr/bin/env python3
"""Draws the crates of crates.txt as layers: docs/layers.svg.

    tools/layers.py               writes docs/layers.svg
    tools/layers.py OUT           writes OUT instead

The groups stand below. The script ends with an error where a crate of crates.txt has no group or two, where a group
names no crate of crates.txt, where a crate stands on one of a band above its own, or where a crate that is no test
stands on a crate of tests. tests/documents.py tests that docs/layers.svg is what the script draws.
"""
import os
import sys
import textwrap

TOP = os.path.dirname(os.path.dirname(os.path.abspath(__file__)))

# The bands from the lowest up: the group of each, what is in it, and its crates.
BANDS = [
    ("devices", "blocks, in memory and in files", "block_device read_only_device file_device"),
    ("trees", "boxes, nodes and the split, as values", "box_math tree_node rstar_split"),
    (
        "pages",
        "what stands in a page, the file of pages, and the cache over it",
        "block_bytes box_bytes node_bytes page_file page_cache",
    ),
    (
        "devices",
        "a file and its journal as one device, which commits",
        "device_pair unwritten_pair committed_log logged_pair snapshot_reader journaled_device titled_pair marked_pair journaled_file snapshot_file",
    ),
    (
        "trees",
        "nodes in pages; searches and changes of R*-trees",
        "node_page range_query nearest spatial_join tree_outline bulk_load choose_subtree reinsert condense",
    ),
    (
        "identifiers",
        "a layer's table from identifier to box, as a tree or as chains",
        "bucket_page id_words id_page id_chains id_tree id_table",
    ),
    (
        "layers",
        "the table and the law of a store; layers and the store in pages",
        "plain_table layer_pages catalog_page store_law live_layers layer_store journaled_store",
    ),
    ("bindings", "the library for C; Python and SQLite stand on it", "stream_file c_rows c_session rstore_c"),
    (
        "language",
        "commands, imports, pictures, the program's words, and the program",
        "box_import command_language reply_texts tree_statistics layer_import command_shell program_words tree_picture command_line rstore",
    ),
]
TESTS = (
    "refusing device_tests file_tests journal_tests test_caches page_tests rule_tests search_tests tree_tests "
    "id_tree_tests store_commands fault_tests image_tests shell_tests"
)
COLOURS = {  # of a band, of its boxes' borders
    "devices": ("#eef2f7", "#5b7a9d"),
    "pages": ("#f0f6ea", "#6b8f45"),
    "trees": ("#fdf3e3", "#b5822b"),
    "identifiers": ("#f6eef8", "#8d5f9e"),
    "layers": ("#fdeeec", "#b5594b"),
    "language": ("#e9f6f5", "#3f8f89"),
    "bindings": ("#f3f1ec", "#827551"),
    "tests": ("#f4f4f4", "#8a8a8a"),
}

MARGIN, LABEL, BOX, GAP, BOX_HEIGHT, ROW, PADDING, HEAD = 12, 214, 130, 34, 24, 32, 9, 34


def crates():
    """What each crate stands on, of the crates of crates.txt."""
    found = {}
    with open(os.path.join(TOP, "crates.txt"), encoding="utf-8") as file:
        for line in file:
            if not line.startswith("#"):
                name, _, below = line.partition(":")
                found[name.split()[0]] = below.split()
    return {name: {crate for crate in below if crate in found} for name, below in found.items()}


def grouped(stands_on):
    """The crates of each band, and the band that each crate of tests stands beside."""
    bands = [names.split() for _, _, names in BANDS]
    tests = TESTS.split()
    all_names = [name for names in bands for name in names] + tests
    for name in stands_on:
        if all_names.count(name) != 1:
            sys.exit(f"layers.py: {name} of crates.txt stands in {all_names.count(name)} groups")
    for name in all_names:
        if name not in stands_on:
            sys.exit(f"layers.py: no crate of crates.txt is called {name}")
    band_of = {name: k for k, names in enumerate(bands) for name in names}
    for name, k in band_of.items():
        for below in stands_on[name]:
            if below in tests:
                sys.exit(f"layers.py: {name} is no test, and stands on {below}")
            if band_of[below] > k:
                sys.exit(f"layers.py: {name} stands on {below}, which is in a band above")
    beside = {}
    for name in stands_on:  # lowest first
        if name in tests:
            beside[name] = max((band_of.get(below, beside.get(below, 0)) for below in stands_on[name]), default=0)
    return bands, beside


def reduced(stands_on):
    """What each crate stands on and no other one that it stands on does."""
    all_below = {}
    for name, below in stands_on.items():  # lowest first
        all_below[name] = below.union(*(all_below[crate] for crate in below))
    return {
        name: {crate for crate in below if not any(crate in all_below[other] for other in below)}
        for name, below in stands_on.items()
    }


def columns(names, direct):
    """The crates of a band in columns, each just left of those that stand on it, and right of those that it stands
    on. Where a line crosses a column, it has a place there: a pair of crates."""
    depth, order = {}, [name for name in direct if name in names]  # lowest first
    for name in order:
        depth[name] = max((depth[below] + 1 for below in direct[name] if below in depth), default=0)
    for name in reversed(order):
        depth[name] = min((depth[above] - 1 for above in order if name in direct[above]), default=depth[name])
    found = [[name for name in names if depth[name] == k] for k in range(max(depth.values()) + 1)]
    for name in order:
        for below in sorted(direct[name]):
            for k in range(depth.get(below, depth[name]) + 1, depth[name]):
                found[k].append((below, name))
    return found


def box(x, y, name, colour, stands_on, dashes=""):
    """A crate; its title, which a browser shows, has what it stands on."""
    below = ", ".join(sorted(stands_on[name])) or "no crate of this project"
    return [
        f'<g><title>{name} stands on {below}</title><rect x="{x}" y="{y}" width="{BOX}" height="{BOX_HEIGHT}" rx="4" '
        f'fill="#ffffff" stroke="{colour}"{dashes}/>',
        f'<text class="crate" x="{x + BOX / 2:g}" y="{y + 16}">{name}</text></g>',
    ]


def path(way):
    """A line from the right side of the first place to the left side of the last, through those between them."""
    middle = BOX_HEIGHT // 2
    drawn = f"M{way[0][0] + BOX} {way[0][1] + middle}"
    for (x1, y1), (x2, y2) in zip(way, way[1:]):
        x1, y1, y2 = x1 + BOX, y1 + middle, y2 + middle
        drawn += f"L{x1} {y1}C{x1 + GAP // 2} {y1} {x2 - GAP // 2} {y2} {x2} {y2}"
    return drawn


def picture():
    """The picture, as SVG."""
    stands_on = crates()
    bands, beside = grouped(stands_on)
    direct = reduced(stands_on)
    placed = [columns(names, direct) for names in bands]
    most = max(len(found) for found in placed)
    left = MARGIN + LABEL
    tests_at = left + most * (BOX + GAP) - GAP + 26
    width = tests_at + BOX + 2 * MARGIN
    out, y = [], HEAD
    for k in reversed(range(len(bands))):
        group, note, _ = BANDS[k]
        fill, line = COLOURS[group]
        tests = [name for name in stands_on if beside.get(name) == k]
        others = {BANDS[j][0] for name in bands[k] for below in stands_on[name] for j in range(k) if below in bands[j]}
        texts = [("note", text) for text in textwrap.wrap(note, 31)]
        on = [other for other in dict.fromkeys(BANDS[j][0] for j in reversed(range(k))) if other in others - {group}]
        texts += [("on", text) for text in textwrap.wrap("stands on " + ", ".join(on), 31)] if on else []
        rows = max(len(tests), *(len(column) for column in placed[k]))
        height = max(rows * ROW - (ROW - BOX_HEIGHT), 18 + 14 * len(texts)) + 2 * PADDING
        wide = tests_at - 13 - MARGIN
        out.append(f'<rect x="{MARGIN}" y="{y}" width="{wide}" height="{height}" rx="6" fill="{fill}"/>')
        out.append(f'<rect x="{tests_at - 5}" y="{y}" width="{BOX + 10}" height="{height}" fill="#f4f4f4"/>')
        out.append(f'<text class="group" x="{MARGIN + 10}" y="{y + PADDING + 13}" style="fill:{line}">{group}</text>')
        for number, (kind, text) in enumerate(texts):
            out.append(f'<text class="{kind}" x="{MARGIN + 10}" y="{y + PADDING + 29 + 14 * number}">{text}</text>')
        at, boxes = {}, []
        for number, column in enumerate(placed[k]):
            top = y + (height - len(column) * ROW + ROW - BOX_HEIGHT) / 2
            for row, name in enumerate(column):
                at[name, number] = (left + number * (BOX + GAP), round(top + row * ROW))
                boxes += [] if isinstance(name, tuple) else box(*at[name, number], name, line, stands_on)
        column_of = {name: number for name, number in at if not isinstance(name, tuple)}
        for name in column_of:
            for below in sorted(direct[name]):
                if below in column_of:
                    first, last = column_of[below], column_of[name]
                    way = [at[below, first]] + [at[(below, name), c] for c in range(first + 1, last)] + [at[name, last]]
                    out.append(f'<path d="{path(way)}" fill="none" stroke="{line}" stroke-width="1.3"/>')
        out += boxes
        top = y + (height - len(tests) * ROW + ROW - BOX_HEIGHT) / 2
        for row, name in enumerate(tests):
            place = (tests_at, round(top + row * ROW))
            out += box(*place, name, COLOURS["tests"][1], stands_on, ' stroke-dasharray="3 2"')
        y += height + 6
    head = [
        f'<svg xmlns="http://www.w3.org/2000/svg" viewBox="0 0 {width} {y + 24}" width="{width}" height="{y + 24}">',
        "<style>text{font-family:sans-serif;fill:#333333}.crate{font:12px monospace;text-anchor:middle}"
        ".group{font-size:15px;font-weight:bold}.note,.on{font-size:11.5px}.on{font-style:italic}</style>",
        f'<rect width="{width}" height="{y + 24}" fill="#ffffff"/>',
        f'<text class="note" x="{MARGIN + 10}" y="22">Each band names the groups that it '
        "stands on, all of them below it. (tools/layers.py draws this from crates.txt.)</text>",
        f'<text class="group" x="{tests_at + BOX // 2}" y="22" text-anchor="middle">tests</text>',
    ]
    foot = [
        f'<text class="note" x="{MARGIN + 10}" y="{y + 12}">Lines lead from a crate to those of its own band that '
        "stand on it, to its right. A crate of tests is beside the highest band that it stands on.</text>",
        "</svg>",
    ]
    return "\n".join(head + out + foot) + "\n"


def main():
    if len(sys.argv) > 2 or any(word.startswith("-") for word in sys.argv[1:]):
        sys.exit(__doc__)
    out = sys.argv[1] if sys.argv[1:] else os.path.join(TOP, "docs", "layers.svg")
    drawn = picture()
    with open(out, "w", encoding="utf-8") as file:
        file.write(drawn)


if __name__ == "__main__":
    main()

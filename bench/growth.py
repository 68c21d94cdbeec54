#!/usr/bin/env python3
"""Draws the lines that growth.sh prints: reads them on standard input, writes the picture (SVG) to standard output."""
import math
import sys

LEFT, RIGHT, TOP, BOTTOM = 56, 560, 40, 330  # of the field between the axes
STYLE = """
text { font: 13px sans-serif; fill: #333a42 }
.back { fill: #ffffff } .frame { stroke: #b8bec6; fill: none } .grid { stroke: #e4e7eb }
.line { stroke-width: 2 }
.c0 { stroke: #1f6fb4; fill: #1f6fb4 } .c1 { stroke: #c4521a; fill: #c4521a } .c2 { stroke: #2b8a3e; fill: #2b8a3e }
.c3 { stroke: #8a4fbf; fill: #8a4fbf } .c4 { stroke: #b8860b; fill: #b8860b } .c5 { stroke: #c2255c; fill: #c2255c }
.c6 { stroke: #5f6b76; fill: #5f6b76 }
@media (prefers-color-scheme: dark) {
.back { fill: #15181c } .frame { stroke: #4a525c } .grid { stroke: #262b31 } text { fill: #d5dae0 }
.c0 { stroke: #6cb2f0; fill: #6cb2f0 } .c1 { stroke: #f0935c; fill: #f0935c } .c2 { stroke: #69c77d; fill: #69c77d }
.c3 { stroke: #c39af0; fill: #c39af0 } .c4 { stroke: #e0b84a; fill: #e0b84a } .c5 { stroke: #f078a5; fill: #f078a5 }
.c6 { stroke: #a3aeb9; fill: #a3aeb9 }
}
.line { fill: none } .name { stroke: none }
"""


def read():
    """The points of each operation, in the order in which they are first named."""
    operations = {}
    for line in sys.stdin:
        boxes, microseconds, name = line.rstrip("\n").split(" ", 2)
        operations.setdefault(name, []).append((int(boxes), float(microseconds)))
    return operations


def ticks(least, most):
    """The numbers 1, 2 and 5 of each power of ten from the last at or below the least to the first at or above the most."""
    all_of_them = [digit * 10.0**power for power in range(-3, 12) for digit in (1, 2, 5)]
    first = max(tick for tick in all_of_them if tick <= least)
    last = min(tick for tick in all_of_them if tick >= most)
    return [tick for tick in all_of_them if first <= tick <= last]


def placed(value, least, most, from_, to):
    return from_ + (to - from_) * math.log(value / least) / math.log(most / least)


def apart(heights, gap=16):
    """The heights of names, in the same order, moved so that no two overlap."""
    order = sorted(range(len(heights)), key=lambda k: heights[k])
    moved = [heights[k] for k in order]
    for _ in range(200):
        for k in range(len(moved) - 1):
            near = gap - (moved[k + 1] - moved[k])
            if near > 0:
                moved[k] -= near / 2
                moved[k + 1] += near / 2
    return [moved[order.index(k)] for k in range(len(heights))]


def grid(sizes, marks):
    for size in sizes:
        x = placed(size, sizes[0], sizes[-1], LEFT, RIGHT)
        yield f'<path class="grid" d="M{x:.0f} {TOP}V{BOTTOM}"/>'
        yield f'<text x="{x:.0f}" y="{BOTTOM + 20}" text-anchor="middle">{size:,}</text>'
    for mark in marks:
        y = placed(mark, marks[0], marks[-1], BOTTOM, TOP)
        yield f'<path class="grid" d="M{LEFT} {y:.0f}H{RIGHT}"/>'
        yield f'<text x="{LEFT - 8}" y="{y + 4:.0f}" text-anchor="end">{mark:g}</text>'
    yield f'<rect class="frame" x="{LEFT}" y="{TOP}" width="{RIGHT - LEFT}" height="{BOTTOM - TOP}"/>'


def lines(operations, sizes, marks):
    drawn = {
        name: [
            (placed(size, sizes[0], sizes[-1], LEFT, RIGHT), placed(time, marks[0], marks[-1], BOTTOM, TOP))
            for size, time in points
        ]
        for name, points in operations.items()
    }
    heights = apart([points[-1][1] for points in drawn.values()])
    for k, (name, points) in enumerate(drawn.items()):
        path = " ".join(f"{x:.1f},{y:.1f}" for x, y in points)
        yield f'<polyline class="c{k % 7} line" points="{path}"/>'
        yield from (f'<circle class="c{k % 7}" cx="{x:.1f}" cy="{y:.1f}" r="3"/>' for x, y in points)
        last = operations[name][-1][1]
        yield f'<text class="c{k % 7} name" x="{RIGHT + 10}" y="{heights[k] + 4:.0f}">{name}, {float(f"{last:.2g}"):g} µs</text>'


def main():
    operations = read()
    sizes = sorted({size for points in operations.values() for size, _ in points})
    times = [time for points in operations.values() for _, time in points]
    marks = ticks(min(times), max(times))
    print('<svg xmlns="http://www.w3.org/2000/svg" viewBox="0 0 730 380" width="730" height="380">')
    print(f"<style>{STYLE}</style>")
    print('<rect class="back" width="730" height="380" rx="6"/>')
    print(f'<text x="{LEFT}" y="24">microseconds of one operation</text>')
    print(f'<text x="{(LEFT + RIGHT) // 2}" y="{BOTTOM + 42}" text-anchor="middle">boxes in the layer</text>')
    print(*grid(sizes, marks), *lines(operations, sizes, marks), "</svg>", sep="\n")


main()

"""A picture of a layer's tree, as SVG, by the numbers that are stored: what the program's `--draw` writes."""

from __future__ import annotations

from typing import Iterable, Sequence

from rstore._rows import LayerStats, Node

#: boxes of objects that are drawn at most, as many as the program draws, and objects that a notebook shows at most
MOST_ENTRIES, MOST_SHOWN = 20_000, 2_000

# In units of the picture, ten to a pixel: its width, what is free round the map, where this begins, how long its longer
# side is, how low it may be, how small a box, so that a point is seen, and how high a line of the legend is.
_WIDTH, _MARGIN, _TOP, _SIDE, _LOW_MAP, _LEAST, _LINE = 10_000, 300, 620, 9_400, 300, 6, 230
# Of levels, told apart also by who sees few colours (those of Okabe and Ito but the lightest).
_COLOURS = ("#0072b2", "#d55e00", "#009e73", "#cc79a7", "#8a6d00", "#5a4fcf")


def svg_of(stats: LayerStats, nodes: "Sequence[Node]", entries: "Sequence[Sequence[int]]") -> str:
    """The picture of a layer with these nodes, the root first, and these boxes of objects."""
    dims, bounds = stats.dims, nodes[0].box
    if bounds is None:
        below, seen, drawn = _TOP + 2 * _LINE, "no objects", []
    else:
        frame = _Frame(bounds, dims)
        below = _TOP + max(frame.height, _LOW_MAP) + 2 * _LINE
        seen = f"fanout {stats.fanout}; x {bounds[0]} to {bounds[dims]}, y {bounds[1]} to {bounds[dims + 1]}"
        seen += "; seen from above" if dims == 3 else ""
        drawn = ['<g fill="none" stroke="#333333" stroke-width="5" stroke-opacity="0.7">', *frame.places(entries), "</g>"]
        for level in range(stats.height):
            drawn += [_group(level), *frame.places(it.box for it in nodes if it.level == level and it.box), "</g>"]
    height = (stats.height + 1) * _LINE + below
    return "\n".join([
        f'<svg xmlns="http://www.w3.org/2000/svg" viewBox="0 0 {_WIDTH} {height}" width="{_WIDTH // 10}"'
        f' height="{height // 10}">',
        "<style>text { font: 140px sans-serif; fill: #222222 }</style>",
        f'<rect width="{_WIDTH}" height="{height}" fill="#ffffff"/>',
        f'<text x="{_MARGIN}" y="280" style="font-size:200px;font-weight:bold">{stats.name}</text>',
        f'<text x="{_MARGIN}" y="500">{seen}</text>',
        *drawn,
        *_legend(stats, len(entries), below),
        "</svg>\n",
    ])


class _Frame:
    """How the plane of the first two axes lies on the picture: one scale for both, and the second axis upwards."""

    def __init__(self, bounds: "Sequence[int]", dims: int) -> None:
        self.dims, self.low, self.high = dims, bounds[:2], bounds[dims : dims + 2]
        across, up = (self.high[a] - self.low[a] for a in (0, 1))
        self.length = max(across, up, 1)
        self.left = _MARGIN + (_SIDE - self.scaled(across)) // 2
        self.height = self.scaled(up)

    def scaled(self, length: int) -> int:
        return length * _SIDE // self.length

    def places(self, boxes: "Iterable[Sequence[int]]") -> "Iterable[str]":
        """Rectangles where these boxes go, seen from above."""
        for box in boxes:
            left, top = self.scaled(box[0] - self.low[0]), self.scaled(self.high[1] - box[self.dims + 1])
            wide = max(self.scaled(box[self.dims] - self.low[0]) - left, _LEAST)
            tall = max(self.scaled(self.high[1] - box[1]) - top, _LEAST)
            yield f'<rect x="{self.left + left}" y="{_TOP + top}" width="{wide}" height="{tall}"/>'


def _style(level: int) -> "tuple[str, str, int]":
    """Colour, density and stroke: leaves more dense than what lies above them, and lines thicker further up."""
    return _COLOURS[level % 6], "0.12" if level == 0 else "0.03", 8 + 7 * min(level, 5)


def _group(level: int) -> str:
    colour, shade, stroke = _style(level)
    return (f'<g id="level{level}" fill="{colour}" fill-opacity="{shade}" stroke="{colour}" stroke-width="{stroke}"'
            ' stroke-opacity="0.85">')


def _legend(stats: LayerStats, drawn: int, top: int) -> "Iterable[str]":
    """What each level has, and how many objects are drawn."""
    name = " (root)"
    for it in stats.levels:
        colour, shade, stroke = _style(it.level)
        yield (f'<rect x="{_MARGIN}" y="{top - 120}" width="260" height="140" fill="{colour}" fill-opacity="{shade}"'
               f' stroke="{colour}" stroke-width="{stroke}"/>')
        fill = f"{it.fill_per_mille // 10}.{it.fill_per_mille % 10}"
        yield (f'<text x="{_MARGIN + 400}" y="{top}">level {it.level}{name}: nodes {it.nodes}, entries {it.entries},'
               f" fill {fill} %</text>")
        top, name = top + _LINE, ""
    yield (f'<rect x="{_MARGIN}" y="{top - 120}" width="260" height="140" fill="none" stroke="#333333"'
           ' stroke-width="5"/>')
    told = f"all {drawn}" if drawn == stats.objects else f"not drawn, for {stats.objects} are more than {MOST_ENTRIES}"
    yield f'<text x="{_MARGIN + 400}" y="{top}">boxes of objects: {told}</text>'

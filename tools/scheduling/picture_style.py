"""How the page looks: colours with a hatching for each phase, so that it can be read without colours, on paper and on narrow screens."""

from scheduling.markup import Markup, element, joined
from scheduling.names import HELD

# For each phase the colour, and the strokes of a tile of 6 by 6 that is laid over it.
PHASE_LOOKS = {
    1: ("#fdf0d5", "M1.5 1.5h1M4.5 4.5h1"),
    2: ("#fbdc9d", "M0 6L6 0"),
    3: ("#dcecf9", "M0 3h6"),
    4: ("#f6c1bb", "M0 0L6 6M0 6L6 0"),
    5: ("#e0f2d8", "M3 0v6"),
    6: ("#bfe5cf", "M0 0L6 6"),
    7: ("#efe4f8", "M2.5 3h1"),
    8: ("#d7c5ec", "M0 3h6M3 0v6"),
    HELD: ("#10472b", ""),
    10: ("#dcdcdc", "M-1 1L1 -1M0 6L6 0M5 7L7 5M-1 4L4 -1M2 7L7 2"),
}

# The colours of clients among the units: light enough for black words.
CLIENT_COLOURS = "#a9d3f5", "#f8d287", "#bfe3a9", "#f5b7ae", "#d3c2ee", "#a5e0d8", "#f3c3e0", "#d9d4b0"

# What is marked in a row, each about its middle. Out of patience is an hourglass, held by two an exclamation mark.
MARK_SHAPES = {
    "refused": "M-3.5 -3.5L3.5 3.5M-3.5 3.5L3.5 -3.5",
    "late": "M0 -4L4.5 3.5H-4.5Z",
    "out-of-patience": "M-4 -4.5H4L-4 4.5H4Z",
    "held-by-two": "M-1.8 -6h3.6l-.8 7h-2ZM-1.2 2.8h2.4v2.4h-2.4Z",
    "idle-released": "M-3.5 0a3.5 3.5 0 1 0 7 0a3.5 3.5 0 1 0 -7 0Z",
    "idle-late": "M0 -4L4.5 3.5H-4.5Z",
    "idle-cancelled": "M-3.2 -3.2h6.4v6.4h-6.4Z",
    "idle-out-of-patience": "M-4 -4.5H4L-4 4.5H4Z",
}

PAGE = """
:root { color-scheme: light; }
body { margin: 0 auto; padding: 1rem; background: #fff; color: #111; }
body { font: 15px/1.5 system-ui, "Segoe UI", "Liberation Sans", Arial, sans-serif; }
h1 { font-size: 1.5rem; margin: 0 0 .3rem; overflow-wrap: anywhere; }
h2 { font-size: 1.15rem; margin: 1.4rem 0 .4rem; }
p, ul { max-width: 60rem; margin: .3rem 0; }
.legend { display: flex; flex-wrap: wrap; gap: .25rem 1.1rem; list-style: none; padding: 0; max-width: none; }
.legend li { display: flex; align-items: center; gap: .4rem; white-space: nowrap; }
.chart { overflow: auto; width: fit-content; max-width: 100%; max-height: 92vh; border: 1px solid #777; margin: .6rem 0; }
.chart:focus-visible { outline: 3px solid #1a56b0; }
.board { display: grid; grid-template-columns: max-content max-content; width: max-content; }
.board svg { display: block; }
.board h2 { grid-column: 1 / -1; position: sticky; left: 0; justify-self: start; margin: .5rem .6rem .3rem; }
.names, .corner { position: sticky; left: 0; background: #fff; border-right: 1px solid #777; z-index: 1; }
.corner, .times { position: sticky; top: 0; background: #fff; border-bottom: 1px solid #777; z-index: 2; }
.corner { z-index: 3; }
.wide { overflow-x: auto; }
table { border-collapse: collapse; font-variant-numeric: tabular-nums; }
th, td { border: 1px solid #999; padding: .15rem .6rem; text-align: right; }
thead th { background: #eee; }
text { font-family: system-ui, "Segoe UI", "Liberation Sans", Arial, sans-serif; font-size: 11px; fill: #111; }
.on, .beside { font-size: 10px; pointer-events: none; display: var(--words, inline); }
.on { text-anchor: middle; paint-order: stroke; stroke: #fff; stroke-width: 2.5px; stroke-linejoin: round; }
.on.held { font-weight: bold; fill: #fff; stroke: none; }
.name { text-anchor: end; }
.middle { text-anchor: middle; }
.line { stroke: #d5d5d5; fill: none; }
.band { fill: #f0f0f0; }
.bar { stroke: #444; stroke-width: .7px; }
.bar.p9 { stroke: #000; }
.unit, .key { stroke: #111; stroke-width: 1px; }
.unit { fill-opacity: .8; vector-effect: var(--outline, none); }
.by-two { fill: none; stroke: #a80000; stroke-width: 3px; vector-effect: var(--outline, none); }
.warning { border: 2px solid #a80000; padding: .3rem .7rem; }
.instant { fill: #10472b; stroke: #10472b; stroke-width: 1.6px; }
.passed { stroke: #666; stroke-width: 2px; stroke-dasharray: 2 1.5; }
.mark { fill: #fff; stroke: #111; stroke-width: 1.3px; }
.mark.refused { stroke: #a80000; stroke-width: 2px; }
.mark.late, .mark.out-of-patience, .mark.held-by-two { fill: #a80000; stroke: #a80000; }
.overview { display: block; width: 100%; max-width: 960px; height: auto; border: 1px solid #777; --words: none; --outline: non-scaling-stroke; }
figure { margin: .3rem 0 .6rem; }
.defs { position: absolute; }
.panel { display: none; }
.on-paper { display: none; }
"""

PAPER = """
@media print {
@page { size: A4 landscape; margin: 12mm; }
body { padding: 0; font-size: 10pt; }
.chart { display: none; }
.panel { display: block; width: 100%; height: auto; margin: 0 0 6mm; break-inside: avoid; }
.on-paper { display: block; }
h2 { break-after: avoid; }
tr, li, figure { break-inside: avoid; }
svg * { print-color-adjust: exact; -webkit-print-color-adjust: exact; }
}
"""


def filling(phase, colour, strokes):
    """The colour of a phase stands behind its hatching, for a reader that draws no hatchings."""
    return f"url(#hatch{phase}) {colour}" if strokes else colour


def style():
    phases = "".join(f".p{phase} {{ fill: {filling(phase, *looks)}; }}\n" for phase, looks in PHASE_LOOKS.items())
    clients = "".join(f".k{place} {{ fill: {colour}; }}\n" for place, colour in enumerate(CLIENT_COLOURS))
    return element("style", Markup(PAGE + phases + clients + PAPER))


def hatching(phase, colour, strokes):
    """The tile of a phase."""
    ground = element("rect", width=6, height=6, fill=colour)
    over = element("path", d=strokes, stroke="#555", stroke_width=.7, stroke_opacity=.75)
    return element("pattern", ground, over, id=f"hatch{phase}", width=6, height=6, patternUnits="userSpaceOnUse")


def shapes():
    """What the charts are drawn with: the tiles and the marks."""
    tiles = [hatching(phase, colour, strokes) for phase, (colour, strokes) in PHASE_LOOKS.items() if strokes]
    return joined([*tiles, *(element("path", id=kind, d=shape) for kind, shape in MARK_SHAPES.items())])

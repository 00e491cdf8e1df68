"""The chart of the units: the table from top to bottom, with a bar for each window while it was held, and a frame where two clients held the
same units."""

from itertools import product

from model import tree
from scheduling.client_chart import SMALL, again_and_again, bar, colour, instant
from scheduling.markup import element, joined, that_fits
from scheduling.names import window
from scheduling.overlaps import in_words

ABOVE = 10
HIGH, LOWEST, HIGHEST = 420, 16, 48


class UnitAxis:
    """Where an edge is from top to bottom. The stretches between two edges that occur have the same height, however many units they have:
    a window may be one unit of 65,536."""

    def __init__(self, schedule, holdings):
        edges = {0, tree.units(schedule.settings.levels), *(edge for holding in holdings for edge in (holding.left, holding.right))}
        self.step = max(LOWEST, min(HIGHEST, HIGH // (len(edges) - 1)))
        self.at = {edge: ABOVE + self.step * place for place, edge in enumerate(sorted(edges))}
        self.height = max(self.at.values()) + ABOVE


def holding_drawn(axis, units, holding):
    """The bar of a holding with its client's number, or a line if it began and ended at one clock."""
    top, bottom = units.at[holding.left], units.at[holding.right]
    if (place := axis.instant(holding)) is not None:
        yield instant(holding, f"M{place - 3} {top + 1}h6m-3 0V{bottom - 1}m-3 0h6")
        yield from (element("text", holding.client, class_="beside", x=place + 2, y=y + 4) for y in again_and_again(top, bottom))
        return
    left, right = axis.begins(holding.start), axis.ends(holding.end)
    yield bar(holding, left, right, class_=f"bar unit {colour(holding.client)}", y=top, height=bottom - top)
    texts = f"client {holding.client} {window(holding.left, holding.right)}", f"client {holding.client}", str(holding.client)
    if words := that_fits(texts, SMALL, right - left - 1):
        places = product(again_and_again(left, right), again_and_again(top, bottom))
        yield from (element("text", words, class_="on", x=x, y=y + 4) for x, y in places)


def overlap_drawn(axis, units, overlap):
    """A frame about the units that two clients held, for as long as both did."""
    later, earlier = overlap
    left, right = axis.begins(later.start), min(axis.ends(later.end), axis.ends(earlier.end))
    top, bottom = units.at[max(later.left, earlier.left)], units.at[min(later.right, earlier.right)]
    return element("rect", element("title", in_words(overlap)), class_="by-two", x=left, y=top, width=right - left, height=bottom - top,
                   data_later=later.client, data_earlier=earlier.client, data_call=later.start.place)


def edges_drawn(units, width):
    """The edges' labels, beside the lines at which they are."""
    for edge, place in units.at.items():
        yield element("text", edge, class_="name", x=width - 6, y=place + 4)


def edges_lined(units, width):
    return element("path", class_="line", d="".join(f"M0 {place}h{width}" for place in units.at.values()))


def drawn(axis, units, holdings, overlaps):
    """All that is among the units."""
    bars = (part for holding in holdings for part in holding_drawn(axis, units, holding))
    return joined([edges_lined(units, axis.width), *bars, *(overlap_drawn(axis, units, overlap) for overlap in overlaps)])

"""The charts for paper, on which nothing scrolls: cut into panels of a page's width, each with the times on top and the names at its left.
They show the elements of the charts again, so that nothing is in the page twice."""

from itertools import accumulate

from scheduling.board import NAMES_WIDTH
from scheduling.markup import drawing, element, joined

PANEL = 1000
TIME = PANEL - NAMES_WIDTH
MOST_PANELS = 16
APART = 14


def shown(name, x, y):
    return element("use", href=f"#{name}", x=x, y=y)


def panel(parts, place, count):
    """The part of the charts from one time to another."""
    tops = [0, *accumulate(part.height + APART for part in parts)]
    moving = (shown(part.name, NAMES_WIDTH - TIME * place, top) for part, top in zip(parts, tops))
    still = (shown(f"{part.name}-names", 0, top) for part, top in zip(parts, tops))
    seen = element("clipPath", element("rect", x=NAMES_WIDTH, y=0, width=TIME, height=tops[-1]), id=f"seen{place}")
    return drawing(PANEL, tops[-1], f"Clients and units, part {place + 1} of {count}", "A part of the charts, as wide as a page.",
                   seen, element("g", *moving, clip_path=f"url(#seen{place})"), *still, class_="panel")


def panels(axis, parts):
    """All panels; a sentence if so many copies would make the page slow."""
    count = max(1, -(-axis.width // TIME))
    if count > MOST_PANELS:
        says = f"The charts are {count} times as wide as a page, and are left out on paper. The table has every holding."
        return element("p", says, class_="on-paper")
    return joined(panel(parts, place, count) for place in range(count))

"""A page of `tools/schedule picture` read back: its bars and instants, its marks, its labels and its table."""

import re
from typing import NamedTuple
from xml.etree import ElementTree

HELD = 9
NUMBERS = "data-client", "data-phase", "data-left", "data-right", "data-from", "data-to", "data-from-clock", "data-to-clock"
DIAMOND = re.compile(r"M(\d+) (\d+)l4 9l-4 9l-4 -9z")
LINE = re.compile(r"M(\d+) (\d+)h6m-3 0V(\d+)m-3 0h6")


class Told(NamedTuple):
    """A stretch in one phase: by its calls and the clocks after them; None for the end if there is none."""

    client: int
    phase: int
    left: int
    right: int
    start: int
    end: int
    start_clock: int
    end_clock: int


class Bar(NamedTuple):
    """What a bar tells and where it is drawn. An instant has no width."""

    told: Told
    x: int
    y: int
    width: int
    height: int

    @property
    def instant(self):
        return self.width == 0


class Mark(NamedTuple):
    kind: str
    call: int


class Page:
    """A page as a tree of elements; an empty one if the page is not well-formed."""

    def __init__(self, text):
        self.text = text
        try:
            self.root, self.well_formed = ElementTree.fromstring(text), True
        except ElementTree.ParseError:
            self.root, self.well_formed = ElementTree.Element("html"), False

    def named(self, identity):
        """The element with this identity; an empty one if there is none."""
        return next((each for each in self.root.iter() if each.get("id") == identity), ElementTree.Element("g"))

    def bars(self, chart):
        """The bars and instants of a chart, `clients` or `units`."""
        return [bar_of(each) for each in self.named(chart).iter() if each.get("data-client") is not None]

    def marks(self):
        """Each mark, with its place."""
        drawn = (each for each in self.named("clients").iter("use") if each.get("data-call") is not None)
        return [(Mark(each.get("href").removeprefix("#"), int(each.get("data-call"))), int(each.get("x")), int(each.get("y"))) for each in drawn]

    def frames(self):
        """Each frame among the units: the client that came later, the other, the call, and where it is."""
        names = "data-later", "data-earlier", "data-call", "x", "y", "width", "height"
        return [tuple(int(each.get(name)) for name in names) for each in self.named("units").iter("rect") if each.get("data-later") is not None]

    def title(self):
        return self.root.findtext("head/title")

    def labels(self, identity):
        """The texts in an element, with their places."""
        texts = (each for each in self.named(identity).iter("text") if each.get("x") is not None)
        return [(each.text, int(each.get("x")), int(each.get("y"))) for each in texts]

    def table(self):
        """The rows of the table of holdings, as texts."""
        rows = (row for body in self.root.iter("tbody") for row in body.iter("tr"))
        return [tuple(cell.text for cell in row) for row in rows]


def number(text):
    return None if text is None else int(text)


def bar_of(element):
    told = Told(*(number(element.get(name)) for name in NUMBERS))
    if element.tag == "rect":
        return Bar(told, *(int(element.get(name)) for name in ("x", "y", "width", "height")))
    if diamond := DIAMOND.fullmatch(element.get("d")):
        x, top = map(int, diamond.groups())
        return Bar(told, x, top, 0, 18)
    x, top, bottom = map(int, LINE.fullmatch(element.get("d")).groups())
    return Bar(told, x + 3, top - 1, 0, bottom - top + 2)

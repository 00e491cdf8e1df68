"""The charts together: the times on top, the clients and the units below, on one time axis. They scroll in a box of their own, in which
the times and the names stay in sight."""

from typing import NamedTuple

from model import tree
from scheduling import client_chart, unit_chart
from scheduling.markup import Markup, drawing, element, joined, width_of
from scheduling.names import HELD
from scheduling.time_axis import LETTERS

NAMES_WIDTH = 112
LINE = 16
OVERVIEW, OVERVIEW_HIGH = 960, 320
IN_TABLE = "the table below the charts has each."


class Part(NamedTuple):
    """A part of the board: its name, title and words, its height, the names that stay in sight, and what scrolls with time."""

    name: str
    title: str
    says: str
    height: int
    names: Markup
    drawn: Markup


def times_height(axis):
    longest = max((width_of(label.text, LETTERS) for labels in axis.labels().values() for label in labels), default=0)
    return round(longest) + 12 if axis.upright else LINE * len(axis.labels()) + 4


def label_drawn(axis, line, label, height):
    """A label of the time axis: to the right of where its call begins, or in the middle of its clock, upright if the clocks are long."""
    if axis.upright:
        return element("text", label.text, transform=f"translate({label.place + 4} {height - 6}) rotate(-90)")
    return element("text", label.text, x=label.place, y=LINE * line + 13, class_="middle" if axis.name == "clock" else None)


def times_part(axis):
    height = times_height(axis)
    names = (element("text", name, class_="name", x=NAMES_WIDTH - 6, y=height - 8 if axis.upright else LINE * line + 13)
             for line, name in enumerate(axis.labels()))
    labels = (label_drawn(axis, line, label, height) for line, labels in enumerate(axis.labels().values()) for label in labels)
    return Part("times", "Times", f"The time axis, by {axis.name}.", height, joined(names), joined(labels))


def clients_part(axis, schedule, stretches, marks):
    rows = client_chart.rows_of(schedule, marks)
    times = sum(stretch.phase == HELD for stretch in stretches)
    says = f"A row for each client, 0 to {schedule.clients - 1}, with a bar for each stretch in one phase. Held {times} times: {IN_TABLE}"
    return Part("clients", "Clients", says, client_chart.ROW * len(rows), joined(client_chart.names_drawn(rows, NAMES_WIDTH)),
                client_chart.drawn(axis, stretches, marks, rows))


def units_part(axis, schedule, held, overlaps):
    units = unit_chart.UnitAxis(schedule, held)
    last = tree.units(schedule.settings.levels) - 1
    says = f"The units 0 to {last} from top to bottom, with a bar for each window while it was held. Held {len(held)} times: {IN_TABLE}"
    return Part("units", "Units", says, units.height, joined(unit_chart.edges_drawn(units, NAMES_WIDTH)),
                unit_chart.drawn(axis, units, held, overlaps))


def with_bands(axis, part):
    """What scrolls, before the bands of the clocks or the lines of the calls."""
    bands = (f"M{left} 0h{right - left}v{part.height}h{left - right}z" for left, right in axis.bands())
    lines = (f"M{place} 0v{part.height}" for place in axis.lines())
    return element("g", element("path", class_="band", d="".join(bands)), element("path", class_="line", d="".join(lines)), part.drawn, id=part.name)


def drawings(axis, part):
    """The names of a part, and what scrolls beside them."""
    kinds = ("corner", "times") if part.name == "times" else ("names", "bars")
    names = element("g", part.names, id=f"{part.name}-names")
    yield drawing(NAMES_WIDTH, part.height, f"{part.title}: names", f"What each line beside is, for: {part.title}.", names, class_=kinds[0])
    yield drawing(axis.width, part.height, part.title, part.says, with_bands(axis, part), class_=kinds[1])


def overview(axis, part):
    """A chart of which only a small part can be seen at once, squeezed into the width of a page and without words: its elements again."""
    height = min(part.height, OVERVIEW_HIGH)
    squeezed = element("use", href=f"#{part.name}", transform=f"scale({OVERVIEW / axis.width:.5f} {height / part.height:.5f})")
    says = f"The chart of the {part.name} from its first to its last {axis.name}."
    shown = drawing(OVERVIEW, height, f"{part.title}, at a glance", says, squeezed, class_="overview")
    return element("figure", element("figcaption", part.title), shown)


def overviews(axis, parts):
    """For charts that are much wider than a page."""
    if axis.width > 2 * OVERVIEW:
        yield element("h2", f"All {axis.name}s at a glance")
        yield element("p", "Squeezed into the width of a page. Whether two bars only touch is to be seen in the charts below.")
        yield from (overview(axis, part) for part in parts)
        yield element("h2", f"All {axis.name}s")


def scrolling(axis, times, parts):
    """The box in which the charts scroll. It can be reached by the keyboard, so that the arrow keys scroll it."""
    below = (shown for part in parts for shown in (element("h2", part.title), *drawings(axis, part)))
    board = element("div", *drawings(axis, times), *below, class_="board")
    return element("div", board, class_="chart", role="region", tabindex=0, aria_label="Charts of clients and units; scrolls")

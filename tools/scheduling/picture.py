"""What `schedule picture` writes: a page on which everybody can see who held which units when. It is one file that fetches nothing, and
is well-formed XML."""

from pathlib import PurePath

from model import tree
from scheduling import board, paper
from scheduling.clocks import clock_lines, one_for_all
from scheduling.legend import legend
from scheduling.markup import drawing, element, joined
from scheduling.names import window
from scheduling.overlaps import overlap_lines, overlaps
from scheduling.picture_style import shapes, style
from scheduling.problems import escaped
from scheduling.report import counted_lines, waiting_lines
from scheduling.stretches import held_stretches, marks, stretches
from scheduling.time_axis import axis_by

COLUMNS = "client", "window", "from clock", "from call", "to clock", "to call"

HOW_TO_READ = {
    "call": "Each call has a column, which shows what is so after it and before the next.",
    "clock": "Each clock has a grey band. What begins and ends within one clock has no length: it is a mark in the band, or a line "
             "among the units. The clocks are not to scale: a greater gap has only a little more room.",
}
OF_CLIENTS = "Clients have a row each, with a bar for each stretch that they spend in one phase; where there is none, the client is idle."
OF_UNITS = ("Among the units, a bar is a window while its client holds it, from its left edge down to its right edge. Two clients that held "
            "the same unit at the same time would be two bars, one over the other. The units are not to scale: all stretches between two "
            "neighbouring edges are equally high.")
OF_OWN_CLOCKS = "the charts go by the call, also where they are asked for by clock; a clock that is named is the last one of its own client"


def title_of(name):
    """The page's title, with the name of the file where there is one."""
    return "Who held which units" + (f": {''.join(map(escaped, PurePath(name).name))}" if name != "-" else "")


def settings_in_words(schedule):
    levels, distance, wait, patience = schedule.settings
    clients = "1 client" if schedule.clients == 1 else f"{schedule.clients} clients"
    return f"{levels} levels, {tree.units(levels)} units, notices at distance {distance}, wait {wait}, patience {patience}, {clients}"


def listed(lines, kind=None):
    return element("ul", *(element("li", line) for line in lines), class_=kind)


def row(holding):
    """A holding as a row of the table."""
    end = [element("td", holding.end.clock), element("td", holding.end.place)] if holding.end else [element("td", "still holds", colspan=2)]
    return element("tr", element("th", holding.client, scope="row"), element("td", window(holding.left, holding.right)),
                   element("td", holding.start.clock), element("td", holding.start.place), *end)


def table(held):
    if not held:
        return element("p", "Nobody held a window.")
    head = element("thead", element("tr", *(element("th", name, scope="col") for name in COLUMNS)))
    body = element("tbody", *(joined(["\n", row(holding)]) for holding in held))
    return element("div", element("table", head, body), class_="wide", role="region", tabindex=0, aria_label="Table of holdings; scrolls")


def charts(happened, axis, held, marked):
    """The charts, to be scrolled and for paper."""
    schedule, events = happened.schedule, happened.events
    times, of_clients = board.times_part(axis), board.clients_part(axis, schedule, stretches(events), marked)
    parts = [of_clients, *([board.units_part(axis, schedule, held, overlaps(events))] if held else [])]
    defined = drawing(0, 0, "Shapes", "The hatchings and marks that the charts are drawn with.", element("defs", shapes()), class_="defs")
    return joined([defined, *board.overviews(axis, parts), board.scrolling(axis, times, parts), paper.panels(axis, [times, *parts])])


def of_clocks(happened):
    """What is to be known of the clocks, and that two clients held at once: on most pages nothing."""
    if lines := list(clock_lines(happened.opened.history)):
        yield element("h2", "Clocks")
        yield listed([*lines, OF_OWN_CLOCKS])
    if lines := list(overlap_lines(happened.events)):
        yield element("h2", "Held by two at the same time")
        yield listed(lines, "warning")


def body(happened, by, name):
    held, marked = held_stretches(happened.events), list(marks(happened.schedule, happened.events))
    axis = axis_by(by, one_for_all(happened.opened.history), happened.events, held, marked)
    yield element("h1", title_of(name))
    yield element("p", settings_in_words(happened.schedule))
    yield listed(counted_lines(happened))
    yield from of_clocks(happened)
    yield element("h2", "Legend")
    yield legend(axis.name == "clock", overlaps(happened.events))
    yield element("p", f"{OF_CLIENTS} {HOW_TO_READ[axis.name]}")
    yield element("p", OF_UNITS if held else "Nobody held a window, so the units are not shown.")
    if not happened.events:
        yield element("p", "This schedule has no calls.")
    yield charts(happened, axis, held, marked)
    yield element("h2", "Held")
    yield table(held)
    yield element("h2", "Not idle and not holding at the end")
    yield listed(list(waiting_lines(happened)) or ["nobody"])


def page(happened, by, name):
    """The whole page."""
    fits = element("meta", name="viewport", content="width=device-width, initial-scale=1")
    head = element("head", element("meta", charset="utf-8"), fits, element("title", title_of(name)), style())
    parts = (joined(["\n", part]) for part in body(happened, by, name))
    return f"<!DOCTYPE html>\n{element('html', head, element('body', element('main', *parts)), lang='en')}\n"

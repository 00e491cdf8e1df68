"""Checks of what a page shows of clients' own clocks, and of windows that two clients held at the same time."""

from picture_checks import unlike
from schedule_runs import clocks_in_words

BY_CALL = "the charts go by the call, also where they are asked for by clock; a clock that is named is the last one of its own client"


def below(page, heading):
    """What is listed below a heading."""
    parts = list(page.root.find("body/main"))
    lists = [after for part, after in zip(parts, parts[1:]) if part.tag == "h2" and part.text == heading and after.tag == "ul"]
    return [entry.text for found in lists for entry in found]


def counted(page, expected, by):
    """What time counts: calls, and below them clocks if there is one for all; or clocks alone."""
    names = [text for text, _, _ in page.labels("times-names")]
    wanted = ["clock"] if by == "clock" else ["call", "clock"] if expected.one_clock else ["call"]
    return len(names), unlike(wanted, names)


def said_of_clocks(page, expected, by):
    """Where each client has its own clock it is said so, whether there are true moments for them, and what the charts go by; else nothing."""
    own, found = clocks_in_words(expected.history), below(page, "Clocks")
    return len(found), unlike([*own, BY_CALL] if own else [], found)


def said_of_two(page, expected, by):
    """Each window that two clients held is named, and what it means."""
    found = below(page, "Held by two at the same time")
    return len(found), unlike(expected.said_of_two, found)


def common_part(one, other):
    """Where two bars are both: left, top, width and height."""
    left, top = max(one.x, other.x), max(one.y, other.y)
    right, bottom = (min(one.x + one.width, other.x + other.width), min(one.y + one.height, other.y + other.height))
    return left, top, right - left, bottom - top


def frames(page, expected, by):
    """Among the units there is a frame where two bars are one over the other, for each two holdings that have units and calls in common."""
    bars = {(bar.told.client, bar.told.start): bar for bar in page.bars("units")}
    wanted = [(later.client, earlier.client, later.start, *common_part(bars[later.client, later.start], bars[earlier.client, earlier.start]))
              for later, earlier in expected.by_two]
    found = page.frames()
    return len(found), unlike(wanted, found)


def in_legend(page, expected, by):
    """The legend has the mark of what two clients hold exactly if there is one."""
    [legend] = (each for each in page.root.iter("ul") if each.get("class") == "legend")
    return 1, sum(each.get("href") == "#held-by-two" for each in legend.iter("use")) != (len(expected.by_two) > 0)


def looked_at(expected, by):
    """Each check, and how many it must have looked at."""
    rows, said = 2 if by == "call" and expected.one_clock else 1, 0 if expected.one_clock else 3
    return {counted: rows, said_of_clocks: said, said_of_two: len(expected.said_of_two), frames: len(expected.by_two), in_legend: 1}

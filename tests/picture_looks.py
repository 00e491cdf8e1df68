"""Checks of what a page shows beside its charts: marks that can be told apart, and the settings."""

import re

from model import tree

# In the legend of every page, and one more where two clients held the same units.
KINDS_OF_MARKS = 7
RULE = re.compile(r"([^{}]*)\{([^{}]*)\}")
FILL = re.compile(r"(?<![-\w])fill:\s*([^;]+)")


def kinds_of_marks(expected):
    return KINDS_OF_MARKS + (len(expected.by_two) > 0)


def fills(page):
    """The classes that an element must have, with the fill that they give it: the last and most exact rule holds."""
    rules = [rule for style in page.root.iter("style") for rule in RULE.findall(style.text)]
    found = [(set(selector.strip().split(".")[1:]), fill[1].strip()) for selectors, said in rules if (fill := FILL.search(said))
             for selector in selectors.split(",") if selector.strip().startswith(".")]
    return sorted(found, key=lambda rule: len(rule[0]))


def marks_unlike(page, expected, by):
    """No two kinds of mark have the same shape and fill, and each kind has one of them, in the legend and in the chart."""
    rules, shapes = fills(page), {f"#{path.get('id')}": path.get("d") for path in page.root.iter("path") if path.get("id")}
    drawn = {(mark.get("href"), mark.get("class")) for mark in page.root.iter("use") if mark.get("href") in shapes}
    seen = {(kind, (shapes[kind], *[fill for wanted, fill in rules if wanted <= set(classes.split())][-1:])) for kind, classes in drawn}
    kinds, looks = {kind for kind, _ in seen}, {look for _, look in seen}
    return len(kinds), 2 * len(seen) - len(kinds) - len(looks)


def settings(page, expected, by):
    """Below the title are the schedule's settings."""
    (levels, distance, wait, patience), clients = expected.schedule.settings, expected.schedule.clients
    wanted = (f"{levels} levels, {tree.units(levels)} units, notices at distance {distance}, wait {wait}, patience {patience}, "
              f"{clients} client{'s' * (clients != 1)}")
    return 1, int(page.root.findtext("body/main/p") != wanted)

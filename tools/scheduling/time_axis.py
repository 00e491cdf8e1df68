"""Where a moment is from left to right: by the number of the call, or by the clock. All places are whole numbers, so that what ends where
another begins does so exactly."""

from collections import Counter
from itertools import count, pairwise
from math import log2
from typing import NamedTuple

from scheduling.markup import width_of

LETTERS = 11
# What fits beside the names into a window of 1,024; a chart that needs less is drawn as wide as this.
WIDE = 860
LEAST_WIDE = 240

# By call: the room of one call. Phase digits and clients' numbers fit into the narrowest.
NARROWEST, WIDEST = 14, 56

# By clock: the room in which it is shown what a client goes through within one clock, that of each mark there, and that of the step to
# the next clock, if it is 1.
WITHIN, MARKED, STEP = 8, 18, 14
BEFORE = 12
MOST_STRETCHED = 4


class Label(NamedTuple):
    place: int
    text: str


class ByCall:
    """Each call has a column, which shows what is so after it and before the next. The clocks are labelled too, if they are one clock for
    all."""

    name = "call"
    upright = False

    def __init__(self, events, one_clock):
        self.events, self.one_clock = events, one_clock
        self.column = max(NARROWEST, min(WIDEST, WIDE // max(len(events), 1)))
        self.width = max(self.column * len(events), LEAST_WIDE)

    def begins(self, event):
        return self.column * event.place

    def ends(self, event):
        return self.begins(event) if event else self.column * len(self.events)

    def instant(self, stretch):
        """Where a stretch is that begins and ends at the same moment. No two calls are the same moment."""
        return None

    def marked(self, mark):
        return self.begins(mark.event) + self.column // 2

    def bands(self):
        return []

    def lines(self):
        return [self.begins(event) for event in self.events[::self.every()]]

    def every(self):
        """Of how many calls one is labelled, so that the labels have room."""
        wanted = width_of(str(len(self.events)), LETTERS) + LETTERS
        return next(step for tens in count() for step in (10 ** tens, 2 * 10 ** tens, 5 * 10 ** tens) if step * self.column >= wanted)

    def labels(self):
        """The calls' numbers, and below them the clocks."""
        calls = [Label(self.begins(event) + 2, str(event.place)) for event in self.events[::self.every()]]
        return {"call": calls, **({"clock": self.clocks()} if self.one_clock else {})}

    def clocks(self):
        """Each clock where it begins, if the one before leaves room."""
        clocks, free, last = [], 0, None
        for event in self.events:
            if event.clock != last and self.begins(event) >= free:
                clocks.append(Label(self.begins(event) + 2, str(event.clock)))
                free = self.begins(event) + width_of(str(event.clock), LETTERS) + LETTERS
            last = event.clock
        return clocks


class ByClock:
    """Each clock has a band. What ends at a clock ends at the left of its band, and what begins there begins at its right; between the
    two, in the order of the calls, is what begins and ends within that clock."""

    name = "clock"

    def __init__(self, events, held, marks):
        clocks = sorted({event.clock for event in events})
        self.places, wanted = places_within(held, marks)
        widths = {clock: WITHIN + MARKED * wanted[clock] for clock in clocks}
        steps = stretched([step_of(after - before) for before, after in pairwise(clocks)] + [3 * STEP], sum(widths.values()))
        self.band, left = {}, BEFORE
        for clock, step in zip(clocks, steps):
            self.band[clock] = left, left + widths[clock]
            left += widths[clock] + step
        self.width = max(left, LEAST_WIDE)
        neighbours = pairwise(self.labels()["clock"])
        self.upright = any(width_of(label.text, LETTERS) + 6 > after.place - label.place for label, after in neighbours)

    def begins(self, event):
        return self.band[event.clock][1]

    def ends(self, event):
        return self.band[event.clock][0] if event else self.width

    def instant(self, stretch):
        """Where a stretch is that begins and ends at one clock: held ones have a place each, others share the left of the band."""
        if not within_a_clock(stretch):
            return None
        left, place = self.band[stretch.start.clock][0], self.places.get(stretch.start.place)
        return left + WITHIN // 2 if place is None else left + WITHIN + MARKED * place + 4

    def marked(self, mark):
        return self.band[mark.event.clock][0] + WITHIN + MARKED * self.places[mark.event.place] + MARKED // 2

    def bands(self):
        return self.band.values()

    def lines(self):
        return []

    def labels(self):
        return {"clock": [Label((left + right) // 2, str(clock)) for clock, (left, right) in self.band.items()]}


def within_a_clock(stretch):
    return stretch.end is not None and stretch.end.clock == stretch.start.clock


def places_within(held, marks):
    """Where in the band of its clock each held instant and each mark is, by its call, and how many places each clock needs. Instants stand
    one after the other in the order of the calls, and so does all that is in one row."""
    asked = [(each.start, each.client, True) for each in held if within_a_clock(each)] + [(mark.event, mark.row, False) for mark in marks]
    places, next_in_row, next_instant, wanted = {}, Counter(), Counter(), Counter()
    for event, row, is_held in sorted(asked, key=lambda each: each[0].place):
        place = max(next_in_row[event.clock, row], next_instant[event.clock] if is_held else 0)
        places[event.place], next_in_row[event.clock, row] = place, place + 1
        next_instant[event.clock] = place + 1 if is_held else next_instant[event.clock]
        wanted[event.clock] = max(wanted[event.clock], place + 1)
    return places, wanted


def step_of(gap):
    """The room between a clock and the next. That of a great gap is wider, so that it is seen, but no more than three times."""
    return min(round(STEP + 2 * log2(gap)), 3 * STEP)


def stretched(steps, beside):
    """The steps made wider where all of them leave much of the page empty."""
    by = max(1, min(MOST_STRETCHED, (WIDE - beside) / sum(steps)))
    return [round(step * by) for step in steps]


def axis_by(name, one_clock, events, held, marks):
    """By call, or by clock if that is asked for and there is one clock for all. Clocks of clients' own have no common order."""
    return ByClock(events, held, marks) if name == "clock" and one_clock else ByCall(events, one_clock)

"""Cases for the compiled calls of ward hours: held to the model, which looks at every quarter of a window, for every unit of small calendars,
for windows that begin and end where hours do, and for random ones; and what request 2.6 says of a window, on compiled answers alone."""

from functools import lru_cache
from itertools import combinations, islice
from random import Random

import compiled_calendar
import compiled_table
from calendar_questions import (
    ALL_OPEN, LONGEST, OPEN, Asked, any_calendar, any_week, any_window, every_quarter, fitting, lent_hours, own_hours, own_week,
    random_windows, telling_windows, with_day)
from compare import NAMES, case, unlike
from compiled_calendar import CALENDAR
from model import tree
from model.calendar import DAYS, QUARTERS, WEEK, Quarter, back, is_open, there

EDGES = "number", "left", "right"
FROM_AND_TO = tuple(f"{end} {field}" for end in ("first", "last") for field in Quarter._fields)
OWN_HOURS = tuple(f"day {day} {hour}" for day in range(DAYS) for hour in ("opening", "closing"))
ASKED = *CALENDAR, *FROM_AND_TO, "lent hours", *OWN_HOURS
NAMES["window of a ward"] = ASKED, EDGES
NAMES["window of a ward, by the model in full"] = ASKED, EDGES
NAMES["quarter of a unit"] = (*CALENDAR, "unit"), ("number", *Quarter._fields)
NAMES["calendars that fit"] = ("levels",), ("calendars",)
NAMES["days of a window"] = ("days",), ("accepted", "closed on one day of the week")
NAMES["units of a window"] = ASKED, ("number", "units not the next quarter of the ward", "units not open", "number of the cover")
NAMES["windows of two wards"] = ("place", "wards with a window"), ("units in two of them",)
NAMES["calendars with windows of two wards"] = (), ("enough of them",)

SMALL = 3, 4
# The calendars whose windows from one telling quarter to another are asked for.
TELLING = (3, 1, 1), (4, 1, 3), (4, 2, 2)
# Of these windows the model itself is asked for one in so many. For the others it has looked at each quarter once.
ONE_IN = 101
# How many days a window touches: those between its first and its last are none, some of a week, all of it, and all of it and more.
TOUCHED = 1, 2, 3, 7, 8, 9, 10, 14, 15, 16, 21
CALENDARS_WALKED = 40


def named_arguments(asked):
    """The numbers that are asked, with the hours of the window's ward."""
    return *asked[:3], *asked.first, *asked.last, len(asked.hours), *own_hours(asked.hours, asked.first.ward)


def compared(answered):
    for asked, answer in answered:
        yield case("window of a ward", named_arguments(asked), answer), compiled_calendar.window(*asked)


def every_unit(levels):
    """Of every calendar that fits every unit goes back to its quarter, as does none behind them, and every quarter goes there."""
    yield case("calendars that fit", [levels], {3: 1, 4: 14}[levels]), len(fitting(levels))
    yield from compared(every_quarter(levels))
    for wards, weeks in fitting(levels):
        for unit in range(wards * weeks * WEEK + QUARTERS):
            asked = levels, wards, weeks, unit
            yield case("quarter of a unit", asked, tuple(back(*asked))), compiled_calendar.quarter(*asked)


def days_touched(asked):
    return 1 + DAYS * (asked.last.week - asked.first.week) + asked.last.day - asked.first.day


def one_day_not_open(asked):
    """Whether the ward is open at all times but for one day of the week."""
    return own_week(asked.hours, asked.first.ward).count(OPEN) == DAYS - 1


def from_telling_quarters(*figures):
    """Windows from one telling quarter to another, whatever the ward's hours. Those of every number of days are accepted, and refused by 14 for
    one day of the week alone."""
    answered = telling_windows(*figures)
    for asked, answer in answered[::ONE_IN]:
        yield case("window of a ward, by the model in full", named_arguments(asked), answer), tuple(there(*asked))
    yield from compared(answered)
    accepted = {days_touched(asked) for asked, answer in answered if answer.number == 0}
    closed = {days_touched(asked) for asked, answer in answered if answer.number == 14 and one_day_not_open(asked)}
    for days in TOUCHED:
        if days <= DAYS * figures[-1]:
            yield case("days of a window", [days], (1, 1)), (days in accepted, days in closed)


def next_quarter(at):
    """The quarter after this one, over midnight and a week's end."""
    if at.quarter < QUARTERS - 1:
        return at._replace(quarter=at.quarter + 1)
    if at.day < DAYS - 1:
        return at._replace(day=at.day + 1, quarter=0)
    return at._replace(week=at.week + 1, day=0, quarter=0)


def quarters_between(first, last):
    """All quarters from the first to the last, if it comes."""
    found = [first]
    while found[-1] != last and len(found) <= LONGEST:
        found.append(next_quarter(found[-1]))
    return found


def walked(asked):
    """Of an accepted window: how many of its units, by the way back, are not the next quarter from the first to the last, how many are not
    open, and the number of its cover, since a request for these edges is not refused by 7."""
    number, left, right = compiled_calendar.window(*asked)
    found = [compiled_calendar.quarter(*asked[:3], unit) for unit in range(left, right)]
    wanted = [(0, *at) for at in quarters_between(asked.first, asked.last)]
    closed = sum(not is_open(asked.hours, Quarter(*at)) for _, *at in found)
    return number, unlike(wanted, found), closed, compiled_table.cover(asked.levels, left, right)[0]


def accepted_by(rng, figures, hours, count):
    """Random windows of a calendar that the compiled call accepts, a few of each ward."""
    _, wards, weeks = figures
    questions = (Asked(*figures, *any_window(rng, wards, weeks), hours) for _ in range(50 * count))
    return list(islice((asked for asked in questions if compiled_calendar.window(*asked)[0] == 0), count))


@lru_cache(maxsize=None)
def calendars_walked():
    """Random calendars, each with windows that are accepted; the last is of as many wards and weeks as there may be."""
    rng = Random("wards walked")
    figures = [any_calendar(rng) for _ in range(CALENDARS_WALKED - 1)] + [(tree.LEVELS[-1], 64, 60)]
    hours = [lent_hours(*(any_week(rng) for _ in range(wards))) for _, wards, _ in figures]
    return [accepted_by(rng, each, of_each, 20) for each, of_each in zip(figures, hours)]


def units_of_windows():
    """ "The way back gives ward, week, day and quarter of any calendar unit": those of an accepted window are the quarters from the first to the
    last, in order and none left out, and "every quarter in it must be open"."""
    over_a_weeks_end = Asked(4, 2, 3, Quarter(1, 0, 5, 90), Quarter(1, 2, 1, 7), lent_hours(with_day(3, (9, 9)), ALL_OPEN))
    for asked in (over_a_weeks_end, *(asked for windows in calendars_walked() for asked in windows)):
        yield case("units of a window", named_arguments(asked), (0, 0, 0, 0)), walked(asked)


def in_both(one, other):
    return max(0, min(one[1], other[1]) - max(one[0], other[0]))


def windows_of_two_wards():
    """ "A window lies in one ward": windows of two wards have no unit in common."""
    for place, windows in enumerate(calendars_walked()):
        edges = [(asked.first.ward, compiled_calendar.window(*asked)[1:]) for asked in windows]
        shared = sum(in_both(one, other) for (ward, one), (others, other) in combinations(edges, 2) if ward != others)
        yield case("windows of two wards", [place, len({ward for ward, _ in edges})], 0), shared
    several = sum(len({asked.first.ward for asked in windows}) > 1 for windows in calendars_walked())
    yield case("calendars with windows of two wards", [], 1), int(several >= CALENDARS_WALKED // 2)


SUITES = {
    **{f"ward hours at H {h}, every unit back and every quarter there": lambda h=h: every_unit(h) for h in SMALL},
    **{f"ward hours at H {h}, {wards} by {weeks}, windows between telling quarters":
       lambda asked=(h, wards, weeks): from_telling_quarters(*asked) for h, wards, weeks in TELLING},
    "ward hours, random calendars and whole wards": lambda: compared(random_windows()),
    "ward hours, a window has the ward's quarters in order, each open": units_of_windows,
    "ward hours, windows of two wards share no unit": windows_of_two_wards,
}

"""Windows of wards to ask for, each with the model's answer: every quarter of small calendars, windows that begin and end where hours do,
and random ones of calendars of every size."""

from functools import lru_cache
from itertools import accumulate, combinations_with_replacement, product
from random import Random
from typing import NamedTuple

from model import tree
from model.calendar import DAYS, QUARTERS, WARDS, WEEK, WEEKS, Edges, Quarter, is_open, quarter_of, there, unit_of

# Of a ward's week: a pair for each day.
OPEN = (0, QUARTERS)
ALL_OPEN = (OPEN,) * DAYS
RANDOM_WINDOWS = 6000
LONGEST = 60 * WEEK


class Asked(NamedTuple):
    """What is asked there: the calendar, the window's first and last quarter, and the hours as they are lent."""

    levels: int
    wards: int
    weeks: int
    first: Quarter
    last: Quarter
    hours: tuple


class Answered(NamedTuple):
    asked: Asked
    answer: Edges


def lent_hours(*weeks):
    """The hours of wards, each of which has a week of pairs, as numbers in the order in which they are lent."""
    return tuple(hour for week in weeks for pair in week for hour in pair)


def own_hours(hours, ward):
    """A ward's own, as far as they are lent."""
    return hours[2 * DAYS * ward:][:2 * DAYS]


def own_week(hours, ward):
    own = own_hours(hours, ward)
    return list(zip(own[::2], own[1::2]))


def fits(levels, wards, weeks):
    return wards * weeks * WEEK <= tree.units(levels)


def fitting(levels):
    """The wards and weeks of every calendar that there can be."""
    return [figures for figures in product(WARDS, WEEKS) if fits(levels, *figures)]


def any_pair(rng):
    """Open all day, closed all day by equal hours, or open from a quarter to another."""
    opening = rng.randrange(QUARTERS + 1)
    return rng.choice([OPEN, (opening, opening), (opening, rng.randint(opening, QUARTERS))])


def any_days(rng):
    return tuple(any_pair(rng) for _ in range(DAYS))


def with_day(day, pair):
    """A week that is open but for one day, which has other hours."""
    return tuple(pair if each == day else OPEN for each in range(DAYS))


def any_week(rng):
    """A ward's week: always open, but for one day, or anything on any day."""
    return rng.choice([ALL_OPEN, with_day(rng.randrange(DAYS), any_pair(rng)), any_days(rng)])


@lru_cache(maxsize=None)
def every_quarter(levels):
    """Every quarter of every calendar that fits, as a window of its own."""
    found = []
    for wards, weeks in fitting(levels):
        rng = Random(f"every quarter of {wards} wards and {weeks} weeks")
        hours = lent_hours(*(any_days(rng) for _ in range(wards)))
        for unit in range(wards * weeks * WEEK):
            at = quarter_of(weeks, unit)
            asked = Asked(levels, wards, weeks, at, at, hours)
            found.append(Answered(asked, there(*asked)))
    return found


@lru_cache(maxsize=None)
def weeks_of_hours():
    """All open and all closed; on one day closed, or open but for its first or its last quarter, or open in one quarter alone; hours that
    begin with the day, that end with it, and within it; open over midnight every second day; and any."""
    rng = Random("weeks of hours")
    alike = [(pair,) * DAYS for pair in (OPEN, (0, 0), (48, 48), (96, 96), (0, 60), (30, 96), (24, 80), (0, 1), (95, 96))]
    of_one_day = [with_day(day, pair) for day in range(DAYS) for pair in ((0, 0), (48, 48), (96, 96), (1, 96), (0, 95), (50, 51))]
    over_midnight = [tuple(((70, 96), (0, 20))[(day + shift) % 2] for day in range(DAYS)) for shift in range(2)]
    return [*alike, *of_one_day, *over_midnight, *(any_days(rng) for _ in range(4))]


def telling(pair):
    """The quarters of a day about its edges and those of its hours."""
    opening, closing = pair
    about = {0, 1, opening - 1, opening, closing - 1, closing, 94, 95}
    return sorted(about.intersection(range(QUARTERS)))


def telling_quarters(ward, weeks, week):
    return [Quarter(ward, k, day, q) for k in range(weeks) for day, pair in enumerate(week) for q in telling(pair)]


def looked_at(weeks, ward, hours):
    """How many quarters of a ward are closed before each of its units, and in all: the model looks at each, once for all windows."""
    units = range(ward * weeks * WEEK, (ward + 1) * weeks * WEEK)
    return list(accumulate((not is_open(hours, quarter_of(weeks, unit)) for unit in units), initial=0))


def in_a_ward(levels, wards, weeks, ward, hours):
    """All windows of a ward from one telling quarter to another."""
    closed, before = looked_at(weeks, ward, hours), ward * weeks * WEEK
    for first, last in combinations_with_replacement(telling_quarters(ward, weeks, own_week(hours, ward)), 2):
        left, right = unit_of(weeks, first), unit_of(weeks, last) + 1
        found = Edges(14) if closed[right - before] > closed[left - before] else Edges(0, left, right)
        yield Answered(Asked(levels, wards, weeks, first, last, hours), found)


@lru_cache(maxsize=None)
def telling_windows(levels, wards, weeks):
    """The windows of every ward, whose weeks of hours are in turn all that there are."""
    kinds = weeks_of_hours()
    of_wards = [[kinds[(place + 5 * ward) % len(kinds)] for ward in range(wards)] for place in range(len(kinds))]
    return [each for hours in of_wards for ward in range(wards) for each in in_a_ward(levels, wards, weeks, ward, lent_hours(*hours))]


def any_quarter(rng, wards, weeks):
    return Quarter(*map(rng.randrange, (wards, weeks, DAYS, QUARTERS)))


def any_window(rng, wards, weeks):
    """Mostly a window of any length that ends within its ward, seldom from any quarter to any other."""
    first = any_quarter(rng, wards, weeks)
    if rng.random() < 0.1:
        return first, any_quarter(rng, wards, weeks)
    last = unit_of(weeks, first) + int(LONGEST ** rng.random()) - 1
    return first, quarter_of(weeks, min(last, (first.ward + 1) * weeks * WEEK - 1))


def any_calendar(rng):
    """Levels at which there is a calendar, and so many wards and weeks that it fits."""
    levels = rng.choice(tree.LEVELS[1:])
    while True:
        wards, weeks = (int((top + 1) ** rng.random()) for top in (WARDS[-1], WEEKS[-1]))
        if fits(levels, wards, weeks):
            return levels, wards, weeks


def whole_wards():
    """A ward's 60 weeks from their first quarter to their last, all open, and with a quarter closed each week."""
    last = Quarter(0, 59, 6, 95)
    for wards, ward in ((1, 0), (64, 0), (64, 31), (64, 63)):
        for week in (ALL_OPEN, with_day(6, (0, 95)), with_day(0, (1, 96))):
            others = [with_day(day % DAYS, (50, 50)) for day in range(wards)]
            hours = lent_hours(*others[:ward], week, *others[ward + 1:])
            for levels in (9, 12):
                yield Asked(levels, wards, 60, Quarter(ward, 0, 0, 0), last._replace(ward=ward), hours)


def random_questions():
    rng = Random("windows of wards")
    for _ in range(RANDOM_WINDOWS // 10):
        levels, wards, weeks = any_calendar(rng)
        hours = lent_hours(*(any_week(rng) for _ in range(wards)))
        for _ in range(10):
            yield Asked(levels, wards, weeks, *any_window(rng, wards, weeks), hours)


@lru_cache(maxsize=None)
def random_windows():
    """Of random calendars at all levels, and whole wards of 60 weeks."""
    return [Answered(asked, there(*asked)) for asked in (*random_questions(), *whole_wards())]

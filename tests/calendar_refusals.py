"""Calls of ward hours about every boundary of causes 1, 12, 13 and 14, each with the number that it must have, written down apart from the
model: figures, quarters, hours and their lengths, one wrong pair anywhere, numbers of every size, and several causes at once."""

from itertools import chain, product

from calendar_questions import ALL_OPEN, OPEN, Asked, lent_hours
from histories import TOP
from model import tree
from model.calendar import DAYS, Quarter

LEVELS_OUTSIDE = 0, 1, 13, 64, 2 ** 32 + 4, 2 ** 63 + 4, TOP
GREAT = 2 ** 32, 2 ** 63, TOP
TWO_OPEN = lent_hours(ALL_OPEN, ALL_OPEN)
# A window of ward 1 over a week's end, and its ward's first and last quarter.
ACCEPTED = Asked(4, 2, 2, Quarter(1, 0, 3, 40), Quarter(1, 1, 2, 50), TWO_OPEN)
WHOLE = ACCEPTED._replace(first=Quarter(1, 0, 0, 0), last=Quarter(1, 1, 6, 95))
# How many wards, weeks, days and quarters there are in it.
COUNTS = Quarter(2, 2, 7, 96)

# Pairs of hours: all that there may be about their boundaries, and others.
RIGHT_PAIRS = (0, 0), (0, 96), (95, 96), (96, 96), (0, 1), (50, 50)
WRONG_PAIRS = (
    (0, 97), (96, 97), (97, 97), (97, 96), (97, 98), (50, 49), (96, 95), (1, 0), (96, 0), (0, 2 ** 32), (2 ** 32, 96), (2 ** 32, 2 ** 32 + 96),
    (0, 2 ** 63), (0, TOP), (TOP, TOP), (TOP, 96), (TOP, 0))


def one_quarter(levels, wards, weeks, hours=None, ward=0, day=3):
    """A window of one quarter, by hours that are open at all times if none are said."""
    at = Quarter(ward, weeks - 1, day, 95)
    return Asked(levels, wards, weeks, at, at, lent_hours(*[ALL_OPEN] * wards) if hours is None else hours)


def about_levels():
    """H 2 has no calendar, since a week of one ward has more units."""
    for levels in LEVELS_OUTSIDE:
        yield ACCEPTED._replace(levels=levels), 1
    for levels in tree.LEVELS:
        yield one_quarter(levels, 1, 1), 12 if levels < 3 else 0
        yield ACCEPTED._replace(levels=levels), 12 if levels < 4 else 0


def all_figures():
    """At every H every count of wards, with weeks about their own boundary and about those past which N has not so many units."""
    for levels, wards in product(tree.LEVELS, range(66)):
        most = 64 * 4 ** (levels - 1) // 672 // max(wards, 1)
        for weeks in sorted({0, 1, 59, 60, 61, most, most + 1}):
            outside = wards in (0, 65) or weeks == 0 or weeks > 60 or weeks > most
            yield levels, wards, weeks, 12 if outside else 0


def about_figures():
    for levels, wards, weeks, number in all_figures():
        yield one_quarter(levels, wards, max(weeks, 1), ward=max(wards, 1) - 1, day=6)._replace(weeks=weeks), number


def about_quarters():
    """Every field of the first and of the last quarter from 0 up to what there is no more: 13 for ward 0, since the window is in ward 1."""
    for end, place in product(("first", "last"), range(4)):
        for number in range(COUNTS[place] + 1):
            at = [*getattr(WHOLE, end)]
            at[place] = number
            cause = 12 if number == COUNTS[place] else 13 if place == 0 and number == 0 else 0
            yield WHOLE._replace(**{end: Quarter(*at)}), cause


def about_order():
    """All windows from one quarter to another of two wards: 13 if the last is in another ward or before the first."""
    quarters = [Quarter(*at) for at in product(range(2), range(2), (0, 3, 6), (0, 1, 94, 95))]
    for first, last in product(quarters, repeat=2):
        yield ACCEPTED._replace(first=first, last=last), 13 if last.ward != first.ward or last < first else 0


def about_closing():
    """ "Closing not included; equal means closed", over midnight and a week's end too."""
    hours = lent_hours([(24, 80), (24, 96), (0, 96), (0, 50), (50, 50), (0, 0), (96, 96)])
    numbers = {
        ((0, 23), (0, 24)): 14, ((0, 24), (0, 24)): 0, ((0, 24), (0, 79)): 0, ((0, 79), (0, 80)): 14, ((0, 80), (0, 80)): 14,
        ((0, 79), (1, 24)): 14, ((1, 23), (3, 49)): 14, ((1, 24), (3, 49)): 0, ((1, 24), (3, 50)): 14, ((2, 0), (2, 95)): 0,
        ((3, 0), (3, 0)): 0, ((3, 49), (4, 0)): 14, ((4, 49), (4, 49)): 14, ((4, 50), (4, 50)): 14, ((5, 0), (5, 0)): 14,
        ((6, 95), (6, 95)): 14, ((1, 95), (2, 0)): 0, ((2, 95), (3, 0)): 0, ((3, 49), (3, 50)): 14, ((1, 24), (2, 95)): 0,
    }
    for (first, last), number in numbers.items():
        yield Asked(3, 1, 1, Quarter(0, 0, *first), Quarter(0, 0, *last), hours), number


def with_pair(place, pair, wards):
    return lent_hours([pair if at == place else OPEN for at in range(DAYS * wards)])


def about_pairs():
    """ "An opening after its closing anywhere": a pair of any ward and day, with a window of ward 0 that lies on another day."""
    for levels, wards in ((4, 1), (4, 2), (4, 6), (12, 64)):
        for place in range(DAYS * wards):
            for pairs, number in ((RIGHT_PAIRS, 0), (WRONG_PAIRS, 12)):
                for pair in pairs:
                    yield one_quarter(levels, wards, 1, with_pair(place, pair, wards), day=4 if place == 3 else 3), number


def about_lengths():
    """ "Hours that aren't one pair for each ward and day": as many, and any other number of them."""
    for levels, wards in ((4, 1), (4, 2), (4, 3), (4, 6), (12, 64)):
        hours = OPEN * (DAYS * wards + 8)
        for length in range(len(hours) + 1):
            yield one_quarter(levels, wards, 1, hours[:length]), 0 if length == 2 * DAYS * wards else 12


def great(right):
    """Numbers that begin with the right one if they are cut to fewer bits, or with 0, and the greatest."""
    return 2 ** 32, 2 ** 32 + right, 2 ** 63, 2 ** 63 + right, TOP


def great_numbers():
    """In every argument by itself; and in wards and weeks together, of whose products no bit is left in 64."""
    for place, cause in enumerate((1, 12, 12)):
        for number in great(ACCEPTED[place]):
            yield Asked(*ACCEPTED[:place], number, *ACCEPTED[place + 1:]), cause
    for end, field in product(("first", "last"), Quarter._fields):
        at = getattr(ACCEPTED, end)
        for number in great(getattr(at, field)):
            yield ACCEPTED._replace(**{end: at._replace(**{field: number})}), 12
    for place, hour in enumerate(TWO_OPEN):
        for number in great(hour):
            yield ACCEPTED._replace(hours=(*TWO_OPEN[:place], number, *TWO_OPEN[place + 1:])), 12
    for wards, weeks, hours in product((1, 2, *GREAT), (1, 2, *GREAT), ((), TWO_OPEN)):
        yield ACCEPTED._replace(wards=wards, weeks=weeks, hours=hours), 0 if (wards, weeks, hours) == (2, 2, TWO_OPEN) else 12


def replaced(**changed):
    return lambda asked: asked._replace(**changed)


def with_unknown(end, **changed):
    return lambda asked: asked._replace(**{end: getattr(asked, end)._replace(**changed)})


UNKNOWN = dict(ward=2), dict(week=2), dict(day=7), dict(quarter=96)
# What makes a call meet each cause, all of its kinds.
FAULTS = {
    1: [replaced(levels=levels) for levels in (1, 13, TOP)],
    12: [
        *(replaced(**changed) for changed in (dict(wards=0), dict(wards=65), dict(weeks=0), dict(weeks=61), dict(wards=6), dict(weeks=4))),
        lambda asked: asked._replace(hours=asked.hours[:-1]), lambda asked: asked._replace(hours=(*asked.hours, 0, 0)),
        lambda asked: asked._replace(hours=(*asked.hours[:-1], 97)), lambda asked: asked._replace(hours=(97, *asked.hours[1:])),
        lambda asked: asked._replace(hours=(*asked.hours[:-2], 96, 95)), replaced(hours=()),
        *(with_unknown(end, **changed) for end in ("first", "last") for changed in UNKNOWN),
    ],
    13: [lambda asked: asked._replace(first=asked.last, last=asked.first), with_unknown("last", ward=0), with_unknown("first", ward=0)],
    14: [replaced(hours=(48,) * len(TWO_OPEN)), replaced(hours=lent_hours(ALL_OPEN, [OPEN] * 4 + [(0, 95)] + [OPEN] * 2))],
}


def several_causes():
    """All that can be wrong together: the call is refused by the first, in the order 1, 12, 13, 14."""
    for chosen in product(*([None, *faults] for faults in FAULTS.values())):
        asked = ACCEPTED
        for fault in reversed(chosen):
            asked = fault(asked) if fault else asked
        yield asked, next((number for number, fault in zip(FAULTS, chosen) if fault), 0)


def windows_and_numbers():
    return chain(about_levels(), about_figures(), about_quarters(), about_order(), about_closing(), about_pairs(), about_lengths(),
                 great_numbers(), several_causes())


def units_and_numbers():
    """Back: every figure with units about the calendar's last and of every size, and H outside with any of them."""
    for levels, wards, weeks, number in all_figures():
        units = wards * weeks * 672
        yield (levels, wards, weeks, max(units, 1) - 1), number
        for unit in (units, units + 1, *GREAT, units + 2 ** 32):
            yield (levels, wards, weeks, min(unit, TOP)), 12
    for levels, wards, weeks, unit in product((*LEVELS_OUTSIDE, 12), (0, 2, 65, *GREAT), (0, 2, 61, *GREAT), (0, 2687, 2688, *GREAT)):
        fits = (wards, weeks) == (2, 2) and unit < 2688
        yield (levels, wards, weeks, unit), 0 if levels == 12 and fits else 12 if levels == 12 else 1

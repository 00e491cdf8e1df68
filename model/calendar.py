"""Request 2.6 of document 02, "Ward hours": quarters of a calendar there to units and back. Every quarter of a window is looked at, one by one."""

from typing import NamedTuple

from model import tree

DAYS = 7
QUARTERS = 96
WEEK = DAYS * QUARTERS
WARDS = range(1, 64 + 1)
WEEKS = range(1, 60 + 1)


class Quarter(NamedTuple):
    """ "Ward w, week k, day d (0..6), quarter q (0..95)"."""

    ward: int
    week: int
    day: int
    quarter: int


class Edges(NamedTuple):
    """There: the number (0 accepted), and the edges of the window."""

    number: int
    left: int = 0
    right: int = 0


class Place(NamedTuple):
    """Back: the number (0 accepted), and the ward, week, day and quarter of the unit."""

    number: int
    ward: int = 0
    week: int = 0
    day: int = 0
    quarter: int = 0


def unit_of(weeks, at):
    """ "Unit (w × weeks + k) × 672 + d × 96 + q"."""
    return (at.ward * weeks + at.week) * WEEK + at.day * QUARTERS + at.quarter


def quarter_of(weeks, unit):
    """ "Ward, week, day and quarter of any calendar unit"."""
    week_of_all, in_week = divmod(unit, WEEK)
    return Quarter(*divmod(week_of_all, weeks), *divmod(in_week, QUARTERS))


def figures_outside(levels, wards, weeks):
    """ "1 to 64 wards and 1 to 60 weeks, and wards × weeks × 672 no more than N"."""
    return wards not in WARDS or weeks not in WEEKS or wards * weeks * WEEK > tree.units(levels)


def hours_wrong(wards, hours):
    """ "Hours that aren't one pair for each ward and day", an hour outside 0..96, or "an opening after its closing anywhere"."""
    if len(hours) != 2 * DAYS * wards:
        return True
    return any(hour > QUARTERS for hour in hours) or any(opening > closing for opening, closing in zip(hours[::2], hours[1::2]))


def unknown(wards, weeks, at):
    """ "An unknown ward, week, day or quarter"."""
    return at.ward >= wards or at.week >= weeks or at.day >= DAYS or at.quarter >= QUARTERS


def is_open(hours, at):
    """ "Each ward has for each day an opening quarter and a closing quarter (0..96, closing not included; equal means closed)"."""
    pair = 2 * (DAYS * at.ward + at.day)
    return hours[pair] <= at.quarter < hours[pair + 1]


def there(levels, wards, weeks, first, last, hours):
    """A window "from a first to a last quarter ... locks from the first's unit up to the last's plus 1". It tests 1 for H, then 12, 13 and 14."""
    if levels not in tree.LEVELS:
        return Edges(1)
    if figures_outside(levels, wards, weeks) or hours_wrong(wards, hours) or any(unknown(wards, weeks, at) for at in (first, last)):
        return Edges(12)
    if last.ward != first.ward or last < first:
        return Edges(13)
    left, right = unit_of(weeks, first), unit_of(weeks, last) + 1
    if not all(is_open(hours, quarter_of(weeks, unit)) for unit in range(left, right)):
        return Edges(14)
    return Edges(0, left, right)


def back(levels, wards, weeks, unit):
    """It tests 1 for H, then 12: the calendar's figures, and "a unit past the last ward's"."""
    if levels not in tree.LEVELS:
        return Place(1)
    if figures_outside(levels, wards, weeks) or unit >= wards * weeks * WEEK:
        return Place(12)
    return Place(0, *quarter_of(weeks, unit))

"""The compiled calls of ward hours, from Python: the structs and functions of the binding, with hours lent as a test wants them."""

from ctypes import c_uint64
from functools import lru_cache

from compiled_table import library, nolthewyr

# What a call is told of the calendar.
CALENDAR = tuple(name for name, _ in nolthewyr.Calendar._fields_)


@lru_cache(maxsize=4096)
def struct(type_, numbers):
    """Calls write no struct of theirs, so that one stands for all calls with the same numbers."""
    return type_(*numbers)


@lru_cache(maxsize=256)
def lent(hours):
    """Hours in memory, which calls only read."""
    return (c_uint64 * len(hours))(*hours)


def window_lent(levels, wards, weeks, first, last, hours, count):
    """There, by hours that lie in memory already: the number and the edges."""
    calendar = struct(nolthewyr.Calendar, (levels, wards, weeks))
    first, last = (struct(nolthewyr.Quarter, tuple(at)) for at in (first, last))
    answer = library().nolthewyr_calendar_window(hours, count, calendar, first, last)
    return answer.number, answer.left, answer.right


def window(levels, wards, weeks, first, last, hours):
    return window_lent(levels, wards, weeks, first, last, lent(hours), len(hours))


def quarter(levels, wards, weeks, unit):
    """Back: the number, and the ward, week, day and quarter."""
    answer = library().nolthewyr_calendar_quarter(struct(nolthewyr.Calendar, (levels, wards, weeks)), unit)
    return answer.number, *answer.at

"""Request 2.6 broken on purpose: answers that are worked out day by day, with one thing wrong in them. The windows and units that the compiled
calls are asked for must find each of them out."""

from calendar_questions import Asked
from model import tree
from model.calendar import DAYS, QUARTERS, WARDS, WEEK, WEEKS, Edges, Place

SHORT_WEEK = DAYS * 95


def edges(asked, weeks=None, week=WEEK):
    """The units of the first and the last quarter, that plus 1, by so many weeks a ward and units a week."""
    left, last = ((at.ward * (weeks or asked.weeks) + at.week) * week + at.day * QUARTERS + at.quarter for at in asked[3:5])
    return left, last + 1


def figures_outside(levels, wards, weeks, most_wards=WARDS[-1], most_weeks=WEEKS[-1]):
    return not (1 <= wards <= most_wards and 1 <= weeks <= most_weeks and wards * weeks * WEEK <= tree.units(levels))


def pairs(hours):
    return list(zip(hours[::2], hours[1::2]))


def pair_wrong(opening, closing):
    return closing > QUARTERS or opening > closing


def unknown(asked, at, too_many=(0, 0, 0, 0)):
    """Not of the calendar, with so many wards, weeks, days and quarters taken that are too many."""
    counts = asked.wards, asked.weeks, DAYS, QUARTERS
    return any(number >= count + more for number, count, more in zip(at, counts, too_many))


def calendar_wrong(asked, outside=figures_outside, counted=True, wrong=pair_wrong, tested=slice(None), ends=slice(3, 5), **changed):
    """Cause 12, by these tests of the figures, of the count of hours, of each of the tested pairs, and of the ends."""
    if outside(*asked[:3]) or counted and len(asked.hours) != 2 * DAYS * asked.wards:
        return True
    return any(wrong(*pair) for pair in pairs(asked.hours)[tested]) or any(unknown(asked, at, **changed) for at in asked[ends])


def out_of_order(asked):
    return asked.first.ward != asked.last.ward or asked.last < asked.first


def closed_in_day(pair, start, end):
    """Whether one of a day's quarters from the start to the end is closed."""
    return start < pair[0] or pair[1] <= end


def looked_at(asked, most=DAYS):
    """The days that are looked at, each from a quarter to another: the first from its first quarter, the last up to its last, and of the whole
    days between only so many, since then the same days of the week come again."""
    first, last = asked.first, asked.last
    days = DAYS * (last.week - first.week) + last.day - first.day
    if days == 0:
        return [(first.day, first.quarter, last.quarter)]
    between = [(first.day + after, 0, QUARTERS - 1) for after in range(1, min(days, most + 1))]
    return [(first.day, first.quarter, QUARTERS - 1), *between, (last.day, 0, last.quarter)]


def some_closed(asked, look=looked_at, in_day=closed_in_day, place=lambda ward, day: DAYS * ward + day % DAYS):
    """Cause 14, by the pair that stands at this place for a ward and a day."""
    hours = pairs(asked.hours)
    return any(in_day(hours[place(asked.first.ward, day)], start, end) for day, start, end in look(asked))


TESTS = {1: lambda asked: asked.levels not in tree.LEVELS, 12: calendar_wrong, 13: out_of_order, 14: some_closed}


def answered(asked, tests=TESTS, found=edges):
    """An answer by these tests in their order."""
    number = next((number for number, test in tests.items() if test(asked)), 0)
    return Edges(number) if number else Edges(0, *found(asked))


def right(*asked):
    """With nothing wrong in it."""
    return answered(Asked(*asked))


def with_edges(found):
    return lambda *asked: answered(Asked(*asked), found=found)


def with_test(number, test):
    return lambda *asked: answered(Asked(*asked), TESTS | {number: test})


def in_order(*numbers):
    return lambda *asked: answered(Asked(*asked), {number: TESTS[number] for number in numbers})


def with_calendar(**tests):
    """Another test of cause 12."""
    return with_test(12, lambda asked: calendar_wrong(asked, **tests))


def with_hours(**tests):
    """Another test of cause 14."""
    return with_test(14, lambda asked: some_closed(asked, **tests))


def with_looks(change):
    """Other days looked at."""
    return with_hours(look=lambda asked: change(looked_at(asked)))


def edges_though_refused(*asked):
    return Edges(right(*asked).number, *edges(Asked(*asked)))


def same_week(asked):
    """The days that are looked at if the last quarter were in the week of the first, or in the next."""
    later = asked.last[2:] < asked.first[2:]
    return looked_at(asked._replace(last=asked.last._replace(week=asked.first.week + later)))


WINDOWS = {
    "closing included": with_hours(in_day=lambda pair, start, end: start < pair[0] or pair[1] < end),
    "opening not included": with_hours(in_day=lambda pair, start, end: start <= pair[0] or pair[1] <= end),
    "equal hours open all day": with_hours(in_day=lambda pair, start, end: pair[0] != pair[1] and closed_in_day(pair, start, end)),
    "equal hours open all day at 0 alone": with_hours(in_day=lambda pair, start, end: pair != (0, 0) and closed_in_day(pair, start, end)),
    "opening not looked at": with_hours(in_day=lambda pair, start, end: pair[1] <= end),
    "closing not looked at": with_hours(in_day=lambda pair, start, end: start < pair[0]),
    "a week of 7 × 95": with_edges(lambda asked: edges(asked, week=SHORT_WEEK)),
    "the last without + 1": with_edges(lambda asked: (edges(asked)[0], edges(asked)[1] - 1)),
    "the first not included": with_edges(lambda asked: (edges(asked)[0] + 1, edges(asked)[1])),
    "weeks and wards exchanged": with_edges(lambda asked: edges(asked, weeks=asked.wards)),
    "13 tested before 12": in_order(1, 13, 12, 14),
    "14 tested before 13": in_order(1, 12, 14, 13),
    "12 tested before 1": in_order(12, 1, 13, 14),
    "1 not tested": in_order(12, 13, 14),
    "hours of day 0 for all": with_hours(place=lambda ward, day: DAYS * ward),
    "hours of the first day for all": with_looks(lambda looked: [(looked[0][0], start, end) for _, start, end in looked]),
    "hours of ward 0 for all": with_hours(place=lambda ward, day: day % DAYS),
    "a day not taken modulo 7": with_hours(place=lambda ward, day: DAYS * ward + day),
    "only six days between looked at": with_hours(look=lambda asked: looked_at(asked, DAYS - 1)),
    "days between not looked at": with_looks(lambda looked: [looked[0], looked[-1]]),
    "the last day between not looked at": with_looks(lambda looked: [*looked[:-2], looked[-1]]),
    "the first day between not looked at": with_looks(lambda looked: [looked[0], *looked[2:]]),
    "the last day not looked at": with_looks(lambda looked: looked[:-1] or looked),
    "the first day not looked at": with_looks(lambda looked: looked[1:] or looked),
    "the first day looked at from 0": with_looks(lambda looked: [(looked[0][0], 0, looked[0][2]), *looked[1:]]),
    "the last day looked at to its end": with_looks(lambda looked: [*looked[:-1], (*looked[-1][:2], QUARTERS - 1)]),
    "the first day looked at to the last quarter alone": with_looks(lambda looked: [(*looked[0][:2], looked[-1][2]), *looked[1:]]),
    "whole weeks between not looked at": with_hours(look=same_week),
    "another ward taken": with_test(13, lambda asked: asked.last[1:] < asked.first[1:]),
    "a later ward taken": with_test(13, lambda asked: asked.last < asked.first),
    "a last quarter before the first taken": with_test(13, lambda asked: asked.first.ward != asked.last.ward),
    "a window of one quarter refused": with_test(13, lambda asked: out_of_order(asked) or asked.last == asked.first),
    "only quarters of one day compared": with_test(13, lambda asked: asked.first.ward != asked.last.ward or asked.last.quarter < asked.first.quarter),
    "the first pair not tested": with_calendar(tested=slice(1, None)),
    "the last pair not tested": with_calendar(tested=slice(-1)),
    "pairs of ward 0 alone tested": with_calendar(tested=slice(DAYS)),
    "an opening after its closing taken": with_calendar(wrong=lambda opening, closing: closing > QUARTERS),
    "a closing of 97 taken": with_calendar(wrong=lambda opening, closing: closing > QUARTERS + 1 or opening > closing),
    "a closing of 96 refused": with_calendar(wrong=lambda opening, closing: closing >= QUARTERS or opening > closing),
    "equal hours refused": with_calendar(wrong=lambda opening, closing: closing > QUARTERS or opening >= closing),
    "hours in 32 bits": with_calendar(wrong=lambda opening, closing: pair_wrong(opening % 2 ** 32, closing % 2 ** 32)),
    "any number of hours": with_calendar(counted=False),
    "65 wards taken": with_calendar(outside=lambda *figures: figures_outside(*figures, most_wards=65)),
    "64 wards refused": with_calendar(outside=lambda *figures: figures_outside(*figures, most_wards=63)),
    "61 weeks taken": with_calendar(outside=lambda *figures: figures_outside(*figures, most_weeks=61)),
    "60 weeks refused": with_calendar(outside=lambda *figures: figures_outside(*figures, most_weeks=59)),
    "more units than N taken": with_calendar(outside=lambda levels, *figures: figures_outside(12, *figures)),
    "the first quarter not tested": with_calendar(ends=slice(4, 5)),
    "the last quarter not tested": with_calendar(ends=slice(3, 4)),
    "day 7 taken": with_calendar(too_many=(0, 0, 1, 0)),
    "quarter 96 taken": with_calendar(too_many=(0, 0, 0, 1)),
    "a week past the last taken": with_calendar(too_many=(0, 1, 0, 0)),
    "a ward past the last taken": with_calendar(too_many=(1, 0, 0, 0)),
    "edges though refused": edges_though_refused,
}


def back(levels, wards, weeks, unit, outside=figures_outside, most=0, divisor=None, week=WEEK):
    """A unit's quarter, by these tests and divisors; with none of them said there is nothing wrong in it."""
    if levels not in tree.LEVELS:
        return Place(1)
    if outside(levels, wards, weeks) or unit >= wards * weeks * WEEK + most:
        return Place(12)
    week_of_all, in_week = divmod(unit, week)
    return Place(0, *divmod(week_of_all, divisor(wards, weeks) if divisor else weeks), *divmod(in_week, QUARTERS))


def back_with(**changed):
    return lambda *asked: back(*asked, **changed)


def quarter_though_refused(*asked):
    answer = back(*asked)
    return answer._replace(quarter=asked[3] % QUARTERS) if answer.number else answer


UNITS = {
    "a week of 7 × 95": back_with(week=SHORT_WEEK),
    "weeks and wards exchanged": back_with(divisor=lambda wards, weeks: wards),
    "a unit past the last ward's taken": back_with(most=1),
    "the last unit refused": back_with(most=-1),
    "65 wards taken": back_with(outside=lambda *figures: figures_outside(*figures, most_wards=65)),
    "61 weeks taken": back_with(outside=lambda *figures: figures_outside(*figures, most_weeks=61)),
    "more units than N taken": back_with(outside=lambda levels, *figures: figures_outside(12, *figures)),
    "the day from the first of all": lambda *asked: back(*asked)._replace(day=asked[3] // QUARTERS),
    "the week from the first of all": lambda *asked: back(*asked)._replace(week=asked[3] // WEEK),
    "12 tested before 1": lambda *asked: Place(12) if asked[3] >= asked[1] * asked[2] * WEEK else back(*asked),
    "a quarter though refused": quarter_though_refused,
}

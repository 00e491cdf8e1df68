"""Cases for what the compiled calls of ward hours refuse: by the number written down and the model's, in the order of testing, and with zeros
beside it; that they read no hours but those that are lent; and that all these questions find each broken calendar out."""

from functools import lru_cache
from itertools import zip_longest

import compiled_calendar
from broken_calendars import UNITS, WINDOWS, back as right_back, right
from broken_rules import by_broken
from calendar_cases import ASKED, SMALL, TELLING, named_arguments
from calendar_questions import Answered, every_quarter, random_windows, telling_windows
from calendar_refusals import about_lengths, about_pairs, several_causes, units_and_numbers, windows_and_numbers
from compare import NAMES, case
from compiled_calendar import CALENDAR
from guarded_memory import Guarded, asked_apart
from histories import TOP
from model.calendar import Edges, Place, Quarter, back, there

NOT_ANSWERED = TOP, TOP, TOP
BOTH = "number", "number by the model"
NAMES["ward's window refused"] = ASKED, (*BOTH, "left", "right")
NAMES["unit refused"] = (*CALENDAR, "unit"), (*BOTH, *Quarter._fields)
NAMES["hours between unreadable pages"] = ("at the end", *ASKED), ("number, all bits from the call on that read outside", "left", "right")
NAMES["hours said to be more than are lent"] = ("at the end", *ASKED), ("answered",)
NAMES["right calendar"] = ("place in the list of questions",), ("answers unlike",)
NAMES["broken calendar"] = ("place in the list of broken calendars",), ("found out",)


@lru_cache(maxsize=None)
def windows_refused():
    return list(windows_and_numbers())


@lru_cache(maxsize=None)
def units_refused():
    return list(units_and_numbers())


def refused():
    """It tests 1, then 12, 13 and 14; a refused answer has its number only."""
    for asked, number in windows_refused():
        by_model, found = there(*asked), compiled_calendar.window(*asked)
        edges = by_model[1:] if number == 0 else (0, 0)
        yield case("ward's window refused", named_arguments(asked), (number, number, *edges)), (found[0], by_model.number, *found[1:])


def refused_back():
    """Back it tests 1, then 12; a refused answer has its number only."""
    for asked, number in units_refused():
        by_model, found = back(*asked), compiled_calendar.quarter(*asked)
        at = by_model[1:] if number == 0 else (0, 0, 0, 0)
        yield case("unit refused", asked, (number, number, *at)), (found[0], by_model.number, *found[1:])


@lru_cache(maxsize=None)
def guarded():
    """Pages for the hours of 64 wards."""
    return Guarded(2)


def guarded_window(question):
    """What the compiled call answers when so many hours are said to be lent as there are, or some more."""
    at_end, asked, more = question
    return compiled_calendar.window_lent(*asked[:5], guarded().put(asked.hours, at_end), len(asked.hours) + more)


def between_unreadable_pages():
    """Right and wrong hours of any length, at the start of readable memory and at its end: none is read outside. That such a reading is seen
    is shown by calls with one hour less than is said."""
    windows = [asked for suite in (about_lengths(), about_pairs(), several_causes()) for asked, _ in suite]
    questions = [(at_end, asked, 0) for asked in windows for at_end in (0, 1)]
    answers = asked_apart(guarded_window, questions)
    for (at_end, asked, _), answer in zip_longest(questions, answers, fillvalue=NOT_ANSWERED):
        yield case("hours between unreadable pages", [at_end, *named_arguments(asked)], there(*asked)), answer
    for asked in (window for window, number in about_lengths() if number == 0):
        fewer = asked._replace(hours=asked.hours[:-1])
        yield case("hours said to be more than are lent", [1, *named_arguments(fewer)], 0), len(asked_apart(guarded_window, [(1, fewer, 1)]))


def questions():
    """All windows that the compiled call is asked for, each with its answer, in lists."""
    refused_by = [Answered(asked, Edges(number) if number else there(*asked)) for asked, number in windows_refused()]
    return [random_windows(), refused_by, *map(every_quarter, SMALL), *(telling_windows(*figures) for figures in TELLING)]


def unit_questions():
    """And all units."""
    refused_by = [(asked, Place(number) if number else back(*asked)) for asked, number in units_refused()]
    every = {(*asked[:3], answer.left): Place(0, *asked.first) for asked, answer in every_quarter(4) if answer.number == 0}
    return [refused_by, list(every.items())]


def broken_calendars():
    """Of each broken calendar some question shows it. One that is worked out as these are, with nothing wrong in it, answers as the model."""
    asked = questions(), unit_questions()
    for place, (by_days, answered) in enumerate((each, answered) for each, lists in zip((right, right_back), asked) for answered in lists):
        yield case("right calendar", [place], 0), sum(by_days(*each) != answer for each, answer in answered)
    broken = [(each, lists) for rules, lists in zip((WINDOWS, UNITS), asked) for each in rules.values()]
    for place, (each, lists) in enumerate(broken):
        found = any(by_broken(each, *asked) != answer for answered in lists for asked, answer in answered)
        yield case("broken calendar", [place], 1), int(found)


SUITES = {
    "ward hours, refused in order of testing": refused,
    "ward hours, units refused in order of testing": refused_back,
    "ward hours, no hour is read but those that are lent": between_unreadable_pages,
    "ward hours, the questions find each broken calendar out": broken_calendars,
}

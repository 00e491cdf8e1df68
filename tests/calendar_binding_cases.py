"""Cases for ward hours in Rust and in Python: both calls give what the model gives."""

from binding_cases import EDITIONS, numbers_of_rust, refused
from calendar_cases import ASKED, EDGES, named_arguments
from calendar_questions import random_windows
from calendar_refusals import units_and_numbers, windows_and_numbers
from compare import NAMES, case
from compiled_calendar import CALENDAR
from compiled_table import library, nolthewyr
from model.calendar import Edges, Place, Quarter, back, there

NAMES["window of a ward by a binding"] = ("language", *ASKED), EDGES
NAMES["quarter of a unit by a binding"] = ("language", *CALENDAR, "unit"), ("number", *Quarter._fields)

# Of all questions one in so many is asked of the bindings.
ONE_IN = 23


def python_window(levels, wards, weeks, first, last, hours):
    """The number that a window raises, 0 if none, and the edges if there are any."""
    asked = list(hours), nolthewyr.Calendar(levels, wards, weeks), nolthewyr.Quarter(*first), nolthewyr.Quarter(*last)
    number = refused(nolthewyr.calendar_window, *asked)
    return Edges(number) if number else Edges(0, *nolthewyr.calendar_window(*asked))


def python_quarter(levels, wards, weeks, unit):
    asked = nolthewyr.Calendar(levels=levels, wards=wards, weeks=weeks), unit
    number = refused(nolthewyr.calendar_quarter, *asked)
    return Place(number) if number else Place(0, *nolthewyr.calendar_quarter(*asked))


def in_both_languages(call, questions, named, by_model, by_python, words):
    """Each question in Python and in both editions of Rust, to which it is put in words."""
    library()
    by_rust = [numbers_of_rust([words(each) for each in questions], edition) for edition in EDITIONS]
    for each, *by_edition in zip(questions, *by_rust, strict=True):
        for language, answer in enumerate((by_python(*each), *by_edition)):
            yield case(call, [language, *named(each)], by_model(*each)), tuple(answer)


def windows():
    """Windows of wards, accepted and refused by every cause."""
    questions = [asked for asked, _ in (*random_windows(), *windows_and_numbers())][::ONE_IN]
    return in_both_languages(
        "window of a ward by a binding", questions, named_arguments, there, python_window,
        lambda asked: ("calendar_window", *asked[:3], *asked.first, *asked.last, *asked.hours))


def quarters():
    """Units of calendars, and others."""
    questions = [asked for asked, _ in units_and_numbers()][::ONE_IN]
    return in_both_languages(
        "quarter of a unit by a binding", questions, tuple, lambda *asked: tuple(back(*asked)), python_quarter,
        lambda asked: ("calendar_quarter", *asked))


SUITES = {
    "bindings, windows of wards": windows,
    "bindings, quarters of units": quarters,
}

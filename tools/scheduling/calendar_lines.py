"""The lines of a text that say its calendar: one with its figures, and any with hours, later ones over earlier ones."""

import re
from itertools import takewhile

from model import tree
from model.calendar import DAYS, WARDS, WEEKS
from scheduling.numbers import U64, numbers_of
from scheduling.problems import Wrong, all_parsed, parsed, shown
from scheduling.wards import CALENDAR, always_open, calendar_for, one_of, time_in_words, time_of

NAMES = "calendar", "hours"
CALENDAR_FORM = re.compile(r"calendar wards (\S+) weeks (\S+)")
HOURS_FORM = re.compile(r"hours(?: ward (\S+))?(?: day (\S+))?(?: closed| (\S+) \.\. (\S+))")
HOURS = "`hours 06:00 .. 22:00`, `hours ward 1 06:00 .. 22:00`, `hours day 6 closed` or `hours ward 1 day 6 closed`"
CLOSED = 0, 0
# What this calendar refuses, every calendar does. It stands for one whose line is wrong.
WIDEST = always_open(tree.LEVELS[-1], WARDS[-1], WEEKS[-1])


def calendar_of(place, words, levels):
    """The calendar that a line says for a tree of so many levels, or of any number if that is not known."""
    found = CALENDAR_FORM.fullmatch(" ".join(words))
    if not found:
        raise Wrong(f"line {place}: a calendar is written as in `{CALENDAR}`; got {shown(' '.join(words))}")
    figures = numbers_of(place, {"wards": U64, "weeks": U64}, found.groups())
    return calendar_for(WIDEST.levels if levels is None else levels, *figures, f"line {place}: ")


def those(place, name, word, count):
    """The one that a word names, or all without a word."""
    return range(count) if word is None else [one_of(place, name, word, count)]


def pair_of(place, opening, closing):
    """The opening and the closing quarter of a day; without words it is closed, as it is with the same time twice."""
    if opening is None:
        return CLOSED
    opens, closes = all_parsed((time_of, place, word) for word in (opening, closing))
    if opens > closes:
        raise Wrong(f"line {place}: a ward opens before it closes, on the same day, and {time_in_words(opens)} is after "
                    f"{time_in_words(closes)}; refused by 12")
    return opens, closes


def with_hours(place, words, calendar):
    """A calendar with the hours that a line says, of the ward and the day that it names, else of all."""
    found = HOURS_FORM.fullmatch(" ".join(words))
    if not found:
        raise Wrong(f"line {place}: hours are written as in {HOURS}; got {shown(' '.join(words))}")
    ward, day, *times = found.groups()
    wards, days, pair = all_parsed((
        (those, place, "ward", ward, calendar.wards), (those, place, "day", day, DAYS), (pair_of, place, *times)))
    hours = list(calendar.hours)
    for at in (2 * (DAYS * in_ward + on_day) for in_ward in wards for on_day in days):
        hours[at:at + 2] = pair
    return calendar._replace(hours=tuple(hours))


def with_line(place, words, calendar, levels):
    """A calendar, or None, with one line more."""
    said = shown(" ".join(words))
    if words[0] == "calendar":
        if calendar:
            raise Wrong(f"line {place}: a text has one calendar, and this is a second one; got {said}")
        return calendar_of(place, words, levels)
    if not calendar:
        raise Wrong(f"line {place}: hours want a calendar before them, as in `{CALENDAR}`; got {said}")
    return with_hours(place, words, calendar)


def read_calendar(lines, levels, wrong):
    """The calendar that the first of these lines say, or None, and the lines behind them. What is wrong with it is added to the other messages;
    then windows are held to no hours, and if its figures are wrong to the widest calendar."""
    said, amiss, calendar = list(takewhile(lambda line: line[1][0] in NAMES, lines)), [], None
    for place, words in said:
        calendar = parsed((place, words, calendar, levels), with_line, amiss) or calendar or (WIDEST if words[0] == "calendar" else None)
    wrong += amiss
    if calendar:
        hours = always_open(*calendar[:3]).hours if amiss else calendar.hours
        calendar = calendar._replace(hours=hours, lines=tuple(" ".join(words) for _, words in said))
    return calendar, lines[len(said):]


def refuse_behind(place, words):
    """Refuses a line of the calendar that stands behind a call or a wish."""
    if words[0] in NAMES:
        raise Wrong(f"line {place}: `{words[0]}` lines stand at the beginning, right behind the settings; got {shown(' '.join(words))}")

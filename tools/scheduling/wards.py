"""Windows as planners say them, by ward, week, day and time of day: there to edges by the calendar of request 2.6, and back."""

import re
from functools import lru_cache
from typing import NamedTuple

from model import tree
from model.calendar import DAYS, QUARTERS, WARDS, WEEK, WEEKS, Quarter, back, is_open, quarter_of, there, unit_of
from scheduling.numbers import U64, number_of, numbers_of
from scheduling.problems import Wrong, all_parsed, shown
from scheduling.refusals import no_such

EDGES = {"left edge": U64, "right edge": U64}
CALENDAR = "calendar wards 3 weeks 2"
WINDOW = "ward 2 week 0 day 6 23:45 .. week 1 day 0 02:00"
WINDOW_FORM = re.compile(r"ward (\S+) week (\S+) day (\S+) (\S+) \.\. (?:week (\S+) day (\S+) )?(\S+)")
WINDOW_WORDS = "ward", "week", "day", ".."
TIME_FORM = re.compile("([0-9]{1,2}):([0-9]{2})")
MINUTES = 15
IN_AN_HOUR = 60 // MINUTES

# The same window is often asked for again, and every quarter of it is looked at each time.
edges_of = lru_cache(maxsize=1024)(there)


class Calendar(NamedTuple):
    """How many wards and weeks there are in a tree of so many levels, an opening and a closing quarter for each ward and day, one after
    another, and the lines that say it."""

    levels: int
    wards: int
    weeks: int
    hours: tuple
    lines: tuple = ()

    def units(self):
        return self.wards * self.weeks * WEEK


class Window(NamedTuple):
    """The edges of a window, and its words in ward hours, in one form, if it was written so."""

    left: int
    right: int
    words: str = ""


def always_open(levels, wards, weeks):
    """Without other hours every ward is open all day, every day."""
    return Calendar(levels, wards, weeks, (0, QUARTERS) * DAYS * wards)


def calendar_line(calendar):
    return f"calendar wards {calendar.wards} weeks {calendar.weeks}"


def refused_figures(levels, wards, weeks):
    """Why a calendar is refused: by 1, since no tree has these levels, else by 12."""
    if levels not in tree.LEVELS:
        yield f"a calendar wants a tree of {tree.LEVELS[0]} to {tree.LEVELS[-1]} levels, not {levels}; refused by 1"
        return
    outside = [f"a calendar has {counts[0]} to {counts[-1]} {name}, not {count}; refused by 12"
               for name, count, counts in (("wards", wards, WARDS), ("weeks", weeks, WEEKS)) if count not in counts]
    yield from outside
    if not outside and (units := wards * weeks * WEEK) > tree.units(levels):
        yield (f"wards * weeks * {WEEK} is {wards} * {weeks} * {WEEK} = {units}, and a tree of {levels} levels has {tree.units(levels)} units; "
               "refused by 12")


def calendar_for(levels, wards, weeks, where=""):
    """A calendar of these figures without hours; `where` is said before each reason why there is none."""
    if refused := [f"{where}{why}" for why in refused_figures(levels, wards, weeks)]:
        raise Wrong(*refused)
    return always_open(levels, wards, weeks)


def time_of(place, word):
    """The time of day that a word says, in quarters since midnight: 24:00, a day's end, is 96."""
    found = TIME_FORM.fullmatch(word)
    if not found:
        raise Wrong(f"line {place}: a time is written as in `06:15`; got {shown(word)}")
    hour, minute = map(int, found.groups())
    if minute not in range(0, 60, MINUTES):
        raise Wrong(f"line {place}: {word} is no quarter hour: the minutes are 00, 15, 30 or 45")
    time = IN_AN_HOUR * hour + minute // MINUTES
    if time > QUARTERS:
        raise Wrong(f"line {place}: there is no {word}: the times of a day are 00:00 to 24:00; refused by 12")
    return time


def time_in_words(time):
    hour, quarter = divmod(time, IN_AN_HOUR)
    return f"{hour:02}:{MINUTES * quarter:02}"


def one_of(place, name, word, count):
    """The number that a word says of something that is counted from 0, if there is such a one."""
    number = number_of(place, name, word, U64)
    if number >= count:
        raise Wrong(f"line {place}: {no_such(name, count, number)}; refused by 12")
    return number


def moment_of(place, calendar, *words):
    """The moment that a ward, a week, a day and a time say: the quarter that begins then, and 96 at a day's end."""
    counts = {"ward": calendar.wards, "week": calendar.weeks, "day": DAYS}
    counted = ((one_of, place, name, word, count) for (name, count), word in zip(counts.items(), words))
    return Quarter(*all_parsed((*counted, (time_of, place, words[-1]))))


def closed_in_words(calendar, first, last):
    """When the ward of a window is closed, on the first day on which that is in its way."""
    units = range(unit_of(calendar.weeks, first), unit_of(calendar.weeks, last) + 1)
    at = next(at for at in (quarter_of(calendar.weeks, unit) for unit in units) if not is_open(calendar.hours, at))
    pair = 2 * (DAYS * at.ward + at.day)
    opening, closing = calendar.hours[pair:pair + 2]
    said = f"ward {at.ward} is closed on week {at.week} day {at.day}"
    if opening == closing:
        return said
    start, end = (0, opening) if at.quarter < opening else (closing, QUARTERS)
    return f"{said} from {time_in_words(start)} until {time_in_words(end)}"


def why_refused(number, calendar, first, last):
    """Why a window is refused whose ward, weeks and days are known, and whose times are a day's: only its first quarter may be none."""
    if number == 12:
        return "a window does not begin at 24:00, but at 00:00 of the next day"
    return "the window ends at or before its beginning" if number == 13 else closed_in_words(calendar, first, last)


def says_ward_hours(words):
    """Whether these words mean a window as ward hours: its edges would be digits alone."""
    return any(word in WINDOW_WORDS or ":" in word for word in words)


def by_wards(place, calendar, words):
    """The window that words say as ward hours, if 2.6 refuses it by no number."""
    found, got = WINDOW_FORM.fullmatch(" ".join(words)), shown(" ".join(words))
    if not found:
        raise Wrong(f"line {place}: a window as ward hours is written as in `{WINDOW}`; got {got}")
    if calendar is None:
        raise Wrong(f"line {place}: ward hours want a calendar at the beginning, right behind the settings, as in `{CALENDAR}`; got {got}")
    ward, week, day, start, last_week, last_day, end = found.groups()
    first, after = all_parsed((moment_of, place, calendar, ward, *said)
                              for said in ((week, day, start), (last_week or week, last_day or day, end)))
    # The last quarter is the one that ends at the end. Before a ward's first quarter there is another ward's or none, which 13 refuses too.
    last = quarter_of(calendar.weeks, unit_of(calendar.weeks, after) - 1)
    number, left, right = edges_of(calendar.levels, calendar.wards, calendar.weeks, first, last, calendar.hours)
    if number:
        raise Wrong(f"line {place}: {why_refused(number, calendar, first, last)}; refused by {number}")
    return Window(left, right, in_ward_hours(calendar, left, right))


def window_of(place, calendar, words):
    """The window that words say: two edges, or ward hours."""
    return by_wards(place, calendar, words) if says_ward_hours(words) else Window(*numbers_of(place, EDGES, words))


def in_ward_hours(calendar, left, right):
    """A window in words as ward hours, whatever the hours are; nothing if it does not lie in one ward. An end at midnight is 24:00 of the day
    before."""
    first, last = (back(calendar.levels, calendar.wards, calendar.weeks, unit) for unit in (left, right - 1))
    if left >= right or first.number or last.number or first.ward != last.ward:
        return ""
    day = "" if (first.week, first.day) == (last.week, last.day) else f"week {last.week} day {last.day} "
    start, end = time_in_words(first.quarter), time_in_words(last.quarter + 1)
    return f"ward {first.ward} week {first.week} day {first.day} {start} .. {day}{end}"

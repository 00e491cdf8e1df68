"""A schedule as a text: its lines read, with every wrong one named, and written."""

import re
from typing import NamedTuple

from model.history import Call
from model.record import Settings
from model.schedule import CALL, HEADER, LONGEST, Schedule
from scheduling.calendar_lines import read_calendar, refuse_behind
from scheduling.names import listed
from scheduling.numbers import U16, U32, U64, numbers_of
from scheduling.problems import Wrong, all_parsed, parsed, shown
from scheduling.wards import EDGES, says_ward_hours, window_of

# Room for 2,729 calls with a comment on each. A text is read no further.
LONGEST_TEXT = 2 ** 20
MOST_CALLS = (LONGEST - HEADER.size) // CALL.size

SETTINGS = {"tree": U16, "m": U16, "wait": U32, "patience": U32, "clients": U16}
SETTINGS_WANTED = "wants the settings, as in `tree 2 m 1 wait 5 patience 20 clients 2`"


class Kind(NamedTuple):
    """A kind of call: what it wants in words, an example, and the names and greatest values of its numbers."""

    wants: str
    example: str
    numbers: dict


KINDS = {
    "request": Kind("a client, a left edge and a right edge", "request 0 10 20", {"client": U16, **EDGES}),
    "step": Kind("a client and a clock", "step 0 12", {"client": U16, "clock": U64}),
    "release": Kind("a client", "release 0", {"client": U16}),
    "cancel": Kind("a client", "cancel 0", {"client": U16}),
}


class Source(NamedTuple):
    """A schedule with what each call was written as. A text has the number of each call's line, and that of its settings; a file has none."""

    schedule: Schedule
    written: tuple
    lines: tuple = ()
    settings_line: int = 0


def decoded(data):
    """The text that these bytes are. A byte 0 stands in every packed file and in no text."""
    if len(data) > LONGEST_TEXT:
        raise Wrong(f"byte {LONGEST_TEXT}: a text has at most {LONGEST_TEXT} bytes; this one goes on")
    if 0 in data:
        raise Wrong(f"byte {data.index(0)}: a text has no byte 0; is this a packed file? `unpack` turns it into a text")
    return data.decode("utf-8-sig", "replace")


def written_lines(text):
    """The lines that say something: the number of each, from 1, and its words."""
    for place, line in enumerate(text.split("\n"), 1):
        if words := line.split("#")[0].split():
            yield place, words


def settings_amiss(words):
    """What is said of a first line that has not each setting once and in order. What is left out, has no number or stands twice is named,
    if the line has settings at all."""
    names = [word for word in words if word in SETTINGS]
    bare = {word for word, behind in zip(words, [*words[1:], ""]) if not re.fullmatch("[0-9]+", behind)}
    amiss = {
        "lacks {}": [name for name in SETTINGS if name not in names],
        "has no number behind {}": [name for name in SETTINGS if name in bare],
        "has {} twice": [name for name in SETTINGS if names.count(name) > 1],
    }
    said = [says.format(listed(found)) for says, found in amiss.items() if found and names]
    return f"{', and '.join(said)}: it {SETTINGS_WANTED}" if said else SETTINGS_WANTED


def settings_of(place, words):
    """The numbers of the first line."""
    names, numbers = words[::2], words[1::2]
    if names != list(SETTINGS) or len(numbers) != len(SETTINGS):
        raise Wrong(f"line {place}: the first line {settings_amiss(words)}; got {shown(' '.join(words))}")
    return numbers_of(place, SETTINGS, numbers)


def numbers_and_window(place, name, said, calendar):
    """The numbers of a call, and the words of its window if that is written as ward hours."""
    if name != "request":
        return numbers_of(place, KINDS[name].numbers, said), ""
    [client], window = all_parsed(((numbers_of, place, {"client": U16}, said[:1]), (window_of, place, calendar, said[1:])))
    return (client, window.left, window.right), window.words


def call_of(place, words, calendar):
    """The call that a line says, and the line in one form."""
    refuse_behind(place, words)
    name, *said = words
    if name not in KINDS:
        raise Wrong(f"line {place}: a call is one of {', '.join(KINDS)}; got {shown(' '.join(words))}")
    kind = KINDS[name]
    if len(said) != len(kind.numbers) and not (name == "request" and says_ward_hours(said[1:])):
        raise Wrong(f"line {place}: {name} wants {kind.wants}, as in `{kind.example}`; got {shown(' '.join(words))}")
    numbers, window = numbers_and_window(place, name, said, calendar)
    call = Call(name, *numbers)
    return call, line_of(call, window)


def line_of(call, window=""):
    """The line that says a call; with words for its window in place of the edges, if there are any."""
    if window:
        return f"{call.kind} {call.client} {window}"
    return " ".join(map(str, [call.kind, *call[1:1 + len(KINDS[call.kind].numbers)]]))


def settings_line(schedule):
    return " ".join(f"{name} {number}" for name, number in zip(SETTINGS, (*schedule.settings, schedule.clients)))


def read_text(data):
    """The schedule that a text says. All wrong lines are named; the text is followed no further than the most calls go."""
    lines, wrong = list(written_lines(decoded(data))), []
    if not lines:
        raise Wrong(f"line 1: the first line {SETTINGS_WANTED}; got nothing")
    settings = parsed(lines[0], settings_of, wrong)
    calendar, asked = read_calendar(lines[1:], settings and settings[0], wrong)
    said = [parsed((*line, calendar), call_of, wrong) for line in asked[:MOST_CALLS]]
    if len(asked) > MOST_CALLS:
        place = asked[MOST_CALLS][0]
        wrong.append(f"line {place}: a schedule has at most {MOST_CALLS} calls, since its file has at most {LONGEST} bytes")
    if wrong:
        raise Wrong(*wrong)
    *of_the_lock, clients = settings
    schedule = Schedule(Settings(*of_the_lock), clients, tuple(call for call, _ in said))
    return Source(schedule, tuple(written for _, written in said), tuple(place for place, _ in asked), lines[0][0])

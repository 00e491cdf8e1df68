"""The expected answers in tests/vectors, which were made apart from this repository: the model and the compiled code are held to every one
of them."""

from itertools import islice
from operator import length_hint
from typing import NamedTuple

import compiled_calendar
import compiled_table
from compare import NAMES, case, unlike
from compiled_calendar import CALENDAR
from compiled_table import Table, clients_unlike
from library import ROOT
from model import calendar
from model.cover import cover
from model.history import KINDS, Call
from model.record import Client, Record, Settings
from model.step_count import step_count
from programs import PROGRAMS
from table_cases import model_answer

VECTORS = ROOT / "tests" / "vectors"

# How many there are: one that is missing is a failure.
STATES = 600
SCHEDULES = 40
STEPS_AND_COVERS = 1500
THERE = 2500
BACK = 1500

# In a state stand six settings, of which the last are none yet.
SETTINGS = 6

NAMES["state"] = ("place", "kind", "by"), ("number", "clocks unlike", "records unlike", "words unlike")
NAMES["expected step count"] = ("by", "levels", "distance", "left", "right"), ("number", "steps")
NAMES["expected cover"] = ("by", "levels", "left", "right"), ("number", "first", "second", "over-cover")
NAMES["expected window of a ward"] = ("by", "line", *CALENDAR), ("number", "left", "right")
NAMES["expected quarter"] = ("by", "line", *CALENDAR, "unit"), ("number", *calendar.Quarter._fields)
NAMES["expected answers"] = ("place",), ("files, states or lines found", "names missing or too many, or numbers left over")


class State(NamedTuple):
    """A lent table, one call on it, and what it must leave."""

    settings: Settings
    words: list
    clients: list
    call: Call
    number: int
    words_after: list
    clients_after: list


def taken(numbers, count):
    """The next numbers, so many of them."""
    found = list(islice(numbers, count))
    if len(found) != count:
        raise ValueError("the states end within one")
    return found


def record_in(numbers):
    return Record(*taken(numbers, len(Record._fields)))


def clients_in(numbers):
    """The count of clients, and of each its clock and its record."""
    [count] = taken(numbers, 1)
    return [Client(*taken(numbers, 1), record_in(numbers)) for _ in range(count)]


def state_in(numbers):
    """The state that the next numbers say. After the call all clocks stand before the words, and the records behind them."""
    settings = Settings(*taken(numbers, SETTINGS)[:len(Settings._fields)])
    words = taken(numbers, *taken(numbers, 1))
    clients = clients_in(numbers)
    kind, *asked = taken(numbers, 4)
    number, *clocks = taken(numbers, 1 + len(clients))
    words_after = taken(numbers, len(words))
    clients_after = [Client(clock, record_in(numbers)) for clock in clocks]
    return State(settings, words, clients, Call(KINDS[kind], *asked), number, words_after, clients_after)


def states_and_rest():
    """The states of the file as far as they are whole, and how many numbers stand behind them."""
    numbers, found = list(map(int, (VECTORS / "states.txt").read_text().split())), []
    left, rest = iter(numbers), len(numbers)
    while rest:
        try:
            found.append(state_in(left))
        except (ValueError, IndexError):
            break
        rest = length_hint(left)
    return found, rest


def all_states():
    return states_and_rest()[0]


def by_model(state):
    words, clients = list(state.words), list(state.clients)
    number = model_answer(state.settings, words, clients, state.call)
    return number, *clients_unlike(clients, state.clients_after), unlike(words, state.words_after)


def by_compiled(state):
    table = Table(state.settings, state.words, state.clients)
    number = table.answer(state.call, KINDS.index(state.call.kind))
    return number, *table.unlike(state.words_after, state.clients_after)


def states():
    """Each call gives the number and leaves the clocks, the records and the words that are expected, by the model and compiled."""
    found, rest = states_and_rest()
    yield case("expected answers", [0], (STATES, 0)), (len(found), rest)
    for place, state in enumerate(found):
        for by, answer in enumerate((by_model(state), by_compiled(state))):
            yield case("state", [place, KINDS.index(state.call.kind), by], (state.number, 0, 0, 0)), answer


def answer_in(text):
    """The number of a call and what it gives: `refused n`, or the numbers of an accepted one."""
    words = text.replace("over", "").split()
    return (int(words[1]),) if words[0] == "refused" else (0, *map(int, words))


def steps_and_covers():
    """Each window has the steps, the pieces and the over-cover that are expected, or is refused by the number, by the model and compiled."""
    lines = (VECTORS / "steps-and-covers.txt").read_text().splitlines()
    yield case("expected answers", [3], (STEPS_AND_COVERS, 0)), (len(lines), 0)
    for line in lines:
        asked, steps, covered = line.split("|")
        levels, distance, *window = map(int, asked.split())
        for by, (steps_of, cover_of) in enumerate(((step_count, cover), (compiled_table.step_count, compiled_table.cover))):
            yield case("expected step count", [by, levels, distance, *window], answer_in(steps)), tuple(steps_of(levels, distance, *window))
            yield case("expected cover", [by, levels, *window], answer_in(covered)), tuple(cover_of(levels, *window))


def asked_and_answers(name):
    """Of each line of a file its number, what it asks and the answer."""
    for number, line in enumerate((VECTORS / name).read_text().splitlines(), 1):
        asked, answer = line.split("|")
        yield number, tuple(map(int, asked.split())), answer_in(answer)


def there():
    """Each window of a ward has the edges that are expected, or is refused by the number, by the model and compiled."""
    lines = list(asked_and_answers("there.txt"))
    yield case("expected answers", [4], (THERE, 0)), (len(lines), 0)
    for line, asked, answer in lines:
        figures, first, last, hours = asked[:3], calendar.Quarter(*asked[3:7]), calendar.Quarter(*asked[7:11]), asked[11:]
        for by, window in enumerate((calendar.there, compiled_calendar.window)):
            yield case("expected window of a ward", [by, line, *figures], answer), tuple(window(*figures, first, last, hours))


def back():
    """Each unit is the quarter that is expected, or is refused by the number, by the model and compiled."""
    lines = list(asked_and_answers("back.txt"))
    yield case("expected answers", [5], (BACK, 0)), (len(lines), 0)
    for line, asked, answer in lines:
        for by, quarter in enumerate((calendar.back, compiled_calendar.quarter)):
            yield case("expected quarter", [by, line, *asked], tuple(calendar.Place(*answer))), tuple(quarter(*asked))


def schedules(program):
    """Of each schedule the model and the program print what is expected."""
    folder = VECTORS / "schedules"
    names = {f"{place:02}" for place in range(SCHEDULES)}
    for place, ending in enumerate((".bin", program.ending)):
        there = {path.stem for path in folder.glob(f"*{ending}")}
        yield case("expected answers", [1 + place], (SCHEDULES, 0)), (len(there), len(there ^ names))
    for path in sorted(folder.glob("*.bin")):
        yield from program.held_to_file(path)


SUITES = {
    "expected answers, lent tables of any content": states,
    "expected answers, step counts and covers": steps_and_covers,
    "expected answers, ward hours there": there,
    "expected answers, ward hours back": back,
    **{f"expected answers, {program.name}": lambda program=program: schedules(program) for program in PROGRAMS},
}

"""Request 2.3, "Each run brings its own clock", in the model: when a claim is late, and which clock a call sets; and that the states to
which the compiled code is held find each of its sentences out when it is broken. The library takes no part."""

from itertools import product

from broken_clocks import BY_VALUE, LATE, OPENINGS, TABLES
from broken_rules import by_broken
from clock_states import lent_calls, lent_openings, timed_states
from clocks import first_late
from compare import NAMES, case, unlike
from histories import MOST_PATIENCE
from model import table
from model.history import KINDS
from model.record import Record, Settings
from model.step import late
from record_cases import expected
from table_cases import model_answer

NAMES["late"] = ("wait", "ticks since t1", "t1"), ("late",)
NAMES["first late"] = ("wait",), ("ticks since t1",)
NAMES["clocks after a call"] = ("place", "kind"), ("clocks unlike", "other clients unlike")
NAMES["clock set"] = ("kind", "number"), ("occurs",)
NAMES["broken clock"] = ("place in the list of broken rules",), ("found out",)

# T and the fewest ticks with which a claim is late, worked out apart: 9,999 times T, divided by 10,001 and rounded up.
FIRST_LATE = {1: 1, 2: 2, 4999: 4999, 5000: 5000, 5001: 5000, 10001: 9999, 123456: 123432, 2 ** 32 - 1: 4294108388}
FAR = 2 ** 32, 1844489958375118, 2 ** 63, 2 ** 64 - 1


def late_claims():
    """Each claim one tick before it is late and when it is; and far on, where a product of 64 bits would wrap."""
    for wait, first in FIRST_LATE.items():
        for ticks in (0, first - 1, first, first + 1, *FAR):
            for t1 in {0, 5, 2 ** 64 - 1 - ticks}:
                answer = late(Settings(2, 1, wait, MOST_PATIENCE), Record(phase=6, t1=t1), t1 + ticks)
                yield case("late", [wait, ticks, t1], int(ticks >= first)), int(answer)
        yield case("first late", [wait], first), first_late(wait)


def without(clients, client):
    return [each for place, each in enumerate(clients) if place != client]


def set_clocks():
    """An accepted step sets its client's clock to its own; no other call sets any, and no call another client's clock or record."""
    found = set()
    for place, (settings, words, clients, call) in enumerate(lent_calls()):
        after, clocks = list(clients), [client.clock for client in clients]
        number = model_answer(settings, list(words), after, call)
        if call.kind == "step" and number == 0:
            clocks[call.client] = call.a
        found.add((call.kind, number))
        answer = unlike([client.clock for client in after], clocks), unlike(without(after, call.client), without(clients, call.client))
        yield case("clocks after a call", [place, KINDS.index(call.kind)], (0, 0)), answer
    for kind, number in [*product(["step"], (0, 5, 6, 9)), *product(("request", "release", "cancel"), (0, 6, 8))]:
        yield case("clock set", [KINDS.index(kind), number], 1), int((kind, number) in found)


def left_by(settings, words, clients, call):
    """What a call on a lent table gives and leaves: its number, the words and the clients."""
    words, clients = list(words), list(clients)
    return model_answer(settings, words, clients, call), words, clients


def opened_by(settings, words, clients):
    words, clients = list(words), list(clients)
    return table.opening(settings, words, clients), words, clients


# Each set of broken rules, with what is asked of the model, and where.
ASKED = (LATE, expected, timed_states), (BY_VALUE, left_by, lent_calls), (TABLES, left_by, lent_calls), (OPENINGS, opened_by, lent_openings)


def broken_rules():
    """Of each broken rule some of the states shows it: compiled code with that fault would not be the model's."""
    place = 0
    for rules, function, states in ASKED:
        own = [(asked, function(*asked)) for asked in states()]
        for rule in rules.values():
            with rule():
                found_out = any(by_broken(function, *asked) != answer for asked, answer in own)
            yield case("broken clock", [place], 1), int(found_out)
            place += 1


SUITES = {
    "clocks, claims that are just late and just not": late_claims,
    "clocks, the one that a call sets": set_clocks,
    "clocks, the states find each broken rule out": broken_rules,
}

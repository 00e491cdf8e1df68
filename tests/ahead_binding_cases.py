"""Cases for operations posted together, in Rust and in Python: each call gives what the model gives."""

from itertools import chain, islice, product

from ahead_states import Ahead, CompletedAll, asked_at, asked_outside, at_every_place
from binding_cases import refused
from compare import NAMES, case, padded, unlike
from compiled_table import nolthewyr
from model import tree
from model.ahead import together
from model.calls import requested
from model.operations import Operation
from model.record import Client, Record, Settings
from operation_binding_cases import CLIENT, in_all_languages, python_client

NAMES["operations ahead by a binding"] = (*CLIENT, "clock", "room"), ("number", "count", "fields in the list unlike")
NAMES["completed all by a binding"] = (*CLIENT, "clock", *("found",) * 100), ("number", "counted", "clock", *Record._fields)
NAMES["list of a check of the root"] = ("levels", "distance"), ("operations", "with more room")
NAMES["longest list"] = (), ("operations",)

# Of all questions one in so many is asked of the bindings.
ONE_IN = 11
# What the program in Rust has in each operation of its list before the call.
ONES = (1,) * len(Operation._fields)


def asked_of_bindings(kind):
    every = chain(*(chain(asked_at(h, part=16), at_every_place(h, part=256)) for h in (2, 3, 7, 12)), asked_outside())
    return list(islice((asked for asked in every if isinstance(asked, kind)), None, None, ONE_IN))


def filled(asked):
    """What the model answers, and behind it what was in the list."""
    number, count, *fields = asked.answer()
    return number, count, *fields, *ONES * (asked.room - count)


def python_list(numbers):
    """A list in Python has the operations alone."""
    *lent, room = python_client(numbers)
    number = refused(nolthewyr.operations_ahead, *lent, room)
    found = [] if number else nolthewyr.operations_ahead(*lent, room)
    return number, len(found), *(field for each in found for field in each), *ONES * (room - len(found))


def python_completed(numbers):
    """The number, how many count and the client after those, as it was if it is refused."""
    client, settings, clock, *found = python_client(numbers)
    number = refused(nolthewyr.completed_all, client, settings, clock, found)
    counted, after = (0, client) if number else nolthewyr.completed_all(client, settings, clock, found)
    return number, counted, after.clock, *after.record


def lists():
    """Each field of the list, also behind what is put into it."""
    asked = asked_of_bindings(Ahead)
    questions, by_model = [each.arguments() for each in asked], [filled(each) for each in asked]
    for own, answer in in_all_languages("operations ahead by a binding", "operations_ahead", questions, by_model, python_list):
        number, count, *fields = padded(answer)
        yield case(own.call, own.arguments, (*own.expected[:2], 0)), (number, count, unlike(own.expected[2:], fields))


def completions():
    asked = asked_of_bindings(CompletedAll)
    return in_all_languages(
        "completed all by a binding", "completed_all", [each.arguments() for each in asked], [each.answer() for each in asked], python_completed)


def checks_of_the_root():
    """Clients that have claimed a whole tree, and check it: no list is longer than theirs."""
    for levels, distance in product(tree.LEVELS, tree.DISTANCES):
        settings = Settings(levels, distance, 1, 1)
        yield settings, Client(0, requested(settings, 0, tree.units(levels))._replace(phase=8, grip=3))


def longest():
    """The room that Python lends, if none is said or a longer one, holds the longest list."""
    found = []
    for settings, client in checks_of_the_root():
        lent = python_client((*settings, client.clock, *client.record, 0))
        found.append(len(nolthewyr.operations_ahead(*lent)))
        asked = settings.levels, settings.distance
        yield case("list of a check of the root", asked, (len(together(settings, client, 0)),) * 2), (
            found[-1], len(nolthewyr.operations_ahead(*lent, 2 ** 64 - 1)))
    yield case("longest list", [], max(found)), nolthewyr.MOST_AHEAD


SUITES = {
    "bindings, lists of operations": lists,
    "bindings, completions of lists": completions,
    "bindings, Python has room for the longest list of operations": longest,
}

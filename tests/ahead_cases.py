"""Cases for the compiled calls for operations that are posted together: held to the model, list by list and word by word; and completing a list held
to the compiled calls for one operation."""

from collections import Counter
from itertools import chain

from ahead_states import Ahead, CompletedAll, asked_at, asked_at_bounds, asked_outside, at_every_place
from compare import NAMES, case
from compiled_ahead import BEFORE, Guarding, completed_all, one_by_one, operations_ahead, packed_list
from compiled_operations import OPERATION
from compiled_table import library
from guarded_memory import asked_apart
from model import tree
from model.ahead import operations_ahead as by_model
from model.record import Record, Settings

CLIENT = *Settings._fields, "last clock", *Record._fields, "clock"
AFTER = "number", "counted", "clock", *Record._fields
NAMES["operations ahead"] = (*CLIENT, "room"), ("number", "count", "operations unlike", "operations behind them changed")
NAMES["completed all"] = (*CLIENT, *("found",) * 100), AFTER
NAMES["completed one by one"] = (*CLIENT, *("found",) * 100), AFTER
NAMES["answers beside guarded memory"] = (), ("answers",)
NAMES["answer beside guarded memory"] = (*CLIENT, "room, or words found"), ("number", "count")
NAMES["lists occur"] = ("levels", "phase", "number", "more than one"), ("occurs",)
NAMES["counts occur"] = ("levels", "phase", "number", "counted none, some or all"), ("occurs",)

# Of the states in histories, readable, damaged and with any fields, one in so many is asked one operation after another too, or
# of memory beside guarded pages.
PART_SINGLY, PART_AT_GUARDS = 32, 40
NONE_COUNTED, SOME_COUNTED, ALL_COUNTED = range(3)
# What must occur at every H: phase, number and whether the list has more than one operation.
LISTS = [
    *((phase, 0, 0) for phase in range(11) if phase not in (1, 4)), *((phase, 0, 1) for phase in (1, 4, 10)),
    *((phase, number, 0) for phase in range(11) for number in (5, 6)),
]
LISTS_ABOVE_H_2 = [(phase, 0, 1) for phase in (2, 3, 5, 6, 8)]
# Phase, number, and how many of the operations for which words were found count.
COUNTS = [
    *((phase, 0, NONE_COUNTED) for phase in range(11)), *((phase, 0, ALL_COUNTED) for phase in (1, 2, 3, 4, 5, 6, 8, 10)),
    (10, 0, SOME_COUNTED), (10, 9, NONE_COUNTED), *((phase, number, NONE_COUNTED) for phase in range(11) for number in (5, 6)),
]
COUNTS_ABOVE_H_2 = [(phase, 0, SOME_COUNTED) for phase in (1, 2, 3, 4, 8)]


def operations_unlike(one, other):
    """In how many operations two packed lists of one length differ."""
    size = OPERATION.size
    return 0 if one == other else sum(one[at:at + size] != other[at:at + size] for at in range(0, max(len(one), len(other)), size))


def list_case(asked):
    """The list in which a call puts its operations, and what was in it before behind them."""
    number, count, *fields = asked.answer()
    found_number, found_count, lent = operations_ahead(asked)
    end = count * OPERATION.size
    in_list = operations_unlike(packed_list(tuple(fields)), lent[:end])
    return case("operations ahead", asked.arguments(), (number, count, 0, 0)), (
        found_number, found_count, in_list, operations_unlike(BEFORE[end:len(lent)], lent[end:]))


def completed_case(asked):
    return case("completed all", asked.arguments(), asked.answer()), completed_all(asked)


BY_KIND = {Ahead: list_case, CompletedAll: completed_case}


def counted_of(asked, counted):
    """Whether none, some or all count of the operations for which there is a word."""
    posted = by_model(*asked[:3], len(asked.found)).count
    return NONE_COUNTED if counted == 0 else ALL_COUNTED if counted == posted else SOME_COUNTED


def occurring(name, h, wanted, seen):
    return ((case(name, [h, *what], 1), int(seen[what] > 0)) for what in wanted)


def compared(questions, lists=None, counts=None):
    """What is asked, with what the model and the compiled calls answer; in `lists` and `counts` what occurs."""
    library()
    for asked in questions:
        own, answer = BY_KIND[type(asked)](asked)
        number, count = own.expected[:2]
        if lists is not None and isinstance(asked, Ahead):
            lists[asked.client.record.phase, number, int(count > 1)] += 1
        if counts is not None and isinstance(asked, CompletedAll):
            counts[asked.client.record.phase, number, counted_of(asked, count)] += 1
        yield own, answer


def at_levels(h):
    """The list of every phase with any room, and words by which all, some and none of it count; and every refusal."""
    lists, counts = Counter(), Counter()
    yield from compared(chain(asked_at(h), at_every_place(h)), lists, counts)
    yield from occurring("lists occur", h, LISTS + (LISTS_ABOVE_H_2 if h > 2 else []), lists)
    yield from occurring("counts occur", h, COUNTS + (COUNTS_ABOVE_H_2 if h > 2 else []), counts)


def singly():
    """Completing a list is completing as many operations as count, one after another."""
    library()
    for asked in chain(*(asked_at(h, PART_SINGLY) for h in tree.LEVELS)):
        if isinstance(asked, CompletedAll):
            yield case("completed one by one", asked.arguments(), one_by_one(asked)), completed_all(asked)


def at_guards():
    """With lent memory that ends where pages do that nobody may touch: as many answers as questions, each the model's."""
    library()
    questions = [asked for h in (2, 3, 12) for asked in asked_at(h, PART_AT_GUARDS)]
    found = asked_apart(Guarding().answer, questions)
    yield case("answers beside guarded memory", [], len(questions)), len(found)
    for asked, answer in zip(questions, found):
        yield case("answer beside guarded memory", asked.arguments(), asked.answer()[:2]), answer[:2]


SUITES = {
    **{f"compiled lists of operations at H {h}": lambda h=h: at_levels(h) for h in tree.LEVELS},
    "compiled lists of operations, at bounds": lambda: compared(asked_at_bounds()),
    "compiled lists of operations, settings outside their ranges": lambda: compared(asked_outside()),
    "compiled lists of operations, nothing behind what is lent is touched": at_guards,
    "compiled lists of operations, completing one is completing its operations one by one": singly,
}

"""Operations posted together, in the model: the lists by phase are those that trying answers finds, and no write stands in them that an answer could
forbid. And what is asked of the compiled calls finds each broken rule of theirs out. The library takes no part."""

from collections import Counter
from itertools import chain, islice
from random import Random

from ahead_states import PART, asked_at, asked_at_bounds, asked_outside, at_every_place
from broken_ahead import RULES, broken
from broken_rules import by_broken
from compare import NAMES, case
from model import tree
from model.ahead import together
from model.explored import explored
from model.operations import READ, step_refused
from model.record import Record, Settings
from operation_states import states_at, states_at_bounds
from record_cases import step_clock

NAMES["list by trying answers"] = (
    (*Settings._fields, "last clock", *Record._fields, "clock"), ("operations", "operations unlike", "writes not certain", "certain ones missing"))
NAMES["list of trying answers in"] = ("phase", "more than one"), ("occurs",)
NAMES["broken list of operations"] = ("place in the list of broken rules",), ("found out",)

# Of the states that the compiled calls are asked of, one in so many; of those at bounds likewise.
PART_EXPLORED, PART_EXPLORED_AT_BOUNDS = 20, 30
# The phases in which all that is posted is certain: an inner claim with its notices or a leaf's claim, notices, and a return.
ALL_CERTAIN = 5, 6, 10
MUST_OCCUR = [(phase, 0) for phase in range(11) if phase not in (1, 4)] + [(phase, 1) for phase in (1, 2, 3, 4, 5, 6, 8, 10)]


def explored_states():
    rng = Random("lists by trying answers")
    drawn = ((state, step_clock(rng, state)) for h in tree.LEVELS for state in states_at(h, PART_EXPLORED))
    at_bounds = ((state, call.a) for state, call in states_at_bounds() if call.kind == "step")
    for state, clock in chain(drawn, islice(at_bounds, None, None, PART_EXPLORED_AT_BOUNDS)):
        if step_refused(state.settings, state.client, clock) == 0:
            yield state.settings, state.client, clock


def by_trying():
    """Each list by phase equals the explored one; its writes are certain, and in some phases all of it is."""
    seen = Counter()
    for settings, client, clock in explored_states():
        posted, found = together(settings, client, clock), explored(settings, client, clock)
        unlike = sum(one != other for one, other in zip(posted, found.operations)) + abs(len(posted) - len(found.operations))
        writes = sum(each.kind != READ for each in posted[found.certain:])
        missing = len(posted) - found.certain if client.record.phase in ALL_CERTAIN else 0
        seen[client.record.phase, int(len(posted) > 1)] += 1
        asked = *settings, client.clock, *client.record, clock
        yield case("list by trying answers", asked, (len(found.operations), 0, 0, 0)), (len(posted), unlike, writes, missing)
    for what in MUST_OCCUR:
        yield case("list of trying answers in", what, 1), int(seen[what] > 0)


def broken_rules():
    """Of each broken rule some question shows it: compiled code with that fault would not answer as the model."""
    questions = [asked for h in (2, 3, 6) for asked in chain(asked_at(h, 4 * PART), at_every_place(h))]
    questions += [*islice(asked_at_bounds(), None, None, 4), *islice(asked_outside(), None, None, 4)]
    answered = [(asked, asked.answer()) for asked in questions]
    for place, rule in enumerate(RULES):
        with broken(rule):
            found_out = any(by_broken(asked.answer) != answer for asked, answer in answered)
        if not found_out:
            print(f"    not found out: {rule}")
        yield case("broken list of operations", [place], 1), int(found_out)


SUITES = {
    "lists of operations, those by phase are found by trying answers": by_trying,
    "lists of operations, what is asked finds each broken rule out": broken_rules,
}

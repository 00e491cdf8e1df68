"""Request 2.2, "Patience between two pieces", in the model: what a step does to outcome and third time, said again from the request's
sentences; and the states that the compiled code is held to find each of its rules out when it is broken. The library takes no part."""

from collections import Counter
from itertools import chain, product

from broken_patience import RULES, broken
from broken_rules import by_broken
from compare import NAMES, case
from model.fresh import Sparse
from model.history import Call
from model.readable import unreadable
from patience_states import KINDS_OF_TIME, OUTCOMES, PATIENCE, met, states_and_calls, with_every_p
from record_cases import answer, expected

STEPPED = ("phase", "second piece", "clock less third time")
NAMES["step out of patience"] = STEPPED, ("number", "clock not the step's", "record unlike", "words changed")
NAMES["step with patience"] = STEPPED, ("outcome 4 set", "third time unlike")
NAMES["out of patience in"] = ("phase",), ("occurs",)
NAMES["state of patience"] = ("phase", "second piece", "outcome", "kind of third time"), ("occurs",)
NAMES["broken patience"] = ("place in the list of broken rules",), ("found out",)


def steps(run_out):
    """The steps on readable records in phases 1 to 8 of a second piece with clock less the third time at least P; or all others."""
    for state, call in states_and_calls():
        record = state.record
        if call.kind == "step" and not unreadable(state.settings, record, state.last):
            late = record.phase in range(1, 9) and record.current == 1 and call.a - record.taken >= PATIENCE
            if late == run_out:
                yield state, call.a


def arguments(record, clock):
    return record.phase, record.current, clock - record.taken


def out_of_patience():
    """It touches no word, sets outcome 4 and goes to returning, with the place and the piece being given back 0, instead of the phase's own
    work; all else is as it was, and it is accepted. This occurs in each of the phases."""
    counts = Counter()
    for state, clock in steps(True):
        words = Sparse(state.count, state.words)
        number, (last, after) = answer(state, words, Call("step", 0, clock))
        unlike = after != state.record._replace(phase=10, outcome=4, place=0, giving=0)
        counts[state.record.phase] += 1
        yield case("step out of patience", arguments(state.record, clock), 0), (number, last != clock, unlike, words.words != state.words)
    for phase in range(1, 9):
        yield case("out of patience in", [phase], 1), int(counts[phase] > 0)


def third_time(record, after, clock):
    """The clock at which its first piece was taken, until the record is idle."""
    if after.phase == 0:
        return 0
    took_the_first = record.current == 0 and record.phase in range(1, 9) and (after.phase == 9 or after.current == 1)
    return clock if took_the_first else record.taken


def with_patience():
    """Any other step sets no outcome 4. The third time is the clock of the step that takes the first piece, also of a single one."""
    for state, clock in steps(False):
        number, (_, after) = answer(state, Sparse(state.count, state.words), Call("step", 0, clock))
        if number == 0:
            set_4 = after.outcome == 4 and state.record.outcome != 4
            unlike = after.taken != third_time(state.record, after, clock)
            yield case("step with patience", arguments(state.record, clock), 0), (set_4, unlike)


def all_states():
    """In every phase, at a first and at a second piece, every outcome with every kind of third time. An idle record has no second piece."""
    found = met()
    for what in product(range(11), (False, True), OUTCOMES, KINDS_OF_TIME):
        phase, second, outcome, kind = what
        expected_to_occur = phase != 0 or not second
        yield case("state of patience", [phase, second, outcome, KINDS_OF_TIME.index(kind)], expected_to_occur), int(what in found)


def broken_rules():
    """Of each broken rule some state shows it: compiled code with that fault would not be the model's."""
    asked = [(*asked, expected(*asked)) for asked in chain(with_every_p(), states_and_calls())]
    for place, rule in enumerate(RULES):
        with broken(rule):
            found_out = any(by_broken(expected, state, call) != own for state, call, own in asked)
        yield case("broken patience", [place], 1), int(found_out)


SUITES = {
    "patience, a step when it has run out": out_of_patience,
    "patience, all other steps, and the third time": with_patience,
    "patience, every outcome and third time in every phase": all_states,
    "patience, the states find each broken rule out": broken_rules,
}

"""The paragraph "Unreadable" and what request 2.2 adds to it, in the model: for each clause records just inside and just outside it. The
library takes no part."""

from random import Random

from compare import NAMES, case
from model import readable
from model.record import IDLE, Record, Settings
from record_states import built_state, perturbed

NAMES["clause"] = ("place in the list of records", *Record._fields), ("clause, from 1, or 0 for a readable record",)
NAMES["clause occurs"] = ("clause, from 1",), ("occurs",)

SETTINGS = Settings(3, 1, 5, 20)
LAST = 50

# H 3, m 1. Leaves 6 and 7 are below node 2 and the root and notify both; node 2 notifies the root and checks itself.
CLIMB = Record(phase=3, left=60, right=70, first=6, second=7)
NOTIFY = CLIMB._replace(phase=6, grip=3, place=1, notices=1)
HELD = CLIMB._replace(phase=9, current=1, grip=3, notices=2)
GIVING = HELD._replace(phase=10, outcome=1)
TICKET = Record(phase=1, left=0, right=256, first=2)
TURN = TICKET._replace(phase=2, grip=1)
CHECK = TICKET._replace(phase=8, grip=3, notices=1)
ROOT = Record(phase=5, left=100, right=700, first=1, grip=2)
NEXT = Record(phase=3, left=10, right=300, first=2, second=10, current=1)
SINGLE = CHECK._replace(phase=9, taken=LAST)
RUN_OUT = NEXT._replace(phase=10, outcome=4, taken=LAST - 20)

READABLE = [
    IDLE, IDLE._replace(outcome=3), IDLE._replace(outcome=4),
    CLIMB, CLIMB._replace(place=1, t1=LAST, t0=LAST), CLIMB._replace(ticket=32767), CLIMB._replace(current=1),
    CLIMB._replace(phase=4), CLIMB._replace(phase=5),
    NOTIFY, NOTIFY._replace(place=0, notices=0), HELD, HELD._replace(notices=0),
    GIVING, GIVING._replace(place=2), GIVING._replace(giving=1, place=2), GIVING._replace(giving=1, place=1, notices=1),
    GIVING._replace(grip=0, notices=0, place=2),
    TICKET, TURN, TURN._replace(phase=3, grip=2), TURN._replace(phase=10, outcome=3),
    CHECK, CHECK._replace(phase=7), CHECK._replace(phase=9), CHECK._replace(phase=10, outcome=2, place=1),
    ROOT, ROOT._replace(phase=7, grip=3), NEXT, NEXT._replace(phase=10, outcome=3, place=1),
    NEXT._replace(taken=1), NEXT._replace(taken=LAST), HELD._replace(taken=LAST),
    GIVING._replace(taken=7), GIVING._replace(outcome=2, taken=7),
    SINGLE, SINGLE._replace(taken=1), SINGLE._replace(phase=10, outcome=1), RUN_OUT, RUN_OUT._replace(place=1), RUN_OUT._replace(taken=0),
]

UNREADABLE = {
    readable.phase_over_10: [CLIMB._replace(phase=11), IDLE._replace(phase=12)],
    readable.outcome_over_4: [IDLE._replace(outcome=5), GIVING._replace(outcome=5)],
    readable.idle_with_a_nonzero_field: [IDLE._replace(**{name: 1}) for name in Record._fields[2:]],
    readable.window_outside_the_tree: [CLIMB._replace(left=70), CLIMB._replace(right=1025), CLIMB._replace(left=71)],
    readable.pieces_not_its_cover: [
        CLIMB._replace(first=7, second=6), CLIMB._replace(first=2, second=0), CLIMB._replace(second=0),
        TICKET._replace(second=2)],
    readable.current_piece_does_not_exist: [CLIMB._replace(current=2), TICKET._replace(current=1)],
    readable.ticket_over_32767: [CLIMB._replace(ticket=32768), TURN._replace(ticket=2 ** 64 - 1)],
    readable.place_past_its_list: [
        CLIMB._replace(place=2), CLIMB._replace(phase=4, place=2), CLIMB._replace(phase=5, place=1),
        NOTIFY._replace(place=2, notices=2), HELD._replace(place=1),
        GIVING._replace(place=3), GIVING._replace(giving=1, notices=1, place=2),
        TICKET._replace(place=1), TURN._replace(phase=10, outcome=3, place=1), CHECK._replace(place=1),
        ROOT._replace(place=1), ROOT._replace(phase=3), ROOT._replace(phase=6, grip=3)],
    readable.notices_past_their_list: [
        HELD._replace(notices=3), CHECK._replace(notices=2), ROOT._replace(phase=7, grip=3, notices=1)],
    readable.notices_with_grip_under_3: [CLIMB._replace(notices=1), TURN._replace(phase=10, outcome=3, notices=1)],
    readable.notices_unlike_the_place: [NOTIFY._replace(notices=0), NOTIFY._replace(notices=2)],
    readable.noted_time_after_the_last_clock: [
        CLIMB._replace(t1=LAST + 1), CHECK._replace(t0=LAST + 1), NEXT._replace(taken=LAST + 1), SINGLE._replace(taken=LAST + 1),
        RUN_OUT._replace(taken=LAST + 1)],
    readable.phase_not_of_a_leaf: [
        CLIMB._replace(phase=1), CLIMB._replace(phase=2, grip=1), NOTIFY._replace(phase=7, place=0),
        NOTIFY._replace(phase=8, place=0)],
    readable.phase_not_of_the_root: [],
    readable.held_before_the_last_piece: [HELD._replace(current=0)],
    readable.outcome_not_of_the_phase: [
        CLIMB._replace(outcome=1), HELD._replace(outcome=3), NEXT._replace(outcome=4), GIVING._replace(outcome=0)],
    readable.grip_that_the_phase_lacks: [
        TICKET._replace(grip=1), TURN._replace(grip=0), TURN._replace(grip=2),
        CLIMB._replace(grip=2), CLIMB._replace(phase=5, grip=3), TURN._replace(phase=3), ROOT._replace(grip=3),
        NOTIFY._replace(place=0, notices=0, grip=2), HELD._replace(grip=0, notices=0), CHECK._replace(grip=4),
        GIVING._replace(grip=1, notices=0), GIVING._replace(grip=2, notices=0), CHECK._replace(phase=10, outcome=2, grip=4)],
    readable.giving_past_the_current_piece: [CLIMB._replace(giving=1), HELD._replace(giving=2)],
    readable.giving_outside_10: [HELD._replace(giving=1)],
    readable.giving_with_grip_0: [
        GIVING._replace(giving=1, grip=0, notices=0), GIVING._replace(current=0, grip=0, notices=0)],
    readable.outcome_4_at_a_first_piece: [
        GIVING._replace(current=0, outcome=4), TURN._replace(phase=10, outcome=4), SINGLE._replace(phase=10, outcome=4)],
    readable.taken_at_a_first_piece: [
        CLIMB._replace(taken=1), NOTIFY._replace(taken=LAST), TICKET._replace(taken=1), TURN._replace(taken=1), CHECK._replace(taken=LAST),
        CHECK._replace(phase=7, taken=1), SINGLE._replace(phase=10, outcome=2), SINGLE._replace(phase=10, outcome=3),
        TURN._replace(phase=10, outcome=3, taken=1)],
}
# By this list, not by the model's: a clause that the model lost would take its records with it.
CLAUSES = tuple(UNREADABLE)


def number_of(clause):
    return 0 if clause is None else CLAUSES.index(clause) + 1


def listed_records():
    """Readable records, and for each clause records that it is the first to find unreadable."""
    records = [(None, record) for record in READABLE]
    records += [(clause, record) for clause in CLAUSES for record in UNREADABLE[clause]]
    for place, (clause, record) in enumerate(records):
        yield case("clause", [place, *record], number_of(clause)), number_of(readable.cause(SETTINGS, record, LAST))


def clauses_that_occur():
    """Changing one field of readable records meets every clause, save that 3, 4 or 6 at the root is never the first:
    the list walked there is empty, and the place past it."""
    rng = Random("clauses that occur")
    states = [perturbed(rng, built_state(rng, 4)) for _ in range(6000)]
    found = {number_of(readable.cause(state.settings, state.record, state.last)) for state in states}
    for clause in CLAUSES:
        expected = clause is not readable.phase_not_of_the_root
        yield case("clause occurs", [number_of(clause)], int(expected)), int(number_of(clause) in found)


SUITES = {
    "unreadable, records just inside and just outside each clause": listed_records,
    "unreadable, one changed field meets each clause": clauses_that_occur,
}

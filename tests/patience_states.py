"""States in which outcome and third noted time may be anything: in every phase, at a first and at a second piece, every outcome from 0 to 5
with every kind of third time, and the calls that tell them apart. And settings with every kind of P."""

from itertools import product
from random import Random

from histories import MOST_PATIENCE, TOP
from model import readable, tree
from model import record as records
from model.history import Call
from model.record import IDLE, Record, Settings
from record_states import State, phases_at, words_for

PATIENCE = 20
SETTINGS = Settings(3, 1, 5, PATIENCE)
NODES = tree.node_count(SETTINGS.levels)
LAST = 100
# So great that patience noted there ends past the greatest clock.
GREAT_LAST = TOP - 10
# Two leaves, one leaf, an inner node, two of them, an inner node and a leaf, and the root.
WINDOWS = (60, 70), (3, 9), (0, 256), (100, 400), (10, 300), (100, 700)
OUTCOMES = range(6)
KINDS_OF_TIME = "none", "before the last clock", "at it", "after it"


def times(last):
    """Third times: none; before P is over, when it is and after; just before the last clock and at it; after it."""
    return 0, 1, last - PATIENCE - 1, last - PATIENCE, last - PATIENCE + 1, last - 1, last, last + 1, TOP


def kind_of_time(taken, last):
    """How a third time stands to the last clock."""
    return KINDS_OF_TIME[0 if taken == 0 else 1 if taken < last else 2 if taken == last else 3]


def at_piece(left, right, pieces, current):
    """A record for each phase, grip and piece being given back that the current piece may have."""
    for phase in phases_at(SETTINGS, pieces[current]):
        record = Record(phase, 0, left, right, *pieces, current, ticket=7)
        givings = range(current + 1) if phase == 10 else (0,)
        for grip, giving in product(readable.grips(SETTINGS, record), givings):
            yield record._replace(grip=grip, giving=giving)


def at_both_ends(record, last):
    """At the first place of its list with nothing noted, and at the last place with all notices given and times noted just now."""
    length = len(records.notify_list(SETTINGS.distance, records.current_node(record)))
    full = record._replace(notices=length if record.grip == 3 else 0)
    place = len(records.walked(SETTINGS, full) or [0]) - 1
    return [record, full._replace(place=place, notices=place if record.phase == 6 else full.notices, t1=last - 3, t0=last - 2)]


def fitting(last):
    """Every such record whose fields fit each other but for outcome and third time, and the idle one."""
    yield IDLE
    for left, right in WINDOWS:
        pieces = records.cover_of(SETTINGS.levels, left, right)
        for current in range(2 if pieces[1] else 1):
            for record in at_piece(left, right, pieces, current):
                yield from at_both_ends(record, last)


def states():
    """With any words: at the great last clock each of them with outcome 0 and every third time, and else with every outcome too."""
    rng = Random("patience states")
    for last, outcomes in ((GREAT_LAST, [0]), (LAST, OUTCOMES)):
        for record, outcome in product(fitting(last), outcomes):
            words = words_for(rng, SETTINGS, record) if record.phase else {}
            for taken in times(last):
                yield State(SETTINGS, record._replace(outcome=outcome, taken=taken), words, NODES, last)


def clocks(record, last):
    """The last clock, and those about the end of P, and where a time of 32 bits would be 0 again, as far as they are not below it."""
    later = {record.taken + PATIENCE + beside for beside in (-1, 0, 1)} | {record.taken + 2 ** 32}
    return [last, *sorted(clock for clock in later if last < clock <= TOP)]


def calls(state):
    """Whether the record is unreadable, steps, and a call of each other kind."""
    yield Call("unreadable", 0)
    yield from (Call("step", 0, clock) for clock in clocks(state.record, state.last))
    yield from (Call("request", 0, 10, 20), Call("release", 0), Call("cancel", 0))


def states_and_calls():
    for state in states():
        yield from ((state, call) for call in calls(state))


def with_every_p():
    """A held record and an idle one, and every call on them, with P at the ends of its range and outside it."""
    held = Record(9, 0, 0, 256, 2, grip=3, notices=1, taken=90)
    for patience, record in product((0, 1, 2, MOST_PATIENCE, 2 ** 32, 2 ** 32 + 1, TOP), (held, IDLE)):
        state = State(SETTINGS._replace(patience=patience), record, {}, NODES, LAST)
        yield from ((state, call) for call in calls(state) if call.kind != "unreadable")


def met():
    """Phase, whether the piece is a second one, outcome and kind of third time of each state."""
    return {(state.record.phase, state.record.current > 0, state.record.outcome, kind_of_time(state.record.taken, state.last))
            for state in states()}

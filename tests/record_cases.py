"""Cases for the calls on one client: states of random histories, readable records with any words, and lent garbage."""

from itertools import chain
from random import Random

from clock_states import any_wrapped, timed_states
from clocks import first_late
from compare import NAMES, Case
from histories import TOP
from library import RECORD_ANSWER
from model import calls, tree
from model import record as records
from model.fresh import Sparse
from model.history import Call
from model.readable import unreadable
from model.record import Record, Settings
from patience_states import states_and_calls, with_every_p
from record_states import any_clock, any_state, built_state, one_outside, perturbed, reached, windows

HISTORIES, CALLS = 14, 500
BUILT, CHANGED, ANY = 9000, 7000, 3000

# Where the phase stands among the arguments.
PHASE = len(Settings._fields) + 1
ARGUMENTS = (*Settings._fields, "last clock", *Record._fields, "count", "kind", "client", "a", "b", *("node", "word") * 200)
RESULTS = ("number", "clock", *Record._fields, "changed", "node", "word")
for name in ("request", "step", "release", "cancel", "unreadable"):
    NAMES[name] = ARGUMENTS, RESULTS


def above_pieces(state):
    """The pieces and the nodes above them, as far as they are nodes of the lent tree: a wrong step would write here
    first."""
    lent = tree.node_count(state.settings.levels) if state.settings.levels in tree.LEVELS else 0
    return [n for piece in state.record[4:6] if 1 <= piece <= lent for n in (piece, *records.ancestors(piece))]


def answer(state, words, call):
    """What the model gives for a call on this state's client; it writes the words."""
    lent = state.settings, words, state.client
    if call.kind == "request":
        return calls.request(*lent, call.a, call.b)
    if call.kind == "step":
        return calls.step(*lent, call.a)
    return {"release": calls.release, "cancel": calls.cancel}[call.kind](*lent)


def expected(state, call):
    """Number, clock, record, how many words are changed (one at most), and the changed node with its word."""
    if call.kind == "unreadable":
        return int(unreadable(state.settings, state.record, state.last)), *(0,) * (RECORD_ANSWER - 1)
    words = Sparse(state.count, state.words)
    number, client = answer(state, words, call)
    changed = [(n, w) for n, w in words.words.items() if w != state.words.get(n, 0)]
    return number, client.clock, *client.record, len(changed), *(changed[0] if changed else (0, 0))


def record_case(rng, state, call):
    """Kind and client are any numbers: a call on one client does not look at them."""
    pairs = {**dict.fromkeys(above_pieces(state), 0), **state.words}
    flat = [number for pair in pairs.items() for number in pair]
    beside = state.count, rng.randrange(5), rng.getrandbits(16), call.a, call.b
    return Case(call.kind, (*state.settings, state.last, *state.record, *beside, *flat), expected(state, call))


def any_window(rng, h):
    """A window of the tree more often than not, else one that is refused or just not."""
    n = tree.units(h)
    at_the_end = [(n - 1, n + 1), (0, n), (0, n + 1), (n, n), (0, TOP), (TOP - 1, TOP)]
    others = [(5, 5), (1, 0), (TOP, 0), (rng.getrandbits(64), rng.getrandbits(64))]
    return rng.choice([rng.choice(windows(h)), rng.choice(windows(h)), rng.choice(at_the_end + others)])


def step_clock(rng, state):
    """About the last clock, about the clocks at which a wait is over, a claim is late or patience runs out, and far away."""
    record, settings, last = state.record, state.settings, state.last
    ends = [record.t1 + settings.wait, record.t1 + first_late(settings.wait), record.t0 + settings.wait, record.taken + settings.patience]
    beside = [end + ticks for end in ends for ticks in (-1, 0, 0, 1)]
    chosen = rng.choice([last, last + 1, last - 1, *beside, record.t1 + any_wrapped(rng), TOP, any_clock(rng)])
    return min(max(chosen, rng.choice([0, last, last, last])), TOP)


def any_call(rng, state):
    """A step more often than not; the arguments that a kind has no use for are any numbers."""
    kind = rng.choice(["step"] * 10 + ["request", "request", "release", "cancel", "cancel"])
    h = state.settings.levels if state.settings.levels in tree.LEVELS else 2
    a, b = any_window(rng, h) if kind == "request" else (rng.getrandbits(64), rng.getrandbits(64))
    return Call(kind, 0, step_clock(rng, state) if kind == "step" else a, b)


def any_query(rng, state):
    """Any call, and now and then the question whether the record is unreadable."""
    return Call("unreadable", 0) if rng.random() < 0.07 else any_call(rng, state)


def cases_reached(h):
    """Every call of random histories before it is made, and at each state another call."""
    rng = Random(f"reached at {h}")
    for _ in range(HISTORIES):
        for state, call in reached(rng, h, CALLS):
            yield record_case(rng, state, call)
            if rng.random() < 0.5:
                yield record_case(rng, state, any_query(rng, state))


def cases_reached_and_changed(h):
    """The same with one field of the record changed."""
    rng = Random(f"reached and changed at {h}")
    for _ in range(HISTORIES):
        for state, _ in reached(rng, h, CALLS // 2):
            state = perturbed(rng, state)
            yield record_case(rng, state, any_query(rng, state))


def cases_built(h):
    """Readable records in every phase, with any words."""
    rng = Random(f"built at {h}")
    states = [built_state(rng, h) for _ in range(BUILT)]
    return with_all_rows(h, [record_case(rng, state, any_query(rng, state)) for state in states])


def with_all_rows(h, cases):
    """The cases, after seeing that each phase is stepped from and to, that patience runs out in each of 1 to 8, and that each refusal of a
    readable record occurs. An inner second piece, at which alone a step goes to 1 or is in 1, 2, 7 or 8 with patience, H 2 has not."""
    steps = [(case.arguments[PHASE], *case.expected[2:4]) for case in cases if case.call == "step" and case.expected[0] == 0]
    before, after = {phase for phase, _, _ in steps}, {phase for _, phase, _ in steps}
    run_out = {phase for phase, _, outcome in steps if outcome == 4} - {0, 10}
    numbers = {case.expected[0] for case in cases}
    if before != set(range(11)) or not after >= before - {1} or numbers != {0, 5, 7, 8, 9}:
        raise SystemExit(f"steps from {before} to {after} and numbers {numbers}: too few to test all")
    if run_out != set(range(1, 9) if h > 2 else range(3, 7)):
        raise SystemExit(f"patience runs out in {run_out}: too few to test all")
    return cases


def cases_built_and_changed(h):
    """The same with one field of the record changed."""
    rng = Random(f"built and changed at {h}")
    for _ in range(CHANGED):
        state = perturbed(rng, built_state(rng, h))
        yield record_case(rng, state, any_query(rng, state))


def cases_of_any_fields(h):
    """Any phase up to 12 with any fields."""
    rng = Random(f"any at {h}")
    for _ in range(ANY):
        state = any_state(rng, h)
        yield record_case(rng, state, any_query(rng, state))


def settings_refused():
    """H, m, T or P outside its range, with a word count that is the lowest tree's or is not."""
    rng = Random("settings refused")
    for _ in range(100):
        state = built_state(rng, 2)
        for settings in one_outside(state.settings):
            outside = state._replace(settings=settings, count=rng.choice([state.count, state.count - 1, 0]))
            yield record_case(rng, outside, any_call(rng, outside))


def word_count_refused():
    """A word count one less, one more, 0, and that of the tree with one level less."""
    rng = Random("word count refused")
    for h in tree.LEVELS:
        for count in (tree.node_count(h) - 1, tree.node_count(h) + 1, 0, tree.node_count(h - 1)):
            for _ in range(30):
                state = built_state(rng, h)._replace(count=count)
                yield record_case(rng, state, any_call(rng, state))


def every_outcome_and_third_time():
    """Every outcome from 0 to 5 and every kind of third time in every phase, at a first and at a second piece; and every kind of P."""
    rng = Random("every outcome and third time")
    for state, call in chain(with_every_p(), states_and_calls()):
        yield record_case(rng, state, call)


def just_over_and_just_not():
    """Claims with so many ticks since t1 that they are just late or just not, or that a product of 64 bits would wrap; and the same of waits
    and patience."""
    rng = Random("just over and just not")
    for state, call in timed_states():
        yield record_case(rng, state, call)


KINDS = {
    "in states that histories reach": cases_reached,
    "in such states with one field changed": cases_reached_and_changed,
    "readable, with any words": cases_built,
    "readable, then one field changed": cases_built_and_changed,
    "with any fields": cases_of_any_fields,
}

SUITES = {
    **{f"record at H {h}, {name}": lambda h=h, cases=cases: cases(h) for h in tree.LEVELS for name, cases in KINDS.items()},
    "record, settings outside their ranges": settings_refused,
    "record, word count not the tree's": word_count_refused,
    "record, every outcome and third time in every phase": every_outcome_and_third_time,
    "record, claims that are just late, waits and patience that are just over, and just not": just_over_and_just_not,
}

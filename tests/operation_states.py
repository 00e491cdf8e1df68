"""What is asked of a client that has no words lent, and what the model answers: steps as operations with the word that is found, from histories, in
every phase, at and beside every bound, and damaged; the other calls of such a client; and what any operation leaves of any word."""

from itertools import chain
from random import Random
from typing import NamedTuple

from clock_states import timed_states
from histories import TOP
from model import operations, tree, word
from model.operations import ADD, NONE, READ, SWAP, Operation
from model.record import Client, Settings
from patience_states import states_and_calls, with_every_p
from record_cases import any_window, step_clock
from record_states import any_number, any_state, built_state, one_outside, perturbed, reached
from word_cases import random_inner

CALLS = 500
HISTORIES, BUILT, CHANGED, ANY = 8, 6000, 4400, 1600
# Which part of the states is asked the other calls.
OWN_PART = 4
OUTSIDE = 8
# The other calls, and the numbers that they answer.
OWN_CALLS = {"own_request": (0, 1, 6, 7, 8), "own_release": (0, 1, 6, 8), "own_cancel": (0, 1, 6, 8)}
OPERATIONS = 20000
# What must occur among the steps that are asked, phase, kind and number. Where patience runs out no word is touched: in 1, 2 and 8 of an inner
# second piece, which H 2 has not.
MUST_OCCUR = [
    (0, NONE, 0), *((phase, NONE, 0) for phase in range(3, 8)), (9, NONE, 0), (1, ADD, 0), (2, READ, 0), (3, READ, 0), (4, READ, 0), (5, ADD, 0),
    (5, SWAP, 0), (6, ADD, 0), (8, READ, 0), (10, READ, 0), (10, ADD, 0), (10, SWAP, 0), (10, SWAP, 9),
    *((phase, NONE, number) for phase in range(11) for number in (5, 6)),
]
MUST_OCCUR_ABOVE_H_2 = [(phase, NONE, 0) for phase in (1, 2, 8)]


class Step(NamedTuple):
    """A step of a client by a clock, and the word that its operation finds."""

    settings: Settings
    client: Client
    clock: int
    found: int

    def answer(self):
        """The operation, the word that it leaves, and the number and the client when it is completed."""
        posted = operations.operation(*self[:3])
        number, after = operations.completed(*self)
        return *posted, operations.applied(posted, self.found), number, after.clock, *after.record

    def arguments(self):
        return *self.settings, self.client.clock, *self.client.record, self.clock, self.found


class OwnCall(NamedTuple):
    """One of the other calls of a client; a request has its edges."""

    call: str
    settings: Settings
    client: Client
    edges: tuple

    def answer(self):
        """The number, and the client after it."""
        number, after = getattr(operations, self.call)(self.settings, self.client, *self.edges)
        return number, after.clock, *after.record

    def arguments(self):
        return *self.settings, self.client.clock, *self.client.record, *self.edges


class Applied(NamedTuple):
    """Any operation, and the word that it finds."""

    posted: Operation
    found: int

    def answer(self):
        return (operations.applied(*self),)

    def arguments(self):
        return *self.posted, self.found


def any_found(rng):
    return rng.choice([0, TOP, random_inner(rng), rng.getrandbits(64)])


def word_found(rng, state, clock):
    """The word at the node of the operation, at times with a bit changed, or any; where no word is touched any."""
    node = operations.operation(state.settings, state.client, clock).node
    there = state.words.get(node, 0)
    return rng.choice([there, there, there, there ^ 1 << rng.randrange(64), any_found(rng)]) if node else any_found(rng)


def step_by(rng, state, clock):
    return Step(state.settings, state.client, clock, word_found(rng, state, clock))


def own_call(rng, state):
    call = rng.choice(list(OWN_CALLS))
    levels = state.settings.levels if state.settings.levels in tree.LEVELS else 2
    return OwnCall(call, state.settings, state.client, any_window(rng, levels) if call == "own_request" else ())


def states_at(h, part):
    """States that histories reach, readable records with any words, both with one field changed, and any fields; of each a part."""
    rng = Random(f"operations at {h}")
    histories, built, changed, any_fields = (number // part for number in (HISTORIES, BUILT, CHANGED, ANY))
    for _ in range(histories):
        for state, _ in reached(rng, h, CALLS):
            yield state if rng.random() < 0.8 else perturbed(rng, state)
    yield from (built_state(rng, h) for _ in range(built))
    yield from (perturbed(rng, built_state(rng, h)) for _ in range(changed))
    yield from (any_state(rng, h) for _ in range(any_fields))


def steps_at(h, part=1):
    """Of each of these states a step, by a clock about those that matter to it."""
    rng = Random(f"steps at {h}")
    return (step_by(rng, state, step_clock(rng, state)) for state in states_at(h, part))


def own_calls_at(h, part=OWN_PART):
    rng = Random(f"own calls at {h}")
    return (own_call(rng, state) for state in states_at(h, part))


def states_at_bounds():
    """Claims that are just late or just not, waits and patience that are just over or just not; every outcome and third time in every phase; and
    every kind of P. Each with a call."""
    return chain(timed_states(), states_and_calls(), with_every_p())


def steps_at_bounds():
    rng = Random("steps at bounds")
    return (step_by(rng, state, call.a) for state, call in states_at_bounds() if call.kind == "step")


def own_calls_at_bounds():
    for state, call in states_at_bounds():
        if call.kind not in ("step", "unreadable"):
            yield OwnCall(f"own_{call.kind}", state.settings, state.client, (call.a, call.b) if call.kind == "request" else ())


def states_outside(rng):
    """Each setting in turn outside its range."""
    for h in tree.LEVELS:
        for state in (built_state(rng, h) for _ in range(OUTSIDE)):
            yield from (state._replace(settings=settings) for settings in one_outside(state.settings))


def steps_outside():
    rng = Random("steps with settings outside their ranges")
    return (step_by(rng, state, step_clock(rng, state)) for state in states_outside(rng))


def own_calls_outside():
    rng = Random("own calls with settings outside their ranges")
    return (own_call(rng, state) for state in states_outside(rng))


def any_mask(rng):
    """No bit, all, one, those of some units, or any."""
    return rng.choice([0, TOP, 1 << rng.randrange(64), word.wanted(0, rng.randrange(64), rng.randint(0, 64)), rng.getrandbits(64)])


def any_operations():
    """Kinds that there are and others, every mask, every delta, and words that are about what is expected."""
    rng = Random("any operations")
    for _ in range(OPERATIONS):
        kind = rng.choice([0, 1, 2, 2, 2, 3, 3, 3, 4, 6, 7, 2 ** 32 + 2, 2 ** 32 + 3, TOP])
        compared, expected, swapped = (any_mask(rng) for _ in range(3))
        value = rng.choice([any_mask(rng), random_inner(rng)])
        found = rng.choice([any_found(rng), expected, expected ^ rng.getrandbits(64) & ~compared, expected ^ 1 << rng.randrange(64)])
        yield Applied(Operation(any_number(rng), kind, any_number(rng), compared, expected, swapped, value), found)

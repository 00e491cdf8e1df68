"""The supposition of request 2.3 in the model: when it is met and whether there are moments for a history; and single holding in histories
at its very limit and outside it. The library takes no part."""

from itertools import pairwise, product
from random import Random

from broken_clocks import TOO_LATE
from clocks import fewest_ticks, first_late, most_ticks
from compare import NAMES, case
from histories import MOST_PATIENCE
from limit_histories import HIGHER, LOWER, late_by_least, limits, one_tick_short, taken_at_last
from model.history import Call, Made, Opened, held_apart, holds
from model.moments import moments_of, supposition_met
from model.record import IDLE_CLIENT, Settings

NAMES["supposition"] = ("place in the list of histories",), ("met",)
NAMES["supposition by neighbours"] = ("seed",), ("met",)
NAMES["supposition occurs"] = ("met",), ("occurs",)
NAMES["moments"] = ("seed",), ("there are some", "they meet the supposition")
NAMES["moments occur"] = ("there are some",), ("occurs",)
NAMES["at the limit"] = ("place",), ("supposition met", "lower piece's phase", "its outcome", "higher piece's phase")
NAMES["T 123,456"] = (), ("last moment", "lower piece's ticks since t1", "its outcome", "higher piece's phase")
NAMES["outside the supposition"] = (), ("clients that hold", "held apart", "moments that meet it")
NAMES["broken late rule"] = (
    ("place in the list of broken rules",), ("two hold overlapping windows", "supposition met", "they do by the model's own rule"))


def stepped(*clients_and_clocks):
    """A history of accepted steps."""
    return [Made(Call("step", client, clock), 0, 0) for client, clock in clients_and_clocks]


# Histories with their moments, and whether the supposition is met.
SUPPOSED = [
    (stepped(), [], True),
    (stepped((0, 77)), [5], True),
    (stepped((0, 9), (0, 9)), [5, 5], True),
    (stepped((0, 9), (0, 10)), [5, 6], True),
    (stepped((0, 9), (0, 10)), [5, 5], False),
    (stepped((0, 9), (0, 9)), [5, 6], False),
    (stepped((0, 9), (0, 11)), [5, 6], False),
    # 10,001 ticks in a true elapse of 10,000 are the most, and 9,999 the fewest.
    (stepped((0, 1), (0, 10002)), [0, 10000], True),
    (stepped((0, 1), (0, 10003)), [0, 10000], False),
    (stepped((0, 1), (0, 10000)), [0, 10000], True),
    (stepped((0, 1), (0, 9999)), [0, 10000], False),
    (stepped((0, 1), (0, 10001)), [0, 9999], False),
    # The same where the steps of another client, at its own clock, come between.
    (stepped((0, 1), (1, 2 ** 64 - 1), (0, 10002)), [0, 7, 10000], True),
    (stepped((0, 1), (1, 2 ** 64 - 1), (0, 10003)), [0, 7, 10000], False),
    # Moments never go back, also from one client to another.
    (stepped((0, 1), (1, 1)), [4, 4], True),
    (stepped((0, 1), (1, 1)), [4, 3], False),
    (stepped((0, 1), (1, 1), (0, 1)), [4, 5, 4], False),
    # Between any two of three steps.
    (stepped((0, 0), (0, 10001), (0, 20002)), [0, 10000, 20000], True),
    (stepped((0, 0), (0, 10001), (0, 20003)), [0, 10000, 20000], False),
    # Nothing is supposed of refused steps, and nothing of other calls.
    ([*stepped((0, 1)), Made(Call("step", 0, 0), 5, 0), *stepped((0, 1))], [3, 0, 3], True),
    ([*stepped((0, 1)), Made(Call("step", 9, 50), 4, None), *stepped((0, 1))], [3, 99, 3], True),
    ([*stepped((0, 1)), Made(Call("request", 1, 0, 10), 0, 3), *stepped((0, 1))], [3, 0, 3], True),
    ([*stepped((0, 1)), Made(Call("release", 0), 0, 10), Made(Call("cancel", 1), 0, 0), *stepped((0, 1))], [3, 9, 1, 3], True),
]


def supposition():
    for place, (history, moments, met) in enumerate(SUPPOSED):
        yield case("supposition", [place], int(met)), int(supposition_met(history, moments))


def drifting_steps(rng):
    """Steps of one client about the limits of the supposition, and their moments."""
    clock, moment, steps, moments = rng.randrange(5), 0, [], []
    for _ in range(rng.randint(2, 6)):
        steps, moments = steps + stepped((0, clock)), [*moments, moment]
        elapse = rng.choice([0, 1, 9999, 10000, 20000, rng.randrange(40000)])
        clock += max(rng.choice([elapse, fewest_ticks(elapse), most_ticks(elapse)]) + rng.choice([0, 0, 0, 0, 0, 0, -1, 1]), 0)
        moment += elapse
    return steps, moments


def neighbours():
    """The supposition is met between any two steps of a client exactly if it is between each and the next; and both occur."""
    found = set()
    for seed in range(400):
        history, moments = drifting_steps(Random(f"neighbours {seed}"))
        met = supposition_met(history, moments)
        found.add(met)
        yield case("supposition by neighbours", [seed], int(met)), int(supposition_met(history, moments, pairwise))
    for met in (False, True):
        yield case("supposition occurs", [met], 1), int(met in found)


def few_steps(rng):
    """A history of at most 5 steps of two clients, each at most a tick after the one before of the same client: if there are moments for
    them, there are some below 5."""
    clocks, history = [rng.randrange(100), rng.randrange(100)], []
    for _ in range(rng.randint(1, 5)):
        client = rng.randrange(2)
        clocks[client] += rng.randrange(2)
        history += stepped((client, clocks[client]))
    return history


def moments():
    """There are moments exactly where trying all finds some; and both occur."""
    found = set()
    for seed in range(60):
        history = few_steps(Random(f"moments {seed}"))
        own = moments_of(history)
        there_are = any(supposition_met(history, tried) for tried in product(range(5), repeat=len(history)))
        found.add(there_are)
        met = own is not None and supposition_met(history, own)
        yield case("moments", [seed], (there_are, there_are)), (own is not None, met)
    for there_are in (False, True):
        yield case("moments occur", [there_are], 1), int(there_are in found)


def at_the_limit(history_of, late, higher):
    """Histories that meet the supposition. By T and the ticks since t1, of which `late` tells, the lower piece's client is late and
    returns, or a leaf is held and an inner node waits; the higher piece's client ends in this phase."""
    for place, limit in enumerate(limits()):
        lock, moments = history_of(limit)
        (below, above), ticks = lock.records, lock.clients[LOWER].clock - limit.first_clocks[LOWER]
        then = (10, 2) if late(limit.settings.wait, ticks) else (9 if limit.lower == (0, 10) else 7, 0)
        answer = supposition_met(lock.history, moments), below.phase, below.outcome, above.phase
        yield case("at the limit", [place], (1, *then, higher)), answer


def late_by_the_least():
    """The higher piece is held as soon as can be, and the lower one's claim, though its clock is the slowest, is late."""
    return at_the_limit(late_by_least, lambda wait, ticks: True, 9)


def with_t_123456():
    """T = 123,456: the wait may be over after 123,444, in which the slowest clock goes on by 123,432, which is less than T and is late."""
    limit = next(limits(waits=[123456], levels=[2]))
    lock, moments = late_by_least(limit)
    ticks = lock.clients[LOWER].clock - limit.first_clocks[LOWER]
    yield case("T 123,456", [], (123444, 123432, 2, 9)), (moments[-1], ticks, lock.records[LOWER].outcome, lock.records[HIGHER].phase)


def taken_at_the_last():
    """A claim as late as can be without being late: the higher piece finds its notice in 8."""
    return at_the_limit(taken_at_last, lambda wait, ticks: False, 8)


def short_by_a_tick():
    """A wait that one tick is left of is not over, and most claims are not late then."""
    return at_the_limit(one_tick_short, lambda wait, ticks: ticks >= first_late(wait), 7)


def untrue_clocks():
    """H 2, m 1, T 2: request 0 [0, 10); 0 steps twice; request 1 [0, 256); 1 steps three times, its clock + 2, steps twice and holds; 0
    steps at its old clock and holds."""
    steps = [Call("step", client, clock) for client, clock in ((1, 5), (1, 5), (1, 5), (1, 7), (1, 7), (0, 40))]
    calls = [Call("request", 0, 0, 10), Call("step", 0, 40), Call("step", 0, 40), Call("request", 1, 0, 256), *steps]
    lock = Opened(Settings(2, 1, 2, MOST_PATIENCE), [0] * 5, [IDLE_CLIENT] * 2)
    for call in calls:
        lock.make(call)
    held = [holds(lock.history, client) for client in range(2)]
    answer = sum(window is not None for window in held), held_apart(held), moments_of(lock.history) is not None
    yield case("outside the supposition", [], (2, 0, 0)), answer


def both_hold(history_of, limit):
    """Whether two clients hold overlapping windows after a history at this limit, and whether that meets the supposition."""
    lock, moments = history_of(limit)
    return not held_apart([holds(lock.history, client) for client in range(2)]), supposition_met(lock.history, moments)


def broken_late_rules():
    """With each of the rules broken that single holding needs, two clients hold overlapping windows after a history that meets the
    supposition; with the model's own rule they do not after the history at the same limit."""
    asked = [*product((late_by_least, one_tick_short), limits(levels=(2,)))]
    for place, rule in enumerate(TOO_LATE.values()):
        with rule():
            found = next(((each, met) for each in asked for overlaps, met in [both_hold(*each)] if overlaps), None)
        answer = (1, found[1], both_hold(*found[0])[0]) if found else (0, 0, 0)
        yield case("broken late rule", [place], (1, 1, 0)), answer


SUITES = {
    "supposition, histories that just meet it and that just do not": supposition,
    "supposition, between each step of a client and the next": neighbours,
    "supposition, moments for a history": moments,
    "supposition, at its limit a claim below a held node is late": late_by_the_least,
    "supposition, at its limit with T 123,456": with_t_123456,
    "supposition, at its limit a claim that is not late is seen by the check": taken_at_the_last,
    "supposition, at its limit a wait that is one tick short is not over": short_by_a_tick,
    "supposition, outside it two clients hold overlapping windows": untrue_clocks,
    "supposition, late rules with which two clients hold overlapping windows": broken_late_rules,
}

"""The supposition of request 2.3, over the calls of a history and their moments alone: "Suppose accepted steps have true whole-number
moments that never go back along a history, and between any two accepted steps of one client 10,000 times its own elapsed ticks lies between
9,999 and 10,001 times the true elapse." Of other calls, of refused ones and of a client's first step nothing is supposed."""

from itertools import combinations, pairwise
from typing import NamedTuple


class Stepped(NamedTuple):
    """An accepted step: its place in the history, its client and the clock."""

    place: int
    client: int
    clock: int


def accepted_steps(history):
    """The accepted steps of a history, in its order."""
    steps = ((place, made) for place, made in enumerate(history) if made.call.kind == "step" and made.number == 0)
    return [Stepped(place, made.call.client, made.call.a) for place, made in steps]


def of_each_client(steps):
    """The steps of each client that has any."""
    return [[step for step in steps if step.client == client] for client in sorted({step.client for step in steps})]


def steady(ticks, elapse):
    """10,000 times its own elapsed ticks lies between 9,999 and 10,001 times the true elapse."""
    return 9999 * elapse <= 10000 * ticks <= 10001 * elapse


def any_two(steps):
    return combinations(steps, 2)


def supposition_met(history, moments, pairs_of=any_two):
    """Whether the supposition is met, with a moment for each call of the history. For long histories `pairwise` may take the place of
    `any_two`: what is supposed of each step of a client and the next follows for any two of them, by adding up."""
    steps = accepted_steps(history)
    if any(moments[after.place] < moments[before.place] for before, after in pairwise(steps)):
        return False
    pairs = (pair for own in of_each_client(steps) for pair in pairs_of(own))
    return all(steady(after.clock - before.clock, moments[after.place] - moments[before.place]) for before, after in pairs)


def least_elapse(ticks):
    """The least true elapse in which a clock may go on by so many ticks."""
    return -(-10000 * ticks // 10001)


def greatest_elapse(ticks):
    """The greatest."""
    return 10000 * ticks // 9999


def later_by(steps):
    """What the supposition asks of moments: (one step's place, another's, by how much at least the second is later). What it asks between
    two steps of one client with others of it between them follows, by adding up."""
    found = [(before.place, after.place, 0) for before, after in pairwise(steps)]
    for before, after in (pair for own in of_each_client(steps) for pair in pairwise(own)):
        ticks = after.clock - before.clock
        found += [(before.place, after.place, least_elapse(ticks)), (after.place, before.place, -greatest_elapse(ticks))]
    return found


def put_off(moments, asked):
    """The moments, each put off as far as others ask."""
    moments = list(moments)
    for earlier, later, by in asked:
        moments[later] = max(moments[later], moments[earlier] + by)
    return moments


def moments_of(history):
    """Moments that meet the supposition, one for each call; None if there are none: if putting off has no end after as many rounds as there
    are steps, it never has."""
    steps, moments = accepted_steps(history), [0] * len(history)
    asked = later_by(steps)
    for _ in range(len(steps) + 1):
        before, moments = moments, put_off(moments, asked)
        if moments == before:
            return moments
    return None

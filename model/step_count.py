"""Request 2.4 of document 02, "How long will it take us": how many steps a window needs on an otherwise idle tree. The number is counted in a
run of a client alone, by no formula. The tree's words are kept sparse (fresh.py): at H 12 there are 5.6 million, a step touches at most one
of them, and one that was never written is 0."""

from typing import NamedTuple

from model import tree
from model.fresh import Fresh
from model.history import Call
from model.record import Settings

# The run's T and P. The number is worked out "from window, H and m", so any will do that its clocks keep to: a P greater than T.
WAIT = 10
PATIENCE = 2 ** 32 - 1
# The run is given up if it has not come to its end by then; none takes so many.
MOST_STEPS = 1000

# What was counted so far, by H, m and edges.
KEPT = {}


class Answer(NamedTuple):
    """The number (0 accepted), and how many steps the window needs."""

    number: int
    steps: int = 0


def next_clock(settings, client):
    """In a wait the first clock at which "T has passed"; else the last one again, so that "nothing comes late and patience doesn't run
    out"."""
    return client.record.t0 + settings.wait if client.record.phase == 7 else client.clock


def accepted_until_held(opened, client):
    """How many steps of a client are accepted until it is in phase 9, "if nobody else is stepped"."""
    accepted = 0
    for _ in range(MOST_STEPS):
        if opened.clients[client].record.phase == 9:
            return accepted
        clock = next_clock(opened.settings, opened.clients[client])
        accepted += opened.make(Call("step", client, clock)).number == 0
    raise ValueError(f"client {client} is not held after {MOST_STEPS} steps")


def steps_to_held(levels, distance, left, right):
    """ "The accepted steps from request to held, both pieces included", of a client alone on a fresh tree."""
    opened = Fresh(Settings(levels, distance, WAIT, PATIENCE), 1)
    if number := opened.make(Call("request", 0, left, right)).number:
        raise ValueError(f"the request is refused by {number}")
    return accepted_until_held(opened, 0)


def kept_steps(*asked):
    """The same, counted once for each window: many rows may ask for one."""
    if asked not in KEPT:
        KEPT[asked] = steps_to_held(*asked)
    return KEPT[asked]


def step_count(levels, distance, left, right):
    """ "It tests 1, then 7." Of the settings it is given H and m. A refused call returns its number only."""
    if levels not in tree.LEVELS or distance not in tree.DISTANCES:
        return Answer(1)
    if left >= right or right > tree.units(levels):
        return Answer(7)
    return Answer(0, steps_to_held(levels, distance, left, right))

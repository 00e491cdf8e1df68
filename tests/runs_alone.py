"""Runs of one client alone on a compiled table, from its request on, by clocks that meet the conditions of request 2.4: every wait is stepped
for the first time after T has passed, nothing comes late, and patience doesn't run out."""

from ctypes import c_uint64
from typing import NamedTuple

from clocks import EDGE_WAITS, TOP, first_late
from compiled_table import Table
from histories import MOST_PATIENCE, Driver
from model import record as records
from model import tree, word
from model.history import Call
from model.record import IDLE_CLIENT, Settings
from window_classes import pieces

# A run is given up after so many steps; it needs fewer.
MOST_STEPS = 1000
# A history is given up after so many calls; all are idle again long before.
MOST_CALLS = 20000
CALLS_BEFORE = 150
REFUSED_BY_5 = 0.1
# Of a limit that is farther off than this the clocks keep clear.
FAR = 2 ** 34


class Run(NamedTuple):
    """How many steps were accepted until the client was held, in which phase it was left, and how many steps were refused by 5 meanwhile."""

    accepted: int
    phase: int
    refused: int


def memory(levels):
    """The words of a tree, to lend again and again."""
    return (c_uint64 * tree.node_count(levels))()


def inner_pieces(levels, nodes):
    return sum(not tree.is_leaf(levels, n) for n in nodes)


def drawn_settings(rng, h, m, window):
    """T and P of many sizes; P is greater than T where a later piece waits too."""
    waiting = inner_pieces(h, pieces(h, *window)[1:])
    wait = min(rng.choice(EDGE_WAITS), MOST_PATIENCE - waiting)
    longer = wait + rng.choice([1, 2, 9, wait, 10 * wait])
    return Settings(h, m, wait, min(longer if waiting else rng.choice([1, 2, wait, longer]), MOST_PATIENCE))


def waits_to_come(settings, record):
    """How many waits do not run yet: that of the current piece until its claim, and those of the later ones."""
    nodes = records.pieces(record)[record.current + (record.phase not in range(1, 6)):]
    return inner_pieces(settings.levels, nodes)


def t1_counts(record):
    """Between the noting of t1 and the last notice, at which the claim may be late."""
    return record.phase in (5, 6) and not records.at_root(record) or record.phase == 3 and record.place > 0


def latest(settings, record):
    """The latest clock of the next step by which those after it can still meet the conditions."""
    for_waits = settings.wait * waits_to_come(settings, record)
    limits = [TOP - for_waits]
    if record.current > 0:
        limits.append(record.taken + settings.patience - 1 - for_waits)
    if t1_counts(record):
        limits.append(record.t1 + first_late(settings.wait) - 1)
    return min(limits)


def earliest(settings, client):
    """The client's last clock, or in a wait the first by which T has passed."""
    return max(client.clock, client.record.t0 + settings.wait if client.record.phase == 7 else 0)


def drawn_clock(rng, settings, client):
    """A clock for the next step that meets the conditions: mostly the earliest or a little later, at times the latest."""
    first, last = earliest(settings, client), latest(settings, client.record)
    if last < first:
        raise ValueError("no clock meets the conditions")
    later = rng.randint(first, min(last, first + rng.choice([1, 2, settings.wait, 10 * settings.wait])))
    return rng.choice([first, first, later, last if last - first < FAR else later])


def step(table, client, clock):
    return table.answer(Call("step", client, clock), 1)


def run(rng, table, client, window):
    """Requests the window and steps until it is held, now and then by a clock that has gone back."""
    own, accepted, refused = table.clients[client], 0, 0
    if number := table.answer(Call("request", client, *window), 0):
        raise ValueError(f"the request is refused by {number}")
    while own.record.phase != 9 and accepted < MOST_STEPS:
        if own.clock > 0 and rng.random() < REFUSED_BY_5:
            refused += step(table, client, rng.randrange(own.clock)) == 5
        accepted += step(table, client, drawn_clock(rng, table.settings, own)) == 0
    return Run(accepted, own.record.phase, refused)


def opened(rng, settings, words):
    """A table that an opening left, with a few clients."""
    table = Table(settings, words, [IDLE_CLIENT] * rng.randint(1, 3))
    if number := table.open():
        raise ValueError(f"the opening is refused by {number}")
    return table


def fresh(rng, settings, words, window):
    return opened(rng, settings, words)


def after_a_history(rng, settings, words, window):
    """A table after a random history, at whose end all clients are idle."""
    table = opened(rng, settings, words)
    driver = Driver(table, rng.getrandbits(32))
    for made in range(MOST_CALLS):
        if made >= CALLS_BEFORE and not any(client.record.phase for client in table.clients):
            return table
        table.make(driver.next_call())
    raise ValueError("clients are not idle")


def equal_counts(rng):
    """An inner word of an idle tree: any ticket counts that are equal, and any notice counts, those before they wrap too."""
    tickets, notices = (rng.choice([0, 2 ** bits - 2, 2 ** bits - 1, rng.getrandbits(bits)]) for bits in (15, 16))
    return word.pack(word.Inner(exp=0, occ=0, tcnt=tickets, tmax=tickets, dcnt=notices, dmax=notices))


def with_equal_counts(rng, settings, words, window):
    """A table in which every inner word that the run touches has any equal counts."""
    table, (h, m, _, _) = opened(rng, settings, words), settings
    for n in pieces(h, *window):
        checked = [] if tree.is_leaf(h, n) else records.check_list(h, m, n)
        for touched in (*records.ancestors(n), *checked):
            table.words[touched - 1] = equal_counts(rng)
    return table


TREES = fresh, after_a_history, with_equal_counts


def begin_anywhere(rng, table, client, window):
    """An idle client may step to any clock before it requests, so far as the run's waits leave room behind it."""
    h, _, wait, _ = table.settings
    room = wait * inner_pieces(h, pieces(h, *window))
    clock = rng.choice([0, 2 ** 32 - 1, TOP - room - rng.randrange(5)])
    step(table, client, max(clock, table.clients[client].clock))

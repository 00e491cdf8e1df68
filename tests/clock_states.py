"""States in which the clients' own clocks matter: claims that are just late or just not, waits and patience that are just over or just
not, whatever the size of clock, T and P; and lent tables in which a client's clock is at, above or below its noted times and the other
clients' clocks, with every call that may tell them apart."""

from itertools import product
from typing import NamedTuple

from clocks import EDGE_WAITS, TOP, first_late
from histories import MOST_PATIENCE
from model import tree
from model.history import Call
from model.record import IDLE, Client, Record, Settings
from record_states import State

# H 3, m 1: a noted time with a record that is held to it. A leaf with its last notice to come, and node 2, whose only one that is; a
# wait; and the first step of a second leaf.
TIMED = (
    ("t1", Record(phase=6, left=3, right=9, first=6, grip=3, place=1, notices=1)),
    ("t1", Record(phase=6, left=0, right=256, first=2, grip=3, ticket=7)),
    ("t0", Record(phase=7, left=0, right=256, first=2, grip=3, ticket=7, notices=1)),
    ("taken", Record(phase=3, left=60, right=70, first=6, second=7, current=1)),
)


def wrapped(times):
    """The fewest ticks that, times 10,001, are so many times 2^64 or more: in 64 bits the product is below 10,001."""
    return -(-times * 2 ** 64 // 10001)


def any_wrapped(rng):
    return wrapped(rng.randint(1, 10000))


def ticks_since(length):
    """About the first with which a claim is late, about T or P, where a product or an elapse of fewer bits would be small again, and
    far."""
    near = {end + beside for end in (first_late(length), length) for beside in (-1, 0, 1)}
    return sorted(near | {0, 2 ** 32, 2 ** 32 + 1, 2 ** 63, TOP} | {wrapped(times) for times in (1, 2, 5000, 9999, 10000)})


def at_time(name, record, length, time, clock):
    """A step of a client that noted this time. Its last clock is that time, or the step's own; T or P is the length that is asked."""
    lengths = (MOST_PATIENCE, length) if name == "taken" else (length, MOST_PATIENCE)
    state = State(Settings(3, 1, *lengths), record._replace(**{name: time}), {}, tree.node_count(3), time)
    return [(state._replace(last=last), Call("step", 0, clock)) for last in sorted({time, clock})]


def timed_states():
    """Each of these with the time near 0, at 2^32 and such that the clock is the greatest."""
    for (name, record), length in product(TIMED, EDGE_WAITS):
        for ticks in ticks_since(length):
            for time in sorted({0, 7, 2 ** 32, TOP - ticks}):
                if time + ticks <= TOP:
                    yield from at_time(name, record, length, time, time + ticks)


class LentCall(NamedTuple):
    """A lent table and a call on it."""

    settings: Settings
    words: list
    clients: list
    call: Call


SETTINGS = Settings(2, 1, 5, 20)
CLEAR = [0] * 5
# The bits of [0, 10) in leaf 2.
TAKEN = [0, 2 ** 10 - 1, 0, 0, 0]
NEAR_TOP = TOP - 30


def noted(time):
    """A record for each of its noted times, with the words that it stands in. The last of them finds its bits clear, which is refused."""
    held = Record(phase=9, left=0, right=10, first=2, grip=3, notices=1, t1=time, taken=time)
    return [
        (Record(phase=5, left=0, right=10, first=2, t1=time), CLEAR),
        (Record(phase=6, left=0, right=10, first=2, grip=3, t1=time), TAKEN),
        (Record(phase=7, left=0, right=256, first=1, grip=3, t0=time), CLEAR),
        (Record(phase=3, left=60, right=70, first=2, second=3, current=1, taken=time), CLEAR),
        (held, TAKEN), (held._replace(phase=10, outcome=1), TAKEN),
        (held._replace(phase=10, outcome=1, place=1), CLEAR), (held._replace(phase=10, outcome=1), CLEAR),
        (IDLE._replace(outcome=2), CLEAR),
    ]


# What the other clients are: idle, and such that no last clock makes them readable.
OTHERS = IDLE, Record(phase=7, left=0, right=256, first=1, grip=3, t0=TOP, ticket=40000)


def clocks_of_steps(own, other, time):
    """About the client's own last clock and the others', and about where a wait is over, a claim late or patience at its end."""
    about = {clock + beside for clock in (own, other) for beside in (-1, 0, 1)}
    about |= {time + ticks + beside for ticks in (SETTINGS.wait, SETTINGS.patience) for beside in (-1, 0)}
    return sorted(clock for clock in about if 0 <= clock <= TOP)


def calls_on(client, own, other, time):
    yield from (Call("step", client, clock) for clock in clocks_of_steps(own, other, time))
    yield from (Call("request", client, 10, 20), Call("release", client), Call("cancel", client))


def lent_clocks():
    """The noted time, the client's own clock and the others'; near 0 and near 2^64."""
    for time in (100, NEAR_TOP):
        yield from ((time, own, other) for own, other in product((time - 1, time, time + 3), (0, time - 1, time, time + 25, TOP)))


def lent_calls():
    """Tables of three clients, with the one that is called first, in the middle and last."""
    for (time, own, other), client in product(lent_clocks(), range(3)):
        for record, words in noted(time):
            clients = [Client(other, OTHERS[place % 2]) for place in range(3)]
            clients[client] = Client(own, record)
            yield from (LentCall(SETTINGS, words, clients, call) for call in calls_on(client, own, other, time))


def lent_openings():
    """Tables with any clocks, of which the opening is accepted, or refused by 1, 2 or 3."""
    held = Record(phase=9, left=0, right=10, first=2, grip=3, notices=1, taken=90)
    for clocks in ([100], [0, 100], [TOP, 0, 1], [2 ** 32] * 7):
        clients = [Client(clock, held) for clock in clocks]
        for wait, words, lent in ((5, TAKEN, clients), (0, TAKEN, clients), (5, TAKEN[:4], clients), (5, TAKEN, [])):
            yield SETTINGS._replace(wait=wait), words, lent

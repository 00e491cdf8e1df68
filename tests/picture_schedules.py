"""Schedules to draw: random ones in which many windows of all sizes are really held, and ones at the edges of what a picture must show."""

from random import Random
from typing import NamedTuple

from clocks import TOP
from histories import Shape, opened
from model import tree
from model.history import Call
from model.record import Settings
from model.schedule import Schedule


class Busy(NamedTuple):
    """How a random schedule goes: whether each client has its own clock, how often a clock stands still and how far it goes on at most, and
    how often the same client is called again, a holder releases, a client cancels, and a call is one that is refused."""

    own: bool = False
    still: float = 0.6
    gap: int = 2
    again: float = 0.95
    releases: float = 0.1
    cancels: float = 0.01
    refused: float = 0.02


# A client that holds, releases and holds again within one clock; and clocks with gaps up to 2^58.
STILL = Busy(still=0.985, gap=1, releases=0.5)
FAR = Busy(still=0.95, gap=2 ** 58, releases=0.3)
# Clocks that start anywhere, and stand still or go on whatever the others do.
OWN = Busy(own=True)

# The phases in which another step may change nothing, since others have to go on first.
WAITING = 2, 4, 7, 8, 9


def window_of(rng, n):
    """A window of any size; great ones are seldom, since they keep everybody else out."""
    size = min(rng.randint(1, 4 ** rng.randint(0, 3 if rng.random() < 0.96 else 8)), n)
    left = rng.randint(0, n - size)
    return rng.choice([(left, left + size), (left // 64 * 64, left // 64 * 64 + size)])


def refused_call(rng, lock):
    client, clients = rng.randrange(len(lock.clients)), len(lock.clients)
    clock = lock.clients[client].clock
    gone_back = Call("step", client, clock - 1) if clock else Call("release", clients)
    return rng.choice([Call("request", client, 5, 5), Call("step", clients + rng.randrange(3), clock), Call("release", client), gone_back,
                       Call("cancel", client)])


def last_clock(rng, lock, client, own):
    """The clock from which a client's clock goes on: its own, which begins anywhere, or the last of all."""
    if own:
        return lock.clients[client].clock or rng.randrange(10 ** 6)
    return max(each.clock for each in lock.clients)


def wanted(rng, lock, client, busy):
    """What brings a client on."""
    phase, chance = lock.clients[client].record.phase, rng.random()
    if phase == 0:
        return Call("request", client, *window_of(rng, tree.units(lock.settings.levels)))
    if phase == 9 and chance < busy.releases:
        return Call("release", client)
    if 1 <= phase <= 8 and chance < busy.cancels:
        return Call("cancel", client)
    gap = 0 if rng.random() < busy.still else rng.randint(1, busy.gap)
    return Call("step", client, min(last_clock(rng, lock, client, busy.own) + gap, TOP))


def busy_schedule(seed, shape, busy=Busy()):
    """Calls that mostly bring the same client on until it has to wait."""
    rng, lock, client = Random(f"picture {seed}"), opened(shape), 0
    for _ in range(shape.calls):
        if lock.clients[client].record.phase in WAITING or rng.random() > busy.again:
            client = rng.randrange(shape.clients)
        lock.make(refused_call(rng, lock) if rng.random() < busy.refused else wanted(rng, lock, client, busy))
    return Schedule(shape.settings, shape.clients, tuple(made.call for made in lock.history))


def great():
    """As great as a schedule can be: 64 clients, 6 levels, 2,729 calls."""
    return busy_schedule("great", Shape(Settings(6, 2, 60, 200), 64, 2729), Busy(releases=0.5))


def holds_and_releases(client, left, right, clock):
    """The calls by which a client gets a part of a leaf of two levels and gives it back, within one clock."""
    steps = [Call("step", client, clock)] * 3
    return [Call("request", client, left, right), *steps, Call("release", client), *steps[:2]]


def one_by_one(client, left, time):
    """The same calls, each step at a clock of its own."""
    calls = holds_and_releases(client, left, left + 1 + time % 40, 0)
    return [call._replace(a=len(calls) * time + place) if call.kind == "step" else call for place, call in enumerate(calls)]


def held_by_two(ends):
    """Clients 0 and 2 take a part of a leaf each. Client 1 takes the whole tree, by a clock that goes on by the wait meanwhile; then both are
    in time by their own clocks, which stood still. `ends` is who gives back, in which order."""
    claims = [[Call("request", client, left, left + 10), *[Call("step", client, clock)] * 2] for client, left, clock in ((0, 50, 5), (2, 70, 9))]
    whole = [Call("request", 1, 0, 256), *[Call("step", 1, 5)] * 3, *[Call("step", 1, 10)] * 2]
    returns = ([Call("release", client), *[Call("step", client, 99)] * 2] for client in ends)
    return (*claims[0], *claims[1], *whole, Call("step", 2, 9), Call("step", 0, 5), *(call for calls in returns for call in calls))


def held_by_two_in_part():
    """At three levels: client 0 is at its second leaf when client 1 takes the node above that leaf, by a clock that goes on by the wait."""
    second = [Call("request", 0, 200, 300), *[Call("step", 0, 5)] * 8]
    above = [Call("request", 1, 256, 512), *[Call("step", 1, 5)] * 5, *[Call("step", 1, 10)] * 2]
    return (*second, *above, *[Call("step", 0, 5)] * 2)


def at_the_edges():
    """Windows that two clients hold, no calls, one call, refused calls alone, the greatest clocks, 64 units held at once, one unit held by
    turns within a clock, and as many refused calls and as many holdings as a schedule has room for."""
    small = Settings(2, 1, 5, 20)
    yield from (Schedule(small, 3, held_by_two(ends)) for ends in ((), (0, 1, 2), (1, 2)))
    yield Schedule(small._replace(levels=3), 2, held_by_two_in_part())
    yield Schedule(small, 2, ())
    yield Schedule(small, 64, (Call("request", 63, 0, 256),))
    yield Schedule(small, 1, (Call("step", 0, 999),))
    yield Schedule(small, 3, (Call("release", 7), Call("cancel", 1), Call("request", 65535, 3, 3)))
    early, last = holds_and_releases(0, 63, 64, 1)[:-1], holds_and_releases(1, 64, 65, TOP - 1)[:-1]
    yield Schedule(small, 2, (*early, *last, Call("step", 0, TOP)))
    yield Schedule(small, 64, tuple(call for client in range(64) for call in holds_and_releases(client, client, client + 1, client // 9)[:4]))
    yield Schedule(small, 5, tuple(call for time in range(40) for call in holds_and_releases(time % 5, 7, 8, time // 20)))
    yield Schedule(small, 1, tuple(Call("cancel", 0) for _ in range(2729)))
    yield Schedule(small, 64, tuple(call for time in range(389) for call in one_by_one(time % 64, time % 4 * 64 + time % 24, time)))

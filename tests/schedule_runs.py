"""What the model makes of a schedule, call by call, with the clock that `tools/schedule` must tell with each call; and from the history alone
who held what, and which windows two clients held at the same time."""

from collections import Counter
from typing import NamedTuple

from model import tree
from model.history import Made, Opened, holds, overlap
from model.moments import moments_of
from model.record import IDLE, IDLE_CLIENT, Record

EACH_ITS_OWN = ("each client has its own: they go back along the schedule, so that those of two clients cannot be compared; "
                "the numbers of the calls say what came first")
TRUE_MOMENTS = "there are moments that keep what request 2.3 supposes of clocks: single holding is promised"
NO_TRUE_MOMENTS = "no moments keep what request 2.3 supposes of clocks: by it single holding is not promised (docs/DEMAND-3.md)"
CANNOT_BE = "clocks that keep what request 2.3 supposes cannot do this: docs/DEMAND-3.md says why"


class Run(NamedTuple):
    """A call as the model makes it: its place, the table after it, what was made, the client's record before and after, and the clock that is
    told with it."""

    place: int
    opened: Opened
    made: Made
    before: Record
    after: Record
    clock: int


class Held(NamedTuple):
    """A window that a client held, in words from when and to when, and how many accepted steps it made from its request on until then; with
    no end if it still holds it."""

    client: int
    window: tuple
    start: int
    since: str
    steps: int
    end: int = None
    until: str = ""


def opened_for(read):
    return Opened(read.settings, [0] * tree.node_count(read.settings.levels), [IDLE_CLIENT] * read.clients)


def made_by_model(read):
    lock = opened_for(read)
    return [lock.make(call) for call in read.calls]


def one_clock(history):
    """Whether the clocks of accepted steps never go back."""
    clocks = [made.call.a for made in history if made.call.kind == "step" and made.number == 0]
    return clocks == sorted(clocks)


def told_clocks(history, clients):
    """An accepted step sets its client's clock. If they never go back along a schedule, the last of them is told, whosever it is."""
    one, last = one_clock(history), Counter()
    for call, number, _ in history:
        whose = 0 if one else call.client
        if call.kind == "step" and number == 0:
            last[whose] = call.a
        yield last[whose] if one or call.client < clients else None


def clocks_in_words(history):
    """What is said of clocks that go back along a schedule."""
    return [] if one_clock(history) else [EACH_ITS_OWN, NO_TRUE_MOMENTS if moments_of(history) is None else TRUE_MOMENTS]


def run_by_model(read):
    """Each call of a schedule. The table is the same one throughout, and goes on with the calls."""
    opened = opened_for(read)
    for place, (call, clock) in enumerate(zip(read.calls, told_clocks(made_by_model(read), read.clients))):
        there = call.client < read.clients
        before = opened.clients[call.client].record if there else IDLE
        made = opened.make(call)
        yield Run(place, opened, made, before, opened.clients[call.client].record if there else IDLE, clock)


def at(run):
    return f"call {run.place}" if run.clock is None else f"clock {run.clock} (call {run.place})"


def holdings(read):
    """Who held what, in the order in which it began: a window is held from the first call after which `holds` says so."""
    held, found, steps = {}, [], Counter()
    for run in run_by_model(read):
        client, now = run.made.call.client, holds(run.opened.history, run.made.call.client)
        if run.made.number == 0:
            steps[client] = 0 if run.made.call.kind == "request" else steps[client] + 1
        if now and client not in held:
            held[client] = len(found)
            found.append(Held(client, now, run.place, at(run), steps[client]))
        elif client in held and not now:
            place = held.pop(client)
            found[place] = found[place]._replace(end=run.place, until=at(run))
    return found


def held_by_two(found):
    """Each pair of holdings that overlap in units and in calls, the one that began later first."""
    for place, later in enumerate(found):
        for earlier in found[:place]:
            if (earlier.end is None or earlier.end > later.start) and overlap(later.window, earlier.window):
                yield later, earlier


def in_words(window):
    return "[{}, {})".format(*window)


def common(one, other):
    return in_words((max(one[0], other[0]), min(one[1], other[1])))


def held_by_two_in_words(found):
    """What is said of windows that two clients hold: the call, both clients, their windows, and what it means."""
    said = [f"client {later.client} holds {in_words(later.window)} from {later.since} on, while client {earlier.client} holds "
            f"{in_words(earlier.window)} since {earlier.since}: both hold {common(later.window, earlier.window)}"
            for later, earlier in held_by_two(found)]
    return said + [CANNOT_BE] * (said != [])


def section(lines, title):
    """The lines below a title of a report, without their indent, up to the next blank one."""
    below = lines[lines.index(title) + 1:] if title in lines else []
    return [line[2:] for line in (below[:below.index("")] if "" in below else below)]

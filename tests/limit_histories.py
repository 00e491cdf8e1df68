"""Histories at the very limit of request 2.3's supposition: a client claims a lower piece, another a piece above it, and the one is late or
taken by as little as the supposition leaves. The client of the higher piece has the fastest clock that there may be, and that of the lower
piece the slowest."""

from itertools import combinations, product
from typing import NamedTuple

from clocks import EDGE_WAITS, TOP, fewest_ticks, first_late
from histories import MOST_PATIENCE
from model import record as records
from model import tree
from model.history import Call, Opened
from model.moments import greatest_elapse, least_elapse
from model.record import IDLE_CLIENT, Settings

LOWER, HIGHER = 0, 1
NOTIFY, WAIT, CHECK = 6, 7, 8


class Limit(NamedTuple):
    """A tree, the windows of the lower and of the higher piece, and the two clients' first clocks."""

    settings: Settings
    lower: tuple
    higher: tuple
    first_clocks: tuple


class Finished(NamedTuple):
    """The table that a history left, and the moment of each of its calls."""

    lock: Opened
    moments: list


class Maker:
    """Makes calls at moments."""

    def __init__(self, limit):
        self.limit, self.moment, self.moments = limit, 0, []
        self.lock = Opened(limit.settings, [0] * tree.node_count(limit.settings.levels), [IDLE_CLIENT] * 2)

    def record(self, client):
        return self.lock.clients[client].record

    def make(self, call):
        self.lock.make(call)
        self.moments.append(self.moment)

    def request(self, client, window):
        self.make(Call("request", client, *window))

    def step_while(self, client, ticks, goes_on):
        """Steps a client, so many ticks after its first clock, until it is where it is to stay or a step changes nothing."""
        before = None
        while goes_on(self.record(client)) and self.record(client) != before:
            before = self.record(client)
            self.make(Call("step", client, self.limit.first_clocks[client] + ticks))


def next_notice(settings, record):
    return records.walked(settings, record)[record.place]


def both_under_way(limit):
    """The lower piece is claimed, with the notice still to come that the higher one will check for; then the higher piece's wait begins.
    All of that passes at moment 0."""
    maker, settings = Maker(limit), limit.settings
    above = records.cover_of(settings.levels, *limit.higher)[0]
    checked = records.check_list(settings.levels, settings.distance, above)
    maker.request(LOWER, limit.lower)
    maker.step_while(LOWER, 0, lambda record: record.phase != NOTIFY or next_notice(settings, record) not in checked)
    maker.request(HIGHER, limit.higher)
    maker.step_while(HIGHER, 0, lambda record: record.phase != WAIT)
    return maker


def finish_higher(maker, ticks):
    """The first moment at which so many ticks may have passed: if its wait is over, the nodes are checked."""
    maker.moment = least_elapse(ticks)
    maker.step_while(HIGHER, ticks, lambda record: record.phase in (WAIT, CHECK))


def finish_lower(maker, ticks):
    """The rest of the notices, at the moment that is the maker's."""
    maker.step_while(LOWER, ticks, lambda record: record.phase == NOTIFY)


def late_by_least(limit):
    """The higher piece is held at the first moment at which it can be; then the lower one's last notice comes by the slowest clock."""
    return lower_last(limit, limit.settings.wait)


def one_tick_short(limit):
    """The same where one tick of the higher piece's wait is left: it is not held."""
    return lower_last(limit, limit.settings.wait - 1)


def lower_last(limit, ticks):
    maker = both_under_way(limit)
    finish_higher(maker, ticks)
    finish_lower(maker, fewest_ticks(maker.moment))
    return Finished(maker.lock, maker.moments)


def taken_at_last(limit):
    """The lower piece's last notice comes with the most ticks with which it is not late, at the last moment at which a clock may have gone
    on by so few; then the higher one's wait is over."""
    maker, ticks = both_under_way(limit), first_late(limit.settings.wait) - 1
    maker.moment = greatest_elapse(ticks)
    finish_lower(maker, ticks)
    finish_higher(maker, limit.settings.wait)
    return Finished(maker.lock, maker.moments)


def window_of(h, level):
    """Ten units of the first leaf, or the whole of the first node at another level."""
    return (0, 10) if level == h else tree.node_range(h, tree.first_node(level))


def limits(waits=EDGE_WAITS, levels=range(2, 6)):
    """Every pair of levels in trees of 2 to 5 levels, with every m and T; the first clocks are near 0, near 2^32, and such that the last
    clock is the greatest number."""
    pieces = [(h, higher, lower) for h in levels for higher, lower in combinations(range(1, h + 1), 2)]
    for (h, higher, lower), m, wait in product(pieces, tree.DISTANCES, waits):
        windows = window_of(h, lower), window_of(h, higher)
        at_the_end = TOP - fewest_ticks(least_elapse(wait)), TOP - wait
        yield from (Limit(Settings(h, m, wait, MOST_PATIENCE), *windows, clocks) for clocks in ((0, 1), (2 ** 32 - 1, 3), at_the_end))

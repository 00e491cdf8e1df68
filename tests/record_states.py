"""States in which a call on one client is made: settings, record, words that are not 0, word count and the client's last clock."""

from functools import lru_cache
from random import Random
from typing import NamedTuple

import cover_cases
from clocks import first_late
from histories import TOP, Driver
from model import readable, tree, word
from model import record as records
from model.fresh import Fresh
from model.history import Call
from model.record import IDLE, Client, Record, Settings
from word_cases import random_inner

SMALL_TIMES = (1, 2, 3, 5, 9)
# Up to 5,000 ticks a claim is late when T has passed, and then sooner.
LONG_TIMES = (5000, 5001, 10001, 123456)
GREATEST_TIME = 2 ** 32 - 1
POOL = 200
# Numbers outside the range of each setting: just outside it, far, and such as would be inside it cut to 32 bits.
OUTSIDE = Settings(
    levels=(0, 1, 13, 14, 64, 2 ** 32 + 2, TOP), distance=(0, 5, 6, 2 ** 32 + 1, TOP), wait=(0, 2 ** 32, 2 ** 32 + 1, TOP),
    patience=(0, 2 ** 32, 2 ** 32 + 1, TOP))


class State(NamedTuple):
    """What a call is lent. `words` has a word for each node whose word is not 0."""

    settings: Settings
    record: Record
    words: dict
    count: int
    last: int

    @property
    def client(self):
        return Client(self.last, self.record)


def one_outside(settings):
    """The settings with each of them in turn outside its range."""
    return [settings._replace(**{name: value}) for name, values in OUTSIDE._asdict().items() for value in values]


def any_settings(rng, h):
    wait, patience = (rng.choice([*SMALL_TIMES, *LONG_TIMES, rng.randint(10, 1000), GREATEST_TIME]) for _ in range(2))
    return Settings(h, rng.choice(tree.DISTANCES), wait, patience)


def any_clock(rng):
    """Near 0, near the greatest 64-bit number, or anywhere."""
    return rng.choice([0, 1, rng.randrange(100), TOP, TOP - 1, TOP - rng.randrange(100), GREATEST_TIME, rng.getrandbits(64)])


def short_window(rng, h):
    """A window of one leaf or two."""
    left = rng.randrange(tree.units(h))
    return left, min(left + rng.choice([1, 2, 64, rng.randint(1, 128)]), tree.units(h))


@lru_cache(maxsize=None)
def windows(h):
    """Windows of every size inside the tree of H levels, half as many short ones among them."""
    rng = Random(f"windows of records at {h}")
    found = [window for window in cover_cases.windows_of(h, rng) if window[0] < window[1]]
    return found[:POOL] + [short_window(rng, h) for _ in range(POOL // 2)]


def reached(rng, h, calls):
    """Each call of a random history that names a client of the table, with the state before it. Each client's clock may start far on."""
    lock = Fresh(any_settings(rng, h), rng.randint(2, 4))
    driver = Driver(lock, rng.getrandbits(32))
    for client in range(len(lock.clients)):
        lock.make(Call("step", client, any_clock(rng)))
    for _ in range(calls):
        call = driver.next_call()
        if call.client < len(lock.clients):
            last, record = lock.clients[call.client]
            yield State(lock.settings, record, dict(lock.words.words), len(lock.words), last), call
        lock.make(call)


def phases_at(settings, n):
    """The phases that the current piece may be in."""
    if tree.is_leaf(settings.levels, n):
        return (3, 4, 5, 6, 9, 10)
    return (1, 2, 5, 7, 8, 9, 10) if n == 1 else range(1, 11)


def noted_time(rng, length, last):
    """A time not after the last clock: at its ends, or about T or P before it, whose length is given."""
    before = last - length
    chosen = rng.choice([0, last, last - 1, before - 1, before, before + 1, rng.randint(0, last)])
    return min(max(chosen, 0), last)


def noted_taken(rng, settings, record, last):
    """The third noted time: 0 at a first piece, save in 9 or in 10 with outcome 1."""
    may_be_noted = record.current > 0 or record.phase == 9 or record.outcome == 1
    return noted_time(rng, settings.patience, last) if may_be_noted else 0


def drawn(rng, settings, last):
    """A record whose fields fit each other, save that a returning piece may have grip 0."""
    left, right = rng.choice(windows(settings.levels))
    first, second = records.cover_of(settings.levels, left, right)
    current = rng.randint(0, 1 if second else 0)
    phase = rng.choice(phases_at(settings, (first, second)[current]))
    current = (1 if second else 0) if phase == 9 else current
    outcome = rng.randint(1, 4 if current > 0 else 3) if phase == 10 else 0
    record = Record(phase, outcome, left, right, first, second, current)
    record = record._replace(
        giving=rng.randint(0, current) if phase == 10 else 0,
        grip=rng.choice(readable.grips(settings, record)),
        ticket=rng.choice([0, 1, 32766, 32767, rng.randint(0, 32767)]),
        t1=noted_time(rng, rng.choice([settings.wait, first_late(settings.wait)]), last),
        t0=noted_time(rng, settings.wait, last),
        taken=noted_taken(rng, settings, record, last))
    return with_place(rng, settings, record)


def with_place(rng, settings, record):
    """A place of the list that is walked, its ends more often, and a notice count that goes with grip and place."""
    length = len(records.notify_list(settings.distance, records.current_node(record)))
    if record.grip == 3:
        record = record._replace(notices=rng.choice([length, length, rng.randint(0, length)]))
    nodes = records.walked(settings, record)
    if nodes:
        record = record._replace(place=rng.choice([0, len(nodes) - 1, rng.randrange(len(nodes))]))
    return record._replace(notices=record.place) if record.phase == 6 else record


def built(rng, settings, last):
    """A readable record, now and then an idle one."""
    if rng.random() < 0.05:
        return IDLE._replace(outcome=rng.randint(0, 4))
    while True:
        record = drawn(rng, settings, last)
        if not readable.unreadable(settings, record, last):
            return record


def leaf_word(rng, settings, record, n):
    """The wanted bits all 0, all 1, or all but one of either, among other bits that are random."""
    wanted = records.wanted_bits(settings.levels, record.left, record.right, n)
    others = rng.choice([0, TOP, rng.getrandbits(64)])
    clear, full = others & ~wanted, others | wanted
    return rng.choice([clear, full, clear, full, clear | wanted & -wanted, full ^ (wanted & -wanted)])


def inner_word(rng, record):
    """TCnt is often the ticket or beside it, DCnt often DMax; every field is often beside its wrap."""
    inner = word.unpack(random_inner(rng))
    tcnt = rng.choice([record.ticket, record.ticket, record.ticket + 1, inner.tcnt]) % 2 ** word.WIDTH.tcnt
    dcnt = rng.choice([inner.dmax, inner.dmax, inner.dmax, inner.dmax + 1, inner.dcnt]) % 2 ** word.WIDTH.dcnt
    return word.pack(inner._replace(occ=rng.randint(0, 1), tcnt=tcnt, dcnt=dcnt))


def touched(settings, record):
    """The pieces, and the node at the place of the list that is walked."""
    walked = records.walked(settings, record)
    return [*records.pieces(record), *([walked[record.place]] if walked else [])]


def any_word(rng, settings, record, n):
    return leaf_word(rng, settings, record, n) if tree.is_leaf(settings.levels, n) else inner_word(rng, record)


def words_for(rng, settings, record):
    """A word for nearly each node that a step may touch, and for some of those above."""
    above = {n for piece in records.pieces(record) for n in records.ancestors(piece)}
    chosen = {n for n in touched(settings, record) if rng.random() > 0.05} | {n for n in above if rng.random() < 0.3}
    return {n: any_word(rng, settings, record, n) for n in sorted(chosen)}


def built_state(rng, h):
    """A readable record with any words and any last clock."""
    settings, last = any_settings(rng, h), any_clock(rng)
    record = built(rng, settings, last)
    return State(settings, record, words_for(rng, settings, record), tree.node_count(h), last)


def bounds(state):
    """For each field the numbers at and beside its bounds."""
    record, n, count = state.record, tree.units(state.settings.levels), state.count
    nodes = (1, 2, tree.parent(record.first), record.first, record.second, count, count + 1)
    times = (state.last - 1, state.last, state.last + 1)
    return Record(
        phase=range(13), outcome=range(6), left=(n - 1, n, record.right), right=(n, n + 1, record.left),
        first=nodes, second=nodes, current=range(3), giving=range(3), grip=range(5),
        ticket=(32767, 32768, 65536 + record.ticket), place=range(12), notices=range(12), t1=times, t0=times, taken=times)


def perturbed(rng, state):
    """The state with one field of its record changed: to 0, 1, the greatest number, a neighbour, or about a bound."""
    name = rng.choice(Record._fields)
    value, near = getattr(state.record, name), tuple(getattr(bounds(state), name))
    chosen = rng.choice([0, 1, value + 1, value - 1, TOP, TOP - 1, 2 ** 32 + value, *3 * near])
    return state._replace(record=state.record._replace(**{name: chosen % 2 ** 64}))


def any_number(rng):
    return rng.choice([0, 0, 1, 2, 3, rng.randrange(20), TOP, rng.getrandbits(64)])


def any_state(rng, h):
    """A record each of whose fields is at times that of a readable one, at times any small or great number; any phase
    up to 12."""
    state = built_state(rng, h)
    share = rng.choice([0.1, 0.5, 0.9])
    fields = [value if rng.random() < share else any_number(rng) for value in state.record]
    return state._replace(record=Record(*fields)._replace(phase=rng.randrange(13)))

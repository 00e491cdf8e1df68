"""What is asked of operations that are posted together, and what the model answers: which they are, in lists with room for none up to more than all;
and how many of them count by words that are good, turned at any place, any at all, too few or too many. Of clients in every phase, damaged, with
clocks that are refused and settings outside their ranges."""

from itertools import chain, islice
from random import Random
from typing import NamedTuple

from model import ahead, operations, word
from model import record as records
from model.operations import SWAP
from model.record import Client, Settings
from operation_states import any_found, states_at, states_at_bounds, states_outside
from record_cases import step_clock
from record_states import built_state
from word_cases import random_inner

# The longest list, a check of 1 + 4 + 16 + 64 nodes, and how many words are found at most beyond a list.
LONGEST, BEYOND = 85, 3
# Of the states in histories, readable, damaged and with any fields, one in so many; of those at bounds likewise.
PART, PART_AT_BOUNDS, EVERY_PLACE_PART = 8, 8, 160
# Of each kind of state that is seldom drawn, so many.
SELDOM = 2
TELLING = "occ", "tcnt", "dcnt", "dmax"


class Ahead(NamedTuple):
    """Which operations a client posts together, into a list that has room for so many."""

    settings: Settings
    client: Client
    clock: int
    room: int

    def answer(self):
        """The number, how many they are, and all their fields."""
        found = ahead.operations_ahead(*self)
        return found.number, found.count, *(field for posted in found.operations for field in posted)

    def arguments(self):
        return *self.settings, self.client.clock, *self.client.record, self.clock, self.room


class CompletedAll(NamedTuple):
    """The words that the operations of a client found."""

    settings: Settings
    client: Client
    clock: int
    found: tuple

    def answer(self):
        """The number, how many count, and the client after those."""
        number, counted, after = ahead.completed_all(*self)
        return number, counted, after.clock, *after.record

    def arguments(self):
        return *self.settings, self.client.clock, *self.client.record, self.clock, *self.found


class Found(NamedTuple):
    """A word by which a client goes on; one that differs in one field or all, or in a bit, and may be as good where nothing looks at that; and one by
    which it does not go on, if any word can keep it."""

    good: int
    turned: int
    bad: int


def posted_by(state, clock):
    """The operations that the model posts together; none where the call is refused."""
    return ahead.operations_ahead(state.settings, state.client, clock, LONGEST).operations


def found_by_swap(rng, posted):
    """What it expects in the compared bits, or all of these but one, with any bits beside them."""
    good = posted.expected | any_found(rng) & ~posted.compared
    compared = [bit for bit in range(64) if posted.compared >> bit & 1]
    return Found(good, good ^ 1 << rng.choice(compared), good ^ 1 << rng.choice(compared))


def found_in_inner(rng, client):
    """Any fields, but the turn has come, Occ is clear, and every notice has been given back; or one or all of these are not so."""
    inner = word.unpack(random_inner(rng))
    good = inner._replace(occ=0, tcnt=client.record.ticket, dcnt=inner.dmax)
    changed = rng.choice([TELLING[:3], *((name,) for name in TELLING)])
    return Found(*(word.pack(one_more(good, names)) for names in ((), changed, TELLING[:3])))


def one_more(inner, names):
    """The word with 1 added in these fields, each of which wraps by itself."""
    return inner._replace(**{name: (getattr(inner, name) + 1) % 2 ** getattr(word.WIDTH, name) for name in names})


def words_of(rng, state, clock):
    """For each operation that is posted a good word and a turned one, where all before it found good ones."""
    client, found = state.client, []
    for posted in posted_by(state, clock):
        found.append(found_by_swap(rng, posted) if posted.kind == SWAP else found_in_inner(rng, client))
        client = operations.completed(state.settings, client, clock, found[-1].good).client
    return found


def good(rng, words):
    return [each.good for each in words]


def other_at(words, place, which):
    """Another word at one place, and good ones before and behind it."""
    return [getattr(each, which) if at == place else each.good for at, each in enumerate(words)]


def turned(rng, words):
    return other_at(words, rng.randrange(len(words)), "turned") if words else []


def mixed(rng, words):
    return [rng.choice(each) for each in words]


def any_words(rng, words):
    return [any_found(rng) for _ in words]


def too_few(rng, words):
    return good(rng, words)[:rng.randrange(len(words))] if words else []


def too_many(rng, words):
    return [*rng.choice([good, turned])(rng, words), *(any_found(rng) for _ in range(rng.randint(1, BEYOND)))]


def none(rng, words):
    return []


FOUND = good, good, turned, turned, turned, mixed, any_words, too_few, too_many, none


def any_room(rng, length):
    """None, one, two, about as many as the list has, and any."""
    return rng.choice([0, 1, 2, 3, max(length - 1, 0), length, length, length + 1, length + 2, rng.randrange(LONGEST + 3)])


def asked_of(rng, state, clock):
    """One question of either kind."""
    yield Ahead(state.settings, state.client, clock, any_room(rng, len(posted_by(state, clock))))
    yield CompletedAll(state.settings, state.client, clock, tuple(rng.choice(FOUND)(rng, words_of(rng, state, clock))))


def asked_at(h, part=PART):
    """Of states that histories reach, readable ones, damaged ones and any fields, by a clock about those that matter to them."""
    rng = Random(f"ahead at {h}")
    return (asked for state in states_at(h, part) for asked in asked_of(rng, state, step_clock(rng, state)))


def asked_at_bounds(part=PART_AT_BOUNDS):
    """Claims that are just late or just not, waits and patience that are just over or just not; every outcome and third time in every phase."""
    rng = Random("ahead at bounds")
    by_steps = ((state, call.a) for state, call in states_at_bounds() if call.kind == "step")
    return (asked for state, clock in islice(by_steps, None, None, part) for asked in asked_of(rng, state, clock))


def asked_outside():
    rng = Random("ahead with settings outside their ranges")
    return (asked for state in states_outside(rng) for asked in asked_of(rng, state, step_clock(rng, state)))


def returns_two_leaves(state):
    """Both pieces are leaves that are still to be given back: the second's word may be refused, when the first's has counted."""
    return state.record.phase == 10 and sum(posted.kind == SWAP for posted in posted_by(state, state.last)) == 2


def checks_before_another_piece(state):
    """The check of an inner node, behind which another piece begins."""
    return state.record.phase == 8 and not records.is_last(state.record)


def posts_in(phase, many):
    """In this phase it posts more than so many operations together."""
    return lambda state: state.record.phase == phase and len(posted_by(state, state.last)) > many


def seldom_drawn(rng, h):
    """A few states of each kind that is seldom drawn. In a tree of H 2 the one inner node is the root: no piece comes after it, and most lists are
    short."""
    more_than = {1: 2, 2: 1, 3: 1, 4: 2, 8: 1} if h > 2 else {}
    wanted = [*([checks_before_another_piece] if h > 2 else []), *(posts_in(*each) for each in more_than.items())]
    for each in (returns_two_leaves, *wanted):
        yield from islice(filter(each, iter(lambda: built_state(rng, h), None)), SELDOM)


def at_every_place(h, part=EVERY_PLACE_PART):
    """Of fewer states: every room up to past the list's end, no words, good ones, too many, and a bad one at every place."""
    rng = Random(f"ahead at every place at {h}")
    drawn = ((state, step_clock(rng, state)) for state in states_at(h, part))
    for state, clock in chain(drawn, ((state, state.last) for state in seldom_drawn(rng, h))):
        words = words_of(rng, state, clock)
        yield from (Ahead(state.settings, state.client, clock, room) for room in range(len(words) + 2))
        found = [], good(rng, words), too_many(rng, words), *(other_at(words, place, "bad") for place in range(len(words)))
        yield from (CompletedAll(state.settings, state.client, clock, tuple(each)) for each in found)

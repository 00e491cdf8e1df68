"""The phase table: a function for each row, and returning. Each gives what a step of a readable record does."""

from typing import NamedTuple

from model import record as records
from model import tree, word
from model.record import IDLE

WITH_PATIENCE = range(1, 9)


class Step(NamedTuple):
    """The number (0 accepted), the record after, and the node whose word is written (0 for none) with that word."""

    number: int
    record: records.Record
    node: int = 0
    word: int = 0


def word_at(words, n):
    """Node n is word n - 1 of the lent 64-bit words."""
    return words[n - 1]


def inner_at(words, n):
    return word.unpack(word_at(words, n))


def read(record):
    """A step that reads a word, or touches none, and leaves this record."""
    return Step(0, record)


def to(record, phase, **fields):
    """A change of phase sets the place to 0, except from 3 to 4."""
    return record._replace(phase=phase, place=0, **fields)


def first_phase(settings, n):
    """Phase 1 for an inner first piece and 3 for a leaf."""
    return 3 if tree.is_leaf(settings.levels, n) else 1


def begun(settings, record, i):
    """Beginning a piece zeroes grip, ticket, notices, t1 and t0."""
    phase = first_phase(settings, records.pieces(record)[i])
    return to(record, phase, current=i, grip=0, ticket=0, notices=0, t1=0, t0=0)


def noted_if_first(record, clock):
    """The third noted time is the clock at which its first piece was taken."""
    return record._replace(taken=clock) if record.current == 0 else record


def taken(settings, record, clock):
    """A taken piece starts the next the same way, or gives 9."""
    record = noted_if_first(record, clock)
    return to(record, 9) if records.is_last(record) else begun(settings, record, record.current + 1)


def returning(record, outcome):
    """Returning begins with the first piece's own word."""
    return to(record, 10, outcome=outcome, giving=0)


def late(settings, record, clock):
    """A claim is late unless 10,001 * (clock - t1) < 9,999 * T."""
    return not 10001 * (clock - record.t1) < 9999 * settings.wait


def waited(settings, record, clock):
    """clock - t0 >= T."""
    return clock - record.t0 >= settings.wait


def patience_run_out(settings, record, clock):
    """A step in phases 1 to 8 of a second piece, with clock less that time at least P. Every later piece is meant, not the second alone."""
    return record.phase in WITH_PATIENCE and record.current > 0 and clock - record.taken >= settings.patience


def nothing(settings, record, words, clock):
    """0 idle, 9 held: nothing."""
    return read(record)


def ticket(settings, record, words, clock):
    """1 ticket: TMax + 1 at the piece; old TMax is the ticket; to 2."""
    n = records.current_node(record)
    after = to(record, 2, grip=1, ticket=inner_at(words, n).tmax)
    return Step(0, after, n, word.add(word_at(words, n), "tmax", 1))


def turn(settings, record, words, clock):
    """2 turn: read it; TCnt equals the ticket: to 3 (root: to 5)."""
    if inner_at(words, records.current_node(record)).tcnt != record.ticket:
        return read(record)
    return read(to(record, 5 if records.at_root(record) else 3, grip=2))


def climb(settings, record, words, clock):
    """3 climb: read the ancestor, parent first. Occ set: to 4. Clear: note t1 if it is the parent; go up, after the
    root to 5."""
    nodes = records.walked(settings, record)
    if inner_at(words, nodes[record.place]).occ == 1:
        return read(record._replace(phase=4))
    t1 = clock if record.place == 0 else record.t1
    if nodes[record.place] == 1:
        return read(to(record, 5, t1=t1))
    return read(record._replace(place=record.place + 1, t1=t1))


def blocked(settings, record, words, clock):
    """4 blocked: read that ancestor; Occ clear: to 3 at the parent."""
    ancestor = records.walked(settings, record)[record.place]
    return read(record if inner_at(words, ancestor).occ == 1 else to(record, 3))


def wanted(settings, record, n):
    """The wanted bits of a leaf."""
    return records.wanted_bits(settings.levels, record.left, record.right, n)


def claim_leaf(settings, record, words, clock):
    """Leaf: swap the wanted bits from all 0 to all 1; success to 6, failure to 3 at the parent."""
    n = records.current_node(record)
    swap = word.take_bits(word_at(words, n), wanted(settings, record, n))
    return Step(0, to(record, 6, grip=3), n, swap.word) if swap.done else read(to(record, 3))


def claim_inner(settings, record, words, clock):
    """Inner: Occ + 1, note t0, to 6 (root: to 7)."""
    n = records.current_node(record)
    after = to(record, 7 if records.at_root(record) else 6, grip=3, t0=clock)
    return Step(0, after, n, word.add(word_at(words, n), "occ", 1))


def claim(settings, record, words, clock):
    """5 claim."""
    of_its_kind = claim_leaf if records.at_leaf(settings, record) else claim_inner
    return of_its_kind(settings, record, words, clock)


def notify(settings, record, words, clock):
    """6 notify: DMax + 1 at the next ancestor; then on to the next, or what comes after the last."""
    nodes = records.walked(settings, record)
    n, counted = nodes[record.place], record.place + 1
    after = record._replace(place=counted, notices=counted)
    if counted == len(nodes):
        after = after_the_last_notice(settings, after, clock)
    return Step(0, after, n, word.add(word_at(words, n), "dmax", 1))


def after_the_last_notice(settings, record, clock):
    """After the last: a late claim gives outcome 2 and 10; else inner to 7, a leaf is taken."""
    if late(settings, record, clock):
        return returning(record, 2)
    return taken(settings, record, clock) if records.at_leaf(settings, record) else to(record, 7)


def wait(settings, record, words, clock):
    """7 wait: clock - t0 >= T: to 8; no word touched."""
    return read(to(record, 8) if waited(settings, record, clock) else record)


def check(settings, record, words, clock):
    """8 check: read the next checked node; DCnt = DMax: move on; after the last the piece is taken."""
    nodes = records.walked(settings, record)
    inner = inner_at(words, nodes[record.place])
    if inner.dcnt != inner.dmax:
        return read(record)
    if record.place + 1 == len(nodes):
        return read(taken(settings, record, clock))
    return read(record._replace(place=record.place + 1))


def given_on(settings, record):
    """The record after a word was given back: the next word of the piece, or of the next piece with something to give.
    The step that gives back the last word makes the record idle: all zero but the outcome."""
    if record.place + 1 < len(records.returned(settings, record)):
        return record._replace(place=record.place + 1)
    for i in range(record.giving + 1, record.current + 1):
        if records.grip_of(record, i) != 0:
            return record._replace(giving=i, place=0)
    return IDLE._replace(outcome=record.outcome)


def give_leaf_bits(settings, record, words, n):
    """Leaf bits taken: swap them from all 1 to all 0. A returning leaf that finds a wanted bit clear is refused by 9."""
    swap = word.give_bits(word_at(words, n), wanted(settings, record, n))
    return Step(0, given_on(settings, record), n, swap.word) if swap.done else Step(9, record)


def give_occ(settings, record, words, n):
    """Occ set: Occ - 1 and TCnt + 1 in one add."""
    return Step(0, given_on(settings, record), n, word.return_occ(word_at(words, n)))


def give_turn(settings, record, words, n):
    """Turn reached, Occ not set: TCnt + 1."""
    return Step(0, given_on(settings, record), n, word.add(word_at(words, n), "tcnt", 1))


def await_turn(settings, record, words, n):
    """Grip 1: the step reads, and TCnt equal to the ticket makes the grip 2; the next step adds."""
    return read(record._replace(grip=2) if inner_at(words, n).tcnt == record.ticket else record)


GIVE_INNER = {1: await_turn, 2: give_turn, 3: give_occ}


def give_own_word(settings, record, words, n):
    """Its own word at place 0."""
    if tree.is_leaf(settings.levels, n):
        return give_leaf_bits(settings, record, words, n)
    return GIVE_INNER[records.grip_of(record, record.giving)](settings, record, words, n)


def give_back(settings, record, words, clock):
    """10 returning: the own word, then DCnt + 1 at each ancestor notified, in the order of notifying."""
    n = records.returned(settings, record)[record.place]
    if record.place == 0:
        return give_own_word(settings, record, words, n)
    return Step(0, given_on(settings, record), n, word.add(word_at(words, n), "dcnt", 1))


ROWS = {
    0: nothing, 1: ticket, 2: turn, 3: climb, 4: blocked, 5: claim,
    6: notify, 7: wait, 8: check, 9: nothing, 10: give_back,
}


def step(settings, record, words, clock):
    """One step of a readable record at a clock that is not below the client's last. Patience that has run out touches no word, sets outcome 4 and
    goes to returning instead of the phase's own work."""
    if patience_run_out(settings, record, clock):
        return read(returning(record, 4))
    return ROWS[record.phase](settings, record, words, clock)

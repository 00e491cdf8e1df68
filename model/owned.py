"""What the records own of the words: after every history a word holds exactly what the records together own of it."""

from collections import Counter, defaultdict
from typing import NamedTuple

from model import record as records
from model import tree, word
from model.step import wanted


class Owned(NamedTuple):
    """For each inner node how many tickets, turns, Occ and notices are owned there, and for each leaf the bits that one
    record or another owns, a word for each."""

    tickets: Counter
    turns: Counter
    occs: Counter
    notices: Counter
    bits: defaultdict


def begun(record):
    """The pieces that a record has begun; an idle one has none."""
    return range(record.current + 1) if record.phase != 0 else range(0)


def words_returned(record, i):
    """How many words of piece i have been given back, its own first, then its notices; None for all of them."""
    if record.phase != 10 or record.giving < i:
        return 0
    return record.place if record.giving == i else None


def add_own_word(owned, settings, record, i):
    """What piece i owns of its own word while that is not given back."""
    n, grip = records.pieces(record)[i], records.grip_of(record, i)
    if tree.is_leaf(settings.levels, n):
        owned.bits[n] += [wanted(settings, record, n)] if grip == 3 else []
    else:
        owned.tickets[n] += grip >= 1
        owned.turns[n] += grip >= 2
        owned.occs[n] += grip == 3


def owned_by(settings, all_records):
    """All that these records own."""
    owned = Owned(Counter(), Counter(), Counter(), Counter(), defaultdict(list))
    for record in all_records:
        for i in begun(record):
            returned = words_returned(record, i)
            if returned == 0:
                add_own_word(owned, settings, record, i)
            if returned is not None:
                owned.notices.update(records.notified(settings, record, i)[max(returned - 1, 0):])
    return owned


def holds_of_leaf(owned, n, found):
    """A bit is 1 if some record owns it, and as many bits are 1 as are owned, so that none is owned twice."""
    union = 0
    for bits in owned.bits[n]:
        union |= bits
    return found == union and found.bit_count() == sum(bits.bit_count() for bits in owned.bits[n])


def holds_of_inner(owned, n, found):
    """TMax - TCnt is the tickets, Occ the claims and DMax - DCnt the notices that are owned here; one client at most
    has its turn."""
    inner = word.unpack(found)
    tickets = word.wrapped(inner.tmax - inner.tcnt, word.WIDTH.tmax)
    notices = word.wrapped(inner.dmax - inner.dcnt, word.WIDTH.dmax)
    counted = inner.exp, inner.occ, tickets, notices
    return counted == (0, owned.occs[n], owned.tickets[n], owned.notices[n]) and owned.turns[n] <= 1


def conserved(settings, words, all_records):
    """Every word holds what is owned of it. A word 0 of which nothing is owned does."""
    owned = owned_by(settings, all_records)
    concerned = {n for n, found in enumerate(words, 1) if found != 0} | {n for by_node in owned for n in by_node}
    kinds = {True: holds_of_leaf, False: holds_of_inner}
    return all(kinds[tree.is_leaf(settings.levels, n)](owned, n, words[n - 1]) for n in concerned)

"""The settings, the client with its record, and what is said of a record's pieces and of the lists that it walks."""

from functools import lru_cache
from typing import NamedTuple

from model import cover, tree, word

CACHED = 2 ** 16


class Settings(NamedTuple):
    """H, m, wait T and patience P (1..2^32 - 1 both)."""

    levels: int
    distance: int
    wait: int
    patience: int


class Record(NamedTuple):
    """Phase, outcome, window, the numbers of its two pieces (0 for none), the current piece (0 or 1, the last begun),
    the piece being given back, the current piece's grip (0 nothing, 1 ticket, 2 turn, 3 leaf bits or Occ), ticket, its
    place from 0 in the list it walks, how many notices the current piece gave, noted times t1 and t0, and a third noted
    time, the clock at which its first piece was taken."""

    phase: int = 0
    outcome: int = 0
    left: int = 0
    right: int = 0
    first: int = 0
    second: int = 0
    current: int = 0
    giving: int = 0
    grip: int = 0
    ticket: int = 0
    place: int = 0
    notices: int = 0
    t1: int = 0
    t0: int = 0
    taken: int = 0


IDLE = Record()


class Client(NamedTuple):
    """What the client table has of a client: its last clock, which is kept beside the record, and its record."""

    clock: int = 0
    record: Record = IDLE


# What an opening leaves of each client.
IDLE_CLIENT = Client()


@lru_cache(maxsize=CACHED)
def cover_of(h, l, r):
    """The numbers of the two pieces (0 for none) of a window inside the tree."""
    first, second = (*cover.pieces(h, l, r), 0)[:2]
    return first, second


@lru_cache(maxsize=CACHED)
def ancestors(n):
    """Parent first, root last."""
    return tree.ancestors(n)


@lru_cache(maxsize=CACHED)
def notify_list(m, n):
    """The ancestors that n notifies, in the order of notifying."""
    return tree.notify_list(m, n)


@lru_cache(maxsize=CACHED)
def check_list(h, m, n):
    """The node itself and its inner descendants at levels L..L+m-1, by rising number."""
    return tree.check_list(h, m, n)


@lru_cache(maxsize=CACHED)
def wanted_bits(h, l, r, n):
    """The bits of leaf n that the window wants."""
    return word.wanted(tree.node_range(h, n)[0], l, r)


def pieces(record):
    """The numbers of its pieces, without the 0 for none."""
    return [n for n in (record.first, record.second) if n != 0]


def current_node(record):
    """The number of the current piece."""
    return pieces(record)[record.current]


def is_last(record):
    """No piece comes after the current one."""
    return record.current + 1 == len(pieces(record))


def grip_of(record, i):
    """A piece before the current one has grip 3."""
    return 3 if i < record.current else record.grip


def notified(settings, record, i):
    """The ancestors that piece i has notified: a piece before the current one has all its notices, the current one as
    many as the record counts."""
    nodes = notify_list(settings.distance, pieces(record)[i])
    return nodes if i < record.current else nodes[:record.notices]


def returned(settings, record):
    """The list walked in 10: the piece being given back with its own word at place 0 and its notices after it. A piece
    past the current one has nothing to give back."""
    if record.giving > record.current:
        return []
    return [pieces(record)[record.giving], *notified(settings, record, record.giving)]


def walked(settings, record):
    """The list that the phase walks, or None where none is walked."""
    if record.phase in (3, 4):
        return ancestors(current_node(record))
    if record.phase == 6:
        return notify_list(settings.distance, current_node(record))
    if record.phase == 8:
        return check_list(settings.levels, settings.distance, current_node(record))
    if record.phase == 10:
        return returned(settings, record)
    return None


def at_leaf(settings, record):
    """The current piece is a leaf."""
    return tree.is_leaf(settings.levels, current_node(record))


def at_root(record):
    """The current piece is the root."""
    return current_node(record) == 1

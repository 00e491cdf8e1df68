"""The calls by value on one client. Each gives the number (0 accepted) and the client after, and writes at most one of the lent words; a
refused call leaves words, record and clock as they were. Of all of them only a step that is accepted sets the client's last clock."""

from typing import NamedTuple

from model import record as records
from model import tree
from model.readable import unreadable
from model.record import IDLE, Client
from model.step import begun, returning
from model.step import step as row_of_the_phase

WAITS = PATIENCES = range(1, 2 ** 32)
TAKEN_BY_CANCEL = range(1, 9)


class Answer(NamedTuple):
    """The number, and the client after the call."""

    number: int
    client: Client


def settings_outside(settings):
    """H, m, T or P outside its range."""
    ranges = tree.LEVELS, tree.DISTANCES, WAITS, PATIENCES
    return any(value not in values for value, values in zip(settings, ranges, strict=True))


def settings_or_words_refused(settings, words):
    """1: H, m, T or P outside its range. 2: word count not the tree's. Otherwise 0."""
    if settings_outside(settings):
        return 1
    return 0 if len(words) == tree.node_count(settings.levels) else 2


def client_unreadable(settings, client):
    """6: its record is unreadable; noted times belong to the client's own last clock."""
    return unreadable(settings, client.record, client.clock)


def requested(settings, l, r):
    """A request sets window and pieces, zeroes the rest, and sets phase 1 for an inner first piece and 3 for a leaf."""
    first, second = records.cover_of(settings.levels, l, r)
    return begun(settings, IDLE._replace(left=l, right=r, first=first, second=second), 0)


def request_refused(settings, words, client, l, r):
    """Request tests 1, 2, 6, 7 (l >= r or r > N) and 8 (when not idle)."""
    if number := settings_or_words_refused(settings, words):
        return number
    if client_unreadable(settings, client):
        return 6
    if l >= r or r > tree.units(settings.levels):
        return 7
    return 8 if client.record.phase != 0 else 0


def request(settings, words, client, l, r):
    """A request for [l, r)."""
    if number := request_refused(settings, words, client, l, r):
        return Answer(number, client)
    return Answer(0, client._replace(record=requested(settings, l, r)))


def step_refused(settings, words, client, clock):
    """A step tests 1, 2, 5 (clock below that client's last clock) and 6; only its row finds 9."""
    if number := settings_or_words_refused(settings, words):
        return number
    if clock < client.clock:
        return 5
    return 6 if client_unreadable(settings, client) else 0


def step(settings, words, client, clock):
    """A step at a clock. An accepted step sets the last clock."""
    if number := step_refused(settings, words, client, clock):
        return Answer(number, client)
    done = row_of_the_phase(settings, client.record, words, clock)
    if done.number != 0:
        return Answer(done.number, client)
    if done.node != 0:
        words[done.node - 1] = done.word
    return Answer(0, Client(clock, done.record))


def release(settings, words, client):
    """Release (from 9) touches no word and sets outcome 1 and phase 10. It tests 1, 2, 6 and 8."""
    if number := settings_or_words_refused(settings, words):
        return Answer(number, client)
    if client_unreadable(settings, client):
        return Answer(6, client)
    if client.record.phase != 9:
        return Answer(8, client)
    return Answer(0, client._replace(record=returning(client.record, 1)))


def cancelled(record):
    """Cancel sets outcome 3 and phase 10; with nothing to give back it makes the record idle with outcome 3."""
    if all(records.grip_of(record, i) == 0 for i in range(record.current + 1)):
        return IDLE._replace(outcome=3)
    return returning(record, 3)


def cancel(settings, words, client):
    """Cancel (from 1..8) touches no word. It tests 1, 2, 6 and 8."""
    if number := settings_or_words_refused(settings, words):
        return Answer(number, client)
    if client_unreadable(settings, client):
        return Answer(6, client)
    if client.record.phase not in TAKEN_BY_CANCEL:
        return Answer(8, client)
    return Answer(0, client._replace(record=cancelled(client.record)))

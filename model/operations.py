"""A step as one operation on a word that may be on another machine. For each row of the phase table: the operation that a client posts, and what
becomes of its record when the word that was found comes back. Nothing here touches a word: `applied` says what an operation leaves of one."""

from typing import NamedTuple

from model import record as records
from model import tree, word
from model.calls import TAKEN_BY_CANCEL, Answer, cancelled, client_unreadable, requested, settings_outside
from model.record import Client
from model.step import after_the_last_notice, given_on, patience_run_out, returning, taken, to, waited

NONE, READ, ADD, SWAP = range(4)
NO_DELTAS = word.Inner(0, 0, 0, 0, 0, 0)


class Operation(NamedTuple):
    """The number (0 accepted), the kind, and the node, 0 where no word is touched. A masked compare-and-swap compares only the bits of `compared`,
    with those of `expected`, and sets only those of `swapped`, to those of `value`. A masked add has the deltas of the six fields in `value`,
    each in its field's place. What a kind has no use for is 0, and so is all but the number in a refused answer."""

    number: int = 0
    kind: int = NONE
    node: int = 0
    compared: int = 0
    expected: int = 0
    swapped: int = 0
    value: int = 0


NOTHING = Operation()


def reading(n):
    return Operation(kind=READ, node=n)


def adding(n, **deltas):
    return Operation(kind=ADD, node=n, value=word.pack(NO_DELTAS._replace(**deltas)))


def swapping(n, bits, expected, value):
    """A swap that compares and sets these bits alone."""
    return Operation(kind=SWAP, node=n, compared=bits, expected=expected, swapped=bits, value=value)


def touch_nothing(settings, record):
    """0 idle, 9 held: nothing. 7 wait: no word touched."""
    return NOTHING


def read_piece(settings, record):
    """2 turn: read it, the piece."""
    return reading(records.current_node(record))


def read_walked(settings, record):
    """3 climb: read the ancestor, parent first. 4 blocked: read that ancestor. 8 check: read the next checked node."""
    return reading(records.walked(settings, record)[record.place])


def take_ticket(settings, record):
    """1 ticket: TMax + 1 at the piece."""
    return adding(records.current_node(record), tmax=1)


def wanted(settings, record, n):
    return records.wanted_bits(settings.levels, record.left, record.right, n)


def claim(settings, record):
    """5 claim. Leaf: swap the wanted bits from all 0 to all 1. Inner: Occ + 1."""
    n = records.current_node(record)
    if records.at_leaf(settings, record):
        bits = wanted(settings, record, n)
        return swapping(n, bits, expected=0, value=bits)
    return adding(n, occ=1)


def notify(settings, record):
    """6 notify: DMax + 1 at the next ancestor."""
    return adding(records.walked(settings, record)[record.place], dmax=1)


def own_word(settings, record, n):
    """The piece's own word. Leaf bits taken: swap them from all 1 to all 0. Occ set: Occ - 1 and TCnt + 1 in one add; Occ has one bit, in which
    - 1 is + 1. Turn reached, Occ not set: TCnt + 1. Grip 1: the step reads."""
    if tree.is_leaf(settings.levels, n):
        bits = wanted(settings, record, n)
        return swapping(n, bits, expected=bits, value=0)
    return {1: reading(n), 2: adding(n, tcnt=1), 3: adding(n, occ=1, tcnt=1)}[records.grip_of(record, record.giving)]


def give_back(settings, record):
    """10 returning: its own word at place 0, then DCnt + 1 at each ancestor notified."""
    n = records.returned(settings, record)[record.place]
    return own_word(settings, record, n) if record.place == 0 else adding(n, dcnt=1)


def same(settings, record, clock, found):
    """0 idle, 9 held: nothing."""
    return record


def ticket_taken(settings, record, clock, found):
    """1 ticket: old TMax is the ticket; to 2."""
    return to(record, 2, grip=1, ticket=word.unpack(found).tmax)


def turn_read(settings, record, clock, found):
    """2 turn: TCnt equals the ticket: to 3 (root: to 5)."""
    if word.unpack(found).tcnt != record.ticket:
        return record
    return to(record, 5 if records.at_root(record) else 3, grip=2)


def ancestor_read(settings, record, clock, found):
    """3 climb: Occ set: to 4. Clear: note t1 if it is the parent; go up, after the root to 5."""
    if word.unpack(found).occ == 1:
        return record._replace(phase=4)
    noted = record._replace(t1=clock) if record.place == 0 else record
    at_the_last = record.place + 1 == len(records.walked(settings, record))
    return to(noted, 5) if at_the_last else noted._replace(place=record.place + 1)


def blocker_read(settings, record, clock, found):
    """4 blocked: Occ clear: to 3 at the parent."""
    return to(record, 3) if word.unpack(found).occ == 0 else record


def claimed(settings, record, clock, found):
    """5 claim. Leaf: success to 6, failure to 3 at the parent. Inner: note t0, to 6 (root: to 7)."""
    if not records.at_leaf(settings, record):
        return to(record, 7 if records.at_root(record) else 6, grip=3, t0=clock)
    done = word.masked_swap(found, *claim(settings, record)[3:]).done
    return to(record, 6, grip=3) if done else to(record, 3)


def notified(settings, record, clock, found):
    """6 notify: the next ancestor, or what comes after the last."""
    after = record._replace(place=record.place + 1, notices=record.notices + 1)
    return after_the_last_notice(settings, after, clock) if after.place == len(records.walked(settings, record)) else after


def wait_looked_at(settings, record, clock, found):
    """7 wait: clock - t0 >= T: to 8."""
    return to(record, 8) if waited(settings, record, clock) else record


def checked(settings, record, clock, found):
    """8 check: DCnt = DMax: move on; after the last the piece is taken."""
    inner = word.unpack(found)
    if inner.dcnt != inner.dmax:
        return record
    at_the_last = record.place + 1 == len(records.walked(settings, record))
    return taken(settings, record, clock) if at_the_last else record._replace(place=record.place + 1)


def given_back(settings, record, clock, found):
    """10 returning: a word given back is followed by the next. Grip 1: TCnt equal to the ticket makes the grip 2, and gives nothing back."""
    if give_back(settings, record).kind == READ:
        return record._replace(grip=2) if word.unpack(found).tcnt == record.ticket else record
    return given_on(settings, record)


# Of each phase the operation of its row, and its completion.
ROWS = {
    0: (touch_nothing, same), 1: (take_ticket, ticket_taken), 2: (read_piece, turn_read), 3: (read_walked, ancestor_read),
    4: (read_walked, blocker_read), 5: (claim, claimed), 6: (notify, notified), 7: (touch_nothing, wait_looked_at), 8: (read_walked, checked),
    9: (touch_nothing, same), 10: (give_back, given_back),
}


def refused(settings, client):
    """1: H, m, T or P outside its range. 6: the client's record unreadable. Otherwise 0."""
    if settings_outside(settings):
        return 1
    return 6 if client_unreadable(settings, client) else 0


def step_refused(settings, client, clock):
    """5, a clock below that client's last, stands between 1 and 6."""
    number = refused(settings, client)
    return 5 if number != 1 and clock < client.clock else number


def operation(settings, client, clock):
    """Which operation the client posts by its clock: tests 1, 5 and 6. Where patience has run out, none."""
    if number := step_refused(settings, client, clock):
        return Operation(number)
    if patience_run_out(settings, client.record, clock):
        return NOTHING
    posted, _ = ROWS[client.record.phase]
    return posted(settings, client.record)


def applied(operation, found):
    """The word that an operation leaves where it finds one. A kind that there is not leaves it, and the number is not looked at."""
    if operation.kind == ADD:
        return word.add_fields(found, operation.value)
    if operation.kind == SWAP:
        return word.masked_swap(found, *operation[3:]).word
    return found


def clear_bit(posted, found):
    """9: a returning leaf finds a wanted bit clear. Of the two swaps it alone has bits to find set."""
    return posted.kind == SWAP and posted.expected != 0 and not word.masked_swap(found, *posted[3:]).done


def completed(settings, client, clock, found):
    """The client after its operation found this word: tests 1, 5, 6 and 9. An accepted one sets the last clock."""
    posted = operation(settings, client, clock)
    if posted.number != 0:
        return Answer(posted.number, client)
    if clear_bit(posted, found):
        return Answer(9, client)
    if patience_run_out(settings, client.record, clock):
        return Answer(0, Client(clock, returning(client.record, 4)))
    _, completion = ROWS[client.record.phase]
    return Answer(0, Client(clock, completion(settings, client.record, clock, found)))


def own_request(settings, client, l, r):
    """A request for [l, r) by a client that has no words lent: tests 1, 6, 7 and 8."""
    number = refused(settings, client) or (7 if l >= r or r > tree.units(settings.levels) else 8 if client.record.phase != 0 else 0)
    return Answer(number, client if number else client._replace(record=requested(settings, l, r)))


def own_release(settings, client):
    """A release likewise: tests 1, 6 and 8."""
    number = refused(settings, client) or (8 if client.record.phase != 9 else 0)
    return Answer(number, client if number else client._replace(record=returning(client.record, 1)))


def own_cancel(settings, client):
    """A cancel likewise: tests 1, 6 and 8."""
    number = refused(settings, client) or (8 if client.record.phase not in TAKEN_BY_CANCEL else 0)
    return Answer(number, client if number else client._replace(record=cancelled(client.record)))

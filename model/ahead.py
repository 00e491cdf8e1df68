"""Operations that a run posts together: the list of them by phase, and how many of them count when the words found come back. The list begins with
the client's next step. What stands behind it is certain, the next step whatever the answers are, or a read ahead, the next step if the answers
before it are good. A write that an answer could forbid never stands in it, and it does not go on past the climb, the claim with its notices, the
check or the return in which it began. `model/explored.py` finds the same lists by trying answers."""

from itertools import takewhile
from typing import NamedTuple

from model import record as records
from model.operations import (
    READ, claim, clear_bit, completed, give_back, notify, operation, patience_run_out, read_piece, read_walked, reading, step_refused,
    take_ticket)
from model.record import Client


class Ahead(NamedTuple):
    """The number (0 accepted), and the operations that are put into the lent list; none in a refused answer."""

    number: int
    operations: tuple = ()

    @property
    def count(self):
        return len(self.operations)


class CompletedAll(NamedTuple):
    """The number, how many operations counted, and the client after those; in a refused answer none, and the client as it was."""

    number: int
    counted: int
    client: Client


def from_its_place(settings, record, posted):
    """The operation at the record's place of the list that it walks, and at each place behind it."""
    places = range(record.place, len(records.walked(settings, record)))
    return [posted(settings, record._replace(place=place)) for place in places]


def nothing(settings, record):
    """0 idle, 9 held, 7 wait: nothing is posted."""
    return []


def whole_climb(settings, record):
    """All ancestors of the piece, parent first; the root has none."""
    return [reading(n) for n in records.ancestors(records.current_node(record))]


def turn(settings, record):
    """2 turn: if it has come, the climb begins."""
    return [read_piece(settings, record), *whole_climb(settings, record)]


def ticket(settings, record):
    """1 ticket: whatever it is, the turn is read next."""
    return [take_ticket(settings, record), *turn(settings, record)]


def climb(settings, record):
    """3 climb: the rest of the ancestors. The claim behind them is a write that each of them could forbid."""
    return from_its_place(settings, record, read_walked)


def blocked(settings, record):
    """4 blocked: if that ancestor is free, the climb begins over at the parent."""
    return [read_walked(settings, record), *whole_climb(settings, record)]


def claim_and_notices(settings, record):
    """5 claim. Inner: it is never refused, so that all its notices are certain. A leaf's may fail, and then it must give none."""
    if records.at_leaf(settings, record):
        return [claim(settings, record)]
    notices = [notify(settings, record._replace(phase=6, place=place)) for place in range(count_of_notices(settings, record))]
    return [claim(settings, record), *notices]


def count_of_notices(settings, record):
    return len(records.notify_list(settings.distance, records.current_node(record)))


def notices(settings, record):
    """6 notify: the rest of them. Behind the last nothing: whether the claim is late is told by a clock that is read later."""
    return from_its_place(settings, record, notify)


def check(settings, record):
    """8 check: the rest of its nodes. It does not go on into the next piece."""
    return from_its_place(settings, record, read_walked)


def rest_of_return(settings, record):
    """10 returning: the rest of the piece that is given back, and all of each piece after it that has something to give."""
    later = [i for i in range(record.giving + 1, record.current + 1) if records.grip_of(record, i) != 0]
    begun = [record, *(record._replace(giving=i, place=0) for i in later)]
    return [posted for each in begun for posted in from_its_place(settings, each, give_back)]


def up_to_the_waiting_ticket(posted):
    """A ticket that waits for its turn is read, and what it gives back is behind the answer: the list ends with that read."""
    before = list(takewhile(lambda each: each.kind != READ, posted))
    return posted[:len(before) + 1]


def returning(settings, record):
    return up_to_the_waiting_ticket(rest_of_return(settings, record))


# Of each phase the operations that are posted together.
ROWS = {
    0: nothing, 1: ticket, 2: turn, 3: climb, 4: blocked, 5: claim_and_notices, 6: notices, 7: nothing, 8: check, 9: nothing, 10: returning,
}


def together(settings, client, clock):
    """The whole list for a client that is not refused. Where patience has run out, none."""
    return [] if patience_run_out(settings, client.record, clock) else ROWS[client.record.phase](settings, client.record)


def operations_ahead(settings, client, clock, room):
    """What is put into a lent list that has room for so many: tests 1, 5 and 6."""
    if number := step_refused(settings, client, clock):
        return Ahead(number)
    return Ahead(0, tuple(together(settings, client, clock)[:room]))


def is_next(settings, client, clock, posted):
    """An operation that was posted is the client's next step, all fields of it."""
    return operation(settings, client, clock) == posted


def all_refused(settings, client, clock, posted, found):
    """1, 5 and 6; and 9 if a word was found for the first operation, and is refused by it."""
    if number := step_refused(settings, client, clock):
        return number
    return 9 if posted and found and clear_bit(posted[0], found[0]) else 0


def completed_all(settings, client, clock, found):
    """The client after the operations that were posted, which found these words, all completed by one clock. At the first that is not its next step
    by then, or whose completion is refused, it and what is behind it are dropped. More words than operations are not looked at."""
    posted = [] if step_refused(settings, client, clock) else together(settings, client, clock)
    if number := all_refused(settings, client, clock, posted, found):
        return CompletedAll(number, 0, client)
    counted, after = 0, client
    for each, word_found in zip(posted, found):
        if not is_next(settings, after, clock, each):
            break
        number, next_client = completed(settings, after, clock, word_found)
        if number != 0:
            break
        counted, after = counted + 1, next_client
    return CompletedAll(0, counted, after)

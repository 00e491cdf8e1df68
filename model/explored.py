"""Operations posted together, found by trying answers: from a client on, each operation is completed by telling words, and it is seen which is the
next. One is certain if it is the next whatever was found before; a read ahead if it is a read, and the next where all answers before were good."""

from typing import NamedTuple

from model import operations, word
from model.operations import NO_DELTAS, NONE, READ, SWAP

# The phases whose operations are completed by a clock that is read when they have come back; all others', by one that is read before.
READ_LATER = 5, 6


class Explored(NamedTuple):
    """The operations, and how many of them, from the first on, are certain."""

    operations: list
    certain: int


def good_word(client, posted):
    """A word by which the client goes on: a swap finds what it expects, and of an inner word the turn has come, Occ is clear and every notice has
    been given back."""
    return posted.expected if posted.kind == SWAP else word.pack(NO_DELTAS._replace(tcnt=client.record.ticket))


def turned_words(client, posted):
    """Words that each differ from the good one in what one row of the phase table looks at."""
    if posted.kind == SWAP:
        return [posted.expected ^ posted.compared, posted.expected ^ (posted.compared & -posted.compared)]
    good = word.unpack(good_word(client, posted))
    others = good._replace(occ=1), good._replace(tcnt=(good.tcnt + 1) % 2 ** 15), good._replace(dcnt=1), good._replace(tmax=1), good._replace(dmax=1)
    return [word.pack(inner) for inner in others]


def telling_words(client, posted):
    return [good_word(client, posted), 0, 2 ** 64 - 1, *turned_words(client, posted)]


def clocks_of(settings, client, clock):
    """The clocks by which an operation may be completed: that of the posting, and where it is read later one by which the claim is late. Patience is
    over by none of them: the run sees to that."""
    later = client.record.t1 + settings.wait
    if client.record.phase not in READ_LATER or later <= clock or operations.patience_run_out(settings, client.record, later):
        return [clock]
    return [clock, later]


def answered(settings, client, clock, posted):
    """The client after each telling word and each clock; words by which the completion is refused are left out, since no run finds them."""
    answers = [
        operations.completed(settings, client, by, found) for by in clocks_of(settings, client, clock) for found in telling_words(client, posted)]
    return {answer.client for answer in answers if answer.number == 0}


def goes_on(begun, client, posted):
    """Whether the list may go on with this: not where no word is touched, where another piece begins, or where the clock is read at another time."""
    another_piece = client.record.current != begun.record.current and client.record.phase != 10
    another_reading = (client.record.phase in READ_LATER) != (begun.record.phase in READ_LATER)
    return posted.kind != NONE and not another_piece and not another_reading


def explored(settings, begun, clock):
    """The list for a client that is not refused. `others` has the clients that answers lead to, as long as all have one next operation."""
    found, certain, good, others = [], 0, begun, {begun}
    while True:
        posted = operations.operation(settings, good, clock)
        all_agree = bool(others) and all(operations.operation(settings, other, max(clock, other.clock)) == posted for other in others)
        if not goes_on(begun, good, posted) or not (all_agree or posted.kind == READ):
            return Explored(found, certain)
        found, certain = [*found, posted], certain + all_agree
        others = {after for other in others for after in answered(settings, other, clock, posted)} if all_agree else set()
        good = operations.completed(settings, good, clock, good_word(good, posted)).client

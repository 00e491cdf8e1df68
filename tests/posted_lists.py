"""Runs that post operations together, by the compiled calls, and wrong ways of doing so."""

from typing import NamedTuple

from compiled_table import library, nolthewyr
from posted_runs import CLAIM, CLIMB, NOTIFY, OneAtATime

TICKET, TURN, BLOCKED = nolthewyr.Phase.TICKET, nolthewyr.Phase.TURN, nolthewyr.Phase.BLOCKED
GRIP_OF_BITS = 3


class Completed(NamedTuple):
    """A client after what was posted, as a call for one operation answers it: by 9 or another number if it is refused, or if nothing counts."""

    number: int
    next: nolthewyr.Client


class Together(OneAtATime):
    """A run posts all that it may, and drops what does not count."""

    # The lists of these read the parent too, so that t1 is noted by the clock that was read before they were posted.
    climbs_from = TICKET, TURN, BLOCKED

    def posted(self, client, settings, clock):
        """All of the list; nothing where the call is refused, which its completion then counts."""
        lent = (nolthewyr.OperationAnswer * nolthewyr.MOST_AHEAD)()
        return lent[:library().nolthewyr_operations_ahead(client, settings, clock, lent, len(lent)).count]

    def completed(self, run, before, after, posted, found):
        """Where nothing was posted the one step that touches no word is completed."""
        if not posted:
            return super().completed(run, before, after, posted, found)
        return self.counted(run, run.client, after, found)

    def counted(self, run, client, clock, found):
        """What counts of the words found, and how many are dropped."""
        lent = (nolthewyr.c_uint64 * len(found))(*found)
        answer = library().nolthewyr_completed_all(client, run.settings, clock, lent, len(lent))
        run.world.counts["posted together"] += len(found) > 1
        run.world.counts["dropped"] += len(found) - answer.counted
        return Completed(answer.number or int(answer.counted == 0), answer.next)


def in_phase(client, phase, **fields):
    """The client as it would be at the start of a phase, if all answers before it were good."""
    after = nolthewyr.Client.from_buffer_copy(client)
    for name, value in {"phase": phase, "place": 0, **fields}.items():
        setattr(after.record, name, value)
    return after


def at_leaf(client, settings):
    """The current piece's claim is a swap."""
    claim = library().nolthewyr_operation(in_phase(client, CLAIM), settings, client.clock)
    return claim.kind == nolthewyr.Operation.SWAP


class MorePosted(Together):
    """Behind some lists more is posted, which counts if all before it have led there."""

    def more(self, client, settings, clock):
        """The client as it would be where that begins; None where nothing is added."""
        raise NotImplementedError

    def posted(self, client, settings, clock):
        own, later = super().posted(client, settings, clock), self.more(client, settings, clock)
        return [*own, *super().posted(later, settings, clock)] if own and later else own

    def completed(self, run, before, after, posted, found):
        own = len(super().posted(run.client, run.settings, after))
        first = super().completed(run, before, after, posted[:own], found[:own])
        led_there = self.more(run.client, run.settings, after)
        if len(found) <= own or first.number or led_there is None or first.next.record.phase != led_there.record.phase:
            return first
        return self.counted(run, first.next, after, found[own:])


class ClaimWithClimb(MorePosted):
    """A leaf's claim is posted with its climb."""

    def more(self, client, settings, clock):
        climbs = client.record.phase in (CLIMB, BLOCKED) and at_leaf(client, settings)
        return in_phase(client, CLAIM) if climbs else None


class NoticesWithClaim(MorePosted):
    """The notices of a leaf are posted with its claim."""

    def more(self, client, settings, clock):
        claims = client.record.phase == CLAIM and at_leaf(client, settings)
        return in_phase(client, NOTIFY, grip=GRIP_OF_BITS) if claims else None


class ClaimByEarlyClock(Together):
    """t0 is from before the claim, and the notices are completed by the clock after them."""

    def completed(self, run, before, after, posted, found):
        if run.record.phase != CLAIM or not posted:
            return super().completed(run, before, after, posted, found)
        claimed = self.counted(run, run.client, before, found[:1])
        return self.counted(run, claimed.next, after, found[1:]) if found[1:] else claimed


class DroppedReadsCounted(Together):
    """A read counts if the client's next step is a read, of whatever word."""

    def completed(self, run, before, after, posted, found):
        answer = super().completed(run, before, after, posted[:1], found[:1])
        for each, word in zip(posted[1:], found[1:]):
            if answer.number or library().nolthewyr_operation(answer.next, run.settings, after).kind != each.kind:
                break
            answer = library().nolthewyr_completed(answer.next, run.settings, after, word)
        return answer

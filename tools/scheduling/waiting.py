"""For whom a client waits: whose grip, ticket or notice its next step would find in its way; and until when it has patience."""

from functools import lru_cache
from typing import Callable, NamedTuple

from model import record as records
from model import word
from model.owned import owned_by
from model.step import WITH_PATIENCE, wanted
from scheduling.names import listed


class Wait(NamedTuple):
    """What a client waits for in words, at which node, and who is in its way, which is found when it is asked for."""

    reason: str
    node: int
    clients: Callable


def for_whom(wait, clients):
    """A wait in words: for these clients."""
    others = listed([f"client {other}" for other in clients])
    return f"for {others}: {wait.reason}, node {wait.node}"


@lru_cache(maxsize=2 ** 16)
def owned(settings, record):
    """What one record owns of the words."""
    return owned_by(settings, [record])


def waits_for(reason, node, state, owns):
    """A wait for the other clients whose records own something there."""
    settings, _, all_records, client = state

    def clients():
        others = ((other, record) for other, record in enumerate(all_records) if other != client and record.phase != 0)
        return tuple(other for other, record in others if owns(record, owned(settings, record)))

    return Wait(reason, node, clients)


def for_turn(state, node):
    """Its ticket is not up: those whose tickets come before it are in the way."""
    _, words, all_records, client = state
    served, mine = word.unpack(words[node - 1]).tcnt, all_records[client].ticket
    ahead = word.wrapped(mine - served, word.WIDTH.tcnt)
    if ahead == 0:
        return None

    def before_mine(record, its):
        first = its.turns[node] or word.wrapped(record.ticket - served, word.WIDTH.tcnt) < ahead
        return its.tickets[node] and first

    return waits_for("its turn", node, state, before_mine)


def for_ancestor(state, node):
    """Occ is set at an ancestor."""
    if word.unpack(state[1][node - 1]).occ == 0:
        return None
    return waits_for("an occupied node above", node, state, lambda record, its: its.occs[node])


def for_units(state, node):
    """Some of the wanted bits of a leaf are taken."""
    settings, words, all_records, client = state
    bits = wanted(settings, all_records[client], node)
    if words[node - 1] & bits == 0:
        return None
    return waits_for("units of its leaf that are taken", node, state, lambda record, its: any(found & bits for found in its.bits[node]))


def for_notices(state, node):
    """Notices are out at a node that is checked."""
    inner = word.unpack(state[1][node - 1])
    if inner.dcnt == inner.dmax:
        return None
    return waits_for("notices below its node", node, state, lambda record, its: its.notices[node])


def in_climb(state, record):
    """A leaf with units taken cannot be claimed, wherever the climb is; otherwise an ancestor that is still to be read may be occupied. A
    blocked climb starts over at the parent."""
    settings = state[0]
    if records.at_leaf(settings, record) and (wait := for_units(state, records.current_node(record))):
        return wait
    ancestors = records.walked(settings, record)
    ahead = ancestors[record.place:] if record.phase == 3 else [ancestors[record.place], *ancestors]
    return next((wait for node in ahead if (wait := for_ancestor(state, node))), None)


def waits_until(settings, record, clock):
    """The clock that a client at this clock of its own waits for in 7; None if it waits for none."""
    over = record.t0 + settings.wait
    return over if record.phase == 7 and over > clock else None


def patience_ends(settings, record):
    """The client's clock from which on any step of it sends it back, whatever it waits for; None unless it is at a later piece."""
    return record.taken + settings.patience if record.current > 0 and record.phase in WITH_PATIENCE else None


def wait_of(settings, words, all_records, client):
    """What a client waits for that others have to do; nothing if its next step brings it on, or if only its clock has to. Its patience is
    left aside."""
    state, record = (settings, words, all_records, client), all_records[client]
    if record.phase == 2:
        return for_turn(state, records.current_node(record))
    if record.phase in (3, 4):
        return in_climb(state, record)
    if record.phase == 5 and records.at_leaf(settings, record):
        return for_units(state, records.current_node(record))
    if record.phase == 8:
        return for_notices(state, records.walked(settings, record)[record.place])
    if record.phase == 10 and record.place == 0 and records.grip_of(record, record.giving) == 1:
        return for_turn(state, records.pieces(record)[record.giving])
    return None

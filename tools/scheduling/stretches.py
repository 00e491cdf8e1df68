"""Who was in which phase from when to when, and what is marked besides: refused calls, claims that are late, patience that is over, how
a client became idle, and where one holds what another holds."""

from typing import NamedTuple

from scheduling.events import Event, at, became, holdings
from scheduling.names import HELD, OUTCOMES, PHASES, RETURNING, window
from scheduling.overlaps import beside
from scheduling.refusals import words_for

HELD_BY_TWO = "held-by-two"


class Stretch(NamedTuple):
    """A phase that a client was in, with its window: from the call that brought it there to the call that took it on; with no end if it
    is still there."""

    client: int
    phase: int
    left: int
    right: int
    start: Event
    end: Event


class Mark(NamedTuple):
    """What is marked at a call: its kind (`refused`, `late`, `out-of-patience`, `held-by-two`, or the outcome with which the client became
    idle), the row it stands in, and its words. Clients that there are not share the row below the others."""

    kind: str
    row: int
    event: Event
    says: str


def stretches(events):
    """Every stretch, in the order in which they began. An idle client has none."""
    found, current = [], {}
    for event in events:
        client, after = event.call.client, event.after
        if event.before.phase == after.phase:
            continue
        if client in current:
            place = current.pop(client)
            found[place] = found[place]._replace(end=event)
        if after.phase != 0:
            current[client] = len(found)
            found.append(Stretch(client, after.phase, after.left, after.right, event, None))
    return found


def held_stretches(events):
    """The holdings, as stretches."""
    return [Stretch(each.client, HELD, each.left, each.right, each.start, each.end) for each in holdings(events)]


def in_words(stretch):
    """A stretch, for its title."""
    until = f"to {at(stretch.end)}" if stretch.end else "on"
    phase = f"{stretch.phase} {PHASES[stretch.phase]}"
    return f"client {stretch.client}, {phase} {window(stretch.left, stretch.right)}, from {at(stretch.start)} {until}"


def mark_of(schedule, event, others):
    """The kind and the words of the mark of a call; nothing if it has none. It has at most one: a refused call changes nothing, and who is
    late or out of patience always has something to give back. Only these two are sent back by a step. `others` is who holds a part of the
    window beside the client."""
    client, outcome = event.call.client, OUTCOMES[event.after.outcome]
    kind = outcome.replace(" ", "-")
    if event.number:
        why = words_for(event.number, schedule, event.call, event.before, event.last)
        return "refused", f"client {client}, {event.call.kind} refused by {event.number} at {at(event)}: {why}"
    if became(event, RETURNING) and event.call.kind == "step":
        return kind, f"client {client} is {outcome} at {at(event)}, and gives everything back"
    if became(event, 0):
        return f"idle-{kind}", f"client {client} is idle from {at(event)} on: {outcome}"
    if others:
        return HELD_BY_TWO, f"client {client} holds {window(event.after.left, event.after.right)} from {at(event)} on, {others}"
    return None


def marks(schedule, events):
    """Every mark, in the order of the calls."""
    others = beside(events)
    for event in events:
        if found := mark_of(schedule, event, others.get(event.place)):
            kind, says = found
            yield Mark(kind, min(event.call.client, schedule.clients), event, says)

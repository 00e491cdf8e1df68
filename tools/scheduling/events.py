"""What happened: each call of a schedule with its line of the log, and with the client's record before and after it, by the model."""

from typing import NamedTuple

from model import tree
from model.history import Call, Opened
from model.record import IDLE_CLIENT, Record
from scheduling.clocks import told
from scheduling.names import HELD, OUT_OF_PATIENCE, RETURNING
from scheduling.waiting import Wait, wait_of


class Event(NamedTuple):
    """A call that was made: its place from 0, its number, the client's record before it and after it, the client's last clock before it, the
    clock that is told with it, and its line of the log."""

    place: int
    call: Call
    number: int
    before: Record
    after: Record
    last: int
    clock: int
    logged: str


class Holding(NamedTuple):
    """A window that a client held, from the step that took it to the release; with no end if it still holds."""

    client: int
    left: int
    right: int
    start: Event
    end: Event


class GivenUp(NamedTuple):
    """A window that a client gave up, since its patience was over: the step at which that was seen, what it waited for then, and for whom;
    nothing and nobody if it would have come on."""

    event: Event
    wait: Wait
    clients: tuple


class Happened(NamedTuple):
    """A schedule that was run: its events, the windows that were given up for want of patience, and the model's table after the last."""

    schedule: object
    events: tuple
    given_up: tuple
    opened: Opened


def fresh(schedule):
    words, clients = [0] * tree.node_count(schedule.settings.levels), [IDLE_CLIENT] * schedule.clients
    return Opened(schedule.settings, words, clients)


def after_all(schedule):
    """The model's table after the last call."""
    opened = fresh(schedule)
    for call in schedule.calls:
        opened.make(call)
    return opened


def happened(schedule, log):
    """What the lines of a log tell, which is the model's, with all that the model knows beside it."""
    opened, events, given = fresh(schedule), [], []
    clocks = told(after_all(schedule).history, schedule.clients)
    for place, (call, clock, logged) in enumerate(zip(schedule.calls, clocks, log[1:], strict=True)):
        before = client_of(opened, call)
        made = opened.make(call)
        after = client_of(opened, call).record
        events.append(Event(place, call, made.number, before.record, after, before.clock, clock, logged))
        if out_of_patience(events[-1]):
            given.append(given_up(opened, events[-1]))
    return Happened(schedule, tuple(events), tuple(given), opened)


def client_of(opened, call):
    """A call's client; one that there is not is idle."""
    return opened.clients[call.client] if call.client < len(opened.clients) else IDLE_CLIENT


def at(event):
    call = f"call {event.place}"
    return call if event.clock is None else f"clock {event.clock} ({call})"


def became(event, phase):
    """Whether this call brought its client into a phase."""
    return event.before.phase != phase and event.after.phase == phase


def out_of_patience(event):
    """Whether this step found its client's patience over, so that it begins to give back."""
    return became(event, RETURNING) and event.after.outcome == OUT_OF_PATIENCE


def given_up(opened, event):
    """What a client had waited for whose patience this step found over: the step touches no word, and no record but its own."""
    client, records = event.call.client, opened.records
    records[client] = event.before
    wait = wait_of(opened.settings, opened.words, records, client)
    return GivenUp(event, wait, wait.clients() if wait else ())


def holdings(events):
    """Every holding, in the order in which they began."""
    found, held = [], {}
    for event in events:
        if became(event, HELD):
            held[event.call.client] = len(found)
            found.append(Holding(event.call.client, event.after.left, event.after.right, event, None))
        elif event.before.phase == HELD and event.after.phase != HELD:
            place = held.pop(event.call.client)
            found[place] = found[place]._replace(end=event)
    return found

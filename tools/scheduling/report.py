"""What `schedule run` prints: each line of the log beside the line it comes from, in words, and a summary at the end."""

from collections import Counter

from scheduling.clocks import clock_lines, last_of_all
from scheduling.columns import in_columns
from scheduling.durations import steps_needed
from scheduling.events import at, became, holdings, out_of_patience
from scheduling.given_up import given_up_lines
from scheduling.names import HELD, OUT_OF_PATIENCE, OUTCOMES, PHASES, RETURNING, window
from scheduling.overlaps import beside, overlap_lines
from scheduling.refusals import words_for
from scheduling.waiting import for_whom, patience_ends, wait_of, waits_until

HEADINGS = "call", "log", "clock", "what happened"
# The columns of numbers: the line's, and the clock.
NUMBERS = 0, 3


def phase_in_words(event):
    """The client's phase after the call, with the window it now holds or why it gives back, and the outcome once it is idle."""
    after = event.after
    if became(event, HELD):
        return f"held: client {event.call.client} holds {window(after.left, after.right)}"
    if out_of_patience(event):
        return f"{PHASES[RETURNING]}, {OUTCOMES[OUT_OF_PATIENCE]}: client {event.call.client} gives {window(after.left, after.right)} up"
    if after.phase == RETURNING:
        return f"{PHASES[RETURNING]}, {OUTCOMES[after.outcome]}"
    if became(event, 0):
        return f"{PHASES[0]}, {OUTCOMES[after.outcome]}"
    return PHASES[after.phase]


def what_happened(schedule, event, others):
    """The phase after an accepted call, with who else holds a part of the window, if anybody does; or why the call is refused."""
    if event.number == 0:
        return ", ".join(filter(None, (phase_in_words(event), others.get(event.place))))
    return f"refused {event.number}: {words_for(event.number, schedule, event.call, event.before, event.last)}"


def rows(source, events):
    """A row for each call: the number of its line, or of the call where a file has no lines, the call, its line of the log, the clock
    that is told with it, and what happened."""
    yield "line" if source.lines else "number", *HEADINGS
    places, others = source.lines or range(len(source.written)), beside(events)
    for place, written, event in zip(places, source.written, events, strict=True):
        clock = "" if event.clock is None else str(event.clock)
        yield str(place), written, event.logged, clock, what_happened(source.schedule, event, others)


def steps_taken(events, holding):
    """How many accepted steps a client made from its request on until it held."""
    accepted = [event for event in events[:holding.start.place + 1] if event.call.client == holding.client and event.number == 0]
    return [event.call.kind for event in reversed(accepted)].index("request")


def held_lines(happened):
    """Who held which window from when to when, in how many steps it was taken, and how many it needs."""
    for holding in holdings(happened.events):
        end = f"to {at(holding.end)}" if holding.end else "and still holds it"
        needed = steps_needed(happened.schedule.settings, holding.left, holding.right)
        steps = f"taken in {steps_taken(happened.events, holding)} steps; {needed} needed"
        yield f"client {holding.client} held {window(holding.left, holding.right)} from {at(holding.start)} {end}; {steps}"


def clock_by_now(happened, client):
    """What the client's clock shows by now: where all may read one clock, that of anybody's last step, else that of its own."""
    one = last_of_all(happened.opened.history)
    return happened.opened.clients[client].clock if one is None else one


def without_patience(happened, client):
    """For whom a client waits, whatever its patience: others, the clock, or only its own next step."""
    opened, record = happened.opened, happened.opened.clients[client].record
    if wait := wait_of(opened.settings, opened.words, opened.records, client):
        return for_whom(wait, wait.clients())
    until = waits_until(opened.settings, record, clock_by_now(happened, client))
    return f"for nobody: until clock {until}" if until else "for nobody: it needs steps"


def why_waiting(happened, client):
    """For whom a client waits, and until when it has patience."""
    ends = patience_ends(happened.schedule.settings, happened.opened.clients[client].record)
    if ends is None:
        return without_patience(happened, client)
    if ends <= clock_by_now(happened, client):
        return f"for nobody: its patience was over at clock {ends}, and its next step begins to give back"
    return f"{without_patience(happened, client)}; its patience is over at clock {ends}"


def waiting_lines(happened):
    for client, record in enumerate(happened.opened.records):
        if record.phase not in (0, HELD):
            giving = f", {OUTCOMES[record.outcome]}" if record.outcome else ""
            where = f"client {client} {window(record.left, record.right)}, phase {record.phase} {PHASES[record.phase]}{giving}"
            yield f"{where}, waits {why_waiting(happened, client)}"


def counted_lines(happened):
    """How the requests ended, and which calls were refused. A client is counted when it is told to give back."""
    ended = Counter(event.after.outcome for event in happened.events if event.number == 0 and event.before.outcome == 0 and event.after.outcome)
    yield ", ".join(f"{ended[number]} {name}" for number, name in enumerate(OUTCOMES) if number)
    refused = Counter(event.number for event in happened.events if event.number)
    by_cause = ", ".join(f"{count} by {number}" for number, count in sorted(refused.items()))
    yield f"{len(happened.events)} calls, {refused.total()} refused" + (f": {by_cause}" if by_cause else "")


def section(title, lines):
    yield ""
    yield title
    yield from (f"  {line}" for line in list(lines) or ["nobody"])


def section_if(title, lines):
    """A section that is there only if it has lines."""
    if found := list(lines):
        yield from section(title, found)


def report(source, happened):
    """The whole report, line by line."""
    yield from in_columns(rows(source, happened.events), NUMBERS)
    yield from section_if("Clocks", clock_lines(happened.opened.history))
    yield from section("Held", held_lines(happened))
    yield from section_if("Held by two at the same time", overlap_lines(happened.events))
    yield from section_if("Given up, out of patience", given_up_lines(happened))
    yield from section("Not idle and not holding at the end", waiting_lines(happened))
    yield from section("In all", counted_lines(happened))

"""What `schedule run` says of clients that gave their windows up, since their patience was over."""

from model import record as records
from model import tree
from scheduling.durations import never_held
from scheduling.events import at
from scheduling.names import window
from scheduling.waiting import for_whom, waits_until


def of_piece(settings, record, piece):
    """What a client has of a piece, in words; nothing if it has nothing of it."""
    node, notices = records.pieces(record)[piece], len(records.notified(settings, record, piece))
    whole = f"its units of leaf {node}" if tree.is_leaf(settings.levels, node) else f"node {node}"
    had = ("", f"its ticket at node {node}", f"its turn at node {node}", whole)[records.grip_of(record, piece)]
    return f"{had} and {notices} notice{'s' * (notices != 1)}" if notices else had


def waited(settings, given_up):
    """What a client waited for when its patience was over."""
    event, wait, clients = given_up
    if wait:
        return f"it waited {for_whom(wait, clients)}"
    until = waits_until(settings, event.before, event.clock)
    return f"it waited for nobody: until clock {until}" if until else "nothing was in its way at that clock"


def given_up_lines(happened):
    """Each client that was out of patience: since when it had its first piece, for whom it waited, and what it gives back."""
    settings = happened.schedule.settings
    for given_up in happened.given_up:
        event, before = given_up.event, given_up.event.before
        had = [of_piece(settings, before, piece) for piece in range(before.current + 1)]
        since = f"it had its first piece since clock {before.taken}, and its patience is {settings.patience}"
        yield f"client {event.call.client} gave {window(before.left, before.right)} up at {at(event)}: {since}"
        yield f"  {waited(settings, given_up)}"
        yield from (f"  {why}" for why in [never_held(settings, before.left, before.right)] if why)
        yield f"  it gives back {', '.join(filter(None, had))}"

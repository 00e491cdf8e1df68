"""Why a call is refused, in words, and which calls of a schedule will be, seen from its text alone."""

from model import tree
from model.schedule import MOST_CLIENTS, MOST_LEVELS
from scheduling.names import PHASES


def no_such(name, count, number):
    """Of what is counted from 0: clients, wards, weeks, days."""
    those = f"with 1 {name} it is 0" if count == 1 else f"with {count} {name}s they are 0 to {count - 1}"
    return f"there is no {name} {number}: {those}"


def no_such_client(clients, client):
    return no_such("client", clients, client)


def clock_goes_back(call, last):
    return f"clock {call.a} is below client {call.client}'s last clock {last}"


def window_outside(levels, left, right):
    """Why a request for [left, right) is refused by 7; nothing if it is not."""
    if left >= right:
        return f"the left edge {left} is not below the right edge {right}"
    if right > tree.units(levels):
        return f"the right edge {right} is past the {tree.units(levels)} units of {levels} levels"
    return ""


def wrong_phase(kind, phase):
    wanted = {"request": "idle", "release": "held", "cancel": "in phase 1 to 8"}[kind]
    return f"a {kind} wants a client that is {wanted}; this one is in phase {phase}, {PHASES[phase]}"


def words_for(number, schedule, call, before, last):
    """The cause of a refused call in words: `before` is the client's record and `last` its last clock before the call."""
    if number == 4:
        return no_such_client(schedule.clients, call.client)
    if number == 5:
        return clock_goes_back(call, last)
    if number == 7:
        return window_outside(schedule.settings.levels, call.a, call.b)
    return wrong_phase(call.kind, before.phase)


def of_settings(schedule):
    """What will refuse a schedule as a whole: the number and the words."""
    (levels, distance, wait, patience), clients = schedule.settings, schedule.clients
    if levels > MOST_LEVELS:
        yield 11, f"rangelog and rangepages run trees of at most {MOST_LEVELS} levels, not {levels}"
    if clients > MOST_CLIENTS:
        yield 11, f"rangelog and rangepages run at most {MOST_CLIENTS} clients, not {clients}"
    if levels < 2:
        yield 1, f"a tree has at least 2 levels, not {levels}"
    if not 1 <= distance <= 4:
        yield 1, f"m is 1 to 4, not {distance}"
    if wait == 0:
        yield 1, "the wait is at least 1, not 0"
    if patience == 0:
        yield 1, "the patience is at least 1, not 0"
    if clients == 0:
        yield 3, "there is at least 1 client, not 0"


def of_whole(source, kind=""):
    """What is said of a schedule that is refused as a whole, with the line of a text; nothing if it is run."""
    line = f"line {source.settings_line}: " if source.settings_line else ""
    return tuple(f"{line}{kind}{words}; refused by {number}" for number, words in of_settings(source.schedule))


def of_call(schedule, call, last):
    """What will refuse a call whatever phase its client is in: the number and the words, or 0. `last` is the client's last clock."""
    if call.client >= schedule.clients:
        return 4, no_such_client(schedule.clients, call.client)
    if call.kind == "step" and call.a < last:
        return 5, clock_goes_back(call, last)
    if call.kind == "request" and (outside := window_outside(schedule.settings.levels, call.a, call.b)):
        return 7, outside
    return 0, ""


def of_calls(source):
    """The calls that will be refused by 4, 5 or 7. Only accepted steps set a last clock, and only that of their own client."""
    last = {}
    for call, line in zip(source.schedule.calls, source.lines):
        number, words = of_call(source.schedule, call, last.get(call.client, 0))
        if number:
            yield line, number, words
        elif call.kind == "step":
            last[call.client] = call.a


def foreseen(source):
    """A warning for each line of a text that will be refused; of calls only if the whole schedule is not."""
    whole = of_whole(source, "warning: ")
    yield from whole
    for line, number, words in () if whole else of_calls(source):
        yield f"line {line}: warning: {words}; the lock will refuse this call by {number}"

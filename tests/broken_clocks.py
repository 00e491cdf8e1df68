"""Request 2.3 broken on purpose: one of its sentences read wrongly, put in the place of the model's own while a `with` lasts. Histories
that meet its supposition, states, lent tables and files must find each of them out."""

from unittest.mock import patch

from histories import MOST_PATIENCE, Shape
from model import calls, pages, step, table
from model.readable import unreadable
from model.record import Settings

by_value, of_client, opening, table_step = calls.step, table.of_client, table.opening, table.step


def of_step(name, value):
    return lambda: patch.object(step, name, value)


def late(rule):
    """Late by another rule, of T and the ticks since t1."""
    return of_step("late", lambda settings, record, clock: rule(settings.wait, clock - record.t1))


# With these two clients hold overlapping windows in histories that meet the supposition.
TOO_LATE = {
    "late by document 01's rule": late(lambda wait, ticks: ticks >= wait),
    "late with the factors exchanged": late(lambda wait, ticks: not 9999 * ticks < 10001 * wait),
    "late unless the one product is at most the other": late(lambda wait, ticks: not 10001 * ticks <= 9999 * wait),
    "late by the drift of one clock alone": late(lambda wait, ticks: not 10000 * ticks < 9999 * wait),
    "late one tick too late": late(lambda wait, ticks: not 10001 * (ticks - 1) < 9999 * wait),
    "the wait shortened by the factors": of_step(
        "waited", lambda settings, record, clock: 10001 * (clock - record.t0) >= 9999 * settings.wait),
}

# Settings and clients with which a few ten random histories find these out.
SHAPES = {
    "late by document 01's rule": Shape(Settings(2, 1, 123456, MOST_PATIENCE), 3, 600),
    "late with the factors exchanged": Shape(Settings(2, 1, 123456, MOST_PATIENCE), 3, 600),
}

LATE = TOO_LATE | {
    "late in 64 bits": late(lambda wait, ticks: not 10001 * ticks % 2 ** 64 < 9999 * wait),
    "late with the ticks in 32 bits": late(lambda wait, ticks: not 10001 * (ticks % 2 ** 32) < 9999 * wait),
    "late with T's product in 32 bits": late(lambda wait, ticks: not 10001 * ticks < 9999 * wait % 2 ** 32),
    "late one tick too soon": late(lambda wait, ticks: not 10001 * (ticks + 1) < 9999 * wait),
    "late always": late(lambda wait, ticks: True),
    "the wait lengthened by the factors": of_step(
        "waited", lambda settings, record, clock: 9999 * (clock - record.t0) >= 10001 * settings.wait),
    "patience by the factors": of_step("patience_run_out", lambda settings, record, clock: (
        record.phase in step.WITH_PATIENCE and record.current > 0 and 10001 * (clock - record.taken) >= 9999 * settings.patience)),
}


def five_with_equal(settings, words, client, clock):
    """5 also where the clock is the last one."""
    return calls.Answer(5, client) if clock == client.clock else by_value(settings, words, client, clock)


def five_untested(settings, words, client, clock):
    return by_value(settings, words, client._replace(clock=min(clock, client.clock)), clock)


def set_though_refused(settings, words, client, clock):
    """A refused step sets the clock."""
    number, after = by_value(settings, words, client, clock)
    return calls.Answer(number, after._replace(clock=clock))


def cleared_when_idle(settings, words, client, clock):
    """A step after which the client is idle clears its clock."""
    number, after = by_value(settings, words, client, clock)
    return calls.Answer(number, after._replace(clock=0) if number == 0 and after.record.phase == 0 else after)


def cleared_by(call):
    """Another call that clears the clock."""
    def changed(*arguments):
        number, after = call(*arguments)
        return calls.Answer(number, after._replace(clock=0) if number == 0 else after)
    return changed


def of_calls(name, value):
    return lambda: patch.object(calls, name, value)


BY_VALUE = {
    "a step at the last clock refused": of_calls("step", five_with_equal),
    "5 not tested": of_calls("step", five_untested),
    "a refused step sets the clock": of_calls("step", set_though_refused),
    "the clock cleared when the client is idle": of_calls("step", cleared_when_idle),
    **{f"the clock cleared by a {kind}": of_calls(kind, cleared_by(getattr(calls, kind))) for kind in ("request", "release", "cancel")},
}


def reached_client(settings, words, clients, client):
    """Whether a call comes to its client: none of 1 to 4 refuses it."""
    return table.lent_refused(settings, words, clients) == 0 and client < len(clients)


def greatest(clients):
    return max((client.clock for client in clients), default=0)


def five_by(clock_of):
    """5 against another clock than that client's."""
    def changed(settings, words, clients, client, clock):
        if reached_client(settings, words, clients, client) and clock < clock_of(clients):
            return 5
        return table_step(settings, words, clients, client, clock)
    return changed


def sets_too(places):
    """An accepted step sets the clock of others too."""
    def changed(settings, words, clients, client, clock):
        number = table_step(settings, words, clients, client, clock)
        for place in places(client, len(clients)) if number == 0 else ():
            clients[place] = clients[place]._replace(clock=clock)
        return number
    return changed


def sets_only_the_first(settings, words, clients, client, clock):
    """The first client's clock is everybody's."""
    last, number = clients[client].clock if client < len(clients) else 0, table_step(settings, words, clients, client, clock)
    if number == 0 and client > 0:
        clients[client], clients[0] = clients[client]._replace(clock=last), clients[0]._replace(clock=clock)
    return number


def set_to_the_greatest(call, settings, words, clients, client, *arguments):
    """An accepted request, release or cancel sets the client's clock to the greatest of all."""
    number = of_client(call, settings, words, clients, client, *arguments)
    if number == 0 and call is not calls.step:
        clients[client] = clients[client]._replace(clock=greatest(clients))
    return number


def readable_by(clock_of):
    """Noted times held to another clock than that client's."""
    def changed(call, settings, words, clients, client, *arguments):
        last = clock_of(clients)
        with patch.object(calls, "client_unreadable", lambda settings, client: unreadable(settings, client.record, last)):
            return of_client(call, settings, words, clients, client, *arguments)
    return changed


def first(clients):
    return clients[0].clock if clients else 0


def clocks_left(settings, words, clients):
    """An opening that leaves the clocks."""
    clocks = [client.clock for client in clients]
    number = opening(settings, words, clients)
    clients[:] = [client._replace(clock=clock) for client, clock in zip(clients, clocks)]
    return number


def of_table(name, value):
    return lambda: patch.object(table, name, value)


TABLES = {
    "5 against the greatest of all clocks": of_table("step", five_by(greatest)),
    "5 against the first client's clock": of_table("step", five_by(first)),
    "a step that sets the next client's clock too": of_table("step", sets_too(lambda client, count: [(client + 1) % count])),
    "a step that sets all clocks": of_table("step", sets_too(lambda client, count: range(count))),
    "a step that sets the first client's clock in place of its own": of_table("step", sets_only_the_first),
    "a call other than a step sets the clock": of_table("of_client", set_to_the_greatest),
    "noted times readable by the greatest of all clocks": of_table("of_client", readable_by(greatest)),
    "noted times readable by the first client's clock": of_table("of_client", readable_by(first)),
}
OPENINGS = {"an opening that leaves the clocks": of_table("opening", clocks_left)}


def least(clients):
    return min((client.clock for client in clients), default=0)


def page_by(name, clock_of):
    """A page that holds noted times to another clock than the client's own."""
    refused = getattr(pages, name)

    def changed(settings, clients, *arguments):
        last = clock_of(clients)
        with patch.object(pages, "client_unreadable", lambda settings, client: unreadable(settings, client.record, last)):
            return refused(settings, clients, *arguments)
    return lambda: patch.object(pages, name, changed)


PAGES = {
    "the planners' page by the first client's clock": page_by("planners_refused", first),
    "the planners' page by the greatest of all clocks": page_by("planners_refused", greatest),
    "the planners' page by the least of all clocks": page_by("planners_refused", least),
    "a run's page by the first client's clock": page_by("run_refused", first),
    "a run's page by the greatest of all clocks": page_by("run_refused", greatest),
    "a run's page by the least of all clocks": page_by("run_refused", least),
}

RULES = LATE | BY_VALUE | TABLES | OPENINGS | PAGES
# What no history from a fresh table shows.
ONLY_LENT = {
    "noted times readable by the greatest of all clocks", "an opening that leaves the clocks",
    "the planners' page by the greatest of all clocks", "a run's page by the greatest of all clocks",
}
IN_LOGS = [rule for rule in RULES if rule not in ONLY_LENT and rule not in PAGES]
IN_PAGES = [rule for rule in RULES if rule not in ONLY_LENT]

"""Pages broken on purpose: one sentence of request 2.1 or 2.4 read wrongly, in the pages of a lent table. Lent tables and files must find
each of them out."""

from unittest.mock import patch

from broken_step_counts import COUNTS
from model import cover, pages, step_count, table, tree
from model.calls import client_unreadable, settings_outside
from model.record import IDLE
from model.record import pieces as pieces_of

planners_page, planners_refused, row, run_page, run_refused, steps = (
    pages.planners_page, pages.planners_refused, pages.row, pages.run_page, pages.run_refused, pages.steps)


def charged_for_a_leaf(settings, record):
    """Over-cover charged for a leaf."""
    h, l, r = settings.levels, record.left, record.right
    return sum(tree.size(h, n) - cover.part(h, n, l, r) for n in pieces_of(record))


def of_first_piece(settings, record):
    """The over-cover of the first piece alone."""
    return cover.over_cover(settings.levels, record.first, record.left, record.right)


def counted_by(count):
    """The step count of the record's window by another count."""
    return lambda settings, record: count(settings.levels, settings.distance, record.left, record.right)


def steps_in(phases):
    """A step count in these phases only."""
    return lambda settings, record: steps(settings, record) if record.phase in phases else 0


def of_current_piece(settings, record):
    """The step count of the range of the current piece alone."""
    left, right = tree.node_range(settings.levels, pieces_of(record)[record.current])
    return step_count.kept_steps(settings.levels, settings.distance, max(left, record.left), min(right, record.right))


def idle_with_a_step(settings, record):
    """The row of an idle client with a step count."""
    return row(settings, record) if record.phase else pages.Row(steps=1)


def three_before_two(settings, clients, rows):
    """No clients, or over 32,767, tested before the count of rows."""
    three_first = not settings_outside(settings) and table.clients_outside(clients)
    return 3 if three_first else planners_refused(settings, clients, rows)


def more_rows_taken(settings, clients, rows):
    """Rows for more than the clients there are."""
    return planners_refused(settings, clients, rows[:len(clients)])


def any_unreadable(settings, clients):
    return any(client_unreadable(settings, client) for client in clients)


def six_before_three(settings, clients, rows):
    """Unreadable records tested before their count."""
    number = planners_refused(settings, clients, rows)
    return 6 if number == 3 and any_unreadable(settings, clients) else number


def tested_without(place):
    """The record at a place is not tested: 0 the first, -1 the last."""
    def refused(settings, clients, rows):
        number = planners_refused(settings, clients, rows)
        if number != 6:
            return number
        return 6 if any_unreadable(settings, [*clients[:place], *clients[place:][1:]]) else 0
    return refused


def first_32767_tested(settings, clients, rows):
    """Of a table with too many clients the first 32,767 are taken."""
    return planners_refused(settings, clients[:table.MOST_CLIENTS], rows[:table.MOST_CLIENTS])


def zeroed_if_refused(settings, clients, rows):
    """A refused page zeroes its rows."""
    number = planners_page(settings, clients, rows)
    rows[:] = rows if number == 0 else [pages.Row()] * len(rows)
    return number


def four_before_three(settings, clients, client):
    """The client tested before the count of clients."""
    if not settings_outside(settings) and client >= len(clients):
        return 4
    return run_refused(settings, clients, client)


def every_record_tested(settings, clients, client):
    """A run's page tests 6 for every record."""
    number = run_refused(settings, clients, client)
    return number or (6 if any_unreadable(settings, clients) else 0)


def own_not_tested(settings, clients, client):
    """A run's page does not test 6."""
    number = run_refused(settings, clients, client)
    return 0 if number == 6 else number


def count_when_refused(settings, clients, client):
    """A refused page has the count."""
    return run_page(settings, clients, client)._replace(held=pages.held_count(clients))


def record_when_refused(settings, clients, client):
    """A refused page has the record."""
    return run_page(settings, clients, client)._replace(own=clients[client].record if client < len(clients) else IDLE)


def readable_counted(settings, clients, client):
    """Of the clients in phase 9 those are counted whose records are readable."""
    page = run_page(settings, clients, client)
    held = 0 if page.number else sum(each.record.phase == 9 and not client_unreadable(settings, each) for each in clients)
    return page._replace(held=held)


def others_counted(settings, clients, client):
    """The other clients in phase 9 are counted."""
    page = run_page(settings, clients, client)
    return page._replace(held=page.held - (page.own.phase == 9))


def rows_of(order):
    """The rows of an accepted page are those of the clients in another order."""
    def page(settings, clients, rows):
        number = planners_page(settings, clients, rows)
        rows[:] = rows if number else [row(settings, client.record) for client in order(clients)]
        return number
    return page


def in_10_bits(clients):
    return [clients[place % 1024] for place in range(len(clients))]


def reversed_above_300(clients):
    return clients[::-1] if len(clients) > 300 else clients


def ends_tested_above_300(settings, clients, rows):
    """Of over 300 records only the first and the last are tested."""
    number = planners_refused(settings, clients, rows)
    tested = [clients[0], clients[-1]] if number == 6 and len(clients) > 300 else clients
    return number if number != 6 or any_unreadable(settings, tested) else 0


def own_in_10_bits(settings, clients, client):
    """The own record is found by 10 bits of the client's number."""
    page = run_page(settings, clients, client)
    return page if page.number else page._replace(own=clients[client % 1024].record)


def counted(phases):
    """How many clients are in these phases."""
    return lambda clients: sum(client.record.phase in phases for client in clients)


def in_place(name, value):
    return lambda: patch.object(pages, name, value)


# Broken rules that the pages of a schedule show.
IN_HISTORIES = {
    "over-cover charged for a leaf": in_place("over_cover", charged_for_a_leaf),
    "the over-cover of the first piece alone": in_place("over_cover", of_first_piece),
    "no over-cover": in_place("over_cover", lambda settings, record: 0),
    **{f"in a row {name}": in_place("steps", counted_by(count)) for name, count in COUNTS.items()},
    "the steps of the current piece alone": in_place("steps", of_current_piece),
    "no step count": in_place("steps", steps_in(())),
    "no step count of a window that is held": in_place("steps", steps_in({*range(9), 10})),
    "no step count of a window that is given back": in_place("steps", steps_in(range(10))),
    "a step count of an idle client": in_place("row", idle_with_a_step),
    "no second piece": in_place("row", lambda settings, record: row(settings, record)._replace(second=0)),
    "a row only for who holds": in_place("row", lambda settings, record: row(settings, record if record.phase == 9 else IDLE)),
    "clients that give back counted": in_place("held_count", counted(range(9, 2 ** 64))),
    "other clients counted": in_place("run_page", others_counted),
}

# All of them: these need lent tables.
RULES = IN_HISTORIES | {
    "3 tested before 2": in_place("planners_refused", three_before_two),
    "6 tested before 3": in_place("planners_refused", six_before_three),
    "more rows than clients taken": in_place("planners_refused", more_rows_taken),
    "the first record not tested": in_place("planners_refused", tested_without(0)),
    "the last record not tested": in_place("planners_refused", tested_without(-1)),
    "32,768 clients cut to 32,767": in_place("planners_refused", first_32767_tested),
    "only the first and the last of over 300 records tested": in_place("planners_refused", ends_tested_above_300),
    "rows of records found by 10 bits": in_place("planners_page", rows_of(in_10_bits)),
    "rows of over 300 clients in reverse order": in_place("planners_page", rows_of(reversed_above_300)),
    "a refused page zeroes its rows": in_place("planners_page", zeroed_if_refused),
    "4 tested before 3": in_place("run_refused", four_before_three),
    "a run's page tests every record": in_place("run_refused", every_record_tested),
    "a run's page does not test its record": in_place("run_refused", own_not_tested),
    "the own record found by 10 bits": in_place("run_page", own_in_10_bits),
    "a refused page has the count": in_place("run_page", count_when_refused),
    "a refused page has the record": in_place("run_page", record_when_refused),
    "readable clients counted": in_place("run_page", readable_counted),
    "a count of 8 bits": in_place("held_count", lambda clients: counted({9})(clients) % 256),
    "a count that 32,767 brings back to 0": in_place("held_count", lambda clients: counted({9})(clients) % 32767),
    "the settings not tested": in_place("settings_outside", lambda settings: False),
}

"""Request 2.1 of document 02, "One log, two readers": the page that planners get of a lent table, the page that a forecast run gets
of it, and what the program `rangepages` prints. The last clock of a client's record is its own (2.3), and no page has it. "The planners' page
gains" the step count (2.4), at the end of a row.

`python3 -m model.pages < file` writes what the model gives.
"""

import sys
from typing import NamedTuple

from model import cover, step_count
from model import record as fields
from model import schedule as schedules
from model.calls import client_unreadable, settings_outside
from model.record import IDLE, Record
from model.table import clients_outside


class Row(NamedTuple):
    """A client's phase, edges, pieces (0 for none) and over-cover, and how many steps its window needs on an otherwise idle tree."""

    phase: int = 0
    left: int = 0
    right: int = 0
    first: int = 0
    second: int = 0
    over: int = 0
    steps: int = 0


class RunPage(NamedTuple):
    """The number (0 accepted), the run's own record, and the number of clients in phase 9."""

    number: int
    own: Record = IDLE
    held: int = 0


def over_cover(settings, record):
    """How many units the record's pieces have beyond its window."""
    return sum(cover.over_cover(settings.levels, n, record.left, record.right) for n in fields.pieces(record))


def steps(settings, record):
    """The step count of the record's window, whatever its phase."""
    return step_count.kept_steps(settings.levels, settings.distance, record.left, record.right)


def row(settings, record):
    """A client's row, all zero for an idle one."""
    if record.phase == 0:
        return Row()
    return Row(record.phase, record.left, record.right, record.first, record.second, over_cover(settings, record), steps(settings, record))


def planners_refused(settings, clients, rows):
    """The planners' page tests 1, 2 (lent with other than one row a client), 3, and 6 for every record."""
    if settings_outside(settings):
        return 1
    if len(rows) != len(clients):
        return 2
    if clients_outside(clients):
        return 3
    return 6 if any(client_unreadable(settings, client) for client in clients) else 0


def planners_page(settings, clients, rows):
    """Fills the lent rows, one for each client, and gives the number; a refused page leaves every row as it was."""
    if number := planners_refused(settings, clients, rows):
        return number
    rows[:] = [row(settings, client.record) for client in clients]
    return 0


def held_count(clients):
    """The number of clients in phase 9: it goes by the phase alone, whatever else the records say."""
    return sum(client.record.phase == 9 for client in clients)


def run_refused(settings, clients, client):
    """A run's page tests 1, 3, 4, and 6 for its own record alone."""
    if settings_outside(settings):
        return 1
    if clients_outside(clients):
        return 3
    if client >= len(clients):
        return 4
    return 6 if client_unreadable(settings, clients[client]) else 0


def run_page(settings, clients, client):
    """The run's own record and the number of clients in phase 9, and no more; a refused page has its number only."""
    if number := run_refused(settings, clients, client):
        return RunPage(number)
    return RunPage(0, clients[client].record, held_count(clients))


def line(*numbers):
    return " ".join(map(str, numbers)) + "\n"


def lines(schedule, opened):
    """After the last call a line for each client, number and row, then one for each, number, record and count."""
    for call in schedule.calls:
        opened.make(call)
    rows = [Row()] * schedule.clients
    planners_page(schedule.settings, opened.clients, rows)
    for client, found in enumerate(rows):
        yield line(client, *found)
    for client in range(schedule.clients):
        page = run_page(schedule.settings, opened.clients, client)
        yield line(client, *page.own, page.held)


def pages(data):
    """What `rangepages` prints of a file, which it reads or refuses as `rangelog` does."""
    return schedules.printed(data, lines)


if __name__ == "__main__":
    sys.stdout.write(pages(sys.stdin.buffer.read()))

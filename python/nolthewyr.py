"""Locks on windows of one long table of units, for Python: `Table` and its calls, over the shared library.

    table = Table(Settings(levels=3, distance=2, wait=30, patience=100), clients=2)
    table.request(0, 10, 20)            # client, left edge, right edge
    table.step(0, clock)                # by its own clock, until it gives Phase.HELD; or Phase.IDLE, and it asks again
    table.release(0)                    # and steps until it is Phase.IDLE
    table.planners_page()               # a row for each client: phase, window, nodes, over-cover and steps needed
    table.run_page(0)                   # what client 0 may see: its own record, and how many clients hold
    calendar_window(hours, calendar, first, last)   # a ward's window by its first and last quarter: the edges to request

A refused call raises `Refused`. examples/take.py has the whole of it, with what to do if the window cannot be had.

The shared library is the file that NOLTHEWYR_LIBRARY in the environment names; else it is looked for beside this file, where `make install`
and `make` put it, and where the system looks for libraries. It is loaded by the first call.
"""

from ctypes import c_uint64
from threading import RLock

# All that a program names is found here, whichever of the two files has it.
from nolthewyr_linked import (
    FUNCTIONS, LEAST, SERIES, AheadAnswer, Calendar, CalendarQuarterAnswer, CalendarWindowAnswer, Call, Cause, Client, ClientAnswer,
    CompletedAllAnswer, CoverAnswer, Operation, OperationAnswer, Outcome, Phase, Quarter, Record, Row, RunPageAnswer, Settings, StepCountAnswer,
    fitting, library, library_file)

TOO_MANY_CLIENTS = 32768
# The longest list of operations that are posted together: a check of 1 + 4 + 16 + 64 nodes.
MOST_AHEAD = 85


class Refused(Exception):
    """A call that was refused, which left everything as it was: the number of its cause, and that in words."""

    def __init__(self, number):
        super().__init__(number)
        self.number, self.text = number, cause_text(number)

    def __str__(self):
        return f"refused by {self.number}: {self.text}"


def accepted(number):
    if number != Cause.ACCEPTED:
        raise Refused(number)


def accepted_answer(answer):
    accepted(answer.number)
    return answer


class Table:
    """An opened table. It owns its words, clients and settings, so that every call is made on what the call before left, and threads may
    share it: a call is whole before the next begins. Each call gives the client's phase after it."""

    def __init__(self, settings, clients):
        """Clients are numbered from 0. The library refuses what no table has, and it does so on little memory: it is lent no words for
        levels outside 2..12, and not more clients than the first count that is too high."""
        self._settings, self._lock = Settings.from_buffer_copy(settings), RLock()
        self._clients = (Client * min(fitting(clients), TOO_MANY_CLIENTS))()
        self._words = (c_uint64 * word_count(settings.levels))()
        self._lent = self._clients, len(self._clients), self._words, len(self._words), self._settings
        accepted(library().nolthewyr_open(*self._lent))

    def request(self, client, left, right):
        """Asks for [left, right) for an idle client."""
        return self._make(library().nolthewyr_request, client, left, right)

    def step(self, client, clock):
        """Does the one thing that the client's phase says, by the client's own clock, which may start at any number. It does not go back: a
        step below that client's last clock is refused by 5. And it is true within 1 part in 10,000: between any two steps of a client
        10,000 times the ticks of its clock is 9,999 to 10,001 times the ticks that truly went by from call to call. Rounding counts, and so
        does what goes by between the reading of a clock and the call: threads that share a table give a function that reads the clock, and
        it is called when no other call can come between. No call can test this. If it is not so, two clients may come to hold overlapping
        windows; still, with any clocks, the tree is clean when all are idle. docs/LINKING.md says which clocks will do."""
        return self._make(library().nolthewyr_step, client, clock)

    def release(self, client):
        """Ends the holding of a client, which then gives its words back by steps until it is idle."""
        return self._make(library().nolthewyr_release, client)

    def cancel(self, client):
        """Gives up a window that is not yet held. What the client has of it, it gives back by steps until it is idle."""
        return self._make(library().nolthewyr_cancel, client)

    def planners_page(self):
        """The planners' page: a row for each client."""
        rows = (Row * len(self._clients))()
        with self._lock:
            accepted(library().nolthewyr_planners_page(self._clients, len(self._clients), rows, len(rows), self._settings))
        return list(rows)

    def run_page(self, client):
        """The page of a client that is a forecast run: what it may see of the table."""
        with self._lock:
            return accepted_answer(library().nolthewyr_run_page(self._clients, len(self._clients), self._settings, fitting(client)))

    def record(self, client):
        """A copy of the client's record, or None if there is no such client."""
        with self._lock:
            return Record.from_buffer_copy(self._clients[client].record) if 0 <= client < len(self._clients) else None

    def clock(self, client):
        """The client's last clock, that of its last accepted step, 0 before the first; or None if there is no such client."""
        with self._lock:
            return self._clients[client].clock if 0 <= client < len(self._clients) else None

    def _make(self, function, client, a=0, b=0):
        with self._lock:
            accepted(function(*self._lent, Call(client=client, a=a() if callable(a) else a, b=b)))
            return Phase(self._clients[client].record.phase)


def cover(levels, left, right):
    """The nodes that a request for [left, right) would take."""
    return accepted_answer(library().nolthewyr_cover(fitting(levels), fitting(left), fitting(right)))


def step_count(levels, distance, left, right):
    """How many accepted steps [left, right) needs from its request until it is held, with nobody else in the tree: if each wait is over
    before it is stepped, no claim is late and patience does not run out."""
    return accepted_answer(library().nolthewyr_step_count(*map(fitting, (levels, distance, left, right)))).steps


def word_count(levels):
    """How many words a tree of so many levels has; 0 for levels that no tree has."""
    return library().nolthewyr_word_count(fitting(levels))


def calendar_window(hours, calendar, first, last):
    """The edges (left, right) of the window from the first quarter of a ward to its last, which is locked too; it may run over midnight and
    over a week's end. `hours` is a list of numbers, two for each ward and day, ward 0's days 0 to 6 first: the quarter at which the ward
    opens and that at which it closes (0..96; closing is not open any more, and equal means closed all day). docs/WARDS.md has more."""
    lent = (c_uint64 * len(hours))(*map(fitting, hours))
    answer = accepted_answer(library().nolthewyr_calendar_window(lent, len(lent), calendar, first, last))
    return answer.left, answer.right


def calendar_quarter(calendar, unit):
    """The ward, week, day and quarter that a unit is."""
    return accepted_answer(library().nolthewyr_calendar_quarter(calendar, fitting(unit))).at


# A run on another machine than the words: its client goes in and comes back by value, and starts as Client(). docs/REMOTE.md says how an
# operation is carried out over a network, and when the clock is read.


def operation(client, settings, clock):
    """Which operation the client posts now, by its own clock."""
    return accepted_answer(library().nolthewyr_operation(client, settings, fitting(clock)))


def applied(operation, found):
    """The word that an operation leaves where it finds this one."""
    return library().nolthewyr_applied(operation, fitting(found))


def completed(client, settings, clock, found):
    """The client after its operation, which found this word."""
    return accepted_answer(library().nolthewyr_completed(client, settings, fitting(clock), fitting(found))).next


def operations_ahead(client, settings, clock, room=MOST_AHEAD):
    """The operations that the client may post together now, in their order, at most so many; none where it has nothing to post. docs/LINKING.md
    says by which clock they are asked for and completed."""
    lent = (OperationAnswer * min(fitting(room), MOST_AHEAD))()
    return lent[:accepted_answer(library().nolthewyr_operations_ahead(client, settings, fitting(clock), lent, len(lent))).count]


def completed_all(client, settings, clock, found):
    """How many of the operations that were posted together count, by the words that they found, and the client after those. Reads that do not count
    are dropped. In a list begun in phase 5, 6 or 10 all count; if fewer do, a word was damaged, and they must not be posted again."""
    lent = (c_uint64 * len(found))(*map(fitting, found))
    answer = accepted_answer(library().nolthewyr_completed_all(client, settings, fitting(clock), lent, len(lent)))
    return answer.counted, answer.next


def own_request(client, settings, left, right):
    """The client after it has asked for [left, right)."""
    return accepted_answer(library().nolthewyr_own_request(client, settings, fitting(left), fitting(right))).next


def own_release(client, settings):
    """The client after its holding has ended; it gives its words back by operations until it is idle."""
    return accepted_answer(library().nolthewyr_own_release(client, settings)).next


def own_cancel(client, settings):
    """The client after it has given up a window that is not yet held; what it has of it, it gives back by operations until it is idle."""
    return accepted_answer(library().nolthewyr_own_cancel(client, settings)).next


def phase_text(number):
    return library().nolthewyr_phase_text(fitting(number)).decode()


def outcome_text(number):
    return library().nolthewyr_outcome_text(fitting(number)).decode()


def cause_text(number):
    return library().nolthewyr_cause_text(fitting(number)).decode()


def operation_text(number):
    return library().nolthewyr_operation_text(fitting(number)).decode()


def version():
    """The version of the library."""
    return library().nolthewyr_version().decode()

"""Cases for what only the table in Python has to do itself: numbers that do not fit are refused, what it owns is out of a caller's reach,
threads wait for each other, and structs are shown by their names."""

from threading import Thread

from compare import NAMES, case
from compiled_table import library, nolthewyr
from model.record import IDLE
from name_cases import TOP

NAMES["number that does not fit"] = ("place in the list of calls",), ("raises",)
NAMES["table in Python"] = ("claim",), ("holds",)


def raises(call):
    try:
        call()
    except ValueError:
        return 1
    return 0


def window_with_hour(place, hour):
    """A window of a ward that is always open, but for one of its hours."""
    hours = [0, 96] * 7
    hours[place] = hour
    at = nolthewyr.Quarter(0, 0, 0, 0)
    return nolthewyr.calendar_window(hours, nolthewyr.Calendar(3, 1, 1), at, at)


def by_value(outside):
    """The calls of a client that has no words lent, each with one number outside."""
    client, settings = nolthewyr.Client(), nolthewyr.Settings(2, 1, 5, 9)
    return [
        lambda: nolthewyr.Client(clock=outside), lambda: nolthewyr.OperationAnswer(value=outside),
        lambda: nolthewyr.operation(client, settings, outside), lambda: nolthewyr.applied(nolthewyr.OperationAnswer(), outside),
        lambda: nolthewyr.completed(client, settings, outside, 0), lambda: nolthewyr.completed(client, settings, 0, outside),
        lambda: nolthewyr.operations_ahead(client, settings, outside), lambda: nolthewyr.operations_ahead(client, settings, 0, outside),
        lambda: nolthewyr.completed_all(client, settings, outside, []), lambda: nolthewyr.completed_all(client, settings, 0, [0, outside]),
        lambda: nolthewyr.own_request(client, settings, outside, 20), lambda: nolthewyr.own_request(client, settings, 10, outside),
        lambda: nolthewyr.operation_text(outside),
    ]


def numbers_that_do_not_fit():
    """ctypes cuts a number to its width, so that client 2^64 would be client 0. The Python file raises, and nothing is called."""
    library()
    table = nolthewyr.Table(nolthewyr.Settings(2, 1, 5, 9), 2)
    for outside in (-1, TOP + 1):
        calls = [
            lambda: table.request(outside, 10, 20), lambda: table.request(0, outside, 20), lambda: table.request(0, 10, outside),
            lambda: table.step(outside, 1), lambda: table.step(0, outside), lambda: table.release(outside), lambda: table.cancel(outside),
            lambda: table.run_page(outside),
            lambda: nolthewyr.cover(outside, 10, 20), lambda: nolthewyr.cover(2, outside, 20), lambda: nolthewyr.word_count(outside),
            lambda: nolthewyr.step_count(outside, 1, 10, 20), lambda: nolthewyr.step_count(2, outside, 10, 20),
            lambda: nolthewyr.step_count(2, 1, outside, 20), lambda: nolthewyr.step_count(2, 1, 10, outside),
            lambda: nolthewyr.Settings(2, outside, 5, 9), lambda: nolthewyr.Settings(levels=outside),
            lambda: nolthewyr.Settings(2, 1, 5, outside), lambda: nolthewyr.Settings(patience=outside), lambda: nolthewyr.cause_text(outside),
            lambda: nolthewyr.Table(nolthewyr.Settings(2, 1, 5, 9), outside),
            lambda: nolthewyr.Calendar(outside, 1, 1), lambda: nolthewyr.Calendar(levels=3, wards=1, weeks=outside),
            lambda: nolthewyr.Quarter(outside, 0, 0, 0), lambda: nolthewyr.Quarter(ward=0, week=0, day=0, quarter=outside),
            *(lambda place=place: window_with_hour(place, outside) for place in range(14)),
            lambda: nolthewyr.calendar_quarter(nolthewyr.Calendar(3, 1, 1), outside), *by_value(outside),
        ]
        for place, call in enumerate(calls):
            yield case("number that does not fit", [place], 1), raises(call)
    unchanged = [table.clock(client) == 0 and tuple(table.record(client)) == IDLE for client in range(2)]
    yield case("table in Python", [0], 2), sum(unchanged)


def waits(table, call, *arguments):
    """Whether a call of another thread waits while one is made, and is made after it."""
    calling = Thread(target=call, args=arguments)
    with table._lock:
        calling.start()
        calling.join(0.1)
        waiting = calling.is_alive()
    calling.join()
    return waiting


def owned_memory():
    """What a caller does to the settings it opened with, or to a record or a page it was given, does not reach the table, and whatever is
    asked of the table waits until another thread's call is made."""
    library()
    settings = nolthewyr.Settings(2, 1, 5, 9)
    table = nolthewyr.Table(settings, 1)
    table.request(0, 10, 20)
    settings.levels, table.record(0).phase = 3, 9
    table.run_page(0).own.phase = table.planners_page()[0].phase = 9
    asked = (table.step, 0, 1), (table.planners_page,), (table.run_page, 0), (table.record, 0), (table.clock, 0)
    yield case("table in Python", [1], len(asked)), sum(waits(table, *call) for call in asked)
    yield case("table in Python", [2], 1), int(table.clock(0) == 1 and table.record(0).phase == nolthewyr.Phase.CLAIM)
    yield case("table in Python", [3], 1), int({table.record(1), table.record(-1), table.clock(1), table.clock(-1)} == {None})


def free_for_others(table):
    """Whether another thread would have its turn at once."""
    free = []

    def tried():
        free.append(table._lock.acquire(blocking=False))
        if free[0]:
            table._lock.release()

    other = Thread(target=tried)
    other.start()
    other.join()
    return free[0]


def clock_read_in_turn():
    """A clock that is given as a function is read when no other call can come between, and a number that does not fit is refused too."""
    library()
    table = nolthewyr.Table(nolthewyr.Settings(2, 1, 5, 9), 1)
    table.request(0, 10, 20)
    table.step(0, lambda: 8 if free_for_others(table) else 7)
    yield case("table in Python", [7], 1), int(table.clock(0) == 7 and free_for_others(table))
    yield case("table in Python", [8], 1), raises(lambda: table.step(0, lambda: TOP + 1))
    yield case("table in Python", [9], 1), int(table.clock(0) == 7)
    table.step(0, lambda: table.clock(0) + 1)
    yield case("table in Python", [10], 1), int(table.clock(0) == 8)


def shown_by_names():
    """A struct is shown by the names of its fields, which can be gone through in order, a run's page and a unit's quarter too."""
    library()
    table = nolthewyr.Table(nolthewyr.Settings(2, 1, 5, 9), 1)
    row = nolthewyr.Row(9, 0, 256, 1, 0, 0, 5)
    number, own, held = table.run_page(0)
    yield case("table in Python", [4], 1), int(repr(row) == "Row(phase=9, left=0, right=256, first=1, second=0, over=0, steps=5)")
    yield case("table in Python", [5], 1), int(repr(table.run_page(0)) == f"RunPageAnswer(number=0, own={nolthewyr.Record()}, held=0)")
    yield case("table in Python", [6], 1), int((number, tuple(own), held) == (0, tuple(IDLE), 0))
    quarter = nolthewyr.calendar_quarter(nolthewyr.Calendar(3, 1, 1), 671)
    yield case("table in Python", [11], 1), int(repr(quarter) == "Quarter(ward=0, week=0, day=6, quarter=95)" and tuple(quarter) == (0, 0, 6, 95))


SUITES = {
    "table in Python, a number of over 64 bits is refused": numbers_that_do_not_fit,
    "table in Python, it owns what it was opened with, and calls wait for each other": owned_memory,
    "table in Python, a clock that is a function is read in the call's turn": clock_read_in_turn,
    "table in Python, structs are shown by their names": shown_by_names,
}

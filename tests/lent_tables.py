"""Tables to ask for pages, lent with any content: in the middle of histories, readable, with damaged records, with clocks before and after
those of the other clients, with as many clients and rows as there may be and with others, and with every cause of a refusal."""

from functools import lru_cache
from random import Random
from typing import NamedTuple

from clock_states import lent_calls
from clocks import AnyClocks, TrueClocks
from demand_3_cases import PATIENCES
from histories import TOP, Driver, Shape, opened
from history_cases import RETURNING, WHOLE_CASE_SETTINGS
from model import tree
from model.record import IDLE, Client, Record, Settings
from readable_cases import HELD, LAST, SETTINGS
from record_states import State, any_clock, any_number, any_settings, built, one_outside, perturbed
from vector_cases import all_states

HISTORIES = 60
CALLS = 80
TABLES = 50
MOST = 32767
# Under these settings and at clocks up to this one a client may be at many places.
VARIED = Settings(6, 2, 50, 200)
VARIED_LAST = 1000


class Lent(NamedTuple):
    """What pages are asked of: settings, clients, how many rows are lent, and the client whose page it is."""

    settings: Settings
    clients: list
    rows: int
    client: int


def lent(settings, clients, client):
    """A table with one row a client."""
    return Lent(settings, list(clients), len(clients), client)


def at_one_clock(records, clock):
    """Clients with these records, whose last clocks are the same."""
    return [Client(clock, record) for record in records]


def in_histories():
    """After every call of random histories, for a client that it named or for another."""
    for seed in range(HISTORIES):
        rng = Random(f"pages {seed}")
        settings = Settings(rng.choice([2, 3, 4, 6]), rng.choice(tree.DISTANCES), rng.choice([1, 2, 5, 9]), rng.choice(PATIENCES))
        lock = opened(Shape(settings, rng.choice([1, 2, 3, 6, 9]), CALLS))
        driver = Driver(lock, seed, rng.choice([AnyClocks, TrueClocks]))
        for _ in range(CALLS):
            call = driver.next_call()
            lock.make(call)
            yield lent(settings, lock.clients, rng.choice([call.client, rng.randrange(len(lock.clients))]))


def damaged(rng, settings, client):
    """The client with one field of its record changed, or with any numbers in most of them, or with another clock."""
    last, record = client
    if rng.random() < 0.2:
        return Client(max(rng.choice([last - 1, any_clock(rng), any_clock(rng)]), 0), record)
    if rng.random() < 0.8:
        return Client(last, perturbed(rng, State(settings, record, {}, tree.node_count(settings.levels), last)).record)
    return Client(last, Record(*(value if rng.random() < 0.3 else any_number(rng) for value in record)))


def once(tables):
    """Each of these tables, but none twice: a change may leave a record as it was."""
    return [lent for place, lent in enumerate(tables) if lent not in tables[:place]]


def built_client(rng, settings):
    """A client with any clock and a readable record."""
    last = any_clock(rng)
    return Client(last, built(rng, settings, last))


def of_any_content():
    """Readable records of every H and any clocks; the same with one of them damaged, the client's or another's; and all of them
    damaged."""
    for h in tree.LEVELS:
        for seed in range(TABLES):
            rng = Random(f"lent table {h} {seed}")
            settings, count = any_settings(rng, h), rng.choice([1, 2, 3, 7])
            clients = [built_client(rng, settings) for _ in range(count)]
            client, place = rng.randrange(count), rng.randrange(count)
            hurt = [damaged(rng, settings, each) if at == place else each for at, each in enumerate(clients)]
            all_hurt = [damaged(rng, settings, each) for each in clients]
            asked = (clients, client), (hurt, client), (hurt, place), (all_hurt, client)
            yield from once([lent(settings, asked_of, run) for asked_of, run in asked])


def by_own_clocks():
    """A client's clock at, above and below its noted times and the other clients' clocks, near 0 and near 2^64. The other clients are at
    rest, or are not readable."""
    tables = (lent(called.settings, called.clients, called.call.client) for called in lent_calls() if called.call.kind == "cancel")
    for asked in tables:
        yield asked
        own = asked.clients[asked.client]
        yield asked._replace(clients=[each if each is own else each._replace(record=IDLE) for each in asked.clients])


def of_expected_answers():
    """The tables of tests/vectors, for the client that is called there."""
    for state in all_states():
        yield lent(state.settings, state.clients, state.call.client)


# The causes of each page in the order of testing; after the last of them has been taken away it is accepted.
CAUSES = {"planners' page": (1, 2, 3, 6), "run's page": (1, 3, 4, 6)}


def with_causes(causes, outside):
    """A table that has all of these causes; of clients it then has a number that is outside: none, or too many."""
    settings = WHOLE_CASE_SETTINGS._replace(wait=0 if 1 in causes else 5)
    clients = [Client(9, RETURNING._replace(ticket=32768 if 6 in causes else 0))] * (outside if 3 in causes else 3)
    rows = len(clients) + 1 if 2 in causes else len(clients)
    client = len(clients) if 4 in causes else 1
    return Lent(settings, clients, rows, client)


def settings_outside():
    """Each setting just outside its range, and far, with all else right."""
    for settings in one_outside(SETTINGS):
        yield lent(settings, at_one_clock([HELD, IDLE], LAST), 0)


def clients_and_rows():
    """Tables of every length with one row a client, one more, one fewer, none and far more; the client is the last, the first past the
    table, or far past it."""
    for count in (0, 1, 2, 255, 256, 257):
        clients = at_one_clock([HELD if place % 3 else IDLE for place in range(count)], LAST)
        for rows in {0, 1, count, count + 1, max(count - 1, 0), 2 * count, 300}:
            for client in (0, max(count - 1, 0), count, count + 1, 2 ** 32, 2 ** 63, TOP):
                yield Lent(SETTINGS, clients, rows, client)


def of_most_clients():
    """32,767 clients, of whom all hold, or one at either end is unreadable, or in 9 and unreadable; and 32,768."""
    one, unreadable = Client(LAST, HELD), Client(LAST, HELD._replace(ticket=32768))
    held = [one] * MOST
    for client in (0, MOST - 1, MOST):
        yield lent(SETTINGS, held, client)
    yield lent(SETTINGS, [unreadable, *held[1:]], MOST - 1)
    yield lent(SETTINGS, [*held[1:], unreadable], 0)
    yield lent(SETTINGS, [*held[1:], unreadable], MOST - 1)
    for rows in (0, MOST - 1, MOST + 1):
        yield Lent(SETTINGS, held, rows, 0)
    for rows in (MOST, MOST + 1):
        yield Lent(SETTINGS, [*held, one], rows, 0)
    yield lent(SETTINGS, [*held, unreadable], 0)
    yield lent(SETTINGS, [*held, one], MOST + 1)


@lru_cache(maxsize=None)
def varied():
    """32,767 clients with readable records and clocks of their own, of which hardly two are alike."""
    rng = Random("most clients")
    lasts = [rng.randrange(VARIED_LAST) for _ in range(MOST)]
    return tuple(Client(last, built(rng, VARIED, last)) for last in lasts)


def of_most_varied_clients():
    """32,767 clients that are all at other places, for one at either end, in the middle, and at a place beyond 10 bits; and with the
    record in the middle unreadable."""
    middle = MOST // 2
    for client in (0, 1024, middle, MOST - 1):
        yield lent(VARIED, varied(), client)
    unreadable = varied()[middle]._replace(record=varied()[middle].record._replace(ticket=32768))
    yield lent(VARIED, [*varied()[:middle], unreadable, *varied()[middle + 1:]], 1024)


def others_unreadable():
    """Clients in phase 9, and beside it, whose records say nothing else that can be: they are counted by the phase alone. The client's own
    record is readable or not."""
    filled = Record(9, *range(2, len(Record._fields) + 1))
    beside = [filled._replace(phase=phase) for phase in (8, 10, 2 ** 32 + 9, TOP)]
    for others in ([filled], [filled, filled], [HELD, filled, IDLE], [Record(phase=9), *beside]):
        for own in (HELD, IDLE, IDLE._replace(outcome=3), filled):
            yield lent(SETTINGS, at_one_clock([own, *others], LAST), 0)
            yield lent(SETTINGS, at_one_clock([*others, own], LAST), len(others))

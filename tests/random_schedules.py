"""Random files for `rangelog` and `rangepages`, by kind and seed: contended, well-formed of every size, refused in part or whole, and
damaged."""

from random import Random

from clocks import AnyClocks, TrueClocks
from histories import MOST_PATIENCE, TOP, Driver, Shape, opened
from model import tree
from model.history import KINDS, Call
from model.record import Settings
from model.schedule import CALL, HEADER, LONGEST, Schedule, encode

MOST_CLIENT = 2 ** 16 - 1


def driven(shape, seed):
    """A schedule of the calls that the driver draws, with any clocks and with true moments in turn; a client's number is cut to its 16
    bits."""
    lock = opened(shape)
    driver, calls = Driver(lock, seed, (AnyClocks, TrueClocks)[seed % 2]), []
    for _ in range(shape.calls):
        call = driver.next_call()
        calls.append(call._replace(client=min(call.client, MOST_CLIENT)))
        lock.make(calls[-1])
    return Schedule(shape.settings, shape.clients, tuple(calls))


def contended(rng, seed):
    """Few clients that want few windows of a small tree."""
    wait, patience = rng.choice([1, 2, 4, 9]), rng.choice([1, 3, 8, 30, MOST_PATIENCE])
    settings = Settings(rng.choice([2, 2, 3, 4]), rng.choice(tree.DISTANCES), wait, patience)
    return encode(driven(Shape(settings, rng.choice([2, 3, 5]), rng.choice([60, 150, 300])), seed))


def well_formed(rng, seed):
    """Every H up to 6 and up to 64 clients, with any bytes between header and first call and after the last."""
    wait, patience = rng.choice([1, 3, 20, 5001, 123456, 2 ** 32 - 1]), rng.choice([1, 20, 300, MOST_PATIENCE])
    settings = Settings(rng.randint(2, 6), rng.choice(tree.DISTANCES), wait, patience)
    schedule = driven(Shape(settings, rng.choice([1, 2, 16, 63, 64]), rng.choice([0, 1, 5, 50, 300])), seed)
    return encode(schedule, *(rng.randbytes(rng.choice([0, 0, 1, 24, 333])) for _ in range(2)))


def any_call(rng, levels, clients):
    """A call that is often refused: any client up to 2 past the table, edges about those of the tree, any clock."""
    n, kind = tree.units(levels), rng.choice(KINDS)
    client = rng.choice([rng.randrange(clients + 2), 0, 0, MOST_CLIENT])
    near = [0, 1, 63, 64, 65, n // 2, n - 1, n, n + 1, TOP, rng.randrange(n)]
    clock = rng.choice([rng.randrange(20), 9, rng.randrange(100)]) if rng.random() < 0.98 else rng.getrandbits(64)
    numbers = {"request": (rng.choice(near), rng.choice(near)), "step": (clock,)}.get(kind, ())
    return Call(kind, client, *numbers)


def refused(rng, seed):
    """Calls drawn without looking at what the clients do; H, m, T, P or clients are often just outside their ranges."""
    levels, distance = rng.choice([2, 2, 3, 6, 2, 3, 1, 7]), rng.choice([1, 2, 4, 1, 2, 3, 0, 5])
    wait, patience = rng.choice([1, 2, 5, 9, 20, 2 ** 32 - 1, 0]), rng.choice([1, 2, 5, 9, 20, 70, MOST_PATIENCE, 0])
    clients = rng.choice([1, 2, 3, 64, 2, 3, 0, 65])
    calls = tuple(any_call(rng, max(levels, 2), clients) for _ in range(rng.choice([0, 3, 100, 100])))
    return encode(Schedule(Settings(levels, distance, wait, patience), clients, calls))


def flipped(rng, data):
    """Some bits changed, at any place or in the header."""
    changed = bytearray(data)
    for _ in range(rng.choice([1, 1, 2, 5])):
        changed[rng.choice([rng.randrange(len(data)), rng.randrange(HEADER.size)])] ^= 1 << rng.randrange(8)
    return bytes(changed)


def number_flipped(rng, data):
    """A bit of a client's, an edge's or a clock's number changed."""
    if len(data) < HEADER.size + CALL.size:
        return data
    start = HEADER.size + CALL.size * rng.randrange((len(data) - HEADER.size) // CALL.size)
    at = start + rng.choice([2, 2, 3, 8, 8, 9, 15])
    return data[:at] + bytes([data[at] ^ 1 << rng.randrange(8)]) + data[at + 1:]


def cut(rng, data):
    return data[:rng.choice([rng.randrange(len(data)), len(data) - 1, len(data) - CALL.size, rng.randrange(HEADER.size + 4)])]


def extended(rng, data):
    """Bytes added at the end, also up to the greatest length and past it."""
    return data + rng.randbytes(rng.choice([1, 24, max(LONGEST - len(data), 0), LONGEST + 1 - len(data)]))


def bytes_moved(rng, data):
    """A byte taken out, or one put in, so that all after it is out of its place."""
    at = rng.randrange(len(data))
    return rng.choice([data[:at] + data[at + 1:], data[:at] + rng.randbytes(1) + data[at:]])


def damaged(rng, seed):
    """A contended file with bytes changed, cut, extended or moved."""
    data = contended(rng, seed)
    return rng.choice([flipped, number_flipped, number_flipped, cut, extended, bytes_moved])(rng, data)


DRAWN = {"contended": contended, "well-formed": well_formed, "refused": refused, "damaged": damaged}


def drawn(kind, seed):
    """The file of a kind and a seed."""
    return DRAWN[kind](Random(f"{kind} schedule {seed}"), seed)

"""Cases for the compiled calls over the lent table: single calls and whole histories held to the model, openings on tables
of every length, and demand 3 over random histories that the compiled calls make, with clocks that keep request 2.3's supposition and with
any."""

from collections import Counter
from functools import lru_cache
from itertools import cycle
from random import Random

from clock_states import lent_calls, lent_openings
from clocks import AnyClocks, TrueClocks
from compare import NAMES, case
from compiled_table import Table, library
from demand_3_cases import LONG_WAITS, MUST_OCCUR_WITH, PATIENCES, SHAPE, refused_though_readable
from histories import MOST_PATIENCE, TOP, Driver, Shape, Watch, opened, supposed
from history_cases import CAUSES, WHOLE_CASE_SETTINGS, lent_with_causes
from limit_histories import late_by_least, limits, taken_at_last
from model import table, tree
from model.history import KINDS, Call
from model.record import IDLE_CLIENT, Client, Record, Settings
from record_states import any_clock, one_outside

UNLIKE = ("number", "clocks unlike", "records unlike", "words unlike")
NAMES["compiled opening"] = ("levels", "words", "clients"), UNLIKE
NAMES["compiled call"] = ("seed", "call", "kind told"), UNLIKE
NAMES["compiled setting outside"] = ("place in the list of settings", "kind"), UNLIKE
NAMES["compiled refusal"] = ("kind", "causes taken away", "kind told"), UNLIKE
NAMES["compiled call by own clocks"] = ("place", "kind told"), UNLIKE
NAMES["compiled call at the limit"] = ("history", "call"), UNLIKE
NAMES["compiled history"] = ("clocks", *SHAPE), ("overlaps", "supposition not met", "words left", "refused by 6 or 9")
NAMES["compiled occurs"] = ("clocks", "place in the list of what must occur"), ("occurs",)

# what may stand in a call's field `kind`: its own number, another call's, or none
TOLD = *range(len(KINDS) + 1), TOP
FILLED = Client(77, Record(*range(1, len(Record._fields) + 1)))


def compared_opening(settings, words, clients):
    """A case whose answer has the compiled opening's number, and how much of what it leaves is unlike the model's."""
    compiled, words, clients = Table(settings, words, clients), list(words), list(clients)
    number, expected = compiled.open(), table.opening(settings, words, clients)
    arguments = settings.levels, len(words), len(clients)
    return case("compiled opening", arguments, (expected, 0, 0, 0)), (number, *compiled.unlike(words, clients))


def openings():
    """32,767 clients open, 32,768 are refused 3, and so are none; 1 for settings and 2 for a word count come first. Every clock is
    cleared."""
    lent = [(2, 5, clients) for clients in (0, 1, 2, 64, 32766, 32767, 32768, 40000)]
    lent += [(3, 21, 3), (6, 1365, 64), (2, 4, 3), (2, 6, 0), (1, 5, 3), (13, 5, 0), (2, 0, 1)]
    for levels, count, clients in lent:
        yield compared_opening(WHOLE_CASE_SETTINGS._replace(levels=levels), [TOP] * count, [FILLED] * clients)
    for settings, words, clients in lent_openings():
        yield compared_opening(settings, words, clients)


def model_answer(settings, words, clients, call):
    others = {"request": (call.a, call.b), "step": (call.a,)}.get(call.kind, ())
    return getattr(table, call.kind)(settings, words, clients, call.client, *others)


def compared(name, arguments, lent, call, told):
    """A case whose answer has the compiled call's number, and how much of what it leaves is unlike the model's."""
    settings, words, clients = lent[0], *map(list, lent[1:])
    compiled = Table(settings, words, clients)
    answer = compiled.answer(call, told)
    expected = model_answer(settings, words, clients, call)
    return case(name, arguments, (expected, 0, 0, 0)), (answer, *compiled.unlike(words, clients))


def refusals_in_order():
    """Each kind with all of its causes, then with the first taken away, and so on, whatever the field `kind` says."""
    for place, (kind, causes) in enumerate(CAUSES.items()):
        for away in range(len(causes)):
            for told in TOLD:
                settings, words, clients, client, *others = lent_with_causes(kind, causes[away:])
                yield compared("compiled refusal", [place, away, told], (settings, words, clients), Call(kind, client, *others), told)


def settings_refused():
    """Opening and every call with one setting outside its range."""
    for place, settings in enumerate(one_outside(WHOLE_CASE_SETTINGS)):
        yield compared_opening(settings, [TOP] * 5, [FILLED] * 2)
        for kind in CAUSES:
            _, words, clients, client, *others = lent_with_causes(kind, ())
            call, told = Call(kind, client, *others), KINDS.index(kind)
            yield compared("compiled setting outside", [place, told], (settings, words, clients), call, told)


def damaged(rng, client):
    """A client with one field of its record, or its clock, changed to a number near it or to any number."""
    numbers = [client.clock, *client.record]
    place = rng.randrange(len(numbers))
    near = min(max(numbers[place] + rng.choice([-1, 1, 2]), 0), TOP)
    numbers[place] = rng.choice([near, any_clock(rng)])
    return Client(numbers[0], Record(*numbers[1:]))


def single_calls():
    """Calls in the middle of histories, on clients and words as they are or with one of them damaged."""
    for seed in range(60):
        rng = Random(f"table {seed}")
        settings = Settings(rng.choice([2, 3, 4]), rng.choice(tree.DISTANCES), rng.choice([1, 2, 5, 9, 5001]), rng.choice(PATIENCES))
        lock = opened(Shape(settings, rng.choice([1, 2, 3, 6]), 100))
        driver = Driver(lock, seed, rng.choice([AnyClocks, TrueClocks]))
        for place in range(100):
            call, told = driver.next_call(), rng.choice(TOLD)
            yield compared("compiled call", [seed, place, told], (settings, lock.words, lock.clients), call, told)
            client = rng.randrange(len(lock.clients))
            words = list(lock.words)
            words[rng.randrange(len(words))] ^= 1 << rng.randrange(64)
            clients = [damaged(rng, each) if place == client else each for place, each in enumerate(lock.clients)]
            aimed = rng.choice([call, call._replace(client=client)])
            yield compared("compiled call", [seed, place + 100, told], (settings, words, clients), aimed, told)
            lock.make(call)


def own_clocks():
    """A client's clock at, above and below its noted times and the other clients' clocks, near 0 and near 2^64, with every call."""
    for place, (settings, words, clients, call) in enumerate(lent_calls()):
        told = place % len(KINDS)
        yield compared("compiled call by own clocks", [place, told], (settings, words, clients), call, told)


def at_the_limit():
    """Histories at the very limit of the supposition, every call of them."""
    for place, limit in enumerate(limits(levels=(2, 3))):
        for history in (late_by_least(limit).lock.history, taken_at_last(limit).lock.history):
            compiled = Table(limit.settings, [0] * tree.node_count(limit.settings.levels), [IDLE_CLIENT] * 2)
            lock = opened(Shape(limit.settings, 2, len(history)))
            for at, made in enumerate(history):
                number, expected = compiled.make(made.call).number, lock.make(made.call).number
                answer = number, *compiled.unlike(lock.words, lock.clients)
                yield case("compiled call at the limit", [place, at], (expected, 0, 0, 0)), answer


def shapes():
    """Small trees with few clients, a higher one, and as many clients as windows to fight for; P from 1 up in turn."""
    patience = cycle(PATIENCES)
    for h, m, clients in [(h, m, clients) for h in (2, 3, 4) for m in (1, 2, 3, 4) for clients in (2, 3, 5, 8)]:
        for wait in (1, 2, 4, 9):
            yield Shape(Settings(h, m, wait, next(patience)), clients, 2200)
    for clients in (2, 3, 4, 5, 6, 8, 12, 16):
        for wait in (1, 3, 8, 20, 60, 200, 3, 8, 20):
            yield Shape(Settings(6, 1 + clients % 4, wait, next(patience)), clients, 5000)


def long_waits():
    """Small trees with few clients and long waits; P from a part of T up."""
    patience = cycle((2, 5, 7, 50))
    for h, m, clients in [(h, m, clients) for h in (2, 3, 4) for m in (1, 2, 3, 4) for clients in (2, 3)]:
        for wait in LONG_WAITS:
            yield Shape(Settings(h, m, wait, min(next(patience) * wait // 4, MOST_PATIENCE)), clients, 3000)


def numbered_shapes():
    """Each shape with a seed and the kind of its clocks, which takes turns where waits are short."""
    short = [(seed, shape, (TrueClocks, AnyClocks)[seed // 4 % 2]) for seed, shape in enumerate(shapes())]
    return short + [(seed, shape, TrueClocks) for seed, shape in enumerate(long_waits(), len(short))]


def counts_of(seed, shape, clocks):
    """What is counted in one random history made by the compiled calls from an accepted opening."""
    lock = Table(shape.settings, [TOP] * tree.node_count(shape.settings.levels), [FILLED] * shape.clients)
    if lock.open() != 0:
        return Counter({("claim", 2): 1})
    driver, watch = Driver(lock, seed, clocks), Watch(lock)
    for _ in range(shape.calls):
        watch.look(lock.make(driver.next_call()))
    watch.counts["supposition not met"] += clocks is TrueClocks and not supposed(driver)
    return watch.counts


@lru_cache(maxsize=None)
def histories():
    """Each history's shape and seed, with what was counted in it."""
    return [(numbered, counts_of(*numbered)) for numbered in numbered_shapes()]


def demand_3():
    """After every call of every history that the compiled calls make: if the supposition is met no two different clients hold overlapping
    windows, and if all are idle every word is at rest."""
    for (seed, shape, clocks), counts in histories():
        overlaps = counts["claim", 1] if clocks is TrueClocks else 0
        found = overlaps, counts["supposition not met"], counts["claim", 2], refused_though_readable(counts)
        arguments = clocks is AnyClocks, *shape.settings, shape.clients, shape.calls, seed
        yield case("compiled history", arguments, 0), found


def what_occurs():
    """The histories have at least 1,000,000 calls, in which everything that must occur does."""
    all_counts = sum((counts for _, counts in histories()), Counter())
    calls = sum(count for kind, count in all_counts.items() if kind[0] == "number")
    yield case("compiled occurs", [2, 0], 1), int(calls >= 1000000)
    for at, (clocks, must_occur) in enumerate(MUST_OCCUR_WITH.items()):
        total = sum((counts for (_, _, of_history), counts in histories() if of_history is clocks), Counter())
        for place, kind in enumerate(must_occur):
            yield case("compiled occurs", [at, place], 1), int(total[kind] > 0)


SUITES = {
    "compiled table, 32,767 clients open, 32,768 are refused 3": openings,
    "compiled table, refused in order of testing": refusals_in_order,
    "compiled table, settings outside their ranges": settings_refused,
    "compiled table, calls on lent clients and words, damaged ones too": single_calls,
    "compiled table, each client's own clock": own_clocks,
    "compiled table, histories at the limit of the supposition": at_the_limit,
    "compiled table, demand 3 after every call of a history": demand_3,
    "compiled table, every phase, outcome, refusal and meeting occurs in a million calls": what_occurs,
}

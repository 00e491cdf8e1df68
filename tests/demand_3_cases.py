"""Demand 3 in the model over random histories, with clocks that keep request 2.3's supposition and with any; and that rules broken on
purpose are caught by it. The library takes no part."""

from collections import Counter
from functools import lru_cache
from itertools import cycle

import broken_clocks
import broken_rules
from clocks import AnyClocks, TrueClocks
from compare import NAMES, case
from histories import MOST_PATIENCE, Shape, breaks_a_claim, counts_of, history_of
from meetings import MEETINGS
from model.history import held_apart, holds
from model.moments import supposition_met
from model.owned import conserved
from model.record import Settings
from passed_claims import made

SHAPE = (*Settings._fields, "clients", "calls", "seed")
NAMES["history with true moments"] = SHAPE, ("overlaps", "supposition not met", "words left", "refused by 6 or 9")
NAMES["history with any clocks"] = SHAPE, ("overlaps that moments allow", "words left", "refused by 6 or 9")
NAMES["owned"] = ("clocks", *SHAPE), ("unlike what is owned", "unreadable")
NAMES["changed word"] = ("node", "bit"), ("unlike what is owned",)
NAMES["occurs"] = ("clocks", "place in the list of what must occur"), ("occurs",)
NAMES["broken rule"] = ("place in the list of rules",), ("caught", "caught with the model's own rule")

# Small ones, which run out often, and the greatest.
PATIENCES = 1, 2, 5, 12, 40, MOST_PATIENCE, 3
# T where every elapse is told as it is, T about where drift first makes a claim late or may be seen, and the greatest.
LONG_WAITS = 5000, 5001, 10001, 123456, 2 ** 32 - 1


def shapes():
    """H 2 to 4 with m 1 to 3, and H 6 with m 4; T from 1 up; P from 1 up in turn; 2 to 6 clients."""
    patience = cycle(PATIENCES)
    for h, m, clients in [(h, m, 2 + (h + m) % 2 + more) for h in (2, 3, 4) for m in (1, 2, 3) for more in (0, 3)]:
        for wait in (1, 2, 4, 9):
            yield Shape(Settings(h, m, wait, next(patience)), clients, 1000)
    for clients in (2, 3, 4, 5, 6, 6):
        for wait in (3, 8, 20, 60):
            yield Shape(Settings(6, 4, wait, next(patience)), clients, 2000)


def long_waits():
    """The same trees with few clients and long waits; P from a part of T up."""
    patience = cycle((2, 5, 7, 50))
    for h, m, clients in [(h, m, 2 + (h + m) % 3) for h in (2, 3, 4) for m in (1, 2, 3)] + [(5, 4, 3), (6, 4, 4)]:
        for wait in LONG_WAITS:
            yield Shape(Settings(h, m, wait, min(next(patience) * wait // 4, MOST_PATIENCE)), clients, 800)


SHAPES_OF_CLOCKS = {TrueClocks: lambda: [*shapes(), *long_waits()], AnyClocks: shapes}


@lru_cache(maxsize=None)
def histories(clocks):
    """Each history's shape and seed, with what was counted in it."""
    return [(shape, seed, counts_of(shape, seed, clocks)) for seed, shape in enumerate(SHAPES_OF_CLOCKS[clocks]())]


def refused_though_readable(counts):
    """How many calls were refused by 6 or 9, which none from an opened tree is."""
    return counts["number", 6] + counts["number", 9]


def demand_3():
    """After every call of every history with true moments: no two different clients hold overlapping windows, and if all are idle every
    word is at rest."""
    for shape, seed, counts in histories(TrueClocks):
        found = counts["claim", 1], counts["supposition not met"], counts["claim", 2], refused_though_readable(counts)
        yield case("history with true moments", [*shape.settings, shape.clients, shape.calls, seed], 0), found


def demand_3_of_idle_clients():
    """After every call of every history with any clocks, if all are idle every word is at rest. Where two clients come to hold overlapping
    windows, no moments meet the supposition; and that occurs."""
    for shape, seed, counts in histories(AnyClocks):
        found = counts["overlap that moments allow"], counts["claim", 2], refused_though_readable(counts)
        yield case("history with any clocks", [*shape.settings, shape.clients, shape.calls, seed], 0), found


def owned():
    """After every call of every history each word holds what the records together own of it, and every record is readable."""
    for place, clocks in enumerate(SHAPES_OF_CLOCKS):
        for shape, seed, counts in histories(clocks):
            arguments = place, *shape.settings, shape.clients, shape.calls, seed
            yield case("owned", arguments, 0), (counts["unlike what is owned"], counts["unreadable"])


def changed_words():
    """In the middle of a history any one bit changed in any word makes it unlike what the records own."""
    lock = history_of(Shape(Settings(3, 2, 4, MOST_PATIENCE), 5, 300), 1)
    for place, found in enumerate(lock.words):
        for bit in range(64):
            lock.words[place] = found ^ 1 << bit
            unlike = not conserved(lock.settings, lock.words, lock.records)
            yield case("changed word", [place + 1, bit], 1), int(unlike)
        lock.words[place] = found


MUST_OCCUR = [
    *(("phase", phase) for phase in range(11)),
    *(("outcome", outcome) for outcome in range(5)),
    *(("number", number) for number in (0, 4, 5, 7, 8)),
    "both pieces begun", "two holders", "all idle again",
]
# With true moments clients also meet wherever waits and late claims are for; with any clocks two also come to hold overlapping windows.
MUST_OCCUR_WITH = {
    TrueClocks: [*MUST_OCCUR, *MEETINGS, "a step at the greatest clock"],
    AnyClocks: [*MUST_OCCUR, *(("patience run out in", phase) for phase in range(1, 9)), ("claim", 1)],
}


def what_occurs():
    """The histories of either kind have at least 100,000 calls, in which everything that must occur does."""
    for at, (clocks, must_occur) in enumerate(MUST_OCCUR_WITH.items()):
        total = sum((counts for _, _, counts in histories(clocks)), Counter())
        calls = sum(count for kind, count in total.items() if kind[0] == "number")
        yield case("occurs", [at, len(must_occur)], 1), int(calls >= 100000)
        for place, kind in enumerate(must_occur):
            yield case("occurs", [at, place], 1), int(total[kind] > 0)


SEEDS = 200
# Each rule that is broken, as a `with` that breaks it, and the shape of the histories that find it out.
BROKEN = {
    rule: (lambda rule=rule: broken_rules.broken(rule), broken_rules.SHAPES[rule])
    for rule in broken_rules.RULES if rule not in broken_rules.HISTORIES}
BROKEN |= {rule: (broken_clocks.TOO_LATE[rule], shape) for rule, shape in broken_clocks.SHAPES.items()}


def caught_at_once(rule):
    """With the rule broken, a history that meets the supposition and is made for it breaks single holding; with the model's own rule it
    does not."""
    with broken_rules.broken(rule):
        found = overlapping(broken_rules.HISTORIES[rule])
    yield case("broken rule", [list(broken_rules.RULES).index(rule)], (1, 0)), (found, overlapping(broken_rules.HISTORIES[rule]))


def overlapping(calls):
    """Whether two clients hold overlapping windows after these calls, which meet the supposition."""
    lock, moments = made(calls)
    windows = [holds(lock.history, client) for client in range(len(lock.clients))]
    return supposition_met(lock.history, moments) and not held_apart(windows)


def caught(rule):
    """With the rule broken, some history that meets the supposition breaks a claim; with the model's own rule the history of the same seed
    does not."""
    broken, shape = BROKEN[rule]
    with broken():
        seed = next((seed for seed in range(SEEDS) if breaks_a_claim(shape, seed)), None)
    caught_then = seed is not None, seed is not None and breaks_a_claim(shape, seed)
    yield case("broken rule", [list(BROKEN).index(rule)], (1, 0)), tuple(map(int, caught_then))


SUITES = {
    "histories with true moments, demand 3 after every call": demand_3,
    "histories with any clocks, what demand 3 says of idle clients": demand_3_of_idle_clients,
    "histories, each word holds what the records own of it, and every record is readable": owned,
    "histories, a word with one bit changed is unlike what the records own": changed_words,
    "histories, every phase, outcome, refusal and meeting occurs": what_occurs,
    **{f"histories, a claim fails with a broken rule: {rule}": lambda rule=rule: caught(rule) for rule in BROKEN},
    **{f"histories, a claim fails with a broken rule: {rule}": lambda rule=rule: caught_at_once(rule) for rule in broken_rules.HISTORIES},
}

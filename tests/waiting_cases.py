"""Cases for docs/WAITING.md: its numbers are what the model does, its example is stuck until patience ends it, every ring of clients that
wait for each other has one that patience ends, and its loop is that of examples/take.c."""

import re
from random import Random

from compare import NAMES, case
from library import ROOT
from model import calls, tree
from model.history import Call
from model.record import IDLE_CLIENT, Settings
from model.schedule import Schedule
from schedule_plan_cases import drawn_wishes
from schedule_runs import opened_for
from scheduling.durations import later_piece, longest_later_piece
from scheduling.planning import reached
from scheduling.waiting import wait_of
from scheduling.wishes import read_wishes
from waiting_steps_cases import SUITES as OF_STEPS

GUIDE = (ROOT / "docs" / "WAITING.md").read_text()
EXAMPLE = (ROOT / "examples" / "take.c").read_text()
LEVELS = range(2, 13)
LONGEST = 2 ** 32 - 1

NAMES["claim of a leaf"] = ("levels", "distance"), ("late with a wait of that many ticks", "late with one more")
NAMES["second piece"] = ("levels", "distance"), ("not held with a patience of that many ticks", "not held with one more", "as the plan reckons")
NAMES["second piece by slower steps"] = ("levels", "distance", "ticks of a step", "steps beyond T"), (
    "not held with a tick less", "not held with that patience")
NAMES["second piece at a level"] = ("levels", "distance", "level"), ("not held with a patience of that many ticks", "not held with one more")
NAMES["clients that block each other"] = ("rounds",), ("phase of client 0", "phase of client 1")
NAMES["rings"] = ("seed",), ("without a client in its second piece",)
NAMES["seeds with rings"] = (), ("some",)
NAMES["window alone"] = (), ("most steps",)
NAMES["loop to copy"] = (), ("found in the example",)


class Words(dict):
    """The words of a tree, of which few are written: the others are 0."""

    def __init__(self, count):
        super().__init__()
        self.count = count

    def __len__(self):
        return self.count

    def __missing__(self, place):
        return 0


def alone(settings, left, right):
    """The phase, 9 or 10, that a client comes to by a step a tick which is alone in a fresh tree: whether it holds or is late."""
    words = Words(tree.node_count(settings.levels))
    client = calls.request(settings, words, IDLE_CLIENT, left, right).client
    while client.record.phase not in (9, 10):
        clock = client.clock + (1 if client.record.phase != 7 else settings.wait)
        client = calls.step(settings, words, client, clock).client
    return client.record.phase


def steps_alone(settings, left, right):
    """How many steps the same client takes where all are made at one clock, and the one after a wait once that is over."""
    words, steps = Words(tree.node_count(settings.levels)), 0
    client = calls.request(settings, words, IDLE_CLIENT, left, right).client
    while client.record.phase != 9:
        steps += 1
        client = calls.step(settings, words, client, client.clock + (settings.wait if client.record.phase == 7 else 0)).client
    return steps


def table_below(heading, levels):
    """The numbers that the guide gives below a heading, by H and m."""
    rows = re.findall(r"^\| m (\d) \| (.*) \|$", GUIDE.split(heading)[1].split("\n## ")[0], re.MULTILINE)
    return {(h, int(m)): int(number) for m, numbers in rows for h, number in zip(levels, numbers.split(" | "), strict=True)}


def claim_steps():
    """The steps from t1 to the last notice of a leaf."""
    return table_below("## How to choose the wait T", LEVELS)


def claims():
    """With as many ticks for a wait as steps go by a leaf is late, and with one more it is not."""
    for (h, m), number in claim_steps().items():
        late = [int(alone(Settings(h, m, wait, LONGEST), 10, 20) == 10) for wait in (number, number + 1)]
        yield case("claim of a leaf", [h, m], (1, 0)), tuple(late) + (0, 0)


def given_up(settings, level, ticks=1):
    """Whether a client gives up that is alone, makes a step every so many ticks, and wants the last unit before the middle of the tree and after
    it all of a node at this level."""
    middle = tree.units(settings.levels) // 2
    words = Words(tree.node_count(settings.levels))
    client = calls.request(settings, words, IDLE_CLIENT, middle - 1, middle + 64 * 4 ** (settings.levels - level)).client
    while client.record.phase not in (9, 10):
        client = calls.step(settings, words, client, client.clock + ticks).client
    return int(client.record.outcome == 4)


def second_pieces():
    """With a patience of T and as many ticks as the guide gives some window is given up, and with one more none is, though each takes as
    long as the plan reckons. The wait is the least in which a claim can be made."""
    for (h, m), number in table_below("## How to choose the patience P", LEVELS[1:]).items():
        wait = claim_steps()[h, m] + 1
        ended = [max(given_up(Settings(h, m, wait, wait + more), level) for level in range(2, h + 1)) for more in (number, number + 1)]
        as_planned = int(longest_later_piece(h, m, wait) == wait + number)
        yield case("second piece", [h, m], (1, 0, 1)), (*ended, as_planned, 0)


def slower_steps():
    """Where steps take longer than a tick, and the wait is a tick more than a claim, so that it ends as long before a step as it can: with a patience
    of T and the guide's steps and one more no window with an inner node is given up, nor with T and one step a leaf; with a tick less some are."""
    for (h, m), number in table_below("## How to choose the patience P", LEVELS[1:]).items():
        for ticks in (2, 5):
            wait = claim_steps()[h, m] * ticks + 1
            for levels, steps in ((range(2, h), number + 1), ([h], 1)):
                enough = wait + steps * ticks
                ended = [max(given_up(Settings(h, m, wait, patience), level, ticks) for level in levels) for patience in (enough - 1, enough)]
                yield case("second piece by slower steps", [h, m, ticks, steps], (1, 0)), (*ended, 0, 0)


def pieces_by_level():
    """What the plan reckons for a second piece at each level is what it takes."""
    for h, m, level in ((h, m, level) for h in LEVELS[:7] for m in range(1, 5) for level in range(2, h + 1)):
        for wait in (claim_steps()[h, m] + 1, 100):
            ticks = later_piece(h, m, wait, level)
            ended = [given_up(Settings(h, m, wait, patience), level) for patience in (ticks, ticks + 1)]
            yield case("second piece at a level", [h, m, level], (1, 0)), (*ended, 0, 0)


def stuck():
    """H 3, m 1, T 5, windows [60, 70) and [0, 256): stepped in turn, neither comes on while client 0 has patience; then client 1 does. Client 0
    has its first piece from clock 5 on."""
    for rounds, patience, phases in ((20, LONGEST, (4, 8)), (500, LONGEST, (4, 8)), (104, 100, (4, 8)), (105, 100, (10, 8)), (108, 100, (0, 9))):
        opened = opened_for(Schedule(Settings(3, 1, 5, patience), 2, ()))
        opened.make(Call("request", 0, 60, 70))
        opened.make(Call("request", 1, 0, 256))
        for clock in range(1, rounds + 1):
            opened.make(Call("step", 0, clock))
            opened.make(Call("step", 1, clock))
        yield case("clients that block each other", [rounds], phases), (opened.records[0].phase, opened.records[1].phase, 0, 0)


def waits_in(opened):
    """For whom each client waits."""
    waits = {client: wait_of(opened.settings, opened.words, opened.records, client) for client in range(len(opened.records))}
    return {client: wait.clients() for client, wait in waits.items() if wait}


def rings_in(opened):
    """The clients of each ring: those that wait for each other, directly or through others."""
    waits = waits_in(opened)
    after = {client: reached(waits, client) for client in waits}
    return {frozenset(other for other in after[client] if client in after.get(other, ())) for client in waits if client in after[client]}


def crowd(seed):
    """The table after each round in which every client of random wishes makes a call, in any order: it asks, steps or releases, and seldom
    cancels. Nobody's patience runs out."""
    rng, (given, wishes, _) = Random(f"crowd {seed}"), read_wishes("\n".join(drawn_wishes(seed)).encode())
    opened = opened_for(given._replace(settings=given.settings._replace(patience=LONGEST)))
    for clock in range(1, 150):
        for client in rng.sample(range(given.clients), given.clients):
            phase, wish = opened.clients[client].record.phase, rng.choice(wishes)
            kind = {0: "request", 9: "release"}.get(phase, "cancel" if phase != 10 and rng.random() < 0.002 else "step")
            opened.make(Call(kind, client, *{"request": (wish.left, wish.right), "step": (clock,)}.get(kind, ())))
        yield opened


def in_second_piece(record):
    return 1 <= record.phase <= 8 and record.current > 0


def rings():
    """In every ring somebody waits in its second piece."""
    found = 0
    for seed in range(80):
        patience_ends = [any(in_second_piece(opened.records[client]) for client in ring) for opened in crowd(seed) for ring in rings_in(opened)]
        found += len(patience_ends) > 0
        yield case("rings", [seed], 0), (patience_ends.count(False), 0, 0, 0)
    yield case("seeds with rings", [], 1), (int(found > 0), 0, 0, 0)


def longest_windows():
    """The most steps that any window takes alone: tried are windows around the middle of the tree, whose two pieces are of every pair of
    levels, and the whole tree."""
    [most] = re.findall(r"No window at any H and m needs more than (\d+)", GUIDE)
    longest = 0
    for h in LEVELS:
        middle = tree.units(h) // 2
        sides = [64 * 4 ** up for up in range(h - 1)]
        windows = [(middle - one + 1, middle + other - 1) for one in sides for other in sides] + [(0, tree.units(h))]
        longest = max([longest, *(steps_alone(Settings(h, m, 1, LONGEST), *window) for m in range(1, 5) for window in windows)])
    yield case("window alone", [], int(most)), (longest, 0, 0, 0)


def loop():
    """The loop that the guide gives to be copied stands in the example."""
    [copied] = re.findall(r"```c\n(.*?)```", GUIDE, re.DOTALL)
    for part in copied.strip().split("\n\n"):
        yield case("loop to copy", [], 1), (int(part in EXAMPLE), 0, 0, 0)


SUITES = {
    "docs/WAITING.md, how long a claim takes": claims,
    "docs/WAITING.md, how long a second piece takes": second_pieces,
    "docs/WAITING.md, how long a second piece takes by slower steps": slower_steps,
    "docs/WAITING.md, how long the plan reckons for a second piece": pieces_by_level,
    "docs/WAITING.md, two clients that block each other": stuck,
    "docs/WAITING.md, who is in a ring of clients that wait for each other": rings,
    "docs/WAITING.md, the longest windows": longest_windows,
    "docs/WAITING.md, the loop to copy": loop,
    **OF_STEPS,
}

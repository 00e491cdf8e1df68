"""Cases for what docs/WAITING.md says of how many steps a window needs: its table and its law are what a run of the model counts, and its
example takes as long as it says, is late and is given up as it says."""

import re
from collections import Counter
from typing import NamedTuple

from clocks import TOP
from compare import NAMES, case
from library import ROOT
from model import tree
from model.cover import cover
from model.fresh import Fresh
from model.history import Call
from model.record import Settings
from model.step_count import next_clock, step_count

SECTION = " ".join((ROOT / "docs" / "WAITING.md").read_text().split("## How many steps a window needs")[1].split("\n## ")[0].split())
LEVELS = 12
LONGEST = 2 ** 32 - 1

NAMES["steps of a piece, in the table"] = ("distance", "level"), ("steps",)
NAMES["steps of a piece, by the law"] = ("levels", "distance", "level"), ("steps", "climbs", "nodes checked", "each of the others once")
NAMES["nodes checked, in the law"] = (), ("m 1", "m 2", "m 3", "m 4")
NAMES["another distance"] = ("place in the text",), ("first number", "second", "third", "fourth")
NAMES["example of the step count"] = ("claim",), ("first number", "second", "third")
NAMES["example, stepped by a clock"] = ("wait", "patience"), ("phase", "outcome", "clock")
NAMES["example, a second piece"] = (), ("steps beside notices and wait", "ticks from the first piece on")
NAMES["example, with a shorter step"] = ("patience",), ("always held",)
NAMES["last clock before a window"] = ("clock", "inner pieces"), ("phase",)


def piece_steps(levels, distance, level):
    """The steps, counted in a run, of a window whose only piece is the first node of a level."""
    return step_count(levels, distance, 0, 64 * 4 ** (levels - level)).steps


def table():
    """The numbers that the guide gives, by distance and level."""
    rows = re.findall(r"\| m (\d) \|((?: \d+ \|)+)", SECTION)
    return {(int(m), level): int(number) for m, numbers in rows for level, number in enumerate(re.findall(r"\d+", numbers), 1)}


def in_the_table():
    """Every piece of the highest tree, at every distance, none left out."""
    found = table()
    for distance in tree.DISTANCES:
        for level in range(1, LEVELS + 1):
            expected = piece_steps(LEVELS, distance, level)
            yield case("steps of a piece, in the table", [distance, level], expected), found.get((distance, level), 0)


def said(words):
    """The numbers that the guide has in the place of each N of these words."""
    [found] = re.findall(re.escape(words).replace("N", r"(\d+)"), SECTION)
    return tuple(map(int, [found] if isinstance(found, str) else found))


def steps_by_phase(levels, distance, level):
    """How many steps of a client alone, whose only piece is the first node of a level, find it in each phase."""
    lock, found = Fresh(Settings(levels, distance, 10, LONGEST), 1), Counter()
    lock.make(Call("request", 0, 0, 64 * 4 ** (levels - level)))
    while (phase := lock.clients[0].record.phase) != 9:
        found[phase] += 1
        lock.make(Call("step", 0, next_clock(lock.settings, lock.clients[0])))
    return found


def by_the_law():
    """A leaf needs H + notices, and an inner node d + notices + 3 + nodes checked, in every tree: so many climbs, nodes checked and others."""
    (fewer,), (others,) = said("H steps, which are H - N climbs and the claim, and a step for each notice"), said("d + notices + N + nodes checked")
    (below,) = said("the inner nodes of m - N levels below it")
    for levels, distance in ((levels, distance) for levels in tree.LEVELS for distance in tree.DISTANCES):
        for level in range(1, levels + 1):
            found, inner, notices = steps_by_phase(levels, distance, level), level < levels, len(tree.notify_levels(distance, level))
            checked = sum(4 ** down for down in range(min(distance - below, levels - 1 - level) + 1))
            once = {5: 1, 1: 1, 2: 1, 7: 1} if inner else {5: 1}
            other_phases = {phase: number for phase, number in found.items() if phase not in (3, 6, 8)}
            expected = piece_steps(levels, distance, level), found[3], found[8], 1
            answer = level + notices + inner * (others + checked), level - fewer, checked, int(other_phases == once)
            yield case("steps of a piece, by the law", [levels, distance, level], expected), answer
    *nodes, first, last = said("levels below it: N, N, N or N nodes for m N to N")
    yield case("nodes checked, in the law", [], tuple(steps_by_phase(LEVELS, distance, 1)[8] for distance in range(first, last + 1))), tuple(nodes)


def more(one, other, levels):
    """How many steps more a piece needs at the one distance than at the other, the least and the most over these levels."""
    found = [piece_steps(LEVELS, one, level) - piece_steps(LEVELS, other, level) for level in levels]
    return min(found), max(found)


def other_distances():
    """What a larger m saves and costs: notices of a leaf, and steps by level."""
    low, above = range(LEVELS - 2, LEVELS + 1), range(1, LEVELS - 2)
    notices = tuple(steps_by_phase(LEVELS, distance, LEVELS)[6] for distance in tree.DISTANCES)
    levels, *in_the_text = said("At H N a leaf gives N, N, N or N notices")
    yield case("another distance", [0], notices), tuple(in_the_text)
    yield case("another distance", [5], LEVELS), levels
    (saved,), (cost,) = said("just above the leaves, need N steps fewer"), said("no piece needs more than N more")
    yield case("another distance", [1], more(1, 2, low[1:])), (saved, saved)
    yield case("another distance", [2], more(2, 1, range(1, LEVELS + 1))[1]), cost
    saves, costs = more(2, 3, low) + more(2, 4, low), more(3, 2, above) + more(4, 2, above)
    yield case("another distance", [3], (min(saves), max(saves))), said("m 3 and m 4 save N to N steps at the three lowest levels")
    yield case("another distance", [4], (min(costs), max(costs))), said("and cost N to N above them")


class Ended(NamedTuple):
    """What a client alone came to, held or sent back: its phase and outcome, its clock, how many ticks after its first piece was taken, and how
    many steps of its second piece found it in each phase."""

    phase: int
    outcome: int
    clock: int
    since: int
    later: Counter


def stepped(settings, left, right, ticks, shorter=(0, 0)):
    """Steps a client alone every so many ticks, in its waits too. One step may be shorter: which one, and by how many ticks."""
    lock, clock, made, later = Fresh(settings, 1), 0, 0, Counter()
    lock.make(Call("request", 0, left, right))
    while (record := lock.clients[0].record).phase not in (9, 10):
        made, later[record.phase] = made + 1, later[record.phase] + record.current
        clock += ticks - (shorter[1] if made == shorter[0] else 0)
        lock.make(Call("step", 0, clock))
    return Ended(record.phase, record.outcome, clock, clock - record.taken, later)


def example():
    """The steps of the example's pieces, and how long it takes; with a T that is too short it is late, with a P that is too short given up."""
    levels, distance, left, right, leaf, level, inner, ticks, steps, alone, wait, within, every, clock = said(
        "at H N and m N [N, N) is a leaf, N steps, and a node at level N, N steps. If a step takes N µs, the N steps are N µs, and with a T of N µs "
        "it is held within N µs. (Stepped every N µs it is held N µs after its request.)")
    pieces = [tree.level(n) for n in cover(levels, left, right)[1:3]]
    yield case("example of the step count", [0], (levels, level, ticks)), (*pieces, every)
    yield case("example of the step count", [1], tuple(piece_steps(levels, distance, at) for at in pieces)), (leaf, inner)
    yield case("example of the step count", [2], step_count(levels, distance, left, right).steps), steps
    yield case("example of the step count", [3], (steps * ticks, steps * ticks + wait)), (alone, within)
    of_claim, of_leaf, short, late = said("these are N of its N steps, N µs. With a T of N µs it is always late")
    yield case("example of the step count", [4], (leaf, (leaf - 1) * ticks, short)), (of_leaf, of_claim * ticks, late)
    never, same, answered = (*said("With P N µs and T N µs it waits"), *said("Its step count is N all the same"))
    yield case("example of the step count", [5], (wait, wait, steps)), (never, same, answered)
    for settings, expected in (((wait, LONGEST), (9, 0, clock)), ((late, LONGEST), (10, 2, leaf * ticks)), ((late + 1, LONGEST), (9, 0)),
                               ((never, never), (10, 4))):
        ended = stepped(Settings(levels, distance, *settings), left, right, ticks)
        yield case("example, stepped by a clock", settings, expected), ended[:len(expected)]
    yield from example_of_patience((levels, distance, wait), (left, right), ticks)


def example_of_patience(settings, window, ticks):
    """The P that the example's second piece takes, in runs: by steps of just so many ticks, and with one that is shorter, whichever it is."""
    beside, all_ticks, least, each, enough = said(
        "from the first piece on N steps and T go by, N µs: P N µs if each step takes just N µs; N µs if some are shorter")
    ended = stepped(Settings(*settings, LONGEST), *window, ticks)
    counted = sum(number for phase, number in ended.later.items() if phase not in (6, 7))
    yield case("example, a second piece", [], (counted, ended.since)), (beside, all_ticks)
    yield case("example of the step count", [6], ticks), each
    for patience, expected in ((least - 1, (10, 4)), (least, (9, 0))):
        yield case("example, stepped by a clock", [settings[-1], patience], expected), stepped(Settings(*settings, patience), *window, ticks)[:2]
    shorter = [(made, by) for made in range(1, ended.clock // ticks + 1) for by in range(1, ticks)]
    for patience, always in ((enough - 1, 0), (enough, 1)):
        held = all(stepped(Settings(*settings, patience), *window, ticks, each).phase == 9 for each in shorter)
        yield case("example, with a shorter step", [patience], always), int(held)


def last_clocks():
    """A client comes to hold a window just if its last clock and T for each inner piece stay below the limit; a leaf also by the last clock that
    there is."""
    bits, again = said("T for each inner piece must stay below 2^N: a client stepped at 2^N - 1 can wait for nothing any more")
    yield case("last clock before a window", [0, 0], bits), again
    wait = 130
    for inner, (left, right) in enumerate(((10, 20), (4090, 8192), (100, 400))):
        last = 2 ** bits - 1 - inner * wait
        for clock in range(last, min(last + 1, TOP) + 1):
            lock = Fresh(Settings(LEVELS, 2, wait, LONGEST), 1)
            lock.make(Call("step", 0, clock))
            lock.make(Call("request", 0, left, right))
            for _ in range(100):
                lock.make(Call("step", 0, min(next_clock(lock.settings, lock.clients[0]), TOP)))
            yield case("last clock before a window", [clock, inner], 9 if clock == last else 7), lock.clients[0].record.phase


SUITES = {
    "docs/WAITING.md, how many steps a piece needs": in_the_table,
    "docs/WAITING.md, the law of a piece's steps": by_the_law,
    "docs/WAITING.md, the steps at another distance": other_distances,
    "docs/WAITING.md, the example of the step count": example,
    "docs/WAITING.md, the last clocks by which a window is held": last_clocks,
}

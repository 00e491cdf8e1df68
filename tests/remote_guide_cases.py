"""Cases for docs/REMOTE.md: its numbers are those of the model, or are found again by trying."""

import re

from compare import NAMES, case
from library import ROOT
from model import ahead, calls, operations, tree, word
from model.fresh import Sparse
from model.record import IDLE_CLIENT, Settings
from remote_trips import ALL, ONE, windows_of

GUIDE = (ROOT / "docs" / "REMOTE.md").read_text()
LONGEST = 2 ** 32 - 1
# No rate of the table needs a wait that is nearly as long.
MOST_TICKS, MILLION = 250_000, 1_000_000
TABLE_OF_VERBS = {
    "1 ticket": {"tmax": 1}, "5 claim, inner node": {"occ": 1}, "6 notify": {"dmax": 1}, "10 inner node, Occ set": {"occ": 1, "tcnt": 1},
    "10 inner node, turn reached": {"tcnt": 1}, "10 each notice": {"dcnt": 1},
}

NAMES["boundaries of fields in docs/REMOTE.md"] = (), ("mask",)
NAMES["add in docs/REMOTE.md"] = ("place in the table",), ("value",)
NAMES["round trips in docs/REMOTE.md"] = ("levels", "distance"), ("from t1 to the last notice",)
NAMES["round trips of a window in docs/REMOTE.md"] = ("levels", "distance", "most in a list", "window"), ("to take it", "to give it back")
NAMES["round trips of a claim by lists in docs/REMOTE.md"] = ("levels", "distance", "window"), ("from t1 to the last notice",)
NAMES["rate in docs/REMOTE.md"] = ("parts in a million",), ("by the formula", "the least wait", "the formula is enough")


def row(heading, name):
    """The cells of the row of that name below a heading, as texts."""
    section = GUIDE.split(f"\n## {heading}\n")[1].split("\n## ")[0]
    [found] = re.findall(rf"^\| {re.escape(name)} \| (.*) \|$", section, re.MULTILINE)
    return found.split(" | ")


def numbers(heading, name):
    return [int(cell.replace(",", "")) for cell in row(heading, name)]


def verbs():
    """The mask has the top bit of each field, and each add has 1 in the fields that its row of the phase table adds to."""
    [mask] = re.findall(r"Here the mask is always `(0x[0-9a-f]{16})`", GUIDE)
    tops = [2 ** (word.shift(name) + getattr(word.WIDTH, name) - 1) for name in word.Inner._fields]
    yield case("boundaries of fields in docs/REMOTE.md", [], sum(tops)), int(mask, 16)
    for place, (name, added) in enumerate(TABLE_OF_VERBS.items()):
        [value] = re.findall(r"add `(0x[0-9a-f]{16})`", row("As verbs", name)[-1])
        yield case("add in docs/REMOTE.md", [place], word.pack(word.Inner(0, 0, 0, 0, 0, 0)._replace(**added))), int(value, 16)


def trips_of_a_claim(levels, distance):
    """How many steps of a leaf alone in the tree touch a word from that on which notes t1 to its last notice."""
    settings, trips = Settings(levels, distance, LONGEST, LONGEST), 0
    words = Sparse(tree.node_count(levels), {})
    client = calls.request(settings, words, IDLE_CLIENT, 10, 20).client
    while client.record.phase != 9:
        client, trips = calls.step(settings, words, client, 1).client, trips + 1
    return trips


def round_trips():
    for distance in tree.DISTANCES:
        for levels, said in zip(tree.LEVELS, numbers("How to choose T", f"m {distance}"), strict=True):
            yield case("round trips in docs/REMOTE.md", [levels, distance], trips_of_a_claim(levels, distance)), said


class Alone:
    """A client alone in the tree, which posts no more than so many operations together. Its clock goes on in its wait alone: it is never late."""

    def __init__(self, settings, most):
        self.settings, self.most, self.clock = settings, most, 1
        self.words, self.client = Sparse(tree.node_count(settings.levels), {}), IDLE_CLIENT

    def found(self, posted):
        """Carries out an operation, and gives the word as it was."""
        before = self.words[posted.node - 1]
        self.words[posted.node - 1] = operations.applied(posted, before)
        return before

    def step(self):
        """How many round trips it takes: none in the wait, else one."""
        if self.client.record.phase == 7:
            self.clock += self.settings.wait
            self.client = operations.completed(self.settings, self.client, self.clock, 0).client
            return 0
        posted = ahead.operations_ahead(self.settings, self.client, self.clock, self.most).operations
        found = [self.found(each) for each in posted]
        self.client = ahead.completed_all(self.settings, self.client, self.clock, found).client
        return 1

    def until(self, *phases):
        trips = 0
        while self.client.record.phase not in phases:
            trips += self.step()
        return trips

    def request(self, window):
        self.client = operations.own_request(self.settings, self.client, *window).client

    def taken_and_given_back(self, window):
        self.request(window)
        taken = self.until(9)
        self.client = operations.own_release(self.settings, self.client).client
        return taken, self.until(0)


def alone(levels, distance, most):
    return Alone(Settings(levels, distance, 1, LONGEST), most)


def columns_of_windows():
    """Of each column of the table of round trips the levels, distances and the most in a list for which it stands; CITRON's is not the model's."""
    [head] = re.findall(r"^\| window \| CITRON \| lists, at every H and m \| one operation at a time: (.*) \|$", GUIDE, re.MULTILINE)
    said = [tuple(map(int, re.fullmatch(r"H (\d+), m (\d)", cell).groups())) for cell in head.split(" | ")]
    return [([(levels, distance) for levels in tree.LEVELS for distance in tree.DISTANCES], ALL), *(([one], ONE) for one in said)]


def window_trips():
    """By lists at every height and distance, and one at a time as the columns say."""
    columns = columns_of_windows()
    for place, name in enumerate(windows_of(max(tree.LEVELS))):
        for (trees, most), cell in zip(columns, row("What a run posts", name)[1:], strict=True):
            for levels, distance in trees:
                if window := windows_of(levels).get(name):
                    asked = "round trips of a window in docs/REMOTE.md", [levels, distance, most, place]
                    yield case(*asked, alone(levels, distance, most).taken_and_given_back(window)), tuple(map(int, cell.split(" + ")))


def claim_trips():
    """By lists, from the one in which the parent is read, with which a client alone begins, to the last notice."""
    [said] = re.findall(r"\*\*(\d) round trips at a leaf\*\* .*? and \*\*(\d) at an inner node\*\*", GUIDE)
    for place, (name, number) in enumerate(zip(("leaf", "inner node"), said)):
        for levels in tree.LEVELS:
            for distance in tree.DISTANCES:
                one = alone(levels, distance, ALL)
                one.request(windows_of(levels)[name])
                yield case("round trips of a claim by lists in docs/REMOTE.md", [levels, distance, place], one.until(7, 9)), int(number)


def taken_for_in_time(parts, wait):
    """Whether a clock that is slow by so many parts in a million may find a claim in time though another's wait may be over, which it is from
    10,000/10,001 of the wait on. Moments and ticks are rounded down, so that of these moments one may not have gone by, and a tick not be shown."""
    moments = -(-10000 * wait // 10001)
    ticks = (MILLION - parts) * (moments - 1) // MILLION
    return 10001 * ticks < 9999 * wait


def most_too_fast(parts, moments):
    """The most ticks that a clock may show in so many moments which is fast by so many parts in a million, if these are more than 2.3 allows; else
    0. A moment more may have gone by, and a tick more be shown."""
    most = -(-(MILLION + parts) * (moments + 1) // MILLION)
    return most if 10000 * most > 10001 * moments else 0


def least_wait(parts):
    """The least T from which on neither can be. A fast clock matters from T ticks on, where its own wait is over."""
    slow = max(wait for wait in range(1, MOST_TICKS) if taken_for_in_time(parts, wait))
    return max(slow, max(most_too_fast(parts, moments) for moments in range(1, MOST_TICKS))) + 1


def rates():
    names = "rate off by, parts in a million", "T by the formula, ns", "the least T that will do, ns"
    for part, formula, least in zip(*(numbers("Which clock", name) for name in names), strict=True):
        found, by_formula = least_wait(part), -(-20000 * MILLION // (MILLION - 10000 * part))
        yield case("rate in docs/REMOTE.md", [part], (by_formula, found, 1)), (formula, least, int(formula >= found))


SUITES = {
    "docs/REMOTE.md, what the verbs add": verbs,
    "docs/REMOTE.md, round trips of a claim": round_trips,
    "docs/REMOTE.md, round trips of a claim by lists": claim_trips,
    "docs/REMOTE.md, round trips of a window": window_trips,
    "docs/REMOTE.md, how short T may be": rates,
}

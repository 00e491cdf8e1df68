"""Cases for the compiled step count against compiled runs: alone on a fresh tree or on one that was used a client is held after as many accepted
steps as the count says and not before, whatever T and P are, and by any clocks that meet request 2.4's conditions."""

from functools import lru_cache
from itertools import cycle
from random import Random
from typing import NamedTuple

import compiled_table
from broken_step_counts import COUNTS
from compare import NAMES, case
from model import tree
from model.history import Call
from model.pages import Row
from model.record import Settings
from runs_alone import TREES, begin_anywhere, drawn_settings, earliest, fresh, memory, run, step
from window_classes import classes, windows_of

NAMES["run to held"] = ("tree", "levels", "distance", "wait", "patience", "left", "right"), ("steps", "phase")
NAMES["runs to held"] = (), ("enough runs on each tree", "enough steps refused by 5")
NAMES["run without patience"] = ("levels", "distance", "wait", "patience", "left", "right"), (
    "outcome", "number of the count", "steps made until then", "steps in its row unlike the count's")
NAMES["broken count of a run"] = ("place in the list of broken step counts",), ("found out",)

# Up to these levels a run for each class, m and tree; above them one for each class and m, the kinds of tree in turn.
LOW = range(2, 7)
ENOUGH_RUNS = 900
ENOUGH_REFUSED = 10000
# T, and a P that is not greater.
IMPATIENT = (1, 1), (5, 5), (5, 4), (123456, 1), (2 ** 32 - 1, 2 ** 32 - 1), (2 ** 32 - 1, 2 ** 32 - 2)


class Made(NamedTuple):
    """A run that was made: the place of its tree's kind, the settings, the window, and what came of it."""

    kind: int
    settings: Settings
    window: tuple
    came: tuple

    @property
    def asked(self):
        return *self.settings[:2], *self.window


def made(rng, h, m, kind, words, levels):
    """A run for a window of a class."""
    window = rng.choice(windows_of(rng, h, levels))
    settings = drawn_settings(rng, h, m, window)
    table = TREES[kind](rng, settings, words, window)
    client = rng.randrange(len(table.clients))
    begin_anywhere(rng, table, client, window)
    return Made(kind, settings, window, run(rng, table, client, window))


def runs_to_make(h):
    """The class, the m and the kind of tree of each run at H."""
    asked, kinds = [(levels, m) for levels in classes(h) for m in tree.DISTANCES], range(len(TREES))
    if h in LOW:
        return [(*each, kind) for each in asked for kind in kinds]
    return [(*each, kind) for each, kind in zip(asked, cycle(kinds))]


@lru_cache(maxsize=None)
def runs_at(h):
    """All runs at H; each begins with an opening of the same memory."""
    rng, words = Random(f"runs at {h}"), memory(h)
    return [made(rng, h, m, kind, words, levels) for levels, m, kind in runs_to_make(h)]


def runs(h):
    """Phase 9 comes with the step that the compiled count says."""
    for each in runs_at(h):
        _, steps = compiled_table.step_count(*each.asked)
        arguments = each.kind, *each.settings, *each.window
        yield case("run to held", arguments, (steps, 9)), (each.came.accepted, each.came.phase)


def all_runs():
    return [each for h in tree.LEVELS for each in runs_at(h)]


def enough():
    """There are many runs on each kind of tree, and many steps between them that were refused by 5, which do not count."""
    each_kind = [sum(each.kind == kind for each in all_runs()) for kind in range(len(TREES))]
    refused = sum(each.came.refused for each in all_runs())
    yield case("runs to held", [], (1, 1)), (int(min(each_kind) >= ENOUGH_RUNS), int(refused >= ENOUGH_REFUSED))


def waiting_later(h):
    """The classes whose second piece is an inner node."""
    return [levels for levels in classes(h) if len(levels) == 2 and levels[1] < h]


def given_up(table, window):
    """Steps client 0, in a wait after T has passed and else by its last clock, until it gives back or holds: how many steps it made."""
    own, steps = table.clients[0], 0
    table.answer(Call("request", 0, *window), 0)
    while own.record.phase not in (9, 10):
        step(table, 0, earliest(table.settings, own))
        steps += 1
    return steps


def without_patience():
    """Where P is at most T and the second piece waits, no clocks meet the conditions: patience runs out in that wait, with the step that would
    end it. The count is answered all the same, and stands in the row while the client gives back."""
    rng, pairs = Random("P at most T"), cycle(IMPATIENT)
    for h in (3, 4, 5, 6, 9):
        words = memory(h)
        for m, levels in ((m, levels) for m in tree.DISTANCES for levels in waiting_later(h)):
            settings, window = Settings(h, m, *next(pairs)), rng.choice(windows_of(rng, h, levels))
            table = fresh(rng, settings, words, window)
            steps = given_up(table, window)
            number, counted = compiled_table.step_count(h, m, *window)
            rows = table.planners_page([Row()] * len(table.clients), len(table.clients))[1]
            checked = len(tree.check_list(h, m, table.clients[0].record.second))
            answer = table.clients[0].record.outcome, number, steps, abs(rows[0].steps - counted)
            yield case("run without patience", [*settings, *window], (4, 0, counted - checked, 0)), answer


def broken_counts():
    """Of each broken count some run shows it: a compiled count with that fault would not be what the run makes."""
    found = [(each.asked, each.came.accepted) for each in all_runs()]
    for place, broken in enumerate(COUNTS.values()):
        yield case("broken count of a run", [place], 1), int(any(broken(*asked) != accepted for asked, accepted in found))


SUITES = {
    **{f"step count, compiled runs at H {h}": lambda h=h: runs(h) for h in tree.LEVELS},
    "step count, enough compiled runs of every kind": enough,
    "step count, P at most T and a second piece that waits": without_patience,
    "step count, the runs find each broken count out": broken_counts,
}

"""The wishes that a plan is made from: who wants which window from when, and for how long."""

from typing import NamedTuple

from model import tree
from model.record import Settings
from model.schedule import MOST_CLIENTS, MOST_LEVELS, Schedule
from scheduling.calendar_lines import read_calendar, refuse_behind
from scheduling.durations import longest_claim, never_held
from scheduling.numbers import U16, U32, U64, numbers_of
from scheduling.problems import Wrong, all_parsed, parsed, shown
from scheduling.refusals import no_such_client, of_settings, window_outside
from scheduling.text import SETTINGS, decoded, settings_of, written_lines
from scheduling.wards import says_ward_hours, window_of

EXAMPLE = "run 7 wants 100 220 from 30 for 40"
TIMES = {"clock": U64, "ticks to hold": U64}
# So far the clock of a plan may run on behind the last wish, through waits and pauses.
LAST_CLOCK = 2 ** 62


class Wish(NamedTuple):
    """A run's wish for [left, right): not before the clock `start`, and then for so many ticks. It has the words of a window that is written as
    ward hours."""

    line: int
    run: int
    left: int
    right: int
    start: int
    ticks: int
    words: str = ""


def wish_of(place, words, calendar):
    """The wish that a line says."""
    refuse_behind(place, words)
    window, marks = words[3:-4], (words[0], *words[2:3], *words[-4:-1:2])
    if marks != ("run", "wants", "from", "for") or (len(window) != 2 and not says_ward_hours(window)):
        raise Wrong(f"line {place}: a wish is written as in `{EXAMPLE}`; got {shown(' '.join(words))}")
    [run], (left, right, said), (start, ticks) = all_parsed((
        (numbers_of, place, {"run": U16}, words[1:2]), (window_of, place, calendar, window), (numbers_of, place, TIMES, words[-3::2])))
    if start + ticks > LAST_CLOCK:
        raise Wrong(f"line {place}: a plan's clocks end at {LAST_CLOCK}; this wish goes on to {start + ticks}")
    return Wish(place, run, left, right, start, ticks, said)


def fitting_settings(wishes, calendar):
    """Settings for wishes that name none: the lowest tree that has all windows and the calendar, m 1, the least wait in which every claim can be
    made with a step a tick, the longest patience, since the plan itself sees who waits for whom, and as many clients as are named."""
    furthest = max(calendar.units() if calendar else 0, *(wish.right for wish in wishes))
    levels = next((h for h in range(2, MOST_LEVELS) if furthest <= tree.units(h)), MOST_LEVELS)
    return levels, 1, 1 + longest_claim(levels, 1), U32, min(1 + max(wish.run for wish in wishes), MOST_CLIENTS)


def refused_wishes(schedule, wishes):
    """What no schedule can give: a run past the table, a window past the tree, a window that patience is too short for."""
    for wish in wishes:
        if wish.run >= schedule.clients:
            yield f"line {wish.line}: {no_such_client(schedule.clients, wish.run)}"
        edges = wish.left, wish.right
        if refused := window_outside(schedule.settings.levels, *edges) or never_held(schedule.settings, *edges):
            yield f"line {wish.line}: {refused}"


def served_with(head, numbers, wishes):
    """A schedule without calls that has these settings, in which all wishes can be served."""
    *of_the_lock, clients = numbers
    schedule = Schedule(Settings(*of_the_lock), clients, ())
    refused = [f"line {head[0]}: {words}" for _, words in of_settings(schedule)] if head else []
    if wrong := refused or list(refused_wishes(schedule, wishes)):
        raise Wrong(*wrong)
    return schedule


def read_wishes(data):
    """A schedule with the settings, the wishes in the order in which they are served, by clock, then by line, and the calendar or None. The
    first line may have the settings, as that of a schedule has; without them the calendar must fit into the highest tree that is run."""
    lines, wrong = list(written_lines(decoded(data))), []
    behind = lines[-1][0] + 1 if lines else 1
    head = lines.pop(0) if lines and lines[0][1][0] in SETTINGS else None
    given = parsed(head, settings_of, wrong) if head else None
    calendar, lines = read_calendar(lines, (given and given[0]) if head else MOST_LEVELS, wrong)
    wishes = [parsed((*line, calendar), wish_of, wrong) for line in lines]
    if not lines:
        wrong.append(f"line {behind}: a wish is written as in `{EXAMPLE}`; got nothing")
    if wrong:
        raise Wrong(*wrong)
    schedule = served_with(head, given or fitting_settings(wishes, calendar), wishes)
    return schedule, sorted(wishes, key=lambda wish: (wish.start, wish.line)), calendar

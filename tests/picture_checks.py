"""What a page must show, told by the model alone, and the checks that hold a page to it. A check gives how many it looked at, and how
many of them are wrong."""

import re
from collections import Counter, defaultdict
from itertools import combinations, pairwise

from model import schedule as schedules
from model import tree
from picture_looks import kinds_of_marks, marks_unlike, settings
from picture_pages import HELD, Mark, Told
from schedule_runs import held_by_two, held_by_two_in_words, holdings, made_by_model, one_clock, run_by_model, told_clocks

OUTCOMES = {1: "released", 2: "late", 3: "cancelled", 4: "out-of-patience"}
END = float("inf")
WAITS = re.compile(r"client (\d+) \[(\d+), (\d+)\), phase (\d+) .*waits .+")
OUTSIDE = re.compile(r"url\((?!#)|@import|<script|javascript:|\ssrc=", re.IGNORECASE)


class Expected:
    """What the model says of a schedule: the holdings by `holds` after each call, how a client ended by the outcome in its record, and the
    rest by the lines of its log."""

    def __init__(self, data):
        self.schedule = schedules.decode(data)
        self.lines = [line.split() for line in schedules.log(data).splitlines()[1:]]
        self.history = made_by_model(self.schedule)
        self.one_clock, self.clocks = one_clock(self.history), list(told_clocks(self.history, self.schedule.clients))
        held = holdings(self.schedule)
        self.by_two, self.said_of_two = list(held_by_two(held)), held_by_two_in_words(held)
        self.holdings = sorted(map(self.told, held), key=str)
        self.outcomes = [run.after.outcome for run in run_by_model(self.schedule)]
        self.stretches, self.marks = self.from_log()

    def by(self, asked):
        """What time counts on a page: clocks only if there is one for all."""
        return asked if self.one_clock else "call"

    def ended(self, told, place):
        return told._replace(end=place, end_clock=self.clocks[place])

    def told(self, held):
        told = Told(held.client, HELD, *held.window, held.start, None, self.clocks[held.start], None)
        return told if held.end is None else self.ended(told, held.end)

    def from_log(self):
        """Each stretch in a phase, and the marks: refused calls, steps that end in 10 (late or out of patience), how each client became idle,
        and who holds what another holds."""
        current, found, marks = {}, [], [Mark("held-by-two", place) for place in {later.start for later, _ in self.by_two}]
        for place, (_, kind, client, number, *rest) in enumerate(self.lines):
            client, (phase, left, right) = int(client), map(int, rest)
            ended = OUTCOMES.get(self.outcomes[place])
            before = current[client].phase if client in current else 0
            if number != "0":
                marks.append(Mark("refused", place))
            if number != "0" or phase == before:
                continue
            if before:
                found.append(self.ended(current.pop(client), place))
            if phase:
                current[client] = Told(client, phase, left, right, place, None, self.clocks[place], None)
            if phase == 10 and kind == "step":
                marks.append(Mark(ended, place))
            if phase == 0:
                marks.append(Mark(f"idle-{ended}", place))
        return sorted([*found, *current.values()], key=str), sorted(marks)


def is_instant(told, by):
    return by == "clock" and told.end is not None and told.start_clock == told.end_clock


def unlike(expected, found):
    """How many are missing, and how many are too many."""
    return ((Counter(expected) - Counter(found)) + (Counter(found) - Counter(expected))).total()


def held_in(chart):
    def check(page, expected, by):
        """The held bars and instants of a chart are the model's holdings; an instant is one that begins and ends at one clock."""
        found = [(bar.told, bar.instant) for bar in page.bars(chart) if bar.told.phase == HELD]
        wanted = [(told, is_instant(told, by)) for told in expected.holdings]
        return len(found), unlike(wanted, found)
    return check


def phases(page, expected, by):
    """The clients' bars are the stretches of the log. By clock, other phases than 9 that have no length have no bar."""
    found = [bar.told for bar in page.bars("clients")]
    return len(found), unlike([told for told in expected.stretches if told.phase == HELD or not is_instant(told, by)], found)


def rows(page, expected, by):
    """A client's bars stand beside its name, and no two of them overlap."""
    names, of_client = {text: y for text, _, y in page.labels("clients-names")}, defaultdict(list)
    for bar in page.bars("clients"):
        of_client[bar.told.client].append(bar)
    wrong = sum(not bar.y < names[f"client {client}"] < bar.y + bar.height for client, bars in of_client.items() for bar in bars)
    ordered = (sorted(bars, key=lambda bar: bar.x) for bars in of_client.values())
    return len(names), wrong + sum(one.x + one.width > next_.x for bars in ordered for one, next_ in pairwise(bars))


def overlap(one, other):
    """Two bars overlap as rectangles; an instant is a line, which overlaps a bar if it is within it, or another line at the same place."""
    apart_in_time = one.x + one.width <= other.x or other.x + other.width <= one.x
    if one.instant and other.instant:
        apart_in_time = one.x != other.x
    return not (apart_in_time or one.y + one.height <= other.y or other.y + other.height <= one.y)


def apart(page, expected, by):
    """No two bars of the units overlap, but for those of windows that two clients held."""
    bars = page.bars("units")
    return len(bars), abs(sum(overlap(*pair) for pair in combinations(bars, 2)) - len(expected.by_two))


def disordered(places):
    """How many keys have more than one place, or one that is not after that of the key before."""
    several = sum(len(found) > 1 for found in places.values())
    return several + sum(max(places[one]) >= min(places[after]) for one, after in pairwise(sorted(places)))


def times(page, expected, by):
    """In both charts a time is at one place, and later ones are further right: by clock first what ends there, then the instants in the
    order of their calls, then what begins there."""
    places = defaultdict(set)
    for told, x, _, width, _ in page.bars("clients") + page.bars("units"):
        if width == 0:
            places[told.start_clock, 1, told.start].add(x)
            continue
        places[(told.start_clock, 2) if by == "clock" else (told.start,)].add(x)
        places[(END,) if told.end is None else (told.end_clock, 0) if by == "clock" else (told.end,)].add(x + width)
    labelled = [(int(text), x) for text, x, y in page.labels("times") if by == "call" and y == 13]
    wrong = sum((call,) in places and places[call,] != {x - 2} for call, x in labelled)
    return 1, disordered(places) + wrong


def edges(page, expected, by):
    """Among the units an edge is at one place, beside its label, and greater ones are further down."""
    places = defaultdict(set)
    for bar in page.bars("units"):
        places[bar.told.left].add(bar.y)
        places[bar.told.right].add(bar.y + bar.height)
    labels = {int(text): {y - 4} for text, _, y in page.labels("units-names")}
    wrong = sum(labels.get(edge) != found for edge, found in places.items())
    return len(labels), wrong + disordered(labels)


def marks(page, expected, by):
    """The marks are those of the log."""
    found = [mark for mark, _, _ in page.marks()]
    return len(found), unlike(expected.marks, found)


def row_of(client, clients):
    return f"client {client}" if client < clients else "no such client"


def marks_in_place(page, expected, by):
    """A mark stands below the bars of its client's row, and in time before just those bars that begin after its call: by clock those that
    begin at its clock or later, since they begin at the end of its band."""
    names, wrong = {text: y for text, _, y in page.labels("clients-names")}, 0
    bars = [bar for bar in page.bars("clients") if not bar.instant]
    for (_, call), x, y in page.marks():
        row = names.get(row_of(expected.schedule.calls[call].client, expected.schedule.clients), 0)
        after = (bar.told.start_clock >= expected.clocks[call] if by == "clock" else bar.told.start > call for bar in bars)
        wrong += not 5 < y - row < 15 or any(later != (bar.x > x) for later, bar in zip(after, bars))
    return len(page.marks()), wrong


def parsed(page, expected, by):
    """The page is well-formed XML."""
    return 1, int(not page.well_formed)


def in_table(page, expected, by):
    """The table has the model's holdings."""
    wanted = [(str(told.client), f"[{told.left}, {told.right})", str(told.start_clock), str(told.start),
               *(("still holds",) if told.end is None else (str(told.end_clock), str(told.end)))) for told in expected.holdings]
    return len(page.table()), unlike(wanted, page.table())


def first_child(element, tag):
    """Whether an element has a child of this kind that says something."""
    return any(child.tag == tag and child.text for child in element)


def described(page, expected, by):
    """Every svg says what it shows, every bar, instant and mark what it is, every head of the table what it heads; there is a language
    and one main heading."""
    elements = list(page.root.iter())
    wrong = [each for each in elements if each.tag == "svg" and not (first_child(each, "title") and first_child(each, "desc"))]
    wrong += [each for each in elements if each.tag == "svg" and each.get("role") != "img"]
    wrong += [each for each in elements if (each.get("data-client") or each.get("data-call")) and not first_child(each, "title")]
    wrong += [each for each in elements if each.tag == "th" and each.get("scope") not in ("row", "col")]
    counts = Counter(each.tag for each in elements)
    return counts["h1"], len(wrong) + (page.root.get("lang") != "en")


def by_itself(page, expected, by):
    """Nothing is fetched and nothing is run: every reference is to an element of the page."""
    known = {each.get("id") for each in page.root.iter()}
    asked = {each.get("href") for each in page.root.iter() if each.get("href")} | set(re.findall(r"(?<=url\()#\w+", page.text))
    return 1, len(OUTSIDE.findall(page.text)) + sum(each[:1] != "#" or each[1:] not in known for each in asked) + page.text.count("http")


def counted(expected):
    """How the windows ended and which calls were refused, as the page must say it."""
    kinds = Counter(line[1] for line in expected.lines if line[3] == "0")
    marked = Counter(mark.kind for mark in expected.marks)
    yield f"{kinds['release']} released, {marked['late']} late, {kinds['cancel']} cancelled, {marked['out-of-patience']} out of patience"
    refused = Counter(int(line[3]) for line in expected.lines if line[3] != "0")
    causes = ", ".join(f"{refused[number]} by {number}" for number in sorted(refused))
    yield f"{len(expected.lines)} calls, {refused.total()} refused" + (f": {causes}" if causes else "")


def summed_up(page, expected, by):
    """It is said how the windows ended, which calls were refused, and who is neither idle nor holds at the end."""
    said = [each.text or "" for each in page.root.iter("li")]
    found = [tuple(map(int, waits.groups())) for waits in map(WAITS.fullmatch, said) if waits]
    wanted = [(told.client, told.left, told.right, told.phase) for told in expected.stretches if told.end is None and told.phase != HELD]
    return len(found), unlike(wanted, found) + sum(line not in said for line in counted(expected))


def looked_at(expected, by):
    """Each check, and how many it must have looked at."""
    held, stretches = len(expected.holdings), expected.stretches
    bars = sum(told.phase == HELD or not is_instant(told, by) for told in stretches)
    waiting = sum(told.end is None and told.phase != HELD for told in stretches)
    nobody = any(line[3] == "4" for line in expected.lines)
    all_edges = {0, tree.units(expected.schedule.settings.levels)}.union(*((told.left, told.right) for told in expected.holdings))
    return {
        parsed: 1, held_in("clients"): held, held_in("units"): held, phases: bars, rows: expected.schedule.clients + nobody, apart: held,
        times: 1, edges: len(all_edges) if held else 0, marks: len(expected.marks), marks_in_place: len(expected.marks), in_table: held,
        described: 1, by_itself: 1, summed_up: waiting, marks_unlike: kinds_of_marks(expected), settings: 1,
    }

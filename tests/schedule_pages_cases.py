"""Cases for `tools/schedule pages`: both pages in words, held to the records that the model leaves, those that docs/SCHEDULES.md
shows, and pages that are not whole or not the model's."""

from itertools import zip_longest
from pathlib import Path
from tempfile import TemporaryDirectory
from textwrap import wrap
from typing import NamedTuple

from compare import NAMES, case, unlike
from library import ROOT
from model import cover, pages, schedule, tree
from model.history import Call, overlap
from model.record import Record
from model.step_count import step_count
from random_schedules import drawn
from schedule_failing_cases import WRONG
from schedule_files import of_calls
from schedule_run_cases import OUTCOMES, PHASES
from schedule_runs import CANNOT_BE, common, one_clock, opened_for
from schedule_tool import started
from scheduling.page_report import page_report

NAMES["report of pages"] = ("seed or place",), ("lines", "lines unlike", "lines too wide")
NAMES["windows never held"] = ("place in the list of texts", "given back"), ("named",)
NAMES["line of the pages"] = ("line",), ("as expected",)
NAMES["pages of a schedule"] = ("place in the list of files",), ("exit status", "lines", "said why")
NAMES["changed pages"] = ("place in the list of changes",), ("exit status", "said as expected", "bytes written")

WHOLE = ROOT / "schedules" / "whole-case"
OVER_COVER = ROOT / "schedules" / "over-cover"
SEEDS = 60
WIDE = 100
# So far to the right begins a line that goes on with the one before it.
GOES_ON = " " * 20


class After(NamedTuple):
    """What the model leaves after the last call: the records, the last clock (None if each client has its own), and how many calls were
    refused."""

    records: list
    clock: int
    refused: int


def after(read):
    opened = opened_for(read)
    made = [opened.make(call) for call in read.calls]
    clock = max(client.clock for client in opened.clients) if one_clock(made) else None
    return After(opened.records, clock, sum(each.number != 0 for each in made))


def nodes_in_words(first, second):
    return f"{first} and {second}" if second else str(first)


def planners_words(settings, client, record):
    """A client's line, without looking at the tool: its window's cover and step count are asked for anew."""
    said = f"{client} {record.phase} {PHASES[record.phase]}"
    if record.phase == 0:
        return said
    _, first, second, over = cover.cover(settings.levels, record.left, record.right)
    beyond = "none" if over == 0 else "1 unit" if over == 1 else f"{over} units"
    _, steps = step_count(settings.levels, settings.distance, record.left, record.right)
    return f"{said} [{record.left}, {record.right}) {nodes_in_words(first, second)} {beyond} {steps}"


def run_words(settings, client, record, held):
    """A run's line: the count, the phase, and every other field that is not 0 in the documents' order; at a second piece that is not taken
    the end of its patience."""
    fields = [f"outcome {record.outcome} {OUTCOMES[record.outcome]}"] if record.outcome else []
    if record.phase:
        name = "nodes" if record.second else "node"
        fields += [f"window [{record.left}, {record.right})", f"{name} {nodes_in_words(record.first, record.second)}"]
    names = "current giving grip ticket place notices t1 t0 taken".split()
    fields += [f"{name} {value}" for name, value in zip(names, record[-len(names):], strict=True) if value]
    if record.current == 1 and record.phase in range(1, 9):
        fields += [f"patience until clock {record.taken + settings.patience}"]
    return f"{client} {held} {record.phase} {PHASES[record.phase]} {', '.join(fields)}"


def never_held(settings, records):
    """What is said of a window whose second piece is an inner node where P is no more than T, once for each such window."""
    said = []
    for record in records:
        if settings.patience <= settings.wait and record.second and 4 * record.second - 2 <= tree.node_count(settings.levels):
            said.append(f"[{record.left}, {record.right}) can never be held: its second piece, node {record.second}, takes the wait of {settings.wait} "
                        f"at least, and the patience of {settings.patience} is over by then; a patience above the wait is needed")
    return [line for sentence in dict.fromkeys(said) for line in wrap(sentence, WIDE - 2)]


# The lines above the two tables, below the first, and between them.
ABOVE = ["", "The planners' page", "client phase window nodes over-cover steps needed"]
LEGEND = ["Over-cover: units beyond the window that its nodes lock with it.", "While the window is held nobody else can hold them.",
          "Steps needed: from the request until the window is held, with nobody in its way", "and each wait stepped once, when it is over."]
BETWEEN = ["", "The runs' pages: each run gets its own, and no other. Fields that are 0 are left out", "client holding phase its record"]


def when(read, clock):
    h, m, wait, patience = read.settings
    calls = "1 call" if len(read.calls) == 1 else f"{len(read.calls)} calls"
    at_clock = "" if clock is None else f", at clock {clock}"
    return f"After {calls}{at_clock}: {h} levels, m {m}, wait {wait}, patience {patience}"


def held_by_two(records):
    """What is said if clients hold overlapping windows after the last call."""
    held = [(client, (record.left, record.right)) for client, record in enumerate(records) if record.phase == 9]
    said = [f"client {one} and client {other} both hold {common(window, another)}"
            for place, (one, window) in enumerate(held) for other, another in held[place + 1:] if overlap(window, another)]
    return ["", *said, CANNOT_BE] if said else []


def refused_words(refused, calls):
    """What is said at the end if calls were refused."""
    if refused == 0:
        return []
    counted = f"{refused} of {calls} call{'' if calls == 1 else 's'} {'was' if refused == 1 else 'were'}"
    return ["", f"{counted} refused: `schedule run` says which"]


def expected_words(read):
    """The words of each line of a schedule's pages."""
    records, clock, refused = after(read)
    held = sum(record.phase == 9 for record in records)
    planners = [planners_words(read.settings, client, record) for client, record in enumerate(records)]
    runs = [run_words(read.settings, client, record, held) for client, record in enumerate(records)]
    below = *LEGEND, *never_held(read.settings, records), *BETWEEN
    lines = [when(read, clock), *ABOVE, *planners, *below, *runs, *held_by_two(records), *refused_words(refused, len(read.calls))]
    return [line.split() for line in lines]


def whole_lines(lines):
    """The words of each line, with those of the lines that go on with it."""
    found = []
    for line in lines:
        if line.startswith(GOES_ON):
            found[-1] += line.split()
        else:
            found.append(line.split())
    return found


def report_case(place, data):
    """The report of a file has the expected words, and no line that is too wide."""
    lines = list(page_report(schedule.decode(data), pages.pages(data).splitlines()))
    found, expected = whole_lines(lines), expected_words(schedule.decode(data))
    too_wide = sum(len(line) > WIDE for line in lines)
    return case("report of pages", [place], (len(expected), 0, 0)), (len(found), unlike(expected, found), too_wide)


def reports():
    """Random schedules: a line for each client in both tables, with all that its record says."""
    for seed in range(SEEDS):
        yield report_case(seed, drawn("contended" if seed % 3 else "well-formed", seed))


def single_reports():
    """An over-cover of no unit, of one and of two; one call, and one of two refused; and the highest clocks and the most clients."""
    for place, (left, refused) in enumerate(((0, ()), (1, ()), (2, ()), (1, (Call("step", 3, 1),)))):
        yield report_case(place, of_calls(Call("request", 0, left, 256), *refused))
    yield report_case(4, of_calls(Call("step", 3, 1)))
    yield report_case(5, (ROOT / "tests" / "schedules" / "64-clients-with-clocks-of-20-digits.bin").read_bytes())


def never_held_reports():
    """A second piece that is an inner node, where P is less than T, as much, or one more; the same window twice; while it is
    wanted and while it is given back; and others that can be held all the same, since their second piece is a leaf or they have but one."""
    node, leaf, one = (4090, 8192), (60, 70), (0, 256)
    texts = [((20, 30), [node], 1), ((30, 30), [node], 1), ((31, 30), [node], 0), ((20, 30), [node, node, (100, 400)], 2), ((20, 30), [leaf, one], 0)]
    for place, ((patience, wait), windows, sentences) in enumerate(texts):
        asked = [Call("request", client, *window) for client, window in enumerate(windows)]
        for back in ([], [*[Call("step", 0, 1)] * 6, Call("cancel", 0)]):
            data = of_calls(*asked, *back, levels=6, distance=2, wait=wait, clients=4, patience=patience)
            said = " ".join(page_report(schedule.decode(data), pages.pages(data).splitlines())).count(" can never be held: ")
            yield case("windows never held", [place, int(back != [])], sentences), said
            yield report_case(place, data)


def shown_in_guide(heading, place=0):
    """The lines that docs/SCHEDULES.md shows below a heading."""
    return (ROOT / "docs" / "SCHEDULES.md").read_text().split(heading)[1].split("```")[1 + 2 * place].splitlines()[1:]


def pages_in_guide():
    """The pages in docs/SCHEDULES.md are those of the whole case and of the over-cover, line by line, from text and from file."""
    for place, path in enumerate((WHOLE, OVER_COVER)):
        for ending in (".txt", ".bin"):
            printed = started("pages", path.with_suffix(ending)).written.decode().splitlines()
            for number, (line, other) in enumerate(zip_longest(shown_in_guide("## What `pages` prints", place), printed)):
                yield case("line of the pages", [number], 1), int(line == other)


def documented_lines():
    """The lines that docs/SCHEDULES.md shows of `rangepages` are those of the whole case."""
    for place, (line, other) in enumerate(zip_longest(shown_in_guide("## The pages"), WHOLE.with_suffix(".pages").read_text().splitlines())):
        yield case("line of the pages", [place], 1), int(line == other)


def statuses():
    """The exit status is 0 and all clients are shown where a schedule is run, and 1 with a word why where it is refused."""
    for place, data in enumerate(drawn(kind, seed) for kind in ("contended", "refused", "damaged") for seed in range(8)):
        ran, refused = started("pages", data=data), pages.pages(data).startswith("refused")
        lines = 0 if refused else len(expected_words(schedule.decode(data)))
        answer = ran.status, len(whole_lines(ran.written.decode().splitlines())), int(ran.said != "")
        yield case("pages of a schedule", [place], (int(refused), lines, int(refused))), answer


PRINTED = WHOLE.with_suffix(".pages").read_text()

# What a program in place of rangepages makes of the pages of the whole case, and what is said of that.
CHANGED = {
    "a line short": (PRINTED[:PRINTED.rindex("1 9")], "what rangepages printed is not whole: it has 3 lines, and the model's has 4"),
    "cut in its last line": (PRINTED[:-2], "what rangepages printed is not whole: it ends within its line 4, `"
                             + PRINTED[:-2][-80:].replace("\n", "\\n") + "`"),
    "another over-cover": (PRINTED.replace("1 9 0 256 1 0 0 5\n", "1 9 0 256 1 0 1 5\n"),
                           f"line 2 that rangepages printed is `1 9 0 256 1 0 1 5`, and the model says `1 9 0 256 1 0 0 5`: {WRONG}"),
    "another step count": (PRINTED.replace("1 9 0 256 1 0 0 5\n", "1 9 0 256 1 0 0 6\n"),
                           f"line 2 that rangepages printed is `1 9 0 256 1 0 0 6`, and the model says `1 9 0 256 1 0 0 5`: {WRONG}"),
    "another count": (PRINTED.replace("3 10 1\n", "3 10 2\n"), "line 4 that rangepages printed is `1 9 0 0 256 1 0 0 0 3 0 0 0 0 3 10 2`, "
                      f"and the model says `1 9 0 0 256 1 0 0 0 3 0 0 0 0 3 10 1`: {WRONG}"),
    "another time of the first piece": (PRINTED.replace("3 10 1\n", "3 9 1\n"), "line 4 that rangepages printed is "
                                        "`1 9 0 0 256 1 0 0 0 3 0 0 0 0 3 9 1`, and the model says "
                                        f"`1 9 0 0 256 1 0 0 0 3 0 0 0 0 3 10 1`: {WRONG}"),
}


def changed_pages():
    """Pages that are not whole or not the model's are not shown as if they were."""
    for place, (text, said) in enumerate(CHANGED.values()):
        with TemporaryDirectory() as folder:
            path = Path(folder) / "pages"
            path.write_text(text)
            ran = started("pages", WHOLE.with_suffix(".txt"), RANGEPAGES=f"cat {path}")
        expected = f"schedule: {said}; RANGEPAGES in the environment is `cat {path}`\n"
        yield case("changed pages", [place], (3, 1, 0)), (ran.status, int(ran.said == expected), len(ran.written))


SUITES = {
    "tools/schedule pages, both pages in words": reports,
    "tools/schedule pages, a unit, a call, and the widest records": single_reports,
    "tools/schedule pages, windows that can never be held": never_held_reports,
    "tools/schedule pages, the pages in docs/SCHEDULES.md": pages_in_guide,
    "docs/SCHEDULES.md, what rangepages prints of the whole case": documented_lines,
    "tools/schedule pages, the exit status": statuses,
    "tools/schedule pages, pages that are not whole or not the model's": changed_pages,
}

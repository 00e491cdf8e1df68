"""Cases for docs/WARDS.md: its numbers are those of the model's calendar, and what it shows is what `tools/schedule` reads and prints."""

import re

from compare import NAMES, case
from library import ROOT
from model import tree
from model.calendar import Quarter, back, figures_outside, there, unit_of
from programs import RANGELOG
from schedule_tool import started
from scheduling.text import read_text

GUIDE = (ROOT / "docs" / "WARDS.md").read_text()
SCHEDULES = (ROOT / "docs" / "SCHEDULES.md").read_text()
EXAMPLE = ROOT / "schedules" / "ward-hours"
BLOCKS = re.findall(r"```text\n(.*?)```", GUIDE, re.DOTALL)
# The calendar and the window of the worked example.
LEVELS, WARDS, WEEKS = 4, 3, 2
FIRST, LAST = Quarter(2, 0, 6, 95), Quarter(2, 1, 0, 7)

NAMES["time in docs/WARDS.md"] = ("place in the table",), ("quarter",)
NAMES["tree in docs/WARDS.md"] = ("levels",), ("units", "wards of a week that fit", "one more")
NAMES["highest trees in docs/WARDS.md"] = (), ("a week in two levels", "greatest calendar in eight", "in nine", "wards of a week in it")
NAMES["worked example in docs/WARDS.md"] = (), ("unit", "ward and week back", "day and quarter back", "right edge")
NAMES["shown in docs/WARDS.md"] = ("place in the list of what is shown",), ("exit status", "as shown")
NAMES["ward hours in docs/SCHEDULES.md"] = (), ("left", "right")
NAMES["ward hours in man/schedule.1"] = (), ("requests", "edges of the worked example")


def table(heading, name):
    """The cells of a row of the table below a heading."""
    [row] = re.findall(rf"^\| {name} \| (.*) \|$", GUIDE.split(heading)[1].split("\n## ")[0], re.MULTILINE)
    return row.replace(",", "").split(" | ")


def times():
    """Each time of the table is as many quarters after midnight as stands below it."""
    for place, (time, quarter) in enumerate(zip(table("## There", "time"), table("## There", "quarter"), strict=True)):
        hour, minute = map(int, time.split(":"))
        yield case("time in docs/WARDS.md", [place], int(quarter)), (60 * hour + minute) / 15


def trees():
    """Each tree of the table holds as many wards of a week as stand below it, and not one more; those of 64 wards and 60 weeks are all
    held by nine levels."""
    columns = [map(int, table("## Which tree", name)) for name in ("H", "wards × weeks, at most", "units")]
    for levels, most, units in zip(*columns, strict=True):
        fits = int(most * 672 <= tree.units(levels)), int((most + 1) * 672 <= tree.units(levels))
        yield case("tree in docs/WARDS.md", [levels], (units, 1, 0)), (tree.units(levels), *fits)
    [greatest] = re.findall(r"64 wards of 60 weeks are ([\d,]+)", GUIDE)
    holds = [int(not figures_outside(levels, *figures)) for levels, figures in ((2, (1, 1)), (8, (64, 60)), (9, (64, 60)))]
    yield case("highest trees in docs/WARDS.md", [], (0, 0, 1, 64 * 60)), (*holds, int(greatest.replace(",", "")))


def worked_example():
    """The numbers of the worked example, there and back, and the right edge of its window."""
    [(ward, weeks, week, day, quarter, unit)] = re.findall(r"\((\d) × (\d) \+ (\d)\) × 672 \+ (\d) × 96 \+ (\d\d) = (\d+)", GUIDE)
    [(left, right)] = re.findall(r"this is \[(\d+), (\d+)\)", GUIDE)
    at, edges = Quarter(*map(int, (ward, week, day, quarter))), there(LEVELS, WARDS, WEEKS, FIRST, LAST, [0, 96] * 7 * WARDS)
    _, *found = back(LEVELS, WARDS, WEEKS, int(unit))
    same = int(at == FIRST) * unit_of(int(weeks), at), int(found[:2] == [2, 0]), int(found[2:] == [6, 95]), edges.right * int(edges.left == int(left))
    yield case("worked example in docs/WARDS.md", [], (int(unit), 1, 1, int(right))), same


def commands():
    """The commands that the guide shows, without the program, and what is read by each."""
    for words, behind in re.findall(r"^    (printf '.*' \| )?tools/schedule (.*)$", GUIDE, re.MULTILINE):
        text = re.sub(r"^printf '(.*)' \| $", r"\1", words).replace("\\n", "\n")
        yield [ROOT / word if "/" in word else word for word in behind.split()], text.encode()


def shown():
    """The example is the kept file; each command prints what stands below it, the last one at its beginning; and the errors are said."""
    RANGELOG.command()
    example, *printed, wrong, said = BLOCKS
    yield case("shown in docs/WARDS.md", [0], (0, 1)), (0, int(example == EXAMPLE.with_suffix(".txt").read_text()))
    for place, (block, (arguments, data)) in enumerate(zip(printed, commands(), strict=True), 1):
        ran, last = started(*arguments, data=data), place == len(printed)
        written = ran.written.decode()
        yield case("shown in docs/WARDS.md", [place], (0, 1)), (ran.status, int(written.startswith(block) if last else written == block))
    ran = started("pack", data=wrong.encode())
    yield case("shown in docs/WARDS.md", [len(BLOCKS)], (1, 1)), (ran.status, int(ran.said == said))


def in_schedules():
    """The window that docs/SCHEDULES.md shows has the edges that stand beside it."""
    [text] = re.findall(r"\n\n((?:    .*\n)+)", SCHEDULES.split("## Ward hours")[1].split("[WARDS.md]")[0])
    [edges] = re.findall(r"# the same as request 0 (\d+) (\d+)", text)
    [call] = read_text(text.encode()).schedule.calls
    yield case("ward hours in docs/SCHEDULES.md", [], tuple(map(int, edges))), (call.a, call.b)


def in_manual():
    """What the manual page shows is read, behind settings."""
    [text] = re.findall(r"^\.Ss Ward hours$.*?^\.Bd .*?\n(.*?)^\.Ed$", (ROOT / "man" / "schedule.1").read_text(), re.MULTILINE | re.DOTALL)
    calls = read_text(f"tree {LEVELS} m 1 wait 9 patience 60 clients 4\n{text}".encode()).schedule.calls
    edges = there(LEVELS, WARDS, WEEKS, FIRST, LAST, [0, 96] * 7 * WARDS)
    yield case("ward hours in man/schedule.1", [], (2, 1)), (len(calls), int(calls[0][2:] == edges[1:]))


SUITES = {
    "docs/WARDS.md, times and quarters": times,
    "docs/WARDS.md, which tree holds how many wards and weeks": trees,
    "docs/WARDS.md, the worked example": worked_example,
    "docs/WARDS.md, what it shows": shown,
    "docs/SCHEDULES.md, ward hours": in_schedules,
    "man/schedule.1, ward hours": in_manual,
}

"""Cases for `tools/schedule` with ward hours: the edges of windows are those of the model's calendar, which refuses what the model does, and each
error is said with its line."""

import re
from random import Random

import schedule_ward_text_cases
from compare import NAMES, case
from model import tree
from model.calendar import QUARTERS, Quarter, figures_outside, there
from schedule_tool_cases import all_told
from schedule_ward_errors import SETTINGS, TEXTS, WISHES
from schedule_ward_text_cases import begun, time
from scheduling.problems import Wrong
from scheduling.text import read_text

NAMES["window in ward hours"] = ("seed", "place in the text"), ("number", "left", "right")
NAMES["window at a boundary"] = ("ward", "first quarter", "behind the last", "ends at 00:00"), ("left", "right")
NAMES["quarters said to be closed"] = ("seed",), ("quarters", "unlike the hours", "refused by another number")
NAMES["figures of a calendar"] = ("levels", "wards", "weeks"), ("refused", "by 12")
NAMES["windows refused"] = (), ("by 12", "by 13", "by 14", "by none")

FIGURES = [(wards, weeks) for wards in (0, 1, 2, 3, 6, 24, 63, 64, 65, 2 ** 64 - 1) for weeks in (0, 1, 2, 4, 16, 59, 60, 61)]


def errors():
    """Each error is said with its line; the exit status is 1 and nothing is written."""
    asked = [(f"ward hours, {name}", "pack", text.encode(), (1, b"", f"{said}\n")) for name, (text, said) in TEXTS.items()]
    asked += [(f"ward hours, wish, {name}", "plan", text.encode(), (1, b"", f"{said}\n")) for name, (text, said) in WISHES.items()]
    yield from all_told(asked)


def answers(text):
    """For each request of a text the number that refuses it, or 0, and its edges. The refused ones are then left out, so that the others are
    read."""
    lines, wrong = text.splitlines(), {}
    try:
        read_text(text.encode())
    except Wrong as problem:
        wrong = {int(line): int(number) for line, number in re.findall(r"^line (\d+): .*; refused by (\d+)$", str(problem), re.MULTILINE)}
    right = "\n".join(line for place, line in enumerate(lines, 1) if place not in wrong)
    calls = iter(read_text(right.encode()).schedule.calls)
    return [(wrong[place],) if place in wrong else (0, *next(calls)[2:]) for place, line in enumerate(lines, 1) if line.startswith("request")]


def drawn_window(rng, wards, weeks):
    """The first and the last quarter of a window, most often short; some are the wrong way round, and some are of a ward, week, day or quarter
    that there is not."""
    ward, week, day, quarter = rng.choice([*[rng.randrange(wards)] * 20, wards]), rng.randrange(weeks), rng.randrange(7), rng.randrange(QUARTERS)
    longer = rng.choice([-1, 0, 0, 1, 5, rng.randrange(30), rng.randrange(700)])
    days, last_quarter = divmod((week * 7 + day) * QUARTERS + quarter + longer, QUARTERS)
    first, last = Quarter(ward, week, day, quarter), Quarter(ward, max(days // 7, 0), days % 7, last_quarter)
    odd = rng.choice([{}] * 12 + [{"week": weeks}, {"day": 7}, {"quarter": QUARTERS}])
    return (first._replace(**odd), last) if rng.random() < 0.5 else (first, last._replace(**odd))


def request(first, last):
    start = f"ward {first.ward} week {first.week} day {first.day} {time(first.quarter)}"
    return f"request 0 {start} .. week {last.week} day {last.day} {time(last.quarter + 1)}"


def windows():
    """Random windows and hours: the edges or the number that the model gives."""
    numbers = []
    for seed in range(120):
        rng = Random(f"ward hours {seed}")
        levels, wards, weeks = rng.choice([(4, 3, 2), (4, 1, 6), (5, 24, 1), (3, 1, 1), (6, 8, 12), (9, 64, 60), (12, 5, 2)])
        hours = [hour for _ in range(7 * wards) for hour in sorted(rng.choices((0, 0, 0, 24, 50, 88, 95, 96, 96, 96, 96), k=2))]
        text = [f"tree {levels} m 1 wait 9 patience 60 clients 4", f"calendar wards {wards} weeks {weeks}"]
        text += [f"hours ward {place // 7} day {place % 7} {time(hours[2 * place])} .. {time(hours[2 * place + 1])}" for place in range(7 * wards)]
        asked = [drawn_window(rng, wards, weeks) for _ in range(40)]
        text += [request(first, last) for first, last in asked]
        for place, (ends, answer) in enumerate(zip(asked, answers("\n".join(text)), strict=True)):
            edges = there(levels, wards, weeks, *ends, hours)
            numbers.append(edges.number)
            yield case("window in ward hours", [seed, place], tuple(edges)), answer
    yield case("windows refused", [], (1, 1, 1, 1)), tuple(int(number in numbers) for number in (12, 13, 14, 0))


def near_boundaries(ward):
    """The quarters of a ward with two weeks next to the ends of its days."""
    start = 2 * 672 * ward
    return sorted({unit for day in range(15) for unit in range(start + 96 * day - 1, start + 96 * day + 2) if start <= unit < start + 2 * 672})


def ended(unit, zero):
    """Where a window ends that ends with a quarter; at midnight as 00:00 of the next day or as 24:00."""
    return begun(unit + 1, 2) if zero else begun(unit, 2, 1)


def boundaries():
    """All windows that begin and end next to the ends of days, weeks and wards; an end at midnight is the same, however it is written."""
    for ward in range(2):
        units, end = near_boundaries(ward), 2 * 672 * (ward + 1)
        asked = [(first, last, zero) for first in units for last in units if first <= last
                 for zero in ((0, 1) if last % 96 == 95 and last + 1 < end else (0,))]
        for part in (asked[:1000], asked[1000:]):
            lines = [f"request 0 ward {ward} {begun(first, 2)} .. {ended(last, zero)}" for first, last, zero in part]
            calls = read_text((SETTINGS + "calendar wards 2 weeks 2\n" + "\n".join(lines)).encode()).schedule.calls
            for (first, last, zero), call in zip(part, calls, strict=True):
                yield case("window at a boundary", [ward, first, last + 1, zero], (first, last + 1)), call[2:]


def hours_lines(rng):
    """Random lines of hours for two wards, and the pairs that they leave, later ones over earlier ones."""
    lines, left = [], {(ward, day): (0, 96) for ward in range(2) for day in range(7)}
    for _ in range(rng.randrange(12)):
        ward, day, pair = rng.choice([None, 0, 1]), rng.choice([None, *range(7)]), tuple(sorted(rng.choices(range(97), k=2)))
        closed = rng.random() < 0.2
        named = "".join(f" {name} {number}" for name, number in (("ward", ward), ("day", day)) if number is not None)
        lines.append(f"hours{named} " + ("closed" if closed else f"{time(pair[0])} .. {time(pair[1])}"))
        left |= {at: (0, 0) if closed else pair for at in left if ward in (None, at[0]) and day in (None, at[1])}
    return lines, left


def precedence():
    """Exactly the quarters that the last line about them leaves closed are refused by 14."""
    for seed in range(40):
        lines, left = hours_lines(Random(f"hours {seed}"))
        text = [SETTINGS + "calendar wards 2 weeks 1", *lines]
        text += [f"request 0 ward {ward} week 0 day {day} {time(at)} .. {time(at + 1)}" for ward in range(2) for day in range(7) for at in range(96)]
        numbers = [answer[0] for answer in answers("\n".join(text))]
        closed = [14 * (not opening <= at < closing) for opening, closing in left.values() for at in range(96)]
        unlike = sum(number != expected for number, expected in zip(numbers, closed, strict=True))
        yield case("quarters said to be closed", [seed], (14 * 96, 0, 0)), (len(numbers), unlike, sum(number not in (0, 14) for number in numbers))


def figures():
    """A calendar is refused by 12 exactly where the model does, at each height of a tree."""
    for levels in tree.LEVELS:
        for wards, weeks in FIGURES:
            said = ""
            try:
                read_text(f"tree {levels} m 1 wait 9 patience 60 clients 4\ncalendar wards {wards} weeks {weeks}".encode())
            except Wrong as problem:
                said = str(problem)
            refused = int(figures_outside(levels, wards, weeks))
            yield case("figures of a calendar", [levels, wards, weeks], (refused, refused)), (int(said != ""), int(said.endswith("refused by 12")))


SUITES = {
    "tools/schedule, ward hours, each error names its line": errors,
    "tools/schedule, ward hours, windows at random have the model's edges and numbers": windows,
    "tools/schedule, ward hours, windows at the ends of days, weeks and wards": boundaries,
    "tools/schedule, ward hours, later lines of hours over earlier ones": precedence,
    "tools/schedule, ward hours, figures of calendars": figures,
    **schedule_ward_text_cases.SUITES,
}

"""Cases for `tools/schedule` on clients' own clocks: the two schedules about them that are kept, what docs/SCHEDULES.md says of them, and where
two clients hold the same units, which each command must say."""

import re
from unittest.mock import patch

from compare import NAMES, case
from library import ROOT
from model import step
from model.history import Call, held_apart, holds
from model.moments import accepted_steps, moments_of, supposition_met
from model.record import IDLE
from schedule_runs import CANNOT_BE, held_by_two, holdings, made_by_model, one_clock, section
from schedule_tool import started
from scheduling.planning import plan
from scheduling.text import read_text
from scheduling.wishes import read_wishes

NAMES["moments in own-clocks.txt"] = (), ("steps without one", "keep the supposition", "clocks that never go back", "at its limits")
NAMES["own-clocks.txt"] = ("late by a plain comparison",), ("late", "held by two at the same time", "not held or idle at the end")
NAMES["untrue-clocks.txt"] = (), ("the history of two holders", "moments that keep the supposition", "windows apart")
NAMES["late from"] = ("wait", "ticks"), ("late",)
NAMES["report in the guide"] = ("place in the guide",), ("as the tool prints it",)
NAMES["held by two, said"] = ("place in the list of commands", "from the file"), ("exit status", "said where it must be", "said elsewhere")
NAMES["row of a step that goes back"] = ("place in the list of texts",), ("as expected",)
NAMES["clocks of a plan"] = ("place in the list of wishes",), ("go back", "with calls")

GUIDE = (ROOT / "docs" / "SCHEDULES.md").read_text().split("## Each client's clock")[1].split("\n## ")[0]
OWN, UNTRUE = ROOT / "schedules" / "own-clocks", ROOT / "schedules" / "untrue-clocks"
BOTH = "client 0 holds [0, 10) from clock 5 (call 9) on, while client 1 holds [0, 256) since clock 7 (call 8): both hold [0, 10)"
GONE_BACK = "refused 5: clock 4 is below client 0's last clock 5"
BY_TWO = "Held by two at the same time"
ROW = "held: client 0 holds [0, 10), while client 1 holds [0, 256)"


def schedule_of(path):
    return read_text(path.with_suffix(".txt").read_bytes()).schedule


def moments_written(path):
    """The moment that a text has behind each call, None where it has none."""
    text = path.with_suffix(".txt").read_text()
    lines, source = text.split("\n"), read_text(text.encode())
    found = (re.search(r"# moment (\d+)", lines[place - 1]) for place in source.lines)
    return [int(moment[1]) if moment else None for moment in found]


def at_the_limits(history, moments):
    """Whether between some steps a clock is as slow as it may be, and between others as fast, with ticks that are not the true elapse."""
    steps = accepted_steps(history)
    pairs = [(one, other) for place, other in enumerate(steps) for one in steps[:place] if one.client == other.client]
    between = [(other.clock - one.clock, moments[other.place] - moments[one.place]) for one, other in pairs]
    slow = any(ticks < elapse and 9999 * elapse > 10000 * (ticks - 1) for ticks, elapse in between)
    return slow and any(ticks > elapse and 10001 * elapse < 10000 * (ticks + 1) for ticks, elapse in between)


def moments_of_own_clocks():
    """The moments that stand in schedules/own-clocks.txt are those of a history that keeps the supposition, at its limits, with clocks that
    are not those of one clock for all."""
    history, moments = made_by_model(schedule_of(OWN)), moments_written(OWN)
    missing = sum(moments[step.place] is None for step in accepted_steps(history))
    answer = missing, int(supposition_met(history, moments)), int(one_clock(history)), int(at_the_limits(history, moments))
    yield case("moments in own-clocks.txt", [], (0, 1, 0, 1)), answer


def plainly_late(settings, record, clock):
    """Document 01's rule."""
    return clock - record.t1 >= settings.wait


def ended(read):
    """How many claims were late, how many windows two clients held, and who neither holds nor is idle at the end."""
    history = made_by_model(read)
    late = sum(made.call.kind == "step" and made.phase == 10 and before.phase == 6 for before, made in before_each(history))
    left = sum([made.phase for made in history if made.call.client == client][-1] not in (0, 9) for client in range(read.clients))
    return late, len(list(held_by_two(holdings(read)))), left


def before_each(history):
    """Each call, with the one of the same client before it."""
    last = {}
    for made in history:
        if made.call.client in last:
            yield last[made.call.client], made
        last[made.call.client] = made


def own_clocks():
    """In schedules/own-clocks.txt one claim is late and nobody holds what another holds. By a plain comparison of times it would not be late,
    and two clients would hold the same units."""
    yield case("own-clocks.txt", [0], (1, 0, 0)), ended(schedule_of(OWN))
    with patch.object(step, "late", plainly_late):
        plainly = ended(schedule_of(OWN))
    yield case("own-clocks.txt", [1], (0, 1, 0)), plainly


def untrue_clocks():
    """schedules/untrue-clocks.txt is: H 2, m 1, T 2; request 0 [0, 10); 0 steps twice; request 1 [0, 256); 1 steps three times, its clock + 2,
    steps twice and holds; 0 steps at its old clock and holds. No moments keep the supposition."""
    read = schedule_of(UNTRUE)
    clock, other = read.calls[1].a, read.calls[4].a
    calls = [Call("request", 0, 0, 10), *[Call("step", 0, clock)] * 2, Call("request", 1, 0, 256), *[Call("step", 1, other)] * 3,
             *[Call("step", 1, other + 2)] * 2, Call("step", 0, clock)]
    history = made_by_model(read)
    same = read.settings[:3] == (2, 1, 2) and list(read.calls) == calls
    apart = held_apart([holds(history, client) for client in range(2)])
    yield case("untrue-clocks.txt", [], (1, 0, 0)), (int(same), int(moments_of(history) is not None), int(apart))


def numbers_in_guide(words):
    """The numbers that the guide has in the place of each N of these words."""
    [found] = re.findall(words.replace(" ", r"\s+").replace("N", r"([\d,]+)"), GUIDE)
    return [int(number.replace(",", "")) for number in ([found] if isinstance(found, str) else found)]


def late_from():
    """From how many ticks on a claim is late, as the guide says: from T up to some wait, then from fewer."""
    [most], longer = numbers_in_guide("wait of up to N ticks it is late from T ticks on"), numbers_in_guide("with T = N from N ticks on")
    for wait, ticks in ((1, 1), (5, 5), (most, most), (most + 1, most), longer):
        settings, record = schedule_of(OWN).settings._replace(wait=wait), IDLE._replace(t1=7)
        for clock, late in ((7 + ticks, 1), (6 + ticks, 0)):
            yield case("late from", [wait, clock - 7], late), int(step.late(settings, record, clock))


def shown_in_guide():
    """What the guide shows of the two schedules stands so in their reports."""
    for place, (shown, path) in enumerate(zip(GUIDE.split("```text\n")[1:], (OWN, UNTRUE), strict=True)):
        printed = started("run", path.with_suffix(".txt")).written.decode()
        yield case("report in the guide", [place], 1), int(f"\n\n{shown.split('```')[0]}\n" in printed)


# Each command: how it says on standard output, and on standard error, that two clients hold.
SAID = {
    "run": (["run"], lambda lines: section(lines, BY_TWO) == [BOTH, CANNOT_BE] and sum(line.endswith(ROW) for line in lines) == 1, []),
    "run --log": (["run", "--log"], lambda lines: "\n".join(lines) + "\n" == UNTRUE.with_suffix(".log").read_text(), [BOTH, CANNOT_BE]),
    "pages": (["pages"], lambda lines: lines[-3:] == ["", "client 0 and client 1 both hold [0, 10)", CANNOT_BE], []),
    "picture": (["picture"], lambda lines: f"<li>{BOTH}</li><li>{CANNOT_BE}</li>" in "".join(lines), []),
    "picture by clock": (["picture", "--by", "clock"], lambda lines: f"<li>{BOTH}</li><li>{CANNOT_BE}</li>" in "".join(lines), []),
}


def said():
    """Each command says that two clients hold, from the text and from the file, and where it must; of own-clocks.txt it says nothing of it."""
    for place, (arguments, as_expected, beside) in enumerate(SAID.values()):
        for from_file, ending in enumerate((".txt", ".bin")):
            ran, other = (started(*arguments, path.with_suffix(ending)) for path in (UNTRUE, OWN))
            found = as_expected(ran.written.decode().splitlines()) and ran.said.splitlines() == beside
            elsewhere = "both hold" in other.written.decode() + other.said or CANNOT_BE in other.written.decode()
            yield case("held by two, said", [place, from_file], (0, 1, 0)), (ran.status, int(found), int(elsewhere))


def gone_back():
    """A step is refused by its own client's last clock, also where another client's is higher, and the clocks are told as one for all or not."""
    for place, (other, told) in enumerate(((9, 9), (3, 5))):
        text = f"tree 2 m 1 wait 5 patience 20 clients 2\nstep 0 5\nstep 1 {other}\nstep 0 4"
        rows = started("run", data=text.encode()).written.decode().splitlines()
        yield case("row of a step that goes back", [place], 1), int(rows[3].endswith(f"  {told}  {GONE_BACK}"))


def plans():
    """In a plan all runs read one clock, which never goes back."""
    few = b"run 0 wants 0 100 from 0 for 9\nrun 1 wants 50 60 from 3 for 40\nrun 2 wants 0 10 from 3 for 0"
    texts = (ROOT / "schedules" / "day.wishes").read_bytes(), few
    for place, text in enumerate(texts):
        given, wishes, _ = read_wishes(text)
        history = made_by_model(given._replace(calls=tuple(call for call, _ in plan(given, wishes)[0])))
        yield case("clocks of a plan", [place], (0, 1)), (int(not one_clock(history)), int(len(history) > 0))


SUITES = {
    "schedules/own-clocks.txt, its moments": moments_of_own_clocks,
    "schedules/own-clocks.txt, late by request 2.3 alone": own_clocks,
    "schedules/untrue-clocks.txt, two clients hold": untrue_clocks,
    "docs/SCHEDULES.md, from how many ticks on a claim is late": late_from,
    "docs/SCHEDULES.md, reports of own and untrue clocks": shown_in_guide,
    "tools/schedule, each command says that two clients hold": said,
    "tools/schedule run, a clock that goes back": gone_back,
    "tools/schedule plan, one clock for all": plans,
}

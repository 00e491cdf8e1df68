"""Cases for `tools/schedule run`: the log beside its lines, in words, held to what the model makes of the same calls, and a summary of who
held, who held at the same time, who waits for whom, and how each request ended."""

from collections import Counter
from itertools import zip_longest
from operator import eq, gt, lt

import schedule_clock_cases
from compare import NAMES, case
from library import ROOT
from model import schedule
from model.record import Client
from model.step_count import step_count
from random_schedules import drawn
from schedule_files import WHOLE_CASE
from schedule_runs import NO_TRUE_MOMENTS, TRUE_MOMENTS, at, clocks_in_words, held_by_two_in_words, holdings, in_words, made_by_model
from schedule_runs import opened_for, run_by_model, section
from schedule_tool import started
from scheduling.events import happened
from scheduling.packed import read_file
from scheduling.report import report
from scheduling.waiting import wait_of

NAMES["report of a schedule"] = ("seed",), ("rows", "unlike the log and the model", "sections unlike", "counts unlike")
NAMES["reports with"] = (), ("windows given up", "windows held by two", "clocks with true moments", "clocks without")
NAMES["windows held in steps"] = (), ("fewer than needed", "as many, some", "more, some")
NAMES["waiting client"] = ("seed", "client"), ("waits", "named clients that are idle or itself")
NAMES["line of a report"] = ("place in the list of reports", "line"), ("as expected",)
NAMES["run"] = ("place in the list of files",), ("exit status", "log as rangelog's", "said why")

PHASES = ["idle", "ticket", "turn", "climb", "blocked", "claim", "notify", "wait", "check", "held", "returning"]
OUTCOMES = ["", "released", "late", "cancelled", "out of patience"]
# What some report must have: windows given up and held by two, and clocks with true moments and without.
SHOWN = "Given up, out of patience", "Held by two at the same time", f"  {TRUE_MOMENTS}", f"  {NO_TRUE_MOMENTS}"


def lines_of(data):
    """The tool's report on a file, from the model's log, in the part with a row for each call and the summary."""
    source, log = read_file(data), schedule.log(data).splitlines()
    return list(report(source, happened(source.schedule, log)))


def expected_words(run):
    """The last words of a row: a refused call's number, by 5 with the client's own last clock; else the phase, where it gives back or has
    become idle with the outcome."""
    call, number, after = run.made.call, run.made.number, run.after
    if number == 5:
        return f"refused 5: clock {call.a} is below client {call.client}'s last clock {run.opened.clients[call.client].clock}"
    if number:
        return f"refused {number}: "
    ended = after.phase == 10 or (after.phase == 0 and run.before.phase != 0)
    return PHASES[after.phase] + (f", {OUTCOMES[after.outcome]}" if ended else "")


def given_up_by_model(read):
    """The lines on who gave a window up: a step of a second piece that ends in 10 with outcome 4."""
    for run in run_by_model(read):
        before, after = run.before, run.after
        if run.made.call.kind == "step" and before.phase != 10 and (after.phase, after.outcome) == (10, 4):
            since = f"it had its first piece since clock {before.taken}, and its patience is {read.settings.patience}"
            yield f"client {run.made.call.client} gave [{before.left}, {before.right}) up at {at(run)}: {since}"


def counted_by_model(read):
    ended, refused = Counter(), 0
    for run in run_by_model(read):
        refused += run.made.number != 0
        if run.made.number == 0 and run.before.outcome == 0 and run.after.outcome:
            ended[run.after.outcome] += 1
    counted = ", ".join(f"{ended[number]} {OUTCOMES[number]}" for number in (1, 2, 3, 4))
    return [counted, f"{len(read.calls)} calls, {refused} refused"]


def unlike_rows(rows, read, log):
    """How many rows do not have the call, its line of the log, the clock that is told with it and the words of the model."""
    unlike = 0
    for row, logged, run in zip_longest(rows, log[1:], run_by_model(read)):
        call, told = run.made.call, "" if run.clock is None else f"{run.clock}  "
        behind = row.partition(f"  {logged} ")[2].strip()
        wanted = told + expected_words(run)
        unlike += not behind.startswith(wanted) or row.split()[1:3] != [call.kind, str(call.client)]
    return unlike


def needed(settings, held):
    return step_count(settings.levels, settings.distance, *held.window).steps


def held_in_words(settings, found):
    for held in found:
        end = f"to {held.until}" if held.until else "and still holds it"
        steps = f"taken in {held.steps} steps; {needed(settings, held)} needed"
        yield f"client {held.client} held {in_words(held.window)} from {held.since} {end}; {steps}"


def sections_unlike(rest, read, found):
    """How many of the sections on the clocks, on who held, on who held at the same time and on who gave up are not the model's, without the
    deeper lines that say why a client gave up."""
    wanted = {"Clocks": clocks_in_words(made_by_model(read)), "Held": list(held_in_words(read.settings, found)) or ["nobody"],
              "Held by two at the same time": held_by_two_in_words(found), "Given up, out of patience": list(given_up_by_model(read))}
    return sum([line for line in section(rest, title) if not line.startswith("  ")] != lines for title, lines in wanted.items())


def reports():
    """Random schedules: every row, what is said of clocks, of who held and who gave up, and the counts. No window is held in fewer steps than
    it needs."""
    shown, taken = Counter(), []
    for seed in range(120):
        data = drawn("contended" if seed % 3 else "well-formed", seed)
        read, log = schedule.decode(data), schedule.log(data).splitlines()
        if isinstance(read, int) or log[0].startswith("refused"):
            continue
        lines = lines_of(data)
        rows, rest = lines[1:1 + len(read.calls)], lines[1 + len(read.calls):]
        counts, wanted = section(rest, "In all"), counted_by_model(read)
        shown.update(part for part in SHOWN if part in rest)
        found = holdings(read)
        taken += [(held.steps, needed(read.settings, held)) for held in found]
        answer = (len(rows), unlike_rows(rows, read, log), sections_unlike(rest, read, found),
                  int(not all(line.startswith(start) for line, start in zip_longest(counts, wanted, fillvalue="?"))))
        yield case("report of a schedule", [seed], (len(read.calls), 0, 0, 0)), answer
    yield case("reports with", [], (1, 1, 1, 1)), tuple(int(shown[part] > 0) for part in SHOWN)
    fewer, as_many, more = (sum(compare(*steps) for steps in taken) for compare in (lt, eq, gt))
    yield case("windows held in steps", [], (0, 1, 1)), (fewer, int(as_many > 0), int(more > 0))


def waiting_clients():
    """A client waits for others exactly if its next step, at a clock at which no wait by clock is left, would not bring it on while it has
    patience."""
    for seed in range(80):
        read = schedule.decode(drawn("contended", seed))
        if isinstance(read, int):
            continue
        *_, (_, opened, *_) = run_by_model(read)
        for client, record in enumerate(opened.records):
            if record.phase in (0, 9):
                continue
            wait = wait_of(read.settings, opened.words, opened.records, client)
            wrong = sum(other == client or opened.records[other].phase == 0 for other in wait.clients()) if wait else 0
            waits = int(bool(wait and wait.clients()))
            yield case("waiting client", [seed, client], (int(not gets_on(read.settings, opened, client)), 0)), (waits, wrong)


def with_patience(record, clock):
    """A record whose first piece, if it has one, was taken at this clock."""
    return record._replace(taken=clock) if record.current else record


def gets_on(settings, opened, client):
    """Whether a client that alone makes steps comes to another phase than those that lead back to where it is, for instance from claim to
    climb and back: it is then held, idle, or at a piece or place that it has not been at."""
    clock = opened.clients[client].clock + settings.wait
    first = with_patience(opened.clients[client].record, clock)
    alone = opened_for(schedule.Schedule(settings, len(opened.clients), ()))
    alone.words[:], alone.clients[:] = opened.words, opened.clients
    alone.clients[client] = Client(clock, first)
    if first.phase in (3, 4, 5):
        for _ in range(40):
            made = alone.make(schedule.Call("step", client, clock))
            if made.phase not in (3, 4, 5):
                return True
        return False
    alone.make(schedule.Call("step", client, clock))
    return alone.clients[client].record != first


# The end of a schedule's report, for each thing that a client can wait for.
WAITS = {
    "its turn": ("tree 2 m 1 wait 5 patience 20 clients 3\nrequest 0 0 256\nrequest 1 0 200\nrequest 2 0 256\nstep 0 1\nstep 1 1\nstep 2 1\nstep 0 1", 2,
                 "client 2 [0, 256), phase 2 turn, waits for client 0 and client 1: its turn, node 1"),
    "a turn to give back": ("tree 2 m 1 wait 5 patience 20 clients 2\nrequest 0 0 256\nrequest 1 0 200\nstep 0 1\nstep 1 1\ncancel 1", 1,
                            "client 1 [0, 200), phase 10 returning, cancelled, waits for client 0: its turn, node 1"),
    "an ancestor": ("tree 2 m 1 wait 5 patience 20 clients 2\nrequest 0 0 256\nrequest 1 0 9\nstep 0 1\nstep 0 1\nstep 0 1\nstep 1 1", 1,
                    "client 1 [0, 9), phase 4 blocked, waits for client 0: an occupied node above, node 1"),
    "units": ("tree 2 m 1 wait 5 patience 20 clients 2\nrequest 0 5 6\nrequest 1 0 9\nstep 0 1\nstep 1 1\nstep 0 1", 1,
              "client 1 [0, 9), phase 5 claim, waits for client 0: units of its leaf that are taken, node 2"),
    "notices": ("tree 2 m 1 wait 5 patience 20 clients 2\nrequest 0 5 6\nstep 0 1\nstep 0 1\nstep 0 1\nrequest 1 0 256\nstep 1 1\nstep 1 1\nstep 1 1\nstep 1 6", 1,
                "client 1 [0, 256), phase 8 check, waits for client 0: notices below its node, node 1"),
    "the clock": ("tree 2 m 1 wait 5 patience 20 clients 2\nrequest 1 0 256\nstep 1 1\nstep 1 1\nstep 1 3", 1,
                  "client 1 [0, 256), phase 7 wait, waits for nobody: until clock 8"),
    "others, with patience": ("tree 2 m 1 wait 5 patience 20 clients 2\nrequest 0 60 70\nrequest 1 64 65\nstep 1 1\nstep 1 1\nstep 1 1\n"
                              "step 0 2\nstep 0 2\nstep 0 2\nstep 0 21\nstep 0 21", 0,
                              "client 0 [60, 70), phase 3 climb, waits for client 1: units of its leaf that are taken, node 3; "
                              "its patience is over at clock 22"),
    "the clock, with patience": ("tree 3 m 1 wait 5 patience 20 clients 1\nrequest 0 60 400\n" + "step 0 1\n" * 5 + "step 0 6\n" * 7, 0,
                                 "client 0 [60, 400), phase 7 wait, waits for nobody: until clock 11; its patience is over at clock 26"),
    "nothing, with patience": ("tree 2 m 1 wait 5 patience 20 clients 2\nrequest 0 60 70\nstep 0 2\nstep 0 2\nstep 0 2\nstep 1 22", 0,
                                 "client 0 [60, 70), phase 3 climb, waits for nobody: its patience was over at clock 22, and its next step begins to give back"),
    "nothing, where another's step shows the clock": ("tree 2 m 1 wait 5 patience 20 clients 2\nrequest 0 10 20\nrequest 1 0 256\nstep 1 1\nstep 1 2\nstep 1 3\n"
                                                      "step 0 100\nstep 0 101", 1, "client 1 [0, 256), phase 7 wait, waits for nobody: it needs steps"),
    "the clock, by its own": ("tree 2 m 1 wait 5 patience 20 clients 2\nrequest 0 10 20\nrequest 1 0 256\nstep 0 100\nstep 1 1\nstep 1 2\nstep 1 3\nstep 0 101", 1,
                              "client 1 [0, 256), phase 7 wait, waits for nobody: until clock 8"),
    "steps": ("tree 2 m 1 wait 5 patience 20 clients 2\nrequest 1 0 256", 1, "client 1 [0, 256), phase 1 ticket, waits for nobody: it needs steps"),
}


def waits_in_words():
    """For each thing that a client can wait for, the line that says so."""
    for place, (text, client, line) in enumerate(WAITS.values()):
        said = started("run", data=text.encode()).written.decode().splitlines()
        found = [one for one in said if one.startswith(f"  client {client} [")]
        if found != [f"  {line}"]:
            print(f"    {found} in place of {line!r}")
        yield case("line of a report", [place, client], 1), int(found == [f"  {line}"])


def whole_case_report():
    """The report on the whole case is the one in docs/SCHEDULES.md."""
    guide = (ROOT / "docs" / "SCHEDULES.md").read_text()
    shown = guide.split("## What `run` prints")[1].split("```")[1].splitlines()[1:]
    printed = started("run", ROOT / "schedules" / "whole-case.txt").written.decode().splitlines()
    for place, (line, other) in enumerate(zip_longest(shown, printed)):
        yield case("line of a report", [len(WAITS), place], 1), int(line == other)


def runs():
    """`run --log` prints the log of a text and of a file, also of a file that is no schedule, and the exit status says whether the schedule
    was run. Beside the log it says why not, or which windows two clients held."""
    texts = sorted((ROOT / "schedules").glob("*.txt"))
    files = [(path.read_bytes(), path.with_suffix(".bin").read_bytes()) for path in texts]
    drawn_files = (drawn(kind, seed) for kind in ("contended", "refused", "damaged") for seed in range(8))
    files += [(data, data) for data in (WHOLE_CASE, *drawn_files, bytes(70000), bytes(5))]
    for place, (given, file) in enumerate(files):
        ran, log = started("run", "--log", data=given), schedule.log(file)
        refused = log.startswith("refused")
        said = ran.said != "" if refused else ran.said.splitlines() == held_by_two_in_words(holdings(schedule.decode(file)))
        yield case("run", [place], (int(refused), 1, 1)), (ran.status, int(ran.written.decode() == log), int(said))


SUITES = {
    "tools/schedule run, the log and what it means": reports,
    "tools/schedule run, who waits": waiting_clients,
    "tools/schedule run, for whom, in words": waits_in_words,
    "tools/schedule run, the whole case in docs/SCHEDULES.md": whole_case_report,
    "tools/schedule run, the log alone and the exit status": runs,
    **schedule_clock_cases.SUITES,
}

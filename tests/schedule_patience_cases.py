"""Cases for `tools/schedule` where patience runs out: each command on schedules/patience.txt, what `run` says of windows given up, the mark in
a picture, and plans in which a run asks again."""

from collections import Counter

from compare import NAMES, case
from library import ROOT
from model.schedule import Schedule
from picture_checks import Expected, marks
from picture_pages import Page
from schedule_plan_cases import drawn_wishes, held_times, not_as_wished, run
from schedule_runs import run_by_model
from schedule_tool import started
from scheduling.planning import plan, plan_lines
from scheduling.wishes import read_wishes

NAMES["command on patience.txt"] = ("place in the list of commands", "from the file"), ("exit status", "bytes on standard error", "as expected")
NAMES["window given up"] = ("place in the list of texts",), ("as expected",)
NAMES["marks of patience"] = ("by clock",), ("out of patience", "idle, out of patience", "unlike the model", "unlike where shown as late")
NAMES["plan with little patience"] = ("seed",), ("wishes not held as wished", "refused or late calls", "clients not idle")
NAMES["plans with little patience"] = (), ("some run asks again",)
NAMES["planned with little patience"] = ("place in the list of wishes",), ("out of patience at the expected clocks", "cancels", "as wished")

PATIENCE = ROOT / "schedules" / "patience"

GIVEN_UP = [
    "Given up, out of patience",
    "  client 0 gave [60, 70) up at clock 23 (call 16): it had its first piece since clock 3, and its patience is 20",
    "    it waited for client 1: an occupied node above, node 1",
    "    it gives back its units of leaf 2 and 1 notice",
]
WAITING = [
    "  client 0 [60, 70), phase 4 blocked, waits for client 1: an occupied node above, node 1; its patience is over at clock 23",
    "  client 1 [0, 256), phase 8 check, waits for client 0: notices below its node, node 1",
]
BLOCKED = [
    "       0        0  4 blocked  window [60, 70), nodes 2 and 3, current 1, taken 3,",
    "                              patience until clock 23",
]


def steps(client, clock, count=1):
    return f"step {client} {clock}\n" * count


def two_nodes(patience, end):
    """A client alone that has node 2 from clock 6 on and goes on with node 3."""
    return f"tree 3 m 1 wait 5 patience {patience} clients 1\nrequest 0 100 400\n" + steps(0, 1, 5) + steps(0, 6, 2) + end


NEVER = ("    [100, 400) can never be held: its second piece, node 3, takes the wait of 5 at least, and the patience of {} is over by then; "
         "a patience above the wait is needed")

# Texts, and what is said below the line on who gave up: what it waited for, and what it gives back.
TEXTS = {
    "a ticket": ("tree 3 m 1 wait 5 patience 20 clients 2\nrequest 1 256 512\n" + steps(1, 1, 5) + steps(1, 6, 2) + "request 0 100 400\n"
                 + steps(0, 10, 5) + steps(0, 15, 3) + steps(0, 35),
                 ["    it waited for client 1: its turn, node 3", "    it gives back node 2 and 1 notice, its ticket at node 3"]),
    "a turn": (two_nodes(6, steps(0, 6, 2) + steps(0, 12)),
               ["    nothing was in its way at that clock", "    it gives back node 2 and 1 notice, its turn at node 3"]),
    "a node": (two_nodes(7, steps(0, 6, 3) + steps(0, 9, 2) + steps(0, 12) + steps(0, 13)),
               ["    it waited for nobody: until clock 14", "    it gives back node 2 and 1 notice, node 3 and 1 notice"]),
    "a patience no longer than the wait": (two_nodes(5, steps(0, 6, 5) + steps(0, 11)), [
        "    nothing was in its way at that clock", NEVER.format(5), "    it gives back node 2 and 1 notice, node 3 and 1 notice"]),
    "a leaf": ("tree 2 m 1 wait 5 patience 20 clients 1\nrequest 0 60 70\n" + steps(0, 2, 5) + steps(0, 22),
               ["    nothing was in its way at that clock", "    it gives back its units of leaf 2 and 1 notice, its units of leaf 3"]),
}


def commands():
    """Each command, what it reads, and whether what it writes is as expected."""
    file, text = PATIENCE.with_suffix(".bin").read_bytes(), PATIENCE.with_suffix(".txt").read_bytes()
    log, until_blocked = PATIENCE.with_suffix(".log").read_bytes(), b"\n".join(text.split(b"\n")[:21])
    plain = b"".join(line.split(b"#")[0].rstrip() + b"\n" for line in text.splitlines() if line[:1] not in (b"#", b""))
    yield ["pack"], text, lambda written: written == file
    yield ["unpack"], file, lambda written: written == plain
    for data in (text, file):
        yield ["run", "--log"], data, lambda written: written == log
        yield ["run"], data, lambda written: section(written, GIVEN_UP[0]) == GIVEN_UP
        yield ["pages"], data, lambda written: b"outcome 1 released" in written
        yield ["picture"], data, lambda written: b"1 out of patience" in written
    yield ["run"], until_blocked, lambda written: "\n".join(WAITING) in written.decode()
    yield ["pages"], until_blocked, lambda written: "\n".join(BLOCKED) in written.decode()


def section(written, title):
    """The title of a part of a report, with the lines below it up to the next blank one."""
    lines = written.decode().splitlines()
    below = lines[lines.index(title):] if title in lines else []
    return below[:below.index("")] if "" in below else below


def each_command():
    for place, (arguments, data, as_expected) in enumerate(commands()):
        ran = started(*arguments, data=data)
        yield case("command on patience.txt", [place, int(b"\0" in data)], (0, 0, 1)), (ran.status, len(ran.said), int(as_expected(ran.written)))


def given_up():
    """For each thing that a client can have of its second piece, and each that it can wait for, the lines that say so."""
    for place, (text, lines) in enumerate(TEXTS.values()):
        found = section(started("run", data=text.encode()).written, GIVEN_UP[0])[2:]
        if found != lines:
            print(f"    {found} in place of {lines}")
        yield case("window given up", [place], 1), int(found == lines)


def marked():
    """The page of schedules/patience.txt has the mark of patience and that of its idle end; one that shows it as lateness is found out."""
    model = Expected(PATIENCE.with_suffix(".bin").read_bytes())
    for by in ("call", "clock"):
        page = Page(started("picture", "--by", by, PATIENCE.with_suffix(".txt")).written.decode())
        kinds, (_, unlike) = Counter(mark.kind for mark, _, _ in page.marks()), marks(page, model, by)
        for each in page.named("clients").iter("use"):
            each.set("href", each.get("href").replace("#out-of-patience", "#late"))
        answer = kinds["out-of-patience"], kinds["idle-out-of-patience"], unlike, marks(page, model, by)[1]
        yield case("marks of patience", [int(by == "clock")], (1, 1, 0, 2)), answer


LONG_HELD = "run 1 wants 64 70 from 0 for 100\nrun 0 wants 60 70 from 5 for 10"

# Wishes, the clocks at which a run is out of patience in their plan, and how many cancels it has.
PLANS = {
    "a leaf that is held for long": (f"tree 2 m 1 wait 5 patience 20 clients 2\n{LONG_HELD}", [28], 0),
    "more patience than it is held": (f"tree 2 m 1 wait 5 patience 200 clients 2\n{LONG_HELD}", [], 0),
    "a node that is held for long": ("tree 3 m 1 wait 5 patience 20 clients 2\nrun 1 wants 256 512 from 0 for 300\n"
                                     "run 0 wants 100 400 from 5 for 1", [35], 0),
    "less patience than a step a tick takes": ("tree 3 m 1 wait 5 patience 6 clients 1\nrun 0 wants 100 400 from 5 for 10", [], 0),
    "just as much patience": ("tree 3 m 1 wait 5 patience 10 clients 1\nrun 0 wants 100 400 from 5 for 10", [], 0),
    "a tick more patience": ("tree 3 m 1 wait 5 patience 11 clients 1\nrun 0 wants 100 400 from 5 for 10", [], 0),
    "runs that block each other": ("tree 3 m 1 wait 5 patience 20 clients 2\nrun 0 wants 60 70 from 0 for 10\n"
                                   "run 1 wants 0 256 from 0 for 10", [], 1),
    "without settings": (LONG_HELD.replace("for 100", "for 100000"), [], 0),
}


def planned(text):
    """A plan: the wishes not held as wished, the calls refused or late and the clients not idle; the clocks at which patience was over; and
    the cancels."""
    given, wishes, _ = read_wishes(text.encode())
    calls, left = plan(given, wishes)
    _, opened, made_calls = run("\n".join(plan_lines(given, wishes, calls, left)))
    found, wrong = held_times(opened, made_calls)
    not_idle = sum(record.phase != 0 for record in opened.records)
    return (not_as_wished(wishes, found) + len(left), wrong, not_idle), clocks_of_ends(opened), sum(call.kind == "cancel" for call, _ in calls)


def clocks_of_ends(opened):
    """The clocks of the steps by which clients of a history were out of patience, found by making its calls again."""
    again = run_by_model(Schedule(opened.settings, len(opened.clients), tuple(made.call for made in opened.history)))
    return [run.made.call.a for run in again if run.before.phase != 10 and run.after.outcome == 4 and run.made.call.kind == "step"]


def plans():
    """Where patience runs out the run asks again, and has its window in the end; a plan that need not wait for it does not."""
    for place, (text, clocks, cancels) in enumerate(PLANS.values()):
        wrong, found, cancelled = planned(text)
        if found != clocks:
            print(f"    out of patience at {found} in place of {clocks}")
        yield case("planned with little patience", [place], (1, cancels, 1)), (int(found == clocks), cancelled, int(not any(wrong)))


def hurried(seed):
    """Random wishes with a patience that is just longer than the wait, so that it often runs out."""
    first, *others = drawn_wishes(seed)
    settings = first.split()
    settings[settings.index("patience") + 1] = str(int(settings[settings.index("wait") + 1]) + 1 + seed % 4)
    return "\n".join([" ".join(settings), *others])


def random_plans():
    """Random wishes: all are held, whatever the patience, and nobody is left who is not idle."""
    asked_again = 0
    for seed in range(120):
        if not next(drawn_wishes(seed)).startswith("tree"):
            continue
        wrong, ended, _ = planned(hurried(seed))
        asked_again += len(ended)
        yield case("plan with little patience", [seed], (0, 0, 0)), wrong
    yield case("plans with little patience", [], 1), int(asked_again > 0)


SUITES = {
    "tools/schedule, each command on schedules/patience.txt": each_command,
    "tools/schedule run, windows given up, in words": given_up,
    "tools/schedule picture, the mark of patience": marked,
    "tools/schedule plan, a run that is out of patience asks again": plans,
    "tools/schedule plan, random wishes with little patience": random_plans,
}

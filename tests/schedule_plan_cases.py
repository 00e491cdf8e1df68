"""Cases for `tools/schedule plan`: each wish is held, whole, by its run, not before its clock and for its ticks; nothing is refused or late;
at the end all are idle; and what does not fit is named."""

from collections import Counter
from random import Random

from compare import NAMES, case
from model.history import holds, idle
from model.step_count import step_count
from schedule_runs import opened_for
from schedule_tool import started
from scheduling.packed import pack
from scheduling.planning import plan, plan_lines
from scheduling.text import read_text
from scheduling.wishes import read_wishes

NAMES["plan"] = ("seed",), ("wishes not held as wished", "refused or late calls", "clients not idle", "calls too many")
NAMES["steps said in a plan"] = ("seed",), ("wishes", "unlike the model's")
NAMES["plan that does not fit"] = ("seed",), ("exit status", "left out", "left out in the comments", "served before the first left out")
NAMES["planned"] = ("place in the list of wishes",), ("calls", "cancels", "as wished")
NAMES["plan's program"] = ("place in the list of texts",), ("exit status", "said as expected", "bytes written")

WISH = "a wish is written as in `run 7 wants 100 220 from 30 for 40`; got "

# Wishes, and what is said of them.
WRONG = {
    "nothing": ("", "line 1: " + WISH + "nothing"),
    "settings alone": ("tree 2 m 1 wait 5 patience 20 clients 2\n", "line 2: " + WISH + "nothing"),
    "a call": ("run 0 wants 1 2 from 3 for 4\nstep 0 1", "line 2: " + WISH + "`step 0 1`"),
    "two wrong wishes": ("run a wants 1 2 from 3 for 4\nrun 0 wants 1 from 3 for 4",
                         "line 1: run must be a number from 0 to 65535; got `a`\nline 2: " + WISH + "`run 0 wants 1 from 3 for 4`"),
    "an empty window": ("run 0 wants 2 2 from 3 for 4", "line 1: the left edge 2 is not below the right edge 2"),
    "a window past the highest tree": ("run 0 wants 2 65537 from 3 for 4", "line 1: the right edge 65537 is past the 65536 units of 6 levels"),
    "a window past the named tree": ("tree 2 m 1 wait 5 patience 20 clients 2\nrun 0 wants 2 257 from 3 for 4",
                                     "line 2: the right edge 257 is past the 256 units of 2 levels"),
    "run 64": ("run 64 wants 2 3 from 3 for 4", "line 1: there is no client 64: with 64 clients they are 0 to 63"),
    "a client past the named table": ("tree 2 m 1 wait 5 patience 20 clients 2\nrun 2 wants 1 2 from 3 for 4",
                                      "line 2: there is no client 2: with 2 clients they are 0 to 1"),
    "settings that are refused": ("tree 7 m 1 wait 5 patience 20 clients 2\nrun 1 wants 1 2 from 3 for 4",
                                  "line 1: rangelog and rangepages run trees of at most 6 levels, not 7"),
    "settings without patience": ("tree 2 m 1 wait 5 clients 2\nrun 1 wants 1 2 from 3 for 4",
                                  "line 1: the first line lacks patience: it wants the settings, as in "
                                  "`tree 2 m 1 wait 5 patience 20 clients 2`; got `tree 2 m 1 wait 5 clients 2`"),
    "a patience of 0": ("tree 2 m 1 wait 5 patience 0 clients 2\nrun 1 wants 1 2 from 3 for 4", "line 1: the patience is at least 1, not 0"),
    "a patience no longer than the wait": ("tree 3 m 1 wait 5 patience 5 clients 2\nrun 1 wants 60 70 from 3 for 4\nrun 1 wants 100 400 from 3 for 4",
                                           "line 3: [100, 400) can never be held: its second piece, node 3, takes the wait of 5 at least, "
                                           "and the patience of 5 is over by then; a patience above the wait is needed"),
    "an end past all clocks": (f"run 0 wants 1 2 from {2 ** 64 - 1} for 4",
                               f"line 1: a plan's clocks end at {2 ** 62}; this wish goes on to {2 ** 64 + 3}"),
}

# Wishes with settings, and how many cancels their plan has: one where a run that came later is in the way of one that came before.
RINGS = {
    "a claim below a notice": ("tree 3 m 1 wait 5 patience 20 clients 2\nrun 0 wants 60 70 from 0 for 10\nrun 1 wants 0 256 from 0 for 10\n", 1),
    "nobody in the way": ("tree 3 m 1 wait 5 patience 20 clients 2\nrun 0 wants 60 70 from 0 for 10\nrun 1 wants 70 80 from 0 for 10\n", 0),
    "a wait of one tick": ("tree 6 m 4 wait 1 patience 20 clients 3\nrun 0 wants 60 70 from 0 for 10\nrun 1 wants 0 65536 from 0 for 10\nrun 2 wants 0 1 from 0 for 0", 1),
}


def drawn_wishes(seed):
    """Random wishes, some with settings of their own: windows of all sizes, runs with several wishes, all clocks near each other."""
    rng = Random(f"wishes {seed}")
    levels, clients = rng.randint(2, 6), rng.randint(1, 12)
    units = 64 * 4 ** (levels - 1)
    if rng.random() < 0.5:
        wait = rng.choice([1, 2, 5, 20, 1000])
        patience = wait + rng.choice([1, 2, 10, 40, 100000])
        yield f"tree {levels} m {rng.randint(1, 4)} wait {wait} patience {patience} clients {clients}"
    for _ in range(rng.randint(1, 14)):
        size = min(units, int(2 ** rng.uniform(0, units.bit_length())))
        left = rng.randint(0, units - size)
        yield f"run {rng.randrange(clients)} wants {left} {left + size} from {rng.randint(0, 40)} for {rng.randint(0, 30)}"


def run(text):
    """A text's schedule and the model's table after each call."""
    read = read_text(text.encode()).schedule
    opened = opened_for(read)
    return read, opened, (opened.make(call) for call in read.calls)


def held_times(opened, made_calls):
    """For each window held: client, edges, and by the client's own clock from when to when it was; and how many calls were refused or late."""
    held, found, wrong = {}, Counter(), 0
    for made in made_calls:
        client, now = made.call.client, holds(opened.history, made.call.client)
        clock, record = opened.clients[client]
        late = made.phase == 0 and made.call.kind == "step" and record.outcome == 2
        wrong += made.number != 0 or late
        if now and client not in held:
            held[client] = now, clock
        elif client in held and not now:
            window, start = held.pop(client)
            found[client, *window, start, clock] += 1
    return found, wrong


def not_as_wished(wishes, found):
    """How many wishes no holding answers: the same run and edges, from its clock on, for as many ticks as wished."""
    left, wrong = Counter(found), 0
    for wish in sorted(wishes, key=lambda wish: wish.start, reverse=True):
        fits = [time for time in left.elements() if time[:3] == (wish.run, wish.left, wish.right)
                and time[3] >= wish.start and time[4] - time[3] >= wish.ticks]
        wrong += not fits
        if fits:
            left[max(fits, key=lambda time: time[3])] -= 1
    return wrong


def steps_said(settings, planned):
    """Beside how many requests that are not made again the plan says how many steps the window needs, and where this is not the model's
    number."""
    asked = [(call, told) for call, told in planned if call.kind == "request" and not told.endswith("asks, again")]
    unlike = [told for call, told in asked if not told.endswith(
        f"asks, and needs {step_count(settings.levels, settings.distance, call.a, call.b).steps} steps with nobody in its way")]
    return len(asked), len(unlike)


def plans():
    """Random wishes, planned, packed and run by the model. Where a wish is asked for the first time its steps are said."""
    for seed in range(150):
        given, wishes, _ = read_wishes("\n".join(drawn_wishes(seed)).encode())
        planned, left = plan(given, wishes)
        text = "\n".join(plan_lines(given, wishes, planned, left))
        read, opened, made_calls = run(text)
        found, wrong = held_times(opened, made_calls)
        not_idle = sum(not idle(opened.history, client) for client in range(read.clients))
        answer = not_as_wished(wishes, found) + len(left), wrong, not_idle, int(len(pack(read)) > 65536)
        yield case("plan", [seed], (0, 0, 0, 0)), answer
        yield case("steps said in a plan", [seed], (len(wishes), 0)), steps_said(given.settings, planned)


def crowded():
    """More wishes than 2,729 calls serve: the first are served, and each other one is named in the comments and on standard error."""
    for seed in range(3):
        rng = Random(f"crowd {seed}")
        wishes = [f"run {rng.randrange(20)} wants {left} {left + 40} from {10 * place} for 5"
                  for place, left in enumerate(rng.randrange(65000) for _ in range(130))]
        ran = started("plan", data="\n".join(wishes).encode())
        said = [int(line.split()[1].rstrip(":")) for line in ran.said.splitlines()[1:]]
        comments = [line for line in ran.written.decode().splitlines() if line.endswith("left out")]
        _, opened, made_calls = run(ran.written.decode())
        found, _ = held_times(opened, made_calls)
        in_order = said == list(range(131 - len(said), 131))
        expected = 1, 1, len(said), 130 - len(said)
        yield case("plan that does not fit", [seed], expected), (ran.status, int(in_order and 0 < len(said) < 130), len(comments), found.total())


def rings():
    """Where two runs block each other one gives way, and both get their windows."""
    for place, (text, cancels) in enumerate(RINGS.values()):
        given, wishes, _ = read_wishes(text.encode())
        planned, left = plan(given, wishes)
        _, opened, made_calls = run("\n".join(plan_lines(given, wishes, planned, left)))
        found, wrong = held_times(opened, made_calls)
        kinds = Counter(made.call.kind for made in opened.history)
        answer = kinds.total(), kinds["cancel"], int(not_as_wished(wishes, found) == 0 and wrong == 0)
        yield case("planned", [place], (len(planned), cancels, 1)), answer


def wrong_wishes():
    for place, (text, said) in enumerate(WRONG.values()):
        ran = started("plan", data=text.encode())
        if ran.said != f"{said}\n":
            print(f"    {ran.said!r} in place of {said!r}")
        yield case("plan's program", [place], (1, 1, 0)), (ran.status, int(ran.said == f"{said}\n"), len(ran.written))


SUITES = {
    "tools/schedule plan, each wish is held as wished": plans,
    "tools/schedule plan, wishes that do not fit are named": crowded,
    "tools/schedule plan, runs that block each other": rings,
    "tools/schedule plan, each wrong line is named": wrong_wishes,
}

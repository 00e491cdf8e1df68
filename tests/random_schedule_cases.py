"""Cases for the compiled `rangelog` and `rangepages` on random schedules, contended, refused and damaged ones too: each prints what the
model does, and everything that must occur does."""

from collections import Counter
from functools import lru_cache

from compare import NAMES, Case, case
from model.pages import Row
from model.record import Record
from programs import PRINTED, PROGRAMS, RANGELOG, RANGEPAGES, numbers
from random_schedules import DRAWN, drawn

SEEDS = 600
# How many words a line of the pages has: client and row, or client, record and count.
ROW, RECORD = 1 + len(Row._fields), 2 + len(Record._fields)

# What must be seen in the logs of the random schedules: refusals of a file, and numbers and phases of calls.
IN_LOGS = [
    *(("refused", number) for number in (0, 1, 3, 10, 11)),
    *(("number", number) for number in (0, 4, 5, 7, 8)),
    *(("phase", phase) for phase in range(11)),
]
# And in their pages: the phases of rows, one and two pieces, over-cover, the outcomes of records, and how many clients hold.
IN_PAGES = [
    *(("refused", number) for number in (0, 1, 3, 10, 11)),
    *(("row in phase", phase) for phase in range(11)),
    *(("outcome", outcome) for outcome in range(5)),
    *(("held", count) for count in range(3)),
    "two pieces", "over-cover",
]
MUST_OCCUR = {RANGELOG: IN_LOGS, RANGEPAGES: IN_PAGES}

NAMES["random schedule"] = ("program", "kind", "seed"), PRINTED
NAMES["schedule occurs"] = ("program", "place in the list of what must occur"), ("occurs",)


def refusal_seen(first):
    """The number that refuses the file, 0 for none."""
    return "refused", int(first.split()[1]) if first.startswith("refused") else 0


def seen_in_log(log):
    """Counts what a log shows: the file's refusal, and the number and phase of each call."""
    first, *lines = log.decode().splitlines()
    seen = Counter([refusal_seen(first)])
    for line in lines:
        number, phase = line.split()[3:5]
        seen.update([("number", int(number)), ("phase", int(phase))])
    return seen


def seen_in_pages(pages):
    """Counts what the pages show: the file's refusal; of each row its phase, a second piece and over-cover; of each record its outcome and
    the count beside it."""
    lines = pages.decode().splitlines()
    seen = Counter([refusal_seen(lines[0])])
    for line in lines:
        fields = line.split()
        if len(fields) == ROW:
            seen.update([("row in phase", int(fields[1])), *["two pieces"] * (fields[5] != "0"), *["over-cover"] * (fields[6] != "0")])
        elif len(fields) == RECORD:
            seen.update([("outcome", int(fields[2])), ("held", int(fields[-1]))])
    return seen


SEEN = {RANGELOG: seen_in_log, RANGEPAGES: seen_in_pages}


def run_drawn(kind, seed):
    """For each program the expected numbers and those of its run on one random file, and what it shows."""
    data, found = drawn(kind, seed), []
    for program in PROGRAMS:
        expected, ran = program.expected(data), program.run(data)
        compared = numbers(expected, ran)
        if compared[0] != compared[1]:
            program.keep(f"{kind} {seed}", data, expected, ran)
        found.append((*compared, SEEN[program](expected)))
    return found


@lru_cache(maxsize=None)
def all_drawn():
    """What came of each random file."""
    return {(kind, seed): run_drawn(kind, seed) for seed in range(SEEDS) for kind in DRAWN}


def random_schedules(place, kind):
    for (drawn_kind, seed), found in all_drawn().items():
        if drawn_kind == kind:
            wanted, printed, _ = found[place]
            yield Case("random schedule", (place, list(DRAWN).index(kind), seed), wanted), printed


def what_occurs(place):
    """In what is printed of the random schedules everything that must occur does."""
    total = sum((found[place][2] for found in all_drawn().values()), Counter())
    for at, what in enumerate(MUST_OCCUR[PROGRAMS[place]]):
        yield case("schedule occurs", [place, at], 1), int(total[what] > 0)


def suites_of(place):
    """The tests of one program."""
    name = PROGRAMS[place].name
    return {
        **{f"{name}, random schedules, {kind}": lambda kind=kind: random_schedules(place, kind) for kind in DRAWN},
        f"{name}, all that must occur does in random schedules": lambda: what_occurs(place),
    }


SUITES = {**suites_of(0), **suites_of(1)}

"""Cases for the compiled calls of a client that has no words lent: held to the model; and a step of the compiled table held to operation, what it
leaves of the word, and completion, on one word and in whole runs."""

from collections import Counter
from ctypes import c_uint64
from random import Random

import compiled_operations
from compare import NAMES, case, unlike
from compiled_operations import ByOperations, lent_client, lent_settings
from compiled_table import Table, library, nolthewyr
from histories import MOST_PATIENCE, Driver
from model import tree
from model.operations import Operation
from model.record import IDLE_CLIENT, Record, Settings
from operation_states import (
    MUST_OCCUR, MUST_OCCUR_ABOVE_H_2, OWN_CALLS, any_operations, own_calls_at, own_calls_at_bounds, own_calls_outside, steps_at, steps_at_bounds,
    steps_outside)

CLIENT = *Settings._fields, "last clock", *Record._fields
AFTER = "number", "clock", *Record._fields
NAMES["operation and completion"] = (*CLIENT, "clock", "found"), (*Operation._fields, "word left", *AFTER)
for own_call in OWN_CALLS:
    NAMES[own_call] = (*CLIENT, "left", "right"), AFTER
NAMES["applied"] = (*Operation._fields, "found"), ("word left",)
NAMES["operations occur"] = ("levels", "phase", "kind", "number"), ("occurs",)
NAMES["own calls occur"] = ("call", "number"), ("occurs",)
NAMES["step of the table"] = (*CLIENT, "clock", "found"), (*AFTER, "word left")
NAMES["words beside"] = ("levels",), ("unlike",)
NAMES["call of a run"] = ("run", "call"), ("number", "clocks unlike", "records unlike", "word of the operation unlike")
NAMES["end of a run"] = ("run",), ("words unlike",)
NAMES["runs"] = (), ("phases", "outcomes")

# Which part of what is asked at each H is asked of a table too.
PART_BY_TABLE = 4
# Where the phase stands in what is asked, and the kind and the number of the completion in the answer.
PHASE, KIND, NUMBER = len(Settings._fields) + 1, 1, len(Operation._fields) + 1
RUNS, CALLS = 24, 1000


def compared(name, questions):
    """What is asked, with what the model and the compiled calls answer."""
    library()
    for asked in questions:
        yield case(name, asked.arguments(), asked.answer()), compiled_operations.answer(asked)


def at_levels(h):
    """Steps in states of every kind; every row of the phase table occurs among them, and every refusal."""
    seen = Counter()
    for own, answer in compared("operation and completion", steps_at(h)):
        seen[own.arguments[PHASE], own.expected[KIND], own.expected[NUMBER]] += 1
        yield own, answer
    for what in MUST_OCCUR + (MUST_OCCUR_ABOVE_H_2 if h > 2 else []):
        yield case("operations occur", [h, *what], 1), int(seen[what] > 0)


def own_calls():
    """Each of the other calls, in states of every kind; every refusal of theirs occurs."""
    questions = [*(asked for h in tree.LEVELS for asked in own_calls_at(h)), *own_calls_at_bounds(), *own_calls_outside()]
    for place, (call, numbers) in enumerate(OWN_CALLS.items()):
        answered = list(compared(call, (asked for asked in questions if asked.call == call)))
        yield from answered
        seen = {own.expected[0] for own, _ in answered}
        yield from ((case("own calls occur", [place, number], 1), int(number in seen)) for number in numbers)


def by_table(words, asked, node):
    """A step of a table with one client, in whose words the operation's node, if it has one, has the word found: number, clock, record, and the word
    after it. That word is then as it was before."""
    clients, after = (nolthewyr.Client * 1)(lent_client(asked.client)), 0
    if node:
        before, words[node - 1] = words[node - 1], asked.found
    number = library().nolthewyr_step(clients, 1, words, len(words), lent_settings(asked.settings), nolthewyr.Call(a=asked.clock))
    if node:
        after, words[node - 1] = words[node - 1], before
    return number, clients[0].clock, *clients[0].record, after


def step_of_table(h):
    """In a tree full of random words: a step is what the operation leaves of one of them, and the completion; no other word is touched."""
    library()
    filled = Random(f"words at {h}").randbytes(8 * tree.node_count(h))
    words = (c_uint64 * tree.node_count(h)).from_buffer_copy(filled)
    for asked in steps_at(h, PART_BY_TABLE):
        answer = compiled_operations.of_step(asked)
        node, left, after = answer[2], answer[7], answer[8:]
        yield case("step of the table", asked.arguments(), by_table(words, asked, node)), (*after, left if node else 0)
    yield case("words beside", [h], 0), int(bytes(words) != filled)


def steps_of_table():
    for h in tree.LEVELS:
        yield from step_of_table(h)


def run_settings(run):
    """Settings of every kind, and how many clients."""
    rng = Random(f"settings of run {run}")
    return Settings(2 + run % 4, 1 + run // 4 % 4, rng.choice([1, 2, 9, 5001]), rng.choice([3, 20, MOST_PATIENCE])), rng.randint(2, 4)


def run_by_operations(run, seen):
    """A random history of a compiled table, and beside it clients who keep their own records and do it all by operations: after each call the number,
    the client and the word are the same. `seen` has the phases and outcomes that occur."""
    settings, clients = run_settings(run)
    words = [0] * tree.node_count(settings.levels)
    table, beside = Table(settings, words, [IDLE_CLIENT] * clients), ByOperations(settings, clients)
    driver = Driver(table, run)
    for place in range(CALLS):
        call = driver.next_call()
        number, node = beside.make(call)
        made = table.make(call)
        if call.client < clients:
            seen.update([("phase", made.phase), ("outcome", table.clients[call.client].record.outcome)])
        same_client = beside.unlike(table, call.client) if call.client < clients else (0, 0)
        word_unlike = node != 0 and table.words[node - 1] != beside.words[node - 1]
        yield case("call of a run", [run, place], (made.number, 0, 0, 0)), (number, *same_client, word_unlike)
    yield case("end of a run", [run], 0), unlike(list(table.words), beside.words)


def runs():
    """Runs in which every phase and outcome occurs."""
    library()
    seen = set()
    for run in range(RUNS):
        yield from run_by_operations(run, seen)
    found = tuple(sum(kind == what for kind, _ in seen) for what in ("phase", "outcome"))
    yield case("runs", [], (len(nolthewyr.Phase), len(nolthewyr.Outcome))), found


SUITES = {
    **{f"compiled operations at H {h}": lambda h=h: at_levels(h) for h in tree.LEVELS},
    "compiled operations, at bounds": lambda: compared("operation and completion", steps_at_bounds()),
    "compiled operations, settings outside their ranges": lambda: compared("operation and completion", steps_outside()),
    "compiled operations, what any operation leaves of any word": lambda: compared("applied", any_operations()),
    "compiled operations, request, release and cancel of a client without words": own_calls,
    "compiled operations, a step of the table is operation, word left and completion": steps_of_table,
    "compiled operations, whole runs beside a table": runs,
}

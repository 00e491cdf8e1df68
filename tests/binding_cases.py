"""Cases for the tables that own their memory, in Python and in Rust: openings that must be refused whatever their numbers, random
histories held to the model call by call and page by page, covers, step counts and word counts."""

import subprocess
from functools import lru_cache
from random import Random

from compare import NAMES, case, unlike
from compiled_table import library, nolthewyr
from histories import Driver
from library import ROOT, SECONDS, command, made
from linking_cases import RUST
from model import cover, pages, tree
from model.history import Opened
from model.record import IDLE_CLIENT, Settings
from model.step_count import step_count
from name_cases import CAUSE_WORDS, ENUMERATIONS, TOP, UNKNOWN

NAMES["opening of a table"] = ("language", "levels", "distance", "wait", "patience", "clients"), ("number",)
NAMES["call on a table"] = ("language", "history", "call"), ("number", "the client's clock, or of a page the run's number", "fields unlike")
NAMES["outcome of the histories"] = ("outcome",), ("occurs",)
NAMES["steps below another client's clock"] = (), ("occur",)
NAMES["asked of the levels"] = ("language", "levels", "left", "right"), ("number", "first", "second", "over-cover")
NAMES["step count by a binding"] = ("language", "levels", "distance", "left", "right"), ("number", "steps")
NAMES["word count"] = ("language", "levels"), ("words",)
NAMES["text in Rust"] = ("enumeration", "number"), ("that of the library",)

BUILT = ROOT / "target" / "tests"
EDITIONS = "2021", "2024"
# After this share of the calls the pages are looked at.
SHARE_WITH_PAGES = 0.1

# Levels, distance, wait, patience and clients, and the number: the first cause in the order of testing.
OPENINGS = {
    (2, 1, 5, 9, 1): 0, (3, 4, 2 ** 32 - 1, 1, 2): 0, (12, 1, 1, 2 ** 32 - 1, 3): 0, (2, 1, 5, 9, 32767): 0,
    (0, 1, 5, 9, 1): 1, (1, 1, 5, 9, 1): 1, (13, 1, 5, 9, 1): 1, (TOP, 1, 5, 9, 1): 1, (2 ** 32 + 2, 1, 5, 9, 1): 1,
    (2, 0, 5, 9, 1): 1, (2, 5, 5, 9, 1): 1, (2, 1, 0, 9, 1): 1, (2, 1, 2 ** 32, 9, 1): 1,
    (2, 1, 5, 0, 1): 1, (2, 1, 5, 2 ** 32, 1): 1, (2, 1, 5, TOP, 1): 1, (2, 1, 5, 0, 0): 1,
    (12, TOP, TOP, TOP, TOP): 1, (TOP, TOP, TOP, TOP, 0): 1,
    (2, 1, 5, 9, 0): 3, (2, 1, 5, 9, 32768): 3, (12, 4, 9, 1, 2 ** 32 + 1): 3, (2, 1, 5, 9, 2 ** 63): 3, (2, 1, 5, 9, TOP): 3,
}
SOME_LEVELS = 0, 1, 2, 3, 6, 12, 13, TOP
WINDOWS = (60, 70), (0, 129), (10, 300), (100, 700), (0, 1024), (0, 1025), (5, 5), (5, 4), (TOP, 0), (0, TOP), (10, 20)


@lru_cache(maxsize=None)
def rust_program(edition):
    """The program tests/table.rs, with the declarations as a crate that has the library in it."""
    built = BUILT / f"rust-{edition}"
    built.mkdir(parents=True, exist_ok=True)
    checked = "rustc", "--edition", edition, "-D", "warnings", "--out-dir", built
    linked = "-L", f"native={made('build/libnolthewyr.a').parent}", "-l", "static=nolthewyr"
    command(*checked, "--crate-type", "rlib", *linked, RUST)
    command(*checked, "--extern", f"nolthewyr={built / 'libnolthewyr.rlib'}", ROOT / "tests" / "table.rs")
    return built / "table"


def asked_of_rust(questions, edition=EDITIONS[0]):
    """The answers to lines of words, each a line."""
    text = "".join(f"{' '.join(map(str, question))}\n" for question in questions)
    ran = subprocess.run([rust_program(edition)], input=text, check=True, capture_output=True, text=True, timeout=SECONDS)
    return ran.stdout.splitlines()


def numbers_of_rust(questions, edition=EDITIONS[0]):
    return [tuple(map(int, line.split())) for line in asked_of_rust(questions, edition)]


def refused(call, *arguments, **named):
    """The number by which a call of the Python binding is refused, 0 if it is accepted."""
    try:
        call(*arguments, **named)
    except nolthewyr.Refused as error:
        assert error.text == nolthewyr.cause_text(error.number) and error.text in str(error)
        return error.number
    return 0


def python_opening(*settings, clients):
    return refused(nolthewyr.Table, nolthewyr.Settings(*settings), clients)


def openings():
    """What no table has is refused by its number, on little memory however high it is."""
    library()
    by_rust = numbers_of_rust([("open", *asked) for asked in OPENINGS])
    for (asked, expected), (by_rust,) in zip(OPENINGS.items(), by_rust, strict=True):
        *settings, clients = asked
        yield case("opening of a table", [0, *asked], expected), python_opening(*settings, clients=clients)
        yield case("opening of a table", [1, *asked], expected), by_rust


def pages_by_model(lock, client):
    """The numbers of both pages, the count and the client's record if its page is accepted, and all rows."""
    rows = [pages.Row()] * len(lock.clients)
    number = pages.planners_page(lock.settings, lock.clients, rows)
    page = pages.run_page(lock.settings, lock.clients, client)
    own = () if page.number else (page.held, *page.own)
    return number, page.number, *own, *(field for row in rows for field in row)


class History:
    """A random history made by the model: its settings and clients, its calls, and after each the number, and the clock and record of its
    client if there is one; and now and then the pages. `steps_below` counts the accepted steps below another client's clock."""

    def __init__(self, seed):
        self.rng = Random(f"binding {seed}")
        levels, waits, patiences = (2, 3, 4, 6), (1, 2, 5, 9, 5001), (1, 5, 20, 2 ** 32 - 1)
        self.settings = Settings(*map(self.rng.choice, (levels, tree.DISTANCES, waits, patiences)))
        self.clients = self.rng.choice([1, 2, 3, 6])
        self.lock = Opened(self.settings, [0] * tree.node_count(self.settings.levels), [IDLE_CLIENT] * self.clients)
        self.calls, self.answers, self.outcomes, self.steps_below = [], [], set(), 0
        driver = Driver(self.lock, seed)
        for _ in range(1000):
            self.make(driver.next_call())

    def make(self, call):
        numbers = call[1:4] if call.kind == "request" else call[1:3] if call.kind == "step" else call[1:2]
        self.calls.append((call.kind, *numbers))
        number = self.lock.make(call).number
        clock, record = self.lock.clients[call.client] if call.client < self.clients else (None, ())
        self.answers.append((number, clock, *record) if record else (number,))
        self.outcomes.update(record[1:2])
        self.steps_below += (call.kind, number) == ("step", 0) and any(client.clock > clock for client in self.lock.clients)
        if self.rng.random() < SHARE_WITH_PAGES:
            self.calls.append(("pages", call.client))
            self.answers.append(pages_by_model(self.lock, call.client))


def python_pages(table, client):
    """Both pages of a table in Python."""
    numbers = refused(table.planners_page), refused(table.run_page, client)
    page = None if numbers[1] else table.run_page(client)
    return *numbers, *((page.held, *page.own) if page else ()), *(field for row in table.planners_page() for field in row)


def python_answers(history):
    """What a table in Python gives for every call: the number, and the client's clock and record if there is one; or the pages."""
    table = nolthewyr.Table(nolthewyr.Settings(*history.settings), history.clients)
    for name, client, *others in history.calls:
        if name == "pages":
            yield python_pages(table, client)
        else:
            number = refused(getattr(table, name), client, *others)
            yield (number, table.clock(client), *table.record(client)) if client < history.clients else (number,)


def rust_answers(history, edition):
    asked = [("open", *history.settings, history.clients), *history.calls]
    return numbers_of_rust(asked, edition)[1:]


def compared(place, seed, history, answers):
    for number, (expected, found) in enumerate(zip(history.answers, answers, strict=True)):
        yield case("call on a table", [place, seed, number], (*expected[:2], 0)), (*found[:2], unlike(expected[2:], found[2:]))


def calls_of_histories():
    """Ten random histories in Python and in both editions of Rust: each call and each page gives what the model gives. Every outcome
    occurs in them, and steps below the clock of another client."""
    library()
    histories = [History(seed) for seed in range(10)]
    for seed, history in enumerate(histories):
        yield from compared(0, seed, history, list(python_answers(history)))
        for place, edition in enumerate(EDITIONS, 1):
            yield from compared(place, seed, history, rust_answers(history, edition))
    for outcome in nolthewyr.Outcome:
        yield case("outcome of the histories", [outcome], 1), int(any(outcome in history.outcomes for history in histories))
    yield case("steps below another client's clock", [], 1), int(sum(history.steps_below for history in histories) > 0)


def python_cover(*asked):
    """The number that a cover raises, 0 if none, and the pieces and the over-cover if there are any."""
    number = refused(nolthewyr.cover, *asked)
    return number, *((0, 0, 0) if number else tuple(nolthewyr.cover(*asked))[1:])


def asked_of_levels():
    """The cover of a window and the count of words, of trees that there are and of others."""
    library()
    for levels in SOME_LEVELS:
        words = tree.node_count(levels) if levels in tree.LEVELS else 0
        answers = iter(numbers_of_rust([("word_count", levels), *(("cover", levels, *window) for window in WINDOWS)]))
        yield case("word count", [0, levels], words), nolthewyr.word_count(levels)
        yield case("word count", [1, levels], words), next(answers)
        for window in WINDOWS:
            expected = tuple(cover.cover(levels, *window))
            yield case("asked of the levels", [0, levels, *window], expected), python_cover(levels, *window)
            yield case("asked of the levels", [1, levels, *window], expected), next(answers)


def python_step_count(*asked):
    """The number that a step count raises, 0 if none, and the steps if there are any."""
    number = refused(nolthewyr.step_count, *asked)
    return number, 0 if number else nolthewyr.step_count(*asked)


def step_counts():
    """How many steps a window needs, at distances that there are and at others: the number and the steps are the model's."""
    library()
    asked = [(levels, distance, *window) for levels in SOME_LEVELS for distance in (0, 1, 2, 3, 4, 5, TOP) for window in WINDOWS]
    for each, by_rust in zip(asked, numbers_of_rust([("step_count", *each) for each in asked]), strict=True):
        expected = tuple(step_count(*each))
        yield case("step count by a binding", [0, *each], expected), python_step_count(*each)
        yield case("step count by a binding", [1, *each], expected), by_rust


def texts_in_rust():
    """A phase, an outcome and a cause are written by the library's text."""
    library()
    numbers = *range(len(CAUSE_WORDS) + 1), *UNKNOWN
    for place, name in enumerate(ENUMERATIONS):
        texts = asked_of_rust([(name, number) for number in numbers])
        for number, text in zip(numbers, texts, strict=True):
            yield case("text in Rust", [place, number], 1), int(text == getattr(nolthewyr, f"{name}_text")(number))


SUITES = {
    "bindings, an opening is refused by its number on little memory": openings,
    "bindings, calls and pages of random histories in Python and in Rust": calls_of_histories,
    "bindings, covers and word counts": asked_of_levels,
    "bindings, step counts": step_counts,
    "bindings, texts in Rust are the library's": texts_in_rust,
}

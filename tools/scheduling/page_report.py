"""What `schedule pages` prints: the planners' page and the runs' pages, for reading."""

from textwrap import wrap

from model.pages import Row
from model.record import Record
from scheduling.columns import in_columns
from scheduling.clocks import last_of_all
from scheduling.durations import never_held
from scheduling.events import after_all
from scheduling.names import OUTCOMES, PHASES, listed, window
from scheduling.overlaps import overlaps_of_rows
from scheduling.waiting import patience_ends

WIDE = 100
INDENT = "  "
NO_BREAK = "\u00a0"
PLANNERS = "client", "phase", "window", "nodes", "over-cover", "steps needed"
# The columns of numbers: the client, and the steps.
NUMBERS = 0, 5
RUNS = "client", "holding", "phase", "its record"
MEANING = (
    "Over-cover: units beyond the window that its nodes lock with it.",
    "While the window is held nobody else can hold them.",
    "Steps needed: from the request until the window is held, with nobody in its way",
    "and each wait stepped once, when it is over.",
)
# The fields that are shown by their names: those behind phase, outcome, edges and pieces.
OTHERS = Record._fields[Record._fields.index("current"):]
RUNS_TITLE = "The runs' pages: each run gets its own, and no other. Fields that are 0 are left out"


def rows_and_records(lines):
    """The rows of the planners' page, and each run's record with the count beside it, from the lines that `rangepages` prints."""
    numbers = [tuple(map(int, line.split()[1:])) for line in lines]
    clients = len(lines) // 2
    return [Row(*row) for row in numbers[:clients]], [(Record(*record), count) for *record, count in numbers[clients:]]


def numbered(number, names):
    return f"{number} {names[number]}"


def units(count):
    return f"{count} unit{'s' * (count != 1)}" if count else "none"


def nodes(row):
    """The nodes of a row or of a record."""
    return listed([str(n) for n in (row.first, row.second) if n])


def planners_rows(rows):
    yield PLANNERS
    for client, row in enumerate(rows):
        phase = numbered(row.phase, PHASES)
        if row.phase == 0:
            yield str(client), phase, "", "", "", ""
        else:
            yield str(client), phase, window(row.left, row.right), nodes(row), units(row.over), str(row.steps)


def never_held_lines(settings, rows):
    """Of each window that is wanted or given back and that nobody can ever hold, why; said once, also if several clients ask for it."""
    asked = dict.fromkeys((row.left, row.right) for row in rows if row.phase)
    for edges in asked:
        yield from wrap(never_held(settings, *edges), WIDE - len(INDENT))


def fields_in_words(settings, record):
    """The fields of a record that are not 0, without its phase: its edges as a window, its pieces as nodes, the others by their names; and
    until when it has patience, where it waits in a later piece."""
    if record.outcome:
        yield f"outcome {numbered(record.outcome, OUTCOMES)}"
    if record.right:
        yield f"window {window(record.left, record.right)}"
        yield f"node{'s' * (record.second != 0)} {nodes(record)}"
    yield from (f"{name} {getattr(record, name)}" for name in OTHERS if getattr(record, name))
    if (ends := patience_ends(settings, record)) is not None:
        yield f"patience until clock {ends}"


def cut(items, wide):
    """The items, with commas between them, in lines of at most so many columns; a line ends only between two of them."""
    whole = ", ".join(item.replace(" ", NO_BREAK) for item in items)
    return [line.replace(NO_BREAK, " ") for line in wrap(whole, wide)] or [""]


def before_the_record(records):
    yield RUNS[:-1]
    for client, (record, count) in enumerate(records):
        yield str(client), str(count), numbered(record.phase, PHASES)


def runs_lines(settings, records):
    """The runs' table: a line for each, and further ones where its record says more than one has room for."""
    starts = in_columns(before_the_record(records), (0, 1))
    width = max(map(len, starts)) + len(INDENT)
    said = [[RUNS[-1]], *(fields_in_words(settings, record) for record, _ in records)]
    for start, items in zip(starts, said, strict=True):
        first, *others = cut(items, WIDE - width - len(INDENT))
        yield f"{start:{width}}{first}".rstrip()
        yield from (" " * width + line for line in others)


def when(schedule, clock):
    """After how many calls, at which clock if there is one for all, and with which settings."""
    count, (levels, distance, wait, patience) = len(schedule.calls), schedule.settings
    at_clock = "" if clock is None else f", at clock {clock}"
    return f"After {count} call{'s' * (count != 1)}{at_clock}: {levels} levels, m {distance}, wait {wait}, patience {patience}"


def refused_lines(refused, calls):
    """How many calls were refused, of which the pages themselves do not tell."""
    if refused:
        yield f"{refused} of {calls} call{'s' * (calls != 1)} {'was' if refused == 1 else 'were'} refused: `schedule run` says which"


def apart(lines):
    """Lines with an empty one before them; nothing if there are none."""
    if found := list(lines):
        yield ""
        yield from found


def page_report(schedule, lines):
    """Both pages, line by line, with the clock after the last call and the count of refused calls by the model."""
    history, (rows, records) = after_all(schedule).history, rows_and_records(lines)
    refused = sum(made.number != 0 for made in history)
    yield when(schedule, last_of_all(history))
    yield ""
    yield "The planners' page"
    planners = *in_columns(planners_rows(rows), NUMBERS), *MEANING, *never_held_lines(schedule.settings, rows)
    yield from (INDENT + line for line in planners)
    yield ""
    yield RUNS_TITLE
    yield from (INDENT + line for line in runs_lines(schedule.settings, records))
    yield from apart(overlaps_of_rows(rows))
    yield from apart(refused_lines(refused, len(schedule.calls)))

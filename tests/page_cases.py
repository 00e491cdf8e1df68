"""Cases for the compiled pages of a lent table, the planners' and a forecast run's: held to the model in the middle of histories and on
tables of any content, refused in order of testing, with the step counts of the call, and the same for a run whatever the other records and
clocks say."""

from collections import Counter
from itertools import chain
from random import Random

import lent_tables
from broken_clocks import PAGES
from broken_pages import RULES
from broken_rules import by_broken
from compare import NAMES, case, unlike
from compiled_table import Table, step_count
from history_cases import WHOLE_CASE_SETTINGS
from lent_tables import CAUSES, MOST, Lent, with_causes
from model import pages
from model.pages import Row
from model.record import IDLE, Client, Record

NAMES["planners' page"] = ("place", *Lent._fields[2:]), ("number", "rows unlike", "rows past the lent ones changed", "clients changed")
NAMES["run's page"] = ("place", *Lent._fields[2:]), ("number", "held", "fields unlike", "clients changed")
NAMES["page's refusal"] = ("page", "causes taken away", "clients"), ("number", "number by the model")
NAMES["pages of the whole case"] = ("client", "by"), ("row as written down", "record as written down", "held")
NAMES["steps in a row"] = ("place", "client", "phase"), ("steps",)
NAMES["phase of a row with steps"] = ("phase",), ("occurs",)
NAMES["page with other clients"] = ("seed",), ("pages that differ",)
NAMES["accepted pages with other clients"] = (), ("enough of them",)
NAMES["page occurs"] = ("place in the list of what must occur",), ("occurs",)
NAMES["broken page"] = ("place in the list of broken rules",), ("found out",)

# What stands in the rows before, and in rows that are not lent.
MARK = Row(*range(101, 101 + len(Row._fields)))
BEYOND = 2
# So many pages that are compared with those beside other clients must not be refused.
ENOUGH_ACCEPTED = 500


def by_model(lent):
    """The number and the rows of the planners' page, and the run's page."""
    settings, clients, rows, client = lent
    filled = [MARK] * rows
    number = pages.planners_page(settings, clients, filled)
    return number, filled, pages.run_page(settings, clients, client)


def planners_case(place, lent, table, number, wanted):
    """The rows are as the model says, those behind them are not written, and no client is."""
    before = bytes(table.clients)
    found, rows = table.planners_page([MARK] * (lent.rows + BEYOND), lent.rows)
    answer = found, unlike(rows[:lent.rows], wanted), unlike(rows[lent.rows:], [MARK] * BEYOND), int(bytes(table.clients) != before)
    return case("planners' page", [place, *lent[2:]], (number, 0, 0, 0)), answer


def run_case(place, lent, table, wanted):
    """Number, count and own record are as the model says, and no client is written."""
    before = bytes(table.clients)
    page = table.run_page(lent.client)
    answer = page.number, page.held, unlike(page.own, wanted.own), int(bytes(table.clients) != before)
    return case("run's page", [place, *lent[2:]], (wanted.number, wanted.held, 0, 0)), answer


def compared(tables):
    """Both pages of each lent table."""
    for place, lent in enumerate(tables()):
        table, (number, rows, page) = Table(lent.settings, [], lent.clients), by_model(lent)
        yield planners_case(place, lent, table, number, rows)
        yield run_case(place, lent, table, page)


def causes_taken_away():
    """Each page with the causes that are left after the first few have been taken away, with no clients and with too many: the place of the
    page, how many are away, how many clients there are, the number that must be, and the table."""
    for place, causes in enumerate(CAUSES.values()):
        for away in range(len(causes) + 1):
            for outside in (0, MOST + 1) if 3 in causes[away:] else (3,):
                yield place, away, outside, (*causes, 0)[away], with_causes(causes[away:], outside)


def refusals_in_order():
    """The first cause that is left is the number, by the model and by the compiled page; and at last both are accepted."""
    for place, away, outside, number, lent in causes_taken_away():
        table, (planners, _, run) = Table(lent.settings, [], lent.clients), by_model(lent)
        compiled = table.planners_page([MARK] * lent.rows, lent.rows)[0], table.run_page(lent.client).number
        yield case("page's refusal", [place, away, outside], (number, number)), (compiled[place], (planners, run.number)[place])


def refused_tables():
    return (lent for *_, lent in causes_taken_away())


# After the last call of the whole case client 0 is idle with outcome 1. Client 1 holds [0, 256) by the root, of which nothing is beyond it,
# with Occ as its grip, ticket 0 and no notices, claimed at 3 and taken at 10. It is the only one in phase 9. The last clocks are 9 and 10. The
# root alone needs five steps: ticket, turn, claim, wait and check.
WHOLE_CASE_CLIENTS = [Client(9, IDLE._replace(outcome=1)), Client(10, Record(phase=9, right=256, first=1, grip=3, t0=3, taken=10))]
WHOLE_CASE_ROWS = [Row(), Row(9, 0, 256, 1, 0, 0, 5)]


def whole_case():
    """The pages of the whole case, by the model and by the compiled pages."""
    table = Table(WHOLE_CASE_SETTINGS, [], WHOLE_CASE_CLIENTS)
    for client, (_, record) in enumerate(WHOLE_CASE_CLIENTS):
        model_rows, model_page = by_model(Lent(WHOLE_CASE_SETTINGS, WHOLE_CASE_CLIENTS, 2, client))[1:]
        compiled_rows, compiled_page = table.planners_page([MARK] * 2, 2)[1], table.run_page(client)
        for by, (rows, page) in enumerate(((model_rows, model_page), (compiled_rows, compiled_page))):
            answer = int(rows[client] == WHOLE_CASE_ROWS[client]), int(page[:2] == (0, record)), page.held
            yield case("pages of the whole case", [client, by], (1, 1, 1)), answer


def accepted_rows():
    """The rows that compiled pages give of clients in the middle and of tables of any content: place, client and row, with H and m."""
    for place, lent in enumerate(chain(lent_tables.in_histories(), lent_tables.of_any_content())):
        number, rows = Table(lent.settings, [], lent.clients).planners_page([MARK] * lent.rows, lent.rows)
        for client, row in enumerate(rows if number == 0 else ()):
            yield place, client, row, lent.settings[:2]


def steps_of_rows():
    """A row has the step count that the compiled call gives of its client's window, in every phase but idle, where it is 0."""
    phases = set()
    for place, client, row, levels_and_distance in accepted_rows():
        steps = step_count(*levels_and_distance, row.left, row.right)[1] if row.phase != 0 else 0
        phases.add(row.phase)
        yield case("steps in a row", [place, client, row.phase], steps), row.steps
    for phase in range(11):
        yield case("phase of a row with steps", [phase], 1), int(phase in phases)


def other_clients(rng, lent):
    """The table with any other records and clocks in place of those of the other clients, as many of them in phase 9 as before."""
    others = len(lent.clients) - 1
    held = pages.held_count(lent.clients) - (lent.clients[lent.client].record.phase == 9)
    drawn = [lent_tables.damaged(rng, lent.settings, rng.choice(lent.clients)) for _ in range(others)]
    phases = rng.sample([9] * held + [rng.choice([0, 3, 8, 10, 11]) for _ in range(others - held)], others)
    drawn = [Client(lent_tables.any_clock(rng), each.record._replace(phase=phase)) for each, phase in zip(drawn, phases)]
    return lent._replace(clients=[*drawn[:lent.client], lent.clients[lent.client], *drawn[lent.client:]])


def same_page():
    """Two tables of one size, under the same settings and last clock of a run, that agree on its record and on the number of clients in
    phase 9 give the run the same page. Of these pages many are accepted."""
    rng, accepted = Random("other clients"), 0
    tables = [lent for lent in lent_tables.of_any_content() if len(lent.clients) > 1]
    for seed, lent in enumerate(tables):
        other = other_clients(rng, lent)
        if other == lent:
            continue
        found = {Table(table.settings, [], table.clients).run_page(lent.client) for table in (lent, other)}
        accepted += all(page.number == 0 for page in found)
        yield case("page with other clients", [seed], 1), len(found)
    yield case("accepted pages with other clients", [], 1), int(accepted >= ENOUGH_ACCEPTED)


TABLES = {
    "in the middle of histories": lent_tables.in_histories,
    "of tables of any content": lent_tables.of_any_content,
    "by each client's own clock": lent_tables.by_own_clocks,
    "of the tables in tests/vectors": lent_tables.of_expected_answers,
    "with settings outside their ranges": lent_tables.settings_outside,
    "of any number of clients, rows and client": lent_tables.clients_and_rows,
    "of 32,767 clients at other places": lent_tables.of_most_varied_clients,
    "of 32,767 clients and of 32,768": lent_tables.of_most_clients,
    "with other records unreadable": lent_tables.others_unreadable,
    "refused": refused_tables,
}

MUST_OCCUR = [
    *(("planners' page", number) for number in (0, 1, 2, 3, 6)),
    *(("run's page", number) for number in (0, 1, 3, 4, 6)),
    *(("phase of a row", phase) for phase in range(11)),
    *(("outcome of a run", outcome) for outcome in range(5)),
    *(("held", held) for held in (0, 1, 2, 3, MOST)),
    "two pieces", "over-cover of one piece", "over-cover of two pieces", "accepted where another is unreadable",
]


def occurring(lent):
    """What the model's pages of a table show."""
    number, rows, page = by_model(lent)
    yield from (("planners' page", number), ("run's page", page.number))
    for row in rows if number == 0 else ():
        yield "phase of a row", row.phase
        if row.second:
            yield "two pieces"
        if row.over:
            yield "over-cover of two pieces" if row.second else "over-cover of one piece"
    if page.number == 0:
        yield from (("outcome of a run", page.own.outcome), ("held", page.held))
        if number == 6:
            yield "accepted where another is unreadable"


def what_occurs():
    """In the lent tables everything that must occur does."""
    total = Counter(what for tables in TABLES.values() for lent in tables() for what in occurring(lent))
    for place, what in enumerate(MUST_OCCUR):
        yield case("page occurs", [place], 1), int(total[what] > 0)


def broken_rules():
    """Of each broken rule some lent table shows it: compiled pages with that fault would not be the model's."""
    tables = [(lent, by_model(lent)) for tables in TABLES.values() for lent in tables()]
    for place, broken in enumerate((RULES | PAGES).values()):
        with broken():
            found_out = any(by_broken(by_model, lent) != expected for lent, expected in tables)
        yield case("broken page", [place], 1), int(found_out)


SUITES = {
    "pages, the whole case": whole_case,
    "pages, refused in order of testing": refusals_in_order,
    **{f"pages, {name}": lambda tables=tables: compared(tables) for name, tables in TABLES.items()},
    "pages, the steps in a row are those of the call": steps_of_rows,
    "pages, a run's is the same whatever the other records and clocks say": same_page,
    "pages, all that must occur does": what_occurs,
    "pages, the tables find each broken rule out": broken_rules,
}

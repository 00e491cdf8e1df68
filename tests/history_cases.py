"""The whole machine in the model: the whole case of document 01, openings, and refusals in their order. The library takes no part."""

from compare import NAMES, case
from histories import MOST_PATIENCE
from model import table
from model.history import Call, Opened
from model.record import IDLE, IDLE_CLIENT, Client, Record, Settings

NAMES["line"] = ("call",), ("number", "phase", "left", "right")
NAMES["opening"] = ("clients",), ("number", "not zeroed, or changed though refused")
NAMES["refusal"] = ("kind", "causes taken away"), ("number", "changed")

WHOLE_CASE = """\
0 request 0 0 3 10 20
1 request 1 0 1 0 256
2 step 0 0 5 10 20
3 step 1 0 2 0 256
4 step 1 0 5 0 256
5 step 1 0 7 0 256
6 step 0 0 6 10 20
7 step 0 0 9 10 20
8 step 1 0 8 0 256
9 step 1 0 8 0 256
10 release 0 0 10 10 20
11 step 0 0 10 10 20
12 step 0 0 0 0 0
13 step 1 0 9 0 256
""".splitlines()

# H 2, m 1, T 5, of which the document speaks; no window of it has two pieces.
WHOLE_CASE_SETTINGS = Settings(2, 1, 5, MOST_PATIENCE)


def whole_case(clock_of_call_7):
    """H 2, m 1, T 5, two clients; request 0 [10, 20); request 1 [0, 256); then the steps as client/clock, and the
    release."""
    steps = [(0, 1), (1, 2), (1, 2), (1, 3), (0, 4), (0, clock_of_call_7), (1, 8), (1, 8)]
    yield from (Call("request", 0, 10, 20), Call("request", 1, 0, 256))
    yield from (Call("step", client, clock) for client, clock in steps)
    yield Call("release", 0)
    yield from (Call("step", client, clock) for client, clock in [(0, 9), (0, 9), (1, 10)])


def lines(calls):
    """A line for each call, and what it says beside the call: number, phase after, left and right edge after."""
    lock = Opened(WHOLE_CASE_SETTINGS, [1] * 5, [Client(77, IDLE._replace(outcome=3))] * 2)
    for place, call in enumerate(calls):
        number = lock.make(call).number
        record = lock.clients[call.client].record
        numbers = number, record.phase, record.left, record.right
        yield f"{place} {call.kind} {call.client} {' '.join(map(str, numbers))}", numbers


def lines_of_the_whole_case():
    for place, (line, numbers) in enumerate(lines(whole_case(5))):
        written = WHOLE_CASE[place].split()
        expected = tuple(map(int, written[3:]))
        yield case("line", [place], expected), numbers if line == WHOLE_CASE[place] else (99, *numbers[1:])


def clock_6_in_call_7():
    """With clock 6 in call 7 its phase is 10."""
    numbers = [numbers for _, numbers in lines(whole_case(6))]
    yield case("line", [7], (0, 10, 10, 20)), numbers[7]


def openings():
    """32,767 clients open, 32,768 are refused 3, and so are none. Opening zeroes words, records and clocks."""
    for clients, expected in [(1, 0), (32767, 0), (0, 3), (32768, 3)]:
        lent = [1] * 5, [Client(77 + client, Record(phase=9)) for client in range(clients)]
        zeroed = [0] * 5, [IDLE_CLIENT] * clients
        left = [list(part) for part in (lent if expected else zeroed)]
        number = table.opening(WHOLE_CASE_SETTINGS, *lent)
        yield case("opening", [clients], (expected, 0)), (number, int([*lent] != left))


CAUSES = {
    "request": (1, 2, 3, 4, 6, 7, 8),
    "step": (1, 2, 3, 4, 5, 6, 9),
    "release": (1, 2, 3, 4, 6, 8),
    "cancel": (1, 2, 3, 4, 6, 8),
}

# A client in 10 with the bits of leaf 2 still to be given back.
RETURNING = Record(phase=10, outcome=1, left=0, right=64, first=2, grip=3, notices=1)


def lent_with_causes(kind, causes):
    """A call that has all of these causes: its settings, words, clients and client, and its other arguments. The other client's clock is
    far on, and no call looks at it."""
    settings = WHOLE_CASE_SETTINGS._replace(wait=0 if 1 in causes else 5)
    words = [0] * (4 if 2 in causes else 5)
    record = RETURNING._replace(ticket=32768 if 6 in causes else 0)
    clients = [] if 3 in causes else [Client(1000, record), Client(9, record)]
    client = 2 if 4 in causes else 1
    others = {"request": (0, 257 if 7 in causes else 256), "step": (8 if 5 in causes else 9,)}.get(kind, ())
    return settings, words, clients, client, *others


def refusals_in_order():
    """Each kind with all of its causes, then with the first of them taken away, and so on: the first that is left is
    the number, and nothing is changed."""
    for place, (kind, causes) in enumerate(CAUSES.items()):
        for away in range(len(causes)):
            lent = lent_with_causes(kind, causes[away:])
            before = list(lent[1]), list(lent[2])
            number = getattr(table, kind)(*lent)
            changed = before != lent[1:3]
            yield case("refusal", [place, away], (causes[away], 0)), (number, int(changed))


SUITES = {
    "document 01, the whole case": lines_of_the_whole_case,
    "document 01, the whole case with clock 6 in call 7": clock_6_in_call_7,
    "document 01, 32,767 clients open, 32,768 are refused 3": openings,
    "calls, refused in order of testing": refusals_in_order,
}

"""Word operations broken on purpose: one rule of the model's read wrongly, put in its place while a `with` lasts. What is asked of the compiled
calls must find each of them out."""

from unittest.mock import patch

from model import operations, word
from model import record as records
from model.calls import Answer
from model.operations import ADD, READ, ROWS, SWAP, adding, reading

TOP = 2 ** 64 - 1
OWN_ROWS = dict(ROWS)
operation, completed, applied, refused = operations.operation, operations.completed, operations.applied, operations.refused
step_refused, own_word, own_request, returning = operations.step_refused, operations.own_word, operations.own_request, operations.returning


def put(name, value):
    return lambda: patch.object(operations, name, value)


def posts(phase, value):
    """The operation of a phase's row is another."""
    return lambda: patch.dict(ROWS, {phase: (value, OWN_ROWS[phase][1])})


def completes(phase, value):
    """The completion of a phase's row is another."""
    return lambda: patch.dict(ROWS, {phase: (OWN_ROWS[phase][0], value)})


def each(of_kind, **fields):
    """Every operation of a kind has these fields, each a number or a function of the operation."""
    def changed(settings, client, clock):
        posted = operation(settings, client, clock)
        if (posted.number, posted.kind) != (0, of_kind):
            return posted
        return posted._replace(**{name: value(posted) if callable(value) else value for name, value in fields.items()})
    return put("operation", changed)


def delta(own, **others):
    """In place of the deltas of one operation others are added."""
    return put("adding", lambda n, **deltas: adding(n, **(others if deltas == own else deltas)))


def walked_back(kind):
    """The list is walked from its end."""
    return lambda settings, record: kind(records.walked(settings, record)[-1 - record.place])


def read_piece(settings, record):
    return reading(records.current_node(record))


def ticket_as_turn(settings, record, n):
    """A returning ticket is given back as if its turn had come."""
    return own_word(settings, record._replace(grip=max(record.grip, 2)), n)


def with_a_node(settings, client, clock):
    """A refused answer has a node."""
    posted = operation(settings, client, clock)
    return posted._replace(node=1) if posted.number != 0 else posted


OPERATIONS = {
    "a ticket's delta in TCnt": delta({"tmax": 1}, tcnt=1),
    "a ticket's delta that reaches TCnt": delta({"tmax": 1}, tmax=1, tcnt=1),
    "a notice's delta in DCnt": delta({"dmax": 1}, dcnt=1),
    "a notice's delta that reaches DCnt": delta({"dmax": 1}, dmax=1, dcnt=1),
    "a notice given back in DMax": delta({"dcnt": 1}, dmax=1),
    "a notice given back twice": delta({"dcnt": 1}, dcnt=2),
    "a claim's delta that reaches Exp": delta({"occ": 1}, occ=1, exp=1),
    "Occ given back without TCnt": delta({"occ": 1, "tcnt": 1}, occ=1),
    "Occ given back with a borrow from Exp": delta({"occ": 1, "tcnt": 1}, exp=1, occ=1, tcnt=1),
    "TCnt given back without Occ": delta({"occ": 1, "tcnt": 1}, tcnt=1),
    "a turn given back with Occ": delta({"tcnt": 1}, occ=1, tcnt=1),
    "a swap that compares nothing": each(SWAP, compared=0),
    "a swap that compares all bits": each(SWAP, compared=TOP),
    "a swap that sets nothing": each(SWAP, swapped=0),
    "a swap that sets all bits": each(SWAP, swapped=TOP),
    "a swap from what it shall become": each(SWAP, expected=lambda posted: posted.value),
    "a swap to what it was": each(SWAP, value=lambda posted: posted.expected),
    "a swap at the next leaf": each(SWAP, node=lambda posted: posted.node + 1),
    "a read where the row adds": each(ADD, kind=READ, value=0),
    "an add of nothing where the row reads": each(READ, kind=ADD),
    "a word read in 7": posts(7, read_piece),
    "a word read in 9": posts(9, read_piece),
    "a turn read at the root": posts(2, lambda settings, record: reading(1)),
    "a climb that begins with the piece": posts(3, read_piece),
    "a climb from the root down": posts(3, walked_back(reading)),
    "a blocked client that reads its parent": posts(4, lambda settings, record: reading(records.walked(settings, record)[0])),
    "notices from the last to the first": posts(6, walked_back(lambda n: adding(n, dmax=1))),
    "checked nodes from the last to the first": posts(8, walked_back(reading)),
    "a returning ticket that adds": put("own_word", ticket_as_turn),
    "a node in a refused answer": put("operation", with_a_node),
}


def then(phase, **fields):
    """After the completion of a phase's row the record has these fields, each by the record before, the clock and the word found."""
    def changed(settings, record, clock, found):
        after = OWN_ROWS[phase][1](settings, record, clock, found)
        return after._replace(**{name: value(record, clock, found) for name, value in fields.items()})
    return completes(phase, changed)


def found_otherwise(phase, otherwise):
    """The row is completed as if another word had been found."""
    def changed(settings, record, clock, found):
        return OWN_ROWS[phase][1](settings, record, clock, otherwise(record, found))
    return completes(phase, changed)


def with_tcnt(tcnt):
    """The word with another TCnt, by the record and the fields found."""
    return lambda record, found: word.pack(word.unpack(found)._replace(tcnt=tcnt(record, word.unpack(found))))


def read_on_where_blocked(settings, record, clock, found):
    """After a wait the lower ancestors aren't read again."""
    return record if word.unpack(found).occ == 1 else record._replace(phase=3)


def claimed_in_any_case(settings, record, clock, found):
    """A leaf's claim is done though a wanted bit was set."""
    found_clear = 0 if records.at_leaf(settings, record) else found
    return OWN_ROWS[5][1](settings, record, clock, found_clear)


def failed_claim_refused(settings, client, clock, found):
    """A failed claim is refused by 9."""
    answer = completed(settings, client, clock, found)
    return Answer(9, client) if (client.record.phase, answer.client.record.phase) == (5, 3) else answer


def without_patience(function):
    """One of the two calls doesn't ask for patience, and the other does."""
    def changed(*arguments):
        with patch.object(operations, "patience_run_out", lambda settings, record, clock: False):
            return function(*arguments)
    return changed


def clock_kept(settings, client, clock, found):
    """The last clock isn't set."""
    answer = completed(settings, client, clock, found)
    return answer._replace(client=answer.client._replace(clock=client.clock))


def clock_set_by_a_refusal(settings, client, clock, found):
    answer = completed(settings, client, clock, found)
    return answer._replace(client=answer.client._replace(clock=clock)) if answer.number == 9 else answer


COMPLETIONS = {
    "the ticket from TCnt": then(1, ticket=lambda record, clock, found: word.unpack(found).tcnt),
    "the new TMax as the ticket": then(1, ticket=lambda record, clock, found: (word.unpack(found).tmax + 1) % 2 ** 15),
    "a turn told by TMax": found_otherwise(2, with_tcnt(lambda record, inner: inner.tmax)),
    "a turn that is past": found_otherwise(2, with_tcnt(lambda record, inner: min(inner.tcnt, record.ticket))),
    "a climb past Occ": found_otherwise(3, lambda record, found: 0),
    "t1 noted at every ancestor": then(3, t1=lambda record, clock, found: clock),
    "t1 never noted": then(3, t1=lambda record, clock, found: record.t1),
    "blocked by Exp": found_otherwise(4, lambda record, found: found >> 1),
    "the climb gone on with after a wait": completes(4, read_on_where_blocked),
    "a failed claim taken for done": completes(5, claimed_in_any_case),
    "a failed claim refused by 9": put("completed", failed_claim_refused),
    "t0 not noted by the claim": then(5, t0=lambda record, clock, found: record.t0),
    "t0 noted by a notice": then(6, t0=lambda record, clock, found: clock),
    "t0 noted by the wait": then(7, t0=lambda record, clock, found: clock),
    "a check content with any counts": found_otherwise(8, lambda record, found: 0),
    "a returning ticket's turn told by TMax": found_otherwise(10, with_tcnt(lambda record, inner: inner.tmax)),
    "a returning ticket passed over": completes(10, lambda settings, record, clock, found: operations.given_on(settings, record)),
    "9 not tested": put("clear_bit", lambda posted, found: False),
    "9 at any swap": put("clear_bit", lambda posted, found: posted.kind == SWAP and not word.masked_swap(found, *posted[3:]).done),
    "patience not asked by operation": put("operation", without_patience(operation)),
    "patience not asked by completed": put("completed", without_patience(completed)),
    "outcome 2 when patience has run out": put("returning", lambda record, outcome: returning(record, 2 if outcome == 4 else outcome)),
    "the last clock not set": put("completed", clock_kept),
    "the last clock set by a refusal": put("completed", clock_set_by_a_refusal),
}


def below(client, clock):
    return 5 if clock < client.clock else 0


def clock_must_rise(settings, client, clock):
    """A clock that stands still is refused too."""
    return step_refused(settings, client, clock) or below(client, clock - 1)


def phase_before_window(settings, client, l, r):
    """8 tested before 7."""
    answer = own_request(settings, client, l, r)
    return answer._replace(number=8) if answer.number == 7 and client.record.phase != 0 else answer


def outcome_kept(settings, client, l, r):
    """A request leaves the outcome of the last window."""
    number, after = own_request(settings, client, l, r)
    return Answer(number, after._replace(record=after.record._replace(outcome=client.record.outcome)))


NUMBERS = {
    "5 tested after 6": put("step_refused", lambda settings, client, clock: refused(settings, client) or below(client, clock)),
    "5 tested before 1": put("step_refused", lambda settings, client, clock: below(client, clock) or refused(settings, client)),
    "5 not tested": put("step_refused", lambda settings, client, clock: refused(settings, client)),
    "a clock that stands still refused by 5": put("step_refused", clock_must_rise),
    "7 tested after 8": put("own_request", phase_before_window),
    "the outcome kept by a request": put("own_request", outcome_kept),
    "a cancel with nothing to give back in 10": put("cancelled", lambda record: returning(record, 3)),
    "a cancel from 9": put("TAKEN_BY_CANCEL", range(1, 10)),
    "no cancel from 8": put("TAKEN_BY_CANCEL", range(1, 8)),
}


def leaves(of_kind, value):
    """An operation of this kind leaves another word; one of None, every operation."""
    return put("applied", lambda posted, found: value(posted, found) if of_kind in (None, posted.kind) else applied(posted, found))


APPLIED = {
    "an add that carries": leaves(ADD, lambda posted, found: (found + posted.value) % 2 ** 64),
    "an add that leaves Exp": leaves(ADD, lambda posted, found: applied(posted._replace(value=posted.value % 2 ** 63), found)),
    "a swap whatever it found": leaves(SWAP, lambda posted, found: applied(posted._replace(compared=0), found)),
    "a swap that expects bits that it does not compare": leaves(
        SWAP, lambda posted, found: applied(posted, found) if found & posted.compared == posted.expected else found),
    "a swap that sets bits beside its mask": leaves(SWAP, lambda posted, found: applied(posted, found) | posted.value),
    "a kind of which the lowest bits are looked at": leaves(None, lambda posted, found: applied(posted._replace(kind=posted.kind % 4), found)),
    "a refused operation not applied": leaves(None, lambda posted, found: applied(posted, found) if posted.number == 0 else found),
}

RULES = OPERATIONS | COMPLETIONS | NUMBERS | APPLIED


def broken(rule):
    """The rule is broken while this lasts."""
    return RULES[rule]()

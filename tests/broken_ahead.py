"""Operations posted together broken on purpose: one rule of the model's read wrongly, put in its place while a `with` lasts. What is asked of the
compiled calls must find each of them out."""

from unittest.mock import patch

from model import ahead, operations
from model import record as records
from model.ahead import Ahead, CompletedAll
from model.operations import READ, adding, claim, give_back, notify, read_walked, reading
from model.step import begun

OWN_ROWS = dict(ahead.ROWS)
together, operations_ahead, completed_all = ahead.together, ahead.operations_ahead, ahead.completed_all
all_refused, rest_of_return = ahead.all_refused, ahead.rest_of_return


def put(name, value):
    return lambda: patch.object(ahead, name, value)


def posts(phase, value):
    """The list of a phase is another."""
    return lambda: patch.dict(ahead.ROWS, {phase: value})


def first(count, phase):
    """Of the list of a phase the first so many alone."""
    return posts(phase, lambda settings, record: OWN_ROWS[phase](settings, record)[:count])


def from_the_start(phase):
    """The list that is walked is posted from its start."""
    return posts(phase, lambda settings, record: OWN_ROWS[phase](settings, record._replace(place=0)))


def with_more(phase, more):
    """Behind the list of a phase stands more."""
    return posts(phase, lambda settings, record: [*OWN_ROWS[phase](settings, record), *more(settings, record)])


def its_claim(settings, record):
    return [claim(settings, record)]


def claim_of_the_root(settings, record):
    return its_claim(settings, record) if records.at_root(record) else []


def notices_of_a_leaf(settings, record):
    nodes = records.notify_list(settings.distance, records.current_node(record))
    return [adding(n, dmax=1) for n in nodes] if records.at_leaf(settings, record) else []


def its_check(settings, record):
    return [] if records.at_leaf(settings, record) else [reading(records.current_node(record))]


def next_climb(settings, record):
    """What the next piece posts first, if there is one: a leaf's climb, or an inner node's ticket."""
    after = None if records.is_last(record) else begun(settings, record, record.current + 1)
    return OWN_ROWS[after.phase](settings, after)[:1] if after else []


def next_climb_of_a_leaf(settings, record):
    return next_climb(settings, record) if records.at_leaf(settings, record) else []


def on_from_its_place(settings, record):
    """After a wait the lower ancestors are not read again."""
    return ahead.from_its_place(settings, record, read_walked)


def turn_given_back(settings, record):
    """Behind the read of a waiting ticket it is given back."""
    posted = OWN_ROWS[10](settings, record)
    return [adding(posted[-1].node, tcnt=1)] if posted[-1].kind == READ else []


def piece_by_piece(settings, record):
    """A list has one piece's return alone."""
    return ahead.from_its_place(settings, record, give_back)


def pieces_turned_round(settings, record):
    """Later pieces are given back first."""
    own = ahead.from_its_place(settings, record, give_back)
    return [*rest_of_return(settings, record)[len(own):], *own]


LISTS = {
    "no turn behind a ticket": first(1, 1), "no climb behind a ticket": first(2, 1), "no climb behind a turn": first(1, 2),
    "one ancestor at a time": first(1, 3), "a climb from its first ancestor": from_the_start(3), "a claim behind a climb": with_more(3, its_claim),
    "a claim behind a ticket": with_more(1, its_claim), "the root's claim behind its turn": with_more(2, claim_of_the_root),
    "no climb behind a blocking ancestor": first(1, 4), "a climb that goes on from the blocking ancestor": posts(4, on_from_its_place),
    "a climb that begins behind the blocking ancestor": posts(4, lambda settings, record: OWN_ROWS[4](settings, record)[:1] * 2),
    "no notices behind an inner claim": first(1, 5), "one notice behind an inner claim": first(2, 5),
    "notices behind a leaf's claim": with_more(5, notices_of_a_leaf), "a check behind a claim": with_more(5, its_check),
    "one notice at a time": first(1, 6), "notices from the first": from_the_start(6), "a check behind the last notice": with_more(6, its_check),
    "the next piece's climb behind a leaf's last notice": with_more(6, next_climb_of_a_leaf), "a check in the wait": with_more(7, its_check),
    "one checked node at a time": first(1, 8), "a check from its first node": from_the_start(8),
    "the next piece's climb behind a check": with_more(8, next_climb), "a claim read ahead while held": with_more(9, its_claim),
    "a ticket in an idle client": with_more(0, lambda settings, record: [adding(1, tmax=1)]), "one word given back at a time": first(1, 10),
    "the return of one piece": put("rest_of_return", piece_by_piece), "later pieces given back first": put("rest_of_return", pieces_turned_round),
    "a return from the piece's own word": from_the_start(10), "a waiting ticket given back behind its read": with_more(10, turn_given_back),
    "a waiting ticket not read": put("up_to_the_waiting_ticket", lambda posted: [each for each in posted if each.kind != READ]),
    "notices in place of what a claim is": put("claim", lambda settings, record: notify(settings, record._replace(phase=6, place=0))),
    "patience not asked": put("patience_run_out", lambda settings, record, clock: False),
    "patience asked in a return": put(
        "patience_run_out", lambda settings, record, clock: record.current > 0 and clock - record.taken >= settings.patience),
}


def room(of):
    """So many are put into the list as another room says."""
    return put("operations_ahead", lambda settings, client, clock, own: operations_ahead(settings, client, clock, of(own)))


def all_or_nothing(settings, client, clock, own):
    """A list that has not room for all gets none."""
    return Ahead(0) if len(operations_ahead(settings, client, clock, own + 1).operations) > own else operations_ahead(settings, client, clock, own)


def refused_with_a_list(settings, client, clock, own):
    """A number, and what the client would post by its last clock."""
    found = operations_ahead(settings, client, clock, own)
    return found._replace(operations=operations_ahead(settings, client, client.clock, own).operations) if found.number == 5 else found


def without(number):
    """One cause is not tested, and those behind it are."""
    def changed(settings, client, clock):
        by_clock = max(clock, client.clock) if number == 5 else clock
        found = operations.step_refused(settings, client, by_clock)
        return 0 if found == number else found
    return put("step_refused", changed)


def clock_after_record(settings, client, clock):
    """5 tested after 6."""
    return operations.refused(settings, client) or operations.step_refused(settings, client, clock)


CALLS = {
    "one past the room": room(lambda own: own + 1), "one short of the room": room(lambda own: max(own - 1, 0)),
    "all into any room": room(lambda own: 1000), "nothing where the room is short": put("operations_ahead", all_or_nothing),
    "operations in a refused list": put("operations_ahead", refused_with_a_list),
    "1 not tested": without(1), "5 not tested": without(5), "6 not tested": without(6), "5 tested after 6": put("step_refused", clock_after_record),
}


def answers(change):
    """What completing answers is changed: by the answer, and by what it was asked."""
    def changed(settings, client, clock, found):
        return change(completed_all(settings, client, clock, found), settings, client, clock, found)
    return put("completed_all", changed)


def counting(change):
    """How many count is another, and the client is that after so many."""
    def changed(answer, settings, client, clock, found):
        return completed_all(settings, client, clock, found[:change(answer.counted, len(found))]) if answer.number == 0 else answer
    return answers(changed)


def count_alone(change):
    return answers(lambda answer, settings, client, clock, found: answer._replace(counted=change(answer.counted, len(found))))


def refused_anywhere(answer, settings, client, clock, found):
    """9 told of a later word too."""
    posted = together(settings, client, clock) if answer.number == 0 else []
    refused = answer.counted < min(len(posted), len(found)) and operations.clear_bit(posted[answer.counted], found[answer.counted])
    return CompletedAll(9, 0, client) if refused else answer


def without_a_word(settings, client, clock, posted, found):
    """No word found is taken for 0."""
    return all_refused(settings, client, clock, posted, found or [0])


def any_completed(settings, client, clock, found):
    """A refused word is passed over."""
    number, after = operations.completed(settings, client, clock, found)
    given = operations.given_on(settings, client.record) if number == 9 else after.record
    return operations.Answer(0, after._replace(clock=clock, record=given))


def step_of_an_empty_list(answer, settings, client, clock, found):
    """Where nothing is posted the step that touches no word is completed."""
    nothing_posted = answer.number == 0 and not together(settings, client, clock)
    return CompletedAll(0, 0, operations.completed(settings, client, clock, 0).client) if nothing_posted else answer


def past_the_list(answer, settings, client, clock, found):
    """Words behind the list are completed as what the client posts by then."""
    after, counted = answer.client, answer.counted
    if answer.number != 0 or counted < len(together(settings, client, clock)):
        return answer
    for word_found in found[counted:]:
        after, counted = operations.completed(settings, after, clock, word_found).client, counted + 1
    return CompletedAll(0, counted, after)


def client_if(kept):
    """The client is as it was where this is so."""
    return answers(lambda answer, settings, client, clock, found: answer._replace(
        client=client if kept(answer.counted, len(found)) else answer.client))


COUNTED = {
    "dropped reads counted": put("is_next", lambda settings, client, clock, posted: True),
    "what is posted told by its kind": put(
        "is_next", lambda settings, client, clock, posted: operations.operation(settings, client, clock).kind == posted.kind),
    "the first that is dropped counted": count_alone(lambda counted, words: min(counted + 1, words)),
    "all words counted": count_alone(lambda counted, words: words), "words behind the list completed": answers(past_the_list),
    "the last that counts dropped": counting(lambda counted, words: max(counted - 1, 0)),
    "one counts at most": counting(lambda counted, words: min(counted, 1)),
    "nothing counts unless all words do": counting(lambda counted, words: counted if counted == words else 0),
    "the client as it was where some are dropped": client_if(lambda counted, words: counted < words),
    "the last clock not set": answers(lambda answer, settings, client, clock, found: answer._replace(client=answer.client._replace(clock=client.clock))),
    "the last clock set where nothing counts": answers(lambda answer, settings, client, clock, found: answer._replace(
        client=answer.client._replace(clock=clock)) if answer.number == 0 else answer),
    "a step completed where nothing is posted": answers(step_of_an_empty_list),
    "9 not told": put("all_refused", lambda settings, client, clock, posted, found: ahead.step_refused(settings, client, clock)),
    "9 told of a later word": answers(refused_anywhere), "9 told without a word": put("all_refused", without_a_word),
    "a refused word passed over": put("completed", any_completed),
}

RULES = LISTS | CALLS | COUNTED


def broken(rule):
    """The rule is broken while this lasts."""
    return RULES[rule]()

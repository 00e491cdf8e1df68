"""Request 2.2 broken on purpose: one of its sentences read wrongly, put in the place of the model's own while a `with` lasts. States, lent
tables and files must find each of them out."""

from unittest.mock import patch

from model import calls, readable, step
from model import record as records
from model.step import Step

begun, cancel, by_value, returning, run_out, step_of = (
    step.begun, calls.cancel, calls.step, step.returning, step.patience_run_out, step.step)


def own_work(settings, record, words, clock):
    """The phase's own work, whatever patience there is."""
    return step.ROWS[record.phase](settings, record, words, clock)


def after_the_work(settings, record, words, clock):
    """Patience tested after the phase's work."""
    done = own_work(settings, record, words, clock)
    if done.number == 0 and run_out(settings, done.record, clock):
        return done._replace(record=returning(done.record, 4))
    return done


def word_written(settings, record, words, clock):
    """The phase's word is written all the same."""
    done = step_of(settings, record, words, clock)
    return Step(0, done.record, *own_work(settings, record, words, clock)[2:]) if run_out(settings, record, clock) else done


def from_the_first_step(settings, record, words, clock):
    """Measured from the second piece's first step. Its beginning itself is no other time: it begins in the step that takes the first."""
    n = records.current_node(record) if record.current > 0 else 0
    first_step = n and (record.phase, record.place, record.grip, record.t1) == (step.first_phase(settings, n), 0, 0, 0)
    return own_work(settings, record._replace(taken=clock), words, clock) if first_step else step_of(settings, record, words, clock)


def since(noted):
    """Measured from another noted time."""
    return lambda settings, record, clock: asked(record) and clock - getattr(record, noted) >= settings.patience


def asked(record, phases=step.WITH_PATIENCE):
    return record.phase in phases and record.current > 0


def in_phases(phases):
    """Asked in these phases."""
    return lambda settings, record, clock: asked(record, phases) and clock - record.taken >= settings.patience


def at_a_first_piece_too(settings, record, clock):
    return record.phase in step.WITH_PATIENCE and clock - record.taken >= settings.patience


def given_up_with(**fields):
    """The record whose patience has run out has these fields, each a number or a function of the record before."""
    def changed(settings, record, words, clock):
        done = step_of(settings, record, words, clock)
        if not run_out(settings, record, clock):
            return done
        values = {name: value(record) if callable(value) else value for name, value in fields.items()}
        return done._replace(record=done.record._replace(**values))
    return changed


def last_clock_kept(settings, words, client, clock):
    """A step whose patience has run out doesn't set the last clock."""
    answer = by_value(settings, words, client, clock)
    if answer.number == 0 and run_out(settings, client.record, clock):
        return answer._replace(client=answer.client._replace(clock=client.clock))
    return answer


def cancel_when_run_out(settings, words, client):
    """A cancel at a last clock that has run out gives outcome 4."""
    answer = cancel(settings, words, client)
    if answer.number == 0 and run_out(settings, client.record, client.clock):
        return answer._replace(client=client._replace(record=returning(client.record, 4)))
    return answer


def without_its_time(call):
    """A call after which the record has no third time."""
    def changed(*arguments):
        answer = call(*arguments)
        if answer.number != 0:
            return answer
        return answer._replace(client=answer.client._replace(record=answer.client.record._replace(taken=0)))
    return changed


def in_step(value):
    return lambda: patch.object(calls, "row_of_the_phase", value)


def of_step(name, value):
    return lambda: patch.object(step, name, value)


def of_calls(name, value):
    return lambda: patch.object(calls, name, value)


def tested(value):
    return of_step("patience_run_out", value)


STEPS = {
    "patience tested after the phase's work": in_step(after_the_work),
    "the phase's word written when patience has run out": in_step(word_written),
    "patience never tested": in_step(own_work),
    "patience tested with > for >=": tested(lambda s, r, clock: asked(r) and clock - r.taken > s.patience),
    "patience of P - 1": tested(lambda s, r, clock: asked(r) and clock - r.taken >= s.patience - 1),
    "patience of T": tested(lambda s, r, clock: asked(r) and clock - r.taken >= s.wait),
    "the end of patience in 64 bits": tested(lambda s, r, clock: asked(r) and clock >= (r.taken + s.patience) % 2 ** 64),
    "the time since the first piece in 32 bits": tested(lambda s, r, clock: asked(r) and (clock - r.taken) % 2 ** 32 >= s.patience),
    "patience from the second piece's first step": in_step(from_the_first_step),
    "patience from t1": tested(since("t1")),
    "patience from t0": tested(since("t0")),
    "patience asked at a first piece too": tested(at_a_first_piece_too),
    **{f"patience not asked in {phase}": tested(in_phases(set(step.WITH_PATIENCE) - {phase})) for phase in step.WITH_PATIENCE},
    "patience asked in 9": tested(in_phases(range(1, 10))),
    "patience asked in 10": tested(in_phases({*step.WITH_PATIENCE, 10})),
    "outcome 2 in place of 4": in_step(given_up_with(outcome=2)),
    "outcome 3 in place of 4": in_step(given_up_with(outcome=3)),
    "the place not zeroed when patience has run out": in_step(given_up_with(place=lambda record: record.place)),
    "the current piece returned first": in_step(given_up_with(giving=lambda record: record.current)),
    "the current piece not returned": in_step(given_up_with(grip=0, notices=0)),
    "the third time zeroed when patience has run out": in_step(given_up_with(taken=0)),
    "the last clock not set when patience has run out": of_calls("step", last_clock_kept),
    "a cancel with outcome 4": of_calls("cancel", cancel_when_run_out),
    "the third time zeroed by a cancel": of_calls("cancel", without_its_time(cancel)),
    "the third time zeroed by a release": of_calls("release", without_its_time(calls.release)),
    "no third time": of_step("noted_if_first", lambda record, clock: record),
    "a third time that a window of one piece lacks": of_step(
        "noted_if_first", lambda record, clock: record if records.is_last(record) else record._replace(taken=clock)),
    "the third time noted again when the second piece is taken": of_step(
        "noted_if_first", lambda record, clock: record._replace(taken=clock)),
    "the third time zeroed when the second piece begins": of_step("begun", lambda s, r, i: begun(s, r, i)._replace(taken=0)),
}


def without(clause):
    """All clauses but one."""
    return tuple(other for other in readable.UNLESS_IDLE if other is not clause)


def clauses(*more, left_out=None):
    """The clauses with others added, or one left out."""
    return lambda: patch.object(readable, "UNLESS_IDLE", (*without(left_out), *more))


def for_every_record(in_place_of, clause):
    changed = tuple(clause if other is in_place_of else other for other in readable.FOR_EVERY_RECORD)
    return lambda: patch.object(readable, "FOR_EVERY_RECORD", changed)


def taken_save(saved):
    """A nonzero time at a first piece, save in other places."""
    return clauses(lambda s, r, last: r.taken != 0 and r.current == 0 and not saved(r), left_out=readable.taken_at_a_first_piece)


UNREADABLE = {
    "outcome 4 unreadable": for_every_record(readable.outcome_over_4, lambda s, r, last: r.outcome > 3),
    "outcome 5 readable": for_every_record(readable.outcome_over_4, lambda s, r, last: r.outcome > 5),
    "idle with a third time readable": for_every_record(
        readable.idle_with_a_nonzero_field, lambda s, r, last: r.phase == 0 and any(r._replace(outcome=0, taken=0))),
    "4 at a first piece readable": clauses(left_out=readable.outcome_4_at_a_first_piece),
    "4 at a second piece unreadable": clauses(lambda s, r, last: r.phase == 10 and r.outcome == 4),
    "4 in 1 to 9 of a second piece readable": clauses(
        lambda s, r, last: r.outcome not in (0, 4) or r.outcome == 4 and r.current == 0 if r.phase != 10 else r.outcome == 0,
        left_out=readable.outcome_not_of_the_phase),
    "a time at a first piece readable": clauses(left_out=readable.taken_at_a_first_piece),
    "a time at a first piece in 9 unreadable": taken_save(lambda r: r.phase == 10 and r.outcome == 1),
    "a time at a first piece in 10 with outcome 1 unreadable": taken_save(lambda r: r.phase == 9),
    "a time at a first piece in 10 readable": taken_save(lambda r: r.phase in (9, 10)),
    "no time at a second piece unreadable": clauses(lambda s, r, last: r.taken == 0 and r.current > 0),
    "no time in 9 unreadable": clauses(lambda s, r, last: r.taken == 0 and r.phase == 9),
    "a third time after the last clock readable": clauses(
        lambda s, r, last: r.t1 > last or r.t0 > last, left_out=readable.noted_time_after_the_last_clock),
    "a third time at the last clock unreadable": clauses(lambda s, r, last: r.taken == last != 0),
}

SETTINGS = {
    "P not tested": of_calls("PATIENCES", range(2 ** 64)),
    "P 0 taken": of_calls("PATIENCES", range(2 ** 32)),
    "P 2^32 taken": of_calls("PATIENCES", range(1, 2 ** 32 + 1)),
    "P 2^32 - 1 refused": of_calls("PATIENCES", range(1, 2 ** 32 - 1)),
}

RULES = STEPS | UNREADABLE | SETTINGS

# What no history from an opening shows, in which a step finds patience over before a cancel can; nor a header, whose P has 32 bits.
ONLY_LENT = {
    "outcome 5 readable", "idle with a third time readable", "4 at a first piece readable", "4 in 1 to 9 of a second piece readable",
    "a time at a first piece readable", "a time at a first piece in 10 readable", "a third time after the last clock readable",
    "P 2^32 taken", "a cancel with outcome 4",
}
# What a log does not show, which has neither outcomes nor noted times.
NOT_IN_LOGS = {
    "outcome 2 in place of 4", "outcome 3 in place of 4", "the third time zeroed when patience has run out",
    "a third time that a window of one piece lacks", "the third time noted again when the second piece is taken",
    "the third time zeroed by a cancel", "the third time zeroed by a release",
}
# What the pages do not show, which have records and no last clock.
NOT_IN_PAGES = {"the last clock not set when patience has run out"}
IN_LOGS = [rule for rule in RULES if rule not in ONLY_LENT | NOT_IN_LOGS]
IN_PAGES = [rule for rule in RULES if rule not in ONLY_LENT | NOT_IN_PAGES]


def broken(rule):
    """The rule is broken while this lasts."""
    return RULES[rule]()

"""A step as one operation, in the model: the step of the phase table equals operation, what it leaves of the word found, and completion. And what
is asked of the compiled calls finds each broken rule of theirs out. The library takes no part."""

from collections import Counter
from itertools import islice

from broken_operations import RULES, broken
from broken_rules import by_broken
from compare import NAMES, Case, case
from model import calls, operations, tree
from model.record import Record, Settings
from operation_states import (
    MUST_OCCUR, MUST_OCCUR_ABOVE_H_2, any_operations, own_calls_at, own_calls_at_bounds, own_calls_outside, steps_at, steps_at_bounds, steps_outside)

STEPPED = (*Settings._fields, "last clock", *Record._fields, "clock", "found")
NAMES["step of the model"] = STEPPED, ("number", "clock", *Record._fields, "node", "word")
NAMES["step as an operation in"] = ("phase", "kind", "number"), ("occurs",)
NAMES["broken operation"] = ("place in the list of broken rules",), ("found out",)

# Which part of what is asked of the compiled calls is asked of the model's own step, and which of the broken rules.
PART_BY_STEP, PART_BROKEN = 4, 8


class OneWord:
    """A tree in which a step may touch the word of one node, and no other."""

    def __init__(self, levels, node, found):
        self.levels, self.node, self.word = levels, node, found

    def __len__(self):
        return tree.node_count(self.levels)

    def __getitem__(self, place):
        self.seen(place)
        return self.word

    def __setitem__(self, place, value):
        self.seen(place)
        self.word = value

    def seen(self, place):
        if place + 1 != self.node:
            raise LookupError(f"the word of node {place + 1} is touched, and not that of {self.node}")


def by_table(asked, node):
    """The model's own step on a tree in which the operation's node has the word found: number, client, node and its word."""
    words = OneWord(asked.settings.levels, node, asked.found)
    number, after = calls.step(asked.settings, words, asked.client, asked.clock)
    return number, after.clock, *after.record, node, words.word


def by_operation(asked):
    posted = operations.operation(asked.settings, asked.client, asked.clock)
    number, after = operations.completed(*asked)
    return posted, (number, after.clock, *after.record, posted.node, operations.applied(posted, asked.found))


def compared(questions, seen):
    """Each step that is asked, and in `seen` what occurs."""
    for asked in questions:
        posted, answer = by_operation(asked)
        seen[asked.client.record.phase, posted.kind, answer[0]] += 1
        yield Case("step of the model", asked.arguments(), by_table(asked, posted.node)), answer


def equal_to_a_step():
    """For every state the two agree, and every row of the phase table occurs."""
    seen = Counter()
    for h in tree.LEVELS:
        yield from compared(steps_at(h, PART_BY_STEP), seen)
    yield from compared(islice(steps_at_bounds(), None, None, PART_BY_STEP), seen)
    yield from compared(steps_outside(), seen)
    for what in MUST_OCCUR + MUST_OCCUR_ABOVE_H_2:
        yield case("step as an operation in", what, 1), int(seen[what] > 0)


def broken_rules():
    """Of each broken rule some question shows it: compiled code with that fault would not answer as the model."""
    at_bounds = steps_at_bounds(), steps_outside(), own_calls_at_bounds(), own_calls_outside(), any_operations()
    questions = [asked for h in (2, 3, 6) for asked in (*steps_at(h, PART_BROKEN), *own_calls_at(h, PART_BROKEN))]
    questions += [asked for each in at_bounds for asked in islice(each, None, None, PART_BROKEN)]
    answered = [(asked, asked.answer()) for asked in questions]
    for place, rule in enumerate(RULES):
        with broken(rule):
            found_out = any(by_broken(asked.answer) != answer for asked, answer in answered)
        if not found_out:
            print(f"    not found out: {rule}")
        yield case("broken operation", [place], 1), int(found_out)


SUITES = {
    "operations, a step of the model is operation, what it leaves of the word, and completion": equal_to_a_step,
    "operations, what is asked finds each broken rule out": broken_rules,
}

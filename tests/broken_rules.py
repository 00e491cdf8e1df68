"""Rules broken on purpose, each put in the place of the model's own while a `with` lasts: histories must then break a
claim."""

from contextlib import contextmanager
from unittest.mock import patch

from histories import MOST_PATIENCE, Shape
from model import record as records
from model import step, tree, word
from model.record import Settings
from passed_claims import IN_A_CLIMB, WHILE_BLOCKED

notify_levels = tree.notify_levels
wanted = word.wanted


def by_broken(function, *arguments):
    """What a function gives while a rule is broken, under which it may also fall: nothing then."""
    try:
        return function(*arguments)
    except (ArithmeticError, LookupError, MemoryError, RecursionError, TypeError, ValueError):
        return None


def late_with_greater(settings, record, clock):
    """Late tested with > for >=."""
    return clock - record.t1 > settings.wait


def waited_one_less(settings, record, clock):
    """A wait of T - 1."""
    return clock - record.t0 >= settings.wait - 1


def no_notice_at_m(m, d):
    """No notice at level m from below it, save from the next level."""
    return [level for level in notify_levels(m, d) if level != m or d <= m + 1]


def nothing_notified(settings, record, i):
    """No notice is given back."""
    return []


def only_itself(h, m, n):
    """A node checks itself and none of its descendants."""
    return [n]


def held_after_any_piece(settings, record, clock):
    """A taken first piece gives 9."""
    return step.to(record, 9)


def blocked_goes_on(settings, record, words, clock):
    """After a wait t1 is noted, and the lower ancestors aren't read again."""
    ancestor = records.walked(settings, record)[record.place]
    if step.inner_at(words, ancestor).occ == 1:
        return step.read(record)
    return step.read(record._replace(phase=3, t1=clock))


def climb_notes_at_the_root(settings, record, words, clock):
    """t1 is noted at the root and not at the parent."""
    done = step.climb(settings, record, words, clock)
    return done._replace(record=done.record._replace(t1=clock if done.record.phase == 5 else record.t1))


def bits_without_comparing(settings, record, words, clock):
    """A claimed leaf's wanted bits are set, whatever they were."""
    n = records.current_node(record)
    bits = step.wanted(settings, record, n)
    return step.Step(0, step.to(record, 6, grip=3), n, step.word_at(words, n) | bits)


def first_bit_left_out(edge, l, r):
    """A leaf's first wanted bit is left out."""
    bits = wanted(edge, l, r)
    return bits & (bits - 1)


def last_bit_left_out(edge, l, r):
    """A leaf's last wanted bit is left out."""
    bits = wanted(edge, l, r)
    return bits & ~(1 << bits.bit_length() >> 1)


def whole_leaf_by_a_shift_of_64(edge, l, r):
    """As many ones by (1 << count) - 1, where a processor takes a shift by 64 for one by 0: no bit of a whole leaf."""
    bits = wanted(edge, l, r)
    return bits if bits.bit_count() < 64 else 0


RULES = {
    "late tested with > for >=": lambda: patch.object(step, "late", late_with_greater),
    "a wait of T - 1": lambda: patch.object(step, "waited", waited_one_less),
    "no notice at level m": lambda: patch.object(tree, "notify_levels", no_notice_at_m),
    "a node checks only itself": lambda: patch.object(tree, "check_list", only_itself),
    "a cancelled ticket passed on out of turn": lambda: patch.dict(step.GIVE_INNER, {1: step.give_turn}),
    "a climb that goes on after a wait": lambda: patch.dict(step.ROWS, {4: blocked_goes_on}),
    "t1 noted at the root": lambda: patch.dict(step.ROWS, {3: climb_notes_at_the_root}),
    "bits taken without comparing": lambda: patch.object(step, "claim_leaf", bits_without_comparing),
    "a leaf's first wanted bit left out": lambda: patch.object(word, "wanted", first_bit_left_out),
    "a leaf's last wanted bit left out": lambda: patch.object(word, "wanted", last_bit_left_out),
    "a whole leaf by a shift of 64": lambda: patch.object(word, "wanted", whole_leaf_by_a_shift_of_64),
    "a taken first piece gives 9": lambda: patch.object(step, "taken", held_after_any_piece),
    "no notice is given back": lambda: patch.object(records, "notified", nothing_notified),
}

# Settings and clients with which a few ten histories find each out.
SHAPES = {
    "late tested with > for >=": Shape(Settings(2, 1, 2, MOST_PATIENCE), 5, 600),
    "a wait of T - 1": Shape(Settings(2, 1, 1, MOST_PATIENCE), 2, 600),
    "no notice at level m": Shape(Settings(3, 1, 2, MOST_PATIENCE), 3, 600),
    "a node checks only itself": Shape(Settings(3, 2, 2, MOST_PATIENCE), 3, 600),
    "a cancelled ticket passed on out of turn": Shape(Settings(2, 1, 2, MOST_PATIENCE), 5, 600),
    "bits taken without comparing": Shape(Settings(2, 1, 9, MOST_PATIENCE), 3, 600),
    "a leaf's first wanted bit left out": Shape(Settings(2, 1, 9, MOST_PATIENCE), 3, 600),
    "a leaf's last wanted bit left out": Shape(Settings(2, 1, 9, MOST_PATIENCE), 3, 600),
    "a whole leaf by a shift of 64": Shape(Settings(2, 1, 9, MOST_PATIENCE), 3, 600),
    "a taken first piece gives 9": Shape(Settings(2, 1, 2, MOST_PATIENCE), 3, 600),
    "no notice is given back": Shape(Settings(2, 1, 2, MOST_PATIENCE), 3, 600),
}

# And those for which a history is made, since random ones hardly come to what finds them out.
HISTORIES = {"a climb that goes on after a wait": WHILE_BLOCKED, "t1 noted at the root": IN_A_CLIMB}


def forget():
    """The lists and bits kept from one call to the next were made by the rule before."""
    for kept in (records.notify_list, records.check_list, records.wanted_bits):
        kept.cache_clear()


@contextmanager
def broken(rule):
    """The rule is broken while this lasts."""
    forget()
    try:
        with RULES[rule]():
            yield
    finally:
        forget()

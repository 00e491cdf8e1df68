"""How long pieces take a client that is alone in the tree and makes a step a tick: what a wait and a patience must exceed; and how many steps
a window needs."""

from functools import lru_cache

from model import tree
from model.record import cover_of
from model.step_count import step_count
from scheduling.names import window


def longest_claim(levels, distance):
    """The most ticks that a piece takes from its first climb to its last notice: at level d there are d - 2 further climbs, the claim
    and the notices. With a wait of no more ticks the claim is late, and with one more it is not: 10,001 and 9,999 make a difference of a tick
    only from a wait of 5,001 on, and no claim takes as long."""
    return max(level - 1 + len(tree.notify_levels(distance, level)) for level in range(2, levels + 1))


def later_piece(levels, distance, wait, level):
    """The ticks that a later piece at a level takes from the one before it, with a wait in which its claim is not late. A leaf has d - 1
    climbs, the claim and the notices. An inner node has a ticket, a turn, d - 1 climbs and the claim, then the wait, during which it
    leaves its notices, and the checks."""
    if level == levels:
        return level + len(tree.notify_levels(distance, level))
    return 2 + level + wait + len(tree.check_list(levels, distance, tree.first_node(level)))


def longest_later_piece(levels, distance, wait):
    """The most ticks that any later piece takes, which is never the root. With a patience of no more ticks it is not taken in time."""
    return max(later_piece(levels, distance, wait, level) for level in range(2, levels + 1))


@lru_cache(maxsize=None)
def steps_needed(settings, left, right):
    """How many steps a window of the tree needs from its request until it is held, with nobody in its way and each wait stepped
    once, when it is over."""
    return step_count(settings.levels, settings.distance, left, right).steps


def never_held(settings, left, right):
    """Why nobody can ever hold a window of the tree; nothing if it can be held. A later piece that is an inner node waits T after its claim,
    and its patience has run since the piece before it."""
    node = cover_of(settings.levels, left, right)[1]
    if node == 0 or tree.is_leaf(settings.levels, node) or settings.patience > settings.wait:
        return ""
    return (f"{window(left, right)} can never be held: its second piece, node {node}, takes the wait of {settings.wait} at least, "
            f"and the patience of {settings.patience} is over by then; a patience above the wait is needed")

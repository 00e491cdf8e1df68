"""Request 2.4 broken on purpose: step counts that are worked out from the pieces, with one thing wrong in them. Windows, runs and rows must
find each of them out."""

from model import tree
from model.step_count import Answer
from window_classes import pieces


def in_phases(h, m, n):
    """How many steps a piece makes in each phase."""
    of_any = {3: len(tree.ancestors(n)), 5: 1, 6: len(tree.notify_list(m, n))}
    return of_any if tree.is_leaf(h, n) else {1: 1, 2: 1, **of_any, 7: 1, 8: len(tree.check_list(h, m, n))}


def added_up(steps_of, pieces_of=pieces):
    """A count that adds up what each piece makes in its phases."""
    return lambda h, m, l, r: sum(sum(steps_of(h, m, n).values()) for n in pieces_of(h, l, r))


# With nothing wrong in it.
right = added_up(in_phases)


def without(phase):
    """No step in a phase."""
    return added_up(lambda h, m, n: in_phases(h, m, n) | {phase: 0})


def other(phase, steps):
    """Another number of steps in a phase, where a piece goes through it."""
    def changed(h, m, n):
        found = in_phases(h, m, n)
        return found | {phase: steps(h, m, n)} if phase in found else found
    return added_up(changed)


def leaf_with(phases):
    """Leaves with a step in phases that they do not go through."""
    return added_up(lambda h, m, n: dict.fromkeys(phases, 1) | in_phases(h, m, n))


def levels_with(count):
    """How many nodes so many levels have, the topmost of which has one."""
    return sum(4 ** place for place in range(count))


def stepped_notices(h, m, n):
    """No notice at level m, save where the levels that are m apart come to it."""
    return len(range(tree.level(n) - 1, m - 1, -m))


def notices_with_m_twice(h, m, n):
    """The notice at level m counted beside those that are m apart."""
    return stepped_notices(h, m, n) + 1 if tree.level(n) > m else len(tree.notify_list(m, n))


def lowest_node(h, l, r):
    """The lowest node that has the window, in place of its pieces."""
    first = tree.leaf_of(h, l)
    return [next(n for n in [first, *tree.ancestors(first)] if r <= tree.node_range(h, n)[1])]


COUNTS = {
    "one step over for the step that ends a piece": added_up(lambda h, m, n: in_phases(h, m, n) | {9: 1}),
    "a step for the request": lambda h, m, l, r: right(h, m, l, r) + 1,
    "the step to held forgotten": lambda h, m, l, r: right(h, m, l, r) - 1,
    "the ticket's step forgotten": without(1),
    "the turn's step forgotten": without(2),
    "the climb forgotten": without(3),
    "the climb without its root": other(3, lambda h, m, n: max(len(tree.ancestors(n)) - 1, 0)),
    "the claim's step forgotten": without(5),
    "the notices forgotten": without(6),
    "the root with a notice": other(6, lambda h, m, n: max(len(tree.notify_list(m, n)), 1)),
    "a notice at every ancestor": other(6, lambda h, m, n: len(tree.ancestors(n))),
    "no notice at level m": other(6, stepped_notices),
    "the notice at level m twice": other(6, notices_with_m_twice),
    "no step for the wait": without(7),
    "the check forgotten": without(8),
    "a node that does not check itself": other(8, lambda h, m, n: len(tree.check_list(h, m, n)) - 1),
    "a node that checks itself alone": other(8, lambda h, m, n: 1),
    "a check list of m levels where the tree ends earlier": other(8, lambda h, m, n: levels_with(m)),
    "a check list with leaves": other(8, lambda h, m, n: levels_with(min(m, h + 1 - tree.level(n)))),
    "a check list of a level more": other(8, lambda h, m, n: len(tree.check_list(h, m + 1, n))),
    "ticket and turn for a leaf": leaf_with((1, 2)),
    "a wait for a leaf": leaf_with((7,)),
    "the second piece not counted": added_up(in_phases, lambda h, l, r: pieces(h, l, r)[:1]),
    "the first of two pieces not counted": added_up(in_phases, lambda h, l, r: pieces(h, l, r)[-1:]),
    "the first piece counted for both": added_up(in_phases, lambda h, l, r: pieces(h, l, r)[:1] * len(pieces(h, l, r))),
    "the lowest node in place of the pieces": added_up(in_phases, lowest_node),
    "a distance of 1": lambda h, m, l, r: right(h, 1, l, r),
    "a count of 7 bits": lambda h, m, l, r: right(h, m, l, r) % 128,
}


def answered(h, m, l, r, levels=tree.LEVELS, distances=tree.DISTANCES, outside=lambda h, l, r: l >= r or r > tree.units(h)):
    """An answer that tests 1, then 7, by these ranges and this window outside the tree."""
    if h not in levels or m not in distances:
        return Answer(1)
    return Answer(7) if outside(h, l, r) else Answer(0, right(h, m, l, r))


def seven_first(h, m, l, r):
    """7 tested before 1, as far as it can be without a tree."""
    return Answer(7) if l >= r or h in tree.LEVELS and r > tree.units(h) else answered(h, m, l, r)


def steps_though_refused(h, m, l, r):
    """A refused answer with the steps of the whole tree."""
    answer = answered(h, m, l, r)
    return answer._replace(steps=right(h, m, 0, tree.units(h))) if answer.number == 7 else answer


def with_tests(**tests):
    return lambda *asked: answered(*asked, **tests)


ANSWERS = {
    "7 tested before 1": seven_first,
    "m not tested": with_tests(distances=range(2 ** 64)),
    "m 0 taken": with_tests(distances=range(5)),
    "m 5 taken": with_tests(distances=range(1, 6)),
    "m 4 refused": with_tests(distances=range(1, 4)),
    "H 1 taken": with_tests(levels=range(1, 13)),
    "H 13 taken": with_tests(levels=range(2, 14)),
    "H 12 refused": with_tests(levels=range(2, 12)),
    "a window that ends at N refused": with_tests(outside=lambda h, l, r: l >= r or r >= tree.units(h)),
    "a window that ends at N + 1 taken": with_tests(outside=lambda h, l, r: l >= r or r > tree.units(h) + 1),
    "an empty window taken": with_tests(outside=lambda h, l, r: l > r or r > tree.units(h)),
    "edges in 32 bits": lambda h, m, l, r: answered(h, m, l % 2 ** 32, r % 2 ** 32),
    "steps though refused by 7": steps_though_refused,
}

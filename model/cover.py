"""The pieces of a window, by trying every cover."""

from functools import lru_cache
from itertools import combinations
from typing import NamedTuple

from model import tree

FEW_NODES = (2, 3)


class Answer(NamedTuple):
    """Cover as a call: the number (0 accepted), the pieces (0 for none) and the total over-cover."""

    number: int
    first: int = 0
    second: int = 0
    over: int = 0


def part(h, n, l, r):
    """How many units of the window the node holds."""
    left, right = tree.node_range(h, n)
    return max(0, min(right, r) - max(left, l))


def over_cover(h, n, l, r):
    """For an inner node its size less its part of the window; for a leaf 0, since only the wanted bits are taken."""
    if tree.is_leaf(h, n):
        return 0
    return tree.size(h, n) - part(h, n, l, r)


def disjoint(h, pieces):
    """No two of the ranges, given in rising order of left edge, share a unit."""
    ranges = [tree.node_range(h, n) for n in pieces]
    return all(before[1] <= after[0] for before, after in zip(ranges, ranges[1:]))


def is_cover(h, pieces, l, r):
    """One or two nodes with disjoint ranges, each meeting the window, together holding all of it.

    The ranges being disjoint, no unit is counted twice when the parts are added up.
    """
    parts = [part(h, n, l, r) for n in pieces]
    return all(parts) and sum(parts) == r - l and disjoint(h, pieces)


def by_left_edge(h, pieces):
    """Pieces are taken in rising order of left edge."""
    return tuple(sorted(pieces, key=lambda n: tree.node_range(h, n)))


def rank(h, pieces, l, r):
    """Least total over-cover wins, then fewer nodes, then the lower number of the first node, then of the second."""
    return sum(over_cover(h, n, l, r) for n in pieces), len(pieces), *pieces


@lru_cache(maxsize=None)
def all_nodes_and_pairs(h):
    """Every single node and every pair of nodes of the tree."""
    single = [(n,) for n in tree.nodes(h)]
    return single + [by_left_edge(h, pair) for pair in combinations(tree.nodes(h), 2)]


def nodes_and_pairs_at_edges(h, l, r):
    """The nodes that hold l, and each of these before each that holds r - 1.

    No other can be a cover. Of two nodes with disjoint ranges the first lies wholly below the second. If the second held l,
    the first would lie below the window and not meet it; if the first held r - 1, the second would lie above the window.
    So the first holds l and the second holds r - 1, and a single node holds both.
    """
    at_left, at_right = tree.leaf_of(h, l), tree.leaf_of(h, r - 1)
    firsts = [at_left] + tree.ancestors(at_left)
    seconds = [at_right] + tree.ancestors(at_right)
    return [(n,) for n in firsts] + [(a, b) for a in firsts for b in seconds]


def least(h, candidates, l, r):
    """The cover of least rank among the candidates."""
    covers = [pieces for pieces in candidates if is_cover(h, pieces, l, r)]
    return min(covers, key=lambda pieces: rank(h, pieces, l, r))


def pieces(h, l, r):
    """The cover of the window [l, r): every node and pair is tried at H 2 and 3, where they are few."""
    candidates = all_nodes_and_pairs(h) if h in FEW_NODES else nodes_and_pairs_at_edges(h, l, r)
    return least(h, candidates, l, r)


def cover(h, l, r):
    """It tests 1 for H, then 7. A refused call returns its number only."""
    if h not in tree.LEVELS:
        return Answer(1)
    if l >= r or r > tree.units(h):
        return Answer(7)
    chosen = pieces(h, l, r)
    over = sum(over_cover(h, n, l, r) for n in chosen)
    first, second = (*chosen, 0)[:2]
    return Answer(0, first, second, over)

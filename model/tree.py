"""The tree: node numbers, levels, ranges, ancestors, and the two lists of nodes that are walked."""

from functools import lru_cache

LEAF_UNITS = 64
LEVELS = range(2, 13)
DISTANCES = range(1, 5)


def units(h):
    """N = 64 * 4^(H-1)."""
    return LEAF_UNITS * 4 ** (h - 1)


def node_count(h):
    """The count of words, exactly (4^H - 1) / 3."""
    return (4 ** h - 1) // 3


def nodes(h):
    """Every node, numbered from 1 in level order."""
    return range(1, node_count(h) + 1)


def parent(n):
    """The parent of n is (n + 2) / 4 rounded down."""
    return (n + 2) // 4


def child(n, i):
    """Child i (0..3) of n is 4n - 2 + i."""
    return 4 * n - 2 + i


def children(n):
    return [child(n, i) for i in range(4)]


def ancestors(n):
    """Parent first, root last."""
    found = []
    while n != 1:
        n = parent(n)
        found.append(n)
    return found


@lru_cache(maxsize=None)
def level(n):
    """Level 1 is the root: one more than the steps that climb to it."""
    return len(ancestors(n)) + 1


def ancestor(n, d):
    """The node at level d on the way from n to the root, n itself at its own level."""
    [found] = [a for a in [n] + ancestors(n) if level(a) == d]
    return found


def is_leaf(h, n):
    """Level H is the leaves."""
    return level(n) == h


@lru_cache(maxsize=None)
def first_node(d):
    """The first number of level d: down the first child from the root."""
    return 1 if d == 1 else child(first_node(d - 1), 0)


@lru_cache(maxsize=None)
def last_node(d):
    """The last number of level d: down the last child from the root."""
    return 1 if d == 1 else child(last_node(d - 1), 3)


def leaf_of(h, unit):
    """The leaf that stands for a unit: each leaf stands for 64, in level order."""
    return first_node(h) + unit // LEAF_UNITS


@lru_cache(maxsize=None)
def node_range(h, n):
    """The units [left, right) of a node: a leaf stands for 64 units, an inner node for its children's units.

    Only the two outer children are followed, for otherwise the root at H 12 would visit 5.6 million nodes. The tests show
    for small H that the children between adjoin.
    """
    if is_leaf(h, n):
        left = LEAF_UNITS * (n - first_node(h))
        return left, left + LEAF_UNITS
    return node_range(h, child(n, 0))[0], node_range(h, child(n, 3))[1]


def size(h, n):
    left, right = node_range(h, n)
    return right - left


def notify_levels(m, d):
    """The levels that a node at level d notifies, lowest node first, which is the greatest level first."""
    if d == 1:
        return []
    if d <= m:
        return [d - 1]
    stepped = {k for k in range(d - 1, 0, -m) if k >= m}
    return sorted(stepped | {m}, reverse=True)


def notify_list(m, n):
    """The ancestors that n notifies, in the order of notifying."""
    return [ancestor(n, d) for d in notify_levels(m, level(n))]


def check_list(h, m, n):
    """A node at level L checks itself and its inner descendants at levels L..L+m-1, by rising number.

    Only inner nodes check: a leaf is taken without phase 8.
    """
    found, row = [n], [n]
    for _ in range(m - 1):
        row = [c for a in row for c in children(a) if level(c) < h]
        if not row:
            break
        found += row
    return sorted(found)

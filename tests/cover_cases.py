"""Cases for covers: every window of the smallest tree, and windows of every size at every H."""

from random import Random

from compare import case
from model import tree
from model.cover import cover

TOP = 2 ** 64 - 1
WINDOWS = 2500


def answered(windows):
    """A case for each (h, l, r), refused or not, as the model answers it."""
    for h, l, r in windows:
        yield case("cover", [h, l, r], tuple(cover(h, l, r)))


def every_window_of_h_2():
    """Edges 0 to 258, in either order: the windows of the tree, those with l >= r, and those that pass N = 256."""
    edges = range(259)
    return answered((2, l, r) for l in edges for r in edges)


def beside_leaf_edges(h):
    """Every edge of a leaf, and the edges one and two units beside it."""
    near = {64 * k + beside for k in range(4 ** (h - 1) + 1) for beside in (-2, -1, 0, 1, 2)}
    return sorted(edge for edge in near if 0 <= edge <= tree.units(h))


def windows_between_leaf_edges():
    edges = beside_leaf_edges(3)
    return answered((3, l, r) for l in edges for r in edges if l < r)


def beside_a_multiple(h, rng):
    """An edge at or beside a multiple of 64 * 4^k within the tree, each k as likely."""
    step = 64 * 4 ** rng.randrange(h)
    edge = step * rng.randint(0, tree.units(h) // step) + rng.choice([0, 0, 0, -1, 1, -2, 2])
    return min(max(edge, 0), tree.units(h))


def of_any_size(h, rng):
    """A window anywhere whose length is at or beside a power of 2, or random below one."""
    length = 2 ** rng.randint(0, (tree.units(h) - 1).bit_length())
    length = rng.choice([length, length + 1, max(length - 1, 1), rng.randint(1, length)])
    l = rng.randrange(tree.units(h))
    return l, min(l + length, tree.units(h))


def across_a_multiple(h, rng):
    """A window that begins shortly before a multiple of 64 * 4^k and ends shortly after it: two pieces at all depths."""
    step = 64 * 4 ** rng.randrange(h - 1)
    edge = step * rng.randrange(1, tree.units(h) // step)
    before, after = (2 ** rng.randint(0, 2 * h + 4) - rng.choice([0, 1]) for _ in range(2))
    return max(edge - before, 0), min(edge + after, tree.units(h))


def windows_of(h, rng):
    """Windows of the tree by four kinds; a kind may by chance give l >= r, which is refused."""
    for _ in range(WINDOWS // 4):
        yield rng.randrange(tree.units(h)), rng.randint(1, tree.units(h))
        yield tuple(sorted((beside_a_multiple(h, rng), beside_a_multiple(h, rng))))
        yield of_any_size(h, rng)
        yield across_a_multiple(h, rng)


def windows_at(h):
    return answered((h, l, r) for l, r in windows_of(h, Random(f"windows at {h}")))


def far_edges(n):
    """Edges inside the tree, at its end, and beyond it up to the greatest 64-bit number."""
    return [0, 1, 63, 64, n - 64, n - 1, n, n + 1, n + 64, 2 * n, 2 ** 32, 2 ** 63 - 1, 2 ** 63, TOP - 1, TOP]


def refused_windows():
    """l = r, l > r and r > N at every H; edges up to the greatest 64-bit number; among them some that are accepted."""
    for h in tree.LEVELS:
        edges = far_edges(tree.units(h))
        yield from answered((h, l, r) for l in edges for r in edges)


def refused_h():
    """H outside 2..12, tested before the window."""
    for h in (0, 1, 13, 14, 16, 32, 33, 63, 64, 65, 128, 2 ** 32 + 2, 2 ** 63, 2 ** 63 + 2, TOP - 1, TOP):
        edges = far_edges(2 ** 28)
        yield from answered((h, l, r) for l in edges for r in edges)


SUITES = {
    "cover at H 2, every window": every_window_of_h_2,
    "cover at H 3, every window with edges at and beside leaf edges": windows_between_leaf_edges,
    **{f"cover at H {h}": lambda h=h: windows_at(h) for h in tree.LEVELS if h > 2},
    "cover refused by 7": refused_windows,
    "cover refused by 1": refused_h,
}

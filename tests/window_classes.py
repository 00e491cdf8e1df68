"""Windows by class: how many pieces a window has, and at which levels they are. Windows of each class that there can be in a tree are made from
the nodes' ranges alone, without asking for a cover."""

from model import tree
from model.record import cover_of

# What a window has of the ranges of its pieces: all, so little that the pieces are just these, or any part between.
WHOLE, LEAST, ANY = "whole", "least", "any"
# Where in the tree: as far to the left or to the right as there is such a window, or anywhere.
FIRST, LAST, ANYWHERE = "first", "last", "anywhere"


def classes(h):
    """The levels of one piece: the root, an inner node, a leaf. And of two: a cut lies between two neighbouring children of the lowest node that
    has the window, so both parts are below the root; and each part has its own lowest node, at any level from there down."""
    one = [(d,) for d in range(1, h + 1)]
    return one + [(d, other) for d in range(2, h + 1) for other in range(2, h + 1)]


def pieces(h, l, r):
    """The pieces of a window, one or two."""
    return [n for n in cover_of(h, l, r) if n != 0]


def class_of(h, l, r):
    return tuple(tree.level(n) for n in pieces(h, l, r))


def size(h, d):
    """How many units a node at level d has."""
    return tree.size(h, tree.first_node(d))


def drawn_place(rng, places, where):
    """The first of these places, the last, or any."""
    return rng.choice({FIRST: places[:1], LAST: places[-1:], ANYWHERE: places}[where])


def part_of_leaf(rng, left, part):
    """One unit at least."""
    if part == WHOLE:
        return left, left + tree.LEAF_UNITS
    first = rng.randrange(tree.LEAF_UNITS)
    return left + first, left + (first + 1 if part == LEAST else rng.randint(first + 1, tree.LEAF_UNITS))


def part_of_inner(rng, left, child, part):
    """Units of three neighbouring children at least: of fewer, each could be a piece by itself, or have it below. `child` is how many units
    each of them has."""
    if part == WHOLE:
        return left, left + 4 * child
    first = rng.randrange(2)
    if part == LEAST:
        return left + child * (first + 1) - 1, left + child * (first + 2) + 1
    last = rng.randint(first + 2, 3)
    return left + child * first + rng.randrange(child), left + child * last + rng.randint(1, child)


def of_one_piece(rng, h, d, where, part):
    """A window with one piece, at level d."""
    left = size(h, d) * drawn_place(rng, range(4 ** (d - 1)), where)
    return part_of_leaf(rng, left, part) if d == h else part_of_inner(rng, left, size(h, d) // 4, part)


def reach(rng, h, d, part):
    """How many units a window has of a piece at level d that begins or ends at the cut. They go past its child there, which would be the piece
    itself otherwise."""
    least = 1 if d == h else size(h, d) // 4 + 1
    return rng.choice({WHOLE: [size(h, d)], LEAST: [least], ANY: range(least, size(h, d) + 1)}[part])


def of_two_pieces(rng, h, levels, where, part):
    """A window with two pieces, at these levels, on both sides of a cut."""
    between = max(size(h, d) for d in levels)
    cut = between * drawn_place(rng, range(1, tree.units(h) // between), where)
    before, after = (reach(rng, h, d, part) for d in levels)
    return cut - before, cut + after


def windows_of(rng, h, levels):
    """A few windows of a class: at both ends of the tree, and two anywhere."""
    drawn = ((FIRST, WHOLE), (LAST, WHOLE), (ANYWHERE, LEAST), (ANYWHERE, ANY))
    if len(levels) == 1:
        return [of_one_piece(rng, h, *levels, where, part) for where, part in drawn]
    return [of_two_pieces(rng, h, levels, where, part) for where, part in drawn]

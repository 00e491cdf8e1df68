"""Windows for the clients of a random history: few, most of which overlap, so that clients meet."""

from model import tree


def window_near(rng, h, centre):
    """A window of any size that has the unit `centre`, or ends or begins beside it."""
    n = tree.units(h)
    left, right = (rng.randrange(4 ** rng.randint(0, h + 2)) for _ in range(2))
    left, right = centre - left, centre + 1 + right
    left, right = rng.choice([(left, right), (left, right), (left, centre), (centre, right)])
    left, right = max(left, 0), min(right, n)
    return (left, right) if left < right else (centre, centre + 1)


def windows_at_edges(rng, h):
    """A few windows about one unit and about the edge of a leaf or of a greater node."""
    edge = 64 * 4 ** rng.randrange(h - 1)
    centres = [rng.randrange(tree.units(h)), edge * rng.randrange(1, tree.units(h) // edge)]
    return [window_near(rng, h, rng.choice(centres)) for _ in range(rng.randint(3, 7))]


def nested_windows(rng, h):
    """A part of a leaf, and the whole ranges of up to three of the nodes above it."""
    leaf = rng.randint(tree.first_node(h), tree.last_node(h))
    left = tree.node_range(h, leaf)[0] + rng.randrange(32)
    above = [tree.node_range(h, n) for n in tree.ancestors(leaf)]
    return [(left, left + rng.randint(1, 32)), *rng.sample(above, min(rng.randint(1, 3), h - 1))]


def contended_windows(rng, h):
    return rng.choice([windows_at_edges, nested_windows])(rng, h)

"""Cases for the tree: numbers, ranges, ancestors, and the notify and check lists."""

from random import Random

from compare import case
from model import tree

SMALL = range(2, 6)
LARGE = range(6, 13)


def sampled(h, count, rng):
    """Nodes of every level: the first, the last, those beside them, and random ones."""
    chosen = set()
    for d in range(1, h + 1):
        first, last = tree.first_node(d), tree.last_node(d)
        chosen |= {first, min(first + 1, last), max(last - 1, first), last}
        chosen |= {rng.randint(first, last) for _ in range(count)}
    return sorted(chosen)


def each_node(count, seed):
    """(h, n): every node for H 2 to 5, and `count` random ones of each level for H 6 to 12."""
    rng = Random(seed)
    for h in SMALL:
        yield from ((h, n) for n in tree.nodes(h))
    for h in LARGE:
        yield from ((h, n) for n in sampled(h, count, rng))


def levels():
    for _, n in each_node(60, "levels"):
        yield case("level", [n], tree.level(n))
    for d in range(1, 13):
        yield case("first_node", [d], tree.first_node(d))
        yield case("last_node", [d], tree.last_node(d))


def parents_and_children():
    for h, n in each_node(60, "parents"):
        if n != 1:
            yield case("parent", [n], tree.parent(n))
        if not tree.is_leaf(h, n):
            for i in range(4):
                yield case("child", [n, i], tree.child(n, i))


def ranges():
    for h, n in each_node(60, "ranges"):
        yield case("left_edge", [h, n], tree.node_range(h, n)[0])
        yield case("size", [h, n], tree.size(h, n))


def ancestors():
    """By level, the node itself at its own level, and by place, the parent first."""
    for _, n in each_node(40, "ancestors"):
        for d in range(1, tree.level(n) + 1):
            yield case("ancestor", [n, d], tree.ancestor(n, d))
        for i, a in enumerate(tree.ancestors(n)):
            yield case("ancestor_at", [n, i], a)


def listed(count_call, node_call, arguments, nodes):
    """The list's length and the node at each of its places."""
    yield case(count_call, arguments, len(nodes))
    for i, n in enumerate(nodes):
        yield case(node_call, [*arguments, i], n)


def notify_lists():
    for _, n in each_node(40, "notify lists"):
        for m in tree.DISTANCES:
            yield from listed("notify_count", "notify_node", [m, n], tree.notify_list(m, n))


def check_lists():
    """Of inner nodes only: no step of the document has a leaf check."""
    for h, n in each_node(8, "check lists"):
        if not tree.is_leaf(h, n):
            for m in tree.DISTANCES:
                yield from listed("check_count", "check_node", [h, m, n], tree.check_list(h, m, n))


SUITES = {
    "tree, level and first and last node of a level": levels,
    "tree, parent and children": parents_and_children,
    "tree, left edge and size": ranges,
    "tree, ancestors by level and by place": ancestors,
    "tree, notify lists": notify_lists,
    "tree, check lists": check_lists,
}

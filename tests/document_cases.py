"""The edges of document 01, with the answers that it writes down."""

from compare import case
from model import tree, word

COVERS = {
    "[60, 70) leaves 6 and 7": (60, 70, 0, 6, 7, 0),
    "[0, 129) node 2, over-cover 127": (0, 129, 0, 2, 0, 127),
    "[0, 256) node 2, 0": (0, 256, 0, 2, 0, 0),
    "[10, 300) nodes 2 and 10, 10": (10, 300, 0, 2, 10, 10),
    "[100, 700) root, 424": (100, 700, 0, 1, 0, 424),
    "[500, 520) leaves 13 and 14": (500, 520, 0, 13, 14, 0),
    "[0, 1024) root": (0, 1024, 0, 1, 0, 0),
    "[0, 1025) refused 7": (0, 1025, 7, 0, 0, 0),
    "[5, 5) refused 7": (5, 5, 7, 0, 0, 0),
}


def cover_edge(name):
    l, r, *answer = COVERS[name]
    yield case("cover", [3, l, r], tuple(answer))


def notified_levels(d, m, levels):
    """At every level the first and the last node, and one between, notify the ancestors at these levels in this order."""
    for n in (tree.first_node(d), (tree.first_node(d) + tree.last_node(d)) // 2, tree.last_node(d)):
        yield case("notify_count", [m, n], len(levels))
        for i, at in enumerate(levels):
            yield case("notify_node", [m, n, i], tree.ancestor(n, at))


def parent_of_21():
    yield case("parent", [21], 5)


def tcnt_at_its_wrap():
    """TCnt 32,767 with Occ 1, returned: both 0, TMax untouched."""
    for tmax in (0, 1, 32766, 32767):
        before = word.Inner(exp=0, occ=1, tcnt=32767, tmax=tmax, dcnt=7, dmax=9)
        after = word.Inner(exp=0, occ=0, tcnt=0, tmax=tmax, dcnt=7, dmax=9)
        yield case("return_occ", [word.pack(before)], word.pack(after))


SUITES = {
    **{f"document 01, cover {name}": lambda name=name: cover_edge(name) for name in COVERS},
    "document 01, notices d 12, m 4: levels 11, 7, 4": lambda: notified_levels(12, 4, [11, 7, 4]),
    "document 01, notices d 6, m 3: levels 5, 3": lambda: notified_levels(6, 3, [5, 3]),
    "document 01, parent of 21 is 5": parent_of_21,
    "document 01, TCnt 32,767 with Occ 1, returned": tcnt_at_its_wrap,
}

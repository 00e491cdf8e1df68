"""The model held to the document's own numbers, and its shortcuts held to the plain definition. The library takes no part."""

from random import Random

import cover_cases
import document_cases
from compare import case
from model import cover, tree, word


def notify_node(m, n, i):
    return tree.notify_list(m, n)[i]


MODEL = {
    "cover": cover.cover,
    "notify_count": lambda m, n: len(tree.notify_list(m, n)),
    "notify_node": notify_node,
    "parent": tree.parent,
    "return_occ": word.return_occ,
}


def document_edges():
    """Every edge of document 01 that the library is held to, answered by the model."""
    for cases in document_cases.SUITES.values():
        for asked in cases():
            answer = MODEL[asked.call](*asked.arguments)
            yield asked, answer


def numbering():
    """Nodes are numbered from 1 in level order: the children met row by row have the next free numbers."""
    row, free = [1], 2
    for d in range(1, 8):
        for n in row:
            yield case("level", [n], d), tree.level(n)
            for i in range(4):
                yield case("child", [n, i], free), tree.child(n, i)
                yield case("parent", [free], n), tree.parent(free)
                free += 1
        yield case("last_node", [d], row[-1]), tree.last_node(d)
        row = range(row[-1] + 1, free)


def adjoining_ranges():
    """An inner node stands for its children's units: they follow each other without a gap from its left to its right edge."""
    for h in range(2, 7):
        for n in range(1, tree.first_node(h)):
            edge = tree.node_range(h, n)[0]
            for below in tree.children(n):
                left, right = tree.node_range(h, below)
                yield case("left_edge", [h, below], edge), left
                edge = right
            yield case("size", [h, n], edge - tree.node_range(h, n)[0]), tree.size(h, n)


def literal_and_shortened(h, l, r):
    """The least of all nodes and pairs is expected of the least of those that hold the window's edges."""
    literal = cover.least(h, cover.all_nodes_and_pairs(h), l, r)
    shortened = cover.least(h, cover.nodes_and_pairs_at_edges(h, l, r), l, r)
    return case("cover", [h, l, r], literal), shortened


def shortened_covers():
    """Every window at H 2, and windows with edges at and beside the leaves' edges and random ones at H 3."""
    rng = Random("shortened covers")
    edges = cover_cases.beside_leaf_edges(3)
    windows = [(2, l, r) for l in range(256) for r in range(l + 1, 257)]
    windows += [(3, *sorted(rng.sample(edges, 2))) for _ in range(1000)]
    windows += [(3, *sorted(rng.sample(range(1025), 2))) for _ in range(500)]
    for h, l, r in windows:
        yield literal_and_shortened(h, l, r)


def fields_and_bits():
    """The fields by name are the fields at their shift and width, and packing undoes unpacking."""
    rng = Random("fields and bits")
    for _ in range(1000):
        w = rng.getrandbits(64)
        for name, width, value in zip(word.Inner._fields, word.WIDTH, word.unpack(w)):
            low = word.shift(name)
            yield case("field", [w, low, width], word.field_at(w, low, width)), value
        yield case("add_fields", [w, 0], w), word.pack(word.unpack(w))


SUITES = {
    "model, the edges of document 01": document_edges,
    "model, numbers in level order": numbering,
    "model, children's ranges adjoin": adjoining_ranges,
    "model, the least cover at the window's edges is the least of all": shortened_covers,
    "model, fields by name and by place": fields_and_bits,
}

"""Cases for `rangerun FILE tree`: while a window is held it prints each word that is not clean, field by field, with the units of its node, as the
model has them; and `clean` when all are given back."""

import subprocess

from compare import NAMES, case, unlike
from library import SECONDS
from model import tree, word
from model.record import Settings
from remote_runs import memory, program, running, serving, taken

WAIT = 1_000_000
# Of each tree windows of the root, of one leaf, of two, of a leaf and an inner node, of two inner nodes; a tree of 2 levels has but one inner node.
WINDOWS = {
    2: ((0, 256), (10, 20), (60, 70)),
    3: ((0, 1024), (1000, 1024), (60, 70), (250, 512), (256, 768)),
    6: ((0, 65_536), (4090, 4096), (4090, 4100), (4090, 8192), (4096, 12_288)),
}
FIELDS = {"Exp": "exp", "Occ": "occ", "TCnt": "tcnt", "TMax": "tmax", "DCnt": "dcnt", "DMax": "dmax"}

NAMES["printed tree"] = ("levels", "left", "right"), ("exit status", "lines unlike the model's")


def line(levels, node, value):
    """What is to be printed of a word that is not clean."""
    left, right = tree.node_range(levels, node)
    inner = word.unpack(value)
    fields = " ".join(f"{name} {getattr(inner, field)}" for name, field in FIELDS.items())
    shown = f"bits 0x{value:016x}" if tree.is_leaf(levels, node) else fields
    return f"node {node}: {shown} of the units {left} to {right - 1}"


def lines(levels, words):
    return [line(levels, node, words[node - 1]) for node in taken(levels, words)]


def printed(file):
    ran = subprocess.run([program("rangerun"), file, "tree"], capture_output=True, text=True, timeout=SECONDS)
    return ran.returncode, ran.stdout.splitlines()


def printed_tree():
    for levels, windows in WINDOWS.items():
        with serving("memory", Settings(levels, 2, WAIT, 20 * WAIT)) as file:
            for left, right in windows:
                with running(file, "hold", str(left), str(right), "sh", "-c", "echo held; exec sleep 30") as holds:
                    holds.stdout.readline()
                    status, found = printed(file)
                    expected = lines(levels, memory(file)[0])
                yield case("printed tree", [levels, left, right], (1, 0)), (status, unlike(found, expected))
            status, found = printed(file)
            yield case("printed tree", [levels, 0, 0], (0, 0)), (status, unlike(found, ["clean"]))


SUITES = {"rangerun tree, each word that is not clean with its units": printed_tree}

"""Histories in which a client claims a node that another has read and not yet gone on from, so that the two do not see each other: what random
histories hardly come to. All clocks say the true moment. H 3, m 1, T 9."""

from histories import MOST_PATIENCE, Shape, opened
from model.history import Call
from model.record import Settings

SHAPE = Shape(Settings(3, 1, 9, MOST_PATIENCE), 3, 0)
LOWER, HIGHER, ROOT = range(3)
WINDOWS = (0, 10), (0, 256), (0, 1024)


def request(client):
    return [Call("request", client, *WINDOWS[client])]


def steps(client, clock, count):
    return [Call("step", client, clock)] * count


# Node 2 waits from 9 on and is held at 18; then come the two notices of leaf 6, whose claim began before.
BOTH_END = [*steps(HIGHER, 18, 2), *steps(LOWER, 18, 2)]

# Leaf 6's climb has read node 2; then this is claimed; then the climb reads the root, and the leaf is claimed.
IN_A_CLIMB = [
    *request(LOWER), *steps(LOWER, 9, 1), *request(HIGHER), *steps(HIGHER, 9, 5), *steps(LOWER, 10, 2), *BOTH_END]

# The root is held, and both climbs are blocked there; it is given back, and node 2 is claimed before the leaf's climb goes on.
WHILE_BLOCKED = [
    *request(ROOT), *steps(ROOT, 0, 3), *steps(ROOT, 9, 2), *request(LOWER), *steps(LOWER, 9, 2), *request(HIGHER), *steps(HIGHER, 9, 3),
    Call("release", ROOT), *steps(ROOT, 9, 1), *steps(HIGHER, 9, 4), *steps(LOWER, 10, 3), *BOTH_END]


def made(calls):
    """The table that these calls leave, and their moments."""
    lock, moments = opened(SHAPE), []
    for call in calls:
        lock.make(call)
        moments.append(call.a if call.kind == "step" else 0)
    return lock, moments

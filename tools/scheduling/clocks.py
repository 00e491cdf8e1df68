"""Whose clocks a schedule's are. Each client has its own (request 2.3); where they never go back along the schedule, all clients may as well
read one clock."""

from itertools import pairwise

from model.moments import accepted_steps, moments_of

EACH_ITS_OWN = ("each client has its own: they go back along the schedule, so that those of two clients cannot be compared; "
                "the numbers of the calls say what came first")
TRUE_MOMENTS = "there are moments that keep what request 2.3 supposes of clocks: single holding is promised"
NO_TRUE_MOMENTS = "no moments keep what request 2.3 supposes of clocks: by it single holding is not promised (docs/DEMAND-3.md)"


def one_for_all(history):
    """Whether the clocks of the accepted steps never go back along a history."""
    return all(before.clock <= after.clock for before, after in pairwise(accepted_steps(history)))


def last_of_all(history):
    """The clock of the last accepted step, 0 without one; None if each client has its own."""
    clocks = [0, *(step.clock for step in accepted_steps(history))]
    return clocks[-1] if one_for_all(history) else None


def told(history, clients):
    """The clock that is told with each call: that of the last accepted step until then, 0 before the first. If all may read one clock it is
    the last step of anybody, else of the call's own client; a client that there is not has none."""
    one, last = one_for_all(history), {}
    for made in history:
        whose = None if one else made.call.client
        if made.call.kind == "step" and made.number == 0:
            last[whose] = made.call.a
        yield last.get(whose, 0) if one or whose < clients else None


def clock_lines(history):
    """What is to be known of clocks that are not those of one clock for all."""
    if not one_for_all(history):
        yield EACH_ITS_OWN
        yield NO_TRUE_MOMENTS if moments_of(history) is None else TRUE_MOMENTS

"""Schedules in which each client's own clock matters, by name: clocks before and after those of others, what sets them and what doesn't,
claims that are just late and just not, and histories at the limit of request 2.3's supposition and outside it."""

from itertools import product

from clock_states import wrapped
from clocks import EDGE_WAITS, TOP, first_late
from histories import MOST_PATIENCE
from limit_histories import late_by_least, limits, one_tick_short, taken_at_last
from model.history import Call
from model.record import Settings
from model.schedule import Schedule


def steps(client, *clocks):
    return [Call("step", client, clock) for clock in clocks]


def of_two(*calls, wait=5, patience=MOST_PATIENCE):
    return Schedule(Settings(2, 1, wait, patience), 2, calls)


# Client 0 holds [0, 10) from its clock 50 on, and gives it back.
TAKEN = [Call("request", 0, 0, 10), *steps(0, 50, 50, 50)]
GIVEN_BACK = [*TAKEN, Call("release", 0), *steps(0, 60, 60)]


def clocks_apart():
    """Clocks before and after those of others, that go back or stand; and what doesn't clear them or set them."""
    yield "a clock before another client's", of_two(*steps(0, 100), *steps(1, 7, 7, 6), *steps(0, 99, 100), *steps(1, 8))
    yield "a clock at its greatest and one at 0", of_two(*steps(1, TOP), *TAKEN, *steps(1, TOP, TOP - 1), *steps(0, 49, 51))
    yield "a clock after an idle client's", of_two(*steps(1, 3), *GIVEN_BACK, *steps(0, 59, 60), *steps(1, 4))
    yield "a clock back after a release", of_two(*TAKEN, Call("release", 0), *steps(0, 49, 50))
    yield "a clock back after a request", of_two(*GIVEN_BACK, Call("request", 0, 0, 10), *steps(0, 59, 60))
    yield "a clock back after a cancel", of_two(*GIVEN_BACK, Call("request", 0, 0, 10), *steps(0, 61), Call("cancel", 0), *steps(0, 60, 61))
    yield "a clock back when idle", of_two(*GIVEN_BACK, *steps(0, 59))
    yield "a refused clock, and one between it and the last", of_two(*TAKEN, *steps(0, 20, 30, 50, 30))
    yield "a request of a client behind the others", of_two(*TAKEN, Call("request", 1, 20, 30), *steps(1, 1, 2, 3))
    yield "a release of a client behind the others", of_two(
        Call("request", 1, 20, 30), *steps(1, 1, 1, 1), *TAKEN, Call("release", 1), *steps(1, 1, 2))
    yield "a cancel of a client behind the others", of_two(
        Call("request", 1, 20, 30), *steps(1, 1), *TAKEN, Call("cancel", 1), *steps(1, 1, 2))


def claim_after(wait, t1, ticks):
    """A claim of a leaf whose last notice comes so many ticks after t1."""
    return of_two(Call("request", 0, 0, 10), *steps(0, t1, t1, t1 + ticks), wait=wait)


def wait_of(wait, t0, ticks):
    """A wait at the root that is asked so many ticks after t0."""
    return of_two(Call("request", 0, 0, 256), *steps(0, t0, t0, t0, t0 + ticks), wait=wait)


def patience_of(patience, taken, ticks):
    """A second piece that is stepped so many ticks after the first was taken."""
    return of_two(Call("request", 0, 60, 70), *steps(0, taken, taken, taken, taken + ticks), patience=patience)


def about_the_end(length):
    """The ticks with which a claim is first late, and those of T or P, and one fewer of each."""
    return sorted({end - fewer for end in (first_late(length), length) for fewer in (0, 1)})


def edges():
    """Claims just late and just not, waits and patience just over and just not, of every length; near 0 and up to the greatest clock."""
    ends = [(length, ticks) for length in EDGE_WAITS for ticks in about_the_end(length)]
    for length, ticks, time in [(length, ticks, time) for length, ticks in ends for time in (3, TOP - ticks)]:
        when = f"of {length}, {ticks} after {time}"
        yield f"late, T {when}", claim_after(length, time, ticks)
        yield f"wait {when}", wait_of(length, time, ticks)
        yield f"patience {when}", patience_of(length, time, ticks)
    for ticks in (2 ** 32, 2 ** 32 + 1, wrapped(1), wrapped(5000), wrapped(10000), 2 ** 63):
        yield f"late, T 4294967295, {ticks} after 3", claim_after(2 ** 32 - 1, 3, ticks)


AT_LIMITS = {"late by the least": late_by_least, "taken at last": taken_at_last, "a wait one tick short": one_tick_short}


def at_limits():
    """Histories at the limit of the supposition, and the one outside it in which two clients hold overlapping windows."""
    near = [limit for limit in limits(waits=(5001, 10001, 123456, 2 ** 32 - 1), levels=(2, 3)) if limit.settings.distance == 1]
    for limit, (name, made) in product(near, AT_LIMITS.items()):
        calls = tuple(each.call for each in made(limit).lock.history)
        when = f"H {limit.settings.levels}, T {limit.settings.wait}, {limit.lower} below {limit.higher} from {limit.first_clocks}"
        yield f"{name}, {when}", Schedule(limit.settings, 2, calls)
    yield "two clients hold overlapping windows", of_two(
        Call("request", 0, 0, 10), *steps(0, 40, 40), Call("request", 1, 0, 256), *steps(1, 5, 5, 5, 7, 7), *steps(0, 40), wait=2)


def schedules():
    for of_kind in (clocks_apart, edges, at_limits):
        yield from of_kind()

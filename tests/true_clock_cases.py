"""Cases for what docs/LINKING.md and docs/WAITING.md say of clocks: how true a clock must be and how long the wait, and from where on
a claim is late."""

import re
from fractions import Fraction
from math import floor
from random import Random

from compare import NAMES, case
from library import ROOT
from model.moments import greatest_elapse, least_elapse
from model.record import IDLE, Settings
from model.step import late

LINKING = (ROOT / "docs" / "LINKING.md").read_text()
WAITING = (ROOT / "docs" / "WAITING.md").read_text()
# Parts of a tick: none, and nearly a whole one.
PARTS = Fraction(0), Fraction(999, 1000)

NAMES["wait with such a delay"] = ("delay",), ("wait",)
NAMES["clock rounded down to whole ticks"] = ("wait", "delay"), ("keeps what is asked",)
NAMES["clock with a wait that is shorter"] = ("wait", "delay"), ("keeps what is asked",)
NAMES["ticks without a tick to either side"] = ("ticks",), ("least true elapse", "greatest")
NAMES["claim of so many ticks"] = ("wait", "ticks"), ("late", "late with one tick less")


def said(text, pattern):
    """The numbers of the one sentence that has this form."""
    [found] = re.findall(pattern, text)
    return [int(number.replace(",", "")) for number in ([found] if isinstance(found, str) else found)]


def rate_and_wait():
    return said(LINKING, r"rate is true within 1 part in ([\d,]+), read as the step is made and rounded down to whole ticks, will do if T is ([\d,]+) ticks "
                         r"or more")


def kept(wait, elapse, rate, true_part, clock_part, delay):
    """Whether two readings keep what `read_apart_holding` asks of them: with the true time rounded down for the moments, and a clock of this rate rounded down
    too. The parts of a tick are those that had gone by at the first reading, and the delay is by how much the second was read too late or too early."""
    true = floor(true_part + elapse)
    ticks = floor(clock_part + (elapse + delay) * rate)
    not_slow = 10_000 * wait > 10_001 * true or 9_999 * true <= 10_000 * ticks
    not_fast = wait > ticks or 10_000 * ticks <= 10_001 * true
    return not_slow and not_fast


def readings(part, delay):
    """By the fastest and the slowest clock, with every part of a tick at the first reading, read late and early."""
    return [(1 + sign * Fraction(1, part), true_part, clock_part, late)
            for sign in (1, -1) for true_part in PARTS for clock_part in PARTS for late in {delay, -delay}]


def elapses(wait, delay):
    """About the wait, at each end of a whole tick, and drawn at random."""
    rng = Random("true clocks")
    near = range(wait - delay - 12, wait + delay + 12, max(1, delay // 20))
    ticks = [*near, *(rng.randrange(wait) for _ in range(100)), *(rng.randrange(wait, 1000 * wait) for _ in range(100))]
    return [tick + part for tick in ticks for part in PARTS]


def all_kept(wait, part, delay):
    return [kept(wait, elapse, *reading) for elapse in elapses(wait, delay) for reading in readings(part, delay)]


def true_enough():
    """Clocks as the document says keep what is asked, with a wait as long as it says, and with one that is a tick shorter some readings do not."""
    part, wait = rate_and_wait()
    longer, delay, longest = said(LINKING, r"T has to be that many times ([\d,]+) ticks longer: with d ([\d,]+) ticks, ([\d,]+)")
    yield case("wait with such a delay", [delay], longest), wait + longer * delay
    for late in (0, 1, 2, 5, delay):
        least = wait + longer * late
        yield case("clock rounded down to whole ticks", [least, late], 1), int(all(all_kept(least, part, late)))
    # With few ticks of delay every tick about the wait is tried, so that the one that fails is found.
    for late in (0, 1, 2, 5):
        shorter = wait + longer * late - 1
        yield case("clock with a wait that is shorter", [shorter, late], 0), int(all(all_kept(shorter, part, late)))


def few_ticks():
    """Over fewer ticks than the document says the true elapse is as many, and over so many it may be another."""
    [fewer] = said(LINKING, r"Over fewer than ([\d,]+) ticks the third sentence leaves no tick to either side")
    for ticks in range(fewer):
        yield case("ticks without a tick to either side", [ticks], (ticks, ticks)), (least_elapse(ticks), greatest_elapse(ticks))
    yield case("ticks without a tick to either side", [fewer], (fewer, fewer + 1)), (least_elapse(fewer), greatest_elapse(fewer))


def lateness():
    """From where on a claim is late, with the waits that the documents name. Up to the wait that they name it is late from the wait on."""
    named = re.findall(r"T ([\d,]+): ([\d,]+)[;)]", LINKING)
    claims = [tuple(int(number.replace(",", "")) for number in pair) for pair in named]
    [same] = said(LINKING, r"Up to T ([\d,]+) nothing changes")
    wait, ticks, fewer = said(WAITING, r"With T ([\d,]+) a claim of ([\d,]+) ticks is late, and one of ([\d,]+) is not")
    assert len(claims) == 2 and (ticks - fewer, wait - same) == (1, 1)
    for wait, ticks in [*claims, (wait, ticks), *((wait, wait) for wait in range(1, same + 1))]:
        settings = Settings(2, 1, wait, 1)
        yield case("claim of so many ticks", [wait, ticks], (1, 0)), (int(late(settings, IDLE, ticks)), int(late(settings, IDLE, ticks - 1)))


SUITES = {
    "clocks, one that is as true as the document says, with such a wait": true_enough,
    "clocks, over few ticks a clock must be exact": few_ticks,
    "clocks, from where on a claim is late": lateness,
}

#!/usr/bin/env python3
"""How long one run alone takes to take a window and to give it back, with lists and with one operation at a time, over shared memory and the providers
of libfabric: bench/latency.py [LEVELS [DISTANCE]], 6 and 2 if not said. Each number is the median of ROUNDS medians, in microseconds, the wait
of an inner node left out; rounds of both ways take turns, so that a change of the machine's speed meets both alike."""

import sys
from pathlib import Path
from statistics import median

ROOT = Path(__file__).resolve().parent.parent
sys.path[:0] = [str(ROOT), str(ROOT / "tests")]

from model.record import Settings
from remote_runs import has_libfabric, serving
from remote_trips import ALL, ONE, WINDOWS, trips

# Nanoseconds. A provider that runs in software needs a longer wait, else claims are late, which are not counted.
WAITS = {"memory": 100_000, "tcp;ofi_rxm": 2_000_000, "shm": 2_000_000}
ROUNDS, TIMES = 5, 200


def microseconds(file, most, window, wait):
    """The median of one round, and the round trips of a window."""
    [found] = trips(file, most, TIMES, [window])
    return (median(one.nanoseconds for one in found) - wait) / 1000, median(one.taken + one.back for one in found)


def measured(file, window, wait):
    """Microseconds and round trips, by lists and one at a time."""
    rounds = [[microseconds(file, most, window, wait) for most in (ALL, ONE)] for _ in range(ROUNDS)]
    return [(median(one[0] for one in way), way[0][1]) for way in zip(*rounds)]


def main(levels, distance):
    print(f"H {levels}, m {distance}: microseconds (round trips)")
    print("| over | window | lists | one at a time |")
    print("|---|---|---|---|")
    for over in WAITS if has_libfabric() else ["memory"]:
        with serving(over, Settings(levels, distance, WAITS[over], 20 * WAITS[over])) as file:
            for name in ("leaf", "inner node"):
                waited = WAITS[over] if name == "inner node" else 0
                lists, alone = measured(file, WINDOWS[name], waited)
                print(f"| {over} | {name} | {lists[0]:.1f} ({lists[1]:.0f}) | {alone[0]:.1f} ({alone[1]:.0f}) |", flush=True)


main(*(int(word) for word in sys.argv[1:] + ["6", "2"][len(sys.argv) - 1:]))

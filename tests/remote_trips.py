#!/usr/bin/env python3
"""Round trips of one run alone, with lists and with one operation at a time: tests/remote_trips.py [OVER [DISTANCE]] prints the table for trees of 2
to 12 levels, over shared memory at distance 1 if not said otherwise. At 12 levels shared memory has 2 GiB."""

import subprocess
import sys
from functools import lru_cache
from pathlib import Path
from typing import NamedTuple

if __name__ == "__main__":
    sys.path.insert(0, str(Path(__file__).resolve().parent.parent))

from library import ROOT, SECONDS
from model import tree
from model.record import Settings
from remote_runs import build_with_run, serving

# Windows that every tree has, but for the last, which a tree of 2 levels has not. A list is never longer than ALL.
WINDOWS = {"leaf": (10, 20), "inner node": (0, 256), "two leaves": (60, 70), "leaf and inner node": (250, 512)}
ALL, ONE = 1000, 1
# Nanoseconds: mostly longer than a claim takes, even where a processor is busy with others. One that is late is not counted.
WAIT = 5_000_000


class Trips(NamedTuple):
    """Of one window, from its request until it is held and back: operations, round trips to take it, and to give it back, and nanoseconds."""

    operations: int
    taken: int
    back: int
    nanoseconds: int


@lru_cache(maxsize=None)
def program():
    folder = ROOT / "target" / "tests"
    folder.mkdir(parents=True, exist_ok=True)
    build_with_run(folder / "trips", "tests/trips.c")
    return folder / "trips"


def windows_of(levels):
    """Those that a tree of so many levels has."""
    return {name: window for name, window in WINDOWS.items() if window[1] <= 64 * 4 ** (levels - 1)}


def trips(file, most, times, windows):
    """What each time came to, of each window."""
    words = [program(), file, str(most), str(times), *(str(edge) for window in windows for edge in window)]
    ran = subprocess.run(words, capture_output=True, text=True, timeout=SECONDS)
    if ran.returncode != 0:
        raise subprocess.SubprocessError(f"trips: {ran.stderr}")
    lines = [Trips(*map(int, line.split())) for line in ran.stdout.splitlines()]
    return [lines[place:place + times] for place in range(0, len(lines), times)]


def print_table(over, distance):
    """A row for each height: round trips to take a window and to give it back, by lists, and one at a time."""
    print(f"over {over}, m {distance}: round trips to take + to give back, lists / one at a time")
    print("| H |", " | ".join(WINDOWS), "|")
    print("|---|" + "---|" * len(WINDOWS))
    for levels in tree.LEVELS:
        windows = windows_of(levels)
        with serving(over, Settings(levels, distance, WAIT, 20 * WAIT)) as file:
            both = [[last for *_, last in trips(file, most, 2, windows.values())] for most in (ALL, ONE)]
        cells = [f"{one.taken} + {one.back} / {each.taken} + {each.back}" for one, each in zip(*both)]
        print(f"| {levels} |", " | ".join(cells + [""] * (len(WINDOWS) - len(cells))), "|", flush=True)


if __name__ == "__main__":
    print_table(sys.argv[1] if len(sys.argv) > 1 else "memory", int(sys.argv[2]) if len(sys.argv) > 2 else 1)

#!/usr/bin/env python3
"""How many clients wait for each other for ever if none gives up, and what cancel and back-off make of the same wishes: the table of
docs/WAITING.md: make && bench/waiting.py [PATIENCE]

40 clients with windows of all sizes (the logarithm of the length is uniform) ask at the same time and step in turn by one clock, one step
a tick; who holds releases after 20 ticks. A client that is late asks again at once. The patience is in ticks; without it it is the longest
there is, so that none runs out. A client whose patience has run out has given up, as one that cancels: it pauses if it has a way to, and
asks again.

With --model the calls are made by the model, which needs no library and takes longer.
"""

import argparse
import sys
from pathlib import Path
from random import Random

ROOT = Path(__file__).resolve().parent.parent
sys.path[:0] = [str(ROOT), str(ROOT / "python")]

import nolthewyr
from model.binding import ModelTable
from nolthewyr import Outcome, Phase

CLIENTS, LEVELS, WAIT, HOLD, RUNS = 40, 6, 40, 20, 20
UNITS = 64 * 4 ** (LEVELS - 1)
MOST_STEPS, FIRST_LIMIT, LAST_LIMIT = 300, 200, 1600

LONGEST = 2 ** 32 - 1
GAVE_UP = Outcome.CANCELLED, Outcome.OUT_OF_PATIENCE

# How a client that has given up pauses, below a limit in ticks that doubles each time; None if it never cancels, and does not pause.
WAYS = {
    "nobody cancels": None,
    "cancel, pause for the whole limit": lambda rng, limit: limit,
    "cancel, pause for a random part of it": lambda rng, limit: rng.randrange(limit),
}
# Nobody has come to a window or to its end for so long that it is given up: all waits by the clock and all pauses are far shorter.
LONG = 10000


class Client:
    """A client with one window to take. With a way to pause it cancels after MOST_STEPS."""

    def __init__(self, table, number, window, pause):
        self.table, self.number, self.window, self.pause, self.rng = table, number, window, pause, Random(number)
        self.phase, self.steps, self.limit, self.wake, self.held = Phase.IDLE, 0, FIRST_LIMIT, 0, None

    def done(self):
        return self.phase == Phase.IDLE and self.held is not None

    def gave_up(self):
        return self.phase == Phase.IDLE and self.table.record(self.number).outcome in GAVE_UP

    def tick(self, clock):
        """One call, if there is one to make; whether the client came to its window, or to its end."""
        if self.done() or clock < self.wake:
            return False
        before, self.phase = self.phase, self.call(clock)
        if self.pause and self.gave_up():
            self.wake, self.limit = clock + self.pause(self.rng, self.limit), min(2 * self.limit, LAST_LIMIT)
        if self.phase == Phase.HELD and before != Phase.HELD:
            self.held = clock
            return True
        return self.done()

    def call(self, clock):
        if self.phase == Phase.IDLE:
            self.steps = 0
            return self.table.request(self.number, *self.window)
        if self.phase == Phase.HELD:
            return self.table.release(self.number) if clock - self.held >= HOLD else self.phase
        if self.pause and self.steps >= MOST_STEPS and self.phase != Phase.RETURNING:
            return self.table.cancel(self.number)
        self.steps += 1
        return self.table.step(self.number, clock)


def windows(seed):
    rng = Random(seed)
    for _ in range(CLIENTS):
        size = int(2 ** rng.uniform(0, UNITS.bit_length() - 1))
        left = rng.randrange(UNITS - size + 1)
        yield left, left + size


def run(seed, pause, patience, table_of):
    """How many clients never had their window, and the clock at which the last had given its window back."""
    table = table_of(nolthewyr.Settings(LEVELS, 1, WAIT, patience), CLIENTS)
    clients = [Client(table, number, window, pause) for number, window in enumerate(windows(seed))]
    clock, last = 0, 0
    while not all(client.done() for client in clients) and clock - last < LONG:
        clock += 1
        if any([client.tick(clock) for client in clients]):
            last = clock
    return sum(not client.done() for client in clients), last


def ticks_of_patience(text):
    if not text.isdecimal() or not 1 <= int(text) <= LONGEST:
        raise argparse.ArgumentTypeError(f"a patience is from 1 to {LONGEST}, not {text}")
    return int(text)


def arguments():
    parser = argparse.ArgumentParser(description="How many clients wait for each other for ever, and what back-off makes of it.")
    parser.add_argument("patience", nargs="?", type=ticks_of_patience, default=LONGEST, help="in ticks, 1 to 4294967295; the longest if it is not said")
    parser.add_argument("--model", action="store_true", help="make the calls by the model instead of the library")
    return parser.parse_args()


def main():
    asked = arguments()
    table_of = ModelTable if asked.model else nolthewyr.Table
    print(f"| {CLIENTS} clients, {RUNS} runs, patience {asked.patience:,} | runs in which all had their windows"
          " | clients without, least to most | ticks until all were idle, least to most |")
    print("|---|---|---|---|")
    for name, pause in WAYS.items():
        ran = [run(seed, pause, asked.patience, table_of) for seed in range(RUNS)]
        left = [count for count, _ in ran]
        ticks = [last for count, last in ran if count == 0]
        took = f"{min(ticks):,} to {max(ticks):,}" if ticks else "-"
        print(f"| {name} | {len(ticks)} | {min(left)} to {max(left)} | {took} |", flush=True)


if __name__ == "__main__":
    main()

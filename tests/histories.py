"""Random histories on small trees: contended windows, each client's own clock, cancels, releases and refused calls."""

from collections import Counter
from itertools import combinations, pairwise
from random import Random
from typing import NamedTuple

from clocks import TOP, AnyClocks, TrueClocks
from contended_windows import contended_windows
from meetings import HELD, WAIT, meetings, phases_above
from model import tree
from model.history import Call, Opened, held_apart, holds, idle, left_clean, overlap
from model.moments import moments_of, supposition_met
from model.owned import conserved
from model.readable import unreadable
from model.record import IDLE_CLIENT, Record, Settings

# The greatest that there may be.
MOST_PATIENCE = 2 ** 32 - 1
CANCELS = (0.003, 0.02, 0.1)
RELEASES = (0.1, 0.4)
STAYS = (0.3, 0.6, 0.8)
SLEEPS = (0, 0.2, 0.6)
BUSY = 80
LONGEST_SLEEP = 60
SLEEPINESS = {3: 0.2, 4: 0.6, 5: 1, 6: 1}
# What awakens a client that sleeps in one of these phases: above its climb a node waits, or above its claim one is held.
AWAKENED = {3: WAIT, 4: WAIT, 5: HELD, 6: HELD}


class Shape(NamedTuple):
    """The settings of an opening, its clients, and how many calls are made."""

    settings: Settings
    clients: int
    calls: int


class Driver:
    """Draws the next call from what the clients are doing. It is busy for a while, then asks for no new window until
    all are idle."""

    def __init__(self, opened, seed, clocks=AnyClocks):
        self.opened, self.rng = opened, Random(seed)
        self.windows = contended_windows(self.rng, opened.settings.levels)
        chances = (CANCELS, RELEASES, STAYS, SLEEPS)
        self.cancels, self.releases, self.stays, self.sleeps = map(self.rng.choice, chances)
        self.clocks = clocks(opened, self.rng)
        self.client, self.busy, self.asleep = 0, BUSY, {}

    def phase(self, client):
        return self.opened.clients[client].record.phase

    def refused(self):
        """A call that is often refused: a window outside the tree, a client that there isn't, or a kind at a wrong
        time."""
        n, clients = tree.units(self.opened.settings.levels), len(self.opened.clients)
        client = self.rng.randrange(clients)
        return self.rng.choice([
            Call("request", client, n - 1, n + 1), Call("request", client, 5, 5), Call("request", client, *self.windows[0]),
            Call("step", clients, self.opened.clients[client].clock), Call("release", clients + 2 ** 40),
            Call("release", client), Call("cancel", client),
        ])

    def request(self):
        return Call("request", self.client, *self.rng.choice(self.windows))

    def wanted(self, phase):
        """What the client does next in its phase."""
        chance = self.rng.random()
        if phase == 0 and self.busy > 0:
            return self.request()
        if phase == 9 and chance < self.releases:
            return Call("release", self.client)
        if 1 <= phase <= 8 and chance < self.cancels:
            return Call("cancel", self.client)
        return Call("step", self.client, self.clocks.clock(self.client))

    def fall_asleep(self):
        """At times a client falls asleep in the middle of a claim, more rarely of a climb, so that others come past it."""
        if self.rng.random() < self.sleeps * SLEEPINESS.get(self.phase(self.client), 0):
            self.asleep[self.client] = LONGEST_SLEEP

    def awakened(self):
        """A client that has slept for long, or until an overlapping window above it was where it awakens it; None if there is none."""
        self.asleep = {client: left - 1 for client, left in self.asleep.items() if self.phase(client) in AWAKENED}
        over = [client for client, left in self.asleep.items() if left == 0 or AWAKENED[self.phase(client)] in self.phases_above(client)]
        return self.rng.choice(over) if over else None

    def phases_above(self, client):
        return phases_above(self.opened.settings, [each.record for each in self.opened.clients], client)

    def awake(self):
        """The clients that are not asleep. While no window is asked for, those that are idle are passed over."""
        clients = [client for client in range(len(self.opened.clients)) if self.busy > 0 or self.phase(client) != 0]
        return [client for client in clients if client not in self.asleep] or clients

    def next_client(self):
        """Often the same client again; one that has slept at once."""
        if self.busy <= 0 and all(self.phase(client) == 0 for client in range(len(self.opened.clients))):
            self.busy = BUSY
        self.fall_asleep()
        if (client := self.awakened()) is not None:
            self.client = client
        elif self.rng.random() > self.stays or self.client not in self.awake():
            self.client = self.rng.choice(self.awake())
        self.asleep.pop(self.client, None)

    def next_call(self):
        self.busy -= 1
        self.next_client()
        if self.rng.random() < 0.03:
            return self.refused()
        return self.wanted(self.phase(self.client))


class Watch:
    """What each client holds and who is idle after a history. A call speaks of its own client only, so the others stay
    as they were."""

    def __init__(self, opened):
        self.opened = opened
        self.windows = [None] * len(opened.clients)
        self.idles = [True] * len(opened.clients)
        self.records = [Record(*client.record) for client in opened.clients]
        self.counts, self.overlap = Counter(), None

    def look(self, made):
        """Looks at the history after a call, and counts the claims that fail then."""
        client, history = made.call.client, self.opened.history
        self.counts["number", made.number] += 1
        if made.number == 0:
            self.windows[client] = holds(history, client)
            self.idles[client] = idle(history, client)
            self.count_kind(made, Record(*self.opened.clients[client].record))
        if not held_apart(self.windows):
            self.counts["claim", 1] += 1
            self.overlap = self.overlap or self.calls_of_two()
        self.counts["claim", 2] += not left_clean(self.opened.settings, self.opened.words, self.idles)

    def calls_of_two(self):
        """The calls of two clients that hold overlapping windows, since the request that came first: if no moments meet the supposition for
        these, none do for the whole history."""
        windows = [(client, window) for client, window in enumerate(self.windows) if window is not None]
        pair = next((one, other) for (one, of_one), (other, of_other) in combinations(windows, 2) if overlap(of_one, of_other))
        made = [made for made in self.opened.history if made.call.client in pair and made.number == 0]
        requests = {each.call.client: place for place, each in enumerate(made) if each.call.kind == "request"}
        return made[min(requests.values()):]

    def look_at_owned(self):
        """Counts when some word is not what the records own of it, or some record is not readable."""
        settings, clients = self.opened.settings, self.opened.clients
        self.counts["unlike what is owned"] += not conserved(settings, self.opened.words, [client.record for client in clients])
        self.counts["unreadable"] += any(unreadable(settings, client.record, client.clock) for client in clients if client.record.phase)

    def count_kind(self, made, record):
        """Counts what an accepted call shows: its phase and outcome, two holders at once, all idle again, in which phase patience has run
        out, and where clients meet."""
        client = made.call.client
        if made.call.kind == "step":
            self.counts.update(meetings(self.opened.settings, self.records, client, record, made.call.a))
            self.counts["a step at the greatest clock"] += made.call.a == TOP
        before, self.records[client] = self.records[client].phase, record
        self.counts["patience run out in", before] += before != 10 and (record.phase, record.outcome) == (10, 4)
        self.counts["phase", record.phase] += 1
        self.counts["outcome", record.outcome] += 1
        self.counts["both pieces begun"] += record.current
        self.counts["two holders"] += sum(window is not None for window in self.windows) >= 2
        self.counts["all idle again"] += all(self.idles)


def opened(shape):
    words = [0] * tree.node_count(shape.settings.levels)
    return Opened(shape.settings, words, [IDLE_CLIENT] * shape.clients)


def history_of(shape, seed):
    """What one random history leaves."""
    lock = opened(shape)
    driver = Driver(lock, seed)
    for _ in range(shape.calls):
        lock.make(driver.next_call())
    return lock


def supposed(driver):
    """Whether the history that a driver with true moments drew meets the supposition."""
    driver.clocks.catch_up()
    return supposition_met(driver.opened.history, driver.clocks.moments, pairwise)


def counts_of(shape, seed, clocks):
    """The counts of one random history."""
    lock = opened(shape)
    driver, watch = Driver(lock, seed, clocks), Watch(lock)
    for _ in range(shape.calls):
        watch.look(lock.make(driver.next_call()))
        watch.look_at_owned()
    watch.counts["supposition not met"] += clocks is TrueClocks and not supposed(driver)
    watch.counts["overlap that moments allow"] += watch.overlap is not None and moments_of(watch.overlap) is not None
    return watch.counts


def breaks_a_claim(shape, seed):
    """Whether a claim fails after some call of one random history that meets the supposition."""
    lock = opened(shape)
    driver, watch = Driver(lock, seed, TrueClocks), Watch(lock)
    for _ in range(shape.calls):
        watch.look(lock.make(driver.next_call()))
        if watch.counts["claim", 1] or watch.counts["claim", 2]:
            return supposed(driver)
    return False

"""Runs on machines of their own, in whole ticks of true time: each keeps its client and reads its own clock, and has one operation in flight, or a
list of them that are carried out in order, with others' between. They take any time to their words and back. Each run reads its clock where
docs/REMOTE.md says, so that nothing is supposed of the network."""

from collections import Counter
from heapq import heappop, heappush
from random import Random
from typing import NamedTuple

from compiled_table import library, nolthewyr
from contended_windows import contended_windows
from model import tree
from model.history import left_clean, overlap

IDLE, CLIMB, CLAIM, NOTIFY, HELD = (getattr(nolthewyr.Phase, name) for name in ("IDLE", "CLIMB", "CLAIM", "NOTIFY", "HELD"))
# Clocks go by so many parts in 20,000 too fast or too slow.
RATES, PARTS = (-1, 0, 1), 20000
CANCELS = 0.005
# Runs whose words have been spoilt may wait for each other for ever: after so many delays they are not waited for any more.
MOST_DELAYS = 60000


class Readings(NamedTuple):
    """When a run reads its clock: the phases in which it does so when the operation has come back, in all others before it is posted; whether it
    leaves a later piece's climb that would end too late for its patience; and whether a reading by which patience is over, when the word has
    been touched already, is put before that."""

    after: tuple = (CLAIM, NOTIFY)
    leaves_climbs: bool = True
    within_patience: bool = True


class OneAtATime:
    """A run posts one operation, and the next when it has come back."""

    # The phases from whose start the parent may be read by what is posted; its reading in a climb is the climb's first.
    climbs_from = ()

    def posted(self, client, settings, clock):
        """What is posted now: nothing, where no word is touched."""
        operation = library().nolthewyr_operation(client, settings, clock)
        return [operation] if operation.node else []

    def completed(self, run, before, after, posted, found):
        """The client after all of it, by the clock that was read before the posting or by that which was read after it."""
        return library().nolthewyr_completed(run.client, run.settings, after, found[0] if found else 0)


class Run:
    """One client with its clock, which began anywhere."""

    def __init__(self, world, rng):
        self.world, self.settings, self.rng = world, world.settings, rng
        self.client = nolthewyr.Client()
        self.start, self.rate = rng.choice([0, rng.getrandbits(40)]), rng.choice(RATES)

    @property
    def record(self):
        return self.client.record

    def clock(self):
        return self.start + self.world.time * (PARTS + self.rate) // PARTS

    def given(self, answer):
        """The client that a call answers, which is accepted."""
        self.world.counts["refused"] += answer.number != 0
        self.client = answer.next

    def delay(self):
        """Mostly short, at times about as long as the wait, seldom longer."""
        wait, chance = self.settings.wait, self.rng.random()
        return self.rng.randrange(wait // 20 if chance < 0.8 else wait if chance < 0.95 else 3 * wait)

    def too_late_to_climb(self, now):
        """A later piece's climb begins only if its patience is not over a wait from now."""
        begins = (self.record.phase, self.record.place) == (CLIMB, 0) or self.record.phase in self.world.posting.climbs_from
        too_late = self.record.current > 0 and now + self.settings.wait >= self.record.taken + self.settings.patience
        return self.world.readings.leaves_climbs and begins and too_late

    def completion_clock(self, before, posted):
        """The clock by which what was posted is completed. If patience is over by it, though something was posted, it is one by which the claim is
        late and patience is not over."""
        after = self.clock() if self.record.phase in self.world.readings.after else before
        run_out = self.record.current > 0 and after - self.record.taken >= self.settings.patience
        return max(before, self.record.t1 + self.settings.wait) if run_out and posted and self.world.readings.within_patience else after

    def carried_out(self, posted):
        """The operations at their words, one after another with any time between, and in `found` the words as they were; gives how long all takes."""
        found = []
        for place, operation in enumerate(posted):
            yield self.rng.randrange(self.settings.wait // 20) if place else self.delay()
            found.append(self.world.words[operation.node - 1])
            self.world.words[operation.node - 1] = library().nolthewyr_applied(operation, found[-1])
        if posted:
            yield self.delay()
        return found

    def step(self):
        """What is posted at a time, there and back; gives how long each takes."""
        before = self.clock()
        while self.too_late_to_climb(before) and before < self.record.taken + self.settings.patience:
            yield self.settings.wait // 10
            before = self.clock()
        posted = self.world.posting.posted(self.client, self.settings, before)
        found = yield from self.carried_out(posted)
        self.given(self.world.posting.completed(self, before, self.completion_clock(before, posted), posted, found))
        self.world.counts["phase", self.record.phase] += 1
        yield self.rng.randrange(self.settings.wait // 20)

    def until(self, *phases):
        """Steps, and at times a cancel, until the client is in one of these phases."""
        while self.record.phase not in phases:
            if 1 <= self.record.phase <= 8 and self.rng.random() < CANCELS:
                self.given(library().nolthewyr_own_cancel(self.client, self.settings))
            else:
                yield from self.step()

    def life(self, windows):
        """Takes windows one after another, holds those that it gets for a while, and gives them back."""
        for left, right in windows:
            self.given(library().nolthewyr_own_request(self.client, self.settings, left, right))
            yield from self.until(HELD, IDLE)
            if self.record.phase == HELD:
                self.world.hold(self, (left, right))
                yield self.delay()
                self.world.held.pop(self)
                self.given(library().nolthewyr_own_release(self.client, self.settings))
                yield from self.until(IDLE)
            self.world.counts["outcome", self.record.outcome] += 1


class World:
    """The words, true time, and which runs hold what; and what is counted."""

    def __init__(self, settings, seed, readings=Readings(), posting=OneAtATime()):
        self.settings, self.rng, self.readings = nolthewyr.Settings(*settings), Random(f"posted runs {seed}"), readings
        self.posting = posting
        self.words, self.time, self.held, self.counts = [0] * tree.node_count(settings.levels), 0, {}, Counter()

    def hold(self, run, window):
        self.counts["overlaps"] += any(overlap(window, other) for other in self.held.values())
        self.counts["two hold"] += len(self.held) > 0
        self.held[run] = window

    def lived(self, runs, windows):
        """Lets so many runs take so many windows each, every other run long ones, and gives what is counted when all are idle. Of
        runs that do not end it is not asked whether the words are clean."""
        drawn = sorted(contended_windows(self.rng, self.settings.levels), key=lambda window: window[1] - window[0])
        short_and_long = drawn[:len(drawn) // 2], drawn[len(drawn) // 2:]
        lives = [Run(self, self.rng).life(self.rng.choices(short_and_long[place % 2], k=windows)) for place in range(runs)]
        waiting, delays = [(0, place) for place in range(runs)], 0
        while waiting and delays < MOST_DELAYS:
            self.time, place = heappop(waiting)
            delays += 1
            if (delay := next(lives[place], None)) is not None:
                heappush(waiting, (self.time + delay, place))
        self.counts["not ended"] += bool(waiting)
        self.counts["not clean"] += not waiting and not left_clean(self.settings, self.words, [True])
        return self.counts

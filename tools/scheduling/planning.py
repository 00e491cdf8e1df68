"""A schedule that gives every run its window: made by the model, a step for each run in turn, with cancel and back-off where runs block
each other, and back-off where one is out of patience."""

from typing import NamedTuple

from model.history import Call
from scheduling.durations import longest_claim, longest_later_piece, steps_needed
from scheduling.events import fresh
from scheduling.names import HELD, listed, window
from scheduling.text import MOST_CALLS, line_of, settings_line
from scheduling.waiting import patience_ends, wait_of

CANCELLED_IN = range(1, 9)
MOST_DOUBLINGS = 10


class Full(Exception):
    """More calls would be needed than a schedule has room for."""


class Planned(NamedTuple):
    """A call of the plan, and what is told of it beside its line."""

    call: Call
    told: str = ""


class Run:
    """A client and its wishes, in the order in which they are served; the first of them is the one it is at."""

    def __init__(self, client, wishes):
        self.client, self.wishes = client, wishes
        self.begin()

    def begin(self):
        """Before the next wish is asked for: nothing was given up yet."""
        self.gave_up, self.ask_at, self.release_at = 0, self.wishes[0].start if self.wishes else None, None
        self.gives_way_to = []

    def gives_way(self):
        """Whether some wish that it gave way to is not yet through."""
        return any(wish in other.wishes for other, wish in self.gives_way_to)

    def rank(self):
        """Who comes first is served first, and gives way last, however often it has to ask anew."""
        return self.wishes[0].start, self.wishes[0].line


class Planner:
    """Makes the calls on the model's table, one after another, and keeps them. All runs read one clock, that of the plan."""

    def __init__(self, schedule, wishes):
        self.settings, self.lock, self.planned, self.clock = schedule.settings, fresh(schedule), [], 0
        by_client = {wish.run: [] for wish in wishes}
        for wish in wishes:
            by_client[wish.run].append(wish)
        self.runs = [Run(client, of_client) for client, of_client in by_client.items()]
        # A claim that takes as many ticks as the wait is late, and a later piece that takes as many as the patience is given up: with a
        # shorter wait or patience all steps that can be made are made at one clock.
        levels, distance, wait, patience = schedule.settings
        in_time = longest_claim(levels, distance) < wait and longest_later_piece(levels, distance, wait) < patience
        self.ticks_a_round = 1 if in_time else 0

    def record(self, run):
        return self.lock.clients[run.client].record

    def make(self, kind, run, *numbers, told=""):
        if len(self.planned) == MOST_CALLS:
            raise Full
        call = Call(kind, run.client, *numbers)
        made = self.lock.make(call)
        if made.number != 0:
            raise AssertionError(f"the plan's {call} is refused by {made.number}")
        self.planned.append(Planned(call, told))

    def wait(self, run):
        """Whom a run waits for before it makes its next step. A climb waits before it begins, so that its noted time is fresh when it
        goes on; one that has begun goes on to where it fails."""
        record = self.record(run)
        if record.phase in (2, 4, 8, 10) or (record.phase == 3 and record.place == 0):
            return wait_of(self.settings, self.lock.words, self.lock.records, run.client)
        return None

    def next_moment(self, run):
        """The clock from which on a run can do something by itself; None if others have to act first. Who waits in a later piece can give
        up once its patience is over."""
        record = self.record(run)
        if record.phase == 0:
            return None if run.gives_way() else max(run.ask_at, self.clock)
        if record.phase == HELD:
            return run.release_at
        if self.wait(run):
            return patience_ends(self.settings, record)
        return record.t0 + self.settings.wait if record.phase == 7 else self.clock

    def ask(self, run):
        wish = run.wishes[0]
        steps = steps_needed(self.settings, wish.left, wish.right)
        said = "again" if run.gave_up else f"and needs {steps} steps with nobody in its way"
        self.make("request", run, wish.left, wish.right, told=f"clock {self.clock}: run {run.client} asks, {said}")

    def step(self, run):
        self.make("step", run, self.clock)
        phase = self.record(run).phase
        if phase == HELD:
            wish = run.wishes[0]
            run.release_at = self.clock + wish.ticks
            self.tell(f"run {run.client} holds {window(wish.left, wish.right)} until clock {run.release_at}")
        elif phase == 0:
            self.ended(run)

    def give_up(self, run):
        """A step of a run whose patience is over: it gives back and asks again, not before those that hold what it waits for are through."""
        clients = wait.clients() if (wait := self.wait(run)) else ()
        self.back_off(run, [other for other in self.runs if other.client in clients and other.release_at is not None])
        self.make("step", run, self.clock, told=f"clock {self.clock}: run {run.client} is out of patience, and gives back")

    def ended(self, run):
        """A run is idle: it has had its window, or gave way or up and asks again after a pause."""
        if run.release_at is not None:
            run.wishes.pop(0)
            run.begin()

    def release(self, run):
        """A release has no clock: a step of the run before it, which changes nothing else, says by the run's own until when it held."""
        if self.lock.clients[run.client].clock < self.clock:
            self.make("step", run, self.clock)
        self.make("release", run, told=f"clock {self.clock}: run {run.client} gives {window(*self.record(run)[2:4])} back")

    def back_off(self, run, others):
        """It asks again after a pause that doubles each time, and not before the others are through. Nobody waits for ever by that: the others
        either hold, or came before it."""
        pause = self.settings.wait << min(run.gave_up, MOST_DOUBLINGS)
        run.gave_up, run.ask_at = run.gave_up + 1, self.clock + pause
        run.gives_way_to = [(other, other.wishes[0]) for other in others]

    def give_way(self, run, others):
        """Cancel and back off."""
        self.back_off(run, others)
        names = listed([f"run {other.client}" for other in others])
        self.make("cancel", run, told=f"clock {self.clock}: run {run.client} gives way to {names}")

    def tell(self, words):
        self.planned[-1] = self.planned[-1]._replace(told=words)

    def serve(self, run):
        """One call of a run, if it can make one now; whether it could."""
        moment = self.next_moment(run)
        if moment is None or moment > self.clock:
            return False
        ends = patience_ends(self.settings, self.record(run))
        step = self.step if ends is None or ends > self.clock else self.give_up
        {0: self.ask, HELD: self.release}.get(self.record(run).phase, step)(run)
        return True

    def unblock(self):
        """Where runs wait for one that came after them and does not hold, it gives way; so of runs that wait for each other all but the
        first do. Of several that which came last, first those whose cancel gives something back at once: a ticket alone is given back
        when its turn comes. Whether there was one."""
        waits = {run.client: wait.clients() for run in self.runs if (wait := self.wait(run))}
        waiting = [(run, reached(waits, run.client)) for run in self.runs if run.client in waits]
        in_the_way = {}
        for other in self.runs:
            before = [run for run, awaited in waiting if other.client in awaited and run.rank() < other.rank()]
            if before and self.record(other).phase in CANCELLED_IN:
                in_the_way[other] = before
        if in_the_way:
            last = max(in_the_way, key=lambda run: (self.record(run).current > 0 or self.record(run).grip != 1, run.rank()))
            self.give_way(last, in_the_way[last])
        return bool(in_the_way)

    def round(self):
        """A call for each run that can make one, first come first served; whether any could."""
        served = [self.serve(run) for run in sorted(self.runs, key=Run.rank)]
        self.runs = [run for run in self.runs if run.wishes]
        return any(served)

    def plan(self):
        """Rounds until all wishes are given. When nobody can do anything, somebody gives way, or the clock goes on to where somebody can."""
        while self.runs:
            if self.round():
                self.clock += self.ticks_a_round
            elif not self.unblock():
                self.clock = min(moment for run in self.runs if (moment := self.next_moment(run)) is not None)
        return self.planned


def reached(waits, client):
    """The clients that one waits for, directly or through others that wait."""
    found, to_ask = set(), [client]
    while to_ask:
        new = set(waits.get(to_ask.pop(), ())) - found
        found |= new
        to_ask += new
    return found


def planned_within(schedule, wishes):
    """The plan of these wishes, or None if it has too many calls."""
    try:
        return Planner(schedule, wishes).plan()
    except Full:
        return None


def plan(schedule, wishes):
    """The plan of as many wishes, first come first served, as there is room for; and the wishes that are left out."""
    fits, least, most = planned_within(schedule, wishes), 0, len(wishes)
    if fits is not None:
        return fits, []
    while most - least > 1:
        middle = (least + most) // 2
        if (found := planned_within(schedule, wishes[:middle])) is not None:
            fits, least = found, middle
        else:
            most = middle
    return fits or [], wishes[least:]


def left_out(wishes):
    """What is said of the wishes for which there was no room."""
    if wishes:
        yield f"a schedule has at most {MOST_CALLS} calls, which do not suffice for {len(wishes)} of the wishes:"
    for wish in wishes:
        asked = wish.words or window(wish.left, wish.right)
        yield f"line {wish.line}: run {wish.run} wants {asked} from {wish.start} for {wish.ticks}: left out"


def plan_lines(schedule, wishes, planned, left, calendar=None):
    """The text of a plan, with a word on who asks, holds and gives back. The calendar and windows as ward hours are written as in the wishes."""
    yield f"# A plan for {len(wishes) - len(left)} of {len(wishes)} wishes: {len(planned)} of at most {MOST_CALLS} calls."
    yield from (f"# {line}" for line in left_out(left))
    yield settings_line(schedule)
    yield from calendar.lines if calendar else ()
    words = {(wish.left, wish.right): wish.words for wish in wishes if wish.words}
    for call, told in planned:
        line = line_of(call, words.get((call.a, call.b), "") if call.kind == "request" else "")
        yield f"{line:<24} # {told}" if told else line

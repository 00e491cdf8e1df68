"""The clocks by which the clients of a random history step, each its own: any clocks, or such as keep request 2.3's supposition, with any
offset and every rate that it allows."""

from model.moments import greatest_elapse, least_elapse
from model.step import WITH_PATIENCE

TOP = 2 ** 64 - 1
TICKS = (0, 0.02, 0.1, 0.4)
JUMPS = (0.05, 0.2, 0.4)
BACK = 0.01
# How many waits a history with true moments may last: where that is little, clocks that began near their end come to it.
LASTING = (100, 500, 2000)
# T from the least to the greatest: up to 5,000 ticks a claim is late when T has passed, and then sooner; between two steps of a client that
# are less than 10,000 apart no drift can be seen; and multiples of 10,001, at which both sides of the late test can be equal.
EDGE_WAITS = (1, 2, 9, 4999, 5000, 5001, 9999, 10000, 10001, 20002, 123456, 2 ** 31, 2 ** 32 - 2, 2 ** 32 - 1)


def first_late(wait):
    """The fewest ticks after t1 with which a claim is late."""
    return -(-9999 * wait // 10001)


def fewest_ticks(elapse):
    """The fewest ticks that a clock may go on by in a true elapse."""
    return -(-9999 * elapse // 10000)


def most_ticks(elapse):
    """And the most."""
    return 10001 * elapse // 10000


def ends(settings, record):
    """The clocks that a client in the middle comes to: its wait is over, its claim is late, by document 01's rule too, or, at a second
    piece, its patience runs out."""
    found = []
    if record.phase == 7:
        found.append(record.t0 + settings.wait)
    elif record.phase in (3, 5, 6):
        found += [record.t1 + first_late(settings.wait), record.t1 + settings.wait]
    if record.current > 0 and record.phase in WITH_PATIENCE:
        found.append(record.taken + settings.patience)
    return found


class AnyClocks:
    """Each clock mostly stands still or goes on by 1, at times by about T or far, at times back, whatever the others do."""

    def __init__(self, opened, rng):
        self.opened, self.rng = opened, rng
        self.ticks, self.jumps = rng.choice(TICKS), rng.choice(JUMPS)

    def clock(self, client):
        """The clock of this client's next step."""
        return min(max(self.drawn(self.opened.clients[client]), 0), TOP)

    def drawn(self, client):
        last, wait, chance = client.clock, self.opened.settings.wait, self.rng.random()
        if chance < BACK:
            return self.rng.randint(0, last)
        if chance < BACK + self.jumps:
            beside = [end - before for end in ends(self.opened.settings, client.record) for before in (0, 1)]
            return max(last, self.rng.choice([*beside, last + wait - 1, last + wait, last + 10 * wait]))
        return last + (1 if self.rng.random() < self.ticks else 0)


# How many ticks a clock goes on by in an elapse, between the fewest and the most that it may.
RATES = {
    "fast": lambda rng, elapse: most_ticks(elapse),
    "slow": lambda rng, elapse: fewest_ticks(elapse),
    "true": lambda rng, elapse: elapse,
    "changing": lambda rng, elapse: rng.randint(fewest_ticks(elapse), most_ticks(elapse)),
}


class TrueClocks:
    """Every call has a true moment, which never goes back. A client's first accepted step has any clock, and each further one as many ticks
    more as its rate gives it for the elapse since the step before; so the supposition is met between any two of them, by adding up. A step
    whose clock goes back is refused, and of it nothing is supposed."""

    def __init__(self, opened, rng):
        self.opened, self.rng = opened, rng
        self.ticks, self.jumps = rng.choice(TICKS), rng.choice(JUMPS)
        self.last_moment = opened.settings.wait * rng.choice(LASTING)
        self.rates = [rng.choice(["fast", "slow", *RATES]) for _ in opened.clients]
        self.moment, self.moments, self.stepped = 0, [], {}

    def first_clock(self, rate):
        """Near 0, near 2^32, or so near 2^64 that the clock comes to the greatest number, or nearly, at the last moment."""
        left = self.last_moment - self.moment
        near_top = TOP - (most_ticks(left) if rate in ("fast", "changing") else left)
        return self.rng.choice([self.rng.randrange(5), 2 ** 32 - self.rng.randrange(5), near_top])

    def catch_up(self):
        """Notes the moments of the calls that were made since, and of accepted steps clock and moment."""
        for made in self.opened.history[len(self.moments):]:
            self.moments.append(self.moment)
            if made.call.kind == "step" and made.number == 0:
                self.stepped[made.call.client] = made.call.a, self.moment

    def clock(self, client):
        """The clock of this client's next step."""
        self.catch_up()
        self.moment = min(max(self.moment, self.drawn_moment()), self.last_moment)
        last = self.opened.clients[client].clock
        return self.rng.randrange(last) if last > 0 and self.rng.random() < BACK else self.reading(client)

    def reading(self, client):
        """What this client's clock says at the moment."""
        rate = self.rates[client]
        if client not in self.stepped:
            return self.first_clock(rate)
        clock, since = self.stepped[client]
        return clock + RATES[rate](self.rng, self.moment - since)

    def drawn_moment(self):
        """Mostly stands still or goes on by 1, at times to about an end that some client comes to, at times by a part of T or by
        twice T."""
        chance, wait = self.rng.random(), self.opened.settings.wait
        if chance < self.jumps and (ahead := self.ahead()):
            return self.moment_of(*self.rng.choice(ahead))
        if chance < 1.3 * self.jumps:
            return self.moment + self.rng.choice([wait - 1, self.rng.randrange(wait), self.rng.randrange(wait), 2 * wait])
        return self.moment + (1 if self.rng.random() < self.ticks else 0)

    def ahead(self):
        """The ends that clients have still to come to, client and clock; more often than not those of waits alone, if there are any."""
        clients = {client: self.opened.clients[client] for client in self.stepped}
        found = ((number, end) for number, client in clients.items() for end in ends(self.opened.settings, client.record))
        found = [(number, end) for number, end in found if end > clients[number].clock]
        waits = [(number, end) for number, end in found if clients[number].record.phase == 7]
        return waits if waits and self.rng.random() < 0.7 else found

    def moment_of(self, client, end):
        """The moment at which a client's clock comes to an end at its rate, or one beside it."""
        clock, since = self.stepped[client]
        elapse = {"fast": least_elapse, "slow": greatest_elapse}.get(self.rates[client], int)(end - clock)
        return since + elapse + self.rng.choice([-1, 0, 0, 0, 0, 1])

"""Client 0 takes [10, 20) and works. Client 1 wants [15, 30): it gives up, pauses, asks anew, and has it once client 0 has released.
take.py [LEVELS]: the tree has 3 levels, or as many as are said."""

import sys

from nolthewyr import Phase, Refused, Settings, Table, outcome_text, phase_text, step_count

# Longer than a claim takes: from its first climb to its last notice at most 23 steps.
WAIT = 30
# Longer than a second piece takes if nobody is in its way: at most 47 steps after the first. A client that has its first piece keeps others
# waiting, perhaps those for whom it waits, so that it is to give up sooner than one that has nothing.
PATIENCE = 100
# No window takes so many if nobody is in its way.
MOST_STEPS = 300
FIRST_LIMIT = 200
LAST_LIMIT = 1600
WORK = 800


class Clients:
    """The clients of one table. `now` is the true time, here a count of steps and pauses. Clients that run by themselves begin each with a
    `state` of its own for its random pauses."""

    def __init__(self, table):
        self.table, self.now, self.state = table, 0, 88172645463325252

    def own_clock(self, client):
        """The client's own clock, which began at another number than the others': nobody has to agree on the time. A client that runs by
        itself reads a clock of its machine here; docs/LINKING.md says which will do."""
        return self.now + 1000000 * client

    def step(self, client):
        self.now += 1
        return self.table.step(client, self.own_clock(client))

    def step_until_idle(self, client):
        while self.table.record(client).phase != Phase.IDLE:
            self.step(client)
        print(f"client {client} is idle at {self.now}: {outcome_text(self.table.record(client).outcome)}")

    def attempt(self, client, left, right):
        """Whether the client holds the window after a limited number of steps. If not it is idle again: it was late, its patience ran out,
        or it gave up. It has then given everything back, and whoever waited for that comes on; so it may well have the window next time."""
        phase, steps = self.table.request(client, left, right), 0
        while steps < MOST_STEPS and phase not in (Phase.HELD, Phase.IDLE):
            phase, steps = self.step(client), steps + 1
        if phase == Phase.HELD:
            return True
        if phase not in (Phase.IDLE, Phase.RETURNING):
            self.table.cancel(client)
        self.step_until_idle(client)
        return False

    def release(self, client):
        self.table.release(client)
        self.step_until_idle(client)

    def show_planners(self):
        """What planners see of every client that is not idle: its phase and window, and how many units are locked beyond the window."""
        for client, row in enumerate(self.table.planners_page()):
            if row.phase != Phase.IDLE:
                print(f"planners see client {client}: {phase_text(row.phase)}, [{row.left}, {row.right}) and {row.over} units beyond")

    def let_pass(self, client, pause):
        """A client that runs by itself sleeps here. In this program client 0 ends its work meanwhile. How many clients hold their windows
        is all that a client may know of the others."""
        self.now += pause
        print(f"client {client} has paused until {self.now}; clients that hold: {self.table.run_page(client).held}")
        if self.table.record(0).phase == Phase.HELD and self.now >= WORK:
            self.release(0)

    def drawn(self, limit):
        """A random number below the limit, as the examples in C and Rust draw it: clients that gave up together must not ask anew together.
        A program that is not compared with others takes `random.randrange(limit)`."""
        self.state ^= self.state << 13 & 2 ** 64 - 1
        self.state ^= self.state >> 7
        self.state ^= self.state << 17 & 2 ** 64 - 1
        return self.state % limit

    def take(self, client, left, right):
        """Asks until the window is held. After each attempt it pauses for a random time, below a limit that doubles up to a last one."""
        limit = FIRST_LIMIT
        while not self.attempt(client, left, right):
            self.let_pass(client, self.drawn(limit))
            limit = min(2 * limit, LAST_LIMIT)
        print(f"client {client} holds [{left}, {right}) at {self.now}")


def say_steps(settings, client, left, right):
    """Says before the client asks how many steps the window needs if nobody is in its way. Levels and distance are enough to know. A window
    with an inner node takes more of them here, since this program goes on stepping while the client waits."""
    steps = step_count(settings.levels, settings.distance, left, right)
    print(f"client {client} needs {steps} steps for [{left}, {right}) if nobody is in its way")


def run(settings, table):
    clients = Clients(table)
    say_steps(settings, 0, 10, 20)
    clients.take(0, 10, 20)
    say_steps(settings, 1, 15, 30)
    clients.take(1, 15, 30)
    clients.show_planners()
    clients.release(1)


def main():
    levels = int(sys.argv[1]) if len(sys.argv) > 1 else 3
    settings = Settings(levels, distance=2, wait=WAIT, patience=PATIENCE)
    try:
        run(settings, Table(settings, clients=2))
    except Refused as refused:
        sys.exit(str(refused))


if __name__ == "__main__":
    main()

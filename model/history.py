"""The section "Histories": a history of calls, who holds or is idle after it, said from the history alone, and the two
claims of demand 3. The first of them, that windows are held apart, is made for histories that meet the supposition in moments.py."""

from typing import NamedTuple

from model import table, tree, word

KINDS = ("request", "step", "release", "cancel")


class Call(NamedTuple):
    """A request (a = l, b = r), step (a = clock), release or cancel, with any client, edges and clock."""

    kind: str
    client: int
    a: int = 0
    b: int = 0


class Made(NamedTuple):
    """A call that was made: its number (0 accepted), and the phase in which it gave the client's record back (None
    without one)."""

    call: Call
    number: int
    phase: int


class Opened:
    """The words, records and clocks that an accepted opening left, and then every call of a history."""

    def __init__(self, settings, words, clients):
        self.settings, self.words, self.clients = settings, words, clients
        self.history = []
        if number := table.opening(settings, words, clients):
            raise ValueError(f"the opening is refused by {number}")

    @property
    def records(self):
        """The clients' records, to read."""
        return [client.record for client in self.clients]

    def answer(self, call):
        """Every call is made with that opening's H, m, T and P, on the words, records and last clocks that the call
        before left."""
        lent = self.settings, self.words, self.clients, call.client
        if call.kind == "request":
            return table.request(*lent, call.a, call.b)
        if call.kind == "step":
            return table.step(*lent, call.a)
        return {"release": table.release, "cancel": table.cancel}[call.kind](*lent)

    def make(self, call):
        """Makes the call and writes it into the history."""
        number = self.answer(call)
        phase = self.clients[call.client].record.phase if call.client < len(self.clients) else None
        made = Made(call, number, phase)
        self.history.append(made)
        return made


def accepted_since_request(history, client):
    """The client's last accepted request, or None, and its accepted calls since then."""
    since = []
    for made in reversed(history):
        if made.call.client == client and made.number == 0:
            if made.call.kind == "request":
                return made.call, since
            since.append(made)
    return None, since


def holds(history, client):
    """After a history a client holds [l, r) if these are the edges of its last accepted request, an accepted step of
    it since then gave its record back in phase 9, and no release of it has been accepted since that request. None if
    it holds no window."""
    request, since = accepted_since_request(history, client)
    if request is None:
        return None
    held = any(made.call.kind == "step" and made.phase == 9 for made in since)
    released = any(made.call.kind == "release" for made in since)
    return (request.a, request.b) if held and not released else None


def idle(history, client):
    """It is idle if no request of it was accepted, or an accepted call of it since the last such request gave its
    record back in phase 0."""
    request, since = accepted_since_request(history, client)
    return request is None or any(made.phase == 0 for made in since)


def overlap(one, other):
    """Two windows overlap if some unit u has l <= u < r in both."""
    return max(one[0], other[0]) < min(one[1], other[1])


def held_apart(windows):
    """No two different clients hold overlapping windows; `windows` has what each client holds, None for no window."""
    held = [window for window in windows if window is not None]
    return not any(overlap(one, other) for place, one in enumerate(held) for other in held[:place])


def at_rest(settings, n, found):
    """A leaf word 0; of an inner word both flags 0, the ticket counts equal and the notice counts equal."""
    if tree.is_leaf(settings.levels, n):
        return found == 0
    inner = word.unpack(found)
    return inner.exp == 0 and inner.occ == 0 and inner.tcnt == inner.tmax and inner.dcnt == inner.dmax


def left_clean(settings, words, idles):
    """If all clients are idle, every word is at rest; `idles` has for each client whether it is idle."""
    return not all(idles) or all(found == 0 or at_rest(settings, place + 1, found) for place, found in enumerate(words))

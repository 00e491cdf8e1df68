"""The compiled calls of a client that has no words lent, from Python. Settings and clients are packed here, since structs that are made number by
number would take longer than the calls."""

from functools import lru_cache
from struct import Struct

from compiled_table import library, nolthewyr
from operation_states import Applied, OwnCall, Step

CLIENT, OPERATION, AFTER = Struct("16Q"), Struct("7Q"), Struct("17Q")


@lru_cache(maxsize=4096)
def lent_settings(settings):
    """Calls write no settings, so that these stand for all calls with the same numbers."""
    return nolthewyr.Settings(*settings)


def lent_client(client):
    return nolthewyr.Client.from_buffer_copy(CLIENT.pack(client.clock, *client.record))


def of_step(asked):
    """The operation, the word that it leaves, and the number and the client when it is completed."""
    lent = lent_client(asked.client), lent_settings(asked.settings), asked.clock
    posted = library().nolthewyr_operation(*lent)
    left, completed = library().nolthewyr_applied(posted, asked.found), library().nolthewyr_completed(*lent, asked.found)
    return *OPERATION.unpack(posted), left, *AFTER.unpack(completed)


def of_own_call(asked):
    call = getattr(library(), f"nolthewyr_{asked.call}")
    return AFTER.unpack(call(lent_client(asked.client), lent_settings(asked.settings), *asked.edges))


def of_applied(asked):
    return (library().nolthewyr_applied(nolthewyr.OperationAnswer.from_buffer_copy(OPERATION.pack(*asked.posted)), asked.found),)


BY_KIND = {Step: of_step, OwnCall: of_own_call, Applied: of_applied}


def answer(asked):
    """What the compiled calls answer to a question."""
    return BY_KIND[type(asked)](asked)


class ByOperations:
    """Clients who keep their own records, and the words, which only their operations touch."""

    def __init__(self, settings, clients):
        self.settings, self.words = nolthewyr.Settings(*settings), [0] * nolthewyr.word_count(settings.levels)
        self.clients = [nolthewyr.Client() for _ in range(clients)]

    def make(self, call):
        """The number of a call, and the node whose word it touches, 0 for none."""
        if call.client >= len(self.clients):
            return nolthewyr.Cause.CLIENT, 0
        if call.kind == "step":
            return self.step(call.client, call.a)
        edges = (call.a, call.b) if call.kind == "request" else ()
        return self.given(call.client, getattr(library(), f"nolthewyr_own_{call.kind}")(self.clients[call.client], self.settings, *edges)), 0

    def step(self, client, clock):
        """One operation, the word that it leaves, and its completion."""
        posted = library().nolthewyr_operation(self.clients[client], self.settings, clock)
        if posted.number:
            return posted.number, 0
        found = self.words[posted.node - 1] if posted.node else 0
        number = self.given(client, library().nolthewyr_completed(self.clients[client], self.settings, clock, found))
        if posted.node:
            self.words[posted.node - 1] = library().nolthewyr_applied(posted, found)
        return number, posted.node

    def given(self, client, answer):
        self.clients[client] = answer.next
        return answer.number

    def unlike(self, table, client):
        """Whether the clock and the record of a client are not the table's."""
        mine, other = self.clients[client], table.clients[client]
        return mine.clock != other.clock, tuple(mine.record) != tuple(other.record)

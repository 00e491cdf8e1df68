"""The model's table with the calls of the bindings' `Table`, so that what is written for the one runs on the other."""

from model import pages, tree
from model.history import Call, Opened
from model.record import IDLE_CLIENT, Settings


class ModelTable:
    """An opened table. A call gives its client's phase; a refused one raises."""

    def __init__(self, settings, clients):
        of_lock = Settings(*settings)
        self.lock = Opened(of_lock, [0] * tree.node_count(of_lock.levels), [IDLE_CLIENT] * clients)

    def make(self, kind, client, *numbers):
        call = Call(kind, client, *numbers)
        if number := self.lock.answer(call):
            raise ValueError(f"{call} is refused by {number}")
        return self.record(client).phase

    def request(self, client, left, right):
        return self.make("request", client, left, right)

    def step(self, client, clock):
        return self.make("step", client, clock)

    def release(self, client):
        return self.make("release", client)

    def cancel(self, client):
        return self.make("cancel", client)

    def record(self, client):
        return self.lock.clients[client].record

    def planners_page(self):
        rows = [pages.Row()] * len(self.lock.clients)
        pages.planners_page(self.lock.settings, self.lock.clients, rows)
        return rows

    def run_page(self, client):
        return pages.run_page(self.lock.settings, self.lock.clients, client)

"""The compiled calls over a lent table of clients, from Python: the structs and functions of the binding, with clients and words lent
as a test wants them."""

import os
import sys
from ctypes import Array, c_uint64
from functools import lru_cache

from compare import unlike
from library import ROOT, made
from model.history import KINDS, Made
from model.pages import Row, RunPage
from model.record import Record

sys.path.insert(0, str(ROOT / "python"))

import nolthewyr


@lru_cache(maxsize=None)
def library():
    """The shared library, built and loaded when a function of it is first asked for."""
    os.environ["NOLTHEWYR_LIBRARY"] = str(made("build/libnolthewyr.so"))
    return nolthewyr.library()


def cover(levels, left, right):
    """The compiled cover: its number, the pieces and the over-cover."""
    return tuple(library().nolthewyr_cover(levels, left, right))


def step_count(levels, distance, left, right):
    """The compiled step count: its number, and the steps."""
    return tuple(library().nolthewyr_step_count(levels, distance, left, right))


def clients_unlike(mine, others):
    """How many clocks and how many records of two tables differ."""
    clocks = ([client.clock for client in table] for table in (mine, others))
    records = ([tuple(client.record) for client in table] for table in (mine, others))
    return unlike(*clocks), unlike(*records)


class Table:
    """Words and clients lent to the compiled calls. It can be driven and watched like the model's opened table."""

    def __init__(self, settings, words, clients):
        """Lends a list of words, or memory that has them already."""
        self.settings, self.history = settings, []
        self.words = words if isinstance(words, Array) else (c_uint64 * len(words))(*words)
        self.clients = (nolthewyr.Client * len(clients))(*((client.clock, tuple(client.record)) for client in clients))
        self.lent = self.clients, len(clients), self.words, len(words), nolthewyr.Settings(*settings)

    def open(self):
        return library().nolthewyr_open(*self.lent)

    def answer(self, call, told):
        """Makes one call by its own function; `told` stands in the field `kind`, at which none looks."""
        return getattr(library(), f"nolthewyr_{call.kind}")(*self.lent, nolthewyr.Call(told, call.client, call.a, call.b))

    def make(self, call):
        """Makes the call on what the last one left, and writes it into the history."""
        number = self.answer(call, KINDS.index(call.kind))
        phase = self.clients[call.client].record.phase if call.client < len(self.clients) else None
        made = Made(call, number, phase)
        self.history.append(made)
        return made

    def planners_page(self, rows, count):
        """Lends these rows, of which the page is told the first `count`: its number, and all of them after it."""
        lent = (nolthewyr.Row * len(rows))(*(tuple(row) for row in rows))
        clients, length, _, _, settings = self.lent
        number = library().nolthewyr_planners_page(clients, length, lent, count, settings)
        return number, [Row(*row) for row in lent]

    def run_page(self, client):
        clients, length, _, _, settings = self.lent
        page = library().nolthewyr_run_page(clients, length, settings, client)
        return RunPage(page.number, Record(*page.own), page.held)

    def unlike(self, words, clients):
        """How many clocks, records and words are not these."""
        return *clients_unlike(self.clients, clients), unlike(self.words, words)

"""A tree of any height as an opening leaves it, of which only the words that are written are kept."""

from model import tree
from model.history import Opened
from model.record import IDLE_CLIENT


class Sparse:
    """The words of a tree, nearly all of them 0: a list that keeps the others only, by node."""

    def __init__(self, count, words):
        self.count, self.words = count, dict(words)

    def __len__(self):
        return self.count

    def __getitem__(self, place):
        return self.words.get(place + 1, 0)

    def __setitem__(self, place, value):
        self.words[place + 1] = value


class Fresh(Opened):
    """What an accepted opening left of a tree of any height: its words are 0 already."""

    def __init__(self, settings, clients):
        self.settings, self.words = settings, Sparse(tree.node_count(settings.levels), {})
        self.clients, self.history = [IDLE_CLIENT] * clients, []

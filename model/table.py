"""The calls over a lent table of clients: causes 1 to 4, then the call by value on the client. Each gives the number (0 accepted), and
writes the lent words and clients in place if it is accepted."""

from model import calls
from model.calls import settings_or_words_refused
from model.record import IDLE_CLIENT

MOST_CLIENTS = 32767


def clients_outside(clients):
    """No clients, or over 32,767."""
    return not 1 <= len(clients) <= MOST_CLIENTS


def lent_refused(settings, words, clients):
    """1, 2, and 3: no clients, or over 32,767."""
    if number := settings_or_words_refused(settings, words):
        return number
    return 3 if clients_outside(clients) else 0


def opening(settings, words, clients):
    """Opening tests 1 to 3, then zeroes words, records and clock, which is each client's."""
    if number := lent_refused(settings, words, clients):
        return number
    words[:] = [0] * len(words)
    clients[:] = [IDLE_CLIENT] * len(clients)
    return 0


def of_client(call, settings, words, clients, client, *arguments):
    """1 to 3, then 4: client not below the table's count, then the call on this client."""
    if number := lent_refused(settings, words, clients):
        return number
    if client >= len(clients):
        return 4
    number, clients[client] = call(settings, words, clients[client], *arguments)
    return number


def request(settings, words, clients, client, l, r):
    return of_client(calls.request, settings, words, clients, client, l, r)


def step(settings, words, clients, client, clock):
    return of_client(calls.step, settings, words, clients, client, clock)


def release(settings, words, clients, client):
    return of_client(calls.release, settings, words, clients, client)


def cancel(settings, words, clients, client):
    return of_client(calls.cancel, settings, words, clients, client)

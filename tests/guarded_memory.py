"""Memory between two pages that nobody may read: a call that reads before or behind what is lent ends its process."""

import resource
from ctypes import CDLL, POINTER, addressof, c_char, c_int, c_size_t, c_uint64, c_void_p, cast, get_errno, sizeof
from mmap import PAGESIZE, mmap
from multiprocessing import get_context
from os import strerror

UNREADABLE = 0


class Guarded:
    """Pages that can be read, with one before and one behind them that cannot."""

    def __init__(self, pages):
        self.size = pages * PAGESIZE
        self.memory = mmap(-1, self.size + 2 * PAGESIZE)
        self.start = addressof(c_char.from_buffer(self.memory)) + PAGESIZE
        protect = CDLL(None, use_errno=True).mprotect
        protect.argtypes = c_void_p, c_size_t, c_int
        for guard in (self.start - PAGESIZE, self.start + self.size):
            if protect(guard, PAGESIZE, UNREADABLE) != 0:
                raise OSError(f"a page is still readable: {strerror(get_errno())}")

    def put(self, numbers, at_end):
        """Lends numbers of 64 bits that begin where the readable pages do, or end where they end."""
        size = len(numbers) * sizeof(c_uint64)
        lent = cast(self.start + self.size - size if at_end else self.start, POINTER(c_uint64))
        for place, number in enumerate(numbers):
            lent[place] = number
        return lent


def answer_each(ask, questions, answers):
    resource.setrlimit(resource.RLIMIT_CORE, (0, 0))
    for question in questions:
        answers.send(ask(question))


def asked_apart(ask, questions):
    """What a process of its own answers to each question, up to the one that ends it."""
    context = get_context("fork")
    receiving, sending = context.Pipe(duplex=False)
    process = context.Process(target=answer_each, args=(ask, questions, sending))
    process.start()
    sending.close()
    found = []
    try:
        while True:
            found.append(receiving.recv())
    except EOFError:
        process.join()
    return found

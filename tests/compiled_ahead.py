"""The compiled calls for operations that are posted together, from Python: the whole of the lent list is seen, also behind what is put into it."""

from ctypes import POINTER, c_uint64, cast
from functools import lru_cache
from struct import Struct

from ahead_states import Ahead
from compiled_operations import OPERATION, lent_client, lent_settings
from compiled_table import library, nolthewyr
from guarded_memory import Guarded

ALL_AFTER = Struct("18Q")
# What stands in a lent list before the call, other numbers at each place; and how many operations behind its room are looked at too.
SPARE = 2
GUARDED_PAGES = 2
BEFORE = b"".join(OPERATION.pack(*(0x5A5A000000000000 + 8 * place + field for field in range(7))) for place in range(100))


@lru_cache(maxsize=2 ** 16)
def packed(fields):
    return OPERATION.pack(*fields)


def packed_list(fields):
    """Operations whose fields stand one behind another."""
    width = OPERATION.size // 8
    return b"".join(packed(fields[at:at + width]) for at in range(0, len(fields), width))


def lent_list(room):
    """A list of so many operations, and a few behind it that are not lent."""
    return (nolthewyr.OperationAnswer * (room + SPARE)).from_buffer_copy(BEFORE[:(room + SPARE) * OPERATION.size])


def operations_ahead(asked):
    """The number, the count, and what is in the list after the call, up to a little behind its room."""
    lent = lent_list(asked.room)
    answer = library().nolthewyr_operations_ahead(lent_client(asked.client), lent_settings(asked.settings), asked.clock, lent, asked.room)
    return answer.number, answer.count, bytes(lent)


def completed_all(asked):
    """The number, how many count, and the client after those."""
    lent = (c_uint64 * len(asked.found))(*asked.found)
    answer = library().nolthewyr_completed_all(
        lent_client(asked.client), lent_settings(asked.settings), asked.clock, lent, len(asked.found))
    return ALL_AFTER.unpack(answer)


class Guarding:
    """The same calls with lent memory that ends where a page begins that nobody may touch."""

    def __init__(self):
        self.guarded = Guarded(GUARDED_PAGES)

    def lent(self, numbers):
        return self.guarded.put(numbers, at_end=True)

    def answer(self, asked):
        client, settings = lent_client(asked.client), lent_settings(asked.settings)
        if isinstance(asked, Ahead):
            room = cast(self.lent([0] * (OPERATION.size // 8 * asked.room)), POINTER(nolthewyr.OperationAnswer))
            return tuple(library().nolthewyr_operations_ahead(client, settings, asked.clock, room, asked.room))
        return ALL_AFTER.unpack(library().nolthewyr_completed_all(client, settings, asked.clock, self.lent(asked.found), len(asked.found)))


def one_by_one(asked):
    """The same by the calls for one operation: each is completed if it is what the client posts by then, up to the first that is not, or is
    refused."""
    client, settings = lent_client(asked.client), lent_settings(asked.settings)
    posted = (nolthewyr.OperationAnswer * len(BEFORE[::OPERATION.size]))()
    number, count = library().nolthewyr_operations_ahead(client, settings, asked.clock, posted, len(posted))
    counted = 0
    for each, found in zip(posted[:count], asked.found):
        due = library().nolthewyr_operation(client, settings, asked.clock)
        answer = library().nolthewyr_completed(client, settings, asked.clock, found)
        if bytes(due) != bytes(each) or answer.number:
            number = answer.number if counted == 0 else 0
            break
        client, counted = answer.next, counted + 1
    return number, counted, client.clock, *client.record

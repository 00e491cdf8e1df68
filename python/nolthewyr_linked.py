"""What the library has, as it is linked: the structs, the numbers with a name for each value, and the functions with their types, in the
shared library that is loaded here. A program imports nolthewyr.py, which stands beside this file and has all of it. include/nolthewyr.h
says what each struct and function is.
"""

import os
from ctypes import CDLL, POINTER, Structure, c_char_p, c_size_t, c_uint64
from enum import IntEnum
from functools import lru_cache
from pathlib import Path

# Structs grow between versions, and functions come with the third number: a library of another series, or of a lower version, is not used.
SERIES = "0.4"
LEAST = 4
FILE = f"libnolthewyr.so.{SERIES}"

Phase = IntEnum("Phase", "IDLE TICKET TURN CLIMB BLOCKED CLAIM NOTIFY WAIT CHECK HELD RETURNING", start=0)
# After LATE and OUT_OF_PATIENCE nothing is wrong with the window: the client asks for it again.
Outcome = IntEnum("Outcome", "NONE RELEASED LATE CANCELLED OUT_OF_PATIENCE", start=0)
# 10 and 11 are those of rangelog and rangepages alone.
Cause = IntEnum("Cause", {
    "ACCEPTED": 0, "SETTINGS": 1, "WORD_COUNT": 2, "CLIENT_COUNT": 3, "CLIENT": 4, "CLOCK": 5, "UNREADABLE": 6, "WINDOW": 7, "PHASE": 8,
    "CLEAR_BIT": 9, "CALENDAR": 12, "LAST_QUARTER": 13, "CLOSED": 14})

# What an operation does to its word.
Operation = IntEnum("Operation", "NONE READ ADD SWAP", start=0)


def fitting(number):
    """The number, if it has at most 64 bits. ctypes would cut it without a word."""
    if not 0 <= number < 2 ** 64:
        raise ValueError(f"a number of the lock is from 0 to 2^64 - 1; got {number}")
    return number


class Fields(Structure):
    """Fields that can be gone through in order, and are shown by their names."""

    def __iter__(self):
        return (getattr(self, name) for name, _ in self._fields_)

    def __repr__(self):
        return f"{type(self).__name__}({', '.join(f'{name}={getattr(self, name)}' for name, _ in self._fields_)})"


class Numbers(Fields):
    """Fields that are all numbers of 64 bits."""

    def __init__(self, *numbers, **named):
        super().__init__(*map(fitting, numbers), **{name: fitting(number) for name, number in named.items()})


def numbers(names):
    return [(name, c_uint64) for name in names.split()]


class Settings(Numbers):
    """The levels of the tree (2..12), the distance of notices (1..4), the wait and the patience (both 1..2^32 - 1)."""

    _fields_ = numbers("levels distance wait patience")


class Record(Numbers):
    """A client's record. A caller reads the phase, the outcome and the window [left, right)."""

    _fields_ = numbers("phase outcome left right first second current giving grip ticket place notices t1 t0 taken")


class Client(Fields):
    """A client: its last clock, which is that of its last accepted step and 0 after an opening, and its record."""

    _fields_ = [("clock", c_uint64), ("record", Record)]

    def __init__(self, clock=0, record=Record()):
        super().__init__(fitting(clock), record)


class Call(Numbers):
    """What a call asks: a request has its edges in a and b, a step its clock in a."""

    _fields_ = numbers("kind client a b")


class CoverAnswer(Numbers):
    """The nodes of a window (second 0 for none) and how many units they have beyond it."""

    _fields_ = numbers("number first second over")


class StepCountAnswer(Numbers):
    """How many steps a window needs."""

    _fields_ = numbers("number steps")


class Row(Numbers):
    """What planners see of a client: its phase, its window [left, right), the nodes of it (second 0 for none), how many units these have
    beyond it, and how many steps the window needs with nobody in its way, whatever the phase; all 0 for an idle client."""

    _fields_ = numbers("phase left right first second over steps")


class RunPageAnswer(Fields):
    """What a forecast run sees: its own record, and how many clients hold their windows."""

    _fields_ = [("number", c_uint64), ("own", Record), ("held", c_uint64)]


class Calendar(Numbers):
    """A calendar of wards: the levels of the tree, how many wards there are (1..64) and how many weeks (1..60)."""

    _fields_ = numbers("levels wards weeks")


class Quarter(Numbers):
    """A quarter of an hour of a ward: ward and week from 0, the day 0..6, the quarter of that day 0..95."""

    _fields_ = numbers("ward week day quarter")


class CalendarWindowAnswer(Numbers):
    """The edges of a ward's window."""

    _fields_ = numbers("number left right")


class CalendarQuarterAnswer(Fields):
    """The quarter that a unit is."""

    _fields_ = [("number", c_uint64), ("at", Quarter)]


class OperationAnswer(Numbers):
    """An operation on the word of a node, word `node` - 1: its kind, the masks and numbers of a swap, and in `value` the deltas of an add."""

    _fields_ = numbers("number kind node compared expected swapped value")


class ClientAnswer(Fields):
    """A client after a call."""

    _fields_ = [("number", c_uint64), ("next", Client)]


class AheadAnswer(Numbers):
    """How many operations were put into the lent list."""

    _fields_ = numbers("number count")


class CompletedAllAnswer(Fields):
    """How many of the operations that were posted together count, and the client after those."""

    _fields_ = [("number", c_uint64), ("counted", c_uint64), ("next", Client)]


LENT = POINTER(Client), c_size_t, POINTER(c_uint64), c_size_t, Settings
FUNCTIONS = {
    "open": (LENT, c_uint64),
    **{name: ((*LENT, Call), c_uint64) for name in ("request", "step", "release", "cancel")},
    "planners_page": ((POINTER(Client), c_size_t, POINTER(Row), c_size_t, Settings), c_uint64),
    "run_page": ((POINTER(Client), c_size_t, Settings, c_uint64), RunPageAnswer),
    "cover": ((c_uint64, c_uint64, c_uint64), CoverAnswer),
    "step_count": ((c_uint64, c_uint64, c_uint64, c_uint64), StepCountAnswer),
    "word_count": ((c_uint64,), c_uint64),
    "calendar_window": ((POINTER(c_uint64), c_size_t, Calendar, Quarter, Quarter), CalendarWindowAnswer),
    "calendar_quarter": ((Calendar, c_uint64), CalendarQuarterAnswer),
    "operation": ((Client, Settings, c_uint64), OperationAnswer),
    "applied": ((OperationAnswer, c_uint64), c_uint64),
    "completed": ((Client, Settings, c_uint64, c_uint64), ClientAnswer),
    "operations_ahead": ((Client, Settings, c_uint64, POINTER(OperationAnswer), c_size_t), AheadAnswer),
    "completed_all": ((Client, Settings, c_uint64, POINTER(c_uint64), c_size_t), CompletedAllAnswer),
    "own_request": ((Client, Settings, c_uint64, c_uint64), ClientAnswer),
    **{name: ((Client, Settings), ClientAnswer) for name in ("own_release", "own_cancel")},
    **{f"{name}_text": ((c_uint64,), c_char_p) for name in ("phase", "outcome", "cause", "operation")},
    "version": ((), c_char_p),
}


def library_file():
    """The file to load: the first that is there, or the bare name, by which the system looks for it."""
    if asked := os.environ.get("NOLTHEWYR_LIBRARY"):
        return asked
    here = Path(__file__).resolve().parent
    places = here / FILE, here.parent.parent / "lib" / FILE, here.parent / "target" / "build" / "libnolthewyr.so"
    return next((str(place) for place in places if place.is_file()), FILE)


def declared(loaded, name):
    """A function of the library, with its types."""
    function = getattr(loaded, f"nolthewyr_{name}")
    function.argtypes, function.restype = FUNCTIONS[name]
    return function


@lru_cache(maxsize=None)
def library():
    """The shared library, with the types of its functions. Its version is read first, since a lower one has not all of them."""
    loaded = CDLL(library_file())
    found = declared(loaded, "version")().decode()
    series, _, third = found.rpartition(".")
    if series != SERIES or not third.isdecimal() or int(third) < LEAST:
        raise ImportError(f"{library_file()} has version {found}, and this file is for {SERIES}, from {SERIES}.{LEAST} on")
    for name in FUNCTIONS:
        declared(loaded, name)
    return loaded

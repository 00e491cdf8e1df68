"""The section "The schedule program": the file that `rangelog` and `rangepages` read from standard input, and the log that
`rangelog` writes.

`python3 -m model.schedule < file` writes the log that the model gives.
"""

import sys
from struct import Struct
from typing import NamedTuple

from model import table, tree
from model.history import KINDS, Call, Opened
from model.record import IDLE, IDLE_CLIENT, Settings

LONGEST = 65536
MOST_LEVELS = 6
MOST_CLIENTS = 64

# Little-endian: u16 H, u16 m, u32 T, u16 clients, u16 count of calls, u32 offset of the first, u32 P.
HEADER = Struct("<HHIHHII")
# u8 kind, u8 0, u16 client, u32 0, u64 a, u64 b.
CALL = Struct("<BBHIQQ")


class Header(NamedTuple):
    """20 bytes: document 01's 16, and u32 P at byte 16."""

    levels: int
    distance: int
    wait: int
    clients: int
    count: int
    offset: int
    patience: int


class Entry(NamedTuple):
    """A call has 24 bytes."""

    kind: int
    zero8: int
    client: int
    zero32: int
    a: int
    b: int


class Schedule(NamedTuple):
    """What a file says that is refused neither by 10 nor by 11."""

    settings: Settings
    clients: int
    calls: tuple


def header_of(data):
    """The header of a file that is not too short for one."""
    return Header(*HEADER.unpack_from(data))


def entries_of(data, header):
    """The calls of a file that has all of them. Bytes between header and first call, or after the last, are ignored."""
    return [Entry(*CALL.unpack_from(data, header.offset + CALL.size * place)) for place in range(header.count)]


def too_long_or_short(data):
    """A file too long or short: over 65,536 bytes, or without a whole header."""
    return len(data) > LONGEST or len(data) < HEADER.size


def offset_below_20(header):
    """Its least offset is 20."""
    return header.offset < HEADER.size


def calls_past_the_end(data, header):
    """An offset plus 24 * calls over the file's length."""
    return header.offset + CALL.size * header.count > len(data)


def unknown_kind(entry):
    """u8 kind (0 request, 1 step, 2 release, 3 cancel)."""
    return entry.kind >= len(KINDS)


def zero_fields(entry):
    """The fields of a call that must be 0. Request: a = l, b = r. Step: a = clock, b = 0. Else both 0."""
    of_kind = {"request": (), "step": (entry.b,)}.get(KINDS[entry.kind], (entry.a, entry.b))
    return entry.zero8, entry.zero32, *of_kind


def refused_by_10(data):
    """A file too long or short, an offset below 20, an offset plus 24 * calls over the file's length, an unknown kind or
    a filled zero field."""
    if too_long_or_short(data):
        return True
    header = header_of(data)
    if offset_below_20(header) or calls_past_the_end(data, header):
        return True
    return any(unknown_kind(entry) or any(zero_fields(entry)) for entry in entries_of(data, header))


def refused_by_11(header):
    """H over 6 or clients over 64."""
    return header.levels > MOST_LEVELS or header.clients > MOST_CLIENTS


def decode(data):
    """The number that the file is refused by, 10 or 11, which is tested after 10; or its schedule."""
    if refused_by_10(data):
        return 10
    header = header_of(data)
    if refused_by_11(header):
        return 11
    settings = Settings(header.levels, header.distance, header.wait, header.patience)
    calls = (Call(KINDS[entry.kind], entry.client, entry.a, entry.b) for entry in entries_of(data, header))
    return Schedule(settings, header.clients, tuple(calls))


def encode(schedule, between=b"", after=b""):
    """The file of a schedule, with these bytes between header and first call, and after the last."""
    offset = HEADER.size + len(between)
    header = Header(**schedule.settings._asdict(), clients=schedule.clients, count=len(schedule.calls), offset=offset)
    entries = (CALL.pack(KINDS.index(call.kind), 0, call.client, 0, call.a, call.b) for call in schedule.calls)
    return b"".join([HEADER.pack(*header), between, *entries, after])


def refused(number):
    """`refused 10`, which is then the only line."""
    return f"refused {number}\n"


def header_line(schedule):
    """The header line gives H, m, T and the clients, no other setting."""
    settings = schedule.settings
    return f"tree {settings.levels} m {settings.distance} wait {settings.wait} clients {schedule.clients}\n"


def record_after(made, records):
    """The record whose phase and edges are shown: zeros if idle or refused by 4."""
    return IDLE if made.number == 4 else records[made.call.client]


def line(place, made, record):
    """After it each call has a line: call number, kind, client, number (0 accepted), phase after, left and right edge
    after."""
    kind, client = made.call.kind, made.call.client
    return f"{place} {kind} {client} {made.number} {record.phase} {record.left} {record.right}\n"


def lines(schedule, opened):
    """The header line, and a line for each call of the history that starts from an opening."""
    yield header_line(schedule)
    for place, call in enumerate(schedule.calls):
        made = opened.make(call)
        yield line(place, made, record_after(made, opened.records))


def printed(data, lines_of):
    """What a program prints that reads a schedule: the lines that it makes of the schedule and its opened table, or `refused` and the
    number alone. A refused opening prints its number likewise."""
    schedule = decode(data)
    if isinstance(schedule, int):
        return refused(schedule)
    words, clients = [0] * tree.node_count(schedule.settings.levels), [IDLE_CLIENT] * schedule.clients
    if number := table.opening(schedule.settings, words, clients):
        return refused(number)
    return "".join(lines_of(schedule, Opened(schedule.settings, words, clients)))


def log(data):
    """The log of a file."""
    return printed(data, lines)


if __name__ == "__main__":
    sys.stdout.write(log(sys.stdin.buffer.read()))

"""Programs broken on purpose: the model with one sentence of "The schedule program" or of request 2.1 to 2.4 read wrongly, or one rule of
the lock broken. The files must find each of them out."""

from collections import ChainMap
from contextlib import contextmanager
from struct import Struct
from unittest.mock import patch

import broken_clocks
import broken_page_lines
import broken_pages
import broken_patience
import broken_rules
from model import schedule, step_count
from model.history import KINDS, Call
from model.record import IDLE, Settings
from model.schedule import CALL, HEADER, Schedule, header_of

entries_of, header_line, line, printed, record_after, zero_fields = (
    schedule.entries_of, schedule.header_line, schedule.line, schedule.printed, schedule.record_after, schedule.zero_fields)


def eleven_before_ten(data):
    """11 tested before 10."""
    if len(data) >= HEADER.size and schedule.refused_by_11(header_of(data)):
        return 11
    return well_read(data, header_of(data)) if not schedule.refused_by_10(data) else 10


def well_read(data, header):
    calls = tuple(Call(KINDS[e.kind], e.client, e.a, e.b) for e in schedule.entries_of(data, header))
    return Schedule(Settings(header.levels, header.distance, header.wait, header.patience), header.clients, calls)


def opening_before_eleven(data):
    """A refused opening before 11."""
    if schedule.refused_by_10(data):
        return 10
    header = header_of(data)
    outside = header.distance not in range(1, 5) or 0 in (header.wait, header.patience) or header.levels < 2
    number = 1 if outside else 3 * (header.clients == 0)
    return number or (11 if schedule.refused_by_11(header) else well_read(data, header))


def three_before_one(data, lines_of):
    """No clients tested before H, m, T and P."""
    read = schedule.decode(data)
    return schedule.refused(3) if isinstance(read, Schedule) and read.clients == 0 else printed(data, lines_of)


def calls_wrapped(bits):
    """The offset plus 24 * calls in so many bits."""
    return lambda data, header: (header.offset + CALL.size * header.count) % 2 ** bits > len(data)


def at_the_end_or_past(data, header):
    return header.offset + CALL.size * header.count >= len(data)


def past_the_end_if_any(data, header):
    return header.count > 0 and header.offset + CALL.size * header.count > len(data)


def as_far_as_there_are(data, header):
    """As many calls as the file has, at most the count, so that a wrapped sum is not a fault of the reading."""
    there = max(len(data) - header.offset, 0) // CALL.size
    return entries_of(data, header._replace(count=min(header.count, there)))


def from_20(data, header):
    """The first call is read from byte 20."""
    return entries_of(data, header._replace(offset=HEADER.size))


def to_the_end(data, header):
    """Calls are read to the file's end."""
    return entries_of(data, header._replace(count=(len(data) - header.offset) // CALL.size))


def zero_field_untested(place):
    """One of the zero fields is not tested: 0 and 1 are those of every kind, 2 and 3 those of the kind."""
    def tested(entry):
        return tuple(value for at, value in enumerate(zero_fields(entry)) if at != place)
    return tested


def step_b_untested(entry):
    return zero_fields(entry)[:2] if KINDS[entry.kind] == "step" else zero_fields(entry)


def edges_exchanged(place, made, record):
    return line(place, made, record._replace(left=record.right, right=record.left))


def zeros_if_refused(made, records):
    return IDLE if made.number != 0 else record_after(made, records)


def last_client_if_refused_by_4(made, records):
    return records[-1] if made.number == 4 else record_after(made, records)


def last_line_without_end(data, lines_of):
    return printed(data, lines_of).rstrip("\n")


def header_line_before_refusal(data, lines_of):
    """The header line also where the opening is refused."""
    read, text = schedule.decode(data), printed(data, lines_of)
    return (schedule.header_line(read) if isinstance(read, Schedule) and text.startswith("refused") else "") + text


def in_place(name, value):
    return lambda: patch.object(schedule, name, value)


@contextmanager
def wrapped_sum(bits):
    """The sum wraps, and the calls that there are not are not read."""
    with patch.object(schedule, "calls_past_the_end", calls_wrapped(bits)):
        with patch.object(schedule, "entries_of", as_far_as_there_are):
            yield


def exchanged(header):
    return header._replace(offset=header.patience, patience=header.offset)


def in_16_bits(header):
    return header._replace(patience=header.patience % 2 ** 16)


@contextmanager
def header_of_16_bytes():
    """A header of 16 bytes is whole, with the greatest patience where the file has none, and calls may begin behind it."""
    def read(data):
        return header_of(data) if len(data) >= HEADER.size else header_of(data + b"\xff" * 4)
    changes = {"header_of": read, "too_long_or_short": lambda data: not 16 <= len(data) <= schedule.LONGEST}
    with patch.multiple(schedule, offset_below_20=lambda header: header.offset < 16, **changes):
        yield


READING = {
    "11 tested before 10": in_place("decode", eleven_before_ten),
    "a refused opening before 11": in_place("decode", opening_before_eleven),
    "no clients tested before H, m, T and P": in_place("printed", three_before_one),
    "65,535 bytes at most": in_place("LONGEST", 65535),
    "65,537 bytes at most": in_place("LONGEST", 65537),
    "an offset of 16 taken": in_place("offset_below_20", lambda header: header.offset < 16),
    "an offset of 19 taken": in_place("offset_below_20", lambda header: header.offset < 19),
    "an offset of 20 refused": in_place("offset_below_20", lambda header: header.offset <= 20),
    "a header of 16 bytes, P where it is long enough": header_of_16_bytes,
    "P before the offset": in_place("header_of", lambda data: exchanged(header_of(data))),
    "P in 16 bits": in_place("header_of", lambda data: in_16_bits(header_of(data))),
    "an end at the file's length refused": in_place("calls_past_the_end", at_the_end_or_past),
    "an offset past the end taken without calls": in_place("calls_past_the_end", past_the_end_if_any),
    "the end in 16 bits": lambda: wrapped_sum(16),
    "the end in 32 bits": lambda: wrapped_sum(32),
    "calls read from byte 20": in_place("entries_of", from_20),
    "calls read to the end": in_place("entries_of", to_the_end),
    "kind 4 taken": in_place("KINDS", (*KINDS, "release")),
    "a kind's lower bits": in_place("entries_of", lambda d, h: [e._replace(kind=e.kind % 128) for e in entries_of(d, h)]),
    **{f"zero field {place} untested": in_place("zero_fields", zero_field_untested(place)) for place in range(4)},
    "b of a step untested": in_place("zero_fields", step_b_untested),
    "H 6 refused": in_place("MOST_LEVELS", 5),
    "H 7 taken": in_place("MOST_LEVELS", 7),
    "64 clients refused": in_place("MOST_CLIENTS", 63),
    "65 clients taken": in_place("MOST_CLIENTS", 65),
    "a big-endian header": in_place("HEADER", Struct(">HHIHHII")),
    "big-endian calls": in_place("CALL", Struct(">BBHIQQ")),
    "the last line without its end": in_place("printed", last_line_without_end),
    "the header line before a refused opening": in_place("printed", header_line_before_refusal),
}

LOGS = {
    "edges exchanged": in_place("line", edges_exchanged),
    "calls numbered from 1": in_place("line", lambda place, made, record: line(place + 1, made, record)),
    "zeros after every refused call": in_place("record_after", zeros_if_refused),
    "a record shown where 4 refuses": in_place("record_after", last_client_if_refused_by_4),
    "the header line without the clients": in_place("header_line", lambda s: "tree {} m {} wait {}\n".format(*s.settings)),
    "the header line with P": in_place("header_line", lambda s: f"{header_line(s)[:-1]} patience {s.settings.patience}\n"),
}


def rule_broken(name):
    if name in broken_rules.RULES:
        return broken_rules.broken(name)
    others = broken_pages.RULES, broken_page_lines.PRINTED, broken_patience.RULES, broken_clocks.RULES
    return ChainMap(READING, LOGS, *others)[name]()


@contextmanager
def broken(name):
    """The model prints what the broken program does while this lasts. Step counts stay as they were counted before, since a program works them
    out and makes no run for them; those that are counted meanwhile are forgotten."""
    with patch.dict(step_count.KEPT), rule_broken(name):
        yield


# The broken programs that each program's files must find out.
BROKEN = {
    "rangelog": [*READING, *LOGS, *broken_rules.RULES, *broken_patience.IN_LOGS, *broken_clocks.IN_LOGS],
    "rangepages": [
        *READING, *broken_page_lines.PRINTED, *broken_pages.IN_HISTORIES, *broken_rules.RULES, *broken_patience.IN_PAGES,
        *broken_clocks.IN_PAGES],
}

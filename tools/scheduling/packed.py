"""A schedule as the file that `rangelog` and `rangepages` read: its bytes read, with the wrong one named, and written."""

from model.record import Settings
from model.history import Call
from model.history import KINDS as KINDS_IN_ORDER
from model.schedule import CALL, HEADER, LONGEST, Header, Schedule, encode
from scheduling.problems import Wrong, all_parsed
from scheduling.text import KINDS, Source, line_of, settings_line
from scheduling.wards import calendar_for, calendar_line, in_ward_hours

pack = encode

# The header of a file from before patience.
WITHOUT_PATIENCE = 16
AGAIN_WITH_PATIENCE = (f"; a file from before patience has a header of {WITHOUT_PATIENCE} bytes: unpack it with the program that made it, "
                       "add `patience` to its first line, and pack it again")


def header_of(data):
    """The header of a file in which the count of calls and the offset are right."""
    if len(data) > LONGEST:
        raise Wrong(f"byte {LONGEST}: a file has at most {LONGEST} bytes; this one goes on")
    if data and 0 not in data:
        raise Wrong("byte 0: this is a text and no packed file, in which some byte is 0; `pack` turns it into one")
    if len(data) < HEADER.size:
        raise Wrong(f"byte {len(data)}: the file ends within its header of {HEADER.size} bytes")
    header = Header(*HEADER.unpack_from(data))
    count, offset = header.count, header.offset
    if offset < HEADER.size:
        again = AGAIN_WITH_PATIENCE if offset >= WITHOUT_PATIENCE else ""
        raise Wrong(f"byte 12: the offset of the first call must be at least {HEADER.size}; got {offset}{again}")
    if offset + CALL.size * count > len(data):
        end = f"{offset} + {CALL.size} * {count} = {offset + CALL.size * count}"
        raise Wrong(f"byte 10: {count} calls from byte {offset} would end at {end}; the file has {len(data)} bytes")
    return header


def wrong_fields(place, start, name, zeros):
    """A message for each field of a call that must be 0 and is filled."""
    return [f"byte {start + at}: call {place}, a {name}, has {filled} in a field that must be 0"
            for at, filled in zeros.items() if filled]


def call_at(data, place, start):
    """The call whose 24 bytes begin at byte `start`."""
    kind, zero8, client, zero32, a, b = CALL.unpack_from(data, start)
    if kind >= len(KINDS_IN_ORDER):
        known = ", ".join(f"{number} {name}" for number, name in enumerate(KINDS_IN_ORDER))
        raise Wrong(f"byte {start}: call {place} has the unknown kind {kind}; known are {known}")
    name = KINDS_IN_ORDER[kind]
    wanted = len(KINDS[name].numbers)
    zeros = {1: zero8, 4: zero32, **({8: a} if wanted < 2 else {}), **({16: b} if wanted < 3 else {})}
    if wrong := wrong_fields(place, start, name, zeros):
        raise Wrong(*wrong)
    return Call(name, client, a, b)


def read_file(data):
    """The schedule that a file says. All wrong calls are named."""
    header = header_of(data)
    calls = all_parsed((call_at, data, place, header.offset + CALL.size * place) for place in range(header.count))
    settings = Settings(header.levels, header.distance, header.wait, header.patience)
    return Source(Schedule(settings, header.clients, tuple(calls)), tuple(map(line_of, calls)))


def ignored(data):
    """A comment about bytes that belong to no call, if there are any."""
    header = header_of(data)
    before, after = header.offset - HEADER.size, len(data) - header.offset - CALL.size * header.count
    if before or after:
        yield f"# left out: {before} bytes before the first call and {after} after the last, which rangelog and rangepages ignore"


def lines_by_wards(schedule, calendar):
    """The lines of a calendar and of all calls, a window that lies in one ward as ward hours."""
    yield calendar_line(calendar)
    for call in schedule.calls:
        yield line_of(call, in_ward_hours(calendar, call.a, call.b) if call.kind == "request" else "")


def unpack(data, figures=None):
    """The text that a file says; with figures, so many wards and weeks, in ward hours where that can be."""
    source = read_file(data)
    schedule = source.schedule
    said = source.written if figures is None else lines_by_wards(schedule, calendar_for(schedule.settings.levels, *figures))
    return "".join(f"{line}\n" for line in [settings_line(schedule), *ignored(data), *said])

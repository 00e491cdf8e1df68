"""Files for `rangelog` and `rangepages` by name: document 01's whole case written out, and each edge of the format. Where a file is refused
before any call is made, its number stands beside it."""

from typing import NamedTuple

import clock_schedules
from histories import MOST_PATIENCE, TOP
from model.history import KINDS, Call
from model.record import Settings
from model.schedule import CALL, HEADER, LONGEST, Header, Schedule, encode

# Header, with so much patience that it does not run out; then a call to a line: kind, 0, client, 0, a, b.
WHOLE_CASE = bytes.fromhex("""
    0200 0100 05000000 0200 0e00 14000000 ffffffff
    00 00 0000 00000000 0a00000000000000 1400000000000000
    00 00 0100 00000000 0000000000000000 0001000000000000
    01 00 0000 00000000 0100000000000000 0000000000000000
    01 00 0100 00000000 0200000000000000 0000000000000000
    01 00 0100 00000000 0200000000000000 0000000000000000
    01 00 0100 00000000 0300000000000000 0000000000000000
    01 00 0000 00000000 0400000000000000 0000000000000000
    01 00 0000 00000000 0500000000000000 0000000000000000
    01 00 0100 00000000 0800000000000000 0000000000000000
    01 00 0100 00000000 0800000000000000 0000000000000000
    02 00 0000 00000000 0000000000000000 0000000000000000
    01 00 0000 00000000 0900000000000000 0000000000000000
    01 00 0000 00000000 0900000000000000 0000000000000000
    01 00 0100 00000000 0a00000000000000 0000000000000000
""")
CALLS = WHOLE_CASE[HEADER.size:]


class File(NamedTuple):
    """The bytes of a file, and the number that refuses it before any call is made (0: it has a log of calls)."""

    data: bytes
    number: int = 0


def changed(data, at, *values):
    """The file with these bytes from byte `at` on."""
    return data[:at] + bytes(values) + data[at + len(values):]


def at_call(place, at=0):
    """Where byte `at` of a call of the whole case is."""
    return HEADER.size + CALL.size * place + at


def with_header(calls=b"", levels=2, distance=1, wait=5, clients=2, count=0, offset=HEADER.size, patience=MOST_PATIENCE):
    return HEADER.pack(*Header(levels, distance, wait, clients, count, offset, patience)) + calls


def of_calls(*calls, levels=2, distance=1, wait=5, clients=2, patience=MOST_PATIENCE):
    return encode(Schedule(Settings(levels, distance, wait, patience), clients, calls))


def lengths():
    """At most 65,536 bytes: what is after the last call is ignored up to there, and 2,729 calls fit. At least 20, also where the offset
    says that the calls begin before."""
    yield "empty input", File(b"", 10)
    for length in (1, 15, 16, 17, 18, 19):
        yield f"{length} bytes", File(WHOLE_CASE[:length], 10)
        yield f"{length} bytes, offset {length} and no calls", File(with_header(offset=length)[:length], 10)
    yield "a header and no calls", File(with_header())
    yield "a header cut off from its calls", File(WHOLE_CASE[:HEADER.size], 10)
    yield "calls behind a header without P", File(with_header(offset=16, count=14)[:16] + CALLS, 10)
    yield "the last byte cut off", File(WHOLE_CASE[:-1], 10)
    yield "a byte after the last call", File(WHOLE_CASE + b"\xff")
    for length, number in ((LONGEST - 1, 0), (LONGEST, 0), (LONGEST + 1, 10), (2 * LONGEST, 10), (2 ** 20, 10)):
        yield f"{length} bytes, most after the last call", File(WHOLE_CASE.ljust(length, b"\xff"), number)
    many = of_calls(*(Call("step", place % 2, place) for place in range(2730)))
    fit = many[HEADER.size:-CALL.size]
    yield "2729 calls, 65516 bytes", File(with_header(fit, count=2729))
    yield "2729 calls, 65536 bytes", File(with_header(bytes(20) + fit, count=2729, offset=40))
    yield "2729 calls, 65537 bytes", File(with_header(bytes(21) + fit, count=2729, offset=41), 10)
    yield "2730 calls, 65540 bytes", File(many, 10)


def offsets():
    """An offset below 20, or with the calls over the file's length, also where a sum of 16 or 32 bits would wrap."""
    least = HEADER.size
    for offset in (0, 1, 15, 16, 17, 18, 19):
        yield f"offset {offset}", File(with_header(CALLS, count=14, offset=offset), 10)
        yield f"offset {offset} and no calls", File(with_header(CALLS, offset=offset), 10)
    for between in (1, 8, 24, 1000):
        data = with_header(b"\xff" * between + CALLS, count=14, offset=least + between)
        yield f"offset {least + between} with filled bytes before it", File(data)
    yield "offset at the second call", File(with_header(CALLS, count=13, offset=at_call(1)))
    length = len(WHOLE_CASE)
    for offset, number in ((length, 0), (length + 1, 10), (65536, 10), (2 ** 32 - 1, 10)):
        yield f"offset {offset} and no calls in {length} bytes", File(with_header(CALLS, offset=offset), number)
    for offset in (least + 1, length, 2 ** 32 - 24 * 14, 2 ** 32 - 24 * 14 + least, 65536 + least):
        yield f"offset {offset} and 14 calls in {length} bytes", File(with_header(CALLS, count=14, offset=offset), 10)
    for count, number in ((13, 0), (15, 10), (2731, 10), (65535, 10)):
        yield f"{count} counted of 14 calls", File(with_header(CALLS, count=count), number)


def kinds_and_zero_fields():
    """An unknown kind, also where all its fields are zero, or any byte of a zero field filled, in the first or the last
    call of its kind."""
    places = {"request": (0, 1), "step": (2, 13), "release": (10,), "cancel": (10,)}
    zeros = {"request": [1, 4, 5, 6, 7], "step": [1, *range(4, 8), *range(16, 24)]}
    for kind in KINDS:
        for place in places[kind]:
            data = changed(WHOLE_CASE, at_call(place), KINDS.index(kind))
            for at in zeros.get(kind, [1, *range(4, 24)]):
                for value in (1, 128):
                    name = f"{value} in byte {at} of call {place}, a {kind}"
                    yield name, File(changed(data, at_call(place, at), value), 10)
    for kind in (4, 5, 128, 255):
        for place in (0, 7, 10, 13):
            yield f"kind {kind} in call {place}", File(changed(WHOLE_CASE, at_call(place), kind), 10)
    yield "kind 4 after the last counted call", File(changed(with_header(CALLS, count=13), at_call(13), 4))


def openings():
    """Refused openings, H over 6, clients over 64, and which of 10, 11, 1 and 3 is tested first."""
    refused = {
        "m 0": (1, dict(distance=0)), "m 5": (1, dict(distance=5)), "T 0": (1, dict(wait=0)), "P 0": (1, dict(patience=0)),
        "H 0": (1, dict(levels=0)),
        "H 1": (1, dict(levels=1)), "m 65535": (1, dict(distance=65535)), "no clients": (3, dict(clients=0)),
        "m 0 and no clients": (1, dict(distance=0, clients=0)), "P 0 and no clients": (1, dict(patience=0, clients=0)),
        "H 7": (11, dict(levels=7)), "H 12": (11, dict(levels=12)),
        "H 13": (11, dict(levels=13)), "H 65535": (11, dict(levels=65535)), "65 clients": (11, dict(clients=65)),
        "65535 clients": (11, dict(clients=65535)), "H 258": (11, dict(levels=258)), "256 clients": (11, dict(clients=256)),
        "H 7 and no clients": (11, dict(levels=7, clients=0)), "H 7 and m 0": (11, dict(levels=7, distance=0)),
        "H 1 and 65 clients": (11, dict(levels=1, clients=65)), "T 0 and 65 clients": (11, dict(wait=0, clients=65)),
        "P 0 and 65 clients": (11, dict(patience=0, clients=65)),
    }
    for name, (number, settings) in refused.items():
        yield name, File(with_header(CALLS, count=14, **settings), number)
        yield f"{name}, no calls", File(with_header(**settings), number)
        yield f"{name}, offset 19", File(with_header(CALLS, count=14, offset=19, **settings), 10)
        yield f"{name}, kind 4 in the last call", File(changed(with_header(CALLS, count=14, **settings), at_call(13), 4), 10)
        yield f"{name}, 65537 bytes", File(with_header(CALLS, count=14, **settings).ljust(LONGEST + 1, b"\0"), 10)
    for levels, clients in ((2, 1), (2, 64), (3, 63), (4, 2), (5, 64), (6, 1), (6, 64)):
        for distance, wait in ((1, 1), (4, 2 ** 32 - 1)):
            name = f"H {levels}, m {distance}, T {wait} and {clients} clients"
            yield name, File(with_header(CALLS, levels, distance, wait, clients, count=14))
    for patience in (1, 255, 256, 65535, 65536, 2 ** 31):
        yield f"P {patience}", File(with_header(CALLS, count=14, patience=patience))


def calls():
    """Clients past the table, clocks that go back, edges of any size, and each kind at a wrong time."""
    late = changed(WHOLE_CASE, at_call(7, 8), 6)
    yield "the whole case with clock 6 in call 7", File(late)
    for client in (2, 3, 64, 255, 256, 65535):
        past = [Call("request", client, 0, 64), Call("step", client, 0), Call("release", client), Call("cancel", client)]
        busy = Call("request", 0, 3, 9), Call("request", 1, 0, 256)
        yield f"client {client} of two", File(of_calls(*busy, *past, Call("step", 0, 1)))
    clocks = [Call("step", 0, clock) for clock in (5, 5, 4, 6, 0, 2 ** 32, 2 ** 32 - 1, 2 ** 63, TOP, TOP - 1, TOP, 0)]
    yield "clocks that go back", File(of_calls(*clocks))
    yield "clocks that go back with a request", File(of_calls(Call("request", 0, 10, 20), Call("request", 1, 0, 256), *clocks))
    yield "a client past the table and a clock that goes back", File(of_calls(Call("step", 0, 5), Call("step", 2, 4)))
    for levels in range(2, 7):
        n = 64 * 4 ** (levels - 1)
        edges = [(0, n), (0, n + 1), (n, n), (n - 1, n), (n - 1, n + 1), (n, n + 1), (5, 5), (6, 5), (0, 0), (0, TOP),
                 (TOP, TOP), (TOP, 0), (TOP - 1, TOP), (2 ** 32, 2 ** 32 + 1), (2 ** 32, 10), (0, 2 ** 32 + n)]
        pairs = [(Call("request", 0, l, r), Call("cancel", 0)) for l, r in edges]
        yield f"edges at H {levels}", File(of_calls(*(call for pair in pairs for call in pair), levels=levels))
    wrong = [Call("release", 0), Call("cancel", 0), Call("request", 0, 9, 9), Call("request", 0, 1, 2), Call("request", 0, 1, 2)]
    steps = [Call("step", 0, clock) for clock in (1, 2, 3, 4, 5)]
    yield "each kind at a wrong time", File(of_calls(*wrong, *steps[:3], *wrong[1:], wrong[0], *wrong, *steps[3:], *wrong))
    yield "requests of 64 clients", File(of_calls(*(Call("request", c, c, c + 1) for c in range(66)), levels=6, clients=64))


def steps(client, first, count):
    """So many steps of a client, one a tick; those that it takes when it holds change nothing."""
    return [Call("step", client, clock) for clock in range(first, first + count)]


def standing():
    """What the pages show of clients in the middle: two pieces with over-cover, the second of them given back, each outcome, two pieces that
    check the most nodes that there may be, and as many clients and digits."""
    held = [Call("request", 0, 100, 400), *steps(0, 1, 40), Call("request", 1, 10, 20), *steps(1, 41, 2)]
    yield "two pieces with over-cover held", File(of_calls(*held, levels=3))
    yield "the second piece given back", File(of_calls(*held, Call("release", 0), *steps(0, 50, 3), levels=3))
    late = [[Call("request", client, left, left + 4), *(Call("step", client, clock) for clock in (10, 11, 15))]
            for client, left in ((0, 10), (1, 70))]
    cancelled = [Call("request", 2, 0, 256), *steps(2, 15, 2), Call("cancel", 2), Call("request", 3, 80, 90), Call("cancel", 3)]
    ended = [*(call for calls in zip(*late) for call in calls), *cancelled, *steps(1, 20, 2)]
    yield "outcomes 2 and 3 while giving back and idle", File(of_calls(*ended, clients=4))
    longest = [Call("request", 0, 100, 32668), *steps(0, 1, 3), Call("request", 1, 0, 64)]
    yield "a window that needs 182 steps", File(of_calls(*longest, levels=6, distance=4))
    requests = [Call("request", client, 1024 * client + 100, 1024 * client + 400) for client in range(64)]
    many = [Call("step", client, TOP - 64 * (30 - turn) + client + 1) for turn in range(30) for client in range(64 - 2 * turn)]
    yield "64 clients with clocks of 20 digits", File(of_calls(*requests, *many, levels=6, distance=4, wait=600, clients=64))


# Client 0 has taken its first leaf at clock 3 and is blocked by the root, at which client 1 waits for that leaf's notice.
BOTH_WAIT = [
    Call("request", 0, 60, 70), *steps(0, 1, 3), Call("request", 1, 0, 256), *steps(1, 3, 3), Call("step", 0, 6), *steps(1, 10, 2)]


def patience():
    """Patience that runs out in each phase of a second piece, inner or leaf; at the clock at which it does and beside it; where a claim is
    late as well. It does not run out for a window of one piece, nor where both are held or a release or a cancel came first."""
    inner, leaves, single = ([Call("request", 0, left, right), *steps(0, 1, 40)] for left, right in ((100, 400), (60, 70), (0, 256)))
    for allowed in range(1, 12):
        yield f"P {allowed}, two inner pieces", File(of_calls(*inner, levels=3, patience=allowed))
        yield f"P {allowed}, two inner pieces, to the end of P", File(of_calls(*inner[:11 + allowed], levels=3, patience=allowed))
    for allowed in range(1, 5):
        yield f"P {allowed}, two leaves", File(of_calls(*leaves, patience=allowed))
        yield f"P {allowed}, two leaves, to the end of P", File(of_calls(*leaves[:4 + allowed], patience=allowed))
    for allowed in range(1, 7):
        yield f"P {allowed}, two leaves at H 3, to the end of P", File(of_calls(*leaves[:6 + allowed], levels=3, patience=allowed))
    yield "P 1, one piece", File(of_calls(*single, levels=3, patience=1))
    for name, calls in {"one piece": single, "two inner pieces": inner}.items():
        yield f"P 11, {name} given back", File(of_calls(*calls, Call("release", 0), *steps(0, 41, 1), levels=3, patience=11))
    for since in (19, 20, 21, 2 ** 32, TOP - 10):
        back = [Call("step", client, 2 + since) for client in (0, 1)]
        end = [Call("step", 0, 3 + since), *back, *steps(0, 4 + since, 2), *steps(1, 6 + since, 2)]
        yield f"both wait, P 20, a step {since} after the first piece", File(of_calls(*BOTH_WAIT, *end, patience=20))
    asked_again = [*steps(0, 23, 3), *steps(1, 26, 1), Call("request", 0, 60, 70), Call("release", 1), *steps(1, 27, 2), *steps(0, 29, 6)]
    yield "both wait, P 20, and both windows are taken", File(of_calls(*BOTH_WAIT, *asked_again, patience=20))
    for allowed in (6, 7):
        late = [*leaves[:6], Call("step", 0, 9), *steps(0, 9, 4)]
        yield f"P {allowed}, a claim late 6 after the first piece", File(of_calls(*late, patience=allowed))
    cancelled = [Call("step", 1, 50), Call("cancel", 0), *steps(0, 51, 1)]
    yield "both wait, P 20, and a cancel after 47", File(of_calls(*BOTH_WAIT, *cancelled, patience=20))


def own_clocks():
    """Each client's own clock."""
    yield from ((name, File(encode(schedule))) for name, schedule in clock_schedules.schedules())


def by_group():
    """Each group of files, by name."""
    groups = {"lengths": lengths, "offsets": offsets, "kinds and zero fields": kinds_and_zero_fields,
              "settings and clients": openings, "calls of every kind": calls,
              "clients in the middle": standing, "patience": patience, "own clocks": own_clocks}
    return {group: dict(files()) for group, files in groups.items()}

"""Cases for `rangerun FILE write` and `rangerun FILE read`: units from standard input and to standard output, as text and as bytes; what is
refused, and then nothing has changed; and that neither a slow pipe nor a dead run keeps anybody from the units."""

import os
import subprocess
from array import array
from concurrent.futures import ThreadPoolExecutor
from pathlib import Path
from random import Random
from signal import SIGTERM
from time import monotonic, sleep

from compare import NAMES, case, unlike
from library import SECONDS
from model.record import Settings
from remote_cases import units_of
from remote_runs import NETWORK, has_libfabric, memory, program, running, serving, unclean, without_libfabric

OVER = {"memory": Settings(5, 2, 50_000, 5_000_000), NETWORK: Settings(5, 2, 20_000_000, 100_000_000)}
SMALL = Settings(3, 2, 50_000, 5_000_000)
UNITS, SMALL_UNITS, AT_ONCE = 16384, 1024, 8
# The first is over what goes over a network at once; none has its edges at those of leaves.
WINDOWS = (70, 9001), (9100, 9999)
FAILED, LIMIT, LEAST, MOST = 3, 124, 0, 2 ** 64 - 1

NAMES["units written and read"] = ("over a network", "as bytes"), ("statuses", "units unlike those written", "words not clean")
NAMES["whole table read"] = ("over a network", "as bytes"), ("exit status", "units unlike those written")
NAMES["table saved and loaded"] = ("as bytes",), ("statuses", "units unlike those saved")
NAMES["units refused"] = ("place in the list",), ("exit status", "says why", "bytes on standard output", "units or words changed")
NAMES["standard output fails"] = ("place in the list",), ("exit status", "says why", "words not clean")
NAMES["slow pipe"] = ("reads",), ("goes on still", "exit status of another run", "exit status at last", "units unlike")
NAMES["window that is not to be had"] = ("reads",), ("exit status at the limit", "at a signal", "units changed")
NAMES["table saved beside a killed run"] = (), ("status with a lock", "without one", "units unlike the server's", "units of the killed run missing")


def asked(file, *words, given=b"", **options):
    """What a run came to that is given these bytes."""
    return subprocess.run([program("rangerun"), file, *words], input=given, capture_output=True, timeout=SECONDS, **options)


def packed(units, binary):
    """Units as `write` takes them. As a text they stand in lines of several, which `read` does not write."""
    if binary:
        return b"".join(unit.to_bytes(8, "little") for unit in units)
    return "".join(f"{unit}{' ' if place % 3 else chr(10)}" for place, unit in enumerate(units)).encode()


def unpacked(given, binary):
    if not binary:
        return [int(line) for line in given.decode().splitlines()]
    units = array("Q")
    units.frombytes(given)
    return list(units)


def drawn(count, seed):
    """Units of all sizes; the first and the last are the least and the most that there are."""
    rng = Random(seed)
    return [LEAST, *(rng.getrandbits(rng.randrange(1, 65)) for _ in range(count - 2)), MOST]


def option(binary):
    return ["--binary"] * binary


def edges(window):
    return tuple(map(str, window))


def written_and_read(file, network):
    """One window as text and one as bytes; then the whole table, as each of both."""
    table = [0] * UNITS
    for binary, window in enumerate(WINDOWS):
        units = drawn(window[1] - window[0], binary)
        table[slice(*window)] = units
        wrote = asked(file, "write", *option(binary), *edges(window), given=packed(units, binary))
        read = asked(file, "read", *option(binary), *edges(window))
        answer = wrote.returncode + read.returncode, unlike(unpacked(read.stdout, binary), units), unclean(file)
        yield case("units written and read", [network, binary], (0, 0, 0)), answer
    for binary in (0, 1):
        whole = asked(file, "read", *option(binary))
        yield case("whole table read", [network, binary], (0, 0)), (whole.returncode, unlike(unpacked(whole.stdout, binary), table))


def units_over(over):
    with serving(over, OVER[over]) as file:
        yield from written_and_read(file, int(over == NETWORK))


def over_memory():
    return units_over("memory")


def over_network():
    return units_over(NETWORK) if has_libfabric() else without_libfabric()


def saved_and_loaded():
    """A table is saved, its server stops, and it is loaded into a new one: as bytes, and then another as text."""
    tables = drawn(UNITS, 3), drawn(UNITS, 2)
    with serving("memory", OVER["memory"]) as file:
        asked(file, "write", "--binary", given=packed(tables[1], 1))
        saved = packed(tables[0], 0), asked(file, "read", "--binary").stdout
    with serving("memory", OVER["memory"]) as file:
        for binary in (1, 0):
            loaded, found = asked(file, "write", *option(binary), given=saved[binary]), asked(file, "read")
            answer = loaded.returncode + found.returncode, unlike(unpacked(found.stdout, 0), tables[binary])
            yield case("table saved and loaded", [binary], (0, 0)), answer


# What is asked of rangerun, what it is given, the exit status, and what it says.
REFUSED = (
    ("write 10 14", b"1 2 3", 3, "3 units, where [10, 14) has 4; nothing is written"),
    ("write 10 14", b"1 2 3 4 5\n", 3, "5 units, where [10, 14) has 4; nothing is written"),
    ("write", b"1 2 3 4\n", 3, "4 units, where [0, 1024) has 1024; nothing is written"),
    ("write 10 11", b"", 3, "0 units, where [10, 11) has 1"),
    ("write 10 14", b"1\n2\n3x\n4\n", 3, "line 3: not a number below 2^64"),
    ("write 10 14", b"1\n\n2\n-3 4\n", 3, "line 4: not a number below 2^64"),
    ("write 10 14", b"1 2 3 18446744073709551616\n", 3, "line 1: not a number below 2^64"),
    ("write 10 14", b"1 2\n3\0 4\n", 3, "line 2: not a number below 2^64"),
    ("write --binary 10 12", b"0123456701234", 3, "its bytes are no whole units"),
    ("write --binary 10 12", b"0123456701234567012345670", 3, "its bytes are no whole units"),
    ("write --binary 10 12", b"012345670123456701234567", 3, "3 units, where [10, 12) has 2"),
    ("write 1020 1025", b"1 2 3 4 5", 3, "[1020, 1025) is no window of the units 0 to 1023"),
    ("write 14 10", b"1 2 3 4", 3, "[14, 10) is no window of the units 0 to 1023"),
    ("read 1020 1025", b"", 3, "[1020, 1025) is no window of the units 0 to 1023"),
    ("read 10 10", b"", 3, "[10, 10) is no window of the units 0 to 1023"),
    ("read --unlocked 1020 1025", b"", 3, "[1020, 1025) is no window of the units 0 to 1023"),
    ("read 10", b"", 2, "two edges are to be named, or none"),
    ("read 10 20 30", b"", 2, "two edges are to be named, or none"),
    ("read x 20", b"", 2, "the left edge is not a number: x"),
    ("write 10 2x", b"", 2, "the right edge is not a number: 2x"),
    ("write --unlocked 10 11", b"1", 2, "no such option, or no time behind it: --unlocked"),
    ("read --limit soon 10 20", b"", 2, "no such option, or no time behind it: soon"),
    ("read --limit", b"", 2, "no such option, or no time behind it: --limit"),
)


def refused():
    """Each with the status and the words that it has; nothing is taken, and no unit is another. Since they are refused, they may be asked at once."""
    with serving("memory", SMALL) as file, ThreadPoolExecutor(AT_ONCE) as pool:
        asked(file, "write", given=packed(drawn(SMALL_UNITS, 4), False))
        before = memory(file)
        ended = pool.map(lambda one: (asked(file, *one[0].split(), given=one[1]), memory(file)), REFUSED)
        for place, ((_, _, status, says), (ran, after)) in enumerate(zip(REFUSED, ended)):
            answer = ran.returncode, int(says in ran.stderr.decode()), len(ran.stdout), int(after != before)
            yield case("units refused", [place], (status, 1, 0, 0)), answer


def closed_pipe():
    reading, writing = os.pipe()
    os.close(reading)
    return writing


# What stands for standard output, and what a run says of it.
FAILING = (
    (lambda: os.open("/dev/full", os.O_WRONLY), "standard output: No space left on device"),
    (closed_pipe, "standard output: Broken pipe"),
    (lambda: os.open("/dev/null", os.O_RDONLY), "standard output: Bad file descriptor"),
)


def output_fails():
    """Both where it is found out when the first is written, and when the last is."""
    with serving("memory", OVER["memory"]) as file:
        for place, (opened, says) in enumerate(FAILING):
            for edges in ((), ("10", "14")):
                out = opened()
                ran = subprocess.run([program("rangerun"), file, "read", *edges], stdout=out, stderr=subprocess.PIPE, text=True, timeout=SECONDS)
                os.close(out)
                yield case("standard output fails", [place], (FAILED, 1, 0)), (ran.returncode, int(says in ran.stderr), unclean(file))


def begun(file, *words):
    """A run whose standard input and output are pipes of these tests."""
    return subprocess.Popen([program("rangerun"), file, *words], stdin=subprocess.PIPE, stdout=subprocess.PIPE)


def slow_pipes():
    """A run whose output nobody reads yet, or whose input is not all there, has nothing of the tree: another takes the whole table."""
    units = [MOST] * UNITS
    with serving("memory", OVER["memory"]) as file:
        for reads, command in enumerate(("write", "read")):
            given = b"" if reads else packed(units, True)
            with begun(file, command, "--binary") as slow:
                slow.stdin.write(given[:UNITS])
                slow.stdin.flush()
                sleep(0.5)
                goes_on = int(slow.poll() is None)
                another = asked(file, "hold", "--limit", "5s", "0", str(UNITS), "true").returncode
                printed = slow.communicate(given[UNITS:], timeout=SECONDS)[0]
            found = unpacked(printed, True) if reads else list(memory(file)[1])
            yield case("slow pipe", [reads], (1, 0, 0, 0)), (goes_on, another, slow.returncode, unlike(found, units))


def opened(file, process):
    """Waits until the process has opened a run over shared memory, and a little more."""
    [name] = (line.split()[1] for line in file.read_text().splitlines() if line.startswith("memory "))
    end = monotonic() + SECONDS
    while name not in Path(f"/proc/{process.pid}/maps").read_text() and monotonic() < end:
        sleep(0.05)
    sleep(0.2)


def not_to_be_had():
    """A window that another holds: the limit ends the taking, and so does a signal, and nothing is written."""
    with serving("memory", SMALL) as file, running(file, "hold", "10", "20", "sh", "-c", "echo held; exec sleep 60") as holder:
        holder.stdout.readline()
        for reads, command in enumerate(("write", "read")):
            given = b"" if reads else b"1 2 3 4"
            at_limit = asked(file, command, "--limit", "200ms", "12", "16", given=given)
            with begun(file, command, "12", "16") as waiting:
                waiting.stdin.write(given)
                waiting.stdin.close()
                opened(file, waiting)
                waiting.send_signal(SIGTERM)
                at_signal = waiting.wait(SECONDS)
            answer = at_limit.returncode, at_signal, sum(memory(file)[1])
            yield case("window that is not to be had", [reads], (LIMIT, 128 + SIGTERM, 0)), answer


def beside_killed():
    """With a lock a table is not to be had of which a killed run holds a part. Without one it is, with what that run had written."""
    number = "123456789123"
    with serving("memory", SMALL) as file:
        asked(file, "write", given=packed(drawn(SMALL_UNITS, 5), False))
        with running(file, "try", "--windows", "1", "--number", number, "--within", "100", "500", "--hold", "60000000000") as holder:
            had = units_of(file, int(number))
            holder.kill()
            holder.wait()
        locked, saved = asked(file, "read", "--limit", "200ms"), asked(file, "read", "--unlocked")
        on_server, found = list(memory(file)[1]), unpacked(saved.stdout, False)
    missing = sum(found[unit] != int(number) for unit in had) if len(found) == SMALL_UNITS else len(had)
    yield case("table saved beside a killed run", [], (LIMIT, 0, 0, 0)), (locked.returncode, saved.returncode, unlike(found, on_server), missing)


SUITES = {
    "units over shared memory, written and read": over_memory,
    "units over tcp;ofi_rxm, written and read": over_network,
    "units saved, and loaded into a new server": saved_and_loaded,
    "units, what is refused": refused,
    "units, standard output that fails": output_fails,
    "units, slow pipes hold up nobody": slow_pipes,
    "units of a window that is not to be had": not_to_be_had,
    "units saved beside a killed run": beside_killed,
}

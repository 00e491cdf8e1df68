"""Cases for the transports of runs: the accesses of a list, posted together, are made in their order, and each is exact. Nobody else is on these
words, so that every word found can be told before."""

import subprocess
from functools import lru_cache

from compare import NAMES, case
from library import ROOT, SECONDS, command, made
from model.record import Settings
from remote_runs import CHECKED_C, NETWORK, has_libfabric, serving, without_libfabric

NAMES["lists of accesses"] = ("over a network",), ("exit status", "some posted", "go out together", "that found another word")

SETTINGS = Settings(2, 1, 1_000_000, 20_000_000)
LISTS = {"memory": 2_000, NETWORK: 500, "shm": 500}
# No more are due together: a check at distance 4.
TOGETHER = 85


@lru_cache(maxsize=None)
def program():
    """Built with those parts of `rangerun` that are the transports, whose names the library keeps to itself."""
    over_network = "fabric", "posting", "endpoint", "host", "connection", "sockets"
    parts = "identity", "server_file", "file_locks", "processes", "memory", *(over_network if has_libfabric() else ("no_fabric",))
    objects = [made("build/rangerun").parent / "run" / f"{part}.o" for part in parts]
    built = ROOT / "target" / "tests" / "order"
    built.parent.mkdir(parents=True, exist_ok=True)
    command(*CHECKED_C, "-I", "run", "tests/order.c", *objects, made("build/libnolthewyr.a"), *["-lfabric"] * has_libfabric(), "-o", built)
    return built


def tried(over):
    with serving(over, SETTINGS) as file:
        ran = subprocess.run([program(), file, str(LISTS[over])], capture_output=True, text=True, timeout=SECONDS)
    posted, together, unlike = map(int, ran.stdout.split() or (0, 0, 0))
    yield case("lists of accesses", [int(over != "memory")], (0, 1, TOGETHER, 0)), (ran.returncode, int(posted > 0), together, unlike)


def over_memory():
    return tried("memory")


def over_network():
    for over in (NETWORK, "shm") if has_libfabric() else ():
        yield from tried(over)
    if not has_libfabric():
        yield from without_libfabric()


SUITES = {"lists of accesses in order, over shared memory": over_memory, "lists of accesses in order, over libfabric": over_network}

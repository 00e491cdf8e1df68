"""Cases for a run whose file is not that of the server it finds: of a start before, or written by hand. It is refused when it opens, is told
why, and touches nothing. A run that was open when its server was killed and started anew touches nothing of the new start either."""

import re
from contextlib import ExitStack
from signal import SIGCONT, SIGSTOP

from compare import NAMES, case
from remote_runs import NETWORK, has_libfabric, unclean, without_libfabric
from remote_servers import FAILED, HOLD_FAILED, LOST, SETTINGS, Run, asked, awaited, says, server, touched

OLD = SETTINGS[NETWORK]
# Settings of the start after, and what is said of them beside the advice.
STARTED_ANEW = (
    (OLD, "copy: the server was started anew: take its new file\n"),
    (OLD._replace(levels=5, wait=30_000_000), "take its new file (levels 4 in the file, 5 at the server, wait 20000000 in the file, 30000000 at the"
     " server, units 4096 in the file, 16384 at the server)\n"),
)
SECTION = 'See "When a run or the server dies" in docs/REMOTE.md'
KEYS = "does not know the keys of the file: it was started anew, or the file is not as it wrote it: take its file"
# What stands in a file otherwise than the server wrote it, and what is said of that.
BY_HAND = (
    ({"words-key": 1, "units-key": 2}, KEYS), ({"words-key": 1}, KEYS), ({"units-key": 2}, KEYS),
    ({"wait": 10_000_000}, "it is not as the server wrote it: wait 10000000 in the file, 20000000 at the server: take the server's file\n"),
    ({"distance": 1, "units": 64}, "distance 1 in the file, 2 at the server, units 64 in the file, 4096 at the server: take"),
)

NAMES["file of the start before"] = ("place in the list",), ("status of try", "of hold", "both say why", "the command ran")
NAMES["new file"] = ("place in the list",), ("status of try", "words not clean", "the server says whom it refused")
NAMES["runs of the start before"] = ("over a network",), ("status that holds", "that tries", "that waits", "new start's words and units touched")
NAMES["what they say"] = ("over a network",), ("the one that holds", "that tries", "that waits", "the server")
NAMES["file written by hand"] = ("place in the list",), ("status of try", "of hold", "both say why", "the command ran")
NAMES["server of files written by hand"] = ("over a network",), ("words not clean", "units touched", "whom it refused", "connections gone")
NAMES["file written by hand over shm"] = (), ("status", "says why", "the command ran", "in time")


def refused(file, *parts):
    """The statuses of `try` and `hold`, whether both say all that, and whether the command of hold has run."""
    tries, holds = asked(file, "try", "--windows", "1"), asked(file, "hold", "0", "100", "echo", "ran")
    return tries.status, holds.status, says(tries.said, *parts) * says(holds.said, *parts), len(holds.printed)


def logged(at, what):
    """How many lines the server's log has that say so of an address."""
    return len(re.findall(rf"^rangeserver: \S+ 127\.0\.0\.\d+:\d+: {what}", at.log, re.MULTILINE))


def stale():
    """Of the start before, at the same address and port. The new file is as good as any."""
    for place, (settings, said) in enumerate(STARTED_ANEW):
        with server(NETWORK, OLD) as at:
            old = at.copied()
            at.kill()
            at.start(settings)
            yield case("file of the start before", [place], (FAILED, HOLD_FAILED, 1, 0)), refused(old, said)
            tries = asked(at.file, "try", "--windows", "20")
            refused_runs = logged(at, r"refused: process \d+ \(rangerun\) on .*: the server was started anew")
            yield case("new file", [place], (0, 0, 2)), (tries.status, unclean(at.file), refused_runs)


def open_runs(over):
    """Three runs of a server that is killed and started anew beside them: one holds, one takes windows, holds
    each for a while, and is stopped meanwhile, one waits."""
    with server(over) as at, ExitStack() as runs:
        holds = runs.enter_context(Run(at.file, "hold", "0", "100", "cat")).holds()
        waits = runs.enter_context(Run(at.file, "hold", "-v", "50", "60", "true"))
        tries = runs.enter_context(Run(at.file, "try", "--windows", "1000000", "--number", "9", "--within", "500", "600", "--hold", "200ms"))
        awaited(lambda: "9" in asked(at.file, "read", "--unlocked").printed.split(), "a window that is tried")
        tries.process.send_signal(SIGSTOP)
        awaited(lambda: "is waited for" in waits.said, "a run that waits")
        at.kill()
        at.start(None, "--anyway")
        risk = says(at.log, "--anyway: runs of the start before are still there: ", f"process {holds.process.pid} (rangerun)",
                    "a window that one of them holds may be taken by another run")
        tries.process.send_signal(SIGCONT)
        holds.let_go()
        return (holds.ended(), tries.ended(), waits.ended()), touched(at.file), risk


def open_meanwhile():
    for network, over in enumerate(("memory", NETWORK)[:1 + has_libfabric()]):
        (holds, tries, waits), found, risk = open_runs(over)
        lost = says(holds.said, "the lock may have been lost while cat ran, which ended with 0", "of [0, 100)", SECTION)
        yield case("runs of the start before", [network], (LOST, FAILED, HOLD_FAILED, 0)), (holds.status, tries.status, waits.status, sum(found))
        said = lost, says(tries.said, SECTION), says(waits.said, "of [50, 60)", SECTION), risk
        yield case("what they say", [network], (1, 1, 1, 1)), said


def by_hand():
    """Keys that are not the server's, or numbers that are not. Each run is refused, and the server says which."""
    with server(NETWORK) as at:
        for place, (changed, why) in enumerate(BY_HAND):
            yield case("file written by hand", [place], (FAILED, HOLD_FAILED, 1, 0)), refused(at.copied(**changed), why)
        answer = *touched(at.file), logged(at, r"refused: process \d+ \(rangerun\) on "), logged(at, "gone")
        yield case("server of files written by hand", [1], (0, 0, 2 * len(BY_HAND), 0)), answer


def by_hand_over_shm():
    """The file has to be the server's own, which is written over. This provider gives no answer to a wrong key."""
    with server("shm", OLD) as at:
        own = at.file.read_text()
        at.file.write_text(at.copied(**{"words-key": 1}).read_text())
        ran = asked(at.file, "hold", "0", "100", "echo", "ran", before=("--answer-within", "1s"))
        at.file.write_text(own)
        answer = ran.status, says(ran.said, "the server over shm has not answered the read of a word for 1 s"), len(ran.printed), int(ran.seconds < 8)
        yield case("file written by hand over shm", [], (HOLD_FAILED, 1, 0, 1)), answer
        yield case("server of files written by hand", [0], (0, 0)), touched(at.file)


def over_network(check):
    return check if has_libfabric() else without_libfabric


SUITES = {
    "a file of the start before": over_network(stale),
    "a server started anew beside runs": open_meanwhile,
    "a file written by hand, over tcp;ofi_rxm": over_network(by_hand),
    "a file written by hand, over shm": over_network(by_hand_over_shm),
}

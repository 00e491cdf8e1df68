"""Cases for a server that ends or dies while runs are there: the next start on its file waits until they have ended, and names them; a run
knows when it may have lost its window; and all runs end soon when the server has."""

from contextlib import ExitStack
from subprocess import SubprocessError
from time import monotonic

from compare import NAMES, case
from remote_runs import NETWORK, has_libfabric, unclean
from remote_servers import FAILED, HOLD_FAILED, LOST, Run, asked, awaited, says, server, until

HOLD = "hold", "0", "100", "cat"
STILL_THERE = "runs of the start before may still hold windows: ", "End them and start again"
SECTION = 'See "When a run or the server dies" in docs/REMOTE.md'
# What is said of a server that has ended.
ENDED = {"memory": "the server has ended or died, and its words and units with it", NETWORK: "the server at 127.0.0.2 port "}
# Over a network a run that gets no answer goes on for 10 seconds.
SOON = 7

NAMES["start beside a run that holds"] = ("over a network",), ("exit status", "names the process", "exit status of hold", "hold says why")
NAMES["start when it has ended"] = ("over a network",), ("status of a run", "words not clean")
NAMES["start beside the command of a killed run"] = ("over a network",), ("exit status", "names the command", "starts when it has ended")
NAMES["server that is ended"] = ("over a network",), ("exit status", "status of try", "of a hold that waits", "both in time")
NAMES["what they say of its end"] = ("over a network",), ("try", "a hold that waits", "a hold that goes on", "the server of its file")
NAMES["file of a server that is ended"] = ("over a network",), ("stays", "status of the next start", "status of hold", "is gone at last")


def transports():
    return enumerate(("memory", NETWORK)[:1 + has_libfabric()])


def beside_holder():
    """A server that is killed while a run holds. Its next start would let another run have the same window."""
    for network, over in transports():
        with server(over) as at, Run(at.file, *HOLD) as holds:
            holds.holds()
            at.kill()
            start = at.start_refused()
            holds.let_go()
            ended = holds.ended()
            names = says(start.said, f"process {holds.process.pid} (rangerun)", *STILL_THERE)
            lost = says(ended.said, "the lock may have been lost while cat ran, which ended with 0", "of [0, 100)", SECTION)
            yield case("start beside a run that holds", [network], (FAILED, 1, LOST, 1)), (start.status, names, ended.status, lost)
            at.start()
            yield case("start when it has ended", [network], (0, 0)), (asked(at.file, "hold", "0", "100", "true").status, unclean(at.file))


def started(at):
    try:
        at.start()
    except SubprocessError:
        return False
    return True


def beside_command():
    """Run and server are killed, and the command goes on as if its window were held."""
    for network, over in transports():
        with server(over) as at, Run(at.file, *HOLD) as holds:
            holds.holds()
            holds.process.kill()
            holds.process.wait()
            at.kill()
            start = at.start_refused()
            holds.let_go()
            answer = start.status, says(start.said, "process ", " (cat)", *STILL_THERE), int(until(lambda: started(at)))
            yield case("start beside the command of a killed run", [network], (FAILED, 1, 1)), answer


def runs_of_ended(at, runs):
    """A run that holds, one that takes windows all the time, and one that waits; the server is ended then. What came of all, and in which time."""
    holds = runs.enter_context(Run(at.file, *HOLD)).holds()
    tries = runs.enter_context(Run(at.file, "try", "--windows", "100000000", "--number", "9", "--within", "1000", "1064", "--largest", "1"))
    waits = runs.enter_context(Run(at.file, "hold", "-v", "50", "60", "true"))
    awaited(lambda: "is waited for" in waits.said, "a run that waits")
    awaited(lambda: "9" in asked(at.file, "read", "--unlocked").printed.split(), "a window that is tried")
    begun = monotonic()
    status = at.terminate()
    tried, waited = tries.ended(), waits.ended()
    return holds, status, tried, waited, monotonic() - begun


def server_ended():
    for network, over in transports():
        with server(over) as at, ExitStack() as runs:
            holds, status, tried, waited, seconds = runs_of_ended(at, runs)
            yield case("server that is ended", [network], (0, FAILED, HOLD_FAILED, 1)), (status, tried.status, waited.status, int(seconds < SOON))
            stays, start = int(at.file.exists()), at.start_refused()
            holds.let_go()
            lost = holds.ended()
            said = says(tried.said, ENDED[over], SECTION), says(waited.said, ENDED[over], "of [50, 60)", SECTION)
            kept = says(at.log, "it stays, since runs are still there", f"process {holds.process.pid} (rangerun)")
            yield case("what they say of its end", [network], (1, 1, 1, 1)), (*said, says(lost.said, "the lock may have been lost", SECTION), kept)
            at.start()
            at.terminate()
            answer = stays, start.status, lost.status, int(not at.file.exists())
            yield case("file of a server that is ended", [network], (1, FAILED, LOST, 1)), answer


SUITES = {
    "a server killed, and started beside a run that holds": beside_holder,
    "a server killed, and started beside the command of a killed run": beside_command,
    "a server ended while runs are there": server_ended,
}

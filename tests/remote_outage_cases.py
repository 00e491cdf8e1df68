"""Cases for a server that does not answer for a while: a run goes on for as long as it was told, or says at last where the server is, what it was
at, and what is not known of it."""

import re
from contextlib import ExitStack
from time import monotonic, sleep

from compare import NAMES, case
from remote_runs import NETWORK, has_libfabric, unclean, without_libfabric
from remote_servers import FAILED, HOLD_FAILED, LOST, Run, asked, awaited, says, server

A_SECOND = "--answer-within", "1s"
WRONG_LINE = 2
STOPPED_FOR = 2.5
# Options before the file, and behind the command.
WRONG = (("--answer-within", "2"), ()), (("--answer-within", "soon"), ()), ((), ("--answer-within", "999999"))

NAMES["server that does not answer"] = ("place in the list",), ("exit status", "says where and why", "says what is not known", "in time")
NAMES["server that answers at last"] = ("for ever",), ("ended before", "exit status")
NAMES["after that"] = (), ("words not clean",)
NAMES["time for an answer"] = ("place in the list",), ("exit status", "says why")


def waiting(at, runs, *words, given=b""):
    """A run that waits, and goes on for a second without an answer."""
    run = runs.enter_context(Run(at.file, words[0], "-v", *words[1:], before=A_SECOND))
    run.process.stdin.write(given)
    run.let_go()
    return run


def unknown(said, window):
    """Whether it says what was under way, at which window, and that nobody knows what came of it."""
    phase = re.search(rf"in phase \d+ \([^)]+\) of {re.escape(window)}\. Whether .* unknown", said)
    return int(phase is not None) * says(said, 'See "When a run or the server dies" in docs/REMOTE.md')


def stopped():
    """A run that gives back, one that waits, one that is to write and waits, and one that opens."""
    with server(NETWORK) as at, ExitStack() as runs:
        holds = runs.enter_context(Run(at.file, "hold", "0", "100", "cat", before=A_SECOND)).holds()
        waits = waiting(at, runs, "hold", "50", "60", "true")
        writes = waiting(at, runs, "write", "10", "14", given=b"1 2 3 4")
        awaited(lambda: all("is waited for" in run.said for run in (waits, writes)), "runs that wait")
        at.stop()
        begun = monotonic()
        holds.let_go()
        opening = runs.enter_context(Run(at.file, "tree", before=A_SECOND))
        ended = [(status, window, run.ended(), monotonic() - begun) for status, window, run in
                 ((LOST, "[0, 100)", holds), (HOLD_FAILED, "[50, 60)", waits), (FAILED, "[10, 14)", writes))]
        opens = opening.ended()
    for place, (status, window, run, seconds) in enumerate(ended):
        where = says(run.said, f"the server at {at.place} over {NETWORK} has not answered the ", " for 1 s, in phase ")
        answer = run.status, where, unknown(run.said, window), int(0.8 < seconds < 8)
        yield case("server that does not answer", [place], (status, 1, 1, 1)), answer
    where = says(opens.said, f"the server at {at.place} over {NETWORK} has not answered the read of its identity for 1 s")
    yield case("server that does not answer", [3], (FAILED, 1, 0, 1)), (opens.status, where, 0, int(1 < opens.seconds < 8))


def outlasted():
    """With the time that runs have at first, and for ever: two that give back, and two that open, while the server is stopped."""
    for_ever = "--answer-within", "0"
    with server(NETWORK) as at, ExitStack() as runs:
        def begun(*words, before):
            return len(before) // 2, runs.enter_context(Run(at.file, "hold", *words, before=before))
        ran = begun("0", "100", "cat", before=()), begun("1000", "2000", "cat", before=for_ever)
        for _, run in ran:
            run.holds()
        at.stop()
        ran += begun("3000", "3100", "true", before=()), begun("4000", "4096", "true", before=for_ever)
        for _, run in ran:
            run.let_go()
        sleep(STOPPED_FOR)
        early = [1 - run.goes_on() for _, run in ran]
        at.go_on()
        for (is_for_ever, run), before in zip(ran, early):
            yield case("server that answers at last", [is_for_ever], (0, 0)), (before, run.ended().status)
        yield case("after that", [], 0), unclean(at.file)


def wrong_times():
    """A number without a unit is of nanoseconds, and so few are none that anybody means. Nothing is opened."""
    for place, (before, behind) in enumerate(WRONG):
        ran = asked("no file", "tree", *behind, before=before)
        says_why = says(ran.said, "no such option, or no time", [*before, *behind][-1])
        yield case("time for an answer", [place], (WRONG_LINE, 1)), (ran.status, says_why)


def over_network(check):
    return check if has_libfabric() else without_libfabric


SUITES = {
    "a server that does not answer": over_network(stopped),
    "a server that answers at last": over_network(outlasted),
    "times for an answer that are none": wrong_times,
}

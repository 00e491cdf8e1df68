"""Cases for what runs and servers say that cannot begin: the thing that is wrong is named, and what to do where that is known."""

import os
from pathlib import Path
from tempfile import TemporaryDirectory

from compare import NAMES, case
from remote_runs import NETWORK, has_libfabric, server_line
from remote_servers import ADDRESS, FAILED, HOLD_FAILED, SETTINGS, asked, came_to, says, server

WRONG_LINE = 2
# Files that a run cannot use, and what is said of them behind their name.
FILES = (
    ("none", None, ": No such file or directory: no server has written it, or it has ended"),
    ("folder", os.mkdir, ": Is a directory"),
    ("empty", lambda path: Path(path).touch(), ": it is empty: no server has written it, or its copy is not whole"),
    ("other", lambda path: Path(path).write_text("no server's\n"), ": line 1: not what rangeserver "),
    ("older", lambda path: Path(path).write_text("version 0.3.9\nover memory\n"), ": the server has version '0.3.9', and this is "),
)
# What stands behind --over on the line of a server, the exit status, and what is said.
LINES = (
    (("memory", "--port", "7000"), WRONG_LINE, "memory has neither --address nor --port"),
    (("memory", "--address", "127.0.0.1"), WRONG_LINE, "memory has neither --address nor --port"),
    ((NETWORK, "--port", "65536"), WRONG_LINE, "not a number, a time or a port, or too long: 65536"),
    ((NETWORK, "--port", "0"), WRONG_LINE, "not a number, a time or a port, or too long: 0"),
    ((NETWORK, "--port", "http"), WRONG_LINE, "not a number, a time or a port, or too long: http"),
)
OVER_NETWORK = (
    ((NETWORK, "--address", "192.0.2.1"), FAILED, "192.0.2.1 is no address of this machine: `ip addr` shows those that it has"),
    ((NETWORK, "--address", "no.such.host.invalid"), FAILED, "host no.such.host.invalid: "),
    (("no-such-provider",), FAILED, "over no-such-provider at 127.0.0.1: libfabric finds no such provider with atomics (fi_info(1) lists"),
)

NAMES["file of no server"] = ("place in the list",), ("status of tree", "of hold", "both say why", "bytes on standard output")
NAMES["file that a server is to be started on"] = ("place in the list",), ("exit status", "says why", "is as it was")
NAMES["line of a server"] = ("place in the list",), ("exit status", "says why", "a file is there")
NAMES["server that cannot be reached"] = ("place in the list",), ("status of tree", "of hold", "both say why", "in time")
NAMES["port in use"] = (), ("exit status", "says why", "the server that has it serves on")
NAMES["file in a folder that is not there"] = ("over a network",), ("exit status", "says why")


def refused(file):
    """The statuses of `tree` and of `hold`, what both say, what they print, and the seconds of the slower one."""
    tree, hold = asked(file, "tree"), asked(file, "hold", "0", "10", "echo", "ran")
    return tree.status, hold.status, (tree.said, hold.said), len(tree.printed + hold.printed), max(tree.seconds, hold.seconds)


def files():
    """A server does not start on them either, but for the one that is not there, and leaves them as they are."""
    with TemporaryDirectory() as folder:
        for place, (name, made, why) in enumerate(FILES):
            file = Path(folder) / name
            if made:
                made(file)
            tree, hold, said, printed, _ = refused(file)
            answer = tree, hold, min(says(text, f"rangerun: {file}{why}") for text in said), printed
            yield case("file of no server", [place], (FAILED, HOLD_FAILED, 1, 0)), answer
            if name in ("folder", "other", "empty"):
                ran, before = came_to(server_line(file, "memory", SETTINGS["memory"])), file.stat()
                answer = ran.status, says(ran.said, f"rangeserver: {file}: "), int(file.exists() and file.stat() == before)
                yield case("file that a server is to be started on", [place], (FAILED, 1, 1)), answer


def lines():
    with TemporaryDirectory() as folder:
        file = Path(folder) / "server"
        for place, ((over, *options), status, why) in enumerate(LINES + OVER_NETWORK * has_libfabric()):
            ran = came_to(server_line(file, over, SETTINGS[NETWORK], *options))
            yield case("line of a server", [place], (status, 1, 0)), (ran.status, says(ran.said, f"rangeserver: {why}"), int(file.exists()))
        for network, over in enumerate(("memory", NETWORK)[:1 + has_libfabric()]):
            ran = came_to(server_line(Path(folder) / "none" / "server", over, SETTINGS[over]))
            why = f"rangeserver: {folder}/none/server: No such file or directory"
            yield case("file in a folder that is not there", [network], (FAILED, 1)), (ran.status, says(ran.said, why))


def reached():
    """A host that nobody knows, and a port at which nobody listens; and a port that a server has."""
    if not has_libfabric():
        return
    with server(NETWORK) as at:
        port = at.options[3]
        second = came_to(server_line(f"{at.file}2", NETWORK, SETTINGS[NETWORK], *at.options))
        why = says(second.said, f"rangeserver: port {port} of {ADDRESS} is in use: another process listens there")
        yield case("port in use", [], (FAILED, 1, 0)), (second.status, why, asked(at.file, "tree").status)
        hosts = at.copied(host="no.such.host.invalid"), "host no.such.host.invalid: "
        tree, hold, said, _, seconds = refused(hosts[0])
        answer = tree, hold, min(says(text, hosts[1]) for text in said), int(seconds < 8)
        yield case("server that cannot be reached", [0], (FAILED, HOLD_FAILED, 1, 1)), answer
        closed = at.copied()
        at.terminate()
        tree, hold, said, _, seconds = refused(closed)
        why = f"the server at {at.place} over {NETWORK} cannot be reached: Connection refused"
        answer = tree, hold, min(says(text, why) for text in said), int(seconds < 8)
        yield case("server that cannot be reached", [1], (FAILED, HOLD_FAILED, 1, 1)), answer


def all_lines():
    yield from lines()
    yield from reached()


SUITES = {"files of no server": files, "servers that cannot start, and cannot be reached": all_lines}

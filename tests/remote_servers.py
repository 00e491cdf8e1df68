"""Servers that are stopped, ended and started anew, each on a file, an address and a port of its own, and runs that go on beside them: what they
came to, what they printed, and what they said."""

import os
import socket
import subprocess
from contextlib import contextmanager
from pathlib import Path
from random import Random
from shutil import copy
from signal import SIGCONT, SIGSTOP
from tempfile import TemporaryDirectory, TemporaryFile
from time import monotonic, sleep
from typing import NamedTuple

from library import SECONDS
from model.record import Settings
from remote_runs import NETWORK, lines_of, log_of, program, server_line, serves

# A run sees by the locks of a file whether the server is there that wrote it, if that is at 127.0.0.1. Of one at another address it takes the file
# for a copy, as on another machine, and has to ask the server.
ADDRESS = "127.0.0.2"
# Waits that are long enough for claims over the network of a machine with work to do.
SETTINGS = {"memory": Settings(4, 2, 50_000, 5_000_000), NETWORK: Settings(4, 2, 20_000_000, 100_000_000)}
UNITS = 4096
# How a run or a server ends that has failed; a hold that has; and one whose command ran meanwhile.
FAILED, HOLD_FAILED, LOST = 3, 125, 123


class Ended(NamedTuple):
    """What a run or a server that has ended came to."""

    status: int
    printed: str
    said: str
    seconds: float


def until(condition, seconds=SECONDS):
    """Whether a condition comes about in time."""
    end = monotonic() + seconds
    while not condition():
        if monotonic() > end:
            return False
        sleep(0.02)
    return True


def awaited(condition, what):
    if not until(condition):
        raise subprocess.SubprocessError(f"awaited in vain: {what}")


def says(text, *parts):
    """1 if all these parts stand in the text."""
    return int(all(part in text for part in parts))


def free_port(address=ADDRESS):
    """A port at which nobody listens, and which the system gives to nobody who does not ask for it."""
    for port in Random().sample(range(20_000, 32_000), 100):
        with socket.socket() as tried:
            if tried.connect_ex((address, port)) != 0:
                return port
    raise subprocess.SubprocessError(f"no port of {address} is free")


def came_to(line, given=""):
    begun = monotonic()
    ran = subprocess.run(line, input=given, capture_output=True, text=True, timeout=SECONDS)
    return Ended(ran.returncode, ran.stdout, ran.stderr, monotonic() - begun)


def asked(file, *words, before=(), given=""):
    """A run, when it has ended. What stands before the file are options."""
    return came_to([program("rangerun"), *before, file, *words], given)


class Run:
    """A run that goes on beside the test. The command of one that holds is to be `cat`, which runs until it is let go."""

    def __init__(self, file, *words, before=()):
        self.begun, self.streams = monotonic(), (TemporaryFile(), TemporaryFile())
        line = [program("rangerun"), *before, file, *words]
        self.process = subprocess.Popen(line, stdin=subprocess.PIPE, stdout=self.streams[0], stderr=self.streams[1])

    def __enter__(self):
        return self

    def __exit__(self, *failed):
        self.process.kill()
        self.process.wait()
        self.let_go()

    def so_far(self, stream):
        """What stands in a stream, whose place is left where it is: the run writes there."""
        number = self.streams[stream].fileno()
        return os.pread(number, os.fstat(number).st_size, 0).decode()

    @property
    def printed(self):
        return self.so_far(0)

    @property
    def said(self):
        return self.so_far(1)

    def holds(self):
        """Waits until its command runs."""
        self.process.stdin.write(b"held\n")
        self.process.stdin.flush()
        awaited(lambda: self.printed, "a command that runs")
        return self

    def let_go(self):
        if not self.process.stdin.closed:
            self.process.stdin.close()

    def goes_on(self):
        return int(self.process.poll() is None)

    def ended(self):
        status = self.process.wait(SECONDS)
        return Ended(status, self.printed, self.said, monotonic() - self.begun)


class Server:
    """A server at one file, and over a network at one port, where it is started and ended as often as one likes."""

    def __init__(self, file, over, address):
        self.file, self.over, self.process = file, over, None
        self.options = ["--address", address, "--port", free_port(address)] if over == NETWORK else []

    def start(self, settings=None, *options):
        self.process = serves(self.file, self.over, settings or SETTINGS[self.over], *self.options, *options)

    def start_refused(self, *options):
        """What a start came to that does not serve. One that does is ended."""
        line = server_line(self.file, self.over, SETTINGS[self.over], *self.options, *options)
        try:
            return came_to(line)
        except subprocess.TimeoutExpired:
            return Ended(0, "", "it serves", SECONDS)

    def kill(self):
        self.process.kill()
        self.process.wait()

    def terminate(self):
        self.process.terminate()
        return self.process.wait(SECONDS)

    def stop(self):
        self.process.send_signal(SIGSTOP)

    def go_on(self):
        self.process.send_signal(SIGCONT)

    def copied(self, **changed):
        """A copy of its file, in which lines say something else."""
        copied = Path(copy(self.file, f"{self.file}.copy"))
        copied.write_text("".join(f"{name} {value}\n" for name, value in (lines_of(self.file) | changed).items()))
        return copied

    def removed(self):
        """Removes the shared memory of a server that was killed."""
        if self.file.exists() and self.over == "memory":
            Path("/dev/shm", lines_of(self.file)["memory"].lstrip("/")).unlink(missing_ok=True)

    @property
    def log(self):
        return log_of(self.file).read_text()

    @property
    def place(self):
        """How a run names its address."""
        return f"{self.options[1]} port {self.options[3]}"

    def has_opened(self, run):
        """Waits until the server has heard of a run."""
        awaited(lambda: f"opened: process {run.process.pid} " in self.log, "a run that has opened")


@contextmanager
def server(over, settings=None, *options, address=ADDRESS):
    """A server that has been started."""
    with TemporaryDirectory() as folder:
        made = Server(Path(folder) / "server", over, address)
        made.start(settings, *options)
        try:
            yield made
        finally:
            made.go_on()
            made.terminate()
            made.removed()


def touched(file):
    """Whether a word of the server's tree is not clean, as the exit status of `tree` has it, and how many units are not 0, UNITS if they cannot
    be read."""
    units = asked(file, "read", "--unlocked").printed.split()
    return asked(file, "tree").status, sum(unit != "0" for unit in units) if units else UNITS

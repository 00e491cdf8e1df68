#!/usr/bin/env python3
"""What waiting costs: how long after a window is given back a run that waits for it has it, and what ten waiting runs cost the server.

bench/looks.py BUILT [BUILT ...], each a folder with `rangeserver` and `libnolthewyr_run.so`: target/build, and that of another version to compare
with, all in one run. The table `looks` of docs/BENCHMARKS.md.
"""

import ctypes
import os
import subprocess
import sys
from contextlib import contextmanager
from multiprocessing import Pipe, Process
from pathlib import Path
from tempfile import TemporaryDirectory
from time import monotonic_ns, sleep

# Milliseconds for which the window is held while the other waits, with how often it is tried.
HELD = {10: 20, 100: 10, 1000: 5, 5000: 2}
OVERS = "memory", "tcp;ofi_rxm"
WAITING, SECONDS = 10, 5
LEFT, RIGHT = 0, 10  # of a leaf
TICK = os.sysconf("SC_CLK_TCK")


@contextmanager
def server(built, over):
    """The file of a server, and its process."""
    with TemporaryDirectory() as folder:
        file = Path(folder) / "server"
        words = "--levels", "6", "--distance", "2", "--wait", "2000000", "--patience", "40000000", "--over", over
        serving = subprocess.Popen([built / "rangeserver", *words, file], stdout=subprocess.PIPE, stderr=subprocess.DEVNULL, text=True)
        try:
            serving.stdout.readline()
            yield file, serving.pid
        finally:
            serving.terminate()
            serving.wait()


class Run:
    """A run by the shared library of a build."""

    def __init__(self, built, file):
        ctypes.CDLL(built / "libnolthewyr.so", mode=ctypes.RTLD_GLOBAL)
        self.library = ctypes.CDLL(built / "libnolthewyr_run.so")
        self.library.nolthewyr_run_open.restype = ctypes.c_void_p
        error = ctypes.create_string_buffer(1000)
        self.run = ctypes.c_void_p(self.library.nolthewyr_run_open(str(file).encode(), error, ctypes.c_size_t(1000)))
        if not self.run:
            raise SystemExit(error.value.decode())

    def take(self):
        answer = self.library.nolthewyr_run_take(self.run, ctypes.c_uint64(LEFT), ctypes.c_uint64(RIGHT), ctypes.c_uint64(0))
        assert answer == 0, answer

    def give_back(self):
        assert self.library.nolthewyr_run_give_back(self.run) == 0

    def close(self):
        self.library.nolthewyr_run_close(self.run)


def waiter(built, file, pipe):
    """Takes the window whenever it is told to, and says when it had it; ends when it is told so."""
    run = Run(built, file)
    pipe.send(None)
    while pipe.recv():
        run.take()
        pipe.send(monotonic_ns())
        run.give_back()
        pipe.send(None)
    run.close()


def delays(built, over):
    """For each time of holding how many microseconds passed until the waiting run had the window, the mean and the longest."""
    with server(built, over) as (file, _):
        here, there = Pipe()
        process = Process(target=waiter, args=(built, file, there))
        process.start()
        here.recv()
        run, found = Run(built, file), {}
        for held, times in HELD.items():
            found[held] = []
            for _ in range(times):
                run.take()
                here.send(True)
                sleep(held / 1000)
                run.give_back()
                given = monotonic_ns()
                found[held].append((here.recv() - given) / 1000)
                here.recv()
        here.send(False)
        process.join()
        run.close()
    return {held: (sum(each) / len(each), max(each)) for held, each in found.items()}


def cpu_seconds(process):
    fields = Path(f"/proc/{process}/stat").read_text().rsplit(")", 1)[1].split()
    return (int(fields[11]) + int(fields[12])) / TICK


def server_share(built):
    """The share of a processor that a server uses over tcp while ten runs wait for one window."""
    with server(built, "tcp;ofi_rxm") as (file, serving):
        run = Run(built, file)
        run.take()
        words = built / "rangerun", file, "hold", str(LEFT), str(RIGHT), "true"
        waiting = [subprocess.Popen(words, stderr=subprocess.DEVNULL) for _ in range(WAITING)]
        sleep(3)
        before = cpu_seconds(serving)
        sleep(SECONDS)
        share = (cpu_seconds(serving) - before) / SECONDS
        run.give_back()
        for process in waiting:
            process.wait()
        run.close()
    return share


def main():
    folders = [Path(folder).resolve() for folder in sys.argv[1:]] or sys.exit(__doc__)
    print("== looks: microseconds from the give-back until a waiting run has the window, mean and longest")
    for over in OVERS:
        by_folder = [delays(folder, over) for folder in folders]
        for held in HELD:
            cells = "; ".join(f"{one[held][0]:.0f}, {one[held][1]:.0f}" for one in by_folder)
            print(f"{over}, held for {held} ms: {cells}")
    shares = [server_share(folder) for folder in folders]
    print(f"share of a processor at a server with {WAITING} runs that wait: " + "; ".join(f"{share:.3f}" for share in shares))


if __name__ == "__main__":
    main()

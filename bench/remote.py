#!/usr/bin/env python3
"""Windows a second between processes, and round trips a window: the tables `processes` and `trips` of docs/BENCHMARKS.md.

Runs take windows of a memory server, over shared memory and, where libfabric is there, over `tcp;ofi_rxm`; and processes lock the same ranges of a
file by fcntl. bench/run builds what it needs and calls it: bench/remote.py BUILT PROCESSES, with the folder that has `rangeserver`, and the program
built from bench/processes.c.
"""

import subprocess
import sys
from contextlib import contextmanager
from pathlib import Path
from tempfile import TemporaryDirectory

ROOT = Path(__file__).resolve().parent.parent
sys.path.insert(0, str(ROOT))

from model import tree
from model.cover import cover

# Of the first table: a tree of 6 levels, as bench/processes.c has it, and nanoseconds. A provider that runs in software, beside the runs on the
# same processors, needs a longer wait, else most claims are late.
LEVELS, DISTANCE = 6, 2
WAIT = {"memory": 10_000, "tcp;ofi_rxm": 2_000_000}
COUNTS = 1, 2, 4
KINDS = {
    "leaf-apart": "10 units of a leaf, apart", "leaf-shared": "10 units of a leaf, all in one leaf",
    "sizes-apart": "all sizes, apart", "sizes-shared": "all sizes, all in one quarter",
}
ROUNDS, MILLISECONDS = 3, 200

# Of the second: the tree of the paper's section 4.1, "N = 2^28", with its distance (section 3.5.5, "we set m = 4") and that of the other tables; and
# a wait in which no claim is late, whose operations would be counted too.
PAPER_LEVELS, DISTANCES, LONG_WAIT = 12, (2, 4), 20_000_000
WINDOWS = {"leaf [10, 20)": (10, 20), "inner node [4096, 8192)": (4096, 8192), "leaf and inner node [4090, 8192)": (4090, 8192)}


@contextmanager
def server(built, over, levels, distance, wait):
    """The file of a server that serves meanwhile."""
    with TemporaryDirectory() as folder:
        file = Path(folder) / "server"
        settings = {"--levels": levels, "--distance": distance, "--wait": wait, "--patience": 20 * wait, "--over": over}
        words = [str(word) for pair in settings.items() for word in pair]
        serving = subprocess.Popen([built / "rangeserver", *words, "--quiet", file], stdout=subprocess.PIPE, text=True)
        try:
            if not serving.stdout.readline().startswith("serving"):
                raise SystemExit(f"rangeserver does not serve over {over}")
            yield file
        finally:
            serving.terminate()
            serving.wait()


def counted(program, way, file, processes, windows, milliseconds=MILLISECONDS):
    """What the processes counted in all, by name."""
    ran = subprocess.run([program, way, file, str(processes), windows, str(milliseconds)], capture_output=True, text=True, check=True)
    words = ran.stdout.split()
    return {name: float(number) for name, number in zip(words[::2], words[1::2])}


def rate(counts):
    return counts["windows"] / counts["seconds"]


def has_fabric(built):
    """Whether rangeserver was built with libfabric."""
    return "libfabric" in subprocess.run(["ldd", built / "rangeserver"], capture_output=True, text=True).stdout


def print_table(name, head, rows):
    print(f"<!-- bench/run: {name} -->")
    print(f"| {' | '.join(head)} |")
    print("|" + "---|" * len(head))
    for row in rows:
        print(f"| {' | '.join(row)} |", flush=True)
    print("<!-- -->\n")


def best_rounds(program, files, kind, processes):
    """The best of the rounds of each way; a round measures all in turn, so that a change of the machine's speed meets all alike."""
    def measured(way):
        return counted(program, "fcntl" if way == "fcntl" else "run", files[way], processes, kind)
    rounds = [{way: measured(way) for way in files} for _ in range(ROUNDS)]
    return {way: max((one[way] for one in rounds), key=rate) for way in files}


def rate_rows(program, files):
    for kind, name in KINDS.items():
        for processes in COUNTS:
            best = best_rounds(program, files, kind, processes)
            memory, file, fabric = best["memory"], best["fcntl"], best.get("tcp;ofi_rxm")
            late = 1000 * memory["late"] / memory["windows"]
            row = [name, str(processes), f"{rate(memory):,.0f}", f"{late:.1f}", f"{rate(file):,.0f}", f"{rate(memory) / rate(file):.2f}"]
            yield row + ([f"{rate(fabric):,.0f}", f"{1000 * fabric['late'] / fabric['windows']:.1f}"] if fabric else ["", ""])


def print_rates(built, program, fabric):
    head = ["windows", "processes", "shared memory, windows a second", "late in 1,000", "fcntl, windows a second", "shared memory / fcntl",
            "tcp;ofi_rxm, windows a second", "late in 1,000"]
    with TemporaryDirectory() as folder, server(built, "memory", LEVELS, DISTANCE, WAIT["memory"]) as memory:
        files = {"memory": memory, "fcntl": Path(folder) / "locked"}
        if not fabric:
            return print_table("processes", head, rate_rows(program, files))
        with server(built, "tcp;ofi_rxm", LEVELS, DISTANCE, WAIT["tcp;ofi_rxm"]) as over_tcp:
            print_table("processes", head, rate_rows(program, files | {"tcp;ofi_rxm": over_tcp}))


def citron_piece(levels, distance, node):
    """Verbs and round trips of the paper's Algorithm 2 for a node, where nobody is in its way and all that can be batched is (section 3.8)."""
    level, notices = tree.level(node), len(tree.notify_list(distance, node))
    climb = level - 1                       # line 14, "all ancestors of cleared": one batch
    claim = 1 + notices + 1                 # lines 22 or 28, and 31, "MaskedFAA({anc}, DMax, 1), RdmaRead(root)": one batch
    if level == levels:
        return climb + claim, 2
    ticket = 2                              # lines 10 and 11, batched with line 14
    blocks = min(distance, levels - level)  # lines 35 and 36: "Alice only needs to post m RDMA reads", one of each level of inner nodes
    return ticket + climb + claim + blocks, 3


def citron(levels, distance, window):
    """The same of a window, taken and given back: pieces one after another; Algorithm 3 is one batch (section 3.6)."""
    pieces = [node for node in cover(levels, *window)[1:3] if node]
    taken = [citron_piece(levels, distance, node) for node in pieces]
    back = sum(1 + len(tree.notify_list(distance, node)) for node in pieces)
    return sum(verbs for verbs, _ in taken) + back, sum(trips for _, trips in taken) + 1


def trip_rows(built, program, fabric):
    for distance in DISTANCES:
        ways = {over: server(built, over, PAPER_LEVELS, distance, LONG_WAIT) for over in WAIT if fabric or over == "memory"}
        trips = {}
        for over, serving in ways.items():
            with serving as file:
                for name, (left, right) in WINDOWS.items():
                    counts = counted(program, "run", file, 1, f"{left}-{right}")
                    trips[over, name] = counts["operations"] / counts["windows"], counts["round-trips"] / counts["windows"]
        for name, window in WINDOWS.items():
            verbs, theirs = citron(PAPER_LEVELS, distance, window)
            over_tcp = f"{trips['tcp;ofi_rxm', name][1]:.1f}" if fabric else ""
            operations, memory = trips["memory", name]
            yield [name, str(distance), f"{operations:.1f}", f"{memory:.1f}", over_tcp, str(verbs), str(theirs)]


def main():
    built, program = map(Path, sys.argv[1:])
    fabric = has_fabric(built)
    print_rates(built, program, fabric)
    head = ["window", "m", "operations", "round trips, shared memory", "round trips, tcp;ofi_rxm", "CITRON's verbs", "CITRON's round trips"]
    print_table("trips", head, trip_rows(built, program, fabric))


main()

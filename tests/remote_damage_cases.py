"""Cases for words that are damaged while a run holds them: bits of one of its two leaves are cleared. To give the window back fails by 9, whichever
leaf it is, and nothing is posted again: each notice that went out behind the damaged word is there once."""

import subprocess
from functools import lru_cache
from itertools import product
from pathlib import Path

from compare import NAMES, case
from library import ROOT, SECONDS
from model import record as records
from model.record import Settings
from remote_runs import HEAD, build_with_run, lines_of, memory, serving, taken
from remote_trips import ALL, ONE, WAIT

SETTINGS = Settings(3, 1, WAIT, 20 * WAIT)
# Leaf 6 has the four last units of [60, 70), leaf 7 six first ones; both notify node 2 and the root.
WINDOW = 60, 70
BITS = {6: 0xf << 60, 7: 0x3f}
WHOLLY, PARTLY = 2 ** 64 - 1, 0x5 << 60 | 0x15
FAILED, CLEAR_BIT = 4, 9

NAMES["damaged leaf is given back"] = (
    ("most in a list", "leaf, 0 for none", "bits that are cleared"),
    ("answer", "answer when it is asked again", "cause", "word of leaf 6", "word of leaf 7", "notices out at the root", "at node 2"))


@lru_cache(maxsize=None)
def program():
    folder = ROOT / "target" / "tests"
    folder.mkdir(parents=True, exist_ok=True)
    build_with_run(folder / "damaged", "tests/damaged.c")
    return folder / "damaged"


def cleared(file, node, bits):
    """Clears bits in the word of a node, past all runs."""
    word = memory(file)[0][node - 1] & ~bits
    with Path("/dev/shm", lines_of(file)["memory"].lstrip("/")).open("r+b") as opened:
        opened.seek(HEAD + (node - 1) * 8)
        opened.write(word.to_bytes(8, "little"))


def cause(text):
    """The number by which a step is refused; 0 if none is."""
    return int(text.split(" is refused by ")[1].split(":")[0]) if " is refused by " in text else 0


def given_back(most, leaf, bits):
    """The answers, the cause, and what is left of the words when the run is closed."""
    with serving("memory", SETTINGS) as file:
        words = [program(), file, str(most), *map(str, WINDOW)]
        with subprocess.Popen(words, stdin=subprocess.PIPE, stdout=subprocess.PIPE, text=True) as run:
            run.stdout.readline()
            if leaf:
                cleared(file, leaf, bits)
            first, again, *text = run.communicate("\n", timeout=SECONDS)[0].split(" ", 2)
        left = taken(SETTINGS.levels, memory(file)[0])
    return int(first), int(again), cause(" ".join(text)), *(left.get(node, (0,))[-1] for node in (6, 7, 1, 2))


def expected(most, leaf, bits):
    """One at a time nothing is posted behind the damaged word. In a list all is, once. The flip has set the cleared bits of the leaf's own."""
    if not leaf:
        return 0, 3, 0, 0, 0, 0, 0
    words = {node: BITS[7] if most == ONE and leaf == 6 and node == 7 else 0 for node in BITS} | {leaf: BITS[leaf] & bits}
    assert all(records.notify_list(SETTINGS.distance, node) == [2, 1] for node in BITS)
    out = 0 if most == ALL else 2 if leaf == 6 else 1
    return FAILED, FAILED, CLEAR_BIT, words[6], words[7], out, out


def damaged():
    for most in (ALL, ONE):
        for leaf, bits in ((0, 0), *product(BITS, (WHOLLY, PARTLY))):
            yield case("damaged leaf is given back", [most, leaf, bits], expected(most, leaf, bits)), given_back(most, leaf, bits)


SUITES = {"a leaf damaged while it is held": damaged}

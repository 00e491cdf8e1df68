"""Request 2.5 has the bits of a leaf picked with no branch. A contract says what a function gives, and not by which instructions, so the compiled
ones are looked at: those of the function by itself, as `probe` exports it."""

import re
import subprocess

from compare import NAMES, case
from library import made

NAMES["compiled function"] = ("place",), ("instructions found", "branches")

# Functions and whether they branch. One that does shows that a branch would be seen.
BRANCHES = {"wanted_bits": False, "cover": True}

# An instruction, without the name of the place that it goes to.
INSTRUCTION = re.compile(r"^ +[0-9a-f]+:\t([^<\n]+)", re.MULTILINE)
BRANCH = re.compile(r"\b(j[a-z]+|call\w*|loop\w*)\b")


def instructions(function):
    """The instructions that a function of the library is compiled to."""
    library = made("staticlib/libprobe.a")
    command = ["objdump", "--no-show-raw-insn", f"--disassemble=probe_{function}", library]
    return INSTRUCTION.findall(subprocess.run(command, check=True, capture_output=True, text=True).stdout)


def leaf_bits_without_a_branch():
    """Neither the clipping of the two edges nor the picking of the bits has a jump or a call."""
    for place, (function, branches) in enumerate(BRANCHES.items()):
        found = instructions(function)
        branching = any(BRANCH.search(instruction) for instruction in found)
        yield case("compiled function", [place], (True, branches)), (bool(found), branching)


SUITES = {"leaf, wanted bits without a branch": leaf_bits_without_a_branch}

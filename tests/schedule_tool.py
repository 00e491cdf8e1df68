"""The program `tools/schedule`, started as its users start it; its package can be imported by the tests too."""

import os
import subprocess
import sys
from typing import NamedTuple

from library import ROOT, SECONDS

sys.path.insert(0, str(ROOT / "tools"))
TOOL = ROOT / "tools" / "schedule"


class Ran(NamedTuple):
    """How a run of the program ended: its exit status, what it wrote and what it said."""

    status: int
    written: bytes
    said: str


def started(*arguments, data=b"", stdout=subprocess.PIPE, **environment):
    """Runs the program with these bytes on standard input; RANGELOG and RANGEPAGES are the commands that it runs in place of the compiled
    programs."""
    options = {"stdout": stdout, "stderr": subprocess.PIPE, "env": os.environ | environment, "timeout": 4 * SECONDS}
    ran = subprocess.run([TOOL, *arguments], input=data, **options)
    return Ran(ran.returncode, ran.stdout or b"", ran.stderr.decode())

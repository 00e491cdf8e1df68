"""Cases for the commands that the documents show a newcomer: each is run as it stands there, one after another, and ends well."""

import re
import subprocess
from pathlib import Path
from tempfile import TemporaryDirectory

from compare import NAMES, case
from library import ROOT, SECONDS
from programs import PROGRAMS

DOCUMENTS = "README.md", "docs/SCHEDULES.md", "docs/WAITING.md", "docs/WARDS.md"
LINKED = "tools", "schedules", "target", "python", "bench"
COMMAND = re.compile(r"^    ((?:(?:head|printf) [^|\n]*\| )?(?:tools/schedule|target/bin/range\w+) [^#\n]*?) *(?:#.*)?$", re.MULTILINE)

NAMES["command in a document"] = ("document", "place"), ("exit status", "bytes on standard error")
NAMES["page of the whole case"] = (), ("as docs/whole-case.html",)


def commands(document):
    """The commands that a document shows, in its order, without their comments."""
    return COMMAND.findall((ROOT / document).read_text())


def run_in(folder, document):
    """Runs the commands of a document in a folder in which the repository's own are found, and what they write is not in its way."""
    for command in commands(document):
        yield command, subprocess.run(["bash", "-c", command], cwd=folder, capture_output=True, timeout=SECONDS)


def folder_for(parent, name):
    folder = Path(parent) / name.replace("/", "-")
    folder.mkdir()
    for linked in LINKED:
        (folder / linked).symlink_to(ROOT / linked)
    return folder


def documented():
    """Every command of every document."""
    for program in PROGRAMS:
        program.command()
    with TemporaryDirectory() as parent:
        for number, document in enumerate(DOCUMENTS):
            folder = folder_for(parent, document)
            for place, (command, ran) in enumerate(run_in(folder, document)):
                if ran.returncode or ran.stderr:
                    print(f"    {document}: `{command}` ends with {ran.returncode}: {ran.stderr.decode()}")
                yield case("command in a document", [number, place], (0, 0)), (ran.returncode, len(ran.stderr))
            if document == "README.md":
                same = (folder / "whole-case.html").read_text() == (ROOT / "docs" / "whole-case.html").read_text()
                yield case("page of the whole case", [], 1), int(same)


SUITES = {"documents, the commands that they show": documented}

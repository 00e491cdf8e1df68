"""Running `rangelog` or `rangepages`, and seeing that all that it prints came and is what the model prints."""

import os
import shlex
import shutil
import subprocess
from pathlib import Path
from typing import Callable, NamedTuple

from model import pages, schedule
from scheduling.problems import Failed, reason, shown
from scheduling.streams import program_folder

BUILT = Path(__file__).resolve().parents[2] / "target" / "bin"
SECONDS = 60


class Program(NamedTuple):
    """A program that reads a schedule: its name, and what the model prints of a file in its place."""

    name: str
    by_model: Callable


RANGELOG = Program("rangelog", schedule.log)
RANGEPAGES = Program("rangepages", pages.pages)


def command_for(name):
    """The command: what the program's name in capitals says in the environment, else the program beside this one, else the repository's,
    else the system's."""
    try:
        asked = shlex.split(os.environ.get(name.upper(), ""))
    except ValueError as error:
        raise Failed(f"{name.upper()} in the environment is no command: {error}") from None
    if asked:
        return asked
    for place in (program_folder() / name, BUILT / name):
        if place.is_file():
            return [str(place)]
    if found := shutil.which(name):
        return [found]
    raise Failed(f"{name} could not be run: it is not built; `make target/bin/{name}` proves and builds it, and `make` does too")


def output_of(command, data):
    """What a program writes for a file. Whatever it says on standard error is a failure, and so is an exit status other than 0."""
    try:
        ran = subprocess.run(command, input=data, capture_output=True, timeout=SECONDS)
    except (OSError, subprocess.TimeoutExpired) as error:
        raise Failed(f"{command[0]} could not be run: {reason(error) if isinstance(error, OSError) else error}") from None
    if ran.stderr:
        raise Failed(ran.stderr.decode("utf-8", "replace").strip())
    if ran.returncode != 0:
        raise Failed(f"{command[0]} ended with status {ran.returncode}")
    return ran.stdout.decode("ascii", "replace")


def lines_of(program, command, data):
    """The lines that a program prints, or `refused N` alone. They are believed only where the model, written apart from the programs, says
    the same."""
    text, expected = output_of(command, data), program.by_model(data).splitlines()
    lines = text.split("\n")
    if lines.pop() != "":
        raise Failed(f"what {program.name} printed is not whole: it ends within its line {len(lines) + 1}, {shown(text[-80:])}")
    for place, (line, by_model) in enumerate(zip(lines, expected), 1):
        if line != by_model:
            raise Failed(f"line {place} that {program.name} printed is {shown(line)}, and the model says {shown(by_model)}: one of the two "
                         "is wrong; keep the file and report it")
    if len(lines) != len(expected):
        raise Failed(f"what {program.name} printed is not whole: it has {len(lines)} lines, and the model's has {len(expected)}")
    return lines


def whole_output(program, data):
    """Those lines. If they are not believed, and another program than the repository's was asked for, that is said too."""
    command, asked = command_for(program.name), os.environ.get(program.name.upper(), "").strip()
    try:
        return lines_of(program, command, data)
    except Failed as failed:
        beside = f"; {program.name.upper()} in the environment is {shown(asked)}" if asked else ""
        raise Failed(f"{failed}{beside}") from None

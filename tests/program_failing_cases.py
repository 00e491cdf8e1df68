"""Cases for the compiled `rangelog` and `rangepages` where input or output fails: what failed is said in one line on standard error, and
nothing is printed that the file did not earn. And how far they read where nothing fails."""

import errno
import os
from contextlib import contextmanager
from fcntl import F_SETPIPE_SZ, fcntl
from subprocess import DEVNULL, PIPE
from subprocess import run as run_command
from tempfile import TemporaryFile

from compare import NAMES, case
from library import ROOT, SECONDS
from model.history import Call
from model.schedule import CALL, HEADER, LONGEST
from programs import PROGRAMS, RANGELOG, RANGEPAGES, Ran
from schedule_files import WHOLE_CASE, of_calls

MOST_CALLS = (LONGEST - HEADER.size) // CALL.size
# As many calls as fit, of as many clients, with edges of five digits: log and pages are longer than the smallest pipe.
LONG = of_calls(*(Call("request", place % 64, 10000, 60000) for place in range(MOST_CALLS)), levels=6, clients=64)
SMALLEST_PIPE = 4096

# What is not whole if it could not be written.
NOT_WHOLE = {RANGELOG: "the log is", RANGEPAGES: "the pages are"}

NAMES["bytes read"] = ("file's bytes",), ("bytes read",)


def not_read(program, error):
    return f"{program.name}: standard input could not be read: {os.strerror(error)}\n".encode()


def not_written(program, error):
    return f"{program.name}: standard output could not be written, and {NOT_WHOLE[program]} not whole: {os.strerror(error)}\n".encode()


def run(program, before="", after="", **descriptors):
    """Runs the program from a shell, in which a descriptor can be closed or a signal ignored."""
    command = ["sh", "-c", f'{before} exec "$@" {after}', "sh", *program.command()]
    return run_command(command, stderr=PIPE, cwd=ROOT, timeout=SECONDS, **descriptors)


def printed(program, name, data, ran, text, expected):
    """What came on standard output, held to what is expected byte for byte."""
    return program.compared(f"{name}, standard output", data, expected, Ran(text, max(-ran.returncode, 0)))


def said(program, name, data, ran, expected):
    """What came on standard error."""
    return program.compared(f"{name}, standard error", data, expected, Ran(ran.stderr, max(-ran.returncode, 0)))


@contextmanager
def pipe():
    """The two ends of a pipe, to read from and to write into. No call on either of them waits."""
    ends = os.pipe()
    for end in ends:
        os.set_blocking(end, False)
    with open(ends[0], "rb", buffering=0) as reader, open(ends[1], "wb", buffering=0) as writer:
        yield reader, writer


def pipe_not_at_its_end(program, data):
    """Runs the program on a pipe that holds these bytes, and into which more could be written."""
    with pipe() as (reader, writer):
        writer.write(data)
        return run(program, stdin=reader, stdout=PIPE)


def inputs_that_fail(program):
    """Nothing is printed, whatever was read before: what came of the input need not be the file."""
    directory = os.open("/", os.O_RDONLY)
    runs = {
        "a directory as input": (b"", run(program, stdin=directory, stdout=PIPE), errno.EISDIR),
        "standard input closed": (b"", run(program, after="<&-", stdout=PIPE), errno.EBADF),
        "an empty pipe that is not at its end": (b"", pipe_not_at_its_end(program, b""), errno.EAGAIN),
        "a part of a file and no end": (WHOLE_CASE[:100], pipe_not_at_its_end(program, WHOLE_CASE[:100]), errno.EAGAIN),
        "a whole file and no end": (WHOLE_CASE, pipe_not_at_its_end(program, WHOLE_CASE), errno.EAGAIN),
    }
    os.close(directory)
    for name, (data, ran, error) in runs.items():
        yield printed(program, name, data, ran, ran.stdout, b"")
        yield said(program, name, data, ran, not_read(program, error))


def full_device(program, data):
    """Runs the program with its output to a device on which no room is left."""
    with open("/dev/full", "wb") as full:
        return run(program, input=data, stdout=full)


def pipe_without_a_reader(program, data):
    """Runs the program with its output into a pipe that nobody reads. The signal that would end it there is ignored."""
    with pipe() as (reader, writer):
        reader.close()
        return run(program, before="trap '' PIPE;", input=data, stdout=writer)


def outputs_that_fail(program):
    """Nothing is written."""
    runs = {
        "a full device": (full_device(program, WHOLE_CASE), errno.ENOSPC),
        "standard output closed": (run(program, after=">&-", input=WHOLE_CASE), errno.EBADF),
        "a pipe without a reader": (pipe_without_a_reader(program, WHOLE_CASE), errno.EPIPE),
    }
    for name, (ran, error) in runs.items():
        yield said(program, name, WHOLE_CASE, ran, not_written(program, error))


def full_pipe(program):
    """Only so much is written as the pipe holds, which nobody empties."""
    with pipe() as (reader, writer):
        fits = fcntl(writer, F_SETPIPE_SZ, SMALLEST_PIPE)
        ran = run(program, input=LONG, stdout=writer)
        writer.close()
        yield printed(program, "a full pipe", LONG, ran, reader.read(), program.expected(LONG)[:fits])
    yield said(program, "a full pipe", LONG, ran, not_written(program, errno.EAGAIN))


def good_descriptors(program):
    """The same schedules, and no file at all, where nothing fails: what is to be printed, and not a word on standard error."""
    for name, data in {"the whole case": WHOLE_CASE, "as many calls as fit": LONG, "no file": b""}.items():
        ran = run(program, input=data, stdout=PIPE)
        yield printed(program, f"{name}, nothing fails", data, ran, ran.stdout, program.expected(data))
        yield said(program, f"{name}, nothing fails", data, ran, b"")


def bytes_read(program):
    """A file is read to its end, and a file that is too long to one byte past the longest: so far its place moves."""
    for length in (len(WHOLE_CASE), LONGEST, LONGEST + 1, LONGEST + 2, 2 * LONGEST):
        with TemporaryFile() as file:
            file.write(WHOLE_CASE.ljust(length, b"\xff"))
            file.seek(0)
            run(program, stdin=file, stdout=DEVNULL)
            yield case("bytes read", [length], min(length, LONGEST + 1)), os.lseek(file.fileno(), 0, os.SEEK_CUR)


CASES = {
    "input that cannot be read": inputs_that_fail,
    "output that cannot be written": outputs_that_fail,
    "a pipe that is full": full_pipe,
    "nothing is said where nothing fails": good_descriptors,
    "how far a file is read": bytes_read,
}
SUITES = {
    f"{program.name}, {name}": lambda cases=cases, program=program: cases(program)
    for program in PROGRAMS for name, cases in CASES.items()
}

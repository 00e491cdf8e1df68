"""Reading input no further than is needed, and writing output whole or saying that it could not be."""

import os
import sys
import tempfile
from pathlib import Path

from scheduling.problems import Failed, reason

STANDARD = {0: "standard input", 1: "standard output", 2: "standard error"}
AT_ONCE = 2 ** 16


def is_open(descriptor):
    try:
        os.fstat(descriptor)
    except OSError:
        return False
    return True


class Streams:
    """The program's standard streams. One that was closed when it started is kept from being given to a file that is opened later."""

    def __init__(self):
        self.closed = {descriptor for descriptor in STANDARD if not is_open(descriptor)}
        while any(not is_open(descriptor) for descriptor in STANDARD):
            os.open(os.devnull, os.O_RDWR)

    def read(self, path, limit):
        """The bytes of a file, or of standard input for `-`, up to one more than the limit, by which it is seen to be passed."""
        name = STANDARD[0] if path == "-" else path
        if path == "-" and 0 in self.closed:
            raise Failed(f"{name} could not be read: it is closed")
        try:
            with open(0 if path == "-" else path, "rb", buffering=0, closefd=path != "-") as file:
                return read_up_to(file.fileno(), limit + 1)
        except OSError as error:
            raise Failed(f"{name} could not be read: {reason(error)}") from None

    def write(self, data):
        """Writes all of these bytes to standard output."""
        if 1 in self.closed:
            raise Failed(f"{STANDARD[1]} could not be written: it is closed")
        try:
            write_all(1, data)
        except OSError as error:
            raise Failed(f"{STANDARD[1]} could not be written: {reason(error)}") from None

    def say(self, message):
        """A line on standard error. If even that cannot be written, the exit status alone tells."""
        try:
            write_all(2, f"{message}\n".encode("utf-8", "backslashreplace"))
        except OSError:
            pass


def read_up_to(descriptor, most):
    pieces, count = [], 0
    while count < most and (piece := os.read(descriptor, min(AT_ONCE, most - count))):
        pieces.append(piece)
        count += len(piece)
    return b"".join(pieces)


def write_all(descriptor, data):
    rest = memoryview(data)
    while rest:
        rest = rest[os.write(descriptor, rest):]


def write_file(path, data):
    """The file of that name has these bytes, or is as it was. What is there and no regular file, as a device or a pipe, keeps its place
    and is written to."""
    try:
        if os.path.exists(path) and not os.path.isfile(path):
            with open(path, "wb", buffering=0) as file:
                write_all(file.fileno(), data)
        else:
            replace(Path(path).resolve(), data)
    except OSError as error:
        raise Failed(f"{path} could not be written: {reason(error)}") from None


def replace(path, data):
    """The bytes are written beside the file, and then take its name. A link stays a link: what it leads to is replaced."""
    descriptor, beside = tempfile.mkstemp(dir=path.parent, prefix=f".{path.name}.")
    try:
        with os.fdopen(descriptor, "wb") as file:
            file.write(data)
            os.fchmod(file.fileno(), path.stat().st_mode & 0o7777 if path.exists() else 0o666 & ~umask())
        os.replace(beside, path)
    except BaseException:
        os.unlink(beside)
        raise


def umask():
    """What the system takes off the mode of a new file; it can only be asked for by setting it."""
    found = os.umask(0o077)
    os.umask(found)
    return found


def program_folder():
    """Where the program that was started stands."""
    return Path(sys.argv[0]).resolve().parent

"""Cases for `tools/schedule` where something cannot be read, run or written: it says so in a line, with no traceback, and by its exit
status; and what it writes into a file is whole or not there."""

import os
import resource
import signal
import subprocess
from pathlib import Path
from tempfile import TemporaryDirectory

from compare import NAMES, case
from library import ROOT, SECONDS
from schedule_tool import TOOL, started

WHOLE_TEXT = (ROOT / "schedules" / "whole-case.txt").read_bytes()
WHOLE_FILE = (ROOT / "schedules" / "whole-case.bin").read_bytes()
LOG = (ROOT / "schedules" / "whole-case.log").read_text()
RESULTS = ("exit status", "said as expected", "bytes written")
MEMORY = 2 ** 29

FULL = "schedule: standard output could not be written: No space left on device\n"
CLOSED = "schedule: standard output could not be written: it is closed\n"
NO_INPUT = "schedule: standard input could not be read: it is closed\n"
WRONG = "one of the two is wrong; keep the file and report it"

TOO_MANY_LEVELS = "tree 7 m 1 wait 5 patience 20 clients 2"

# A shell command, with `schedule` for the program; its exit status, and what it says.
COMMANDS = {
    "a full device": ("schedule run whole-case.txt > /dev/full", 3, FULL),
    "a full device, pack": ("schedule pack whole-case.txt > /dev/full", 3, FULL),
    "a full device, help": ("schedule --help > /dev/full", 3, FULL),
    "a full device, version": ("schedule --version > /dev/full", 3, FULL),
    "a closed output": ("schedule run whole-case.txt >&-", 3, CLOSED),
    "a closed output, unpack": ("schedule unpack whole-case.bin >&-", 3, CLOSED),
    "all closed": ("schedule pack whole-case.txt <&- >&- 2>&-", 3, ""),
    "a closed input": ("schedule pack <&-", 3, NO_INPUT),
    "a closed input, run": ("schedule run - <&-", 3, NO_INPUT),
    "a reader that goes away": ("schedule run whole-case.txt | true; exit ${PIPESTATUS[0]}", 3,
                                "schedule: standard output could not be written: Broken pipe\n"),
    "no such file": ("schedule run nothing.txt", 3, "schedule: nothing.txt could not be read: No such file or directory\n"),
    "a directory": ("schedule unpack .", 3, "schedule: . could not be read: Is a directory\n"),
    "an endless file": ("schedule unpack < /dev/zero", 1, "byte 65536: a file has at most 65536 bytes; this one goes on\n"),
    "an endless text": ("yes step 0 1 | schedule pack", 1, "byte 1048576: a text has at most 1048576 bytes; this one goes on\n"),
    "an endless file, run": ("schedule run < /dev/zero", 1, "byte 65536: a file has at most 65536 bytes; this one goes on\n"),
    "a file in no folder": ("schedule pack whole-case.txt -o no/such/folder.bin", 3,
                            "schedule: no/such/folder.bin could not be written: No such file or directory\n"),
    "a wrong text": ("echo stop | schedule run", 1,
                     "line 1: the first line wants the settings, as in `tree 2 m 1 wait 5 patience 20 clients 2`; got `stop`\n"),
    "a refused schedule": (f"echo {TOO_MANY_LEVELS} | schedule run", 1,
                           "line 1: rangelog and rangepages run trees of at most 6 levels, not 7; refused by 11\n"),
    "no command": ("schedule", 2, "usage: schedule [-h] [--version] COMMAND ...\nschedule: error: the following arguments are required: COMMAND\n"),
    "two files": ("schedule pack whole-case.txt blocked.txt", 2,
                  "usage: schedule [-h] [--version] COMMAND ...\nschedule: error: unrecognized arguments: blocked.txt\n"),
    "rangelog missing": ("RANGELOG=/no/rangelog schedule run whole-case.txt", 3,
                         "schedule: /no/rangelog could not be run: No such file or directory; RANGELOG in the environment is "
                         "`/no/rangelog`\n"),
    "rangelog says something": ("RANGELOG='ls /no/such/file' schedule run whole-case.txt", 3,
                                "schedule: ls: cannot access '/no/such/file': No such file or directory; RANGELOG in the environment is "
                                "`ls /no/such/file`\n"),
    "rangelog ends with 1": ("RANGELOG=false schedule run whole-case.txt", 3,
                             "schedule: false ended with status 1; RANGELOG in the environment is `false`\n"),
    "no log": ("RANGELOG=true schedule run whole-case.txt", 3,
               "schedule: what rangelog printed is not whole: it has 0 lines, and the model's has 15; RANGELOG in the environment is "
               "`true`\n"),
    "no log of a refused schedule": (f"echo {TOO_MANY_LEVELS} | RANGELOG=true schedule run --log", 3,
                                     "schedule: what rangelog printed is not whole: it has 0 lines, and the model's has 1; RANGELOG in the "
                                     "environment is `true`\n"),
    "a log of a refused schedule": (f"echo {TOO_MANY_LEVELS} | RANGELOG='echo tree 7 m 1 wait 5 clients 2' schedule run", 3,
                                    "schedule: line 1 that rangelog printed is `tree 7 m 1 wait 5 clients 2`, and the model says "
                                    f"`refused 11`: {WRONG}; RANGELOG in the environment is `echo tree 7 m 1 wait 5 clients 2`\n"),
    "no command for rangelog": ("RANGELOG=\"'\" schedule run whole-case.txt", 3,
                                "schedule: RANGELOG in the environment is no command: No closing quotation\n"),
    "a refused schedule, pages": ("echo tree 2 m 1 wait 5 patience 20 clients 0 | schedule pages", 1,
                                  "line 1: there is at least 1 client, not 0; refused by 3\n"),
    "rangepages missing": ("RANGEPAGES=/no/rangepages schedule pages whole-case.txt", 3,
                           "schedule: /no/rangepages could not be run: No such file or directory; RANGEPAGES in the environment is "
                           "`/no/rangepages`\n"),
    "rangelog in place of rangepages": ("RANGEPAGES='cat whole-case.log' schedule pages whole-case.txt", 3,
                                        "schedule: line 1 that rangepages printed is `tree 2 m 1 wait 5 clients 2`, and the model says "
                                        f"`0 0 0 0 0 0 0 0`: {WRONG}; RANGEPAGES in the environment is `cat whole-case.log`\n"),
    "no pages": ("RANGEPAGES=true schedule pages whole-case.txt", 3,
                 "schedule: what rangepages printed is not whole: it has 0 lines, and the model's has 4; RANGEPAGES in the environment is "
                 "`true`\n"),
    "no command for rangepages": ("RANGEPAGES=\"'\" schedule pages whole-case.txt", 3,
                                  "schedule: RANGEPAGES in the environment is no command: No closing quotation\n"),
}


def limited():
    """What a schedule needs fits into this much memory many times over."""
    resource.setrlimit(resource.RLIMIT_AS, (MEMORY, MEMORY))


def in_shell(command, folder):
    """Runs a command with `schedule` on its path, in a folder with the whole case."""
    environment = {**os.environ, "PATH": f"{ROOT / 'tools'}:{os.environ['PATH']}", "LC_ALL": "C"}
    ran = subprocess.run(["bash", "-c", command], cwd=folder, env=environment, capture_output=True, timeout=2 * SECONDS, preexec_fn=limited)
    return ran.returncode, ran.stderr.decode(), len(ran.stdout)


def told(name, expected, found):
    """A case with the exit status, whether what was said is as expected, and how many bytes were written."""
    NAMES[f"tools/schedule, {name}"] = (), RESULTS
    status, said, written = found
    if said != expected[1]:
        print(f"    {name}: {said!r} in place of {expected[1]!r}")
    return case(f"tools/schedule, {name}", [], (expected[0], 1, expected[2])), (status, int(said == expected[1]), written)


def commands():
    for name, (command, status, said) in COMMANDS.items():
        yield told(name, (status, said, 0), in_shell(command, ROOT / "schedules"))


# What a program in place of rangelog makes of the log of the whole case, and what is said of that.
CHANGED_LOGS = {
    "a line short": (LOG[:-len("13 step 1 0 9 0 256\n")], "what rangelog printed is not whole: it has 14 lines, and the model's has 15"),
    "a line more": (LOG + LOG[-20:], "what rangelog printed is not whole: it has 16 lines, and the model's has 15"),
    "cut in its last line": (LOG[:-3], "what rangelog printed is not whole: it ends within its line 15, `"
                             + LOG[:-3][-80:].replace("\n", "\\n") + "`"),
    "a refusal": ("refused 3\n", f"line 1 that rangelog printed is `refused 3`, and the model says `tree 2 m 1 wait 5 clients 2`: {WRONG}"),
    "another phase": (LOG.replace("7 step 0 0 9", "7 step 0 0 8"),
                      f"line 9 that rangelog printed is `7 step 0 0 8 10 20`, and the model says `7 step 0 0 9 10 20`: {WRONG}"),
    "another header": (LOG.replace("wait 5", "wait 6"), "line 1 that rangelog printed is `tree 2 m 1 wait 6 clients 2`, and the model says "
                       f"`tree 2 m 1 wait 5 clients 2`: {WRONG}"),
}


def changed_logs():
    """A log that is not whole or not the model's is not told as if it were."""
    for name, (log, said) in CHANGED_LOGS.items():
        with TemporaryDirectory() as folder:
            path = Path(folder) / "log"
            path.write_text(log)
            ran = started("run", data=WHOLE_TEXT, RANGELOG=f"cat {path}")
        expected = f"schedule: {said}; RANGELOG in the environment is `cat {path}`\n"
        yield told(f"log with {name}", (3, expected, 0), (ran.status, ran.said, len(ran.written)))


def output_files():
    """-o writes a file whole, or leaves the one that is there and nothing beside it; a link and a device stay what they are."""
    with TemporaryDirectory() as folder:
        path, link = Path(folder) / "case.bin", Path(folder) / "link"
        path.write_bytes(b"before")
        path.chmod(0o640)
        link.symlink_to("case.bin")
        wrong = started("pack", "-o", path, data=b"stop")
        kept = path.read_bytes() == b"before"
        right = started("pack", "-o", link, data=WHOLE_TEXT)
        written = path.read_bytes() == WHOLE_FILE and link.is_symlink() and sorted(os.listdir(folder)) == ["case.bin", "link"]
        mode = path.stat().st_mode & 0o777
        fresh = started("pack", "-o", Path(folder) / "fresh", data=WHOLE_TEXT)
        fresh_mode = (Path(folder) / "fresh").stat().st_mode & 0o777
    null = started("pack", "-o", "/dev/null", data=WHOLE_TEXT)
    there = Path("/dev/null").is_char_device()
    umask = os.umask(0)
    os.umask(umask)
    yield told("-o, a wrong text leaves the file", (1, "kept", 0), (wrong.status, "kept" if kept else "lost", len(wrong.written)))
    yield told("-o, a right text, by a link", (0, "written", 0o640), (right.status, "written" if written else "not whole", mode))
    yield told("-o, a new file", (0, "", 0o666 & ~umask), (fresh.status, fresh.said, fresh_mode))
    yield told("-o, a device", (0, "there", 0), (null.status, "there" if there else "gone", len(null.written)))
    full = started("pack", "-o", "/dev/full", data=WHOLE_TEXT)
    expected = 3, "schedule: /dev/full could not be written: No space left on device\n", 0
    yield told("-o, a full device", expected, (full.status, full.said, len(full.written)))


def interrupted():
    """Ctrl-C while it reads its input: more is written to it than a pipe holds, so that it has begun to."""
    with subprocess.Popen([TOOL, "pack"], stdin=subprocess.PIPE, stdout=subprocess.PIPE, stderr=subprocess.PIPE) as process:
        process.stdin.write(b"#" * 2 ** 18)
        process.stdin.flush()
        process.send_signal(signal.SIGINT)
        written, said = process.communicate(timeout=SECONDS)
    yield told("interrupted", (130, "schedule: interrupted\n", 0), (process.returncode, said.decode(), len(written)))


SUITES = {
    "tools/schedule, what cannot be read, run or written": commands,
    "tools/schedule, a log that is not whole or not the model's": changed_logs,
    "tools/schedule, files written whole or not at all": output_files,
    "tools/schedule, interrupted": interrupted,
}

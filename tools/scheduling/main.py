"""The program's command line: what is asked, where it comes from and goes to, and the exit status."""

import argparse
import re
import signal
import sys
from typing import NamedTuple

from model.schedule import LONGEST
from scheduling import packed, picture, report
from scheduling.events import happened
from scheduling.overlaps import overlap_lines
from scheduling.page_report import page_report
from scheduling.planning import left_out, plan, plan_lines
from scheduling.problems import Failed, Wrong, shown
from scheduling.refusals import foreseen, of_whole
from scheduling.running import RANGELOG, RANGEPAGES, whole_output
from scheduling.streams import Streams, write_file
from scheduling.text import LONGEST_TEXT, read_text
from scheduling.wishes import read_wishes

OLDEST_PYTHON = 3, 10
# The parser of the command line ends with 2 itself.
DONE, INPUT_WRONG, FAILED, INTERRUPTED = 0, 1, 3, 130

DESCRIPTION = """\
Make schedules for rangelog and rangepages, run them, and see what happened.

The first line of a text has the settings, and each line after it is a call:

    tree 2 m 1 wait 5 patience 20 clients 2
    request 0 10 20             # client, left edge, right edge
    step 0 1                    # client, clock
    release 0                   # client
    cancel 0                    # client

Behind the settings a calendar may stand; then windows may be written as ward hours:

    calendar wards 3 weeks 2
    request 3 ward 2 week 0 day 6 23:45 .. week 1 day 0 02:00

Blank lines are passed over, and so is the rest of a line from a # on. FILE is - or left out for standard input.
"""
STATUS = "exit status: 0 done, 1 input wrong, 2 usage, 3 could not read, run or write. docs/SCHEDULES.md and docs/WARDS.md have more."


class Made(NamedTuple):
    """What a command makes: the bytes to write, what is said beside them on standard error, and the exit status."""

    data: bytes
    said: tuple = ()
    status: int = DONE


def is_packed(data):
    """Some byte of every packed file is 0, the highest of its offset; no byte of a text is."""
    return 0 in data[:LONGEST + 1]


def read_source(data):
    """The schedule of a text or of a packed file, and the file's bytes."""
    if is_packed(data):
        return packed.read_file(data), data
    source = read_text(data)
    return source, packed.pack(source.schedule)


def lines(text):
    return "".join(f"{line}\n" for line in text).encode()


def do_pack(streams, options):
    source = read_text(streams.read(options.file, LONGEST_TEXT))
    return Made(packed.pack(source.schedule), tuple(foreseen(source)))


def do_unpack(streams, options):
    figures = options.wards, options.weeks
    if figures.count(None) == 1:
        options.error("--wards and --weeks go together")
    return Made(packed.unpack(streams.read(options.file, LONGEST), None if None in figures else figures).encode())


def run(program, streams, options):
    """The schedule of what is read, and the lines that a program prints of it, if it was not refused as a whole."""
    source, data = read_source(streams.read(options.file, LONGEST_TEXT))
    printed = whole_output(program, data)
    if refused := of_whole(source):
        raise Wrong(*refused)
    return source, printed


def run_and_happened(streams, options):
    """The schedule and what happened in it."""
    source, log = run(RANGELOG, streams, options)
    return source, happened(source.schedule, log)


def log_alone(data):
    """The log, also that of a file that is no schedule, with what is wrong with it beside it; and with two clients that hold at once, which is
    hard to see in a log."""
    try:
        source, file = read_source(data)
    except Wrong as wrong:
        if not is_packed(data):
            raise
        return Made(lines(whole_output(RANGELOG, data)), wrong.messages, INPUT_WRONG)
    log, refused = whole_output(RANGELOG, file), of_whole(source)
    if refused:
        return Made(lines(log), refused, INPUT_WRONG)
    return Made(lines(log), tuple(overlap_lines(happened(source.schedule, log).events)))


def do_run(streams, options):
    if options.log:
        return log_alone(streams.read(options.file, LONGEST_TEXT))
    return Made(lines(report.report(*run_and_happened(streams, options))))


def do_pages(streams, options):
    source, printed = run(RANGEPAGES, streams, options)
    return Made(lines(page_report(source.schedule, printed)))


def do_plan(streams, options):
    schedule, wishes, calendar = read_wishes(streams.read(options.file, LONGEST_TEXT))
    planned, left = plan(schedule, wishes)
    text = lines(plan_lines(schedule, wishes, planned, left, calendar))
    return Made(text, tuple(left_out(left)), INPUT_WRONG if left else DONE)


def do_picture(streams, options):
    _, known = run_and_happened(streams, options)
    return Made(picture.page(known, options.by, options.file).encode())


COMMANDS = {
    "run": (do_run, "run a text or a file, and say what happened beside each line of the log"),
    "pages": (do_pages, "run a text or a file, and show what planners and each forecast run see after the last call"),
    "picture": (do_picture, "run a text or a file, and draw who held which units when, as a page for a browser"),
    "plan": (do_plan, "make a text from wishes, as `run 7 wants 100 220 from 30 for 40` (client, edges, clock, ticks to hold)"),
    "pack": (do_pack, "turn a text into the file that rangelog and rangepages read"),
    "unpack": (do_unpack, "turn such a file into a text"),
}


def plain_number(word):
    """A number as a text says it: digits alone."""
    if not re.fullmatch("[0-9]{1,20}", word):
        raise argparse.ArgumentTypeError(f"not a number: {shown(word)}")
    return int(word)


def add_options(of_command):
    """The options that single commands have."""
    of_command["run"].add_argument("--log", action="store_true", help="print the log alone")
    by = "what the time axis counts (default: call); clocks only where they never go back along the schedule"
    of_command["picture"].add_argument("--by", choices=("call", "clock"), default="call", help=by)
    for name in ("wards", "weeks"):
        says = f"write windows that lie in one ward as ward hours, by a calendar of so many {name}; --wards and --weeks go together"
        of_command["unpack"].add_argument(f"--{name}", type=plain_number, metavar="NUMBER", help=says)


def parser(streams, version):
    class Parser(argparse.ArgumentParser):
        def print_help(self, file=None):
            """As the commands do, so that a help that cannot be written is told of."""
            streams.write(self.format_help().encode())

    class Version(argparse.Action):
        def __call__(self, parser, namespace, values, option_string=None):
            streams.write(f"schedule {version}\n".encode())
            parser.exit()

    parser = Parser(prog="schedule", description=DESCRIPTION, epilog=STATUS, formatter_class=argparse.RawDescriptionHelpFormatter)
    parser.add_argument("--version", action=Version, nargs=0, help="show the version and exit")
    commands, added = parser.add_subparsers(dest="command", metavar="COMMAND", required=True), {}
    for name, (does, says) in COMMANDS.items():
        added[name] = commands.add_parser(name, help=says, description=says[0].upper() + says[1:] + ".", epilog=STATUS)
        added[name].add_argument("file", nargs="?", default="-", metavar="FILE", help="what to read; - or nothing for standard input")
        added[name].add_argument("-o", dest="output", metavar="FILE", help="write this file, whole or not at all")
        added[name].set_defaults(do=does, error=added[name].error)
    add_options(added)
    return parser


def do(streams, options):
    """Does what is asked. Nothing is written before all of it is known."""
    made = options.do(streams, options)
    if options.output is None:
        streams.write(made.data)
    else:
        write_file(options.output, made.data)
    for message in made.said:
        streams.say(message)
    return made.status


def main(version):
    signal.signal(signal.SIGINT, signal.default_int_handler)
    streams = Streams()
    if sys.version_info < OLDEST_PYTHON:
        streams.say("schedule: Python {}.{} or later is needed".format(*OLDEST_PYTHON))
        return FAILED
    try:
        return do(streams, parser(streams, version).parse_args())
    except Wrong as wrong:
        for message in wrong.messages:
            streams.say(message)
        return INPUT_WRONG
    except Failed as failed:
        streams.say(f"schedule: {failed}")
        return FAILED
    except KeyboardInterrupt:
        streams.say("schedule: interrupted")
        return INTERRUPTED

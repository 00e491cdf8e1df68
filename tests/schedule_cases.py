"""Cases for the compiled `rangelog` and `rangepages`: document 01's whole case, and files at every edge of the format. What each prints is
held byte for byte to the document, to files, or to the model."""

import subprocess
from time import sleep

from broken_programs import BROKEN, broken
from broken_rules import by_broken
from compare import NAMES, case
from history_cases import WHOLE_CASE as WHOLE_CASE_LINES
from library import ROOT, SECONDS
from model.pages import Row
from model.record import Record
from model.schedule import header_of
from programs import PROGRAMS, RANGELOG, RANGEPAGES, Ran
from random_schedules import drawn
from schedule_files import WHOLE_CASE, at_call, by_group, changed

CORPUS = ROOT / "tests" / "schedules"
FEW_SEEDS = 40

# The header line, and a line for each call, as the document writes them.
WHOLE_LOG = "\n".join(["tree 2 m 1 wait 5 clients 2", *WHOLE_CASE_LINES, ""]).encode()

# After the last call client 0 is idle with outcome 1, and client 1 holds the whole tree by the root, claimed at clock 3 and taken at 10. Alone
# it would need five steps for it.
WHOLE_PAGES = b"""\
0 0 0 0 0 0 0 0
1 9 0 256 1 0 0 5
0 0 1 0 0 0 0 0 0 0 0 0 0 0 0 0 1
1 9 0 0 256 1 0 0 0 3 0 0 0 0 3 10 1
"""
WHOLE = {RANGELOG: WHOLE_LOG, RANGEPAGES: WHOLE_PAGES}

NAMES["shown in tests/schedules"] = ("place in the list of what must be shown",), ("shown",)
NAMES["broken program"] = ("program", "place in the list of broken programs"), ("found out",)


def whole_case(program):
    """What the document writes down or says, by the model and by the program."""
    yield program.compared("model, the whole case", WHOLE_CASE, WHOLE[program], Ran(program.expected(WHOLE_CASE)))
    yield program.compared("the whole case", WHOLE_CASE, WHOLE[program], program.run(WHOLE_CASE))


def clock_6_in_call_7():
    """With clock 6 in call 7 its phase is 10: that line is the document's, and the lines before it are as they were."""
    data = changed(WHOLE_CASE, at_call(7, 8), 6)
    before = WHOLE_LOG.split(b"7 step")[0] + b"7 step 0 0 10 10 20\n"
    for name, ran in (("model", Ran(RANGELOG.expected(data))), ("program", RANGELOG.run(data))):
        until_7 = b"".join(ran.text.splitlines(keepends=True)[:9])
        yield RANGELOG.compared(f"clock 6 in call 7, {name}", data, before, ran._replace(text=until_7))


def corpus(program):
    """The files in tests/schedules, each beside its log and its pages: the model and the program print these."""
    for path in sorted(CORPUS.glob("*.bin")):
        yield from program.held_to_file(path)


def shown_in_corpus():
    """The pages in tests/schedules have what only clients in the middle show: over-cover of two pieces that are held, the second piece given
    back, each outcome while giving back and idle, 64 clients, clocks of 20 digits, the time at which a single piece was taken, the step counts
    of a window that is given back and of one that needs over 127."""
    lines = [list(map(int, line.split())) for path in CORPUS.glob("*.pages") for line in path.read_text().splitlines() if line[0].isdigit()]
    rows = [Row(*row) for _, *row in lines if len(row) == len(Row._fields)]
    records = [Record(*record[:-1]) for _, *record in lines if len(record) == len(Record._fields) + 1]
    shown = [
        any(row.phase == 9 and row.second and row.over for row in rows),
        any(record.phase == 10 and record.giving == 1 for record in records),
        {record.outcome for record in records if record.phase == 10} == {1, 2, 3, 4},
        {record.outcome for record in records if record.phase == 0} == {0, 1, 2, 3, 4},
        any(line[0] == 63 for line in lines),
        any(min(record.t1, record.t0, record.taken) >= 10 ** 19 for record in records),
        any(record.taken > 0 and record.current == 0 for record in records),
        any(row.phase == 10 and row.steps for row in rows),
        any(row.steps > 127 for row in rows),
    ]
    for place, found in enumerate(shown):
        yield case("shown in tests/schedules", [place], 1), int(found)


def clients_twice(data):
    """The first word of each line of the pages: every client's number, and again."""
    clients = header_of(data).clients
    return "".join(f"{client}\n" for _ in range(2) for client in range(clients)).encode()


def expected_in_brief(program, file):
    """What the test itself says of a file: that it is refused, and by what; else the log's header line by the numbers of the file's
    header, or the clients that the pages' lines are of."""
    if file.number != 0:
        return f"refused {file.number}\n".encode()
    if program is RANGELOG:
        return "tree {} m {} wait {} clients {}\n".format(*header_of(file.data)).encode()
    return clients_twice(file.data)


def in_brief(program, file, text):
    """That part of what was printed; all of it if the file is refused."""
    lines = text.splitlines(keepends=True)
    if file.number != 0:
        return text
    return lines[0] if program is RANGELOG else b"".join(line.split()[0] + b"\n" for line in lines)


def group_of_files(program, files):
    """Each file of a group: the model prints what it must and one line if the file is refused, and the program prints what the model
    does."""
    for name, file in files.items():
        brief = in_brief(program, file, program.expected(file.data))
        yield program.compared(f"model, {name}", file.data, expected_in_brief(program, file), Ran(brief))
        yield program.held_to_model(name, file.data)


def in_pieces(program, data, size):
    """Runs the program with a file that comes in pieces of so many bytes, with a pause after each."""
    with subprocess.Popen(program.command(), stdin=subprocess.PIPE, stdout=subprocess.PIPE, cwd=ROOT) as process:
        try:
            for at in range(0, len(data), size):
                process.stdin.write(data[at:at + size])
                process.stdin.flush()
                sleep(0.002)
        except BrokenPipeError:
            pass
        try:
            text, _ = process.communicate(timeout=SECONDS)
        except subprocess.TimeoutExpired:
            process.kill()
            raise
    return Ran(text, max(-process.returncode, 0))


def files_in_pieces(program):
    """A file is the same however it comes: in pieces from a pipe, or at once from a file on the disk."""
    longest = WHOLE_CASE.ljust(65536, b"\xff")
    for data, size in [(WHOLE_CASE, size) for size in (1, 16, 19, 20, 21, 24, len(WHOLE_CASE) - 1)] + [(longest, 4096), (longest, 65535)]:
        yield program.compared(f"{len(data)} bytes in pieces of {size}", data, program.expected(data), in_pieces(program, data, size))
    for path in sorted((ROOT / "schedules").glob("*.bin")):
        with path.open("rb") as file:
            ran = program.run(stdin=file)
        yield program.compared(path.name, path.read_bytes(), path.with_suffix(program.ending).read_bytes(), ran)


def all_files():
    """The files that a broken program must be found out by: the named ones, then the first random ones."""
    for files in by_group().values():
        yield from (file.data for file in files.values())
    yield from (drawn("contended", seed) for seed in range(FEW_SEEDS))


def broken_programs(place):
    """Of each broken program some file shows it."""
    program = PROGRAMS[place]
    files = [(data, program.expected(data)) for data in all_files()]
    for at, name in enumerate(BROKEN[program.name]):
        with broken(name):
            found_out = any(by_broken(program.expected, data) != text for data, text in files)
        yield case("broken program", [place, at], 1), int(found_out)


def suites_of(place):
    """The tests of one program."""
    program = PROGRAMS[place]
    return {
        f"{program.name}, the whole case": lambda: whole_case(program),
        **{f"{program.name}, {group}": lambda files=files: group_of_files(program, files) for group, files in by_group().items()},
        f"{program.name}, the files in tests/schedules": lambda: corpus(program),
        f"{program.name}, files in pieces and on the disk": lambda: files_in_pieces(program),
        f"{program.name}, the files find each broken program out": lambda: broken_programs(place),
    }


SUITES = {
    "rangelog, the whole case with clock 6 in call 7": clock_6_in_call_7,
    "tests/schedules, clients in the middle": shown_in_corpus,
    **suites_of(0), **suites_of(1),
}

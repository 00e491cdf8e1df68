"""Cases for `tools/schedule`, its texts and files: both say the same calls, and each error names its line or its byte."""

import re
from concurrent.futures import ThreadPoolExecutor
from random import Random

from compare import NAMES, case
from library import ROOT
from model import schedule
from model.record import Settings
from random_schedules import drawn
from schedule_files import WHOLE_CASE, at_call, by_group, changed, with_header
from schedule_tool import started
from scheduling.packed import pack, unpack
from scheduling.problems import Wrong
from scheduling.refusals import foreseen
from scheduling.text import read_text

GUIDE = ROOT / "docs" / "SCHEDULES.md"
NAMES["text of a schedule"] = ("seed",), ("packed as the model does", "unpacked and packed again", "lines")
NAMES["line of the guide"] = ("line",), ("as in the whole case",)
NAMES["foreseen refusals"] = ("seed",), ("those of the log", "of the whole, if it is refused")
NAMES["unpacking"] = ("place in the list of files", "bytes"), ("refused",)

HEAD = "tree 2 m 1 wait 5 patience 20 clients 2\n"
SETTINGS = "line 1: the first line wants the settings, as in `tree 2 m 1 wait 5 patience 20 clients 2`; got "
CALL = "a call is one of request, step, release, cancel; got "
STEP = "step wants a client and a clock, as in `step 0 12`; got "
U64 = " must be a number from 0 to 18446744073709551615; got "
BEFORE_PATIENCE = ("; a file from before patience has a header of 16 bytes: unpack it with the program that made it, add `patience` to its first "
                   "line, and pack it again")
REQUEST = "request wants a client, a left edge and a right edge, as in `request 0 10 20`; got "

# A text, and what is said of it.
TEXT_ERRORS = {
    "no text": ("", SETTINGS + "nothing"),
    "comments alone": ("# nothing\n\n", SETTINGS + "nothing"),
    "no settings": ("step 0 1\n", SETTINGS + "`step 0 1`"),
    "a step without a clock": (HEAD + "\n" * 5 + "step 0\n", "line 7: " + STEP + "`step 0`"),
    "a step with two clocks": (HEAD + "step 0 1 2", "line 2: " + STEP + "`step 0 1 2`"),
    "a request with one edge": (HEAD + "request 0 10 # 20", "line 2: " + REQUEST + "`request 0 10`"),
    "a release of nobody": (HEAD + "release", "line 2: release wants a client, as in `release 0`; got `release`"),
    "a cancel of two": (HEAD + "# who\ncancel 0 1", "line 3: cancel wants a client, as in `cancel 0`; got `cancel 0 1`"),
    "an unknown kind": (HEAD + "stop 0", "line 2: " + CALL + "`stop 0`"),
    "a capital letter": (HEAD + "Step 0 1", "line 2: " + CALL + "`Step 0 1`"),
    "settings a second time": (HEAD + HEAD, "line 2: " + CALL + "`" + HEAD[:-1] + "`"),
    "client 65536": (HEAD + "release 65536", "line 2: client must be a number from 0 to 65535; got `65536`"),
    "clock 2^64": (HEAD + f"step 0 {2 ** 64}", "line 2: clock" + U64 + f"`{2 ** 64}`"),
    "a left edge of 1,000": (HEAD + "request 0 1,000 2", "line 2: left edge" + U64 + "`1,000`"),
    "a right edge of 5000 digits": (HEAD + "request 0 1 " + "9" * 5000, "line 2: right edge" + U64 + "`" + "9" * 80 + "` .."),
    "a line of 100000 words": (HEAD + "step " + "0 " * 100000, "line 2: " + STEP + "`step " + "0 " * 37 + "0` .."),
    "digits of another script": (HEAD + "step 0 \u0663", "line 2: clock" + U64 + "`\u0663`"),
    "a terminal's escape": (HEAD + "\x1b[31mstep 0 1", "line 2: " + CALL + "`\\x1b[31mstep 0 1`"),
    "bytes that are no text": (HEAD + "step \udcff 1", "line 2: client must be a number from 0 to 65535; got `\ufffd`"),
    "a byte 0": (HEAD + "step 0 \0", f"byte {len(HEAD) + 7}: a text has no byte 0; is this a packed file? `unpack` turns it into a text"),
    "a text that goes on": (HEAD + "#" * 2 ** 20, "byte 1048576: a text has at most 1048576 bytes; this one goes on"),
    "three wrong lines": (HEAD + "stop 0\nstep 0 1\n\nstep a b\n",
                          "line 2: " + CALL + "`stop 0`\nline 5: client must be a number from 0 to 65535; got `a`\nline 5: clock" + U64 + "`b`"),
    "settings and a call wrong": ("tree 2 m x wait 5 patience 20 clients 2\nstop",
                                  "line 1: m must be a number from 0 to 65535; got `x`\nline 2: " + CALL + "`stop`"),
    "2730 calls": (HEAD + "# many\n" + "cancel 0\n" * 2730,
                   "line 2732: a schedule has at most 2729 calls, since its file has at most 65536 bytes"),
}

# A text that is packed all the same, and what is said of what the lock will refuse.
TEXT_WARNINGS = {
    "a client past the table": (HEAD + "step 2 1", "line 2: warning: there is no client 2: with 2 clients they are 0 to 1; the lock will refuse this call by 4"),
    "a window past the tree": (HEAD + "\nrequest 0 10 257",
                               "line 3: warning: the right edge 257 is past the 256 units of 2 levels; the lock will refuse this call by 7"),
    "an empty window": (HEAD + "request 1 10 10", "line 2: warning: the left edge 10 is not below the right edge 10; the lock will refuse this call by 7"),
    "a clock that goes back": (HEAD + "step 0 5\nstep 9 9\nstep 0 4 # now\nstep 1 4\nstep 0 5",
                               "line 3: warning: there is no client 9: with 2 clients they are 0 to 1; the lock will refuse this call by 4\n"
                               "line 4: warning: clock 4 is below client 0's last clock 5; the lock will refuse this call by 5"),
    "clocks that go back by their own client's last": (HEAD + "step 0 9\nstep 1 3\nstep 1 2\nstep 1 3\nstep 0 8\nstep 0 9",
                                                       "line 4: warning: clock 2 is below client 1's last clock 3; the lock will refuse this call by 5\n"
                                                       "line 6: warning: clock 8 is below client 0's last clock 9; the lock will refuse this call by 5"),
    "seven levels": ("# high\ntree 7 m 1 wait 5 patience 20 clients 2\nstep 9 9", "line 2: warning: rangelog and rangepages run trees of at most 6 levels, not 7; refused by 11"),
    "no patience": ("tree 2 m 1 wait 5 patience 0 clients 2\nstep 9 9", "line 1: warning: the patience is at least 1, not 0; refused by 1"),
    "no wait, no patience and no clients": ("tree 2 m 1 wait 0 patience 0 clients 0",
                                            "line 1: warning: the wait is at least 1, not 0; refused by 1\n"
                                            "line 1: warning: the patience is at least 1, not 0; refused by 1\n"
                                            "line 1: warning: there is at least 1 client, not 0; refused by 3"),
}

# A file, and what is said of it.
FILE_ERRORS = {
    "a text": ((HEAD + "step 0 1").encode(), "byte 0: this is a text and no packed file, in which some byte is 0; `pack` turns it into one"),
    "two wrong calls": (changed(changed(WHOLE_CASE, at_call(3), 4), at_call(5, 1), 9),
                        "byte 92: call 3 has the unknown kind 4; known are 0 request, 1 step, 2 release, 3 cancel\n"
                        "byte 141: call 5, a step, has 9 in a field that must be 0"),
    "an empty file": (b"", "byte 0: the file ends within its header of 20 bytes"),
    "a header without patience": (WHOLE_CASE[:16], "byte 16: the file ends within its header of 20 bytes"),
    "19 bytes": (WHOLE_CASE[:19], "byte 19: the file ends within its header of 20 bytes"),
    "65537 bytes": (bytes(65537), "byte 65536: a file has at most 65536 bytes; this one goes on"),
    "offset 16": (with_header(offset=16), "byte 12: the offset of the first call must be at least 20; got 16" + BEFORE_PATIENCE),
    "offset 19": (with_header(offset=19), "byte 12: the offset of the first call must be at least 20; got 19" + BEFORE_PATIENCE),
    "offset 15": (with_header(offset=15), "byte 12: the offset of the first call must be at least 20; got 15"),
    "a byte cut off": (WHOLE_CASE[:-1],
                       "byte 10: 14 calls from byte 20 would end at 20 + 24 * 14 = 356; the file has 355 bytes"),
    "kind 4": (changed(WHOLE_CASE, at_call(3), 4),
               "byte 92: call 3 has the unknown kind 4; known are 0 request, 1 step, 2 release, 3 cancel"),
    "byte 1 filled": (changed(WHOLE_CASE, at_call(0, 1), 9), "byte 21: call 0, a request, has 9 in a field that must be 0"),
    "byte 5 filled": (changed(WHOLE_CASE, at_call(1, 5), 1), "byte 48: call 1, a request, has 256 in a field that must be 0"),
    "b of a step": (changed(WHOLE_CASE, at_call(2, 16), 7), "byte 84: call 2, a step, has 7 in a field that must be 0"),
    "a of a release": (changed(WHOLE_CASE, at_call(10, 8), 7),
                       "byte 268: call 10, a release, has 7 in a field that must be 0"),
    "b of a cancel": (changed(changed(WHOLE_CASE, at_call(10), 3), at_call(10, 16), 7),
                      "byte 276: call 10, a cancel, has 7 in a field that must be 0"),
}


def text_of(read):
    """The text of a schedule, with its lines written without looking at the tool."""
    h, m, wait, patience = read.settings
    yield f"tree {h} m {m} wait {wait} patience {patience} clients {read.clients}"
    for call in read.calls:
        others = {"request": f" {call.a} {call.b}", "step": f" {call.a}"}.get(call.kind, "")
        yield f"{call.kind} {call.client}{others}"


def strewn(rng, lines):
    """The lines with comments, blank lines, blanks and line ends of another system strewn in."""
    for line in lines:
        yield from rng.choice([[], [], ["# step 0 1"], ["", "   "]])
        yield rng.choice(["", " ", "\t"]) + line.replace(" ", rng.choice([" ", "   "])) + rng.choice(["", " # why", "\r", "#"])


def packed_text(text):
    return pack(read_text(text.encode()).schedule)


def texts_and_files():
    """Pack gives the model's file of the same calls; unpack gives the plain text, also with bytes that are ignored."""
    for seed in range(300):
        rng, data = Random(f"text {seed}"), drawn("refused" if seed % 2 else "well-formed", seed)
        header = schedule.header_of(data)
        calls = schedule.decode(with_header(data[20:], count=header.count, offset=header.offset)).calls
        read = schedule.Schedule(Settings(*header[:3], header.patience), header.clients, calls)
        plain, file = "\n".join(text_of(read)) + "\n", schedule.encode(read)
        packed, text = packed_text("\n".join(strewn(rng, text_of(read)))), unpack(data)
        again = "".join(line for line in text.splitlines(keepends=True) if not line.startswith("#")) == plain
        answer = int(packed == file), int(again and packed_text(text) == file), unpack(file).count("\n")
        yield case("text of a schedule", [seed], (1, 1, len(calls) + 1)), answer


def unpacked_files():
    """A file is unpacked unless `rangelog` refuses it by 10."""
    files = [file.data for group in by_group().values() for file in group.values()]
    for place, data in enumerate(files + [drawn("damaged", seed) for seed in range(100)]):
        try:
            refused = not unpack(data)
        except Wrong:
            refused = True
        yield case("unpacking", [place, len(data)], int(schedule.refused_by_10(data))), int(refused)


def told(name, direction, data, expected):
    """A case that holds exit status, what was written and what was said to the expected ones."""
    NAMES[f"tools/schedule, {name}"] = (), ("exit status", "written as expected", "said as expected")
    ran = started(direction, data=data)
    answer = ran.status, int(ran.written == expected[1]), int(ran.said == expected[2])
    return case(f"tools/schedule, {name}", [], (expected[0], 1, 1)), answer


def errors():
    """Each error is said with its line or byte; the exit status is 1 and nothing is written."""
    asked = [(name, "pack", text.encode("utf-8", "surrogateescape"), (1, b"", f"{said}\n")) for name, (text, said) in TEXT_ERRORS.items()]
    asked += [(f"file, {name}", "unpack", data, (1, b"", f"{said}\n")) for name, (data, said) in FILE_ERRORS.items()]
    yield from all_told(asked)


def warnings():
    """What the lock will refuse is said with its line; the file is written all the same, and rangelog refuses what was foreseen."""
    asked = [(f"warning, {name}", "pack", text.encode(), (0, packed_text(text), f"{said}\n")) for name, (text, said) in TEXT_WARNINGS.items()]
    yield from all_told(asked)
    for seed in range(200):
        data = drawn("refused" if seed % 2 else "well-formed", seed)
        source = read_text(unpack(data).encode())
        yield case("foreseen refusals", [seed], (1, 1)), foreseen_and_logged(source)


def foreseen_and_logged(source):
    """Whether the warnings name exactly the calls that are refused by 4, 5 or 7, and whether they say that the whole is refused exactly
    if it is."""
    log = schedule.log(pack(source.schedule)).splitlines()
    numbers = [line.rsplit(" ", 1)[1] for line in foreseen(source)]
    if log[0].startswith("refused"):
        return int(log[0].split()[1] in numbers), int(not any("call by" in line for line in foreseen(source)))
    logged = [line.split()[3] for line in log[1:]]
    return int(numbers == [number for number in logged if number in ("4", "5", "7")]), 1


def all_told(asked):
    with ThreadPoolExecutor() as pool:
        yield from pool.map(lambda arguments: told(*arguments), asked)


def examples():
    """Each text under schedules/ packs to the file beside it, the file has the same calls, and the log beside it is the
    model's."""
    for path in sorted((ROOT / "schedules").glob("*.txt")):
        file = path.with_suffix(".bin").read_bytes()
        text = "\n".join(text_of(schedule.decode(file))) + "\n"
        yield told(f"{path.name} packed", "pack", path.read_bytes(), (0, file, ""))
        yield told(f"{path.stem}.bin unpacked", "unpack", file, (0, text.encode(), ""))
        yield told(f"{path.stem}.log", "pack", path.read_bytes(), (0, file if logged(path, file) else None, ""))
    zeros = "tree 002 m 01 wait 5 patience 020 clients 2\nrequest 0 " + "0" * 30 + "10 020\nstep 00 0"
    yield told("leading zeros", "pack", zeros.encode(), (0, packed_text(HEAD + "request 0 10 20\nstep 0 0"), ""))
    yield told("a text that begins with a byte order mark", "pack", b"\xef\xbb\xbf" + HEAD.encode(), (0, with_header(patience=20), ""))


def guide():
    """The whole case in docs/SCHEDULES.md has the calls of the file and the lines of its log."""
    rows = re.findall(r"^\| (?:`(.*?)` )?\| `(.*?)` \| ", GUIDE.read_text(), re.MULTILINE)
    calls, lines = list(text_of(schedule.decode(WHOLE_CASE)))[1:], schedule.log(WHOLE_CASE).splitlines()
    for place, (call, line) in enumerate(zip(["", *calls], lines, strict=True)):
        yield case("line of the guide", [place], 1), int(len(rows) == len(lines) and rows[place] == (call, line))


def logged(path, file):
    return schedule.log(file) == path.with_suffix(".log").read_text()


SUITES = {
    "tools/schedule, text and file say the same calls": texts_and_files,
    "tools/schedule, unpacks what rangelog does not refuse by 10": unpacked_files,
    "tools/schedule, each error names its line or byte": errors,
    "tools/schedule, warnings of what the lock will refuse": warnings,
    "tools/schedule, the examples": examples,
    "docs/SCHEDULES.md, the whole case": guide,
}

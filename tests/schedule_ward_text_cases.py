"""Cases for `tools/schedule` with ward hours: what is unpacked and planned as ward hours can be read again, a call is shown in one form, and no words
make the program fail."""

from random import Random

from compare import NAMES, case, unlike
from library import ROOT
from model import tree
from model.calendar import figures_outside
from model.history import Call
from model.record import Settings
from model.schedule import Schedule, encode, header_of, refused_by_10
from random_schedules import drawn
from schedule_files import WHOLE_CASE, with_header
from schedule_tool import started
from schedule_tool_cases import packed_text
from schedule_ward_errors import CALENDAR, EXAMPLE, HEAD
from scheduling.packed import unpack
from scheduling.planning import plan, plan_lines
from scheduling.problems import Wrong
from scheduling.text import read_text
from scheduling.wishes import read_wishes

NAMES["unpacked by wards"] = ("place in the list of files", "wards", "weeks"), ("packed again", "as ward hours", "as edges", "end at 00:00")
NAMES["wishes by wards"] = ("seed",), ("levels", "requests unlike", "calendar lines unlike", "requests as edges")
NAMES["words at random"] = ("seed",), ("refused without a line",)
NAMES["lines of random words"] = (), ("read, some", "refused, some")
NAMES["call in one form"] = ("place in the list of calls",), ("as expected",)
NAMES["unpack's options"] = ("place in the list of options",), ("exit status", "bytes written", "said as expected")

WORDS = [*"ward week day wards weeks calendar hours closed .. request run wants from for tree step : 0 1 2 6 7 64 96".split(),
         "00:00", "06:15", "23:45", "23:50", "24:00", "24:15", "1:5", "99:99", "-1", str(2 ** 64), "9" * 30, "\u0663", "0x1", "#"]
# Lines in which words are put in the place of others.
PATTERNS = [CALENDAR.split(), "hours ward 1 day 6 06:00 .. 22:00".split(), "hours day 6 closed".split(), EXAMPLE.split(),
            "request 0 ward 1 week 1 day 3 08:00 .. 12:00".split(), "run 7 wants ward 2 week 0 day 6 23:45 .. 24:00 from 30 for 40".split()]


def time(quarter):
    """The time at which a quarter begins, in hours and minutes."""
    return f"{quarter * 15 // 60:02}:{quarter * 15 % 60:02}"


def begun(unit, weeks, later=0):
    """Where a window begins that begins with a quarter, or where it ends so many quarters later on the same day."""
    return f"week {unit // 672 % weeks} day {unit % 672 // 96} {time(unit % 96 + later)}"


def in_one_ward(call, wards, weeks):
    """Whether a request's window lies in one ward of a calendar."""
    return call.kind == "request" and any(672 * weeks * ward <= call.a < call.b <= 672 * weeks * (ward + 1) for ward in range(wards))


def files_by_wards():
    """Files with calendars that fit into their trees: the kept ones, random ones, and windows about the ends of wards."""
    kept = [path.read_bytes() for folder in ("schedules", "tests/schedules") for path in sorted((ROOT / folder).glob("*.bin"))]
    kept = [data for data in kept if not refused_by_10(data)] + [drawn("refused" if seed % 2 else "well-formed", seed) for seed in range(60)]
    for data in kept:
        for wards, weeks in ((1, 1), (3, 2), (2, 24), (64, 60)):
            if header_of(data).levels in tree.LEVELS and not figures_outside(header_of(data).levels, wards, weeks):
                yield data, wards, weeks
    edges = [0, 1, 95, 96, 97, 671, 672, 673, 1343, 1344, 1345, 2015, 2016, 4031, 4032, 4033, 4096, 40319, 40320, 2580479, 2580480, 2580481, 2 ** 64 - 1]
    calls = tuple(Call("request", 0, left, right) for left in edges for right in edges)
    for levels, wards, weeks in ((4, 3, 2), (4, 2, 3), (4, 6, 1), (4, 1, 6), (12, 1, 1), (9, 64, 60)):
        yield encode(Schedule(Settings(levels, 1, 9, 60), 4, calls)), wards, weeks


def round_trips():
    """What is unpacked by wards packs to the same calls again; windows in one ward are ward hours, and others edges."""
    for place, (data, wards, weeks) in enumerate(files_by_wards()):
        text, plain = unpack(data, (wards, weeks)), packed_text(unpack(data))
        requests = [line for line in text.splitlines() if line.startswith("request")]
        calls = [call for call in read_text(unpack(data).encode()).schedule.calls if call.kind == "request"]
        by_ward = sum(in_one_ward(call, wards, weeks) for call in calls)
        found = sum(" ward " in line for line in requests)
        answer = int(packed_text(text) == plain), found, len(requests) - found, sum(line.endswith(" 00:00") for line in requests)
        yield case("unpacked by wards", [place, wards, weeks], (1, by_ward, len(calls) - by_ward, 0)), answer


# A call, and the line by which it is shown.
FORMS = {
    EXAMPLE: EXAMPLE,
    "request 03 ward 02 week 00 day 6 6:00 .. week 0 day 6 8:15": "request 3 ward 2 week 0 day 6 06:00 .. 08:15",
    "request 0 ward 2 week 0 day 6 23:45 .. week 1 day 0 00:00": "request 0 ward 2 week 0 day 6 23:45 .. 24:00",
    "request 0 ward 2 week 0 day 5 00:00 .. week 1 day 0 00:00 # two days": "request 0 ward 2 week 0 day 5 00:00 .. week 0 day 6 24:00",
    "request 0 ward 0 week 0 day 0 00:00 .. week 1 day 6 24:00": "request 0 ward 0 week 0 day 0 00:00 .. week 1 day 6 24:00",
    "request 0 0672 1344": "request 0 672 1344",
}


def one_form():
    """Ward hours are shown in one form, and edges as edges."""
    for place, (line, shown) in enumerate(FORMS.items()):
        yield case("call in one form", [place], 1), int(read_text((HEAD + line).encode()).written == (shown.strip(),))


def drawn_wishes(rng):
    """The lines of a calendar, and wishes with their windows, of which some are written as edges."""
    wards, weeks = rng.choice([(3, 2), (1, 1), (6, 1), (20, 1), (8, 12)])
    lines, wishes = [f"calendar wards {wards} weeks {weeks}", "hours 00:00 .. 24:00", "hours ward 0 day 6 00:00 .. 24:00"], []
    for run in range(rng.randint(1, 6)):
        left = rng.randrange(672 * weeks * wards)
        size = min(rng.choice([1, 4, 40, 96, 200]), 672 * weeks - left % (672 * weeks))
        words = f"ward {left // (672 * weeks)} {begun(left, weeks)} .. {begun(left + size - 1, weeks, 1)}"
        said = rng.choice([words, words, f"{left} {left + size}"])
        wishes.append((f"run {run} wants {said} from {rng.randrange(20)} for {rng.randrange(9)}", (run, left, left + size, "ward" in said)))
    return wards * weeks * 672, lines, wishes


def plans():
    """The text that a plan writes has the calendar's lines as they were, and each window as it was wished; the tree has room for the calendar."""
    for seed in range(40):
        units, lines, wishes = drawn_wishes(Random(f"wishes by wards {seed}"))
        given, asked, calendar = read_wishes("\n".join([*lines, *(line for line, _ in wishes)]).encode())
        text = list(plan_lines(given, asked, *plan(given, asked), calendar))
        calls = read_text("\n".join(text).encode()).schedule.calls
        requests = [(call, line) for call, line in zip(calls, (line for line in text[2 + len(lines):])) if call.kind == "request"]
        found = {(call.client, call.a, call.b, " ward " in line.split("#")[0]) for call, line in requests}
        levels = next(h for h in range(2, 7) if tree.units(h) >= units)
        edges = sum(not by_ward for *_, by_ward in found)
        expected = levels, 0, 0, sum(not by_ward for _, (*_, by_ward) in wishes)
        answer = given.settings.levels, len(found ^ {wish for _, wish in wishes}), unlike(text[2:2 + len(lines)], lines), edges
        yield case("wishes by wards", [seed], expected), answer


def jumbled(rng, words):
    """A line with some words put in the place of others, added or left out."""
    words = list(words)
    for _ in range(rng.choice([0, 1, 1, 2, 5])):
        at = rng.randrange(len(words) + 1)
        words[at:at + rng.choice([0, 1, 1, 1])] = [rng.choice(WORDS)] * rng.choice([0, 1, 1, 1])
    return " ".join(words)


def answered(read, text):
    """Whether a text is read, and whether it is refused in words of which not all have a line."""
    try:
        read(text.encode())
    except Wrong as problem:
        return 0, int(not all(message.startswith("line ") for message in problem.messages))
    return 1, 0


def random_words():
    """Lines of random words are read, or refused in words that name the line; nothing else comes of them."""
    read = []
    for seed in range(3000):
        rng = Random(f"words {seed}")
        lines = [jumbled(rng, rng.choice(PATTERNS)) for _ in range(rng.randint(1, 4))]
        head = [line for line in HEAD.splitlines() if rng.random() < 0.8]
        found = answered(rng.choice([read_text, read_wishes]), "\n".join(head + lines))
        read.append(found[0])
        yield case("words at random", [seed], 0), found[1]
    yield case("lines of random words", [], (1, 1)), (int(1 in read), int(0 in read))


# The options of unpack, the file that it reads, its exit status and the end of what it says.
OPTIONS = (
    (("--wards", "3"), WHOLE_CASE, 2, "schedule unpack: error: --wards and --weeks go together\n"),
    (("--weeks", "3"), WHOLE_CASE, 2, "schedule unpack: error: --wards and --weeks go together\n"),
    (("--wards", "x", "--weeks", "1"), WHOLE_CASE, 2, "schedule unpack: error: argument --wards: not a number: `x`\n"),
    (("--wards", "3", "--weeks", "-1"), WHOLE_CASE, 2, "schedule unpack: error: argument --weeks: not a number: `-1`\n"),
    (("--wards", "9" * 5000, "--weeks", "1"), WHOLE_CASE, 2, f"schedule unpack: error: argument --wards: not a number: `{'9' * 80}` ..\n"),
    (("--wards", "0", "--weeks", "61"), WHOLE_CASE, 1, "a calendar has 1 to 64 wards, not 0; refused by 12\na calendar has 1 to 60 weeks, not 61; refused by 12\n"),
    (("--wards", "1", "--weeks", "1"), WHOLE_CASE, 1, "wards * weeks * 672 is 1 * 1 * 672 = 672, and a tree of 2 levels has 256 units; refused by 12\n"),
    (("--wards", "1", "--weeks", "1"), with_header(levels=1), 1, "a calendar wants a tree of 2 to 12 levels, not 1; refused by 1\n"),
    (("--wards", "1", "--weeks", "1"), with_header(levels=13), 1, "a calendar wants a tree of 2 to 12 levels, not 13; refused by 1\n"),
)


def options():
    """The two options go together, and a calendar that does not fit is refused in words."""
    for place, (arguments, data, status, said) in enumerate(OPTIONS):
        ran = started("unpack", *arguments, data=data)
        yield case("unpack's options", [place], (status, 0, 1)), (ran.status, len(ran.written), int(ran.said.endswith(said)))


SUITES = {
    "tools/schedule unpack, ward hours and back": round_trips,
    "tools/schedule unpack, wards and weeks": options,
    "tools/schedule, ward hours in one form": one_form,
    "tools/schedule plan, ward hours as they were wished": plans,
    "tools/schedule, ward hours, words at random": random_words,
}

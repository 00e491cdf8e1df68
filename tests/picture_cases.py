"""Cases for `tools/schedule picture`: each page shows what the model says, by call and by clock; a page with one thing wrong is found out;
and what is no schedule gives no page."""

import os
import subprocess
from concurrent.futures import ThreadPoolExecutor
from functools import lru_cache
from pathlib import Path
from tempfile import TemporaryDirectory
from xml.etree import ElementTree

import picture_clocks
from broken_pictures import BY_CALL_ONLY, BY_TWO, EDITS
from compare import NAMES, case
from histories import Shape
from library import ROOT
from model.record import Settings
from model.schedule import decode, encode
from picture_checks import Expected, looked_at
from picture_looks import KINDS_OF_MARKS
from picture_pages import HELD, Page
from picture_schedules import FAR, OWN, STILL, Busy, at_the_edges, busy_schedule, great
from programs import RANGELOG
from random_schedules import drawn
from schedule_files import WHOLE_CASE, at_call, changed, with_header
from schedule_tool import TOOL
from scheduling.legend import BY_TWO as MARKED_BY_TWO
from scheduling.legend import MARKED

EXAMPLE = ROOT / "docs" / "whole-case"
MOST_BYTES = 2_000_000
MOST_OF_IMAGE = 150_000
NAMES["picture"] = ("place in the list of schedules", "by clock", "place in the list of checks"), ("looked at", "wrong")
NAMES["broken picture"] = ("place in the list of edits", "by clock"), ("found out", "before the edit")
NAMES["broken picture of two holders"] = ("place in the list of edits", "by clock"), ("found out", "before the edit")
NAMES["picture of nothing"] = ("place in the list of inputs",), ("exit status", "bytes written", "said as by run")
NAMES["picture's size"] = (), ("under 2,000,000 bytes",)
NAMES["marks drawn"] = (), ("kinds of marks", "not in the legend, or in it alone")
NAMES["picture in a file"] = ("place in the list of names",), ("exit status", "as on standard output", "name in the title")
NAMES["picture that fails"] = ("place in the list of failures",), ("exit status", "bytes written", "said")
NAMES["example in docs"] = (), ("as the tool draws it", "with an image", "of few bytes")


def started(*arguments, data=b"", **environment):
    ran = subprocess.run([TOOL, *arguments], input=data, capture_output=True, cwd=ROOT, env=os.environ | environment)
    return ran.returncode, ran.stdout, ran.stderr


@lru_cache(maxsize=None)
def files():
    """The schedules to draw: those under schedules/, busy ones of 1 to 64 clients, those of the other tests, and the edges."""
    found = [path.read_bytes() for path in sorted((ROOT / "schedules").glob("*.bin"))]
    shapes = [Shape(Settings(*settings), clients, calls) for *settings, clients, calls in
              ((2, 1, 5, 9, 1, 40), (2, 1, 9, 3, 3, 120), (3, 2, 30, 32, 7, 200), (4, 2, 60, 70, 10, 300), (5, 4, 20, 30, 40, 400),
               (6, 3, 60, 4000, 64, 600))]
    found += [encode(busy_schedule(place, shape, busy)) for place, shape in enumerate(shapes) for busy in (Busy(), STILL, FAR, OWN)]
    found += [drawn(kind, seed) for seed in range(12) for kind in ("contended", "well-formed")]
    return found + [encode(each) for each in (*at_the_edges(), great())]


def page_of(asked):
    data, by = asked
    status, page, said = started("picture", "--by", by, data=data)
    if status != 0:
        raise subprocess.SubprocessError(f"tools/schedule picture ended with {status}: {said.decode()}")
    return page.decode()


@lru_cache(maxsize=None)
def pages(by):
    RANGELOG.command()
    with ThreadPoolExecutor() as pool:
        return list(pool.map(page_of, [(data, by) for data in files()]))


@lru_cache(maxsize=None)
def expected():
    return [Expected(data) for data in files()]


def shown(asked):
    """Every check of every page."""
    for place, (text, model) in enumerate(zip(pages(asked), expected(), strict=True)):
        page, by = Page(text), model.by(asked)
        for check, (looks, count) in enumerate((looked_at(model, by) | picture_clocks.looked_at(model, by)).items()):
            yield case("picture", [place, asked == "clock", check], (count, 0)), looks(page, model, by)


def found_out(text, model, by, check, edit):
    """Whether a check finds a page right, and wrong after an edit."""
    page = Page(text)
    before = check(page, model, by)
    edit(page)
    page.text = ElementTree.tostring(page.root, encoding="unicode")
    return int(check(page, model, by) != before and before[1] == 0), before[1]


def broken_pictures():
    """Each edit is tried on a page that has bars, instants, marks and somebody who waits; those of instants by clock alone."""
    for by in ("call", "clock"):
        place = next(place for place, model in enumerate(expected()) if fit_to_be_broken(model))
        edits = EDITS | (BY_CALL_ONLY if by == "call" else {})
        for number, (name, (check, edit)) in enumerate(edits.items()):
            if by == "clock" or "instant" not in name:
                answer = found_out(pages(by)[place], expected()[place], by, check, edit)
                yield case("broken picture", [number, by == "clock"], (1, 0)), answer


def broken_by_two():
    """Each edit of what is said of own clocks and of two clients that hold is tried on a page that has both, whichever time is asked for."""
    place = next(place for place, model in enumerate(expected()) if model.by_two)
    for number, (check, edit) in enumerate(BY_TWO.values()):
        for by in ("call", "clock"):
            answer = found_out(pages(by)[place], expected()[place], "call", check, edit)
            yield case("broken picture of two holders", [number, by == "clock"], (1, 0)), answer


def fit_to_be_broken(model):
    if not model.one_clock:
        return False
    instants = [told for told in model.holdings if told.start_clock == told.end_clock]
    bars = sorted((told for told in model.holdings if told not in instants), key=lambda told: told.start)
    waits = [told for told in model.stretches if told.end is None and told.phase != HELD]
    return len(instants) > 2 and len(bars) > 2 and bars[0].end is not None and waits


def no_schedules():
    """Texts and files that are no schedules, or are refused as a whole: exit status 1, nothing written, and said what `run` says."""
    inputs = [b"", b"tree 2 m 1 wait 5 clients 2\n", b"tree 2 m 1 wait 5 patience 20 clients 2\nstop 0\nstep 0\n", WHOLE_CASE[:-1],
              WHOLE_CASE + bytes(65536), changed(WHOLE_CASE, at_call(3), 4), b"tree 7 m 1 wait 5 patience 20 clients 2\n",
              with_header(clients=65), with_header(distance=0), with_header(patience=0), with_header(clients=0)]
    inputs += [data for data in (drawn("damaged", seed) for seed in range(60)) if isinstance(decode(data), int)]
    for place, data in enumerate(inputs):
        status, written, said = started("picture", data=data)
        yield case("picture of nothing", [place], (1, 0, 1)), (status, len(written), int(said == started("run", data=data)[2] != b""))


def kinds_of_marks():
    """Every kind of mark stands in some page: a refused call, a late claim, patience that is over, each way to become idle, and what two
    clients hold."""
    kinds = {mark.kind for model in expected() for mark in model.marks}
    yield case("marks drawn", [], (KINDS_OF_MARKS + 1, 0)), (len(kinds), len(kinds ^ set(MARKED | MARKED_BY_TWO)))


def sizes():
    """The greatest page is not too great to be sent to others."""
    yield case("picture's size", [], 1), int(max(len(page.encode()) for by in ("call", "clock") for page in pages(by)) < MOST_BYTES)


def in_files():
    """With -o the same page is in a file. The name of what was read is in the title, however odd it is."""
    with TemporaryDirectory() as folder:
        for place, name in enumerate(("plain.txt", "<b>&amp;\"'.txt", "a\x01b\n.txt", os.fsdecode(b"\xff.txt"))):
            read, wrote = Path(folder, name), Path(folder, "page.html")
            read.write_bytes(WHOLE_CASE)
            status, _, _ = started("picture", read, "-o", wrote)
            title = Page(wrote.read_text()).title()
            same = wrote.read_bytes() == started("picture", read)[1]
            shown_name = {2: "a\\x01b\\n.txt", 3: "\\udcff.txt"}.get(place, name)
            yield case("picture in a file", [place], (0, 1, 1)), (status, int(same), int(title == f"Who held which units: {shown_name}"))


def failures():
    """If rangelog cannot be run, or the page cannot be written, the exit status is 3 and no page is left."""
    nowhere = "/nowhere/page.html"
    for place, (arguments, environment) in enumerate(((["picture"], {"RANGELOG": "/nowhere/rangelog"}), (["picture", "-o", nowhere], {}))):
        status, written, said = started(*arguments, data=WHOLE_CASE, **environment)
        yield case("picture that fails", [place], (3, 0, 1)), (status, len(written) + Path(nowhere).exists(), int(b"could not be" in said))


def example():
    """The picture in docs/ is what the tool draws today."""
    page, image = EXAMPLE.with_suffix(".html"), EXAMPLE.with_suffix(".png")
    today, seen = started("picture", ROOT / "schedules" / "whole-case.txt")[1], image.read_bytes()
    answer = int(page.read_bytes() == today), int(seen[:4] == b"\x89PNG"), int(len(seen) < MOST_OF_IMAGE)
    yield case("example in docs", [], (1, 1, 1)), answer


SUITES = {
    "tools/schedule picture, by call, shows what the model says": lambda: shown("call"),
    "tools/schedule picture, by clock, shows what the model says": lambda: shown("clock"),
    "tools/schedule picture, a page with one thing wrong is found out": broken_pictures,
    "tools/schedule picture, own clocks and two holders, with one thing wrong": broken_by_two,
    "tools/schedule picture, no page of what is no schedule": no_schedules,
    "tools/schedule picture, pages with every kind of mark": kinds_of_marks,
    "tools/schedule picture, the greatest page": sizes,
    "tools/schedule picture, in a file, with the name of what was read": in_files,
    "tools/schedule picture, what cannot be run or written": failures,
    "docs/whole-case.html, as the tool draws it": example,
}

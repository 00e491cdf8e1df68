"""Cases for what `make install` installs: the examples built by pkg-config against it, the Python file, the programs, their pages, and
that uninstalling leaves nothing."""

import re
import shutil
import subprocess
from itertools import zip_longest

from compare import NAMES, case
from compiled_table import library, nolthewyr
from example_lines import take_lines, ward_lines
from installed_forecast_cases import SUITES as FORECAST_SUITES
from installed_run_cases import SUITES as RUN_SUITES
from library import ROOT, command
from name_cases import ENUMERATIONS
from prefix import BUILDERS, asked, built, c_shared, environment, folder, place, prefix, printed, python, run, rust_shared

NAMES["example line"] = ("place in the list of examples", "place in the list of languages", "levels", "line"), ("as the model says",)
NAMES["documented line"] = ("place in the list of examples", "line"), ("as the model says",)
NAMES["needs the shared library"] = ("place in the list of languages",), ("needs it",)
NAMES["installed files"] = ("folder",), ("files", "files unlike")
NAMES["found by Python"] = ("way",), ("found",)
NAMES["program"] = ("claim",), ("holds",)
NAMES["page"] = ("page",), ("warnings", "words unlike the program's")

# Each example, what it must print, by how many levels it is asked: the fewest that it can do with, and the most; and how its lines begin.
EXAMPLES = ("take", take_lines, (3, 12), "client 0 needs"), ("ward", ward_lines, (4, 12), "ward 2 week 0")
DOCUMENT = ROOT / "docs" / "LINKING.md"
CASE = ROOT / "schedules" / "whole-case"
PROGRAMS = "rangelog", "rangepages", "schedule", "rangeserver", "rangerun"
LIBRARIES = "nolthewyr", "nolthewyr_run"
HEADERS = "nolthewyr.h", "nolthewyr_operations.h", "nolthewyr_run.h"
RUST_FILES = "nolthewyr.rs", "nolthewyr_linked.rs"
PYTHON_FILES = "nolthewyr.py", "nolthewyr_linked.py"
# Versions that the Python files do not use, each with the least third number that they ask for: of other series, the one before among them,
# one without a third number, and a lower one.
OTHER_VERSIONS = {"0.3.0": 0, "0.5.0": 0, "1.4.0": 0, "0.40.0": 0, "0.4.x": 0, "0.4.2": 3}


def compared(name, before, expected, found):
    """A case for each line. One that differs is shown, since the comparer knows only numbers."""
    for number, (wanted, line) in enumerate(zip_longest(expected, found), start=1):
        if line != wanted:
            print(f"    line {number} is {line!r}, and not {wanted!r}")
        yield case(name, [*before, number], 1), int(line == wanted)


def example_lines():
    """The examples print the model's lines in a low tree and in the highest, no more and no fewer."""
    for place_of, (example, lines, in_trees, _) in enumerate(EXAMPLES):
        for levels in in_trees:
            for number, builder in enumerate(BUILDERS):
                yield from compared("example line", [place_of, number, levels], lines(levels), printed(builder, example, levels))


def documented_lines():
    """docs/LINKING.md shows what the examples print."""
    for number, (_, lines, (levels, _), begin) in enumerate(EXAMPLES):
        [shown] = re.findall(rf"```text\n({begin}.*?)```", DOCUMENT.read_text(), re.DOTALL)
        yield from compared("documented line", [number], lines(levels), shown.splitlines())


def linked_shared():
    """A program that is linked with the shared library needs it by its name for the loader, and one with the archive does not."""
    for number, builder in enumerate(BUILDERS):
        if builder is not python:
            needed = f" libnolthewyr.so.{nolthewyr.SERIES}\n" in run("objdump", "-p", built(builder, "take")[0])
            yield case("needs the shared library", [number], builder in (c_shared, rust_shared)), int(needed)


def files(root):
    return {str(path.relative_to(root)) for path in root.rglob("*") if not path.is_dir()}


def library_files(name, version):
    endings = ".a", ".so", f".so.{nolthewyr.SERIES}", f".so.{version}"
    return *(f"lib/lib{name}{ending}" for ending in endings), f"lib/pkgconfig/{name}.pc"


def expected_files():
    [version] = asked("--modversion")
    return {
        *(f"bin/{program}" for program in PROGRAMS), *(f"share/man/man1/{program}.1" for program in PROGRAMS), *(f"include/{header}" for header in HEADERS),
        *(file for name in LIBRARIES for file in library_files(name, version)), *(f"share/nolthewyr/{name}" for name in (*RUST_FILES, *PYTHON_FILES)),
    }


def installed_files():
    """The files are where they belong, below DESTDIR too, and are gone when they are uninstalled."""
    staged, expected = place("staged"), expected_files()
    command("make", "--silent", "install", f"DESTDIR={staged}", "PREFIX=/usr")
    found = files(prefix()), {name.removeprefix("usr/") for name in files(staged)}
    (staged / "usr/share/nolthewyr/__pycache__").mkdir()
    command("make", "--silent", "uninstall", f"DESTDIR={staged}", "PREFIX=/usr")
    for number, names in enumerate(found):
        yield case("installed files", [number], (len(expected), 0)), (len(names), len(names ^ expected))
    yield case("installed files", [2], 0), len(files(staged)) + (staged / "usr/share/nolthewyr").exists()


ASK = "import nolthewyr; print(nolthewyr.library_file(), nolthewyr.version())"


def found_by_python():
    """NOLTHEWYR_LIBRARY names the file; else it is beside the Python files, where it is installed, in the repository, or where the system
    looks."""
    [share], [libraries], [version] = asked("--variable=pkgdatadir"), asked("--variable=libdir"), asked("--modversion")
    name = f"libnolthewyr.so.{nolthewyr.SERIES}"
    alone, beside = place("alone"), place("beside")
    for copy in (alone, beside):
        copy.mkdir(exist_ok=True)
        for file in PYTHON_FILES:
            shutil.copy(f"{share}/{file}", copy)
    shutil.copy(f"{libraries}/{name}", beside)
    ways = [
        (f"{libraries}/libnolthewyr.so", {"PYTHONPATH": str(beside), "NOLTHEWYR_LIBRARY": f"{libraries}/libnolthewyr.so"}),
        (str(beside / name), {"PYTHONPATH": str(beside)}),
        (f"{libraries}/{name}", {"PYTHONPATH": share}),
        (str(ROOT / "target" / "build" / "libnolthewyr.so"), {"PYTHONPATH": str(ROOT / "python")}),
        (name, {"PYTHONPATH": str(alone), "LD_LIBRARY_PATH": libraries}),
    ]
    for way, (expected, named) in enumerate(ways):
        yield case("found by Python", [way], 1), int(run("python3", "-c", ASK, **named).split() == [expected, version])


def of_another_version(version):
    """A library that has nothing but this version."""
    source, made = place(f"{version}.c"), place(f"{version}.so")
    source.write_text(f'const char *nolthewyr_version(void) {{ return "{version}"; }}\n')
    command("gcc", "-shared", "-fPIC", source, "-o", made)
    return made


def another_version():
    """A library of another series is not used, since its structs may have another size, and none of a lower version, since it has not all
    functions. Both are refused by their version, whatever functions they have."""
    for way, (version, least) in enumerate(OTHER_VERSIONS.items(), 5):
        made = of_another_version(version)
        named = environment(PYTHONPATH=asked("--variable=pkgdatadir")[0], NOLTHEWYR_LIBRARY=str(made))
        ask = f"import nolthewyr_linked; nolthewyr_linked.LEAST = {least}; {ASK}"
        ran = subprocess.run(["python3", "-c", ask], env=named, capture_output=True, text=True)
        wanted = f"{nolthewyr.SERIES}, from {nolthewyr.SERIES}.{least} on"
        said = f"ImportError: {made} has version {version}, and this file is for {wanted}\n"
        yield case("found by Python", [way], 1), int(ran.stderr.endswith(said))


def printed_of_case(program):
    """What an installed program prints of the whole case."""
    options = {"env": environment(), "cwd": folder().name, "capture_output": True, "text": True}
    with open(CASE.with_suffix(".bin"), "rb") as case_file:
        return subprocess.run([prefix() / "bin" / program], stdin=case_file, **options).stdout


def programs():
    """schedule says how it is used and by its exit status that it failed, and finds the rangelog and the rangepages beside it, which print
    the log and the pages of the whole case."""
    log, schedule = CASE.with_suffix(".log").read_text(), prefix() / "bin" / "schedule"
    claims = [
        run(schedule, "--help").startswith("usage: schedule"),
        printed_of_case("rangelog") == log,
        printed_of_case("rangepages") == CASE.with_suffix(".pages").read_text(),
        run(schedule, "run", "--log", CASE.with_suffix(".txt"), PATH="/usr/bin:/bin") == log,
        "1  9 held  [0, 256)" in run(schedule, "pages", CASE.with_suffix(".txt"), PATH="/usr/bin:/bin"),
        subprocess.run([schedule, "run", "no-such-file"], env=environment(), capture_output=True).returncode == 3,
    ]
    for number, holds in enumerate(claims):
        yield case("program", [number], 1), int(holds)


def words_of_rangelog():
    """The names of the phases and the texts of the causes that a log has."""
    library()
    named = [f"{number} {name}" for number, name in enumerate(ENUMERATIONS["phase"])]
    return named + [f"{number} {nolthewyr.cause_text(number)}" for number in (4, 5, 7, 8, 10, 11)]


def words_of_rangepages():
    """What a schedule is refused by."""
    library()
    return [f"{number} {nolthewyr.cause_text(number)}" for number in (10, 11)]


def fields_unlike(source):
    """The names of a row's fields and then of a record's, in the order of their structs, and those that the page of rangepages lists, where
    these differ."""
    listed = re.findall(r"^\.It ([a-z]\w*)", source.read_text(), re.MULTILINE)
    fields = [name for struct in (nolthewyr.Row, nolthewyr.Record) for name, _ in struct._fields_]
    return [pair for pair in zip_longest(fields, listed) if pair[0] != pair[1]]


def missing(words, read):
    return [word for word in words if word not in read]


def words_of_schedule():
    """How it is used, by its own help: its options alone, and each command with its options."""
    schedule = prefix() / "bin" / "schedule"
    said = run(schedule, "--help")
    yield tuple(sorted(re.findall(r"^  (?:-\w, )?(--\w+)\b", said, re.MULTILINE)))
    for name in re.findall(r"^    (\w+)  +\w", said, re.MULTILINE):
        options = re.findall(r"^  (-\w|--\w+)\b", run(schedule, name, "--help"), re.MULTILINE)
        yield name, *sorted(set(options) - {"-h"})


def synopsis(read):
    """How schedule is used, by its page."""
    [listed] = re.findall("SYNOPSIS(.*)DESCRIPTION", read)
    for use in listed.split(" schedule ")[1:]:
        if use.startswith("--"):
            yield tuple(sorted(re.findall(r"--\w+", use)))
        else:
            yield use.split()[0], *sorted(re.findall(r"(?<=\[)(-\w|--\w+)\b", use))


def manual_pages():
    """The pages are set without a warning. That of rangelog has the words of a log; that of rangepages lists all fields in order; that of
    schedule its commands and options, and no others. Those of rangeserver and rangerun are held to their help elsewhere."""
    for number, program in enumerate(PROGRAMS):
        source = prefix() / "share" / "man" / "man1" / f"{program}.1"
        warned = subprocess.run(["groff", "-mandoc", "-ww", "-z", source], capture_output=True, text=True, check=True).stderr
        read = " ".join(run("man", "--local-file", source, MANWIDTH="1000").split())
        if program == "schedule":
            unlike = set(words_of_schedule()) ^ set(synopsis(read))
        elif program == "rangelog":
            unlike = missing(words_of_rangelog(), read)
        elif program == "rangepages":
            unlike = missing(words_of_rangepages(), read) + fields_unlike(source)
        else:
            unlike = []
        if unlike:
            print(f"    {source.name} and the program differ in {', '.join(map(str, unlike))}")
        yield case("page", [number], (0, 0)), (len(warned.splitlines()), len(unlike))


SUITES = {
    "installed, the examples print what the model says": example_lines,
    "installed, docs/LINKING.md shows what the examples print": documented_lines,
    "installed, who is linked with the shared library needs it": linked_shared,
    "installed, all files, and none when uninstalled": installed_files,
    "installed, Python finds the library": found_by_python,
    "installed, Python does not use a library of another series or of a lower version": another_version,
    "installed, the programs run": programs,
    "installed, the pages have no warning and say what the programs do": manual_pages,
    **RUN_SUITES,
    **FORECAST_SUITES,
}

"""Cases for the declarations in C, Rust and Python: a compiler believes them, so that they are held to the Rattle source, to what the
libraries export, and to each other."""

import re
import subprocess

from compare import NAMES, case, unlike
from compiled_table import library, nolthewyr
from library import ROOT, made

NAMES["declared struct"] = ("language", "struct"), ("fields", "fields unlike")
NAMES["declared functions"] = ("place",), ("functions", "functions unlike")
NAMES["declared types"] = ("language", "function"), ("parameters and result", "unlike")
NAMES["contracts stated again"] = ("crate",), ("functions", "functions unlike")
NAMES["compiled without a warning"] = ("place in the list of compilers",), ("exit status",)
NAMES["version"] = ("place",), ("that of the header",)

HEADER = ROOT / "include" / "nolthewyr.h"
# What a program has of C: that file and the one that it includes.
DECLARED = "".join(path.read_text() for path in (HEADER, ROOT / "include" / "nolthewyr_operations.h"))
# What a program has of Rust, and the file beside it with the structs, names and functions.
RUST = ROOT / "include" / "nolthewyr.rs"
RUST_LINKED = ROOT / "include" / "nolthewyr_linked.rs"
TEXTS = ROOT / "library" / "texts.c"

# Each struct of the header, and the crate and the name that it has in the Rattle source.
STRUCTS = {
    "settings": ("lock", "Settings"), "record": ("lock", "Record"), "client": ("lock", "Client"), "call": ("lock", "Call"),
    "cover_answer": ("cover", "Answer"), "step_count_answer": ("lock", "StepCount"), "row": ("pages", "Row"),
    "run_page_answer": ("pages", "RunPage"), "calendar": ("calendar", "Calendar"), "quarter": ("calendar", "Quarter"),
    "calendar_window_answer": ("calendar", "WindowAnswer"), "calendar_quarter_answer": ("calendar", "QuarterAnswer"),
    "operation_answer": ("lock", "Operation"), "client_answer": ("lock", "Stepped"), "ahead_answer": ("runs", "Ahead"),
    "completed_all_answer": ("runs", "CompletedAll"),
}
# The crates that are linked. Each is a library, and the crate of its name with _c exports its calls.
LINKED = "table", "runs", "pages", "calendar"

# What the length of each lent slice is called, what C's types are in Rust, and what the structs that a function answers, or takes as another
# has answered them, are called where it is linked.
LENGTHS = {
    "clients": "client_count", "words": "word_count", "rows": "row_count", "hours": "hour_count", "operations": "room", "found": "found_count"}
C_TYPES = {"uint64_t": "u64", "size_t": "usize", "char": "c_char"}
ANSWERS = {
    "cover::Answer": "CoverAnswer", "lock::StepCount": "StepCountAnswer", "RunPage": "RunPageAnswer", "WindowAnswer": "CalendarWindowAnswer",
    "QuarterAnswer": "CalendarQuarterAnswer", "Operation": "OperationAnswer", "Stepped": "ClientAnswer", "Ahead": "AheadAnswer",
    "CompletedAll": "CompletedAllAnswer",
}


def title(name):
    """The name of a struct in Rust and in Python."""
    return name.title().replace("_", "")


def number_fields(fields, types):
    """The fields' names in order; one that is no number of 64 bits has its type beside it."""
    return [name if type_ in types else f"{name}: {type_}" for name, type_ in fields]


def rattle_fields(name, text):
    """The names of a struct's fields in order, in Rattle or in Rust, where a phase, an outcome and an operation's kind are numbers with names."""
    [body] = re.findall(rf"pub struct {name} \{{(.*?)\}}", text, re.DOTALL)
    return number_fields(re.findall(r"pub (\w+): (\w+),", body), ("u64", "Phase", "Outcome", "Operation"))


def source_fields(crate, name):
    return rattle_fields(name, (ROOT / "crates" / crate / "src" / "lib.rt").read_text())


def struct_of(type_):
    """A C type, a struct by the name that it has in the other languages."""
    return title(type_.removeprefix("nolthewyr_")) if type_.startswith("nolthewyr_") else type_


def c_fields(name):
    [body] = re.findall(rf"typedef struct nolthewyr_{name} \{{([^}}]*)\}} nolthewyr_{name};", DECLARED)
    return number_fields(((field, struct_of(type_)) for type_, field in re.findall(r"(\w+) (\w+);", body)), ("uint64_t",))


def rust_fields(name):
    return rattle_fields(title(name), RUST_LINKED.read_text())


def python_fields(name):
    fields = ((field, type_.__name__) for field, type_ in getattr(nolthewyr, title(name))._fields_)
    return number_fields(fields, (nolthewyr.c_uint64.__name__,))


def declared_structs():
    """The structs have the fields of the Rattle source in the same order, each a number of 64 bits or a record."""
    for place, fields_of in enumerate((c_fields, rust_fields, python_fields)):
        for number, (name, in_source) in enumerate(STRUCTS.items()):
            fields, declared = source_fields(*in_source), fields_of(name)
            yield case("declared struct", [place, number], (len(fields), 0)), (len(declared), unlike(fields, declared))


def named_types(parameters):
    """Each parameter of a list in Rattle or Rust: its name and its type."""
    return re.findall(r"(\w+): ([^,]+)", " ".join(parameters.split()))


def by_rattle(parameters):
    """The parameters in Rattle, as C and Rust have them: a slice is a pointer, and then its length by its own name."""
    for name, type_ in named_types(parameters):
        if lent := re.fullmatch(r"&(mut )?\[(\w+)\]", type_):
            yield from (f"{name}: *{'mut' if lent[1] else 'const'} {ANSWERS.get(lent[2], lent[2])}", f"{LENGTHS[name]}: usize")
        else:
            yield f"{name}: {ANSWERS.get(type_, type_)}"


def type_in_c(const, type_, pointer):
    """A type in C, by its name in Rust."""
    lent = f"*{'const' if const else 'mut'} " if pointer else ""
    return f"{lent}{C_TYPES.get(type_) or struct_of(type_)}"


def by_c(parameters):
    for const, type_, pointer, name in re.findall(r"(const )?(\w+) (\*?)(\w+)", " ".join(parameters.split())):
        yield f"{name}: {type_in_c(const, type_, pointer)}"


def result_in_c(result):
    return type_in_c(*re.fullmatch(r"(const )?(\w+) (\*?)", result).groups())


def by_rust(parameters):
    return (f"{name}: {type_}" for name, type_ in named_types(parameters))


def functions_in(text, pattern, parameters_of, result_of):
    """The functions of a text, each with its parameters in order and its result."""
    found = re.finditer(pattern, text, re.MULTILINE)
    return {each["name"]: [*parameters_of(each["parameters"]), f"-> {result_of(each['result'])}"] for each in found}


def exported_by_source():
    """The functions that are linked, each with its parameters in order and its result."""
    sources = (path for crate in LINKED for path in (ROOT / "crates" / f"{crate}_c" / "src").glob("*.rt"))
    proved = r'pub extern "C" fn (?P<name>\w+)\((?P<parameters>[^)]*)\) -> (?P<result>[\w:]+)'
    texts = r"^(?P<result>const char \*)(?P<name>\w+)\((?P<parameters>[^)]*)\)"
    by_proof = functions_in("".join(path.read_text() for path in sources), proved, by_rattle, lambda type_: ANSWERS.get(type_, type_))
    return by_proof | functions_in(TEXTS.read_text(), texts, by_c, result_in_c)


def declared_by_c():
    return functions_in(
        DECLARED, r"^(?P<result>\w[\w ]*[ *])(?P<name>nolthewyr_\w+)\((?P<parameters>[^)]*)\);", by_c, result_in_c)


def declared_by_rust():
    return functions_in(RUST_LINKED.read_text(), r"fn (?P<name>nolthewyr_\w+)\((?P<parameters>[^)]*)\) -> (?P<result>.*);", by_rust, str)


def declared_types():
    """The functions that C and Rust declare have the parameters of the source in the same order, by name and by type, and its results."""
    for place, functions in enumerate((declared_by_c(), declared_by_rust())):
        for number, (name, expected) in enumerate(exported_by_source().items()):
            found = functions.get(name, [])
            if found != expected:
                print(f"    {name} is declared with {found}, and not with {expected}")
            yield case("declared types", [place, number], (len(expected), 0)), (len(found), unlike(expected, found))


# A call that is linked, from its name to its body: the parameters, the result and the clauses.
CALL = re.compile(r'^pub (?:extern "C" )?fn (nolthewyr_\w+)(\(.*?)\n\{', re.MULTILINE | re.DOTALL)


def calls_of(crate):
    """The calls of a crate that are linked, each with its parameters, its result and its clauses, however they are laid out."""
    sources = sorted((ROOT / "crates" / crate / "src").glob("*.rt"))
    found = (call for path in sources for call in CALL.findall(path.read_text()))
    return {name: " ".join(contract.split()).replace("( ", "(").replace(", )", ")") for name, contract in found}


def stated_again():
    """Each call of a library is exported under its own name, with its parameters, its result and all of its clauses."""
    for place, crate in enumerate(LINKED):
        own, exported_calls = calls_of(crate), calls_of(f"{crate}_c")
        wrong = [name for name in own.keys() | exported_calls.keys() if own.get(name) != exported_calls.get(name)]
        yield case("contracts stated again", [place], (len(own), 0)), (len(exported_calls), len(wrong))


def exported(path, *options):
    """The global names that a library defines."""
    listed = subprocess.run(["nm", "--extern-only", "--defined-only", *options, path], check=True, capture_output=True, text=True)
    return {name for name in re.findall(r"^[0-9a-f]+ \w (\S+)$", listed.stdout, re.MULTILINE)}


def declared_functions():
    """The declared functions and the exported ones are the same, in all languages and both libraries."""
    expected = set(exported_by_source())
    found = [
        set(declared_by_c()),
        set(declared_by_rust()),
        {f"nolthewyr_{name}" for name in nolthewyr.FUNCTIONS},
        exported(made("build/libnolthewyr.a")),
        exported(made("build/libnolthewyr.so"), "--dynamic"),
    ]
    for place, names in enumerate(found):
        yield case("declared functions", [place], (len(expected), 0)), (len(names), len(names ^ expected))


C_CHECKED = "-Wall", "-Wextra", "-Wpedantic", "-Werror", "-fsyntax-only", "-I", HEADER.parent
COMPILERS = [
    *(("gcc", f"-std={standard}", *C_CHECKED, TEXTS) for standard in ("c99", "c11")),
    *(("g++", f"-std={standard}", *C_CHECKED, "-x", "c++", "-") for standard in ("c++98", "c++17")),
    *(("rustc", "--edition", edition, "-D", "warnings", "--emit", "metadata", "-o", ROOT / "target" / "tests" / "declared", "-")
      for edition in ("2021", "2024")),
]
INCLUDED = {"g++": "#include <nolthewyr.h>\n", "rustc": f'#[path = "{RUST}"]\nmod nolthewyr;\n\nfn main() {{}}\n'}


def compiled():
    """The header is C99, C11 and C++, and the Rust file stands in a program of either edition, without a warning."""
    (ROOT / "target" / "tests").mkdir(parents=True, exist_ok=True)
    for place, command in enumerate(COMPILERS):
        ran = subprocess.run(command, input=INCLUDED.get(command[0]), text=True)
        yield case("compiled without a warning", [place], 0), ran.returncode


def versions():
    """The library, its name for the loader and the Python file go with the version of the header."""
    [version] = re.findall(r'^#define NOLTHEWYR_VERSION "(.*)"$', HEADER.read_text(), re.MULTILINE)
    library()
    read = subprocess.run(["objdump", "-p", made("build/libnolthewyr.so")], check=True, capture_output=True, text=True).stdout
    series = version.rpartition(".")[0]
    found = [nolthewyr.version() == version, f"{nolthewyr.SERIES}.{nolthewyr.LEAST}" == version, f" libnolthewyr.so.{series}\n" in read]
    for place, same in enumerate(found):
        yield case("version", [place], 1), int(same)


SUITES = {
    "linking, the declared structs are those of the source": declared_structs,
    "linking, the declared functions are those that are exported": declared_functions,
    "linking, the declared functions have the source's parameters and results": declared_types,
    "linking, the exported calls have the contracts of the libraries' own": stated_again,
    "linking, the declarations compile without a warning": compiled,
    "linking, one version everywhere": versions,
}

"""Cases for the numbers that the declarations name: each phase, outcome, cause and kind of operation has the documents' name in C, Rust and
Python, and a text."""

import re

from compare import NAMES, case, unlike
from compiled_table import library, nolthewyr
from linking_cases import DECLARED, RUST_LINKED, title

NAMES["declared names"] = ("language", "enumeration"), ("names", "names unlike")
NAMES["text"] = ("enumeration", "number"), ("as the documents say",)

# What the documents call each number, outcome 4 by document 02's patience that has run out. The names of causes are short ones for the rows
# of document 01's table and of request 2.6; 10 and 11 are those of the programs alone, and have none. The kinds of operations are document 01's
# read, masked fetch-add and masked compare-and-swap, and none for a row by which no word is touched.
ENUMERATIONS = {
    "phase": "idle ticket turn climb blocked claim notify wait check held returning".split(),
    "outcome": "none released late cancelled out_of_patience".split(),
    "cause": [
        *"accepted settings word_count client_count client clock unreadable window phase clear_bit".split(), None, None,
        *"calendar last_quarter closed".split()],
    "operation": "none read add swap".split(),
}

# Words of the documents' table that the texts of the causes have.
CAUSE_WORDS = [
    "accepted", "levels not 2 to 12, distance not 1 to 4, or wait or patience not 1 to 4294967295",
    "word count not the tree's, (4^levels - 1) / 3; or not one row for each client",
    "no clients, or over 32767", "client not below the table's count", "step clock below the client's last clock",
    "client's record unreadable", "window", "request when not idle, release when not held, or cancel",
    "returning leaf finds a wanted bit clear", "schedule", "over 6 levels or over 64 clients",
    "hours not one pair for each ward and day, over 96, or opening after closing; or no such ward, week, day, quarter or unit",
    "last quarter before the first, or in another ward", "closed in some quarter of the window",
]
# The greatest number of 64 bits, and numbers of no phase, outcome, cause or operation.
TOP = 2 ** 64 - 1
UNKNOWN = 2 ** 8, 2 ** 32, 2 ** 32 + 1, TOP


def c_names(name):
    return re.findall(rf"NOLTHEWYR_{name.upper()}_(\w+) = (\d+)", DECLARED)


def rust_names(name):
    [listed] = re.findall(rf"named_number!\({title(name)} by nolthewyr_{name}_text: ([^)]*)\);", RUST_LINKED.read_text())
    return re.findall(r"(\w+) = (\d+)", listed)


def python_names(name):
    return [(named.name, named.value) for named in getattr(nolthewyr, title(name))]


def declared_names():
    """Every phase, outcome, cause and operation has the same name and number in all languages."""
    for place, names_of in enumerate((c_names, rust_names, python_names)):
        for number, (name, names) in enumerate(ENUMERATIONS.items()):
            found = [(named.lower(), int(at)) for named, at in names_of(name)]
            expected = [(named, at) for at, named in enumerate(names) if named]
            yield case("declared names", [place, number], (len(expected), 0)), (len(found), unlike(expected, found))


def texts():
    """Causes are said by the documents' words, all others by their names, and every other number is said to be unknown."""
    library()
    words = ENUMERATIONS | {"cause": CAUSE_WORDS}
    for place, (name, said) in enumerate(words.items()):
        text = getattr(nolthewyr, f"{name}_text")
        for number in (*range(len(said) + 1), *UNKNOWN):
            expected = said[number].replace("_", " ") if number < len(said) else f"unknown {name}"
            as_said = expected in text(number) if name == "cause" else expected == text(number)
            yield case("text", [place, number], 1), int(as_said)


SUITES = {
    "names, phases, outcomes, causes and operations have the documents' names in all languages": declared_names,
    "names, every number has a text": texts,
}

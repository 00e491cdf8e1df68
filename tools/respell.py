#!/usr/bin/env python3
"""Spells the repository's own definitions and lemmas as Rattle's rule has it: values and lemmas in snake case, types in camel case.

usage: tools/respell.py        at the top, once, after /opt/rattle/port/port.py: rewrites crates/*/src, specs and proofs in place, and prints each name that changed, old and new

A name is the repository's own if its specs/ or proofs/ use it and no library gives it. Names of Rust functions, of generated goals and of libraries stay.
"""

import os
import re

NAME = re.compile(r"[^\s(){}.;,@\"«»\[\]]+")
SPELLED = re.compile(r"[A-Za-z][A-Za-z0-9_'-]*")
USE = re.compile(r"^\s*(?:pub )?(?:ghost )?use ([^\s;{]+?)\.?(?:\{([^}]*)\})?(?: as (\S+))?;?$", re.M)
COMMENT = re.compile(r"--.*|//.*")
CRATES = [line.split(":")[0] for line in open("crates.txt")]

# Names that would fall together with a definition's new spelling: a lemma gets `_lem`, as it does where its own old spelling differs from the definition's by dashes alone.
MEETING = {
    "gives_back": "gives_back_lem",
    "in_window": "in_window_lem",
    "is_open": "unit_open",
    "line-of": "line_of_lem",
    "same-list": "same_list_lem",
    "some_below": "some_below_lem",
    "step_count": "step_count_lem",
    "word_count": "word_count_lem",
}


def files(kind):
    for folder, folders, names in os.walk("crates"):
        folders[:] = sorted(f for f in folders if f != "out")
        yield from (os.path.join(folder, name) for name in sorted(names) if name.endswith(kind))


def is_own(path):
    crate = re.match(r"Rattle\.(\w+)", path)
    return bool(crate) and crate.group(1) in CRATES


def of_function(path):
    return bool(re.search(r"/proofs/.+/", path))


def from_libraries(code):
    names = set()
    for path, items, alias in USE.findall(code):
        if not is_own(path):
            names.update(word for item in (items or "").split(",") for word in item.split(" as "))
            names.add(alias or path.split(".")[-1])
    return {name.strip() for name in names}


def in_snake_case(name):
    words = re.sub(r"(?<=[a-z0-9])[A-Z]", lambda m: "_" + m.group(0).lower(), name)
    return words.replace("-", "_")


def respelled():
    """Each own name whose spelling changes, with the new one, and which of them are fields."""
    library, free, fields = set(), set(), set()
    for path in files(".antt"):
        with open(path) as f:
            code = COMMENT.sub("", f.read())
        library |= from_libraries(code)
        if of_function(path):
            continue
        for found in NAME.finditer(code):
            word = found.group(0)
            if SPELLED.fullmatch(word) and word[0].islower() and in_snake_case(word) != word:
                (fields if code[found.start() - 1] == "." else free).add(word)
    own = (free | fields) - library
    values = {in_snake_case(name) for name in own if "-" not in name}
    lemmas = {name: in_snake_case(name) + "_lem" for name in own if "-" in name and in_snake_case(name) in values}
    return {name: in_snake_case(name) for name in own} | lemmas | MEETING, fields - library


def turned(text, table, fields, generated):
    """The text with its own names respelled; where names are generated, behind a dot fields alone."""

    def spelled(found):
        word = found.group(0)
        behind = text[found.start() - 1] == "."
        if word not in table or behind and (word in MEETING or generated and word not in fields):
            return word
        return table[word]

    return NAME.sub(spelled, text)


def in_source(text, table, fields):
    """The text of a .rt file: strings stay; names in comments stand in back quotes."""
    name = re.compile(r"\"(?:[^\"\\\n]|\\.)*\"|[A-Za-z][A-Za-z0-9_'-]*")
    return name.sub(lambda found: found.group(0) if found.group(0) in MEETING else table.get(found.group(0), found.group(0)), text)


def in_back_quotes(line, table):
    return re.sub(r"`([^`\n]+)`", lambda m: "`" + re.sub(r"[A-Za-z][A-Za-z0-9_'-]*", lambda w: table.get(w.group(0), w.group(0)), m.group(1)) + "`", line)


def main():
    table, fields = respelled()
    for path in [*files(".antt"), *files(".rt")]:
        with open(path) as f:
            text = f.read()
        if path.endswith(".rt"):
            new = in_source(text, table, fields)
        else:
            lines = []
            for line in text.split("\n"):
                code, dashes, comment = line.partition("--")
                lines.append(turned(code, table, fields, of_function(path)) + dashes + in_back_quotes(comment, table))
            new = "\n".join(lines)
        if new != text:
            with open(path, "w") as f:
                f.write(new)
    for old in sorted(table):
        print(f"{old}\t{table[old]}")


if __name__ == "__main__":
    main()

#!/usr/bin/env python3
"""Imports of what moved from specs/ to proofs/: tools/move_theorems.py [CRATE ..]

The theorems of laws/, claim/ and examples/ stand in proofs/, and in specs/ only what contracts cite. Where a file of src/, specs/, proofs/ or
must-fail/ of the named crates (with no name: of all in crates.txt) imports from crates/C/specs/laws/X.antt a name that stands in
crates/C/proofs/laws/X.antt now (or claim/, or examples/), its import becomes one line for the names that are in specs/ and one for those that are
in proofs/, and so the other way round. It goes by where each name is declared, so it is right for any state of the tree, and to run it
again changes nothing. Paths of files in comments follow, where the file is in one of the two places only. It prints what it changed, and what it
could not place; the exit status is 1 if there is any of that. With no name it does the same to the paths that README.md and docs/*.md cite, by the names
that stand behind a path, where there are some.
"""

import re
import sys
from functools import lru_cache
from pathlib import Path

ROOT = Path(__file__).resolve().parent.parent
CRATES = ROOT / "crates"
PARTS = ("specs", "proofs")
FOLDERS = "laws|claim|examples"

# [pub ] [ghost ]use Rattle.C.specs.laws.X, and `.{names}`, ` as Name` or nothing
IMPORT = re.compile(rf"^(?P<head>(?:old: |new: )?\s*(?:pub )?(?:ghost )?use )Rattle\.(?P<crate>\w+)\.(?P<part>specs|proofs)\.(?P<module>(?:{FOLDERS})\.\w+)(?P<rest>\.\{{[^}}]*\}}| as \w+|)(?P<end>;?)$")
PATH = re.compile(rf"(?<![\w/])(?P<crate>(?:crates/)?\w+/)?(?P<part>specs|proofs)/(?P<file>(?:{FOLDERS})/\w+\.antt)")


def crate_names():
    listed = (ROOT / "crates.txt").read_text().splitlines()
    return [line.split(":")[0].split()[0] for line in listed if ":" in line and not line.startswith("#")]


def file_of(crate, part, module):
    return CRATES / crate / part / (module.replace(".", "/") + ".antt")


@lru_cache(maxsize=None)
def declared(crate, part, module):
    """The names that the module declares, or None if there is no such file."""
    file = file_of(crate, part, module)
    if not file.is_file():
        return None
    names, cases = set(), None
    for line in file.read_text().splitlines():
        depth = len(line) - len(line.lstrip())
        if line.strip() and cases is not None and depth <= cases:
            cases = None
        it = re.match(r"\s*((?:pub |abbrev |unfoldable )*)(data |record )?([^\s:(){}]+)\s*[:({ ]", line)
        if it and ("pub" in it[1].split() or cases is not None):
            names.add(it[3])
        if it and it[2] == "data " and "pub" in it[1].split():
            cases = depth
    return names


def placed(line, wrong):
    """The lines that stand for an import, one for each part that has some of its names."""
    it = IMPORT.match(line)
    if not it:
        return [line]
    crate, module, rest = it["crate"], it["module"], it["rest"]
    have = {part: declared(crate, part, module) for part in PARTS}
    there = [part for part in PARTS if have[part] is not None]
    if not there:
        wrong.append(f"there is no module {module} of {crate}: {line.strip()}")
        return [line]
    if not rest.startswith(".{"):
        if it["part"] in there:
            return [line]
        return [f"{it['head']}Rattle.{crate}.{there[0]}.{module}{rest}{it['end']}"]
    names = [name.strip() for name in rest[2:-1].split(",") if name.strip()]
    by_part = {part: [] for part in PARTS}
    for name in names:
        plain = name.split(" as ")[0]
        homes = [part for part in there if plain in have[part]]
        if not homes:
            wrong.append(f"{plain} is in no module {module} of {crate}: {line.strip()}")
            return [line]
        by_part[it["part"] if it["part"] in homes else homes[0]].append(name)
    lines = [f"{it['head']}Rattle.{crate}.{part}.{module}.{{{', '.join(by_part[part])}}}{it['end']}" for part in PARTS if by_part[part]]
    if len(lines) > 1 and it["head"].startswith(("old: ", "new: ")):
        wrong.append(f"an edit's line would become two: {line.strip()}")
        return [line]
    if it["head"].strip().startswith("ghost") and by_part["proofs"]:
        wrong.append(f"code cites what stands in proofs/: {', '.join(by_part['proofs'])} of {crate}.{module}")
    return lines


def merged(lines):
    """Two imports of one module become one, where theorems of it moved."""
    kept, at = [], {}
    for line in lines:
        it = IMPORT.match(line)
        if not it or not it["rest"].startswith(".{") or it["head"].startswith(("old: ", "new: ")) or not file_of(it["crate"], "proofs", it["module"]).is_file():
            kept.append(line)
            continue
        key = (it["head"], it["crate"], it["part"], it["module"], it["end"])
        if key not in at:
            at[key] = len(kept)
            kept.append(line)
            continue
        first = IMPORT.match(kept[at[key]])["rest"][2:-1]
        more = [name for name in it["rest"][2:-1].split(", ") if name not in first.split(", ")]
        kept[at[key]] = f"{it['head']}Rattle.{it['crate']}.{it['part']}.{it['module']}.{{{', '.join([first, *more])}}}{it['end']}"
    return kept


# as tools/counts reads it
CITED = re.compile(rf"`(?P<top>(?:crates/)?)(?P<crate>\w+)/(?P<part>specs|proofs)/(?P<folder>{FOLDERS})/(?P<name>\w+)\.antt`: (?P<names>`[^`]+`(?:, `[^`]+`)*)")


def cited(it):
    """A citation of names, by where they stand."""
    module = f"{it['folder']}.{it['name']}"
    have = {part: file.read_text() if (file := file_of(it["crate"], part, module)).is_file() else "" for part in PARTS}
    names = it["names"].split(", ")
    plain = {name: name.strip("`").removesuffix("..") for name in names}
    # where it is declared, else where it is mentioned
    homes = {name: [part for part in PARTS if plain[name] in (declared(it["crate"], part, module) or ())] or [part for part in PARTS if plain[name] in have[part]] for name in names}
    if not all(homes.values()):
        return it[0]
    by_part = {part: [name for name in names if (it["part"] if it["part"] in homes[name] else homes[name][0]) == part] for part in PARTS}
    return "; ".join(f"`{it['top']}{it['crate']}/{part}/{it['folder']}/{it['name']}.antt`: {', '.join(by_part[part])}" for part in PARTS if by_part[part])


def path_placed(own, in_edit):
    def place(it):
        crate = (it["crate"] or "").removeprefix("crates/").rstrip("/") or own
        if in_edit and not it["crate"] or not (CRATES / crate).is_dir():
            return it[0]
        there = [part for part in PARTS if (CRATES / crate / part / it["file"]).is_file()]
        return f"{it['crate'] or ''}{there[0]}/{it['file']}" if len(there) == 1 else it[0]

    return place


def moved(text, own, in_edit, wrong):
    lines = text.split("\n")
    new = [other for line in lines for other in placed(line, wrong)]
    if new != lines:
        new = merged(new)
    # in an edit a path without a crate is that of a `file:` line, which the edit's own text decides
    return "\n".join(PATH.sub(path_placed(own, in_edit), line) if not IMPORT.match(line) else line for line in new)


def main():
    if any(it.startswith("-") for it in sys.argv[1:]):
        sys.exit(__doc__)
    changed, wrong = 0, []
    for crate in sys.argv[1:] or crate_names():
        folder = CRATES / crate
        files = [file for part in ("src", "specs", "proofs") for end in ("rt", "antt") for file in sorted((folder / part).rglob(f"*.{end}"))]
        for file in files + sorted((folder / "must-fail").glob("*.edit")):
            text, here = file.read_text(), []
            new = moved(text, crate, file.suffix == ".edit", here)
            wrong += [f"{file.relative_to(ROOT)}: {it}" for it in here]
            if new != text:
                file.write_text(new)
                changed += 1
                print(f"changed {file.relative_to(ROOT)}")
    if not sys.argv[1:]:
        for file in [ROOT / "README.md", *sorted((ROOT / "docs").glob("*.md"))]:
            text = file.read_text()
            new = PATH.sub(path_placed("", True), CITED.sub(cited, text))
            if new != text:
                file.write_text(new)
                changed += 1
                print(f"changed {file.relative_to(ROOT)}")
    for it in wrong:
        print(it)
    print(f"{changed} files changed, {len(wrong)} not placed")
    return 1 if wrong else 0


if __name__ == "__main__":
    sys.exit(main())

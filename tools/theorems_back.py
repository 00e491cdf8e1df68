#!/usr/bin/env python3
"""Lays theorems back where they stood before the port, in a copy: tools/theorems_back.py FOLDER

Copies the last commit's crates/ to FOLDER, which must not be there, and puts there proofs/{laws,claim,examples} back into specs/, behind what is left in a
file of the same name. The kit's contracts.py, which does not read proofs/, then sets the theorems beside those of the landed commit (docs/PORT.md).
"""

import subprocess
import sys
from pathlib import Path

FOLDERS = "laws", "claim", "examples"


def main(folder):
    folder.mkdir(parents=True)
    root = Path(__file__).resolve().parent.parent
    packed = subprocess.run(["git", "archive", "HEAD", "crates", "crates.txt"], cwd=root, check=True, capture_output=True).stdout
    subprocess.run(["tar", "-x", "-C", folder], input=packed, check=True)
    for part in FOLDERS:
        for moved in sorted(folder.glob(f"crates/*/proofs/{part}/*.antt")):
            place = moved.parents[2] / "specs" / part / moved.name
            place.parent.mkdir(parents=True, exist_ok=True)
            left = place.read_text() + "\n" if place.exists() else ""
            place.write_text(left + moved.read_text())
            moved.unlink()


if __name__ == "__main__":
    if len(sys.argv) != 2:
        sys.exit(__doc__)
    main(Path(sys.argv[1]))

"""A temporary folder into which everything is installed, and programs built and run against what is there."""

import os
import subprocess
from functools import lru_cache
from pathlib import Path
from tempfile import TemporaryDirectory

from library import ROOT, SECONDS, command

# What would lead a program to other files than the installed ones.
ASTRAY = "NOLTHEWYR_LIBRARY", "RANGELOG", "RANGEPAGES", "PYTHONPATH", "LD_LIBRARY_PATH", "PKG_CONFIG_PATH"
CHECKED_C = "gcc", "-std=c11", "-O2", "-Wall", "-Wextra", "-Wpedantic", "-Werror"
CHECKED_RUST = "rustc", "--edition", "2021", "-O", "-D", "warnings"


@lru_cache(maxsize=None)
def folder():
    """A folder that is removed when the tests end."""
    return TemporaryDirectory()


def place(name):
    return Path(folder().name) / name


@lru_cache(maxsize=None)
def prefix():
    command("make", "--silent", "install", f"PREFIX={place('prefix')}", "DESTDIR=")
    return place("prefix")


def environment(**named):
    """That of the tests without what leads astray; Python leaves no compiled files beside the installed ones."""
    kept = {name: value for name, value in os.environ.items() if name not in ASTRAY}
    return {**kept, "PYTHONDONTWRITEBYTECODE": "1", **named}


def run(*words, **named):
    """Runs a program outside the repository, and gives what it wrote. Its exit status must be 0."""
    options = {"check": True, "capture_output": True, "text": True, "timeout": SECONDS}
    return subprocess.run(words, cwd=folder().name, env=environment(**named), **options).stdout


def asked(*words, package="nolthewyr"):
    """What pkg-config says of an installed library."""
    return run("pkg-config", *words, package, PKG_CONFIG_PATH=str(prefix() / "lib" / "pkgconfig")).split()


def c_program(example, *static):
    program = place(f"{example}-c{''.join(static)}")
    linked = asked("--cflags", "--libs", *(f"-{word}" for word in static))
    command(*CHECKED_C, *static, ROOT / "examples" / f"{example}.c", *linked, "-o", program)
    return program


def c_static(example):
    return [c_program(example, "-static")]


def c_shared(example):
    return [c_program(example)]


def rust_program(example, name, *linked):
    """The example with the declarations as a crate; `linked` says where the library is."""
    [share] = asked("--variable=pkgdatadir")
    crate, program = place(f"lib{example}-{name}.rlib"), place(f"{example}-{name}")
    command(*CHECKED_RUST, "--crate-type", "rlib", "--crate-name", "nolthewyr", f"{share}/nolthewyr.rs", "-o", crate)
    command(*CHECKED_RUST, "--extern", f"nolthewyr={crate}", ROOT / "examples" / f"{example}.rs", *linked, "-o", program)
    return program


def rust_static(example):
    return [rust_program(example, "rust-static", *asked("--libs-only-L"), "-l", "static=nolthewyr")]


def rust_shared(example):
    return [rust_program(example, "rust", *asked("--libs"))]


def python(example):
    return ["python3", ROOT / "examples" / f"{example}.py"]


BUILDERS = c_static, c_shared, rust_static, rust_shared, python


@lru_cache(maxsize=None)
def built(builder, example):
    """The command that runs an example."""
    return builder(example)


def printed(builder, example, levels):
    """The lines that an example prints. It finds the shared library where it is installed, if it needs it."""
    found = {"LD_LIBRARY_PATH": asked("--variable=libdir")[0], "PYTHONPATH": asked("--variable=pkgdatadir")[0]}
    return run(*built(builder, example), str(levels), **found).splitlines()

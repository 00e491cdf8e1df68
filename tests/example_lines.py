"""What the examples must print: examples/take.py run on a table that the model makes, with the model's step count, and examples/ward.py with the
model's calendar."""

import sys
from contextlib import redirect_stdout
from functools import lru_cache
from importlib.util import module_from_spec, spec_from_file_location
from io import StringIO

from compiled_table import library, nolthewyr
from library import ROOT
from model.binding import ModelTable
from model.calendar import Quarter, back, there
from model.record import Settings
from model.step_count import step_count

DISTANCE = 2
CLIENTS = 2


def steps_by_model(*asked):
    """The step count of the model, as the binding gives it."""
    number, steps = step_count(*asked)
    assert number == 0
    return steps


@lru_cache(maxsize=None)
def example(name, *by_model):
    """The example as a module, without a folder of its own for compiled files beside it, and with functions of the model in place of the
    library's."""
    sys.dont_write_bytecode = True
    spec = spec_from_file_location(name, ROOT / "examples" / f"{name}.py")
    module = module_from_spec(spec)
    spec.loader.exec_module(module)
    for called, function in by_model:
        setattr(module, called, function)
    return module


def printed_by(run, *arguments):
    """The lines that an example prints."""
    written = StringIO()
    with redirect_stdout(written):
        run(*arguments)
    return written.getvalue().splitlines()


@lru_cache(maxsize=None)
def take_lines(levels):
    library()
    take = example("take", ("step_count", steps_by_model))
    settings = Settings(levels, DISTANCE, take.WAIT, take.PATIENCE)
    return printed_by(take.run, settings, ModelTable(settings, CLIENTS))


def edges_by_model(hours, calendar, first, last):
    """The edges of the model, as the binding gives them."""
    number, left, right = there(*calendar, Quarter(*first), Quarter(*last), hours)
    if number:
        raise nolthewyr.Refused(number)
    return left, right


def quarter_by_model(calendar, unit):
    number, *at = back(*calendar, unit)
    assert number == 0
    return at


@lru_cache(maxsize=None)
def ward_lines(levels):
    library()
    ward = example("ward", ("calendar_window", edges_by_model), ("calendar_quarter", quarter_by_model))
    return printed_by(ward.run, nolthewyr.Calendar(levels, ward.WARDS, ward.WEEKS))

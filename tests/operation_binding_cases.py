"""Cases for the calls of a client that has no words lent, in Rust and in Python: each gives what the model gives."""

from itertools import chain, islice

from binding_cases import EDITIONS, numbers_of_rust, refused
from compare import NAMES, case
from compiled_table import library, nolthewyr
from model.operations import Operation
from model.record import Record, Settings
from operation_states import OWN_CALLS, any_operations, own_calls_at, own_calls_outside, steps_at, steps_outside

CLIENT = "language", *Settings._fields, "last clock", *Record._fields
AFTER = "number", "clock", *Record._fields
NAMES["operation by a binding"] = (*CLIENT, "clock"), Operation._fields
NAMES["completed by a binding"] = (*CLIENT, "clock", "found"), AFTER
NAMES["own call by a binding"] = (*CLIENT, "left", "right"), AFTER
NAMES["applied by a binding"] = ("language", *Operation._fields, "found"), ("word left",)

POSTED = len(Operation._fields)
# Of all questions one in so many is asked of the bindings.
ONE_IN = 41


def in_all_languages(name, call, questions, by_model, by_python):
    """Each question, a list of numbers, in Python and in both editions of Rust."""
    library()
    by_rust = [numbers_of_rust([(call, *numbers) for numbers in questions], edition) for edition in EDITIONS]
    for numbers, expected, *by_edition in zip(questions, by_model, *by_rust, strict=True):
        for language, answer in enumerate((by_python(numbers), *by_edition)):
            yield case(name, [language, *numbers], expected), answer


def python_client(numbers):
    """The client and the settings of a question, and what is asked of them."""
    return nolthewyr.Client(numbers[4], nolthewyr.Record(*numbers[5:20])), nolthewyr.Settings(*numbers[:4]), *numbers[20:]


def python_operation(numbers):
    """The number by which it is refused with zeros beside it, or the operation."""
    number = refused(nolthewyr.operation, *python_client(numbers))
    return tuple(Operation(number)) if number else tuple(nolthewyr.operation(*python_client(numbers)))


def python_client_after(call):
    """The number and the client after a call, as it was if it is refused."""
    def answer(numbers):
        number = refused(call, *python_client(numbers))
        after = python_client(numbers)[0] if number else call(*python_client(numbers))
        return number, after.clock, *after.record
    return answer


def asked_steps():
    """Steps in trees of several heights, and with settings outside their ranges."""
    every = chain(*(steps_at(h, part=8) for h in (2, 3, 7, 12)), steps_outside())
    return list(islice(every, None, None, ONE_IN))


def posted_operations():
    asked = asked_steps()
    return in_all_languages(
        "operation by a binding", "operation", [each.arguments()[:-1] for each in asked], [each.answer()[:POSTED] for each in asked],
        python_operation)


def completions():
    """What stands in an answer behind the operation and the word that it leaves."""
    asked = asked_steps()
    return in_all_languages(
        "completed by a binding", "completed", [each.arguments() for each in asked], [each.answer()[POSTED + 1:] for each in asked],
        python_client_after(nolthewyr.completed))


def own_calls():
    for call in OWN_CALLS:
        asked = [each for each in (*own_calls_at(3), *own_calls_outside()) if each.call == call][::ONE_IN]
        yield from in_all_languages(
            "own call by a binding", call, [each.arguments() for each in asked], [each.answer() for each in asked],
            python_client_after(getattr(nolthewyr, call)))


def words_left():
    asked = list(islice(any_operations(), None, None, ONE_IN))
    return in_all_languages(
        "applied by a binding", "applied", [each.arguments() for each in asked], [each.answer() for each in asked],
        lambda numbers: (nolthewyr.applied(nolthewyr.OperationAnswer(*numbers[:-1]), numbers[-1]),))


SUITES = {
    "bindings, operations": posted_operations,
    "bindings, completions": completions,
    "bindings, request, release and cancel of a client without words": own_calls,
    "bindings, what an operation leaves of a word": words_left,
}

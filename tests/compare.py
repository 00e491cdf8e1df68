"""The comparer that every test goes through: cases with what is expected, held to the answers that were given."""

from typing import NamedTuple

from library import ANSWER, signatures

SHOWN = 5


class Names(dict):
    """The names of each call's arguments and results. A call that is named twice is refused: one of the two would be reported by the
    other's names."""

    def __setitem__(self, call, names):
        if call in self:
            raise ValueError(f"two tests name their call `{call}`")
        super().__setitem__(call, names)


# Those of the library's calls, from its header; other modules add theirs.
NAMES = Names(signatures())


class Case(NamedTuple):
    """A call, its arguments, and the numbers that it must give."""

    call: str
    arguments: tuple
    expected: tuple


def case(call, arguments, expected):
    """A case whose expected answer may be one number; the numbers that the call does not give are 0."""
    numbers = expected if isinstance(expected, tuple) else (expected,)
    return Case(call, tuple(arguments), padded(numbers))


def padded(numbers):
    return tuple(int(number) for number in numbers) + (0,) * (ANSWER - len(numbers))


def differences(cases, answers):
    """Each case whose answer is not the expected one, with that answer."""
    if len(cases) != len(answers):
        raise SystemExit(f"{len(cases)} cases have {len(answers)} answers")
    return [(case, answer) for case, answer in zip(cases, answers) if case.expected != answer]


def unlike(mine, others):
    """In how many places two lists differ, or are not of one length."""
    return sum(one != other for one, other in zip(mine, others)) + abs(len(mine) - len(others))


def altered(answer, at):
    """The answer with the lowest bit of one of its numbers changed."""
    return tuple(number ^ 1 if place == at else number for place, number in enumerate(answer))


def unreported(cases, answers):
    """Puts an altered answer in the place of an expected one, altering in turn each of its numbers, and gives those that the
    comparer does not report. Without this a comparer that finds nothing would look like code without faults."""
    missed, numbers = [], len(cases[0].expected)
    for at in range(numbers):
        place = len(cases) * at // numbers
        changed = [*answers[:place], altered(cases[place].expected, at), *answers[place + 1:]]
        if (cases[place], changed[place]) not in differences(cases, changed):
            missed.append((cases[place], changed[place]))
    return missed


def shown(number):
    """Packed words are easier to read in hexadecimal."""
    return hex(number) if number >= 2 ** 32 else str(number)


def named(names, numbers):
    return ", ".join(f"{name} {shown(number)}" for name, number in zip(names, numbers))


def described(difference):
    """A case and its answer, in three lines."""
    case, answer = difference
    arguments, results = NAMES[case.call]
    return (f"    {case.call} of {named(arguments, case.arguments)}\n"
            f"        expected {named(results, case.expected)}\n"
            f"        got      {named(results, answer)}")


def report(name, count, found, text=described):
    """One line for the test, and the texts of the first few differences."""
    verdict = "ok" if not found else f"FAILED, {len(found)} differ"
    print(f"{name}: {count} cases, {verdict}", flush=True)
    for difference in found[:SHOWN]:
        print(text(difference))
    return not found

"""Runs tests and counts them: each is a name with a function that gives its cases and the answers to them."""

import subprocess
from typing import NamedTuple

from compare import described, differences, padded, report, unreported
from groups import ended_tests


def pairs(check):
    """The cases of a check and the answers to them, apart."""
    cases, answers = [], []
    for asked, answer in check():
        cases.append(asked)
        answers.append(padded(answer if isinstance(answer, tuple) else (answer,)))
    return cases, answers


def with_answers(checks):
    """Tests from checks, each of which gives every case with the answer to it."""
    return {name: lambda check=check: pairs(check) for name, check in checks.items()}


class Verdict(NamedTuple):
    """Whether a test passed, how many altered answers were tried, and texts about those that the comparer did not report."""

    passed: bool
    altered: int = 0
    missed: tuple = ()


def run(name, cases_and_answers):
    """Runs a test, and prints a line for it."""
    try:
        cases, answers = cases_and_answers()
    except subprocess.SubprocessError as error:
        print(f"{name}: FAILED, no answers: {error}")
        return Verdict(False)
    passed = report(name, len(cases), differences(cases, answers))
    return Verdict(passed, len(cases[0].expected), tuple(map(described, unreported(cases, answers))))


def in_order(names, ended):
    """Shows what each test printed, in the order of the names, and gives their verdicts. A test that has none has failed."""
    verdicts, printed, left = {}, {}, list(names)
    for name, verdict, text in ended:
        verdicts[name], printed[name] = verdict or Verdict(False), text
        while left and left[0] in printed:
            print(printed.pop(left.pop(0)), end="", flush=True)
    return [verdicts[name] for name in names]


def run_all(groups):
    """Runs groups of tests. Prints a line for each test, in their order, and at last the counts, and gives the exit status."""
    names = [name for tests in groups for name in tests]
    if len(set(names)) < len(names):
        raise SystemExit("two tests have one name")
    verdicts = in_order(names, ended_tests(groups, run))
    passed = [verdict.passed for verdict in verdicts]
    altered, missed = sum(verdict.altered for verdict in verdicts), [text for verdict in verdicts for text in verdict.missed]
    passed.append(report("comparer, an altered answer of each test is reported", altered, missed, text=str))
    print(f"{sum(passed)} passed, {len(passed) - sum(passed)} failed")
    return 0 if all(passed) else 1

"""Prints the table of instructions from callgrind's output: instructions.py FILE

The output has the cost of every called function by its caller, and the benchmark makes each call from a function for its client's
phase."""

import re
import sys
from collections import defaultdict

PHASES = {1: "ticket", 2: "turn", 3: "climb", 4: "blocked", 5: "claim", 6: "notify", 7: "wait", 8: "check", 10: "returning"}
CALLER = re.compile(r"in_phase::<(\d+)>$")
CALLED = re.compile(r"(nolthewyr_|linked::)(request|step|release|cancel)$")


def costs(lines):
    """Calls and their instructions by side, kind and phase. After a line 'calls=' stands one that ends with those instructions."""
    found = defaultdict(lambda: [0, 0])
    caller = called = None
    calls = 0
    for line in lines:
        name, _, value = line.rstrip("\n").partition("=")
        if name == "fn":
            caller = CALLER.search(value)
        elif name == "cfn":
            called = CALLED.search(value)
        elif name == "calls":
            calls = int(value.split()[0])
        elif calls:
            if caller and called:
                side = "Rattle" if called[1] == "nolthewyr_" else "Rust"
                cost = found[side, called[2], int(caller[1])]
                cost[0] += calls
                cost[1] += int(line.split()[-1])
            calls = 0
    return found


def total(found, side, cases):
    calls, instructions = zip(*(found[(side, *case)] for case in cases))
    return sum(calls), sum(instructions)


def row(found, name, cases):
    (calls, rattle), (rust_calls, rust) = (total(found, side, cases) for side in ("Rattle", "Rust"))
    assert calls == rust_calls > 0, f"{name}: {calls} calls of Rattle, {rust_calls} of Rust"
    return f"| {name} | {calls} | {rattle / calls:.1f} | {rust / calls:.1f} | {rattle / rust:.2f} |"


def main():
    with open(sys.argv[1]) as lines:
        found = costs(lines)
    steps = {phase: ("step", phase) for phase in PHASES}
    windows = [("request", 0), ("release", 9)] + [step for phase, step in steps.items() if phase != 4]
    print("<!-- bench/run: instructions -->")
    print("| call | calls counted | Rattle instructions a call | Rust instructions a call | Rattle / Rust |")
    print("|---|---|---|---|---|")
    for phase, step in steps.items():
        print(row(found, f"step in {phase} {PHASES[phase]}", [step]))
    print(row(found, "request", [("request", 0)]))
    print(row(found, "release", [("release", 9)]))
    print(row(found, "cancel in 1 to 8", [("cancel", phase) for phase in range(1, 9)]))
    print(row(found, "all calls of the three windows", windows))
    print("<!-- -->\n")


main()

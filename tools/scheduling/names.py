"""Phases and outcomes in words. docs/SCHEDULES.md explains each."""

PHASES = ("idle", "ticket", "turn", "climb", "blocked", "claim", "notify", "wait", "check", "held", "returning")
OUTCOMES = ("", "released", "late", "cancelled", "out of patience")
HELD = 9
RETURNING = 10
OUT_OF_PATIENCE = 4


def window(left, right):
    return f"[{left}, {right})"


def listed(words):
    """`a`, `a and b`, `a, b and c`."""
    *others, last = words
    return f"{', '.join(others)} and {last}" if others else last

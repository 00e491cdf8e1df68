"""A forecast run knows its window as quarters of a ward. It asks for the units that it has to lock, and which quarter a unit is.

ward.py [LEVELS]: the tree has 4 levels, or as many as are said.
"""

import sys

from nolthewyr import Calendar, Quarter, Refused, calendar_quarter, calendar_window

WARDS, WEEKS, DAYS = 3, 2, 7
OPENING, CLOSING, MIDNIGHT = 6 * 4, 22 * 4, 24 * 4

# Ward 0 is open from 06:00 to 22:00, the others day and night: a pair for each ward and day.
HOURS = (OPENING, CLOSING) * DAYS + (0, MIDNIGHT) * DAYS * (WARDS - 1)


def words(at):
    ward, week, day, quarter = at
    return f"ward {ward} week {week} day {day} quarter {quarter}"


def print_unit(calendar, unit):
    print(f"  unit {unit} is {words(calendar_quarter(calendar, unit))}")


def print_window(calendar, first, last):
    """The edges are what a request takes: the last quarter is locked too."""
    asked = f"{words(first)} to {words(last)}"
    try:
        left, right = calendar_window(HOURS, calendar, first, last)
    except Refused as refused:
        print(f"{asked}: refused by {refused.number}, {refused.text}")
        return
    print(f"{asked}: [{left}, {right})")
    print_unit(calendar, left)
    print_unit(calendar, right - 1)


def run(calendar):
    print_window(calendar, Quarter(2, 0, 6, 95), Quarter(2, 1, 0, 7))
    print_window(calendar, Quarter(0, 0, 0, 24), Quarter(0, 0, 0, 87))
    print_window(calendar, Quarter(0, 0, 0, 24), Quarter(0, 0, 1, 40))
    print_window(calendar, Quarter(1, 0, 0, 40), Quarter(2, 0, 0, 48))


if __name__ == "__main__":
    run(Calendar(int(sys.argv[1]) if len(sys.argv) > 1 else 4, WARDS, WEEKS))

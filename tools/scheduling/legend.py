"""What the colours, hatchings and marks of the picture mean."""

from scheduling.markup import drawing, element
from scheduling.names import HELD, PHASES
from scheduling.stretches import HELD_BY_TWO

MARKED = {
    "refused": "refused call",
    "late": "late: gives everything back",
    "out-of-patience": "out of patience: gives everything back",
    "idle-released": "idle, released",
    "idle-late": "idle, late",
    "idle-cancelled": "idle, cancelled",
    "idle-out-of-patience": "idle, out of patience",
}
# In the legend only where it happened: true clocks cannot bring it about.
BY_TWO = {HELD_BY_TWO: "held while another holds a part of it"}


def entry(name, *sample):
    """A sample with its name beside it."""
    return element("li", drawing(28, 18, name, f"The sample for: {name}.", *sample), element("span", name))


def phase_entry(phase):
    digit = element("text", phase, class_="on held" if phase == HELD else "on", x=14, y=13)
    return entry(PHASES[phase], element("rect", class_=f"bar p{phase}", x=1, y=1, width=26, height=16), digit)


def mark_entry(kind, name):
    return entry(name, element("use", class_=f"mark {kind}", href=f"#{kind}", x=14, y=9))


def within_entries():
    """By clock there are two more: what begins and ends within one clock."""
    yield entry("held within one clock", element("path", class_="instant", d="M14 1l4 8l-4 8l-4 -8z"))
    yield entry("other phases within one clock", element("path", class_="passed", d="M14 2v14"))


def legend(by_clock, by_two):
    phases = [phase_entry(phase) for phase in range(1, len(PHASES))]
    marks = [mark_entry(*each) for each in (MARKED | (BY_TWO if by_two else {})).items()]
    return element("ul", *phases, *marks, *(within_entries() if by_clock else ()), class_="legend", aria_label="Legend")

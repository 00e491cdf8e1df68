"""The chart of the clients: a row for each, with a bar for each stretch in one phase, and its marks below the bars."""

from collections import defaultdict

from scheduling.markup import element, joined, that_fits
from scheduling.names import HELD, PHASES, window
from scheduling.stretches import in_words

ROW = 30
BARS, HELD_HEIGHT, OTHER_HEIGHT = 2, 18, 14
MARKS = 25
SMALL = 10
COLOURS = 8
APART = 400


def colour(client):
    """Colours come again after so many clients; the number beside tells those apart."""
    return f"k{client % COLOURS}"


def facts(stretch):
    """What a stretch says, as attributes."""
    start, end = stretch.start, stretch.end
    return dict(data_client=stretch.client, data_phase=stretch.phase, data_left=stretch.left, data_right=stretch.right,
                data_from=start.place, data_to=end.place if end else None,
                data_from_clock=start.clock, data_to_clock=end.clock if end else None)


def bar(stretch, left, right, **place):
    """A rectangle for a stretch."""
    return element("rect", element("title", in_words(stretch)), **place, x=left, width=right - left, **facts(stretch))


def instant(stretch, shape):
    """A stretch that begins and ends at one clock: a mark, with the attributes of a bar."""
    return element("path", element("title", in_words(stretch)), class_="instant", d=shape, **facts(stretch))


def words_on(stretch, room):
    """What stands on a bar: its phase, and the window if it is held, where there is room."""
    texts = [str(stretch.phase)]
    if stretch.phase == HELD:
        texts[:0] = [f"{HELD} held {window(stretch.left, stretch.right)}", window(stretch.left, stretch.right)]
    else:
        texts[:0] = [f"{stretch.phase} {PHASES[stretch.phase]}"]
    return that_fits(texts, SMALL, room - 1)


def again_and_again(start, end):
    """Where the words of a bar stand from one end to the other: in its middle, and on a long one so often that some are always in sight."""
    times = max(1, (end - start) // APART)
    return [start + (end - start) * (2 * time + 1) // (2 * times) for time in range(times)]


def stretch_drawn(axis, stretch):
    """The bar of a stretch with its words, or its mark if it has no width. What passes within one clock is gathered elsewhere."""
    top = ROW * stretch.client + BARS
    if (place := axis.instant(stretch)) is not None:
        if stretch.phase == HELD:
            yield instant(stretch, f"M{place} {top}l4 9l-4 9l-4 -9z")
        return
    left, right = axis.begins(stretch.start), axis.ends(stretch.end)
    height = HELD_HEIGHT if stretch.phase == HELD else OTHER_HEIGHT
    above = top + HELD_HEIGHT - height
    yield bar(stretch, left, right, class_=f"bar p{stretch.phase}", y=above, height=height)
    if words := words_on(stretch, right - left):
        kind = "on held" if stretch.phase == HELD else "on"
        yield from (element("text", words, class_=kind, x=x, y=above + height // 2 + 4) for x in again_and_again(left, right))


def passed(axis, stretches):
    """A tick for each client and clock within which it went through phases, with their names."""
    found = defaultdict(list)
    for stretch in stretches:
        if stretch.phase != HELD and (place := axis.instant(stretch)) is not None:
            found[stretch.client, place].append(stretch)
    for (client, place), phases in found.items():
        names = ", ".join(f"{stretch.phase} {PHASES[stretch.phase]}" for stretch in phases)
        says = f"client {client} went through {names} within clock {phases[0].start.clock}"
        yield element("path", element("title", says), class_="passed", d=f"M{place} {ROW * client + BARS + 4}v14")


def marks_drawn(axis, marks):
    for mark in marks:
        yield element("use", element("title", mark.says), class_=f"mark {mark.kind}", href=f"#{mark.kind}", x=axis.marked(mark),
                      y=ROW * mark.row + MARKS, data_call=mark.event.place)


def rows_of(schedule, marks):
    """A row for each client, and one for those that there are not, if any was called."""
    names = [f"client {client}" for client in range(schedule.clients)]
    return names + ["no such client"] * any(mark.row == schedule.clients for mark in marks)


def names_drawn(rows, width):
    """The rows' names, with the colour that the client has among the units."""
    for row, name in enumerate(rows):
        if name.startswith("client"):
            yield element("rect", class_=f"key {colour(row)}", x=width - 16, y=ROW * row + BARS + 4, width=10, height=10)
        yield element("text", name, class_="name", x=width - 22, y=ROW * row + BARS + 13)


def rows_lined(rows, width):
    return element("path", class_="line", d="".join(f"M0 {ROW * row}h{width}" for row in range(len(rows) + 1)))


def drawn(axis, stretches, marks, rows):
    """All that is in the rows."""
    return joined([rows_lined(rows, axis.width), *(part for stretch in stretches for part in stretch_drawn(axis, stretch)),
                   *passed(axis, stretches), *marks_drawn(axis, marks)])

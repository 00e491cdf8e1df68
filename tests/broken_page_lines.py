"""What `rangepages` prints, broken on purpose: one sentence of request 2.1 or 2.4 about its lines read wrongly. Files must find each of them
out."""

from broken_pages import in_place
from model import pages, schedule

lines = pages.lines


def halves(read, opened):
    """The planners' lines, and the runs'."""
    printed = list(lines(read, opened))
    return printed[:read.clients], printed[read.clients:]


def with_header_line(read, opened):
    yield schedule.header_line(read)
    yield from lines(read, opened)


def runs_first(read, opened):
    planners, runs = halves(read, opened)
    return runs + planners


def client_by_client(read, opened):
    """Each client's row with its record behind it."""
    return (line for pair in zip(*halves(read, opened)) for line in pair)


def words_changed(change):
    """The words of a run's line changed: its client, the record's fields and the count."""
    def changed(read, opened):
        planners, runs = halves(read, opened)
        return planners + [pages.line(*change(line.split())) for line in runs]
    return changed


def row_words_changed(change):
    """The words of a planners' line changed: its client and the row's fields."""
    def changed(read, opened):
        planners, runs = halves(read, opened)
        return [pages.line(*change(line.split())) for line in planners] + runs
    return changed


def idle_left_out(read, opened):
    return (line for line in lines(read, opened) if set(line.split()[1:]) != {"0"})


def before_the_last_call(read, opened):
    return lines(read._replace(calls=read.calls[:-1]), opened)


def from_1(read, opened):
    for line in lines(read, opened):
        client, *rest = line.split()
        yield pages.line(int(client) + 1, *rest)


PRINTED = {
    "a header line": in_place("lines", with_header_line),
    "the runs' lines first": in_place("lines", runs_first),
    "client by client": in_place("lines", client_by_client),
    "the step count left out": in_place("lines", row_words_changed(lambda words: words[:-1])),
    "the step count before the over-cover": in_place("lines", row_words_changed(lambda words: [*words[:-2], words[-1], words[-2]])),
    "the step count before the phase": in_place("lines", row_words_changed(lambda words: [words[0], words[-1], *words[1:-1]])),
    "no count": in_place("lines", words_changed(lambda words: words[:-1])),
    "the count before the record": in_place("lines", words_changed(lambda words: [words[0], words[-1], *words[1:-1]])),
    "t0 before t1": in_place("lines", words_changed(lambda words: [*words[:-4], words[-3], words[-4], *words[-2:]])),
    "the third time before t0": in_place("lines", words_changed(lambda words: [*words[:-3], words[-2], words[-3], words[-1]])),
    "the third time behind the count": in_place("lines", words_changed(lambda words: [*words[:-2], words[-1], words[-2]])),
    "the third time left out": in_place("lines", words_changed(lambda words: [*words[:-2], words[-1]])),
    "no outcome": in_place("lines", words_changed(lambda words: [*words[:2], *words[3:]])),
    "idle clients left out": in_place("lines", idle_left_out),
    "the last call not made": in_place("lines", before_the_last_call),
    "clients numbered from 1": in_place("lines", from_1),
}

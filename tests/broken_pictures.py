"""Pictures with one thing wrong: each edit of a page, and the check that must find it out."""

from xml.etree.ElementTree import SubElement

import picture_checks as checks
import picture_clocks as clocks
import picture_looks as looks
from picture_pages import HELD


def bars(page, chart, phase=HELD, tag="rect"):
    """The elements of a chart's bars in a phase, or of its instants."""
    return [each for each in page.named(chart).iter(tag) if each.get("data-phase") == str(phase)]


def left_out(page, element):
    next(parent for parent in page.root.iter() if element in list(parent)).remove(element)


def changed(name, by=1):
    """An edit of the number in an attribute."""
    return lambda element: element.set(name, str(int(element.get(name)) + by))


def to_another(elements, names):
    """Gives the first of some elements these attributes of the last."""
    for name in names:
        elements[0].set(name, elements[-1].get(name))


def labels_exchanged(page, identity):
    one, *_, other = page.named(identity).iter("text")
    one.text, other.text = other.text, one.text


def drawn_as_bar(page):
    """An instant becomes a bar of one pixel."""
    element = bars(page, "units", tag="path")[0]
    element.tag = "rect"
    for name, value in {"x": 1, "y": 10, "width": 1, "height": 16}.items():
        element.set(name, str(value))


def title_left_out(page, element):
    element.remove(next(child for child in element if child.tag in ("title", "desc")))


def fetches(tag, **attributes):
    return lambda page: SubElement(page.root, tag, attributes)


def says(tag, text):
    """An edit that adds an element with this text."""
    def edit(page):
        SubElement(page.root, tag).text = text
    return edit


def held(chart, edit):
    return lambda page: edit(bars(page, chart)[0])


def last_of(page, *tags):
    return [each for each in page.root.iter() if each.tag in tags][-1]


def waiting_left_out(page):
    left_out(page, next(each for each in page.root.iter("li") if checks.WAITS.fullmatch(each.text or "")))


def shape_of(page, kind, other):
    """One kind of mark gets the shape of another."""
    page.named(kind).set("d", page.named(other).get("d"))


def text_changed(page, tag, old, new):
    """The first element of this kind says something else; it must have said the old."""
    element = next(page.root.iter(tag))
    before, after = element.text.split(old, 1)
    element.text = before + new + after


OF_CLIENTS, OF_UNITS = checks.held_in("clients"), checks.held_in("units")

# What is wrong, the check that must find it out, and the edit that makes it so.
EDITS = {
    "a held bar of the clients left out": (OF_CLIENTS, lambda page: left_out(page, bars(page, "clients")[0])),
    "a held bar of the units left out": (OF_UNITS, lambda page: left_out(page, bars(page, "units")[-1])),
    "an instant of the clients left out": (OF_CLIENTS, lambda page: left_out(page, bars(page, "clients", tag="path")[0])),
    "an instant of the units left out": (OF_UNITS, lambda page: left_out(page, bars(page, "units", tag="path")[0])),
    "an instant drawn as a bar": (OF_UNITS, drawn_as_bar),
    "another client in a held bar": (OF_CLIENTS, held("clients", changed("data-client"))),
    "another client in a bar of the units": (OF_UNITS, held("units", changed("data-client"))),
    "another left edge": (OF_UNITS, held("units", changed("data-left"))),
    "another right edge": (OF_CLIENTS, held("clients", changed("data-right", -1))),
    "held a call earlier": (OF_UNITS, held("units", changed("data-from", -1))),
    "held a call longer": (OF_CLIENTS, held("clients", changed("data-to"))),
    "held a clock longer": (OF_UNITS, held("units", changed("data-to-clock"))),
    "another phase": (checks.phases, lambda page: bars(page, "clients", 3)[0].set("data-phase", "5")),
    "a bar of another phase left out": (checks.phases, lambda page: left_out(page, bars(page, "clients", 5)[0])),
    "a bar in another client's row": (checks.rows, held("clients", changed("y", 30))),
    "two bars of a row that overlap": (checks.rows, lambda page: changed("width", 500)(bars(page, "clients", 3)[0])),
    "two names exchanged": (checks.rows, lambda page: labels_exchanged(page, "clients-names")),
    "two bars of the units that overlap": (checks.apart, lambda page: to_another(bars(page, "units"), ("x", "y", "width", "height"))),
    "an instant within a bar": (checks.apart, held("units", lambda element: [element.set(name, "0") for name in "xy"]
                                                   + [element.set(name, "9999") for name in ("width", "height")])),
    "a held bar of the clients moved": (checks.times, held("clients", changed("x"))),
    "a bar of the units moved": (checks.times, held("units", changed("x", -1))),
    "a bar of the units too wide": (checks.times, held("units", changed("width"))),
    "a bar of the units too high": (checks.edges, held("units", changed("height"))),
    "a bar of the units moved down": (checks.edges, held("units", changed("y"))),
    "two edges exchanged": (checks.edges, lambda page: labels_exchanged(page, "units-names")),
    "a mark left out": (checks.marks, lambda page: left_out(page, next(page.named("clients").iter("use")))),
    "a mark of another kind": (checks.marks, lambda page: next(page.named("clients").iter("use")).set("href", "#late")),
    "a mark in another row": (checks.marks_in_place, lambda page: changed("y", 30)(next(page.named("clients").iter("use")))),
    "a mark at another time": (checks.marks_in_place, lambda page: changed("x", 900)(next(page.named("clients").iter("use")))),
    "a row of the table left out": (checks.in_table, lambda page: left_out(page, last_of(page, "tr"))),
    "another clock in the table": (checks.in_table, lambda page: setattr(last_of(page, "tr")[2], "text", "77")),
    "a bar without a title": (checks.described, held("units", lambda element: element.remove(element[0]))),
    "an svg without a description": (checks.described, lambda page: title_left_out(page, last_of(page, "svg"))),
    "an svg that is no image": (checks.described, lambda page: last_of(page, "svg").set("role", "none")),
    "a head of the table that heads nothing": (checks.described, lambda page: last_of(page, "th").set("scope", "")),
    "a page in no language": (checks.described, lambda page: page.root.set("lang", "")),
    "two main headings": (checks.described, says("h1", "again")),
    "a picture from outside": (checks.by_itself, fetches("img", src="picture.png")),
    "a link to another page": (checks.by_itself, fetches("a", href="http://example.org")),
    "a style from outside": (checks.by_itself, says("style", "@import 'style.css'")),
    "a font from outside": (checks.by_itself, says("style", "@font-face { src: url(font.woff) }")),
    "a script": (checks.by_itself, says("script", "1")),
    "a shape that is nowhere": (checks.by_itself, fetches("use", href="#nowhere")),
    "another count of calls": (checks.summed_up, lambda page: setattr(next(page.root.iter("li")), "text", "1 calls, 0 refused")),
    "the mark of patience in the shape of the late one": (looks.marks_unlike, lambda page: shape_of(page, "out-of-patience", "late")),
    "the mark of patience without its colour": (looks.marks_unlike, lambda page: text_changed(page, "style", ", .mark.out-of-patience", "")),
    "a mark of the chart in another colour": (looks.marks_unlike, lambda page: next(page.named("clients").iter("use")).set("class", "p9")),
    "another mark in the legend": (looks.marks_unlike, lambda page: next(page.root.iter("use")).set("href", "#late")),
    "another patience": (looks.settings, lambda page: text_changed(page, "p", "patience ", "patience 1")),
    "another wait": (looks.settings, lambda page: text_changed(page, "p", "wait ", "wait 1")),
    "somebody who waits left out": (checks.summed_up, waiting_left_out),
}
def entry_left_out(heading):
    """An edit that leaves the first entry below a heading out."""
    def edit(page):
        words = clocks.below(page, heading)[0]
        left_out(page, next(each for each in page.root.iter("li") if each.text == words))
    return edit


def frame(edit):
    return lambda page: edit(next(each for each in page.named("units").iter("rect") if each.get("class") == "by-two"))


def marks_of_two(page):
    return [each for each in page.named("clients").iter("use") if each.get("href") == "#held-by-two"]


def entry_of_two(page):
    """The entry of the legend."""
    return next(each for each in page.root.iter("li") if any(use.get("href") == "#held-by-two" for use in each.iter("use")))


def clocks_labelled(page):
    """A row of clocks below the calls."""
    SubElement(page.named("times-names"), "text", {"x": "106", "y": "29"}).text = "clock"


# The same of clients' own clocks, and of what two of them hold.
BY_TWO = {
    "the clocks labelled as one for all": (clocks.counted, clocks_labelled),
    "not said that each has its own clock": (clocks.said_of_clocks, entry_left_out("Clocks")),
    "not said who holds beside whom": (clocks.said_of_two, entry_left_out("Held by two at the same time")),
    "another call in a frame": (clocks.frames, frame(changed("data-call"))),
    "another client in a frame": (clocks.frames, frame(changed("data-later"))),
    "a frame too narrow": (clocks.frames, frame(changed("width", -1))),
    "a frame moved down": (clocks.frames, frame(changed("y"))),
    "a legend without the mark of two holders": (clocks.in_legend, lambda page: left_out(page, entry_of_two(page))),
    "a mark of two holders left out": (checks.marks, lambda page: left_out(page, marks_of_two(page)[0])),
    "a mark of two holders as one of lateness": (checks.marks, lambda page: marks_of_two(page)[0].set("href", "#late")),
    "two bars moved apart": (checks.apart, held("units", changed("y", 500))),
}
BY_CALL_ONLY = {"the calls' numbers moved": (checks.times, lambda page: [changed("x")(each) for each in page.named("times").iter("text")])}

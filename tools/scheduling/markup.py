"""Elements of a page, written so that a reader of HTML and a reader of XML see the same. What is not markup already is escaped."""

from html import escape

# These are written `<rect/>`. Any other element gets an end of its own, since HTML takes `<td/>` for a beginning.
WITHOUT_CONTENT = {"meta", "path", "rect", "use"}

# How wide a letter is, of its size: that of a wide letter in a wide font, so that a label never needs more room than it was given.
LETTER = 0.64


class Markup(str):
    """Text that is markup already."""


def written(content):
    return content if isinstance(content, Markup) else escape(str(content))


def joined(parts):
    return Markup("".join(map(written, parts)))


def attribute(name, value):
    """Python's names have _ for -, and one at the end where the name itself is taken, as in `class_`."""
    return f' {name.rstrip("_").replace("_", "-")}="{escape(str(value))}"'


def element(name, /, *content, **attributes):
    """An element with its content. Attributes that are None are left out."""
    said = "".join(attribute(*each) for each in attributes.items() if each[1] is not None)
    if name in WITHOUT_CONTENT and not content:
        return Markup(f"<{name}{said}/>")
    return Markup(f"<{name}{said}>{joined(content)}</{name}>")


def drawing(width, height, title, says, *content, **attributes):
    """An svg of this size, with what it shows in words for those who cannot see it."""
    return element("svg", element("title", title), element("desc", says), *content, **attributes, role="img",
                   width=width, height=height, viewBox=f"0 0 {width} {height}")


def width_of(text, size):
    """The room that a text of this size needs."""
    return len(text) * LETTER * size


def that_fits(texts, size, room):
    """The first of some texts, from the longest down, that there is room for; nothing if there is none."""
    return next((text for text in texts if width_of(text, size) <= room), "")

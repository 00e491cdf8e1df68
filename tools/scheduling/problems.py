"""What can go wrong, and how it is said."""

SHOWN = 80


class Wrong(Exception):
    """What is wrong with what was read: a message for each place, in order."""

    def __init__(self, *messages):
        super().__init__("\n".join(messages))
        self.messages = messages


class Failed(Exception):
    """What could not be read, run or written."""


def parsed(line, parse, wrong):
    """What a line says by `parse`, or None if it is wrong, with its messages added to the others."""
    try:
        return parse(*line)
    except Wrong as problem:
        wrong += problem.messages
        return None


def all_parsed(asked):
    """What each of these says, a way to parse and what it is given; or all that is wrong with them, the same thing once."""
    wrong = []
    found = [parsed(line, parse, wrong) for parse, *line in asked]
    if wrong:
        raise Wrong(*dict.fromkeys(wrong))
    return found


def reason(error):
    """The system's reason for a failed call, without the file's name, which the message has already."""
    return error.strerror or str(error)


def escaped(letter):
    return letter if letter.isprintable() else letter.encode("unicode_escape", "surrogatepass").decode()


def shown(text):
    """A text as it is quoted in a message: its first 80 characters, with escapes for those that cannot be printed."""
    cut = "".join(map(escaped, text[:SHOWN]))
    return f"`{cut}` .." if len(text) > SHOWN else f"`{cut}`"

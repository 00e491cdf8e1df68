"""Numbers as a text says them, each with the greatest that its field takes."""

import re

from scheduling.problems import Wrong, all_parsed, shown

U16, U32, U64 = 2 ** 16 - 1, 2 ** 32 - 1, 2 ** 64 - 1
# Of these every number but 0 is right. A 0 is packed all the same, since the file can hold it.
AT_LEAST_1 = "wait", "patience"


def number_of(place, name, word, greatest):
    """The number that a word says, if it is one from 0 to the greatest that its field takes. Leading zeros change nothing."""
    digits = word.lstrip("0") or word[-1:]
    if not re.fullmatch("[0-9]{1,20}", digits) or int(digits) > greatest:
        but = ", and 0 is refused by 1" if name in AT_LEAST_1 else ""
        raise Wrong(f"line {place}: {name} must be a number from 0 to {greatest}{but}; got {shown(word)}")
    return int(digits)


def numbers_of(place, named, words):
    """The numbers that these words say, by the names and greatest values of their fields; every wrong one is named."""
    return all_parsed((number_of, place, name, word, greatest) for (name, greatest), word in zip(named.items(), words))

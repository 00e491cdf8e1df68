"""A table for reading, in columns."""


def in_columns(table, to_the_right):
    """The rows of words with each column as wide as its widest entry; the columns at these places have their words at their right edge."""
    columns = []
    for place, column in enumerate(zip(*table)):
        width = max(map(len, column))
        columns.append([word.rjust(width) if place in to_the_right else word.ljust(width) for word in column])
    return ["  ".join(row).rstrip() for row in zip(*columns)]

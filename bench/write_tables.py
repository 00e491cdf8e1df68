"""Puts the tables of a benchmark's output in place of those in a document: write_tables.py OUTPUT DOCUMENT

A table stands between '<!-- bench/run: NAME -->' and '<!-- -->' in both."""

import re
import sys

TABLE = re.compile(r"<!-- bench/run: (\w+) -->\n.*?<!-- -->", re.DOTALL)


def main():
    output, document = sys.argv[1:]
    with open(output) as file:
        measured = {table[1]: table[0] for table in TABLE.finditer(file.read())}
    with open(document) as file:
        text = file.read()
    with open(document, "w") as file:
        file.write(TABLE.sub(lambda table: measured.get(table[1], table[0]), text))


main()

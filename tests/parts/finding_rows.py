"""Reads the rows of tests/finding_rows: octets, and all findings that tlvdump-show has in them.

A row is a line with four columns and ` | ` between them: octets, in the notation of parts/row_files.py, and the findings by
the rules of BER, of DER and of CER, in the order in which they are written. A finding is the offset of its element and a code, or
a code alone if the offset is 0. There are commas between findings. `-` is no finding, and `=` is the same as the column before.
A line that begins with `#` is a comment.
"""
import os

from parts.row_files import octets_of
from second_opinion.show_findings import TEXTS

RULES = ("ber", "der", "cer")


class Row:
    """A row. `text` has its octets as they are written, and `lines` the lines of a check for each rule set."""

    def __init__(self, line):
        self.text, *columns = line.split(" | ")
        self.octets, self.lines = octets_of(self.text), {}
        for rules, column in zip(RULES, columns, strict=True):
            same = self.lines.get(RULES[RULES.index(rules) - 1])
            self.lines[rules] = same if column == "=" else lines_of(column)


def lines_of(column):
    """Returns the lines of a check for the findings in a column."""
    found = [] if column == "-" else [it.rpartition(" ") for it in column.split(", ")]
    return [f"{offset or 0} {code} {TEXTS[code]}" for offset, _, code in found]


def rows_of(root):
    """Returns the rows of all files."""
    folder, rows = os.path.join(root, "tests", "finding_rows"), []
    for name in sorted(os.listdir(folder)):
        with open(os.path.join(folder, name), encoding="ascii") as file:
            rows += [Row(line) for line in file.read().splitlines() if line and not line.startswith("#")]
    return rows

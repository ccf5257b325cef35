"""Reads the rows of tests/rows and tests/show_rows: words, octets, and what is written and reported.

A row is a group of lines that ends before an empty line. The first character of a line says what it is:

    # text             a comment; the last one before the words is the title of the row
    $ dump --limit 1   the words, as a shell reads them (`names` stands for the row's names file)
    @ 1.2.840 us       a line of the names file
    < 30 80 (00)*3 "a" octets of the input: in hexadecimal, repeated, or as text in quotation marks
    | text             a line that is written
    > 30 80            octets that are written
    ! text             the message on standard error, or a line of it
    % 1                the number of findings, if neither the lines nor the message say it
    = 2                the status (0 if the row has no such line)

A number in front of `|` or `>`, as in `7| text`, is the number of octets of the input after which the line, or the
octets, are written: nothing of them is written before. Either all such lines of a row have a number, or none has.
A group of lines without words is a heading, which consists only of comments.
"""
import os
import re
import shlex

TOKEN = re.compile(r'\s+|(?P<octet>[0-9a-f]{2})|"(?P<text>[^"]*)"|(?P<open>\()|\)\*(?P<times>\d+)')
WRITTEN = re.compile(r"(?P<come>\d*)(?P<kind>[|>]) ?(?P<rest>.*)")
FINDING = re.compile(rb" *\d+ +[BSDC]\d\d: ")


def parts_of(text):
    """Parses octets in the notation of a row. Returns pairs of octets and how often they are repeated."""
    parts, group, at = [], None, 0
    while at < len(text):
        it = TOKEN.match(text, at)
        if not it:
            raise ValueError(f"no octets: {text[at:]}")
        at = it.end()
        if it["open"]:
            if group is not None:
                raise ValueError(f"a group inside a group: {text}")
            group = b""
        elif it["times"]:
            parts.append((group, int(it["times"])))
            group = None
        elif it["octet"] or it["text"] is not None:
            octets = bytes.fromhex(it["octet"]) if it["octet"] else it["text"].encode()
            if group is None:
                parts.append((octets, 1))
            else:
                group += octets
    if group is not None:
        raise ValueError(f"a group without an end: {text}")
    return parts


def octets_of(text):
    """Parses octets in the notation of a row. Returns the octets."""
    return b"".join(octets * times for octets, times in parts_of(text))


class Row:
    """A row. `written` has a pair for each of its lines: the number in front (or None), and the octets."""

    def __init__(self, place):
        self.place, self.title, self.words, self.names = place, "", None, None
        self.parts, self.written, self.message = [], [], ""
        self.counted, self.status = None, 0

    def read(self, line):
        """Parses a line of the row."""
        kind, rest = line[0], line[2:]
        written = WRITTEN.fullmatch(line)
        if written:
            is_line, rest = written["kind"] == "|", written["rest"]
            octets = rest.encode() + b"\n" if is_line else octets_of(rest)
            self.written.append((int(written["come"]) if written["come"] else None, octets))
        elif kind == "$":
            self.words = shlex.split(rest)
        elif kind == "@":
            self.names = (self.names or b"") + rest.encode() + b"\n"
        elif kind == "<":
            self.parts += parts_of(rest)
        elif kind == "!":
            self.message += f"\n{rest}" if self.message else rest
        elif kind == "%":
            self.counted = int(rest)
        elif kind == "=":
            self.status = int(rest)
        elif kind == "#" and self.words is None:
            self.title = rest
        elif kind != "#":
            raise ValueError(f"{self.place}: {line}")

    @property
    def given(self):
        """Returns the octets of the input."""
        return b"".join(octets * times for octets, times in self.parts)

    @property
    def out(self):
        """Returns the octets that are written."""
        return b"".join(octets for _, octets in self.written)

    def is_timed(self):
        """Returns whether each line that is written has the number of input octets after which it is written."""
        return all(come is not None for come, _ in self.written)

    def findings(self):
        """Returns the number of findings that the run reports."""
        match = re.fullmatch(r"findings: (\d+)", self.message)
        if self.counted is not None:
            return self.counted
        if match:
            return int(match[1])
        lines = self.out.splitlines() if self.words[0] in ("dump", "check") else []
        return sum(self.words[0] == "check" or FINDING.match(line) is not None for line in lines)


def rows_in(row, lines):
    """Returns a list of the row, which is empty if the lines are a heading. Stops if the lines are neither."""
    if row.words is None:
        if any(not line.startswith("#") for line in lines):
            raise ValueError(f"{row.place}: a row without words")
        return []
    if not row.is_timed() and any(come is not None for come, _ in row.written):
        raise ValueError(f"{row.place}: some lines have no number of octets")
    return [row]


def rows_of(path):
    """Returns the rows of a file."""
    with open(path, encoding="utf-8") as file:
        text = file.read().split("\n")
    rows, lines, row = [], [], None
    for number, line in enumerate([*text, ""], 1):
        if line:
            row = row or Row(f"{os.path.basename(path)}:{number}")
            row.read(line)
            lines.append(line)
        elif row:
            rows += rows_in(row, lines)
            row, lines = None, []
    return rows


def files(root, folder="rows"):
    """Returns the rows of each file in a folder of tests, by file name."""
    folder = os.path.join(root, "tests", folder)
    names = sorted(os.listdir(folder))
    return {name.removesuffix(".rows"): rows_of(os.path.join(folder, name)) for name in names}

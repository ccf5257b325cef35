"""Runs the four commands: docs/USE.md, and docs/FORMAT.md from "What a dump writes" on."""
import re
from dataclasses import dataclass

from second_opinion import findings, show_findings, values
from second_opinion.reading import Padding, Reading

FAULTS = {
    "F01": "empty input",
    "F02": "input ends inside an encoding",
    "F03": "end-of-contents outside an indefinite element",
    "F04": "octet 00 not followed by 00",
    "F05": "no end-of-contents inside the enclosing length",
    "F06": "more than nine octets of tag number",
    "F07": "length octet ff is reserved",
    "F08": "indefinite length of a primitive",
    "F09": "length of 2^40 or more",
    "F10": "more than 128 open elements",
    "F11": "element runs past the enclosing length",
    "F12": "first octet of a wrapped BIT STRING is not 00",
}
LARGEST_LIMIT, LARGEST_OFFSET, MOST_NAMED = (1 << 32) - 1, 1 << 40, 16


class Refused(Exception):
    """The words or the names file are refused, with this message and status 4."""


@dataclass
class Options:
    """The options of a command. A value is the text in the words, or None if it is not given.

    The names file and FILE can be opened, unless no file has their name or it is too long for the system. With `text`
    there is text beside pairs, and with `all_findings` the findings of tlvdump-show alone are looked for, too.
    """

    command: str
    rules: str | None = None
    limit: str | None = None
    pure: bool = False
    names: bool = False
    offset: str | None = None
    contents: bool = False
    inside: str | None = None
    padding: bool = False
    text: bool = False
    all_findings: bool = False
    names_open: bool = True
    file_opens: bool = True


@dataclass
class Values:
    """The values that the texts of the options stand for."""

    rules: str
    limit: int
    offset: int
    inside: list


@dataclass
class Result:
    """The status, the octets that are written, and the message."""

    status: int
    out: bytes
    message: str


def in_range(text, largest):
    """Returns whether the text is a number up to the largest, of 1 to 13 decimal digits (docs/USE.md)."""
    return re.fullmatch("[0-9]{1,13}", text) is not None and int(text) <= largest


def values_of(options):
    """Returns the values. The first of rules, limit, offset and inside that is out of range is reported (U2)."""
    rules = options.rules if options.rules is not None else "ber" if options.command == "dump" else "der"
    limit = options.limit if options.limit is not None else str(LARGEST_LIMIT)
    offset = options.offset if options.offset is not None else "0"
    inside = options.inside.split(",") if options.inside is not None else []
    numbers = [int(text) if in_range(text, LARGEST_OFFSET) else None for text in inside]
    rising = None not in numbers and all(one < next_one for one, next_one in zip(numbers, numbers[1:]))
    for name, fine in [
        ("--rules", rules in findings.LETTERS),
        ("--limit", in_range(limit, LARGEST_LIMIT)),
        ("--offset", in_range(offset, LARGEST_OFFSET)),
        ("--inside", rising and len(inside) <= MOST_NAMED),
    ]:
        if not fine:
            raise Refused(f"U2 value out of range: {name}")
    return Values(rules, int(limit), int(offset), numbers)


def run(options, octets, names):
    """Returns the result of a command on an input. `names` is a function that reads the names file."""
    try:
        given = values_of(options)
        known = known_names(options, names)
    except Refused as refused:
        return Result(4, b"", str(refused))
    if not options.file_opens:
        return Result(3, b"", "E5 cannot open the file")
    return answer(options, given, known, octets)


def answer(options, given, known, octets):
    """Returns the result of a command with these values on an input. `known` has names by arcs."""
    reading = Reading(octets, given.inside, options.padding)
    if options.command == "extract":
        return extract(reading, given.offset, options.contents)
    if options.command == "indef":
        return ending(reading, [], 0, indef(reading, reading.items))
    report = Report(options, given, known, octets)
    report.siblings(reading.items, None, 0)
    return ending(reading, given.inside, report.found, "".join(report.lines).encode())


def known_names(options, names):
    """Returns the names by arcs, if there is a names file. A names file that cannot be opened is N5."""
    if not options.names:
        return {}
    if not options.names_open:
        raise Refused("N5 names file not read")
    return names()


def fault_text(fault):
    """Returns the message of a fault."""
    return f"fault at {fault.offset}: {fault.code} {FAULTS[fault.code]}"


def ending(reading, inside, found, out):
    """Returns the result. A fault takes precedence over E7 and findings, and E7 over findings."""
    if reading.fault:
        return Result(2, out, fault_text(reading.fault))
    wrappers = {element.offset for element in reading.elements() if element.wraps}
    missing = [offset for offset in inside if offset not in wrappers]
    if missing:
        return Result(1, out, f"E7 no string to read at offset {missing[0]}")
    return Result(1, out, f"findings: {found}") if found else Result(0, out, "")


class Report:
    """Collects the lines of `dump` or `check`, and counts the findings."""

    def __init__(self, options, given, known, octets):
        """Begins a report with the options, their values, the names, and the input."""
        self.is_check, self.pure, self.text = options.command == "check", options.pure, options.text
        self.rules, self.limit, self.known = given.rules, given.limit, known
        self.octets, self.all_findings = octets, options.all_findings
        self.lines, self.found = [], 0

    def line(self, level, text, offset=None, middle=""):
        """Adds a line of a dump: the first 17 columns (unless `--pure`), the indentation, and the text."""
        if self.is_check:
            return
        columns = " " * 17 if offset is None else f"{offset:>8} {middle:>6}: "
        self.lines.append(f"{'' if self.pure else columns}{'  ' * level}{text}\n")

    def findings(self, element, level, codes):
        """Counts the findings, and adds a line for each unless `--pure`."""
        self.found += len(codes)
        for code in codes:
            if self.is_check:
                self.lines.append(f"{element.offset} {code} {show_findings.TEXTS[code]}\n")
            elif not self.pure:
                self.line(level, show_findings.TEXTS[code], element.offset, code)

    def siblings(self, items, parent, level):
        """Adds the lines of elements and padding that follow each other."""
        previous = None
        for item in items:
            if isinstance(item, Padding):
                self.line(level, "padding", item.offset, "pad")
            else:
                self.element(item, parent, previous, level)
                previous = item

    def element(self, element, parent, previous, level):
        """Adds the findings on the header, the lines of the element, and the findings on the whole element."""
        finder = show_findings if self.all_findings else findings
        self.findings(element, level, finder.of_header(element, parent, previous, self.rules))
        if element.opens():
            self.opened(element, level)
        else:
            self.primitive(element, level)
        if self.all_findings:
            self.findings(element, level, show_findings.of_end(self.octets, element, parent, previous, self.rules))
        else:
            self.findings(element, level, findings.of_end(element, self.rules))

    def opened(self, element, level):
        """Adds the lines of a constructed element or a wrapper (What follows the tag)."""
        length = "indef" if element.length is None else element.length
        opening = " wraps {" if element.wraps else " {"
        self.line(level, values.tag_text(element) + opening, element.offset, length)
        self.siblings(element.children, element, level + 1)
        if element.end is not None and element.length is None:
            self.line(level, "}", element.end - 2, "end")
        elif element.end is not None:
            self.line(level, "}")

    def primitive(self, element, level):
        """Adds the line of a primitive and its rows, of which `--limit` may replace some by `...` (Layout)."""
        text, rows = values.shown(element, self.known)
        if text is None:
            return
        if self.text:
            text, rows = values.with_text(text), [values.with_text(row) for row in rows]
        tag = values.tag_text(element)
        self.line(level, f"{tag} {text}" if text else tag, element.offset, element.length)
        for row in rows[: self.limit]:
            self.line(level + 1, row)
        if len(rows) > self.limit:
            self.line(level + 1, "...")


def extract(reading, offset, contents_alone):
    """Returns the result of `extract`. Nothing after the element counts."""
    chosen = next((element for element in reading.elements() if element.offset == offset), None)
    if chosen is None:
        if reading.fault:
            return Result(2, b"", fault_text(reading.fault))
        return Result(1, b"", f"E4 no element at offset {offset}")
    whole = chosen.end is not None
    start = chosen.start if contents_alone else chosen.offset
    end = chosen.end if whole else reading.kept
    if whole and contents_alone and chosen.length is None:
        end -= 2
    out = reading.octets[start:end]
    return Result(0, out, "") if whole else Result(2, out, fault_text(reading.fault))


def indef(reading, items):
    """Returns the output of `indef`: the indefinite form of each constructed element."""
    out = b""
    for item in items:
        if isinstance(item, Padding):
            out += reading.octets[item.offset : item.end]
        elif item.constructed:
            end = b"\0\0" if item.end is not None else b""
            out += item.identifier + b"\x80" + indef(reading, item.children) + end
        else:
            out += reading.octets[item.offset : item.start] + item.contents
    return out

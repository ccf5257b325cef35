"""Checks that the rows of tests/show_rows distinguish wrong ways to open strings from the right one.

Each wrong way is a change of the second opinion (tests/second_opinion/opened.py). The second opinion must give the
result of each row, and with each change it must fail for some row.
"""
from contextlib import ExitStack
from unittest.mock import patch

from parts.row_files import files
from second_opinion import opened, show_findings, showing
from second_opinion.names import read_names
from second_opinion.reading import BIT_STRING, Reading

FLAGS = {"--pure": "pure", "--closed": "closed", "--no-text": "no_text", "--contents": "contents", "--padding": "padding"}
VALUES = {"--rules": "rules", "--limit": "limit", "--offset": "offset", "--as": "as_form"}


def show_of(row):
    """Returns the options of a row, whose input is standard input."""
    show, words = showing.Show("dump", files=[showing.File("-", row.given, True)]), list(row.words)
    while words:
        word = words.pop(0)
        if word in FLAGS:
            setattr(show, FLAGS[word], True)
        elif word in VALUES:
            setattr(show, VALUES[word], words.pop(0))
        elif word == "--names":
            words.pop(0)
        else:
            show.job = word.removeprefix("--")
    if show.offset is not None:
        show.job = "offset"
    return show


def gives(row, names):
    """Returns whether the second opinion gives the result of a row.

    A wrong way may find a broken string without a fault, or with F12. Such a string has no reasons.
    """
    known = read_names(row.names) if row.names is not None else names
    try:
        got = showing.run(show_of(row), lambda: known)
    except (AttributeError, KeyError):
        return False
    return (got.status, got.out, got.said.decode().removesuffix("\n")) == (row.status, row.out, row.message)


def has_clean_ends(reading, codes):
    """Returns whether a reading has no fault, or one of these, and no finding in its outermost elements."""
    is_fine = reading.fault is None or reading.fault.code in codes
    return is_fine and bool(reading.items) and all(it.constructed or it.end and opened.is_clean(it) for it in reading.items)


def is_clean_by_rules(element):
    """Returns whether an element of any class has no finding of BER."""
    found = opened.findings
    return not found.of_header(element, None, None, "ber") + found.of_end(element, "ber")


def is_clean_by_all_findings(element):
    """Returns whether an element has none of all the findings of BER that tlvdump-show looks for."""
    found = show_findings.of_header(element, None, None, "ber") + show_findings.of_end(b"", element, None, None, "ber")
    return element.tag_class == 0 and not found


def all_inner_octets(string):
    """Returns the octets in a string, whatever the unused bits."""
    return string.contents[1:] if string.is_universal(BIT_STRING) else string.contents


class NotInside(opened.Strings):
    """Does not look inside a string that is opened."""

    def look(self, items, parent, base, level):
        if base == 0:
            super().look(items, parent, base, level)


class NotTheLast(opened.Strings):
    """Loses the last string if the input ends with it."""

    def __init__(self, octets, padding=False):
        super().__init__(octets, padding)
        last = [it for it in Reading(octets, padding=padding).elements() if it.end == len(octets)][-1:]
        self.opened = [offset for offset in self.opened if not last or offset < last[0].offset]


class NotWithAFault(opened.Strings):
    """Opens nothing in an input that has a fault."""

    def __init__(self, octets, padding=False):
        super().__init__(octets, padding)
        if Reading(octets, padding=padding).fault:
            self.opened, self.broken = [], []


class NotAfterBroken(opened.Strings):
    """Opens nothing after a string that breaks."""

    def string(self, string, parent, base, level):
        if not self.broken:
            super().string(string, parent, base, level)


class NoneBroken(opened.Strings):
    """Takes a string that breaks for a random one."""

    def faults(self):
        return iter(())


def without_own_depth(octets, *more, around=0, **others):
    """Reads octets as if the string that holds them did not count as open."""
    return Reading(octets, *more, around=max(around - 1, 0), **others)


WRONG = [
    ("opens a string with a fault inside", [(opened, "is_openable", lambda it: has_clean_ends(it, ("F03", "F11", "F07")))]),
    ("opens one that ends early", [(opened, "is_openable", lambda it: has_clean_ends(it, ("F02",)))]),
    ("forgets the depth of the string itself", [(opened, "Reading", without_own_depth)]),
    ("opens segments of many", [(opened, "is_segment", lambda parent: False)]),
    ("opens no segment", [(opened, "is_only_segment", lambda parent: False)]),
    ("opens 80 12 ..", [(opened, "is_clean", is_clean_by_rules)]),
    ("opens nothing that has a finding of tlvdump-show alone", [(opened, "is_clean", is_clean_by_all_findings)]),
    ("opens what has findings", [(opened, "is_clean", lambda element: element.tag_class == 0)]),
    ("skips what is inside an opened string", [(showing, "Strings", NotInside)]),
    ("takes a BIT STRING with unused bits", [(opened, "inner_octets", all_inner_octets)]),
    ("loses the last string of an input", [(showing, "Strings", NotTheLast)]),
    ("stops at the first fault of the input", [(showing, "Strings", NotWithAFault)]),
    ("stops at a string that breaks", [(showing, "Strings", NotAfterBroken)]),
    ("takes a broken string for a random one", [(showing, "Strings", NoneBroken)]),
    ("takes each SEQUENCE for one of its size", [(opened, "MOST_OFF", 9)]),
    ("takes 24 octets for many", [(opened, "MOST_SMALL", 23)]),
    ("knows no extension", [(opened, "EXTENSIONS", ())]),
]


def test(part):
    """Counts a test for each row, and for each wrong way."""
    names = {"2.5.29.15": "keyUsage", "2.5.4.3": "commonName"}
    rows = [row for of_file in files(part.root, "show_rows").values() for row in of_file]
    for row in rows:
        part.expect(f"the second opinion: {row.place}", gives(row, names))
    for what, changes in WRONG:
        with ExitStack() as stack:
            for owner, name, wrong in changes:
                stack.enter_context(patch.object(owner, name, wrong))
            unlike = [row.place for row in rows if not gives(row, names)]
        part.expect(f"a row refuses what {what}", unlike)

"""Reads a names file, as "Names file" in docs/FORMAT.md describes it."""
import re

from second_opinion.commands import Refused

ARC = rb"(0|[1-9][0-9]*)"
IDENTIFIER = re.compile(rb"([01]\.([0-9]|[123][0-9])|2\." + ARC + rb")(\." + ARC + rb")*")
MOST_OCTETS, MOST_ENTRIES, MOST_IN_A_LINE = 1_048_576, 65_536, 400


def read_names(octets):
    """Returns the names by arcs. A line may be refused with N1, N2 or N3, and a file that is too large with N4."""
    names = {}
    if len(octets) > MOST_OCTETS:
        raise Refused("N4 names file too large")
    for number, line in enumerate(octets.split(b"\n"), 1):
        if len(line) > MOST_IN_A_LINE:
            raise Refused("N4 names file too large")
        line = line.removesuffix(b"\r").strip(b" \t")
        if line and not line.startswith(b"#"):
            arcs, name = entry(line, number)
            if arcs in names:
                raise Refused(f"N3 line {number}: repeated")
            if len(names) == MOST_ENTRIES:
                raise Refused("N4 names file too large")
            names[arcs] = name
    return names


def entry(line, number):
    """Returns the arcs and the name of a line."""
    arcs, *rest = re.split(rb"[ \t]+", line, maxsplit=1)
    if not IDENTIFIER.fullmatch(arcs):
        raise Refused(f"N1 line {number}: not an object identifier")
    name = rest[0] if rest else b""
    if not re.fullmatch(rb"[\x20-\x7e]+", name):
        raise Refused(f"N2 line {number}: no usable name")
    return arcs.decode(), name.decode("ascii")

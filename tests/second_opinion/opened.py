"""Finds the strings that tlvdump-show opens, and those that it calls broken, as docs/FORMAT.md describes them."""
from dataclasses import dataclass

from second_opinion import findings
from second_opinion.reading import BIT_STRING, MOST_OPEN, OCTET_STRING, UNIVERSAL, Element, Reading

OBJECT_IDENTIFIER, SEQUENCE = 6, 16
# The first octets of the object identifiers of extensions: those below 2.5.29 and 1.3.6.1.5.5.7.1.
EXTENSIONS = (bytes.fromhex("551d"), bytes.fromhex("2b060105050701"))
HOLDERS = {0x30: "SEQUENCE", 0x31: "SET"}
MOST_SMALL, MOST_OFF = 24, 8
NULL = b"\x05\x00"


@dataclass
class Broken:
    """A broken string, with the words for what it looks like."""

    offset: int
    looks: str


class Strings:
    """The strings of an input: `opened` has the offsets of those
    that are opened, in rising order, and `broken` the broken ones.
    """

    def __init__(self, octets, padding=False):
        """Reads the octets with no string named, and examines the elements."""
        self.octets, self.padding = octets, padding
        self.opened, self.broken = [], []
        self.look(Reading(octets, padding=padding).items, None, 0, 0)

    def look(self, items, parent, base, level):
        """Examines the elements that `parent` holds.
        Their offsets count from `base`, and `level` elements are open around them.
        """
        for element in items:
            if not isinstance(element, Element):
                continue
            if element.constructed:
                self.look(element.children, element, base, level + 1)
            elif element.end is not None and element.is_universal(BIT_STRING, OCTET_STRING):
                self.string(element, parent, base, level)

    def string(self, string, parent, base, level):
        """Opens a whole string and examines the elements in it, or keeps the string if it is broken."""
        inner = inner_octets(string)
        if inner is None or is_segment(parent) and not is_only_segment(parent):
            return
        reading = Reading(inner, around=level + 1)
        if level < MOST_OPEN and is_openable(reading):
            self.opened.append(base + string.offset)
            self.look(reading.items, None, base + string.end - len(inner), level + 1)
        elif level == MOST_OPEN or inner and reading.fault:
            looks = look_of(inner) or extension_value(string, parent)
            if looks:
                self.broken.append(Broken(base + string.offset, looks))

    def faults(self):
        """Yields each broken string with the fault of the input in
        which this string is named too and octets follow the input.
        """
        for broken in self.broken:
            yield broken, Reading(self.octets + NULL, [*self.opened, broken.offset], self.padding).fault


def inner_octets(string):
    """Returns the octets that may be encodings, or None: the
    contents, or of a BIT STRING those after an initial octet 00.
    """
    if string.is_universal(OCTET_STRING):
        return string.contents
    return string.contents[1:] if string.contents[:1] == b"\0" else None


def is_openable(reading):
    """Returns whether these are sound encodings, and each outermost one is constructed or has no finding of BER."""
    return reading.fault is None and all(element.constructed or is_clean(element) for element in reading.items)


def is_clean(element):
    """Returns whether the element is a primitive of the universal class without a finding of BER."""
    found = findings.of_header(element, None, None, "ber") + findings.of_end(element, "ber")
    return element.tag_class == UNIVERSAL and not found


def is_segment(parent):
    """Returns whether the element is a constructed string, so that the elements directly in it are segments."""
    return parent is not None and parent.constructed and findings.is_string(parent)


def is_only_segment(parent):
    """Returns whether this constructed string is whole and has one segment."""
    return parent.end is not None and len(parent.children) == 1


def look_of(inner):
    """Returns the words for more than 24 octets that begin with a SEQUENCE or a SET of about their size, or None."""
    if len(inner) <= MOST_SMALL or inner[0] not in HOLDERS:
        return None
    count = inner[1] & 0x7F if inner[1] & 0x80 else 0
    if inner[1] in (0x80, 0xFF) or len(inner) < 2 + count:
        return None
    length = int.from_bytes(inner[2 : 2 + count], "big") if count else inner[1]
    is_near = abs(2 + count + length - len(inner)) <= MOST_OFF
    return f"begins as a {HOLDERS[inner[0]]} of its size" if is_near else None


def extension_value(string, parent):
    """Returns the words for the value of a certificate's extension, or None."""
    if parent is None or not parent.constructed or not parent.is_universal(SEQUENCE) or parent.end is None:
        return None
    first, last = parent.children[0], parent.children[-1]
    is_named = not first.constructed and first.is_universal(OBJECT_IDENTIFIER) and is_of_extension(first.contents)
    return "is the value of an extension" if is_named and last is string else None


def is_of_extension(contents):
    """Returns whether an object identifier is below one of EXTENSIONS."""
    return any(contents.startswith(it) and len(contents) > len(it) for it in EXTENSIONS)

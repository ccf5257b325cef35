"""Reads an input as "What is read" in docs/FORMAT.md describes it: a tree of elements, and the fault if there is one.
"""
from dataclasses import dataclass, field

UNIVERSAL, APPLICATION, CONTEXT, PRIVATE = range(4)
BIT_STRING, OCTET_STRING = 3, 4
MOST_OPEN = 128


class Fault(Exception):
    """The octet at this offset is refused, or the input ends there (F01, F02)."""

    def __init__(self, offset, code):
        """Keeps the offset and the code."""
        super().__init__(offset, code)
        self.offset, self.code = offset, code


@dataclass
class Padding:
    """A run of octets 00 at the top level."""

    offset: int
    end: int


@dataclass
class Element:
    """An element whose header is whole. `end` is None until its last octet is read."""

    offset: int
    tag_class: int
    constructed: bool
    number: int
    start: int  # the offset of the first contents octet
    identifier: bytes
    length: int | None  # None: the indefinite form
    length_octets: bytes
    wraps: bool = False
    contents: bytes = b""  # of a primitive that is no wrapper: as many as were read
    children: list = field(default_factory=list)
    end: int | None = None

    def is_universal(self, *numbers):
        """Returns whether the tag is universal with one of these numbers."""
        return self.tag_class == UNIVERSAL and self.number in numbers

    def opens(self):
        """Returns whether the element is one of the "open constructed elements and wrappers"."""
        return self.constructed or self.wraps


class Reading:
    """The reading of an input.

    items: elements and padding at the top level. fault: None if the ending is Done. kept: how many octets are in whole
    headers, in contents, and in whole pairs 00 00, but not in an unfinished header or a single 00.
    """

    def __init__(self, octets, inside=(), padding=False, around=0):
        """Reads the octets. The strings at the offsets `inside` are
        wrappers, and `around` elements are open around the input.
        """
        self.octets, self.inside, self.padding, self.around = octets, set(inside), padding, around
        self.at = self.kept = 0
        self.items, self.fault = [], None
        try:
            self.read_top()
        except Fault as fault:
            self.fault = fault

    def read_top(self):
        """Case 5 at the top level: 00 is padding if that is allowed, and otherwise F03. F01 if there is no element."""
        while self.at < len(self.octets):
            if self.octets[self.at] != 0:
                self.read_element(self.items, None, self.around)
            elif self.padding:
                self.read_padding()
            else:
                raise Fault(self.at, "F03")
        if not any(isinstance(item, Element) for item in self.items):
            raise Fault(self.at, "F01")

    def read_padding(self):
        """Padding: a run of 00 is one item."""
        offset = self.at
        while self.at < len(self.octets) and self.octets[self.at] == 0:
            self.at += 1
        self.kept = self.at
        self.items.append(Padding(offset, self.at))

    def next_octet(self, bound, code):
        """Returns the next octet without taking it. F02 at the end of the input, and `code` at the bound."""
        if self.at == len(self.octets):
            raise Fault(self.at, "F02")
        if self.at == bound:
            raise Fault(self.at, code)
        return self.octets[self.at]

    def header_octet(self, bound):
        """Takes an octet of a header (case 4: F11 if the bound is reached)."""
        octet = self.next_octet(bound, "F11")
        self.at += 1
        return octet

    def read_element(self, siblings, bound, opened):
        """Contents: a primitive is as long as its length says. A definite element is whole when it is filled."""
        element = self.read_header(bound, opened)
        siblings.append(element)
        self.kept = self.at
        if element.length is None:
            self.read_to_the_end_octets(element, bound, opened + 1)
        elif element.opens():
            self.read_filling(element, element.start + element.length, opened + 1)
        else:
            self.read_primitive(element)
        element.end = self.at

    def read_header(self, bound, opened):
        """Identifier and Length. Case 4: F10 and F11 refuse the octet that completes the header."""
        offset, first = self.at, self.header_octet(bound)
        constructed = first & 0x20 != 0
        number = first & 0x1F
        if number == 0x1F:
            number = self.read_high_form(bound)
        identifier = self.octets[offset : self.at]
        length = self.read_length(bound, constructed)
        length_octets = self.octets[offset + len(identifier) : self.at]
        shape = first >> 6, constructed, number
        element = Element(offset, *shape, self.at, identifier, length, length_octets)
        element.wraps = self.is_wrapper(element)
        if element.opens() and opened == MOST_OPEN:
            raise Fault(self.at - 1, "F10")
        if bound is not None and length is not None and self.at + length > bound:
            raise Fault(self.at - 1, "F11")
        return element

    def read_high_form(self, bound):
        """Identifier: base 128, with bit 8 set in all octets but the last. F06 at a ninth octet with bit 8 set."""
        number = 0
        for count in range(1, 10):
            octet = self.header_octet(bound)
            if count == 9 and octet & 0x80:
                raise Fault(self.at - 1, "F06")
            number = number << 7 | octet & 0x7F
            if octet & 0x80 == 0:
                break
        return number

    def read_length(self, bound, constructed):
        """Length: short, indefinite (None) or long. F07, F08 and F09."""
        first = self.header_octet(bound)
        if first < 0x80:
            return first
        if first == 0xFF:
            raise Fault(self.at - 1, "F07")
        if first == 0x80:
            if not constructed:
                raise Fault(self.at - 1, "F08")
            return None
        length = 0
        for to_follow in reversed(range(first & 0x7F)):
            octet = self.header_octet(bound)
            if octet != 0 and to_follow >= 5:
                raise Fault(self.at - 1, "F09")
            length = length << 8 | octet
        return length

    def is_wrapper(self, element):
        """Strings that hold encodings: a primitive OCTET STRING,
        or a primitive BIT STRING with contents, that is named.
        """
        if element.constructed or element.offset not in self.inside:
            return False
        is_bits = element.is_universal(BIT_STRING) and element.length > 0
        return is_bits or element.is_universal(OCTET_STRING)

    def read_primitive(self, element):
        """Case 1: any contents octet of a primitive is taken."""
        end = element.start + element.length
        element.contents = self.octets[self.at : end]
        self.at += len(element.contents)
        self.kept = self.at
        if self.at < end:
            raise Fault(self.at, "F02")

    def read_filling(self, element, end, opened):
        """Reads elements until a definite element or a wrapper is filled. Case 2: F12. Case 5: 00 is F03."""
        if element.wraps and element.is_universal(BIT_STRING):
            if self.next_octet(None, "") != 0:
                raise Fault(self.at, "F12")
            self.at += 1
            self.kept = self.at
        while self.at < end:
            if self.next_octet(None, "") == 0:
                raise Fault(self.at, "F03")
            self.read_element(element.children, end, opened)

    def read_to_the_end_octets(self, element, bound, opened):
        """Reads elements up to 00 00. Cases 3 and 5: F05 at the bound, F04 if no second 00 follows."""
        while self.next_octet(bound, "F05") != 0:
            self.read_element(element.children, bound, opened)
        self.at += 1
        if self.next_octet(bound, "F05") != 0:
            raise Fault(self.at, "F04")
        self.at += 1
        self.kept = self.at

    def elements(self):
        """Returns all elements, each before the elements in it."""
        return list(in_order(self.items))


def in_order(items):
    """Yields these elements and those in them, each before the elements in it."""
    for item in items:
        if isinstance(item, Element):
            yield item
            yield from in_order(item.children)

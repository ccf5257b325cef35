"""Reads changed octets from a header on, without keeping elements: the tries of docs/WHY.md. It is much faster than
Reading.
"""
from second_opinion.reading import BIT_STRING, MOST_OPEN, OCTET_STRING

# More than any end of an element.
LONGEST = 1 << 60


class Walk:
    """The reading of octets from an offset on.

    fault: its offset and code, or None. top: the offset after the last element that ended at the top level, or None.
    """

    def __init__(self, octets, padding=False, inside=(), at=0, ends=()):
        """Reads the octets from `at` on. `ends` has the ends of the elements that are open there, outermost first,
        None for one of indefinite length. The strings at the offsets `inside` are wrappers.
        """
        self.octets, self.padding, self.inside = octets, padding, inside
        self.ends, self.bounds = list(ends), [end for end in ends if end is not None]
        self.at, self.top, self.fault, self.is_empty = at, None, None, not at
        while self.fault is None and (self.at < len(octets) or self.ends):
            self.step()
        if self.fault is None and self.is_empty:
            self.fault = len(octets), "F01"

    def step(self):
        """Ends the innermost element if it is full. Otherwise reads what begins here."""
        ends, octets, at = self.ends, self.octets, self.at
        if ends and ends[-1] == at:
            self.bounds.pop()
            self.close()
        elif at == len(octets):
            self.fault = at, "F02"
        elif ends and ends[-1] is None and self.bounds and self.bounds[-1] == at:
            self.fault = at, "F05"
        elif octets[at]:
            self.header()
        elif ends and ends[-1] is None:
            self.end_octets()
        elif ends or not self.padding:
            self.fault = at, "F03"
        else:
            self.at += 1

    def close(self):
        """Ends the innermost element."""
        self.ends.pop()
        if not self.ends:
            self.top = self.at

    def end_octets(self):
        """Reads the second of two octets 00."""
        at = self.at + 1
        if at == len(self.octets):
            self.fault = at, "F02"
        elif self.bounds and self.bounds[-1] == at:
            self.fault = at, "F05"
        elif self.octets[at]:
            self.fault = at, "F04"
        else:
            self.at += 2
            self.close()

    def header(self):
        """Reads a header, and the contents of a primitive."""
        octets, offset = self.octets, self.at
        bound = self.bounds[-1] if self.bounds else LONGEST
        refused, start, number, length = size_of(octets, offset)
        stop = min(bound, len(octets))
        if (start if refused is None else start + 1) > stop:
            self.fault = stop, "F02" if stop == len(octets) else "F11"
            return
        if refused:
            self.fault = start, refused
            return
        is_string = number == OCTET_STRING or number == BIT_STRING and length
        wraps = offset in self.inside and not octets[offset] & 0xE0 and is_string
        opens = octets[offset] & 0x20 or wraps
        if opens and len(self.ends) == MOST_OPEN:
            self.fault = start - 1, "F10"
        elif length is not None and start + length > bound:
            self.fault = start - 1, "F11"
        elif not opens:
            self.primitive(start + length)
        else:
            self.open(start, length, wraps and number == BIT_STRING)

    def open(self, start, length, is_bits):
        """Opens an element. In a BIT STRING an octet 00 comes first."""
        self.at, self.is_empty = start, False
        self.ends.append(None if length is None else start + length)
        if length is not None:
            self.bounds.append(start + length)
        if is_bits and start == len(self.octets):
            self.fault = start, "F02"
        elif is_bits and self.octets[start]:
            self.fault = start, "F12"
        elif is_bits:
            self.at += 1

    def primitive(self, end):
        """Skips the contents of a primitive."""
        if end > len(self.octets):
            self.fault = len(self.octets), "F02"
            return
        self.at, self.is_empty = end, False
        if not self.ends:
            self.top = end


def size_of(octets, offset):
    """Reads the header at an offset. Returns the code of the fault, or None; the offset of the octet that is refused,
    or the one after the header; the tag number; and the length, or None for the indefinite one. A header that the
    input cuts off ends behind the input.
    """
    cut = None, len(octets) + 1, 0, None
    first, at = octets[offset], offset + 1
    number = first & 0x1F
    if number == 31:
        number = 0
        while True:
            if at == len(octets):
                return cut
            if at == offset + 9 and octets[at] & 0x80:
                return "F06", at, 0, None
            number, at = number << 7 | octets[at] & 0x7F, at + 1
            if not octets[at - 1] & 0x80:
                break
    if at == len(octets):
        return cut
    said = octets[at]
    if said < 0x80:
        return None, at + 1, number, said
    if said == 0xFF:
        return "F07", at, 0, None
    if said == 0x80:
        return (None, at + 1, number, None) if first & 0x20 else ("F08", at, 0, None)
    end = at + 1 + (said & 0x7F)
    for place in range(at + 1, min(end - 5, len(octets))):
        if octets[place]:
            return "F09", place, 0, None
    if end > len(octets):
        return cut
    return None, end, number, int.from_bytes(octets[at + 1 : end], "big")

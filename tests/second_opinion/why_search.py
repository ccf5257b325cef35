"""Looks for changes that would make an input parse: docs/WHY.md from "Another length" on."""
import itertools
import re

from second_opinion.reading import Element, Reading
from second_opinion.tries import Walk

MOST_SEARCHED, MOST_OFF, MOST_TRIED = 1 << 20, 5, 1024
# The last offset of another start, and the fewest octets from there on.
LAST_START, LEAST_FROM_START = 256, 10
SPACE = 0x20
# The fewest octets that stand in place of others.
LEAST_RUN = 24
# The most octets of an input in which all lengths are tried, and up to so many headers named. In a longer one it is one.
MOST_WIDE, MOST_NAMED = 1 << 18, 3
# The most octets after the first of length octets that are tried in reverse order.
MOST_REVERSED = 5
# The octets that the tries for the next record may read in a run.
MOST_READ = 1 << 24
# From a record on the input parses far if the next fault is so many octets behind it, and behind that of the input.
FAR = 4096
# Outermost elements begin with many different octets if these are at least as many as the one and fewer than the other.
LEAST_KINDS, TOO_MANY_KINDS = 3, 64
CHUNK = re.compile(rb"([0-9a-fA-F]{1,8})\r\n")
# The most octets of a header: 1 and 9 of the tag, and 1 and 126 of the length.
LONGEST_HEADER = 137
UTF_16 = "It begins as text in UTF-16 does. Try: iconv -f UTF-16 -t UTF-8 FILE | tlvdump-show"
CAPTURE = "It begins as a capture of packets (pcap) does: export the octets of a packet first."
MORE = "If one octet more stood after the header at offset {}, all would parse: an octet of its contents may be missing."
FEWER = "If one octet fewer stood after the header at offset {}, all would parse: an octet may have been put in there."
KINDS = (
    (b"PK\x03\x04", "It begins as a ZIP file does: unpack it first."),
    (b"\x1f\x8b", "It begins as a file of gzip does. Try: gzip -dc FILE | tlvdump-show"),
    (b"BZh", "It begins as a file of bzip2 does. Try: bzip2 -dc FILE | tlvdump-show"),
    (b"%PDF", "It begins as a PDF file does."),
    (b"<", "It begins with the character <, as XML and HTML do."),
    (b"openssh-key", "It is a key of OpenSSH, which is no encoding by X.690."),
    (b"\xff\xfe", UTF_16),
    (b"\xfe\xff", UTF_16),
    (b"\xd4\xc3\xb2\xa1", CAPTURE),
    (b"\x4d\x3c\xb2\xa1", CAPTURE),
    (b"\x0a\x0d\x0d\x0a", CAPTURE),
    (b"\xfe\xed\xfe\xed", "It begins as a key store of Java (JKS) does: export what you need first."),
    (b"HTTP/", "It begins with the header of an answer of HTTP. Try: sed '1,/^.$/d' FILE | tlvdump-show"),
    (b"\xef\xbb\xbf", "It begins with the byte order mark of a text in UTF-8. Try: tail -c +4 FILE | tlvdump-show"),
)
START = ("From offset {} on it parses: what stands in front may be a header of the file or of the record, or damaged. "
         "Try: tail -c +{} FILE | tlvdump-show")
RECORD = "From offset {} on it parses: the next record may begin there. Try: tail -c +{} FILE | tlvdump-show"
RECORD_UP_TO = ("The next record may begin at offset {}: from there on it parses up to another fault, at offset {}. "
                "Try: tail -c +{} FILE | tlvdump-show")
KINDS_LINE = ("It has {} outermost elements, which begin with {} different octets. Primitive: {}. "
              "Octets that are no encodings may parse so by chance.")
CHUNKS = ("It begins with a chunk of HTTP and its size. Try: fetch it anew with a program that joins the chunks, "
          "as curl does.")


def so_many(count):
    """Returns a number of octets, with the word."""
    return f"{count} octet" if count == 1 else f"{count} octets"


def end_of(element):
    """Returns the end of the contents by a definite length, or None."""
    return None if element.length is None else element.start + element.length


class Search:
    """The search for a change that would make an input parse."""

    def __init__(self, octets, padding, inside=(), is_wide=None, is_cut=False):
        """Keeps the input. The strings at the offsets `inside` are wrappers. A window is cut if more octets follow it; `is_wide`
        says whether all lengths are tried in it.
        """
        self.octets, self.padding, self.inside, self.is_cut = octets, padding, inside, is_cut
        self.is_short, self.is_wide = len(octets) <= MOST_SEARCHED, len(octets) <= MOST_WIDE if is_wide is None else is_wide

    def would_parse(self, element, ends, place, new, lost):
        """Returns whether the input would parse with other octets at a place: `new`, and not the first `lost` ones
        that stand there. Only octets from the header of this element on are read; `ends` has the ends of the elements
        around it. It is enough that a window that is cut parses up to its end, with a whole element in front.
        """
        changed = self.octets[:place] + new + self.octets[place + lost :]
        walk = Walk(changed, self.padding, self.inside, element.offset, ends)
        return walk.fault is None or self.is_cut and walk.fault[1] == "F02" and walk.top is not None

    def other_lengths(self, candidates, open_ones):
        """Returns the first elements with which the input would parse if their length were another, with that length.
        """
        named, most = [], MOST_NAMED if self.is_wide else 1
        for it, ends in candidates if self.is_short else ():
            for length in self.lengths(it, open_ones) if len(named) < most else ():
                said = spelled(it.length_octets, length)
                if self.would_parse(it, ends, it.start - len(said), said, len(said)):
                    named.append((it, length))
                    break
        return named

    def lengths(self, it, open_ones):
        """Returns the lengths that are tried for an element, in their order. They fit its length octets."""
        if it.length is None:
            return []
        count = len(it.length_octets) - 1
        lengths = [it.length + sign * off for off in range(1, MOST_OFF + 1) for sign in (1, -1)]
        if self.is_wide:
            lengths += [it.length ^ 1 << bit for bit in range(8 * count if count else 7)]
            lengths += [int.from_bytes(it.length_octets[:0:-1], "big")] if 1 < count <= MOST_REVERSED else []
            lengths += [it.length + 256, it.length - 256]
            lengths += [self.end_around(it, open_ones) - it.start] if it.constructed else []
        return [length for length in lengths if 0 <= length < (1 << 8 * count if count else 128)]

    def end_around(self, it, open_ones):
        """Returns the end of the innermost open element of definite length in front of this one, or else of the input.
        """
        around = [end_of(holder) for holder in open_ones if holder.offset < it.offset and holder.length is not None]
        return min([*around[-1:], len(self.octets)])

    def other_count(self, candidates):
        """Returns the line about the first candidate after whose header one octet more, or one octet fewer, would make
        everything parse. There is none if the last octet alone is left over.
        """
        if not self.is_short or parses(self.octets[:-1], self.padding):
            return []
        for it, ends in candidates:
            if it.length and self.would_parse(it, ends, it.start, b"\0", 0):
                return [MORE.format(it.offset)]
            if self.would_parse(it, ends, it.start, b"", 1):
                return [FEWER.format(it.offset)]
        return []


def line_of_lengths(named, end=None):
    """Returns the line about these elements, each with another length. All would parse, or all up to the offset `end`."""
    places = [f"at offset {it.offset} said {so_many(length)} and not {it.length}" for it, length in named]
    mended = "all" if end is None else f"all up to offset {end}"
    return [f"If the header {', or that '.join(places)}, {mended} would parse."] if places else []


def parses(octets, padding):
    """Returns whether these octets parse."""
    return Walk(octets, padding).fault is None


def header_at(octets, offset):
    """Returns the element whose whole header begins at an offset, with its offsets in the input, or None."""
    items = Reading(octets[offset : offset + LONGEST_HEADER]).items
    if not items or not isinstance(items[0], Element):
        return None
    element = items[0]
    element.offset, element.start = element.offset + offset, element.start + offset
    return element


def sizes_agree(octets, padding, offset):
    """Returns whether the outermost elements from an offset on end with the input, by what their headers say."""
    while offset < len(octets):
        element = header_at(octets, offset)
        if padding and octets[offset] == 0:
            offset += 1
        elif element is None:
            return False
        elif element.length is None:
            return True
        else:
            offset = element.start + element.length
    return offset == len(octets)


def spelled(length_octets, length):
    """Returns the length octets for another length, in the same form and number."""
    count = len(length_octets) - 1
    return length_octets[:1] + length.to_bytes(count, "big") if count else bytes([length])


def other_kind(octets):
    """Returns the line about another kind of file."""
    lines = [line for front, line in KINDS if octets.startswith(front)]
    size = CHUNK.match(octets)
    if size and octets.startswith(b"\r\n", size.end() + int(size[1], 16)):
        lines.append(CHUNKS)
    return lines[:1]


def line_of_kinds(octets, padding):
    """Returns the line about the outermost elements of octets that parse, if they begin with many different octets."""
    offset, first = 0, []
    while offset < len(octets):
        if padding and octets[offset] == 0:
            offset += 1
            continue
        element = header_at(octets, offset)
        if element.length is None:
            return []
        first.append((octets[offset], element.constructed))
        offset = end_of(element)
    kinds = len({octet for octet, _ in first})
    if not LEAST_KINDS <= kinds < TOO_MANY_KINDS:
        return []
    return [KINDS_LINE.format(len(first), kinds, sum(not constructed for _, constructed in first))]


def other_start(octets, padding, top, fault):
    """Returns the line about the first other offset from which on the input parses. `top` is the top end, and `fault` the
    offset of the fault.
    """
    first = header_at(octets, 0)
    is_right = first is not None and seems_right(octets, first)
    if first and ends_near(octets, first) or is_right and top:
        return []
    first = fault + 1 if is_right else 1
    starts = [it for it in range(first, min(LAST_START + 1, len(octets) - LEAST_FROM_START + 1)) if is_start(octets, it, padding)]
    alone = [it for it in starts if end_of(header_at(octets, it)) == len(octets)]
    return [START.format(offset, offset + 1) for offset in alone + starts][:1]


def is_start(octets, offset, padding):
    """Returns whether a constructed element begins at an offset, not with a space, from which on the input parses."""
    element = header_at(octets, offset)
    return octets[offset] != SPACE and element and element.constructed and parses(octets[offset:], padding)


def ends_near(octets, first):
    """Returns whether the first element ends with the input, or, if it is constructed, at a distance from the end of the
    input of at most a quarter of its octets.
    """
    if first.length is None:
        return False
    distance = abs(end_of(first) - len(octets))
    return distance == 0 or first.constructed and 4 * distance <= len(octets)


def overwritten(octets, fault):
    """Returns the line about octets 00 or ff in a row around the fault."""
    if fault >= len(octets) or octets[fault] not in (0, 0xFF):
        return []
    octet = octets[fault : fault + 1]
    front, behind = octets[:fault], octets[fault:]
    start = len(front.rstrip(octet))
    end = len(octets) - len(behind.lstrip(octet))
    if end - start < LEAST_RUN:
        return []
    return [f"The octets from offset {start} on are {octet.hex()} alone: {end - start}. They may stand in place of others."]


def next_record(octets, padding, first_fault, top, count):
    """Returns the line about the first offset after the top end that is like it, and from which on the input parses, or
    parses far behind its fault. `count` is the number of blocks of the run.
    """
    damaged = header_at(octets, top)
    end = end_of(damaged) if damaged else None
    if not top or end is not None and abs(end - len(octets)) < 2:
        return []
    alike = (it for it in range(top + 1, len(octets)) if octets[it] in (octets[top], octets[0]))
    tried = list(itertools.islice(alike, MOST_TRIED))
    if end is not None and end < len(octets):
        tried = [it for it in (end, end - 1, end + 1) if top < it and octets[it] in (octets[top], octets[0])] + tried
    left = MOST_READ // count
    for offset in tried:
        element = header_at(octets, offset)
        if left > 0 and element and element.constructed:
            fault = Walk(octets[offset:], padding).fault
            if fault is None:
                return [RECORD.format(offset, offset + 1)]
            if fault[1] != "F02" and fault[0] >= FAR and offset + fault[0] - first_fault >= FAR:
                return [RECORD_UP_TO.format(offset, offset + fault[0], offset + 1)]
            left -= fault[0]
    return []


def seems_right(octets, first):
    """Returns whether the first element is constructed and begins with whole elements."""
    return first.constructed and begins_with_elements(octets[first.start : end_of(first)])


def begins_with_elements(octets):
    """Returns whether these octets begin with a whole element."""
    items = Reading(octets).items
    return bool(items) and items[0].end is not None

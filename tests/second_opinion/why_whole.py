"""Looks for what was done to an input as a whole: docs/WHY.md, "What was done to the input as a whole"."""
from second_opinion.why_search import end_of, header_at, parses, so_many

LEAST_MOVED = 256
MOST_BETWEEN = 8
ANEW = "Try: fetch it anew, in binary."
LATIN_1 = ("It was taken for a text in Latin-1 and written in UTF-8. "
           "Try: fetch it anew, in binary, or: iconv -f UTF-8 -t ISO-8859-1 FILE | tlvdump-show")
LINE_ENDS = f"It was taken for a text: octets 0d were put in front of 0a. {ANEW}"
REPLACED = ("It has the octets ef bf bd, with which programs replace what is no UTF-8: it was copied as a text. "
            f"{ANEW}")
TEXT = f"It was taken for a text. {ANEW}"


def line(octets, padding):
    """Returns the line about what was done to the input as a whole."""
    return undone_change(octets, padding) or moved(octets, padding) or spaced(octets) or trace(octets)


def is_trace(text):
    """Returns whether this is the line of a trace of a text."""
    return "It was taken for a text and written in UTF-16." in text or "It was taken for a text." in text or (
        "It was taken for a text, or the highest bits" in text)


def undone_change(octets, padding):
    """Returns the line about a change that was made to the input as to a text, and without which it would parse."""
    try:
        characters = octets.decode("utf-8").encode("latin-1")
    except UnicodeError:
        characters = octets
    if characters != octets and parses(characters, padding):
        return [LATIN_1]
    if b"\r\n" in octets and parses(octets.replace(b"\r\n", b"\n"), padding):
        return [LINE_ENDS]
    return []


def replaced(octets):
    """Returns the line about octets that stand in place of others."""
    return [REPLACED] if b"\xef\xbf\xbd" in octets else []


def turned(octets, count):
    """Returns the octets, with each group of so many in reverse order; fewer at the end stay."""
    whole = len(octets) - len(octets) % count
    return b"".join(octets[at : at + count][::-1] for at in range(0, whole, count)) + octets[whole:]


def moved(octets, padding):
    """Returns the line about what was done to all octets, and without which the input would parse."""
    if len(octets) < LEAST_MOVED:
        return []
    in_groups = "Its octets stand in reverse order in {0}s: if each {0} were turned round, all would parse. {1}"
    pairs = in_groups.format("pair", "Try: dd conv=swab status=none <FILE | tlvdump-show")
    reverse = f"Its octets stand in reverse order: read from the last to the first, all would parse. {ANEW}"
    bits = f"Its bits are inverted: if each were turned round, all would parse. {ANEW}"
    ways = ((turned(octets, 2), pairs), (turned(octets, 4), in_groups.format("four", ANEW)), (octets[::-1], reverse),
            (bytes(it ^ 0xFF for it in octets), bits))
    return [text for was, text in ways if parses(was, padding)][:1]


def is_utf_8(octets):
    """Returns whether octets are characters of UTF-8, by their numbers of octets. The last may be cut off."""
    wanted = 0
    for octet in octets:
        if wanted:
            if not 0x80 <= octet <= 0xBF:
                return False
            wanted -= 1
        elif 0x80 <= octet < 0xC2 or octet > 0xF4:
            return False
        else:
            wanted = (octet >= 0xC2) + (octet >= 0xE0) + (octet >= 0xF0)
    return True


def trace(octets):
    """Returns the line about what shows that the input was taken for a text."""
    size = len(octets)
    beyond = sum(it > 0xBF for it in octets)
    if beyond >= 8 and octets[1] > 0xBF and is_utf_8(octets):
        return [f"It is UTF-8 throughout, with characters beyond ASCII: {beyond}. {TEXT}"]
    feeds = octets.count(b"\n")
    if feeds >= 3 and 100 * feeds <= size and octets.count(b"\r\n") == feeds:
        return [f"Each of its octets 0a stands behind 0d: {feeds}. {TEXT}"]
    is_high = 16 * sum(it > 0x7F for it in octets) >= size
    if size >= 200 and is_high and any(20 * octets[at::2].count(0) >= 9 * size for at in (0, 1)):
        return [f"Nearly every second of its octets is 00. It was taken for a text and written in UTF-16. {ANEW}"]
    marks = octets.count(b"?")
    if size < 128 or max(octets) > 0x7F:
        return []
    if 10 * marks >= size:
        return [f"None of its octets is above 7f, and many are the character ?: {marks}. {TEXT}"]
    if octets[0] & 0x20 and octets[1] in (1, 2):
        return [f"None of its octets is above 7f: {size}. It was taken for a text, or the highest bits were cleared. {ANEW}"]
    return []


def end_at(octets, offset):
    """Returns the end of the whole constructed element of definite length that parses at an offset, or None."""
    element = header_at(octets, offset)
    if element is None or not element.constructed or element.length is None:
        return None
    end = end_of(element)
    return end if end <= len(octets) and parses(octets[offset:end], False) else None


def ends_of(octets, first, gap):
    """Returns the ends of the encodings from an offset on, between each two of which so many octets stand. Returns none
    if it is not so up to the end of the input.
    """
    ends, offset = [], first
    while True:
        end = end_at(octets, offset)
        if end is None:
            return []
        ends.append(end)
        if end in (len(octets), len(octets) - gap):
            return ends
        offset = end + gap


def spaced(octets):
    """Returns the line about encodings between which other octets stand."""
    if parses(octets, True):
        return []
    for gap in range(1, MOST_BETWEEN + 1):
        for first in (0, gap):
            ends = ends_of(octets, first, gap)
            if len(ends) > 1 and octets[ends[0]] != octets[first]:
                between = octets[ends[0] : ends[0] + gap].hex(" ")
                return [f"There are encodings from offset {first} on: {len(ends)}. Between each two of them other octets "
                        f"stand: {so_many(gap)}, first {between} at offset {ends[0]}. Try: tail -c +{first + 1} FILE | "
                        f"head -c {ends[0] - first} | tlvdump-show, for the first."]
    return []

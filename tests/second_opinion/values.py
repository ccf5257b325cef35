"""Shows tags and contents, as "What a dump writes" and "Values" in docs/FORMAT.md describe them."""
from second_opinion.reading import APPLICATION, CONTEXT, UNIVERSAL

# The table of tags.
TYPES = {
    1: "BOOLEAN", 2: "INTEGER", 3: "BIT STRING", 4: "OCTET STRING", 5: "NULL", 6: "OBJECT IDENTIFIER",
    7: "ObjectDescriptor", 8: "EXTERNAL", 9: "REAL", 10: "ENUMERATED", 11: "EMBEDDED PDV", 12: "UTF8String",
    13: "RELATIVE-OID", 14: "TIME", 16: "SEQUENCE", 17: "SET", 18: "NumericString", 19: "PrintableString",
    20: "TeletexString", 21: "VideotexString", 22: "IA5String", 23: "UTCTime", 24: "GeneralizedTime",
    25: "GraphicString", 26: "VisibleString", 27: "GeneralString", 28: "UniversalString",
    29: "CHARACTER STRING", 30: "BMPString", 31: "DATE", 32: "TIME-OF-DAY", 33: "DATE-TIME", 34: "DURATION",
    35: "OID-IRI", 36: "RELATIVE-OID-IRI",
}
BOOLEAN, INTEGER, BIT_STRING, OBJECT_IDENTIFIER, ENUMERATED, UTF8, RELATIVE_OID = 1, 2, 3, 6, 10, 12, 13
UNIVERSAL_STRING, BMP_STRING = 28, 30
CHARACTERS = {7, UTF8, *range(18, 29), BMP_STRING}
PAIRS_IN_A_ROW, OCTETS_IN_A_ROW = 16, 64
LEAST_TEXT = len("61 62 63")  # three pairs


def tag_text(element):
    """Returns the name of the tag, or its class and number (Tag)."""
    number = element.number
    if element.tag_class == UNIVERSAL:
        return TYPES.get(number, f"[UNIVERSAL {number}]")
    if element.tag_class == CONTEXT:
        return f"[{number}]"
    return f"[APPLICATION {number}]" if element.tag_class == APPLICATION else f"[PRIVATE {number}]"


def most_octets(element):
    """Returns the largest number of contents octets of a value that is not long (the table in Values)."""
    if element.is_universal(BIT_STRING):
        return 9
    if element.is_universal(OBJECT_IDENTIFIER, RELATIVE_OID, *CHARACTERS):
        return 64
    return 16


def shown(element, names):
    """Returns the text after the tag, or None if the line is not yet complete, and the rows that are complete.

    `names` has names by arcs: {"2.5.4.3": "commonName"}.
    """
    if element.length > most_octets(element):
        return long_value(element)
    if element.end is None:
        return None, []
    return short_value(element, names)


def short_value(element, names):
    """Returns the text and the rows of a whole value that is not long."""
    contents = element.contents
    if element.is_universal(BOOLEAN) and len(contents) == 1:
        return ("FALSE" if contents == b"\0" else "TRUE"), []
    if element.is_universal(INTEGER, ENUMERATED) and contents:
        return str(int.from_bytes(contents, "big", signed=True)), []
    if element.is_universal(BIT_STRING) and has_bits(contents):
        return bits(contents), []
    if element.is_universal(OBJECT_IDENTIFIER, RELATIVE_OID):
        return object_identifier(element, names)
    if element.is_universal(*CHARACTERS):
        return quoted(element.number, contents), []
    return pairs(contents), []


def long_value(element):
    """Returns the text and the complete rows of a long value.
    Its line is complete after the header, or after the first contents octet.
    """
    contents, whole = element.contents, element.end is not None
    if element.is_universal(BIT_STRING):
        if not contents:
            return None, []
        if contents[0] <= 7:
            return f"{8 * (element.length - 1) - contents[0]} bits", pair_rows(contents[1:], whole)
        return "", pair_rows(contents, whole)
    if element.is_universal(*CHARACTERS):
        return "", [quoted(element.number, row) for row in character_rows(element.number, contents, whole)]
    return "", pair_rows(contents, whole)


class Pairs(str):
    """A value, or a row of one, that is shown as pairs: each octet as two digits, separated by spaces."""

    def __new__(cls, octets):
        """Returns the pairs for these octets, and keeps the octets."""
        made = super().__new__(cls, octets.hex(" "))
        made.octets = octets
        return made


def pairs(octets):
    """Returns each octet as two digits, separated by spaces (Pairs)."""
    return Pairs(octets)


def with_text(value):
    """Returns a value or a row. If it is pairs of 3 or more printable octets, their text is added."""
    is_text = isinstance(value, Pairs) and len(value) >= LEAST_TEXT and all(0x20 <= it <= 0x7E for it in value.octets)
    return f"{value}  |{value.octets.decode('ascii')}|" if is_text else value


def cut(octets, size, whole):
    """Returns the complete rows of this size: full rows, and the rest if the value is whole."""
    rows = [octets[place : place + size] for place in range(0, len(octets), size)]
    return rows if whole else [row for row in rows if len(row) == size]


def pair_rows(octets, whole):
    """Returns the complete rows of 16 octets."""
    return [pairs(row) for row in cut(octets, PAIRS_IN_A_ROW, whole)]


def has_bits(contents):
    """Returns whether the initial octet is 0 to 7, and 0 if no octet follows it (BIT STRING)."""
    return len(contents) > 0 and contents[0] <= (7 if len(contents) > 1 else 0)


def bits(contents):
    """Returns the number of bits, and the bits, in order (BIT STRING)."""
    count = 8 * (len(contents) - 1) - contents[0]
    digits = "".join(f"{octet:08b}" for octet in contents[1:])[:count]
    return f"{count} bits {digits}".rstrip()


def subidentifiers(contents):
    """Returns the subidentifiers, or None if the last is unfinished (8.19.2)."""
    if contents and contents[-1] & 0x80:
        return None
    found, number = [], 0
    for octet in contents:
        number = number << 7 | octet & 0x7F
        if octet & 0x80 == 0:
            found.append(number)
            number = 0
    return found


def object_identifier(element, names):
    """Returns the arcs, with the name if there is one.
    If they cannot be shown, returns pairs, in rows if there are more than 16.
    """
    numbers = subidentifiers(element.contents)
    if numbers is None or any(number >= 1 << 128 for number in numbers):
        if element.length > PAIRS_IN_A_ROW:
            return "", pair_rows(element.contents, True)
        return pairs(element.contents), []
    if numbers and element.number == OBJECT_IDENTIFIER:
        first = min(numbers[0] // 40, 2)  # 8.19.4
        numbers[:1] = [first, numbers[0] - 40 * first]
    arcs = ".".join(map(str, numbers))
    if element.number == OBJECT_IDENTIFIER and arcs in names:
        return f"{arcs} ({names[arcs]})", []
    return arcs, []


def announced(octet):
    """Returns the length in octets of the character that begins with this octet (RFC 3629), or 1 if none does."""
    if 0xC2 <= octet <= 0xDF:
        return 2
    if 0xE0 <= octet <= 0xEF:
        return 3
    return 4 if 0xF0 <= octet <= 0xF4 else 1


def character_rows(number, octets, whole):
    """Returns the complete rows of 64 octets. In a UTF8String, a row ends before a character that does not fit."""
    if number != UTF8:
        return cut(octets, OCTETS_IN_A_ROW, whole)
    rows, start = [], 0
    for place, octet in enumerate(octets):
        if place - start + announced(octet) > OCTETS_IN_A_ROW:
            rows.append(octets[start:place])
            start = place
    rest = octets[start:]
    return rows + [rest] if rest and (whole or len(rest) == OCTETS_IN_A_ROW) else rows


def well_formed(octets):
    """Returns the character that these octets are (RFC 3629), or None."""
    try:
        text = octets.decode("utf-8")
    except UnicodeDecodeError:
        return None
    return ord(text) if len(text) == 1 else None


def characters(number, octets):
    """Returns pairs of the octets and the number of a character, or of an octet that is in no character and None."""
    size = {BMP_STRING: 2, UNIVERSAL_STRING: 4}.get(number)
    place = 0
    while place < len(octets):
        if number == UTF8:
            taken = octets[place : place + announced(octets[place])]
            code = well_formed(taken)
        else:
            taken = octets[place : place + (size or 1)]
            code = int.from_bytes(taken, "big") if len(taken) == (size or 1) else None
        if code is None:
            taken = octets[place : place + 1]
        yield taken, code
        place += len(taken)


def quoted(number, octets):
    """Returns the characters in quotation marks (Characters)."""
    text = ""
    for taken, code in characters(number, octets):
        if code is not None and 0x20 <= code <= 0x7E:
            text += "\\" * (chr(code) in '"\\') + chr(code)
        elif len(taken) == 1:
            text += f"\\x{taken[0]:02x}"
        else:
            text += f"\\u{{{code:x}}}"
    return f'"{text}"'

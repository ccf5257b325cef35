"""Finds violations of the rules, as docs/FINDINGS.md describes them."""
import re

from second_opinion import values
from second_opinion.reading import BIT_STRING, OCTET_STRING

TEXTS = {
    "B01": "high form for a number below 31",
    "B02": "tag number begins with zero bits",
    "B03": "unassigned universal number",
    "B04": "type must be primitive",
    "B05": "type must be constructed",
    "B06": "BOOLEAN is not one octet",
    "B07": "no contents of an integer",
    "B08": "integer is padded",
    "B09": "NULL has contents",
    "B10": "no contents of an object identifier",
    "B11": "subidentifier is padded",
    "B12": "last subidentifier is unfinished",
    "B13": "no first octet of a bit string",
    "B14": "more than 7 unused bits",
    "B15": "unused bits of no octet",
    "B16": "segment follows unused bits",
    "B17": "segment has another tag",
    "B18": "characters not of the type",
    "B19": "time not of its grammar",
    "S01": "length is not the shortest",
    "S02": "TRUE is not ff",
    "S03": "unused bits are set",
    "S04": "time is not canonical",
    "D01": "indefinite length",
    "D02": "constructed string",
    "C01": "definite length of a constructed element",
    "C02": "primitive string above 1000 octets",
    "C03": "segment is constructed",
    "C04": "segment follows one not of 1000 octets",
    "C05": "constructed string fits in 1000 octets",
    "C06": "last segment is empty",
}
# B codes apply to all encodings, S codes to DER and CER, D codes to DER only, C codes to CER only.
LETTERS = {"ber": "B", "der": "BSD", "cer": "BSC"}
MUST_BE_PRIMITIVE = (1, 2, 5, 6, 9, 10, 13)
MUST_BE_CONSTRUCTED = (8, 11, 16, 17, 29)
STRINGS = (BIT_STRING, OCTET_STRING, 7, 12, *range(18, 29), 30)
UTC_TIME, GENERALIZED_TIME = 23, 24
FULL = 1000


def codes_by(conditions, rules):
    """Returns the codes of these rules whose condition holds, in the order B, S, D, C, each by number."""
    order = sorted(conditions, key=lambda code: ("BSDC".index(code[0]), code))
    return [code for code in order if conditions[code] and code[0] in LETTERS[rules]]


def is_string(element):
    """Returns whether the element is a string, primitive or constructed."""
    return element is not None and element.is_universal(*STRINGS)


def of_header(element, parent, previous, rules):
    """Returns the codes that are known after the header.

    `parent` is the element that directly holds this one, `previous` the one before it there.
    """
    return codes_by(header_conditions(element, parent, previous), rules)


def header_conditions(element, parent, previous):
    """Returns the conditions, by code, that are known after the header."""
    is_primitive, indefinite = not element.constructed, element.length is None
    high = element.identifier[1:]
    is_segment = parent is not None and parent.constructed and is_string(parent)
    follows = is_segment and previous is not None
    in_bits = is_segment and parent.is_universal(BIT_STRING)
    return {
        "B01": bool(high) and element.number < 31,
        "B02": bool(high) and high[0] & 0x7F == 0,
        "B03": element.tag_class == 0 and element.number not in values.TYPES,
        "B04": element.constructed and element.is_universal(*MUST_BE_PRIMITIVE),
        "B05": is_primitive and element.is_universal(*MUST_BE_CONSTRUCTED),
        "B16": in_bits and follows and has_unused_bits(previous),
        "B17": is_segment and not element.is_universal(BIT_STRING if in_bits else OCTET_STRING),
        "S01": not indefinite and len(element.length_octets) > len(shortest(element.length)),
        "D01": indefinite,
        "D02": element.constructed and is_string(element),
        "C01": element.constructed and not indefinite,
        "C02": is_primitive and is_string(element) and element.length > FULL,
        "C03": is_segment and element.constructed,
        "C04": follows and (previous.constructed or previous.length != FULL),
    }


def shortest(length):
    """Returns the smallest number of length octets (8.1.3.4, 8.1.3.5)."""
    if length < 128:
        return bytes([length])
    octets = length.to_bytes((length.bit_length() + 7) // 8, "big")
    return bytes([0x80 | len(octets)]) + octets


def has_unused_bits(element):
    """Returns whether the element is a primitive BIT STRING whose initial octet is not 0 (8.6.4)."""
    return element.is_universal(BIT_STRING) and element.contents[:1] not in (b"", b"\0")


def of_end(element, rules):
    """Returns the codes that are known after the last octet of a primitive or of a constructed string."""
    return codes_by(end_conditions(element), rules)


def end_conditions(element):
    """Returns the conditions, by code, that are known after the last octet of an element."""
    if element.wraps or element.end is None:
        return {}
    if element.constructed:
        return of_segments(element) if is_string(element) else {}
    return of_contents(element)


def of_segments(element):
    """C05 and C06: conditions on the segments of a constructed string."""
    segments = element.children
    all_primitive = not any(segment.constructed for segment in segments)
    ends_with_none = bool(segments) and not segments[-1].constructed and segments[-1].length == 0
    return {"C05": all_primitive and octets_as_a_primitive(element) <= FULL, "C06": ends_with_none}


def octets_as_a_primitive(element):
    """Returns how many contents octets a string of primitive segments would have as a primitive (C05)."""
    lengths = [segment.length for segment in element.children]
    if element.is_universal(BIT_STRING):
        return 1 + sum(max(length - 1, 0) for length in lengths)
    return sum(lengths)


def of_contents(element):
    """B06 to B19 and S02 to S04: conditions on the contents of a primitive."""
    contents = element.contents
    conditions = {}
    if element.is_universal(values.BOOLEAN):
        is_one = len(contents) == 1
        conditions = {"B06": not is_one, "S02": is_one and contents not in (b"\0", b"\xff")}
    elif element.is_universal(values.INTEGER, values.ENUMERATED):
        conditions = {"B07": not contents, "B08": is_padded(contents)}
    elif element.is_universal(BIT_STRING):
        conditions = of_bits(contents)
    elif element.is_universal(5):
        conditions = {"B09": len(contents) > 0}
    elif element.is_universal(values.OBJECT_IDENTIFIER, values.RELATIVE_OID):
        conditions = of_subidentifiers(contents)
        conditions["B10"] = not contents and element.is_universal(values.OBJECT_IDENTIFIER)
    elif element.is_universal(UTC_TIME, GENERALIZED_TIME):
        conditions = of_time(element)
    elif element.is_universal(*values.CHARACTERS):
        conditions = {"B18": not has_its_characters(element.number, contents)}
    return conditions


def is_padded(contents):
    """B08: the first nine bits are all equal."""
    return len(contents) > 1 and (contents[0], contents[1] >> 7) in ((0, 0), (0xFF, 1))


def of_bits(contents):
    """B13, B14, B15 and S03: the initial octet of a BIT STRING, and its unused bits."""
    unused = contents[0] if contents else 0
    return {
        "B13": not contents,
        "B14": unused > 7,
        "B15": len(contents) == 1 and 0 < unused <= 7,
        "S03": len(contents) > 1 and unused <= 7 and contents[-1] & (1 << unused) - 1 != 0,
    }


def of_subidentifiers(contents):
    """B11 and B12: a subidentifier begins with an octet 80, or the last octet has bit 8 set."""
    first_octets = [octet for octet, before in zip(contents, b"\0" + contents) if before & 0x80 == 0]
    return {"B11": 0x80 in first_octets, "B12": len(contents) > 0 and contents[-1] & 0x80 != 0}


# X.680, 41: the octets that may occur in a type that does not allow all.
ALPHABETS = {
    18: rb"[0-9 ]*",
    19: rb"[A-Za-z0-9 '()+,./:=?-]*",
    22: rb"[\x00-\x7f]*",
    26: rb"[\x20-\x7e]*",
}


def has_its_characters(number, contents):
    """B18: returns whether all octets are characters of the type."""
    if number in (values.UTF8, values.BMP_STRING, values.UNIVERSAL_STRING):
        return all(code is not None for _, code in values.characters(number, contents))
    return number not in ALPHABETS or re.fullmatch(ALPHABETS[number], contents) is not None


DATE = r"(0[1-9]|1[0-2])(0[1-9]|[12]\d|3[01])"
HOUR, MINUTE, SECOND = r"([01]\d|2[0-4])", r"[0-5]\d", r"([0-5]\d|60)"
GRAMMARS = {  # X.680 46 and 47
    UTC_TIME: rf"\d\d{DATE}{HOUR}{MINUTE}({SECOND})?(Z|[+-]{HOUR}{MINUTE})",
    GENERALIZED_TIME: rf"\d{{4}}{DATE}{HOUR}({MINUTE}({SECOND})?)?([.,]\d+)?(Z|[+-]{HOUR}({MINUTE})?)?",
}
CANONICAL = {  # 11.7 and 11.8: seconds, Z, no zero at the end of a fraction, hours up to 23
    UTC_TIME: r"\d{6}([01]\d|2[0-3])\d{4}Z",
    GENERALIZED_TIME: r"\d{8}([01]\d|2[0-3])\d{4}(\.\d*[1-9])?Z",
}


def of_time(element):
    """B19 and S04: conditions on a time of at most 64 octets."""
    if element.length > 64:
        return {}
    text = element.contents.decode("latin-1")
    of_grammar = re.fullmatch(GRAMMARS[element.number], text, re.ASCII) is not None
    canonical = re.fullmatch(CANONICAL[element.number], text, re.ASCII) is not None
    return {"B19": not of_grammar, "S04": of_grammar and not canonical}

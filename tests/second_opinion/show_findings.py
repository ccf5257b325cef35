"""Finds violations of the rules as tlvdump-show does: those that tlvdump looks for, and those of the second table of
docs/FINDINGS.md.
"""
import re

from second_opinion import findings, values
from second_opinion.reading import CONTEXT

# The texts of the findings of tlvdump-show alone.
MORE = {
    "B20": "REAL of no form",
    "B21": "no such date or time",
    "B22": "time or IRI must be primitive",
    "B23": "IRI not of its grammar",
    "B24": "no contents of a relative identifier",
    "B25": "surrogate, or number above 10ffff",
    "B26": "month has no such day",
    "B27": "components are missing",
    "B28": "segments have characters not of the type",
    "B29": "REAL zero with contents",
    "B30": "element is no component of it",
    "S05": "element of a SET is out of order",
    "S06": "REAL is not canonical",
}
TEXTS = {**findings.TEXTS, **MORE}
OBJECT_DESCRIPTOR, EXTERNAL, REAL, EMBEDDED_PDV, TIME, SET, CHARACTER_STRING = 7, 8, 9, 11, 14, 17, 29
DATE, TIME_OF_DAY, DATE_TIME, DURATION, OID_IRI, RELATIVE_OID_IRI = range(31, 37)
# The universal types that components of an EXTERNAL have, and the largest context-specific number of a component.
PARTS_OF_EXTERNAL, LAST_PART = (values.INTEGER, values.OBJECT_IDENTIFIER, OBJECT_DESCRIPTOR), 2
# The largest number of octets of an element that are compared for S05.
MOST_COMPARED = 64


def of_header(element, parent, previous, rules):
    """Returns the codes that are known after the header, as findings.of_header does."""
    conditions = findings.header_conditions(element, parent, previous)
    late = TIME, DATE, TIME_OF_DAY, DATE_TIME, DURATION, OID_IRI, RELATIVE_OID_IRI
    conditions["B22"] = element.constructed and element.is_universal(*late)
    conditions["B30"] = parent is not None and has_parts(parent) and not is_part(element, parent)
    return findings.codes_by(conditions, rules)


def has_parts(element):
    """Returns whether an element is a constructed EXTERNAL, EMBEDDED PDV or CHARACTER STRING."""
    return element.constructed and element.is_universal(EXTERNAL, EMBEDDED_PDV, CHARACTER_STRING)


def is_part(element, parent):
    """Returns whether an element has a tag that a component of its parent has, which is one of these types."""
    if parent.number == EXTERNAL and element.is_universal(*PARTS_OF_EXTERNAL):
        return True
    return element.tag_class == CONTEXT and element.number <= LAST_PART


def of_end(octets, element, parent, previous, rules):
    """Returns the codes that are known after the last octet of an element. `octets` is the input."""
    if element.end is None:
        return []
    conditions = findings.end_conditions(element)
    if element.constructed:
        conditions |= of_held(octets, element)
    elif not element.wraps:
        conditions |= of_contents(element)
    conditions["S05"] = is_out_of_order(octets, element, parent, previous, rules)
    return findings.codes_by(conditions, rules)


def of_held(octets, element):
    """B27 and B28: conditions on the elements that a constructed element holds."""
    has_alphabet = element.is_universal(*findings.ALPHABETS)
    segments = [it for it in element.children if not it.constructed]
    return {
        "B27": has_parts(element) and not element.children,
        "B28": has_alphabet and not all(
            findings.has_its_characters(element.number, octets[it.start : it.end]) for it in segments),
    }


def of_contents(element):
    """B20, B21, B23 to B26, B29 and S06: conditions on the contents of a primitive."""
    contents = element.contents
    if element.is_universal(REAL):
        is_of_form = is_real(contents)
        return {
            "B20": not is_of_form,
            "B29": is_of_form and is_zero(contents),
            "S06": is_of_form and not is_canonical_real(contents),
        }
    if element.is_universal(DATE, TIME_OF_DAY, DATE_TIME):
        return {"B21": not is_date_or_time(element.number, contents)}
    if element.is_universal(OID_IRI, RELATIVE_OID_IRI):
        return {"B23": not is_iri(element.number, contents)}
    if element.is_universal(values.RELATIVE_OID):
        return {"B24": not contents}
    if element.is_universal(values.BMP_STRING, values.UNIVERSAL_STRING):
        return {"B25": not all(map(is_scalar, units(element.number, contents)))}
    if element.is_universal(*findings.GRAMMARS):
        return {"B26": has_no_such_day(element)}
    return {}


# ISO 6093: the numbers that follow the first octets 01 (NR1), 02 (NR2) and 03 (NR3).
NUMBERS = {
    1: rb" *[+-]?[0-9]+",
    2: rb" *[+-]?([0-9]+[.,][0-9]*|[.,][0-9]+)",
    3: rb" *[+-]?([0-9]+[.,]?[0-9]*|[.,][0-9]+)[Ee][+-]?[0-9]+",
}
SPECIAL = (b"\x40", b"\x41", b"\x42", b"\x43")
CANONICAL_NUMBER = rb"-?[1-9]([0-9]*[1-9])?\.E(\+0|-?[1-9][0-9]*)"


def is_real(contents):
    """B20: returns whether the contents of a REAL are of a form."""
    if contents[:1] >= b"\x80":
        return exponent_and_mantissa(contents) is not None
    if contents[:1] >= b"\x40":
        return contents in SPECIAL
    return not contents or contents[0] in NUMBERS and re.fullmatch(NUMBERS[contents[0]], contents[1:]) is not None


def exponent_and_mantissa(contents):
    """Returns the octets of the exponent and those of the mantissa of a binary REAL, or None if it is of no form."""
    size, start = (contents[0] & 3) + 1, 1
    if size == 4:
        size, start = contents[1] if len(contents) > 1 else 0, 2
    exponent, mantissa = contents[start : start + size], contents[start + size :]
    has_base = contents[0] & 0x30 != 0x30
    # Of an exponent whose size has an octet of its own, the first nine bits differ, as in an INTEGER.
    is_padded = start == 2 and findings.is_padded(exponent)
    return (exponent, mantissa) if has_base and exponent and mantissa and not is_padded else None


def is_zero(contents):
    """B29: returns whether the contents of a REAL, which are of a form, are a number in binary or decimal that is zero."""
    if contents[:1] >= b"\x80":
        return not any(exponent_and_mantissa(contents)[1])
    digits = re.split(rb"[Ee]", contents[1:])[0]
    return b"" < contents[:1] < b"\x40" and re.search(rb"[1-9]", digits) is None


def is_canonical_real(contents):
    """S06: returns whether the contents of a REAL, which are of a form, are of the canonical one."""
    if not contents or contents in SPECIAL:
        return True
    if contents[0] < 0x80:
        return contents[0] == 3 and re.fullmatch(CANONICAL_NUMBER, contents[1:]) is not None
    exponent, mantissa = exponent_and_mantissa(contents)
    is_plain = contents[0] & 0x3C == 0
    is_odd = mantissa[0] != 0 and mantissa[-1] & 1 == 1
    has_shortest_form = (contents[0] & 3) + 1 == min(len(exponent), 4)
    return is_plain and is_odd and has_shortest_form and not findings.is_padded(exponent)


DAYS = (31, 28, 31, 30, 31, 30, 31, 31, 30, 31, 30, 31)


def has_day(is_leap, month, day):
    """Returns whether there is such a day, in a leap year or in another."""
    return 1 <= month <= 12 and 1 <= day <= DAYS[month - 1] + (is_leap and month == 2)


def is_leap_year(year):
    """Returns whether it is a leap year of the Gregorian calendar."""
    return year % 4 == 0 and (year % 100 != 0 or year % 400 == 0)


def is_date_or_time(number, contents):
    """B21: returns whether the contents are those of a DATE, a TIME-OF-DAY or a DATE-TIME."""
    size = {DATE: 8, TIME_OF_DAY: 6, DATE_TIME: 14}[number]
    if not re.fullmatch(rb"[0-9]{%d}" % size, contents):
        return False
    date, time = (b"", contents) if number == TIME_OF_DAY else (contents[:8], contents[8:])
    has_date = not date or has_day(is_leap_year(int(date[:4])), int(date[4:6]), int(date[6:]))
    return has_date and (not time or is_clock(time))


def is_clock(digits):
    """Returns whether six digits name an hour, a minute and a second, which may be a leap second, or midnight as 240000."""
    hour, minute, second = (int(digits[place : place + 2]) for place in (0, 2, 4))
    return digits == b"240000" or hour < 24 and minute < 60 and second <= 60


def has_no_such_day(element):
    """B26: returns whether a time that has no B19 names a day that its month does not have."""
    contents = element.contents
    text = contents.decode("latin-1")
    if len(contents) > 64 or not re.fullmatch(findings.GRAMMARS[element.number], text, re.ASCII):
        return False
    is_utc = element.number == findings.UTC_TIME
    year, rest = (text[:2], text[2:]) if is_utc else (text[:4], text[4:])
    is_leap = int(year) % 4 == 0 if is_utc else is_leap_year(int(year))
    return not has_day(is_leap, int(rest[:2]), int(rest[2:4]))


# Labels, none of which is empty, with / before each, or between them.
IRIS = {OID_IRI: rb"(/[^/]+)+", RELATIVE_OID_IRI: rb"[^/]+(/[^/]+)*"}


def is_iri(number, contents):
    """B23: returns whether the contents are UTF-8, and labels."""
    return re.fullmatch(IRIS[number], contents) is not None and findings.has_its_characters(values.UTF8, contents)


def units(number, contents):
    """Returns the numbers of the characters. Octets that are left over are none."""
    size = 2 if number == values.BMP_STRING else 4
    whole = len(contents) // size * size
    return [int.from_bytes(contents[place : place + size], "big") for place in range(0, whole, size)]


def is_scalar(unit):
    """B25: returns whether a number is that of a character: not above 10ffff, and no surrogate."""
    return unit <= 0x10FFFF and not 0xD800 <= unit <= 0xDFFF


def is_out_of_order(octets, element, parent, previous, rules):
    """S05: returns whether an element of a SET comes after its neighbour neither by octets nor by tag."""
    if previous is None or parent is None or not parent.is_universal(SET):
        return False
    tag, before = (it.tag_class * 2**63 + it.number for it in (element, previous))
    falls = first_octets(octets, element) < first_octets(octets, previous)
    return falls and (tag == before if rules == "cer" else tag <= before)


def first_octets(octets, element):
    """Returns the first octets of an element, filled up with 00 (11.6)."""
    return octets[element.offset : element.end][:MOST_COMPARED].ljust(MOST_COMPARED, b"\0")

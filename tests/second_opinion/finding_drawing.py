"""Draws elements that have the findings of tlvdump-show alone (the second table of docs/FINDINGS.md), or nearly do."""
from second_opinion import contents, drawing
from second_opinion.drawing import BITS, OCTETS, SEQUENCE, SET
from second_opinion.findings import shortest

REAL, RELATIVE_OID, BMP_STRING, UNIVERSAL_STRING, UTC_TIME, GENERALIZED_TIME = 9, 13, 30, 28, 23, 24
DATES, IRIS = (31, 32, 33), (35, 36)
LATE = (14, *range(31, 37))
OF_PARTS = (8, 11, 29)
WITH_ALPHABET = (18, 19, 22, 26)
MOST_LEVELS = 3


def whole(rng, number, octets, constructed=False, tag_class=0):
    """Returns an element, mostly with the shortest octets in front of its contents."""
    return drawing.identifier(rng, number, tag_class, constructed) + drawing.length_octets(rng, len(octets), 0.02) + octets


def holder(rng, number, octets):
    """Returns a constructed element with these contents, of definite or indefinite length."""
    if rng.random() < 0.5:
        return whole(rng, number, octets, True)
    return drawing.identifier(rng, number, 0, True) + b"\x80" + octets + b"\0\0"


def real(rng):
    """Returns contents of a REAL: binary, decimal or special."""
    choice = rng.random()
    if choice < 0.45:
        return binary(rng)
    if choice < 0.85:
        return decimal(rng)
    special = bytes([rng.randrange(0x3F, 0x46)]) + rng.choice([b"", b"", b"", b"\0", b"@"])
    return rng.choice([special, special, b"", b"\0", b"\x04", rng.randbytes(rng.randrange(6))])


def binary(rng):
    """Returns contents of a binary REAL, half of which are canonical."""
    is_plain, form = rng.random() < 0.6, rng.choice([0, 0, 0, 1, 1, 2, 3, 3])
    first = 0x80 | rng.choice([0, 0x40]) | form
    if not is_plain:
        first |= rng.choice([0, 0x10, 0x20, 0x30]) | rng.choice([0, 0, 4, 8, 12])
    size = form + 1 if form < 3 else rng.choice([0, 1, 2, 3, 4, 4, 4, 5, 9, 128, 255])
    exponent = rng.randbytes(size)
    if rng.random() < 0.3 and size > 1:
        exponent = rng.choice([b"\0\0", b"\0\x7f", b"\0\x80", b"\xff\xff", b"\xff\x80", b"\xff\x7f"]) + exponent[2:]
    mantissa = bytearray(rng.randbytes(rng.choice([0, 1, 1, 1, 2, 2, 3, 8, 16, 50, 5000])))
    if mantissa and rng.random() < 0.8:
        mantissa[-1] |= 1
    if mantissa and rng.random() < 0.2:
        mantissa[0] = rng.choice([0, 0, 1, 0x80])
    if rng.random() < 0.1:
        mantissa = bytearray(len(mantissa))
        if mantissa and rng.random() < 0.3:
            mantissa[rng.choice([0, -1, rng.randrange(len(mantissa))])] = rng.choice([1, 2, 0x80])
    octets = bytes([first]) + bytes([size]) * (form == 3) + exponent + mantissa
    return octets[: rng.randrange(len(octets) + 1)] if rng.random() < 0.06 else octets


def decimal(rng):
    """Returns contents of a decimal REAL, about a third of which are canonical."""
    digits = "".join(rng.choice("0123456789") for _ in range(rng.choice([1, 1, 2, 3, 9, 70, 5000])))
    if rng.random() < 0.1:
        digits = "0" * len(digits) + rng.choice(["", "", "1"])
    power = "".join(rng.choice("0123456789") for _ in range(rng.choice([1, 1, 2, 3, 30])))
    if rng.random() < 0.5:
        digits, power = digits.strip("0") or "5", power.lstrip("0")
        power = rng.choice(["", "", "-"]) + power if power else rng.choice(["+0", "+0", "0", "-0"])
        text, form = rng.choice(["", "-"]) + digits + ".E" + power, 3
    else:
        text = rng.choice(["", "", " ", "   "]) + rng.choice(["", "", "+", "-"])
        place = rng.choice([0, len(digits), len(digits), rng.randrange(len(digits) + 1)])
        text += digits[:place] + rng.choice(["", ".", ".", ","]) + digits[place:]
        text += rng.choice(["", "", rng.choice("Ee") + rng.choice(["", "", "+", "-"]) + power])
        form = 3 if "E" in text or "e" in text else 2 if "." in text or "," in text else 1
    if rng.random() < 0.12:
        place = rng.randrange(len(text) + 1)
        text = text[:place] + rng.choice(["", " ", "+", "-", ".", "E", "0", "x", "\0", "\x7f"]) + text[place + rng.randrange(2) :]
    return bytes([form if rng.random() < 0.85 else rng.randrange(6)]) + text.encode()


def day(rng, year=None):
    """Returns a year, a month and a day as eight digits, often near the end of a month."""
    year = rng.choice([0, 4, 1900, 2000, 2023, 2024, 2100, 9999, rng.randrange(10_000)]) if year is None else year
    month, last = rng.choice([1, 2, 2, 2, 4, 6, 9, 11, 12, rng.randrange(14)]), rng.choice([28, 29, 30, 31, rng.randrange(33)])
    return f"{year:04}{month:02}{last:02}"


def clock(rng):
    """Returns an hour, a minute and a second as six digits, rarely out of range, sometimes midnight or a leap second."""
    if rng.random() < 0.15:
        return rng.choice(["240000", "240001", "240060", "240100", "235960", "000060", "235961"])
    numbers = [rng.choice([0, most, rng.randrange(most + 1), most + (rng.random() < 0.1)]) for most in (23, 59, 59)]
    return "".join(f"{number:02}" for number in numbers)


def date(rng, number):
    """Returns contents of a DATE, a TIME-OF-DAY or a DATE-TIME."""
    text = {31: day(rng), 32: clock(rng), 33: day(rng) + clock(rng)}[number]
    if rng.random() < 0.12:
        place = rng.randrange(len(text) + 1)
        text = text[:place] + rng.choice(["", "0", "-", ":", "x", "\0", " "]) + text[place + rng.randrange(2) :]
    return text.encode()


def time(rng, number):
    """Returns a UTCTime or GeneralizedTime, often of a day at the end of a month."""
    text = day(rng)[2 if number == UTC_TIME else 0 :] + clock(rng)[: rng.choice([2, 4, 6, 6, 6])]
    if number == GENERALIZED_TIME and rng.random() < 0.3:
        text += "." + "1" * rng.choice([1, 3, 47, 48, 49, 50])
    return (text + rng.choice(["Z", "Z", "Z", "", "+0100"])).encode()


def iri(rng):
    """Returns contents of an OID-IRI or RELATIVE-OID-IRI."""
    text = rng.choice(["/ISO/Registration_Authority", "ISO/a", "/", "", "/\u00e9/\u20ac/\U0001f600", "a", "/" * 5000])
    if rng.random() < 0.3:
        label = "abcd"[: rng.choice([1, 2, 3, 4])] + "/"
        text = rng.choice(["/", ""]) + label * rng.choice([1, 2, 3, 2000]) + rng.choice(["", "/", "x", "x", "x"])
        place = rng.choice([0, len(text), rng.randrange(len(text) + 1)])
        text = text[:place] + rng.choice(["", "", "/"]) + text[place:]
    text = text.encode()
    if rng.random() < 0.3:
        text = rng.choice([b"/", b""]) + contents.wide_text(rng, 12)
    return text + rng.choice(contents.ILL_FORMED) * (rng.random() < 0.1)


def wide(rng, number):
    """Returns characters of a BMPString or UniversalString, half of them with one that is none."""
    size = 2 if number == BMP_STRING else 4
    codes = [rng.choice([0, 0x41, 0xD7FF, 0xE000, 0xFFFF, 0x20AC]) for _ in range(rng.choice([0, 1, 2, 20, 40, 2100, 3000]))]
    if codes and rng.random() < 0.5:
        wrong = [0xD800, 0xDBFF, 0xDC00, 0xDFFF] + [0x110000, 0x10FFFF, 0xD8000000, 0x00D80041, 0xFFFFFFFF] * (size == 4)
        codes[rng.choice([0, -1, rng.randrange(len(codes))])] = rng.choice(wrong)
    return b"".join(code.to_bytes(size, "big") for code in codes) + rng.choice([b""] * 6 + [b"\xd8", b"\xd8\0\xd8"])


def contents_of(rng, number):
    """Returns contents of a primitive of one of the types that have such a finding."""
    if number in DATES:
        return date(rng, number)
    if number in IRIS:
        return iri(rng)
    if number in (UTC_TIME, GENERALIZED_TIME):
        return time(rng, number)
    if number in (BMP_STRING, UNIVERSAL_STRING):
        return wide(rng, number)
    if number == RELATIVE_OID:
        return rng.choice([b"", b"\x05", b"\x85\x01", b"\x80"])
    return real(rng) if number == REAL else contents.any_octets(rng, 30)


KINDS = (REAL, REAL, REAL, REAL, *DATES, *DATES, *IRIS, RELATIVE_OID, BMP_STRING, UNIVERSAL_STRING)
KINDS += (UTC_TIME, GENERALIZED_TIME, 14, 34)


def leaf(rng):
    """Returns a primitive of one of these types."""
    number = rng.choice(KINDS)
    return whole(rng, number, contents_of(rng, number))


def part(rng):
    """Returns an element with a tag that a component of an EXTERNAL may have, or nearly such a tag."""
    choice = rng.random()
    if choice < 0.15:
        return leaf(rng)
    if choice < 0.25:
        return with_parts(rng)
    number = rng.choice([0, 0, 1, 1, 2, 2, 3, 6, 7, 8, 128])
    octets = rng.choice([b"", b"\x05\0", b"\x02\x01\x05", rng.randbytes(3)])
    return whole(rng, number, octets, rng.random() < 0.3, rng.choice([0, 0, 1, 2, 2, 2, 3]))


def with_parts(rng):
    """Returns an EXTERNAL, EMBEDDED PDV or CHARACTER STRING, or a type that must be primitive, constructed and often empty."""
    number = rng.choice(OF_PARTS * 4 + LATE)
    held = b"" if rng.random() < 0.4 else b"".join(part(rng) for _ in range(rng.choice([1, 1, 2, 3])))
    return whole(rng, number, held) if rng.random() < 0.1 else holder(rng, number, held)


TEXTS = (b"", b"0 1", b"12", b"abc", b"ABC,z", b"A'()+,-./:=?z", b"a_b", b"a@b", b"7*", b"\x1f", b"\x7f", b"\x80")
TEXTS += (b"0" * 1000, b"x" * 4100 + b"_")


def segmented(rng, level=0):
    """Returns a constructed string with an alphabet, mostly in segments of characters that its type has."""
    number, segments = rng.choice(WITH_ALPHABET), b""
    for _ in range(rng.choice([0, 1, 1, 2, 3])):
        choice = rng.random()
        if choice < 0.12 and level < MOST_LEVELS:
            segments += rng.choice([segmented(rng, level + 1), holder(rng, OCTETS, whole(rng, OCTETS, rng.choice(TEXTS)))])
        elif choice < 0.2:
            segments += whole(rng, rng.choice([BITS, 5, 12, 19]), rng.choice(TEXTS))
        elif choice < 0.28:
            segments += whole(rng, OCTETS, rng.choice([b"\x05\0", b"00" + b"\x05\0" * 24, leaf(rng)]))
        else:
            segments += whole(rng, OCTETS, rng.choice(TEXTS))
    return holder(rng, number, segments)


def alike(rng):
    """Returns elements of one tag that agree in many octets."""
    size = rng.choice([3, 30, 58, 59, 60, 61, 62, 63, 64, 65, 66, 70, 127, 200, 4200])
    octets, found = bytearray(rng.randbytes(size)), []
    number, tag_class = rng.choice([(OCTETS, 0), (OCTETS, 0), (2, 2), (12, 0), (40, 1)])
    for _ in range(rng.choice([2, 2, 3])):
        place = rng.choice([0, size - 1, min(size - 1, rng.randrange(55, 66)), rng.randrange(size)])
        octets[place] = max(0, min(255, octets[place] + rng.choice([-1, 0, 1])))
        found.append(drawing.identifier(rng, number, tag_class, odd=0) + shortest(size) + bytes(octets))
    return found


def member(rng, level):
    """Returns an element of a SET."""
    choice = rng.random()
    if choice < 0.3:
        return whole(rng, rng.choice([2, OCTETS, 5, 10, 12]), rng.randbytes(rng.choice([0, 1, 1, 1, 2, 3])))
    if choice < 0.5:
        tag_class = rng.choice([1, 2, 2, 2, 3])
        return whole(rng, rng.choice([0, 1, 2, 30, 31, 127, 128]), rng.randbytes(rng.choice([0, 1, 2])), tag_class=tag_class)
    if choice < 0.6:
        held = leaf(rng)
        return drawing.constructed(rng, rng.choice([0, 1, 5]), held, 2)
    if choice < 0.7:
        return rng.choice([leaf, with_parts, segmented])(rng)
    if choice < 0.8:
        return whole(rng, rng.choice([OCTETS, OCTETS, BITS]), rng.choice([b"\x05\0", b"\0\x05\0", b"\x30\x03\x02\x01\x05"]))
    return of_set(rng, level + 1) if level < MOST_LEVELS else b"\x05\0"


def of_set(rng, level=0):
    """Returns a SET. Its elements are mostly in order, by octets or by tag, or have two exchanged."""
    choice = rng.random()
    if choice < 0.3:
        members = alike(rng)
    else:
        members = [member(rng, level) for _ in range(rng.choice([0, 1, 2, 2, 2, 3, 4]))]
    if choice > 0.9 and members:
        members.append(rng.choice(members))
    order = rng.random()
    if order < 0.4:
        members.sort(key=lambda it: it.ljust(64, b"\0"))
    elif order < 0.7:
        members.sort(key=lambda it: (it[0] >> 6, it[0] & 0x1F, it[1:3] if it[0] & 0x1F == 0x1F else b"", it))
    if len(members) > 1 and rng.random() < 0.4:
        place = rng.randrange(len(members) - 1)
        members[place : place + 2] = members[place + 1], members[place]
    return holder(rng, SET if rng.random() < 0.95 else SEQUENCE, b"".join(members))


def input_octets(rng):
    """Returns elements that have these findings or nearly do, some of them in strings, or in other elements."""
    octets = b""
    for _ in range(rng.choice([1, 1, 2, 3, 5])):
        made = rng.choice([leaf, leaf, leaf, of_set, of_set, of_set, with_parts, segmented])(rng)
        if rng.random() < 0.2:
            made = whole(rng, OCTETS, made) if rng.random() < 0.7 else whole(rng, BITS, b"\0" + made)
        if rng.random() < 0.2:
            made = holder(rng, SEQUENCE, made)
        octets += made
    return octets

"""Draws inputs for tlvdump-show at random: nested strings, segments, broken strings, extensions, texts, and elements
with findings.
"""
from second_opinion import contents, drawing, finding_drawing
from second_opinion.drawing import BITS, OCTETS, SEQUENCE, SET, STRING_TYPES
from second_opinion.findings import shortest

# Object identifiers below 2.5.29 and 1.3.6.1.5.5.7.1, those two themselves, and others.
EXTENSIONS = tuple(map(bytes.fromhex, ("551d0f", "551d13", "551d1f", "551d8100", "2b0601050507 0101", "2b060105050701818001")))
OTHERS = tuple(map(bytes.fromhex, ("551d", "2b060105050701", "551e0f", "2b060105050702", "550403", "1d0f", "")))
TEXTS = (b"www.example.com", b"abc", b"ab", b"a b|c", b"~ ~", b"cn=admin,dc=example,dc=org", b"(&(objectClass=*))")
TEXTS += (b"abc\n", b"abc\x7f", b"\x1fabc", b"abcdefghijklmnop", b"abcdefghijklmnopq", b"|||", b"\x80abc", b"   ", b'"\\')
MOST_LEVELS = 7


def whole(tag, octets):
    """Returns an element with this identifier octet and the shortest length octets."""
    return bytes([tag]) + shortest(len(octets)) + octets


def string(rng, octets):
    """Returns an OCTET STRING or a BIT STRING that holds these octets."""
    if rng.random() < 0.3:
        return whole(BITS, bytes([rng.choice([0] * 12 + [1, 7, 8])]) + octets)
    return whole(OCTETS, octets) if rng.random() < 0.9 else drawing.primitive(rng, OCTETS, octets)


def text(rng):
    """Returns a primitive that is shown as pairs of digits, mostly of printable octets."""
    octets = rng.choice(TEXTS)
    if rng.random() < 0.3:
        octets = bytes(rng.randrange(0x20, 0x7F) for _ in range(contents.some_length(rng, 300)))
    if octets and rng.random() < 0.15:
        place = rng.randrange(len(octets))
        octets = octets[:place] + bytes([rng.choice([0, 0x1F, 0x7F, 0x80, 0xFF])]) + octets[place + 1 :]
    front = bytes([rng.choice([0, 0, 0, 9, 0x41])])
    tag = rng.choice([OCTETS, OCTETS, 0x80, 0x82, 0x86, 0x41, 0xC1, 9, 5, 1, 6, 13, 31, BITS])
    return whole(tag, front + octets if tag == BITS else octets)


def small(rng):
    """Returns a short primitive, mostly one without a finding of BER."""
    octets = ("0500", "020105", "0101ff", "0400", "03020001", "06022a03", "0c0161", "1301 41", "040161", "0d0105")
    odd = ("800105", "02020005", "0600", "0301 01", "050100", "1f0500", "1f0105", "13012a", "300 0", "a000", "810100", "0f00")
    return bytes.fromhex(rng.choice(octets if rng.random() < 0.75 else odd).replace(" ", ""))


def nest(rng, level=0):
    """Returns elements, mostly strings that hold further elements."""
    choice = rng.random()
    if level >= MOST_LEVELS or choice < 0.25:
        return small(rng)
    if choice < 0.33:
        return text(rng)
    inner = b"".join(nest(rng, level + 1) for _ in range(rng.choice([1, 1, 1, 2, 3])))
    if rng.random() < 0.04:
        inner = drawing.damaged(rng, inner)
    if choice < 0.68:
        return string(rng, inner)
    if choice < 0.76:
        return alone(rng, level)
    if rng.random() < 0.2:
        return b"\x30\x80" + inner + b"\0\0"
    return whole(rng.choice([0x30, 0x30, 0x31, 0xA0, 0xA3]), inner)


def alone(rng, level):
    """Returns a constructed string, mostly with one segment, else with two or none. The segments hold elements."""
    count = rng.choice([1, 1, 1, 1, 1, 0, 2, 3])
    tag = 0x20 | rng.choice([OCTETS, OCTETS, OCTETS, BITS, *STRING_TYPES])
    octets = b"".join(string(rng, nest(rng, level + 1)) for _ in range(count))
    if rng.random() < 0.1:
        octets = alone(rng, level + 1) if level < MOST_LEVELS else octets
    if rng.random() < 0.5:
        return bytes([tag, 0x80]) + octets + rng.choice([b"\0\0"] * 9 + [b""])
    return whole(tag, octets)


def sized(rng, count):
    """Returns elements of `count` octets in all."""
    octets = b""
    while len(octets) < count:
        rest = count - len(octets)
        if rest in (2, 3, 4) or rng.random() < 0.3:
            octets += whole(OCTETS, rng.randbytes(min(rest, 127) - 2)) if rest > 1 else b"\x05"
        else:
            octets += b"\x05\x00" if rest != 3 else b"\x02\x01\x05"
    return octets


def off(rng, tag=None, count=None):
    """Returns a SEQUENCE or a SET of a string's size, whose length nearly matches its contents."""
    count = rng.choice([8, 18, 21, 22, 23, 24, 30, 125, 126, 127, 128, 200, 300]) if count is None else count
    octets = sized(rng, count)
    size = max(0, count + rng.choice([-10, -9, -8, -7, -2, -1, 0, 0, 1, 2, 7, 8, 9, 10]))
    length = shortest(size) if rng.random() < 0.85 else b"\x82" + size.to_bytes(2, "big")
    if rng.random() < 0.05:
        length = rng.choice([b"\x80", b"\xff", b"\x85\x01\0\0\0\0", b"\x81", b"\xfe" + b"\0" * 124 + size.to_bytes(2, "big")])
    return bytes([tag or rng.choice([0x30, 0x30, 0x30, 0x31, 0x31, 0xA0, 0x10])]) + length + octets


def changed_length(rng, octets):
    """Returns the octets with one of them changed a little."""
    if not octets:
        return octets
    place = rng.randrange(len(octets))
    new = max(0, min(255, octets[place] + rng.choice([-9, -2, -1, 1, 1, 2, 3, 9])))
    return octets[:place] + bytes([new]) + octets[place + 1 :]


def extension(rng):
    """Returns an element like a certificate's extension, mostly with something wrong in its value."""
    octets = rng.choice([nest(rng, 5), off(rng), off(rng, 0x30, rng.randrange(30)), b"\x30" + shortest(3) + small(rng), text(rng)])
    if rng.random() < 0.5:
        octets = changed_length(rng, octets)
    name = whole(6, rng.choice(EXTENSIONS if rng.random() < 0.8 else OTHERS))
    critical = b"\x01\x01\xff" if rng.random() < 0.3 else b""
    value = string(rng, octets) if rng.random() < 0.95 else whole(0x80, octets)
    after = small(rng) if rng.random() < 0.1 else b""
    held = (critical + name if rng.random() < 0.04 else name + critical) + value + after
    if rng.random() < 0.15:
        return bytes([rng.choice([0x30, 0x30, 0x30, 0x31, 0x24]), 0x80]) + held + rng.choice([b"\0\0"] * 9 + [b""])
    return whole(rng.choice([0x30] * 12 + [0x31, 0xA0, 0x24]), held)


def certificate(rng):
    """Returns some extensions in elements around them."""
    return whole(0x30, small(rng) + whole(0xA3, whole(0x30, b"".join(extension(rng) for _ in range(rng.randrange(1, 5))))))


def deep(rng):
    """Returns nested strings, about as many as may be open."""
    inner = rng.choice([small(rng), string(rng, small(rng)), string(rng, whole(0x30, small(rng))), string(rng, off(rng))])
    octets = string(rng, inner)
    for _ in range(rng.choice([20, 123, 124, 125, 126, 127, 128, 129])):
        choice = rng.random()
        if choice < 0.2:
            octets = whole(OCTETS, octets)
        elif choice < 0.5:
            octets = b"\x30\x80" + octets + b"\0\0"
        else:
            octets = whole(0x30, octets)
    return octets


def chance(rng):
    """Returns a string of octets that may be encodings by chance, or nearly are."""
    octets = rng.choice([
        bytes([0x80, 18]) + rng.randbytes(18), bytes([0x80, 3]) + rng.randbytes(rng.choice([2, 3, 4])),
        small(rng) + small(rng), small(rng) + rng.randbytes(1), b"\x30\x80" + small(rng), b"\x30\x80" + small(rng) + b"\0\0",
        b"\x30\x80" + sized(rng, 26), b"", b"\0", b"\0\0", b"\x30\x17" + sized(rng, 23) + b"\x30\x80", rng.randbytes(20),
    ])
    return string(rng, octets)


def input_octets(rng):
    """Returns an input, and whether it is to be read with `--padding`."""
    choice = rng.random()
    if choice < 0.12:
        return drawing.input_octets(rng)
    if choice < 0.32:
        octets = finding_drawing.input_octets(rng)
    elif choice < 0.45:
        octets = nest(rng)
    elif choice < 0.55:
        octets = certificate(rng)
    elif choice < 0.7:
        octets = b"".join(rng.choice([string(rng, off(rng)), extension(rng), small(rng)]) for _ in range(rng.randrange(1, 5)))
    elif choice < 0.8:
        octets = b"".join(rng.choice([text, small])(rng) for _ in range(rng.randrange(1, 8)))
    elif choice < 0.88:
        octets = b"".join(rng.choice([chance(rng), alone(rng, 5)]) for _ in range(rng.randrange(1, 5)))
    elif choice < 0.94:
        octets = deep(rng)
    else:
        octets = b"\0" * rng.randrange(3) + nest(rng) + b"\0" * rng.choice([0, 1, 2, 5]) + nest(rng) + b"\0" * rng.randrange(3)
        return octets, rng.random() < 0.9
    if rng.random() < 0.2:
        octets = drawing.damaged(rng, octets)
    return octets, rng.random() < 0.05

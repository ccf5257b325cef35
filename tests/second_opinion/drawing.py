"""Draws encodings at random: sound ones, and some with small faults. All randomness comes from one random.Random."""
from second_opinion import contents
from second_opinion.findings import shortest

SEQUENCE, SET, BITS, OCTETS = 16, 17, 3, 4
STRING_TYPES = (3, 4, 7, 12, 18, 19, 20, 21, 22, 23, 24, 25, 26, 27, 28, 30)
LEAVES = [1, 1, 2, 2, 3, 3, 3, 4, 5, 6, 6, 6, 7, 9, 10, 12, 12, 13, 13, 14]
LEAVES += [*range(18, 29), 23, 24, 30, *range(31, 37)]
MOST_LEVELS = 5


def identifier(rng, number, tag_class=0, constructed=False, odd=0.03):
    """Returns identifier octets. Rarely a small number has the high-tag-number form, or octets 80 in front."""
    first = tag_class << 6 | constructed << 5
    if number < 31 and rng.random() >= odd:
        return bytes([first | number])
    octets = [number & 0x7F]
    while number > 127:
        number >>= 7
        octets.insert(0, number & 0x7F | 0x80)
    if rng.random() < odd:
        octets = [0x80] * rng.choice([1, 1, 2, 8, 9]) + octets
    return bytes([first | 31, *octets])


def length_octets(rng, length, odd=0.04):
    """Returns the shortest length octets. Rarely, but more often if forms change, it returns a longer form."""
    fewest = shortest(length)
    if rng.random() >= (0.3 if odd and length in (127, 128, 255, 256) else odd):
        return fewest
    more = fewest[1:] if length > 127 else fewest
    more = b"\0" * rng.choice([0, 1, 1, 2, 3, 4, 126 - len(more)]) + more
    return bytes([0x80 | len(more)]) + more


def primitive(rng, number, octets, tag_class=0):
    """Returns a primitive with these contents."""
    return identifier(rng, number, tag_class) + length_octets(rng, len(octets)) + octets


def constructed(rng, number, octets, tag_class=0, indefinite=None):
    """Returns a constructed element that holds these octets."""
    first = identifier(rng, number, tag_class, True)
    if rng.random() < 0.4 if indefinite is None else indefinite:
        return first + b"\x80" + octets + rng.choice([b"\0\0"] * 36 + [b"", b"\0", b"\0\1"])
    length = len(octets) if rng.random() < 0.98 else max(0, len(octets) + rng.choice([-2, -1, 1, 2]))
    return first + length_octets(rng, length) + octets


def tag(rng):
    """Returns a random class and number."""
    tag_class = rng.choice([0, 1, 2, 2, 3])
    large = rng.getrandbits(rng.choice([20, 40, 62, 63]))
    small = rng.choice([rng.randrange(6), rng.randrange(31), rng.randrange(31, 40)])
    number = rng.choice([small, small, small, 127, 128, 255, 16383, 16384, large, (1 << 63) - 1])
    return tag_class, number + (tag_class == 0 and number == 0)


def leaf(rng):
    """Returns a primitive, mostly of a universal type with contents for that type."""
    choice = rng.random()
    if choice < 0.8:
        number = rng.choice(LEAVES)
        return primitive(rng, number, contents.of_type(rng, number))
    if choice < 0.9:
        tag_class, number = tag(rng)
        return primitive(rng, number, contents.any_octets(rng), tag_class)
    return primitive(rng, rng.randrange(1, 39), contents.any_octets(rng, 20))


# Sizes of segments that have about 1000 octets together, counted as octets or as bits.
NEAR_1000 = ((1000,), (1001,), (1000, 0), (1000, 1), (1000, 2), (1000, 3), (999, 1), (999, 2), (1000, 1, 2))
NEAR_1000 += ((500, 500), (500, 501), (500, 502), (400, 301, 301))


def segments(rng):
    """Returns a string in segments: for CER segments of 1000 octets, and for the other rules short ones."""
    number = rng.choice(STRING_TYPES + (BITS, BITS, BITS, OCTETS))
    kind = BITS if number == BITS else OCTETS
    sizes = [rng.choice([0, 1, 2, 5, 17, 70]) for _ in range(rng.randrange(5))]
    if rng.random() < 0.6:
        last = rng.choice([0, 1, 2, 999, 1000, rng.randrange(1000)])
        sizes = [1000] * rng.choice([0, 1, 1, 2, 3]) + [last]
        if rng.random() < 0.4:
            sizes[rng.randrange(len(sizes))] = rng.choice([999, 1001, 0, 1, 998, 1000])
    elif rng.random() < 0.5:
        sizes = list(rng.choice(NEAR_1000))
    parts = [segment(rng, kind, size) for size in sizes]
    if parts and rng.random() < 0.25:
        parts[rng.randrange(len(parts))] = odd_segment(rng, kind)
    return constructed(rng, number, b"".join(parts), indefinite=rng.random() < 0.8)


def segment(rng, kind, size):
    """Returns a segment of this size. A segment of bits begins with the number of unused bits."""
    octets = rng.randbytes(size)
    if kind == BITS and octets:
        unused = rng.choice([0, 0, 0, 0, 1, 4, 7, 8])
        octets = bytes([unused]) + octets[1:]
        if unused <= 7 and size > 1 and rng.random() < 0.8:
            octets = octets[:-1] + bytes([octets[-1] >> unused << unused])
    return identifier(rng, kind) + length_octets(rng, size, 0.02) + octets


def odd_segment(rng, kind):
    """Returns a segment with another tag, or a constructed one."""
    choice = rng.random()
    if choice < 0.4:
        other = rng.choice([BITS + OCTETS - kind, 12, 5, 16])
        return primitive(rng, other, rng.randbytes(rng.choice([0, 1, 2, 1000])))
    number = kind if choice < 0.8 else rng.choice(STRING_TYPES + (SEQUENCE,))
    inner = [segment(rng, kind, rng.choice([0, 1, 3, 500, 1000])) for _ in range(rng.randrange(4))]
    return constructed(rng, number, b"".join(inner))


def wrapping(rng, level):
    """Returns an OCTET STRING or BIT STRING that holds encodings, which rarely have a small fault."""
    inner = several(rng, level + 1, rng.choice([0, 1, 1, 2]))
    if rng.random() < 0.15:
        inner = damaged(rng, inner)
    if rng.random() < 0.4:
        return primitive(rng, BITS, bytes([rng.random() < 0.05]) + inner)
    return primitive(rng, OCTETS, inner)


def element(rng, level=0):
    """Returns a random element."""
    choice = rng.random()
    if level >= MOST_LEVELS or choice < 0.5:
        return leaf(rng)
    if choice < 0.62:
        return segments(rng)
    if choice < 0.76:
        return wrapping(rng, level)
    inner = several(rng, level + 1, rng.choice([0, 1, 1, 2, 3]))
    if choice < 0.92:
        return constructed(rng, rng.choice([SEQUENCE, SEQUENCE, SET]), inner)
    tag_class, number = tag(rng)
    return constructed(rng, number, inner, tag_class)


def several(rng, level, count):
    """Returns elements that follow each other."""
    return b"".join(element(rng, level) for _ in range(count))


def deep(rng):
    """Returns nested elements, about as many as may be open."""
    octets = leaf(rng) if rng.random() < 0.5 else b""
    kind = rng.choice(["indefinite", "definite", "mixed", "wraps"])
    for _ in range(rng.choice([20, 60, 126, 127, 128, 128, 129, 129, 130, 140])):
        if kind == "wraps" and rng.random() < 0.1:
            octets = bytes([OCTETS]) + shortest(len(octets)) + octets
        elif kind == "indefinite" or kind == "mixed" and rng.random() < 0.5:
            octets = rng.choice([b"\x30", b"\x24", b"\xa0"]) + b"\x80" + octets + b"\0\0"
        else:
            octets = rng.choice([b"\x30", b"\x31", b"\xa3"]) + shortest(len(octets)) + octets
    return octets


def damaged(rng, octets):
    """Returns the octets with some changed, removed, inserted, or cut off."""
    octets = bytearray(octets)
    for _ in range(rng.choice([1, 1, 1, 2, 3])):
        place, ends = rng.randrange(len(octets) + 1), octets.find(b"\0\0")
        if rng.random() < 0.4:
            place = min(place, rng.randrange(12))
        elif ends >= 0 and rng.random() < 0.4:
            place = ends + rng.choice([0, 1, 1, 2])
        new = rng.choice([0x00, 0x80, 0xFF, 0x7F, 0x81, 0x24, 0x30, rng.randrange(256)])
        how = rng.randrange(6)
        if how <= 1:
            octets[place : place + 1] = [new]
        elif how == 2:
            del octets[place : place + rng.choice([1, 1, 2, 5])]
        elif how == 3:
            octets[place:place] = [new] * rng.choice([1, 1, 2, 9])
        elif how == 4:
            del octets[place:]
        else:
            octets += rng.randbytes(rng.randrange(4))
    return bytes(octets)


def padded(rng, level=0):
    """Returns elements with octets 00 before, between and after them."""
    zeros = [0, 0, 1, 2, 3, 16, 100]
    octets = b"\0" * rng.choice(zeros)
    for _ in range(rng.randrange(4)):
        octets += element(rng, level + 2) + b"\0" * rng.choice(zeros)
    return octets


def header(rng):
    """Returns a header with an unusual length or a long tag, and some octets after it."""
    first = rng.choice([b"\x04", b"\x30", b"\x1f", b"\xbf", b"\x03", b"\x24"])
    if first[0] & 0x1F == 0x1F:
        first += bytes(rng.randrange(128, 256) for _ in range(rng.choice([0, 1, 2, 7, 8, 9]))) + b"\x07"
    count = rng.choice([1, 2, 4, 5, 6, 7, 126, 127])
    length = rng.choice([0, 1, 5, 200, 1 << 32, (1 << 40) - 1, 1 << 40]).to_bytes(count + 8, "big")[-count:]
    return first + bytes([0x80 | count]) + length + rng.randbytes(rng.randrange(8))


def cramped(rng):
    """Returns a definite element or a string that is mostly too short for the indefinite elements in it."""
    octets = several(rng, 3, 1)
    for _ in range(rng.choice([1, 1, 2, 3])):
        octets = b"\x30\x80" + octets + b"\0\0"
    length = max(0, len(octets) - rng.choice([0, 1, 2, 3, 3, 4, 5, 6, 7]))
    return rng.choice([b"\x30", b"\x30", b"\x04"]) + length_octets(rng, length) + octets


def input_octets(rng):
    """Returns an input, and whether it is to be read with `--padding`."""
    choice = rng.random()
    if choice < 0.34:
        octets = several(rng, 0, rng.choice([1, 1, 2, 3]))
    elif choice < 0.42:
        return padded(rng), True
    elif choice < 0.5:
        octets = deep(rng)
    elif choice < 0.57:
        octets = segments(rng)
    elif choice < 0.77:
        octets = b"".join(leaf(rng) for _ in range(rng.randrange(1, 16)))
    elif choice < 0.81:
        octets = cramped(rng)
    elif choice < 0.85:
        octets = several(rng, 3, rng.choice([0, 1])) + header(rng)
    elif choice < 0.87:
        octets = rng.randbytes(rng.randrange(12))
    else:
        octets = wrapping(rng, 1)
    if rng.random() < 0.3:
        octets = damaged(rng, octets)
    return octets, rng.random() < 0.1

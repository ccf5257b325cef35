"""Draws inputs for --why at random: sound encodings that were changed, and short random octets."""
import glob
import os

from second_opinion import commands, drawing, show_drawing
from second_opinion.reading import Reading

TESTS = os.path.dirname(os.path.dirname(os.path.realpath(__file__)))
FILES = sorted(glob.glob(os.path.join(TESTS, "data", "*")))
FILES.append(os.path.join(os.path.dirname(TESTS), "data", "certificate.der"))
# The largest size of an encoding that is changed. The second opinion reads all of it for each of many candidates.
MOST_OCTETS = 1200
FRONTS = (b"PK\x03\x04", b"PK\x03", b"\x1f\x8b", b"\x1f\x8b\x08\0", b"BZh", b"BZh91AY", b"%PDF-1.7", b"<", b"<?xml ")
FRONTS += (b"openssh-key", b"openssh-key-v1\0", b"\0", b"\0\0\0", b"\xef\xbb\xbf", b"\x02\x93", b"\x7a", b"\x3a\x05")
FRONTS += (b"\xff\xfe", b"\xfe\xff", b"\xef\xbf\xbd", b"\xef\xbf")
BLANKS = (b"\n", b"\r\n", b" ", b"\t", b"\x1a", b"\n\n", b"\r", b" \n ", b"\n\x1a")
FIRST_OCTETS = bytes.fromhex("30303124020405 8080a0bf9f81828586ff 0000000102030a")
INDEFINITE = 0.25
# The most octets of an input that is searched as a whole.
LONG = 1 << 20


def read(path):
    """Returns the octets of a file."""
    with open(path, "rb") as file:
        return file.read()


def sound(rng):
    """Returns sound encodings: those of a file, or random ones, some with indefinite lengths."""
    while True:
        choice = rng.random()
        if choice < 0.25:
            octets = real(rng)
        elif choice < 0.5:
            octets = drawing.several(rng, rng.randrange(4), rng.choice([1, 1, 2, 3]))
        elif choice < 0.6:
            octets = show_drawing.certificate(rng)
        elif choice < 0.75:
            octets = nested(rng)
        else:
            octets = show_drawing.nest(rng)
        reading = Reading(octets)
        if octets and len(octets) <= MOST_OCTETS and not reading.fault:
            return commands.indef(reading, reading.items) if rng.random() < INDEFINITE else octets


def nested(rng, level=0):
    """Returns short constructed elements, mixed with primitives."""
    octets = b""
    for _ in range(rng.choice([0, 1, 1, 2, 3])):
        octets += show_drawing.small(rng) if level > 4 or rng.random() < 0.4 else nested(rng, level + 1)
    tag = rng.choice([b"\x30", b"\x31", b"\xa0", b"\xa3", b"\x24", b"\x7f\x21"])
    if rng.random() < 0.3:
        return tag + b"\x80" + octets + b"\0\0"
    return tag + drawing.length_octets(rng, len(octets)) + octets


def real(rng):
    """Returns the encoding in a file, or one of its elements."""
    octets = read(rng.choice(FILES))
    elements = [it for it in Reading(octets).elements() if it.constructed and it.end - it.offset <= MOST_OCTETS]
    it = elements[0] if rng.random() < 0.6 else rng.choice(elements)
    return octets[it.offset : it.end]


def other_length(rng, octets):
    """Changes one length by 1 to 5, if its octets have room for that."""
    it = rng.choice(Reading(octets).elements())
    if it.length is None:
        return octets
    length = max(0, it.length + rng.choice([-5, -4, -3, -2, -1, -1, 1, 1, 2, 3, 4, 5]))
    count = len(it.length_octets) - 1
    if length >= (1 << 8 * count if count else 128):
        return octets
    said = it.length_octets[:1] + length.to_bytes(count, "big") if count else bytes([length])
    return octets[: it.start - len(said)] + said + octets[it.start :]


def cut(rng, octets):
    """Cuts octets off the end."""
    return octets[: rng.randrange(len(octets) + 1)] if rng.random() < 0.7 else octets[: -rng.randrange(1, 4)]


def put_in(rng, octets):
    """Inserts octets."""
    place = rng.randrange(len(octets) + 1)
    new = rng.choice([rng.randbytes(rng.choice([1, 1, 2, 5])), b"\0" * rng.randrange(1, 4), b"\r", b"\xff" * 3, b"\x80"])
    return octets[:place] + new + octets[place:]


def left_out(rng, octets):
    """Removes octets."""
    place = rng.randrange(len(octets))
    return octets[:place] + octets[place + rng.choice([1, 1, 2, 3, 5, 20]) :]


def changed(rng, octets):
    """Changes an octet: any, or one of a header."""
    place = rng.randrange(len(octets))
    if rng.random() < 0.6:
        it = rng.choice(Reading(octets).elements())
        place = rng.randrange(it.offset, it.start)
    new = rng.choice([0, 0x80, 0xFF, 0x9F, 0x86, 0x1F, 0x30, rng.randrange(256), octets[place] ^ 1 << rng.randrange(8)])
    return octets[:place] + bytes([new]) + octets[place + 1 :]


def among_records(rng, octets):
    """Puts records in front and behind, which mostly begin with the same octet, and damages the octets."""
    def record():
        return show_drawing.whole(octets[0] if rng.random() < 0.8 else 0xA0, show_drawing.small(rng) + nested(rng, 3))
    front, back = (b"".join(record() for _ in range(rng.choice([0, 1, 2, 3]))) for _ in "fb")
    damage = rng.choice([changed, changed, other_length, put_in, left_out, cut])
    return front + damage(rng, octets) + back


def damaged_twice(rng, _):
    """Returns damaged records behind a whole one, with a string between them that is mostly long, and others around them."""
    tag = rng.choice([0x30, 0x30, 0x31, 0xA0])

    def record(damage=None):
        inside = show_drawing.whole(tag, show_drawing.small(rng) + nested(rng, 3))
        return damage(rng, inside) if damage else inside
    damages = [changed, changed, other_length, put_in, left_out]
    between = show_drawing.whole(4, bytes(rng.choice([10, 3900, 4000, 4050, 4080, 4090, 4100, 5000])))
    parts = [record(), record(rng.choice(damages)), between, record(rng.choice(damages)), record()]
    if rng.random() < 0.5:
        parts[2:2] = [record()]
    return b"".join(parts)


def in_window(rng, octets):
    """Damages the octets between long strings, so that an input of more than 2^20 octets is mostly searched from the damaged ones
    on, or puts them among records. Another damaged record may follow.
    """
    if rng.random() < 0.7:
        return among_records(rng, octets)
    damages = [changed, other_length, other_length, put_in, left_out, cut]
    behind = rng.choice([0, 10, LONG // 2, LONG, LONG + 5, LONG - rng.randrange(2000), LONG - rng.randrange(2000)])
    parts = [string(LONG - rng.randrange(100)), rng.choice(damages)(rng, octets), string(behind), show_drawing.small(rng)]
    if rng.random() < 0.2:
        parts.insert(rng.choice([2, 3]), rng.choice(damages)(rng, nested(rng, 3)))
    return b"".join(parts)


def string(size):
    """Returns an OCTET STRING with so many contents octets."""
    return show_drawing.whole(4, bytes(size))


def in_chunks(rng, octets):
    """Puts the octets into chunks of HTTP."""
    size = f"{len(octets) + rng.choice([0, 0, 0, 1]):{rng.choice(['x', 'X', '08x', '09x'])}}".encode()
    return size + b"\r\n" + octets + b"\r\n" + rng.choice([b"", b"0\r\n\r\n"])


def as_text(rng, octets):
    """Changes the octets as a copy in text mode does."""
    if rng.random() < 0.5:
        place = rng.randrange(len(octets))
        octets += b"" if b"\n" in octets or rng.random() < 0.3 else inside_string(rng, b"\x0a")
        return octets.replace(b"\n", b"\r\n") if place % 3 else octets.replace(b"\n", b"\r\n", 1)
    octets += b"" if rng.random() < 0.5 else inside_string(rng, rng.randbytes(rng.choice([1, 3, 20, 200])))
    if rng.random() < 0.3:
        return octets.decode("utf-8", "replace").encode()
    return octets.decode("latin-1").encode("utf-8", "replace")


def inside_string(rng, octets):
    """Returns an element with a string that holds these octets."""
    string = show_drawing.whole(4, octets) + show_drawing.small(rng)
    return show_drawing.whole(0x30, string) if rng.random() < 0.8 else string


def front(rng, octets):
    """Puts octets in front."""
    if rng.random() < 0.5:
        return rng.choice(FRONTS) + octets
    return rng.randbytes(rng.choice([1, 2, 3, 5, 10, 63, 64, 65, 66])) + octets


def after(rng, octets):
    """Adds octets at the end."""
    choice = rng.random()
    if choice < 0.3:
        return octets + rng.choice(BLANKS)
    if choice < 0.5:
        return octets + bytes([rng.choice([0xFF, 0xFF, 0, 0x20, 0x41, 0x1A])]) * rng.choice([1, 2, 3, 20])
    if choice < 0.7:
        return octets + rng.randbytes(rng.choice([1, 2, 3, 8]))
    more = show_drawing.small(rng) if rng.random() < 0.5 else nested(rng)
    return octets + cut(rng, more) + rng.choice([b"", b"", b"\0", b"\0\0"])


def padded(rng, octets):
    """Puts octets 00 before, between or after encodings."""
    zeros = [b"", b"\0", b"\0\0", b"\0" * 5]
    return rng.choice(zeros) + octets + rng.choice(zeros) + show_drawing.small(rng) + rng.choice(zeros)


def odd_header(rng, octets):
    """Puts a header that is refused in place of one, or at the end."""
    header = rng.choice([
        b"\x3f" + b"\xff" * rng.choice([8, 9, 20]) + b"\x01", b"\x04\xff", b"\x04\x80", b"\x30\xff\x01", b"\x9f\x21\x80",
        b"\x04\x86\x01" + b"\0" * 6, b"\x30\xa0" + b"\0" * 20 + b"\x01" + b"\0" * 12, b"\x04\x85\xff" + b"\0" * 4,
        b"\x1f\x80\x80"])
    if rng.random() < 0.4:
        return octets + header
    it = rng.choice(Reading(octets).elements())
    return octets[: it.offset] + header + octets[it.offset if rng.random() < 0.5 else it.start :]


def other_octet(rng, octets):
    """Changes the first length octet of a header by 1 to 5, so that the form of the length may change too."""
    it = rng.choice(Reading(octets).elements())
    place = it.offset + len(it.identifier)
    new = max(0, octets[place] + rng.choice([-5, -3, -2, -1, -1, 1, 2, 5]))
    return octets[:place] + bytes([min(new, 255)]) + octets[place + 1 :]


def far(rng, _):
    """Returns an element in which a string holds too much: the header of a constructed element. So an end is refused,
    about 25 headers after the string.
    """
    holder = b"\x30\x80" + b"\x30\x80\0\0" * rng.choice([21, 22, 23, 24, 24, 25, 25, 26, 27])
    string = show_drawing.whole(4, b"a" * rng.randrange(3) + holder[:2])
    return b"\x30\x80" + string + holder[2:] + b"\0\0" * 2


def unended(rng, octets):
    """Returns an element of indefinite length inside definite ones, without its end-of-contents octets or the second of
    them. The octets are cut after the inner elements.
    """
    octets = b"\x30\x80" + (octets if len(octets) < 300 else show_drawing.small(rng)) + rng.choice([b"", b"", b"\0"])
    more = b""
    for _ in range(rng.choice([1, 2, 2, 3])):
        octets = show_drawing.whole(0x30, octets + more)
        more = show_drawing.small(rng) if rng.random() < 0.5 else b""
    octets = show_drawing.whole(0x30, octets + more)
    return octets[: len(octets) - len(more)]


CHANGES = (other_length, other_length, other_length, cut, put_in, left_out, changed, as_text, front, after, padded, odd_header)
CHANGES += (other_octet, unended, far, among_records, among_records, damaged_twice, in_window, in_chunks)


def few(rng):
    """Returns a few octets that may be headers."""
    size = rng.choice([0, 1, 2, 3, 4, 5, 6, 7, 8, 10, 14])
    if rng.random() < 0.1:
        return b"\0" * size
    if rng.random() < 0.3:
        return rng.randbytes(size)
    return bytes(rng.choice(FIRST_OCTETS) for _ in range(size))


def input_octets(rng):
    """Returns an input, and whether it is to be read with `--padding`."""
    choice = rng.random()
    if choice < 0.2:
        return few(rng), rng.random() < 0.3
    if choice < 0.25:
        return rng.choice([drawing.deep, drawing.cramped, drawing.header])(rng), rng.random() < 0.1
    octets = sound(rng)
    if choice < 0.28:
        return as_text(rng, padded(rng, octets)), True
    for _ in range(rng.choice([1, 1, 1, 2])):
        if octets and not Reading(octets).fault:
            octets = rng.choice(CHANGES)(rng, octets)
    return octets, rng.random() < 0.15

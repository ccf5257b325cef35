"""Draws contents of primitives at random: about four fifths are right for the type, the others have something wrong."""
LENGTHS = (0, 1, 2, 3, 7, 8, 9, 10, 11, 15, 16, 17, 18, 31, 32, 33, 48, 49, 63, 64, 65, 66)
LENGTHS += (100, 127, 128, 129, 130, 200)
LONG = (255, 256, 257, 999, 1000, 1001, 1002, 2000)
LONG += (4080, 4090, 4094, 4095, 4096, 4097, 4100, 5000, 8190, 9000)
# Object identifiers that a names file is likely to have, and others.
KNOWN = ("2.5.4.3", "2.5.4.6", "2.5.29.15", "1.2.840.113549.1.1.1", "1.2.840", "1.3.6.1", "2.999")
KNOWN += ("0.9.2342", "1.3.101.112")
# Some with long texts, whose encodings have up to 64 octets.
KNOWN += ("1.3.6.1.4.1.311.21.8.15041462.15123212.9520540.10244456.12914242.71.1", "2.47" + ".127" * 63)
KNOWN += (f"2.5.{(1 << 128) - 1}.7.{(1 << 127) + 1}", "1.3" + ".7" * 63, "2.25.329800735698586629295641978511506172918")


def some_length(rng, most=1 << 20):
    """Returns a length: small, near the width of a row, or sometimes near a read of 4096 octets."""
    choice = rng.random()
    if choice < 0.05:
        return min(rng.choice(LONG), most)
    return min(rng.randrange(70) if choice < 0.35 else rng.choice(LENGTHS), most)


def any_octets(rng, most=1 << 20):
    """Returns random octets."""
    length = some_length(rng, most)
    return bytes([rng.randrange(256)]) * length if rng.random() < 0.3 else rng.randbytes(length)


def of_type(rng, number):
    """Returns contents for a universal type."""
    makers = {1: boolean, 2: integer, 10: integer, 3: bit_string, 5: null, 23: time, 24: time}
    if number in makers:
        return makers[number](rng)
    if number in (6, 13):
        return identifier(rng, number == 13)
    if number in (7, 12, 30, *range(18, 29)):
        return text(rng, number)
    return any_octets(rng)


def boolean(rng):
    """Returns FALSE, TRUE, another value of TRUE, or a wrong number of octets."""
    return rng.choice([b"\0", b"\xff", b"\xff", b"\x01", b"\xfe", b"", b"\xff\x00", rng.randbytes(17)])


def null(rng):
    """Returns no octets, or rarely some, which are wrong."""
    return b"" if rng.random() < 0.8 else any_octets(rng)


def integer(rng):
    """Returns a number, with the fewest octets or with one too many."""
    size = rng.choice([0, 1, 1, 2, 3, 8, 15, 16, 17, 18, 33, 130])
    octets = rng.randbytes(size)
    choice = rng.random()
    if choice < 0.2:
        octets = rng.choice([b"\0", b"\xff", b"\x80", b"\x7f"]) + octets
    elif choice < 0.35 and size:
        octets = rng.choice([b"\x80", b"\x7f", b"\0", b"\xff"]) + rng.choice([b"\0", b"\xff"]) * (size - 1)
    return octets


def bit_string(rng):
    """Returns a number of unused bits, and bits. Mostly the unused bits are 0."""
    octets = rng.randbytes(some_length(rng))
    unused = rng.choice([0, 0, 0, rng.randrange(8), rng.randrange(8), 8, 255])
    if octets and unused <= 7 and rng.random() < 0.7:
        octets = octets[:-1] + bytes([octets[-1] >> unused << unused])
    return bytes([unused]) + octets if rng.random() < 0.95 else b""


def base_128(number, padding=0):
    """Returns a subidentifier, with `padding` octets 80 in front."""
    octets = [number & 0x7F]
    while number > 127:
        number >>= 7
        octets.insert(0, number & 0x7F | 0x80)
    return bytes([0x80] * padding + octets)


LARGE = (1 << 127, (1 << 128) - 1, 1 << 128, (1 << 128) + 39, (1 << 128) + 80, 1 << 134)


def identifier(rng, relative):
    """Returns an object identifier: a known one, or random subidentifiers. Rarely it is padded or unfinished."""
    if rng.random() < 0.4:
        numbers = [int(arc) for arc in rng.choice(KNOWN).split(".")]
        if not relative:
            numbers[:2] = [40 * numbers[0] + numbers[1]]
    else:
        count = rng.choice([0, 1, 1, 2, 3, 8, 15, 16, 17, 63, 64, 65])
        widths = [1, 6, 7] if count > 8 else [6, 7, 8, 14, 31, 32, 63, 64, 65, 100]
        numbers = [rng.getrandbits(rng.choice(widths)) for _ in range(count)]
        if numbers and rng.random() < 0.3:
            numbers[0] = rng.choice([0, 39, 40, 79, 80, 119, 120])
    if rng.random() < 0.15:
        numbers.append(rng.choice(LARGE))
    if rng.random() < 0.1:
        numbers.insert(0, rng.choice([(1 << 128) - 1, (1 << 128), 1 << 128 - 1]))
    paddings = [rng.choice([1, 2]) if rng.random() < 0.02 else 0 for _ in numbers]
    octets = b"".join(map(base_128, numbers, paddings))
    return octets + b"\x86" * rng.choice([1, 1, 20]) if rng.random() < 0.06 else octets


def digits(rng, least, most, count=2):
    """Returns a number in decimal, rarely out of its range."""
    number = rng.choice([least, most, rng.randint(least, most), rng.randint(least, most)])
    if rng.random() < 0.02:
        number = rng.choice([0, most + 1, most + 2])
    return f"{number:0{count}}"[-count:]


def time(rng):
    """Returns a UTCTime or GeneralizedTime, which mostly obeys its grammar."""
    whole = digits(rng, 0, 9999, rng.choice([2, 4]))
    whole += digits(rng, 1, 12) + digits(rng, 1, 31) + digits(rng, 0, 23)
    for most in (59, 59, 60):
        if rng.random() < 0.9:
            whole += digits(rng, 0, most)
    if rng.random() < 0.3:
        count = rng.choice([0, 1, 1, 2, 3, 9, 44, 47, 48, 49, 60])
        fraction = "".join(rng.choice("0123456789") for _ in range(count))
        whole += rng.choice("..,") + fraction
    difference = rng.choice("+-") + digits(rng, 0, 23) + digits(rng, 0, 59)
    whole += rng.choice(["Z", "Z", "Z", "", difference, "+05", "-2400"])
    if rng.random() < 0.1:
        place = rng.randrange(len(whole))
        new = rng.choice(["", "x", "Z", " ", "0", "9", "\0"])
        whole = whole[:place] + new + whole[place + rng.randrange(2) :]
    return whole.encode()


ALPHABETS = {18: b"0123456789 ", 19: b"AZaz09 '()+,-./:=?", 22: bytes(range(128)), 26: bytes(range(32, 127))}
WRONG = (b"\0", b"\x1f", b"\x7f", b"\x80", b"\xff", b"A", b"*", b"@", b"&", b"_", b"\n", b"\"", b"\\")


def text(rng, number):
    """Returns a string of characters of this type, rarely with another character."""
    if number in (12, 28, 30):
        return wide_text(rng, number)
    alphabet = ALPHABETS.get(number, bytes(range(256)))
    octets = bytes(rng.choice(alphabet) for _ in range(some_length(rng)))
    if rng.random() < 0.15:
        place = rng.randrange(len(octets) + 1)
        octets = octets[:place] + rng.choice(WRONG) + octets[place + 1 :]
    return octets


CODES = (0, 0x0A, 0x22, 0x41, 0x5C, 0x7A, 0x7E, 0x7F, 0x80, 0xE9, 0x7FF, 0x800, 0x20AC)
CODES += (0xD7FF, 0xE000, 0xFFFD, 0xFFFF)
HIGH_CODES = (0x10000, 0x1F600, 0x10FFFF)
ILL_FORMED = tuple(map(bytes.fromhex, (
    "80 bf c0 c1 c2 df e0 ef f0 f4 f5 ff c080 c1bf e08080 e09fbf eda080 edbfbf f0808080 f08fbfbf f4908080"
    " f0c3a9 c341 e282 e28241 f09f98 f09f9841 f880808080 c3c3a9 e2c3a9 efbf f48f f48fbf").split()))


def wide_text(rng, number):
    """Returns characters of UTF8String, UniversalString or BMPString, rarely with octets that are no character."""
    codes = CODES + (HIGH_CODES if number != 30 else ())
    most, plain = rng.choice([some_length(rng, 5000), rng.randrange(60, 140)]), rng.random() < 0.4
    octets = b""
    while len(octets) < most:
        code = rng.choice(codes) if not plain or rng.random() < 0.1 else 0x61
        octets += encoded(number, code)
    if rng.random() < 0.3:
        for _ in range(rng.choice([1, 1, 2, 5])):
            place = rng.randrange(len(octets) + 1)
            octets = octets[:place] + wrong_character(rng, number) + octets[place:]
    return octets[: rng.choice([len(octets), len(octets), most])]


def encoded(number, code):
    """Returns the octets of a character."""
    if number == 12:
        return chr(code).encode()
    return code.to_bytes(4 if number == 28 else 2, "big")


def wrong_character(rng, number):
    """Returns octets that are no character of the type."""
    if number == 12:
        return rng.choice(ILL_FORMED)
    size = 4 if number == 28 else 2
    wrong = [0xD800, 0xDBFF, 0xDC00, 0xDFFF, 0x110000, 0xFFFFFFFF, 0x7FFFFFFF]
    return rng.choice([b"a", b"\0", rng.choice(wrong).to_bytes(4, "big")[-size:]])

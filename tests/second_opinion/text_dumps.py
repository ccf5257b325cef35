"""Decodes hex dumps: "Hex dump" in docs/TEXTS.md."""
import re
from dataclasses import dataclass

# How many octets a text may have, and how many more than characters.
MOST_OCTETS, MOST_MORE = 1 << 30, 1 << 24
USUAL_WIDTH, MOST_WIDTH, WORD_SIZES = 16, 256, (2, 4, 8, 16)
PAIR = rb"[0-9a-fA-F]{2}"
OFFSET = rb"[ \t]*(?:0[xX])?(%s{4,16})"
DIGITS = {16: rb"[0-9a-fA-F]", 8: rb"[0-7]"}
PREFIX = rb"0[xX]"
# What separates the offset from the digits of the first pair: also a symbol, and `0x`.
FRONT = rb"(:|[ \t]+(<[^>]*>)?:?)-?[ \t]*(%s)?(?=%s)" % (PREFIX, PAIR)
REPEAT, EMPTY = re.compile(rb"[ \t]*\*[ \t]*"), re.compile(rb"[ \t]*")
# AT_ONCE, a digit or a colon, may not follow the pairs of a row directly. MORE may not follow the pairs of a full row: it is a blank and a
# pair with a blank or the end of the line after it.
AT_ONCE = re.compile(DIGITS[16] + rb"|:")
MORE = re.compile(rb"[ \t]%s(?=[ \t]|\Z)" % PAIR)
# A character that counts behind the pairs of a row: no blank, and no further octet of a character of UTF-8. There may
# be as many as the row has octets, and BARS more.
BEHIND, BARS = re.compile(rb"[^ \t\x80-\xbf]"), 2
# An offset in front of a line, by its base.
FRONT_OFFSET = {base: re.compile(OFFSET % digits + rb"(?=[: \t]|\Z)") for base, digits in DIGITS.items()}
# A row that has a pair, with a hexadecimal offset.
ROW = re.compile(OFFSET % DIGITS[16] + FRONT)
# An offset as od writes it.
OF_OD = re.compile(rb"[ \t]*(?:0[xX])?[0-7]{7}[ \t]")


class TooLong(Exception):
    """The blocks of a text have too many octets (X4)."""


@dataclass
class Decoded:
    """The octets that a text gives, and the place where it is refused, or None. For a dump also the place of the line in
    front of which it ends, though it is not refused, and the offset of its first row.
    """

    octets: bytes
    place: int | None = None
    end: int | None = None
    start: int = 0


@dataclass
class Line:
    """A line that is a row, a repeat or the end: where it begins, its offset, and for a row where its first pair is."""

    kind: str
    place: int
    text: bytes
    offset: int | None = None
    start: int | None = None
    has_colon: bool = False
    has_symbol: bool = False
    has_prefix: bool = False


def decoded(text):
    """Returns what a hex dump gives. Offsets are octal if they are as od writes them, and fit, or fit further than as
    hexadecimal ones.
    """
    dump = Dump(text, 16)
    if OF_OD.match(dump.first):
        octal = Dump(text, 8)
        dump = octal if octal.fits_further(dump) else dump
    octets = dump.octets()
    if octets and dump.place is not None and ends_at(text, dump.place):
        return Decoded(octets, None, dump.place)
    return Decoded(octets, dump.place, start=dump.start)


def ends_at(text, place):
    """Returns whether a dump that is refused at a line ends there: the line has no offset, no row and no repeat comes
    from there on, and the last line before it that is not empty is no repeat.
    """
    before = [line for _, line in lines_of(text[:place]) if not EMPTY.fullmatch(line)]
    after = [line for _, line in lines_of(text[place:])]
    if FRONT_OFFSET[16].match(after[0]) or before and REPEAT.fullmatch(before[-1]):
        return False
    return not any(ROW.match(line) or REPEAT.fullmatch(line) for line in after)


def lines_of(text):
    """Returns each line with the place where it begins. A carriage return at its end is dropped."""
    found, place = [], 0
    for line in text.split(b"\n"):
        found.append((place, line.removesuffix(b"\r")))
        place += len(line) + 1
    return found


class Dump:
    """A dump whose offsets have this base.

    `place` is where it is refused, or None. `first` is the first row, and `start` its offset. `pieces` are octets, each
    with a size: the octets are repeated up to this size, because a repeat may stand for many. `width` is the number of
    octets in a row. It is None for a single row, which may have any number.
    """

    def __init__(self, text, base):
        """Reads the text."""
        self.row = re.compile(OFFSET % DIGITS[base] + FRONT)
        self.end = re.compile(OFFSET % DIGITS[base] + rb"[ \t]*")
        self.base, self.text_size = base, len(text)
        self.pieces, self.place, self.first, self.start = [], None, b"", 0
        lines = lines_of(text)
        items, misfit = self.items_of(lines)
        if items:
            self.first, self.start = items[0].text, items[0].offset
            self.width = self.width_of(items[0], lines)
            self.read(items, misfit)
        else:
            self.place = len(text) if misfit is None else misfit

    def octets(self):
        """Returns the octets of all pieces. Raises TooLong if they are more than 2^30, or 2^24 more than characters."""
        if sum(size for _, size in self.pieces) > min(MOST_OCTETS, self.text_size + MOST_MORE):
            raise TooLong
        return b"".join((octets * (size // len(octets) + 1))[:size] for octets, size in self.pieces)

    def fits_further(self, other):
        """Returns whether this reading is not refused, or is refused further on than another one."""
        return self.place is None or other.place is not None and self.place > other.place

    def line_of(self, place, text):
        """Returns a line by its kind, or None if it is of no known kind."""
        row = self.row.match(text)
        if row:
            marks = row[2].startswith(b":"), row[3] is not None, row[4] is not None
            return Line("row", place, text, int(row[1], self.base), row.end(), *marks)
        end = self.end.fullmatch(text)
        if end:
            return Line("end", place, text, int(end[1], self.base))
        return Line("repeat", place, text) if REPEAT.fullmatch(text) else None

    def items_of(self, lines):
        """Returns the lines from the first row on, without empty
        lines, and the place of a line that cannot stand there.
        """
        items = []
        for place, text in lines:
            line = self.line_of(place, text)
            if not items:
                if line and line.kind == "repeat":
                    return items, place
                items += [line] if line and line.kind == "row" else []
            elif not EMPTY.fullmatch(text):
                if line is None or items[-1].kind == "end":
                    return items, place
                items.append(line)
        return items, None

    def read(self, items, misfit):
        """Reads the lines up to the first that does not fit."""
        self.is_single = self.width is None
        self.next_offset, self.before, self.is_repeated = items[0].offset, None, False
        if self.has_other_octets(items[0]):
            self.place = items[0].place
            return
        fits = {"row": self.fits_row, "repeat": self.fits_repeat, "end": self.fits_end}
        for item in items:
            if not fits[item.kind](item):
                self.place = item.place
                return
        self.place = items[-1].place if self.is_repeated and misfit is None else misfit

    def is_short(self):
        """Returns whether the row before has too few octets. Neither a row nor a repeat fits after such a row."""
        return self.before is not None and len(self.before) != self.width

    def fits_offset(self, offset):
        """Returns whether an offset fits.
        After a repeat it does if one or more rows fill the octets up to it, which are added.
        """
        more = offset - self.next_offset
        if not self.is_repeated:
            return more == 0
        if more <= 0 or more % self.width:
            return False
        self.pieces.append((self.before, more))
        self.next_offset, self.is_repeated = offset, False
        return True

    def fits_repeat(self, _):
        """Notes a repeat. Returns whether it fits: it does after a full row."""
        fits = not self.is_short() and not self.is_repeated
        self.is_repeated = self.is_repeated or fits
        return fits

    def fits_row(self, row):
        """Adds the octets of a row. Returns whether it fits."""
        if self.is_short() or self.is_single and row.offset != 0 and not (row.has_colon or row.has_symbol):
            return False
        octets, at = self.pairs(row, self.width, 1 if self.is_single else 2)
        if AT_ONCE.match(row.text, at) or len(octets) == self.width and MORE.match(row.text, at):
            return False
        most_behind = 0 if row.has_prefix else len(octets) + BARS
        if len(BEHIND.findall(row.text, at)) > most_behind or begins_row(row.text, at, row.offset + len(octets)):
            return False
        if not self.fits_offset(row.offset):
            return False
        self.pieces.append((octets, len(octets)))
        self.next_offset, self.before = row.offset + len(octets), octets
        return True

    def has_other_octets(self, row):
        """Returns whether the characters of the first row show that its pairs are not its octets in order."""
        octets, at = self.pairs(row, MOST_WIDTH, 1)
        text = row.text[at:].lstrip(b" \t")
        if text != shown(octets) and any(text == shown(in_words(octets, size)) for size in (*WORD_SIZES, len(octets))):
            return True
        return bool(text) and len(octets) == 4 * len(text) and set(octets.hex()) <= {"0", "1"}

    def pairs(self, row, width, most_blanks):
        """Returns the octets of a row, up to this width, and the place after them."""
        blanks = 0 if row.has_colon else 1, most_blanks
        gap = re.compile(rb"(?:-|[ \t]{%d,%d})%s(%s)" % (*blanks, PREFIX if row.has_prefix else b"", PAIR))
        octets, at = bytes.fromhex(row.text[row.start : row.start + 2].decode()), row.start + 2
        while len(octets) != width and (pair := gap.match(row.text, at)):
            octets, at = octets + bytes.fromhex(pair[1].decode()), pair.end()
        return octets, at

    def width_of(self, first, lines):
        """Returns the number of octets in a row: the difference of the first two offsets, or 16. None if there is no
        second offset and no repeat.
        """
        for _, text in (line for line in lines if line[0] > first.place):
            if REPEAT.fullmatch(text):
                return USUAL_WIDTH
            second = FRONT_OFFSET[self.base].match(text)
            if second:
                more = int(second[1], self.base) - first.offset
                return more if 1 <= more <= MOST_WIDTH else USUAL_WIDTH
        return None

    def fits_end(self, end):
        """Returns whether the last offset fits: the offset after the last row, or the one up to which a repeat goes."""
        return self.fits_offset(end.offset)


def begins_row(text, at, offset):
    """Returns whether this offset begins here, behind blanks, as a hexadecimal number or an octal one."""
    found = {base: pattern.match(text, at) for base, pattern in FRONT_OFFSET.items()}
    return any(match and int(match[1], base) == offset for base, match in found.items())


def shown(octets):
    """Returns the characters of octets, or None for None: a full stop for each that is not printable ASCII."""
    return octets and bytes(octet if 0x20 <= octet <= 0x7E else ord(".") for octet in octets)


def in_words(octets, size):
    """Returns the octets with those of each word reversed, or None if they are not whole words of this size."""
    if len(octets) % size:
        return None
    return b"".join(octets[at : at + size][::-1] for at in range(0, len(octets), size))

"""Takes an input apart into blocks, as docs/TEXTS.md describes it."""
import re
from dataclasses import dataclass, field

from second_opinion import text_dumps, text_forms
from second_opinion.reading import Reading
from second_opinion.text_dumps import MOST_MORE, MOST_OCTETS, TooLong

OCTETS = ("octets", "ber", "der", "cer")
TEXTS = ("pem", "dump", "hex", "numbers", "base64", "runs")
WORDS = {"dump": "a hex dump", "hex": "hexadecimal", "numbers": "decimal numbers", "base64": "base64"}
EXPECTED = {"pem": "base64", "base64": "base64", "runs": "base64", "dump": "a row of a hex dump"}
EXPECTED |= {"hex": "a pair of hexadecimal digits", "numbers": "only one list of numbers from -128 to 255"}
NO_PEM = "X2 there is no block of PEM"
NO_LIST = "X2 there is no list of decimal numbers"
NO_BASE64 = "X2 there is no base64"
ENCRYPTED, NO_END = "X3 it is encrypted", "its end marker is missing"
TOO_LONG = f"X4 texts of more than {MOST_OCTETS} octets in all, or one of {MOST_MORE} more octets than characters"
KNOWN = "known are PEM, hex dumps, hexadecimal, decimal numbers and base64"
MARK = b"\xef\xbb\xbf"
WHITE_SPACE = b" \t\n\r"
CONTROLS = re.compile(rb"[\x00-\x08\x0e-\x19\x1c-\x1f\x7f]")
RARE = re.compile(rb"[^\x20-\x7e\t\n\r]")
MOST_LAYERS, MOST_SHOWN, MOST_LOOKED_AT = 3, 32, 4096
BEGINNINGS = (b"\x30", b"\x31")
# The first octets of a dump that is refused, if its offsets are read as pairs of digits.
OFFSET = b"\0\0"


@dataclass
class Block:
    """Octets of an input, and what is reported about them.

    form: what the text was taken for, or None. label: that of a PEM block. line: that of a run. layers: the layers of
    base64 around the text, innermost first, each the line of a run or None. wrong: X1 to X4, if something is refused.
    said: what else is reported of a block that is not refused.
    """

    form: str | None
    octets: bytes = b""
    label: str | None = None
    line: int | None = None
    layers: list = field(default_factory=list)
    wrong: str | None = None
    said: str | None = None

    def name(self):
        """Returns the name of the block in its title, or None if it has only that of the FILE."""
        return self.label or (f"base64 of line {self.line}" if self.line else None)

    def note(self):
        """Returns the line that says what the text was taken for, or None for octets."""
        if self.form in (None, "octets"):
            return self.wrong
        words = f"PEM, {self.label}" if self.form == "pem" else WORDS.get(self.form) or self.name()
        layers = "".join(f", in base64 of line {line}" if line else ", in base64" for line in self.layers)
        said = self.wrong or self.said
        return f"taken for {words}{layers}" + (f"; {said}" if said else "")

    def status(self, status, is_raw):
        """Returns the status of the block. `status` is that of the octets that are shown."""
        if self.wrong == TOO_LONG:
            return 4
        return status or (2 if is_raw else 4) if self.wrong else status

    def is_shown(self):
        """Returns whether there is something to show. There is nothing if the text is refused before its first octet.
        """
        return bool(self.octets) or not self.wrong


def blocks_of(octets, as_form=None):
    """Returns the blocks of an input. It is taken for the form, if one is given, or for what its octets look like."""
    if as_form in OCTETS:
        return [Block("octets", octets)]
    try:
        return of_form(as_form, text_of(octets)) if as_form else of_any(octets)
    except TooLong:
        return [Block(None, wrong=TOO_LONG)]


def decoded_size(block):
    """Returns how many octets of a block are decoded from a text."""
    return 0 if block is None or block.form == "octets" else len(block.octets)


def blocks_within(room, octets, as_form=None):
    """Returns the blocks of an input, unless more octets are decoded from its text than there is room for."""
    blocks = blocks_of(octets, as_form)
    return blocks if sum(map(decoded_size, blocks)) <= room else [Block(None, wrong=TOO_LONG)]


def text_of(octets):
    """Returns the text of an input. A byte order mark of UTF-8
    is dropped, and ASCII in UTF-16 with a mark becomes ASCII.
    """
    if octets.startswith(MARK):
        return octets[len(MARK) :]
    for mark, low in ((b"\xff\xfe", 0), (b"\xfe\xff", 1)):
        units = octets[2:]
        low_octets, high_octets = units[low::2], units[1 - low :: 2]
        if octets.startswith(mark) and len(units) % 2 == 0 and low_octets.isascii() and not any(high_octets):
            return low_octets
    return octets


def of_any(octets):
    """Returns the blocks of an input without --as."""
    text = text_of(octets)
    if has_control(text) or has_rare(text) and is_encoding(octets, text):
        return [Block("octets", octets)]
    blocks = of_known_form(text, 0)
    if blocks:
        return blocks
    if is_encoding(octets, text) or not is_utf8(text) or not text.strip(WHITE_SPACE):
        return [Block("octets", octets)]
    first = "".join(chr(it) if 0x20 <= it <= 0x7E else "?" for it in text[:MOST_SHOWN])
    return [Block(None, wrong=f'X1 text of no form that is known: "{first}"; {KNOWN}')]


def has_control(text):
    """Returns whether one of the first characters cannot occur in a text."""
    return bool(CONTROLS.search(text[:MOST_LOOKED_AT]))


def has_rare(text):
    """Returns whether a character is rarely typed, wherever it stands."""
    return bool(RARE.search(text))


def is_encoding(octets, text):
    """Returns whether an input with this text is whole encodings. With a byte order mark it is none, though it may parse:
    in UTF-16 each character is an element without contents.
    """
    return octets is text and is_whole(octets)


def is_whole(octets):
    """Returns whether these are one or more whole encodings and nothing else. Padding is allowed."""
    return Reading(octets, padding=True).fault is None


def is_utf8(text):
    """Returns whether a text is UTF-8."""
    try:
        text.decode("utf-8")
    except UnicodeDecodeError:
        return False
    return True


def of_known_form(text, layers):
    """Returns the blocks of the first form that applies, or None. The text is inside `layers` layers of base64."""
    if text_forms.of_pem(text):
        return of_form("pem", text)
    blocks = of_counting_dump(text) or sound("hex", text_forms.of_hexadecimal(text), OFFSET)
    numbers = text_forms.of_numbers(text)
    if not blocks and numbers is not None and numbers.place is None and not text_forms.may_be_pairs(text):
        return of_form("numbers", text)
    return blocks or of_counting_base64(text, layers) or of_counting_runs(text, layers)


def sound(form, decoded, not_in_front=None):
    """Returns the block of a text that is not refused, and that
    gives octets that do not begin with `not_in_front`; or None.
    """
    if decoded.place is not None or not decoded.octets or not_in_front and decoded.octets.startswith(not_in_front):
        return None
    return [Block(form, decoded.octets)]


def of_form(form, text):
    """Returns the blocks of a text, taken for this form."""
    if form == "pem":
        return [of_pem(text, it) for it in text_forms.of_pem(text)] or [Block(None, wrong=NO_PEM)]
    if form == "numbers":
        decoded = text_forms.of_numbers(text)
        return [Block(None, wrong=NO_LIST) if decoded is None else of_decoded(form, text, decoded)]
    if form == "runs":
        return [of_run(text, it) for it in text_forms.of_runs(text)] or [Block(None, wrong=NO_BASE64)]
    if form == "dump":
        return [of_dump(text, text_dumps.decoded(text))]
    decoded = {"hex": text_forms.of_hexadecimal, "base64": text_forms.of_base64}[form]
    return [of_decoded(form, text, decoded(text))]


def of_dump(text, decoded):
    """Returns the block of a dump, with the line in front of which it ends, or else the offset at which it begins."""
    said = None
    if decoded.end is not None:
        said = f"it ends in front of line {line_of(text, decoded.end)}"
    elif decoded.start:
        said = f"it begins at offset {decoded.start}"
    return of_decoded("dump", text, decoded, said=said)


def of_decoded(form, text, decoded, **more):
    """Returns the block of what a text gives, with the place where it is refused."""
    wrong = None
    if decoded.place is not None:
        line = line_of(text, decoded.place)
        wrong = f"X2 refused in line {line}, where {EXPECTED[form]} is expected"
    return Block(form, decoded.octets, wrong=wrong, **more)


def line_of(text, place):
    """Returns the number of the line at a place."""
    return text.count(b"\n", 0, place) + 1


def of_pem(text, pem):
    """Returns the block for a PEM block."""
    if pem.decoded is None:
        return Block("pem", label=pem.label, wrong=ENCRYPTED)
    return of_decoded("pem", text, pem.decoded, label=pem.label, said=None if pem.is_ended else NO_END)


def of_run(text, run):
    """Returns the block for a run."""
    return of_decoded("runs", text, run.decoded, line=line_of(text, run.start))


def counts(octets):
    """Returns whether octets count by themselves: they are encodings, or begin like a SEQUENCE or a SET."""
    return octets.startswith(BEGINNINGS) or is_whole(octets)


def in_turn(decoded, layers):
    """Returns the blocks of the text inside base64, or None if it has no form.
    The base64 is itself inside `layers` layers.
    """
    if decoded.place is not None or layers == MOST_LAYERS:
        return None
    text = text_of(decoded.octets)
    return None if has_control(text) else of_known_form(text, layers + 1)


def in_layer(blocks, line):
    """Adds a layer of base64 to these blocks: the run in this line, or a whole text if the line is None."""
    for block in blocks:
        block.layers.append(line)
    return blocks


def of_counting_dump(text):
    """Returns the block of a dump that is not refused, or None.
    If it ends in front of a line, its octets have to count.
    """
    decoded = text_dumps.decoded(text)
    if decoded.place is not None or decoded.end is not None and not counts(decoded.octets):
        return None
    return [of_dump(text, decoded)] if decoded.octets else None


def of_counting_base64(text, layers):
    """Returns the blocks of a base64 text that is not refused and whose octets count, or None."""
    decoded = text_forms.of_base64(text)
    if decoded.place is not None:
        return None
    inner = in_turn(decoded, layers)
    if inner:
        return in_layer(inner, None)
    return [Block("base64", decoded.octets)] if counts(decoded.octets) else None


def of_counting_runs(text, layers):
    """Returns the blocks of the runs that count, or None."""
    blocks = []
    for run in text_forms.of_runs(text):
        inner = in_turn(run.decoded, layers)
        if inner:
            blocks += in_layer(inner, line_of(text, run.start))
        elif counts(run.decoded.octets):
            blocks.append(of_run(text, run))
        if sum(len(block.octets) for block in blocks) > MOST_OCTETS:
            raise TooLong
    return blocks or None

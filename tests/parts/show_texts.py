"""Tests tlvdump-show on texts (docs/TEXTS.md): sound texts as tools make them, cut at many places, and damaged; then
random texts and large ones.

The output of --raw is compared with the octets that the tool was given, and each run with the second opinion.
"""
import random
import re
import subprocess

from parts import show_text_rows, text_batches, text_damages, text_makers, text_sizes
from parts.show_program import Program
from parts.text_makers import ROW, len_of_row
from second_opinion import text_dump_drawing as rows_of
from second_opinion import texts
from second_opinion.findings import shortest

CUTS = 16
MARK = b"\xef\xbb\xbf"
PLAIN = re.compile(rb"[\n\x20-\x7e]*")


def element(tag, octets):
    """Returns an element with the shortest length octets."""
    return bytes([tag]) + shortest(len(octets)) + octets


def inputs(part):
    """Returns encodings: of three sizes, so that base64 has each padding; one with zeros; and a certificate."""
    fixed = [element(0x30, b"\x02\x01\x05" * 40 + element(4, bytes(range(230, 250 + more)))) for more in range(3)]
    zeros = element(0x30, b"\x06\x03\x55\x04\x03" + element(4, bytes(180)) + b"\x05\0")
    if not part.has("openssl"):
        return fixed, zeros, []
    words = "openssl req -x509 -newkey ec -pkeyopt ec_paramgen_curve:P-256 -nodes -keyout key -days 9 -subj /CN=x"
    words += " -outform DER"
    got = subprocess.run(words.split(), cwd=part.folder, capture_output=True, timeout=60)
    part.expect(words, got.returncode == 0 and got.stdout[:1] == b"\x30", got.stderr.decode(errors="replace"))
    return fixed, zeros, [got.stdout]


class Texts:
    """Runs the program on texts. Each run is also compared with the second opinion."""

    def __init__(self, part, program):
        """Keeps the part, the program, and the tools that the machine has."""
        self.part, self.program, self.tools = part, program, text_makers.tools_of(part)

    def all_of(self, octets):
        """Returns texts of octets: a name, the value of --as, and the text."""
        return text_makers.all_of(self.part, self.tools, octets)

    def raw(self, what, text, form=None):
        """Runs --raw on a text, and compares it with the second opinion. Returns the result."""
        got = self.program.run(["--raw"] + ([f"--as={form}"] if form else []), text)
        self.part.same(f"{what}, by the second opinion", got, self.program.wanted("raw", text, as_form=form))
        self.part.expect(f"{what}: what is reported is printable", PLAIN.fullmatch(got.err), *got.lines())
        return got

    def same(self, what, text, octets, form=None, blocks=1):
        """Counts tests: --raw writes these octets, and reports the form of each of `blocks` blocks."""
        got = self.raw(what, text, form)
        fine = got.status == 0 and got.out == octets and got.err.count(b"taken for ") == blocks
        self.part.expect(what, fine, *got.lines())

    def begins(self, what, text, octets, form=None):
        """Counts tests: --raw writes a prefix of these octets, possibly empty.
        The last octet may lack a digit of its token.
        """
        got = self.raw(what, text, form)
        last = 1 if b"0x" in text[-6:].lower() else 0
        fine = got.status in (0, 2) and octets.startswith(got.out[: len(got.out) - last])
        self.part.expect(f"{what}: no other octets", fine, *got.lines())

    def refused(self, what, text, octets, form, line):
        """Counts tests: --raw writes these octets, and names this line."""
        got = self.raw(what, text, form)
        said = f"X2 refused in line {line}, where {texts.EXPECTED[form]} is expected\n".encode()
        self.part.expect(what, (got.status, got.out) == (2, octets) and got.err.endswith(said), *got.lines())


def sound(checks, octets, has_iconv):
    """Each text as it is, and with changes that leave the octets the same. Then its dump."""
    for name, form, text in checks.all_of(octets):
        what = f"{name}, {len(octets)} octets"
        checks.same(what, text, octets)
        checks.same(f"{what}, CR LF", text.replace(b"\n", b"\r\n"), octets)
        checks.same(f"{what}, UTF-8 with a mark", MARK + text, octets)
        checks.same(f"{what}, --as", text, octets, form)
        for code, mark in (("UTF-16LE", b"\xff\xfe"), ("UTF-16BE", b"\xfe\xff")) if has_iconv else ():
            words = ["iconv", "-f", "ASCII", "-t", code]
            wide = subprocess.run(words, input=text, capture_output=True, timeout=60).stdout
            checks.same(f"{what}, {code}", mark + wide, octets)
        if form in ("dump", "hex"):
            checks.same(f"{what}, mixed case", text.swapcase().replace(b"\\X", b"\\x"), octets)
        if form not in ("dump", "runs", None):
            checks.same(f"{what}, without line ends", text.replace(b"\n", b""), octets)
            checks.same(f"{what}, spaces for line ends", text.replace(b"\n", b" "), octets)
        if form == "dump":
            in_one_line(checks, what, text)
            with_lines_behind(checks, what, text, octets)
        shown(checks, what, text, octets)


def with_lines_behind(checks, what, text, octets):
    """A dump ends in front of lines that are no rows, and is refused there if a row or a repeat comes behind them."""
    for behind in (b"user@host:~$ ", b"end\n0000\n1234 files\n", b"\n \n$ exit\n\n"):
        line = text.count(b"\n") + 1 + 2 * behind.startswith(b"\n")
        for as_form in (None, "dump"):
            got, here = checks.raw(what, text + behind, as_form), f"{what}, {behind!r} behind it, {as_form}"
            said = f"taken for a hex dump; it ends in front of line {line}\n".encode()
            checks.part.expect(here, (got.status, got.out) == (0, octets) and got.err.endswith(said), *got.lines())
        for more in (b"\n0000: 30\n", b"\n*\n"):
            checks.refused(f"{what}, {behind + more!r} behind it", text + behind + more, octets, "dump", line)


def in_one_line(checks, what, text):
    """A dump whose line ends are lost is refused: it does not give the octets of its first row."""
    for end in (b"", b" ", b"  "):
        changed, here = text.replace(b"\n", end), f"{what}, {end!r} for line ends"
        got = checks.raw(here, changed)
        checks.part.expect(f"{here}: no octets", got.status != 0 and not got.out, *got.lines())
        if ROW.match(text.split(b"\n", 1)[0]):
            checks.refused(f"{here}, --as", changed, b"", "dump", 1)


def short_in_one_line(checks, octets):
    """The same for dumps of a row and a short one, even without a column of characters, which leaves room for it."""
    for name, form, text in checks.all_of(octets):
        if form == "dump" and len(octets) > len_of_row(name):
            in_one_line(checks, f"{name}, {len(octets)} octets", text.removeprefix(text_makers.CAPTURE))


def not_in_order(checks, octets):
    """A dump whose pairs are not the octets in order is refused in its first line."""
    checks.part.write("octets", octets)
    for words in ("-e", "-e -g2", "-e -g8", "-e -c8", "-b", "-b -c4"):
        command = ["xxd", *words.split(), "octets"]
        text = subprocess.run(command, cwd=checks.part.folder, capture_output=True, timeout=60).stdout
        what = f"xxd {words}, {len(octets)} octets"
        got = checks.raw(what, text)
        checks.part.expect(f"{what}: no octets", got.status != 0 and not got.out, *got.lines())
        checks.refused(f"{what}, --as", text, b"", "dump", 1)


def decimal_offsets(checks, octets):
    """A dump with decimal offsets is refused in the first row whose offset is 10 or more, since there they are not
    hexadecimal. If this is the second row, the first one is shown, though it is shorter than its offsets say.
    """
    checks.part.write("octets", octets)
    for width in (1, 4, 7, 8, 9, 10, 16, 32, 90):
        command = ["xxd", "-d", "-c", f"{width}", "octets"]
        text = subprocess.run(command, cwd=checks.part.folder, capture_output=True, timeout=60).stdout
        what = f"xxd -d -c {width}, {len(octets)} octets"
        got = checks.raw(what, text)
        checks.part.expect(f"{what}: no octets", got.status != 0 and not got.out, *got.lines())
        rows = -(-10 // width)
        checks.refused(f"{what}, --as", text, octets[: rows * width], "dump", rows + 1)


def shown(checks, what, text, octets):
    """The dump of a text is that of its octets, on a pipe and as a file."""
    part, program = checks.part, checks.program
    wanted = program.run([], octets)
    got = program.run([], text)
    part.expect(f"{what}: its dump", (got.status, got.out) == (wanted.status, wanted.out), *got.lines())
    part.write("a text", text)
    got = program.run(["a text"], stdin=subprocess.DEVNULL)
    fine = got.out == wanted.out and got.err.startswith(b"a text: taken for ")
    part.expect(f"{what}: of a file", fine, *got.lines())


def cuts(checks, octets):
    """Each text is cut at many places. With --as, only octets from the beginning are written."""
    rng = random.Random(len(octets))
    for name, form, text in checks.all_of(octets):
        for place in sorted(rng.sample(range(1, len(text)), CUTS)):
            what = f"{name}, cut at {place} of {len(text)}"
            checks.raw(what, text[:place])
            if form:
                checks.begins(f"{what}, --as", text[:place], octets, form)


def repeats(checks):
    """Dumps whose second line repeats a row. Dumps in words and in bits are not taken for octets."""
    for octets in (element(4, bytes(14)) * 5 + b"\x05\0", element(4, bytes(14)) * 3, bytes(48), bytes(58)):
        for command in ("od -tx1", "od -Ax -tx1", "hexdump -C"):
            words = command.split()
            if words[0] in checks.tools:
                text = subprocess.run(words, input=octets, capture_output=True, timeout=60).stdout
                checks.part.expect(f"{command} leaves out rows", b"\n*\n" in text)
                checks.same(f"{command}, {len(octets)} octets", text, octets)
    octets = element(4, bytes(range(30)))
    for command in ("od", "od -tx2", "od -tx4", "od -Ax -tx2", "hexdump", "hexdump -x", "xxd -b"):
        words = command.split()
        if words[0] in checks.tools:
            text = subprocess.run(words, input=octets, capture_output=True, timeout=60).stdout
            got = checks.raw(command, text)
            checks.part.expect(f"{command}: no octets", got.status == 2 and not got.out, *got.lines())


def test(part):
    program = Program(part)
    checks = Texts(part, program)
    show_text_rows.test_rows(part, program)
    fixed, zeros, more = inputs(part)
    has_iconv = part.has("iconv")
    for octets in (*fixed, zeros, *more):
        sound(checks, octets, has_iconv)
    for octets in (element(0x30, b"\x02\x01\x05" * 5), element(0x30, b"\x02\x01\x05" * 4 + b"\x04\x02hi")):
        short_in_one_line(checks, octets)
    for octets in fixed:
        text_damages.test_damages(checks, octets)
    _, rest = text_makers.dump(fixed[0], rows_of.xxd).split(b"\n", 1)
    checks.same("a dump that does not begin at 0", rest, fixed[0][16:])
    repeats(checks)
    if "xxd" in checks.tools:
        for octets in (*fixed, zeros, element(0x30, b"\x02\x01\x05"), element(0x30, element(4, b"text and more"))):
            not_in_order(checks, octets)
        for octets in (*fixed, zeros):
            decimal_offsets(checks, octets)
    cuts(checks, fixed[0])
    cuts(checks, zeros)
    small = element(0x30, b"\x02\x01\x05" * 6 + element(4, bytes(range(0xF0, 0xFC))))
    text_batches.at_each_place(checks, small)
    text_batches.drawn(part, program)
    text_sizes.one_line(part, program)
    text_sizes.hostile(part, program)

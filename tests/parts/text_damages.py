"""Damages texts of encodings, and tests what tlvdump-show makes of them: no other octets, and the place is named.

The expected octets are those of which the text was made, or a part of them.
"""
import base64
import itertools
import os
import re

from parts import text_makers
from parts.text_makers import ROW, len_of_row
from second_opinion import texts

NO_PEM_END = "its end marker is missing"
SYMBOLS = re.compile(rb"[A-Za-z0-9+/]+")
TOKENS = re.compile(rb"(?:0[xX]|\\x)([0-9a-fA-F]{2})")
PAIRS = re.compile(rb"([0-9a-fA-F]{2})")
# So many symbols are enough for a run. Of four such numbers in turn one makes a last group of one symbol.
COUNTS = range(44, 48)


def damaged_base64(checks, octets):
    """A character that is not base64 in each third line of PEM and of base64, and damaged markers."""
    body = text_makers.in_lines(octets).splitlines(True)
    label = b"-----BEGIN CERTIFICATE-----\n"
    end = b"-----END CERTIFICATE-----\n"
    for at in range(0, len(body) - 1, 3):
        for form, front, back in (("pem", label, end), ("base64", b"", b"")):
            for wrong in (b"*", b"\xc3\xa9", b"."):
                lines = [*body[:at], body[at][:8] + wrong + body[at][9:], *body[at + 1 :]]
                kept = octets[: at * 48 + 6]
                what = f"{form}, {wrong!r} in line {at + 1} of its base64"
                checks.refused(what, front + b"".join(lines) + back, kept, form, at + 1 + front.count(b"\n"))
    whole = b"".join(body)
    got = checks.raw("PEM without an end marker", label + whole)
    fine = (got.status, got.out) == (0, octets) and got.err == f"taken for PEM, CERTIFICATE; {NO_PEM_END}\n".encode()
    checks.part.expect("PEM without an end marker", fine, *got.lines())
    checks.same("PEM, its end marker twice", label + whole + end + end, octets)
    checks.same("PEM, its beginning twice", label + label + whole + end, octets, blocks=2)
    checks.same("PEM without its beginning", whole + b"\n" + end, octets, "runs")
    for wrong in (b"\x1b[31mX", b"", b"A" * 65, b"A\tB", b"caf\xc3\xa9"):
        checks.begins(f"PEM, a label {wrong[:9]!r}", label.replace(b"CERTIFICATE", wrong) + whole + end, octets)


def damaged_dumps(checks, octets):
    """A wrong offset or digit, a missing line, or an added line: the line is named, and the octets before it are shown.
    """
    for name, form, text in checks.all_of(octets):
        lines = text.splitlines(True)
        rows = [at for at, line in enumerate(lines) if ROW.match(line)]
        if form != "dump" or len(rows) < 6 or b"*\n" in text:
            continue
        width, at = len_of_row(name), rows[3]
        before, after = lines[:at], lines[at + 1 :]
        offset = re.sub(rb"^(\s*(?:0x)?)[0-9a-fA-F]", rb"\g<1>7", lines[at])
        digit = re.sub(rb"^(\s*(?:0x)?\w+(?:\s<.*>)?:?\s+(?:-\s)?\w\w\s?)\w", rb"\g<1>g", lines[at])
        for what, kept, more, changed in (
            ("a line is missing", 3 * width, 1, before + after),
            ("a line twice", 4 * width, 2, [*before, lines[at], lines[at], *after]),
            ("a line of another kind", 3 * width, 1, [*before, b"end\n", lines[at], *after]),
            ("a repeat of no row", 3 * width, 2, [*before, b"*\n", lines[at], *after]),
            ("a wrong offset", 3 * width, 1, [*before, offset, *after]),
            ("a wrong digit", 3 * width, 1, [*before, digit, *after]),
        ):
            checks.refused(f"{name}, {what}", b"".join(changed), octets[:kept], form, at + more)


def lost_line_ends(checks, name, form, text, octets):
    """Runs without line ends, and base64 in base64 without those inside."""
    for end in (b"", b" "):
        what, changed = f"{name}, {end!r} for line ends", text.replace(b"\n", end)
        if form is None and name.startswith("base64 of"):
            checks.same(what, base64.b64encode(base64.b64decode(text).replace(b"\n", end)), octets)
        elif form is None:
            checks.same(what, changed, octets)
        elif form == "runs":
            first_line(checks, what, changed, octets)


def first_line(checks, what, text, octets):
    """The first line of a run is decoded as far as it goes, and the rest if nothing stands between the lines.
    If a word stands right before the run, it belongs to the run, and nothing is decoded.
    """
    got = checks.raw(what, text)
    symbols = base64.b64encode(octets).rstrip(b"=")
    start = text.index(symbols[: COUNTS[0]])
    count = len(SYMBOLS.match(text, start)[0])
    if SYMBOLS.match(text, start - 1):
        fine = got.status == 2 and not got.out
    else:
        fine = got.out == octets if count == len(symbols) else got.out.startswith(octets[: count // 4 * 3])
    checks.part.expect(what, fine, *got.lines())


def wrong_symbol(checks, name, form, text, octets):
    """A character in a run is no symbol, so the run ends there. It is refused if its last group has one symbol."""
    start = text.find(base64.b64encode(octets)[: COUNTS[0]])
    if form not in ("runs", None) or start < 0:
        return
    for count, as_form in itertools.product(COUNTS, {None, form}):
        what, place = f"{name}, a wrong character after {count} symbols, --as {as_form}", start + count
        got = checks.raw(what, text[:place] + b"*" + text[place + 1 :], as_form)
        said = f"X2 refused in line {line_of(text, place)}, where base64 is expected\n".encode()
        fine = got.out.startswith(octets[: count // 4 * 3]) and (count % 4 != 1 or got.status and said in got.err)
        checks.part.expect(what, fine, *got.lines())


def wrong_in_base64(checks, name, form, text, octets):
    """A character of the first line of base64 is no symbol: the octets of the whole groups before it are shown."""
    start = text.find(base64.b64encode(octets)[:12])
    if form not in ("pem", "base64") or start < 0:
        return
    for place in range(start + 8, start + 12):
        what, changed = f"{name}, a wrong character at {place}", text[:place] + b"*" + text[place + 1 :]
        checks.raw(what, changed)
        checks.refused(f"{what}, --as", changed, octets[:6], form, line_of(text, place))


def wrong_in_layers(checks, name, form, text, octets):
    """A character of base64 around another text is no symbol: octets are missing in one place, or in no place."""
    if form is not None or name == "x5c":
        return
    start = re.search(rb"[A-Za-z0-9+/]{40}", text).start()
    for place in range(start + 80, start + 84):
        what = f"{name}, a wrong character at {place}"
        got = checks.raw(what, text[:place] + b"*" + text[place + 1 :])
        fine = got.out != octets and lacks_piece(got.out, octets) and (got.out or got.status)
        checks.part.expect(what, fine, *got.lines())


def lacks_piece(out, octets):
    """Returns whether these are the octets without those in one place."""
    front, back = (len(os.path.commonprefix(pair)) for pair in ([out, octets], [out[::-1], octets[::-1]]))
    return len(out) <= len(octets) and front + back >= len(out)


def line_of(text, place):
    """Returns the number of the line at a place."""
    return text.count(b"\n", 0, place) + 1


def wrong_number(checks, name, form, text, octets):
    """In place of a number stands something else, or one that is too large. The list breaks there; if it is the second
    number, there is no list.
    """
    if form != "numbers":
        return
    start = re.search(rb"[\[{]\s*48, -?1", text)
    numbers = [*re.compile(rb"-?\d+").finditer(text, start.start())]
    for at, wrong in itertools.product((2, len(octets) // 2, len(octets) - 1), (b"x", b"999")):
        place = numbers[at].start()
        what, changed = f"{name}, {wrong!r} in front of number {at}", text[:place] + wrong + text[place:]
        got = checks.raw(what, changed)
        checks.part.expect(f"{what}: no octets", got.status == 2 and not got.out, *got.lines())
        checks.refused(f"{what}, --as", changed, octets[:at], form, line_of(text, place))
    place = start.end() - 1
    for wrong in (b"x", b"*", b".", b"9", b","):
        what, changed = f"{name}, {wrong!r} for a digit", text[:place] + wrong + text[place + 1 :]
        got = checks.raw(what, changed)
        checks.part.expect(what, got.status == 2 and not got.out, *got.lines())
        got = checks.raw(f"{what}, --as", changed, form)
        fine = (got.status, got.out, got.err) == (2, b"", f"{texts.NO_LIST}\n".encode())
        checks.part.expect(f"{what}, --as", fine, *got.lines())


def pairs_of(text):
    """Returns the pairs of digits of a text in hexadecimal, as matches."""
    return [*TOKENS.finditer(text)] or [*PAIRS.finditer(text)]


def wrong_digit(checks, name, form, text, octets):
    """A digit of the second pair or token, of one in the middle, or of the last but one is wrong."""
    if form != "hex":
        return
    for at in (1, len(octets) // 2, len(octets) - 2):
        for place in range(*pairs_of(text)[at].span(1)):
            what, changed = f"{name}, a wrong digit at {place}", text[:place] + b"g" + text[place + 1 :]
            got = checks.raw(what, changed)
            checks.part.expect(f"{what}: no octets", got.status == 2 and not got.out, *got.lines())
            checks.refused(f"{what}, --as", changed, octets[:at], form, line_of(text, place))


def mixed_case(checks, name, form, text, octets):
    """The case of the digits alternates."""
    if form in ("dump", "hex"):
        cases = itertools.cycle((bytes.upper, bytes.lower))
        changed = re.sub(rb"[a-fA-F]", lambda it: next(cases)(it[0]), text)
        checks.same(f"{name}, alternating case", changed, octets)


def missing_line(checks, name, form, text, octets):
    """A line of the encoding, but the first and the last, is missing: the octets of the other lines are shown."""
    rest_of = {"hex": without_pairs, "pem": without_symbols, "base64": without_symbols, "runs": without_symbols}
    lines = text.splitlines(True)
    rests = rest_of[form](lines, octets) if form in rest_of else []
    for at, rest in rests[1:-1]:
        what, changed = f"{name}, line {at + 1} is missing", b"".join(lines[:at] + lines[at + 1 :])
        checks.same(what, changed, rest)
        checks.same(f"{what}, --as", changed, rest, form)


def without_pairs(lines, octets):
    """Returns each line that has pairs of digits, by its place in the list, with the octets of the other lines."""
    found, ends = [], [0, *itertools.accumulate(map(len, lines))]
    starts = [pair.start() for pair in pairs_of(b"".join(lines))]
    for at, (start, end) in enumerate(itertools.pairwise(ends)):
        kept = [octet for octet, place in zip(octets, starts, strict=True) if not start <= place < end]
        found += [(at, bytes(kept))] if len(kept) < len(octets) else []
    return found


def without_symbols(lines, octets):
    """Returns each line that has base64 of the octets, by its place in the list, with the octets of the other lines."""
    symbols, found, done = base64.b64encode(octets).rstrip(b"="), [], 0
    for at, line in enumerate(lines):
        longest = max(SYMBOLS.findall(line), key=len, default=b"")
        if longest and symbols.startswith(longest, done):
            rest = symbols[:done] + symbols[done + len(longest) :]
            done += len(longest)
            # A last group of one symbol, as of LDIF without its first line, gives no octet.
            found.append((at, base64.b64decode(rest[: len(rest) - (len(rest) % 4 == 1)] + b"=" * (-len(rest) % 4))))
    return found


DAMAGES = (lost_line_ends, missing_line, mixed_case)
DAMAGES += (wrong_symbol, wrong_in_base64, wrong_in_layers, wrong_number, wrong_digit)


def test_damages(checks, octets):
    """Counts the tests of all damages of texts of these octets."""
    damaged_base64(checks, octets)
    damaged_dumps(checks, octets)
    for name, form, text in checks.all_of(octets):
        for damage in DAMAGES:
            damage(checks, name, form, text, octets)

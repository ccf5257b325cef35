"""Decodes the forms of docs/TEXTS.md other than hex dumps: the octets of a text, and where it is refused."""
import base64
import re
from dataclasses import dataclass

from second_opinion.text_dumps import Decoded

LEFT_OUT = rb"(?:[ \t\n\r\"'>]|\\[nr]|\\(?=/))"
LETTERS_AND_DIGITS = rb"A-Za-z0-9"
SIGNS = {4: rb"+/", 5: rb"\-_"}
BEGIN = re.compile(rb"-----BEGIN ([\x20-\x2c\x2e-\x7e]{1,64})-----")
DASHES = b"-----"
LINE_END = re.compile(rb"\n|\\n")
BLANK_LINE = re.compile(rb"(?:[ \t\r\"'>]|\\r)*")
# Symbols and padding. The symbols may go on in further lines, each of which they fill up to its end.
BREAK = rb"[ \t]*(?:(?:\r|&#13;|&#xD;)?\n|(?:\\r)?\\n)[ \t]*"
AFTER_SYMBOLS = rb"[ \t]*(?:[\n\r]|\Z)|[<&)`\\\"']|=(?![A-Za-z0-9+/])"
RUN = re.compile(rb"(?<![A-Za-z0-9+/])[A-Za-z0-9+/]{40,}(?:%s[A-Za-z0-9+/]+(?=%s))*={0,2}" % (BREAK, AFTER_SYMBOLS))
ZERO_X = rb"(?<![A-Za-z0-9_])0[xX]([0-9a-fA-F]{1,2})(?![A-Za-z0-9_])"
TOKEN = re.compile(ZERO_X + rb"|\\x([0-9a-fA-F]{2})(?=[\"' \t\n\r]|\\(?:[x\n\r]|\Z)|\Z)")
BEFORE_BACKSLASH = b" \t\n\r\"'"
# The beginning of what looks like a token.
LIKE_TOKEN = re.compile(rb"(?<![A-Za-z0-9_])0[xX]|\\x")
PAIRS = re.compile(rb"(?:[ \t\n\r:,\-\"']|[0-9a-fA-F]{2})*")
NUMBER, SPACE = re.compile(rb"-?[0-9]{1,3}"), re.compile(rb"[ \t\n\r]*")
CLOSING = {b"[": b"]", b"{": b"}"}
# What has to follow a number in a list that is closed by this character.
AFTER_NUMBER = {close: (b" ", b"\t", b"\n", b"\r", b",", close) for close in CLOSING.values()}


def of_base64(text, section=None):
    """Returns what a text in base64 gives.
    If no section of RFC 4648 is given, it is 5 if the text has - or _, and else 4.
    """
    section = section or (5 if re.search(rb"[-_]", text) else 4)
    symbol = rb"[%s%s]" % (LETTERS_AND_DIGITS, SIGNS[section])
    head = re.match(rb"(?:%s*%s)*" % (LEFT_OUT, symbol), text)[0]
    symbols = re.sub(LEFT_OUT, b"", head).translate(bytes.maketrans(b"-_", b"+/"))
    after = text[len(head) :]
    is_ended = re.fullmatch(rb"%s*(?:=%s*){0,2}" % (LEFT_OUT, LEFT_OUT), after)
    shape = len(symbols) % 4, after.count(b"=")
    if is_ended and shape in ((0, 0), (2, 0), (2, 2), (3, 0), (3, 1)):
        octets = base64.b64decode(symbols + b"=" * (-len(symbols) % 4))
        if base64.b64encode(octets).rstrip(b"=") == symbols:
            return Decoded(octets)
    whole = symbols[: len(symbols) // 4 * 4]
    left_out = re.match(rb"%s*" % LEFT_OUT, after)[0]
    return Decoded(base64.b64decode(whole), len(head) + len(left_out))


@dataclass
class PemBlock:
    """A block of PEM: its label, what its base64 gives (None if it is encrypted), and whether it has an end marker."""

    label: str
    decoded: Decoded | None
    is_ended: bool


def of_pem(text):
    """Returns the blocks of PEM."""
    blocks, at = [], 0
    while begin := BEGIN.search(text, at):
        end = text.find(DASHES, begin.end())
        at = len(text) if end < 0 else end
        decoded = of_body(text, begin.end(), at)
        blocks.append(PemBlock(begin[1].decode(), decoded, end >= 0))
    return blocks


def of_body(text, start, end):
    """Returns what the body between two places gives, or None if its headers say that it is encrypted."""
    body = text[start:end]
    if b":" in body:
        first = LINE_END.search(body)
        headers = first.end() if first else len(body)
        skip = end_of_headers(body, headers)
        if b"ENCRYPTED" in body[headers:skip]:
            return None
        if skip < len(body):
            start += skip
    decoded = of_base64(text[start:end], 4)
    if decoded.place is not None:
        decoded.place += start
    return decoded


def end_of_headers(body, at):
    """Returns the place after the first blank line from this place on, or the end of the body if there is none."""
    while line_end := LINE_END.search(body, at):
        is_blank = BLANK_LINE.fullmatch(body, at, line_end.start())
        at = line_end.end()
        if is_blank:
            return at
    return len(body)


def tokens_of(text):
    """Returns the hexadecimal tokens, as matches."""
    tokens, at = [], 0
    while token := TOKEN.search(text, at):
        at, start = token.end(), token.start()
        if token[1] or may_begin(text, start, tokens):
            tokens.append(token)
        else:
            at = start + 1
    return tokens


def may_begin(text, place, tokens):
    """Returns whether a token with a backslash may begin at this place, after these tokens."""
    return place == 0 or text[place - 1] in BEFORE_BACKSLASH or any(it.end() == place for it in tokens[-1:])


def of_hexadecimal(text):
    """Returns what a text in hexadecimal gives: its tokens if there are at least two, else its pairs of digits."""
    tokens = tokens_of(text)
    if len(tokens) > 1:
        return of_tokens(text, tokens)
    head = PAIRS.match(text)[0]
    octets = bytes.fromhex(re.sub(rb"[^0-9a-fA-F]", b"", head).decode())
    return Decoded(octets, None if len(head) == len(text) else len(head))


def of_tokens(text, tokens):
    """Returns the octets of the tokens up to the first place where the text is refused."""
    places = [place for place in (between(text, tokens), like_token(text, tokens)) if place is not None]
    place = min(places) if places else None
    kept = [token for token in tokens if place is None or token.start() < place]
    return Decoded(bytes(int(token[1] or token[2], 16) for token in kept), place)


def between(text, tokens):
    """Returns the place of the first letter, digit or _ between two tokens, or None."""
    for one, following in zip(tokens, tokens[1:]):
        other = re.search(rb"[A-Za-z0-9_]", text[one.end() : following.start()])
        if other:
            return one.end() + other.start()
    return None


def like_token(text, tokens):
    """Returns the first place that looks like the start of a token but is none, or None."""
    starts = {token.start() for token in tokens}
    ends = {token.end() for token in tokens}
    for like in LIKE_TOKEN.finditer(text):
        place = like.start()
        is_free = text[place] != 0x5C or place == 0 or text[place - 1] in BEFORE_BACKSLASH or place in ends
        if place not in starts and is_free:
            return place
    return None


def of_numbers(text):
    """Returns what the list of decimal numbers gives, or None if the text has no list. A text is refused where its list
    breaks, or where a second list begins.
    """
    starts = [it.start() for it in re.finditer(rb"[\[{]", text)]
    lists = [(start, found) for start in starts if len((found := of_list(text, start)).octets) > 1]
    if not lists:
        return None
    first = lists[0][1]
    if first.place is None and len(lists) > 1:
        first.place = lists[1][0]
    return first


def may_be_pairs(text):
    """Returns whether the numbers of the list of a text that is not refused may be pairs of hexadecimal digits: none has
    a minus or three digits, and one has two digits, of which the first is 0.
    """
    start = next(it.start() for it in re.finditer(rb"[\[{]", text) if len(of_list(text, it.start()).octets) > 1)
    numbers = re.split(rb"[\]}]", text[start + 1 :])[0].replace(b",", b" ").split()
    return all(re.fullmatch(rb"[0-9]{1,2}", it) for it in numbers) and any(re.fullmatch(rb"0[0-9]", it) for it in numbers)


def of_list(text, start):
    """Returns the octets of the numbers after a bracket or a brace, and where the list breaks, or None if it is closed.
    """
    close, at, octets = CLOSING[text[start : start + 1]], start + 1, b""
    while True:
        at = SPACE.match(text, at).end()
        if octets and text.startswith(close, at):
            return Decoded(octets)
        number = NUMBER.match(text, at)
        if not number or not -128 <= int(number[0]) <= 255 or text[number.end() : number.end() + 1] not in AFTER_NUMBER[close]:
            return Decoded(octets, at)
        octets += bytes([int(number[0]) & 0xFF])
        at = SPACE.match(text, number.end()).end()
        if text.startswith(close, at):
            return Decoded(octets)
        if not text.startswith(b",", at):
            return Decoded(octets, at)
        at += 1


@dataclass
class Run:
    """A run of base64: where it begins, and what it gives."""

    start: int
    decoded: Decoded


def of_runs(text):
    """Returns the runs of base64."""
    runs = []
    for found in RUN.finditer(text):
        decoded = of_base64(found[0])
        if decoded.place is not None:
            decoded.place += found.start()
        runs.append(Run(found.start(), decoded))
    return runs

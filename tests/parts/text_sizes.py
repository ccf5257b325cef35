"""Tests tlvdump-show on large texts: one line of 10 MB in several forms, and hostile texts, whose time grows as they do.

The times are those of the processor, since other programs may run.
"""
import base64
import math
import random
import resource
import subprocess

from parts import text_makers

LINE, FEW_SECONDS = 10_000_000, 5
SMALL, LARGE = 1 << 20, 8 << 20
# How many times as long the large text may take. A time below LEAST counts as LEAST.
RATIO, LEAST, TRIES = 16, 0.01, 3
# Hostile texts: the characters that are repeated, and the value of --as. They begin many blocks, tokens, lists, runs or rows
# without an end, or are left out, or make each search go on to the end of the text.
HOSTILE = (
    (b"-----BEGIN A-----", None), (b"-----BEGIN A-----\n", "pem"), (b"-----BEGIN A-----\na: b\n", None), (b"-----BEGIN ", None),
    (b"-", None), (b"-----BEGIN A-----:\\n", None), (b"0x0x", None), (b"\\x3", "hex"), (b"\\x30", None), (b"[1,2", None),
    (b"{[", None), (b"[1,2]", "numbers"), (b"A" * 40 + b"*", None), (b"MIIB" * 10 + b"\n ", "runs"), (b"A\n ", None),
    (b"LS0tLS1CRUdJTiBBLS0tLS0K", None), (b"=", "base64"), (b"\n", None), (b"\\n", "base64"), (b"0000:\n", None),
    (b"0000 00\n*\n", None), (b"0000 00\n", "dump"), (b"*\n", "dump"), (b"caf\xc3\xa9 ", None),
)


def processor_time(program, *words, given=b"", **how):
    """Returns the seconds of a run, and its result."""
    before = resource.getrusage(resource.RUSAGE_CHILDREN)
    got = program.run(["--raw", *words], given, **how)
    after = resource.getrusage(resource.RUSAGE_CHILDREN)
    return after.ru_utime + after.ru_stime - before.ru_utime - before.ru_stime, got


def encoding(size):
    """Returns a SEQUENCE with an OCTET STRING of random octets, of this size."""
    contents = random.Random("one line").randbytes(size - 12)
    string = b"\x04\x84" + len(contents).to_bytes(4, "big") + contents
    return b"\x30\x84" + len(string).to_bytes(4, "big") + string


def certificate(octets):
    """Returns a block of PEM in one line."""
    return text_makers.pem(b"CERTIFICATE", octets).replace(b"\n", b"")


def in_json(octets):
    """Returns a block of PEM in JSON, in one line."""
    return b'{"a": "' + text_makers.pem(b"CERTIFICATE", octets).replace(b"\n", b"\\n") + b'"}'


# Texts of one line: a name, the part of their characters that is the number of their octets, and a function that makes them.
LINES = (
    ("base64", 3 / 4, base64.b64encode), ("base64 and a line end", 3 / 4, lambda octets: base64.b64encode(octets) + b"\n"),
    ("a run", 3 / 4, lambda octets: b"<b>" + base64.b64encode(octets) + b"</b>"),
    ("PEM", 3 / 4, certificate), ("PEM in JSON", 0.73, in_json),
    ("hexadecimal", 1 / 2, lambda octets: octets.hex().encode()),
    ("tokens", 1 / 5, lambda octets: text_makers.digits(octets, b",0x")[1:]),
    ("numbers", 0.28, lambda octets: b"[" + b",".join(b"%d" % octet for octet in octets) + b"]"),
)


def one_line(part, program):
    """A text of one line of some 10 MB is decoded within some seconds."""
    for name, share, text_of in LINES:
        octets = encoding(int(LINE * share))
        text = text_of(octets)
        seconds, got = processor_time(program, given=text)
        what = f"{name}, {len(text)} octets in one line"
        said = got.err.startswith(b"taken for ") and got.err.count(b"\n") == 1
        # The lines of the result would be megabytes.
        part.expect(what, got.status == 0 and got.out == octets and said, f"status {got.status}", got.err[:200])
        part.expect(f"{what}: its time", seconds <= FEW_SECONDS, f"{seconds:.2f} s")


def hostile(part, program):
    """A hostile text of eight times the size takes at most 16 times as long."""
    for unit, form in HOSTILE:
        for name, size in (("small", SMALL), ("large", LARGE)):
            part.write(name, (unit * (size // len(unit) + 1))[:size])
        what = f"{unit[:30]!r} again and again, --as {form}"
        for _ in range(TRIES):
            small, large = (time_of_file(program, name, form) for name in ("small", "large"))
            fine = small < math.inf and large <= RATIO * max(small, LEAST)
            if fine:
                break
        part.expect(f"{what}: its time", fine, f"{small:.3f} s and {large:.3f} s")


def time_of_file(program, name, form):
    """Returns the seconds of a run on a FILE. They are infinite if it does not end with a status of the program."""
    quiet = {"stdin": subprocess.DEVNULL, "stdout": subprocess.DEVNULL, "stderr": subprocess.DEVNULL}
    seconds, got = processor_time(program, *([f"--as={form}"] if form else []), name, **quiet)
    return seconds if got.status in range(5) else math.inf

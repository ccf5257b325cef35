"""Runs the rows of tests/rows: words, octets, and what is written and reported (parts/row_files.py reads them).

Each row is run four times: on a pipe, octet by octet through a pipe (up to 64 octets), on a file as standard input, and
on FILE. The files that `tests/make-rows` writes from the rows must be up to date. Further tests put each octet after an
element whose bound is reached.
"""
import fcntl
import importlib.machinery
import importlib.util
import os
import struct
import subprocess
import termios
import time

from parts.harness import SECONDS, Done, message
from parts.row_files import files


def waiting(pipe):
    """Returns the number of octets in the pipe that are written and not yet read."""
    return struct.unpack("i", fcntl.ioctl(pipe, termios.FIONREAD, b"\0" * 4))[0]


def in_single_octets(part, row):
    """Runs the row with a pipe that holds one octet at a time."""
    how = {"stdin": subprocess.PIPE, "stdout": subprocess.PIPE, "stderr": subprocess.PIPE}
    child = part.start(row.words, bufsize=0, **how)
    for octet in row.given:
        try:
            child.stdin.write(bytes([octet]))
        except BrokenPipeError:
            break
        while waiting(child.stdin) and child.poll() is None:
            time.sleep(0)
    out, err = child.communicate(timeout=SECONDS)
    return Done(child.returncode, out, err)


def wanted_of(row):
    return Done(row.status, row.out, message(row.message))


def run_row(part, row):
    if row.names is not None:
        part.write("names", row.names)
    what, wanted = f"{row.place} {' '.join(row.words)}", wanted_of(row)
    part.same(f"{what}, a pipe", part.run(row.words, row.given), wanted)
    path = part.write("input", row.given)
    with open(path, "rb") as file:
        part.same(f"{what}, a file as standard input", part.run(row.words, stdin=file), wanted)
    by_name = part.run([*row.words, "input"], stdin=subprocess.DEVNULL)
    part.same(f"{what}, a FILE", by_name, wanted)
    if len(row.given) <= 64:
        part.same(f"{what}, single octets", in_single_octets(part, row), wanted)


# An indefinite element that reaches its bound without end-of-contents octets. No octet may follow.
UNENDED = bytes.fromhex("30053080020105")
UNENDED_WRITTEN = {
    "dump": b"       0      5: SEQUENCE {\n       2  indef:   SEQUENCE {\n       4      1:     INTEGER 5\n",
    "check": b"2 D01 indefinite length\n",
    "indef": bytes.fromhex("30803080020105"),
}


def any_octet_after_the_bound(part):
    """Any octet after the bound is F05, alone and with more after it."""
    said = message("fault at 7: F05 no end-of-contents inside the enclosing length")
    for octet in range(256):
        for rest in (b"", b"\x00\x00"):
            given = UNENDED + bytes([octet]) + rest
            for command, out in UNENDED_WRITTEN.items():
                part.same(f"{command} of {given.hex(' ')}", part.run([command], given), Done(2, out, said))


def stale_files(part):
    """The files that `tests/make-rows` writes are up to date."""
    loader = importlib.machinery.SourceFileLoader("make_rows", os.path.join(part.root, "tests", "make-rows"))
    script = importlib.util.module_from_spec(importlib.util.spec_from_loader("make_rows", loader))
    loader.exec_module(script)
    return script.stale(part.root)


def test(part):
    stale = stale_files(part)
    part.expect("tests/make-rows would write these files as they are", not stale, *stale)
    for rows in files(part.root).values():
        for row in rows:
            run_row(part, row)
    any_octet_after_the_bound(part)

"""Tests time and order: lines that are written before the input ends, pipes that close early, signals, and depth."""
import os
import select
import signal
import subprocess
import time

from parts.harness import SECONDS, Done, message

PIPES = {"stdin": subprocess.PIPE, "stdout": subprocess.PIPE, "stderr": subprocess.PIPE, "bufsize": 0}


def read_so_far(pipe, count):
    """Reads `count` octets, or fewer if no more come in time."""
    got, until = b"", time.monotonic() + SECONDS
    while len(got) < count and time.monotonic() < until:
        if select.select([pipe], [], [], 1)[0]:
            some = os.read(pipe.fileno(), count - len(got))
            if not some:
                break
            got += some
    return got


# Octets, and what is written after them before the input ends.
STEPS = [
    (bytes.fromhex("3a09"), b"       0      9: VisibleString {\n"),
    (bytes.fromhex("04034a6f6e"), b"       2      3:   OCTET STRING 4a 6f 6e\n"),
    (bytes.fromhex("04026573"), b"       7      2:   OCTET STRING 65 73\n                 }\n"),
    (bytes.fromhex("0420") + bytes(16), b"      11     32: OCTET STRING\n" + b" " * 19 + b"00 " * 15 + b"00\n"),
    (bytes(16), b" " * 19 + b"00 " * 15 + b"00\n"),
]


def lines_come_at_once(part):
    child = part.start(["dump"], **PIPES)
    for number, (octets, text) in enumerate(STEPS):
        child.stdin.write(octets)
        part.expect(f"lines come at once, step {number}", read_so_far(child.stdout, len(text)) == text)
    out, err = child.communicate(timeout=SECONDS)
    part.same("and nothing more at the end", Done(child.returncode, out, err), Done(0, b"", b""))


def ends_by_itself(part, words, octets, status, out, err=""):
    """The program ends although its input is still open."""
    child = part.start(words, **PIPES)
    child.stdin.write(octets)
    try:
        child.wait(timeout=SECONDS)
    except subprocess.TimeoutExpired:
        child.kill()
    got_out, got_err = child.communicate()
    done = Done(child.returncode, got_out, got_err)
    part.same(f"{' '.join(words)} ends before its input", done, Done(status, out, message(err)))


def ends_early(part):
    fault = "fault at 3: F07 length octet ff is reserved"
    ends_by_itself(part, ["dump"], b"\x05\x00\x04\xff", 2, b"       0      0: NULL\n", fault)
    ends_by_itself(part, ["indef"], b"\x05\x00\x04\xff", 2, b"\x05\x00", fault)
    ends_by_itself(part, ["extract", "--offset", "0"], b"\x02\x01\x05", 0, b"\x02\x01\x05")
    ends_by_itself(part, ["extract", "--offset", "2", "--contents"], b"\x30\x80\x04\x01\xaa", 0, b"\xaa")


def closed_early(part):
    """If the reader of the output closes it, the program ends with
    E2 if SIGPIPE is ignored, and is ended by SIGPIPE otherwise.
    """
    nulls = b"\x05\x00" * 100_000
    for ignored in (True, False):
        action = signal.SIG_IGN if ignored else signal.SIG_DFL
        how = {**PIPES, "restore_signals": False, "preexec_fn": lambda: signal.signal(signal.SIGPIPE, action)}
        path = part.write("nulls", nulls)
        with open(path, "rb") as file:
            child = part.start(["dump"], **{**how, "stdin": file})
            first = read_so_far(child.stdout, 22)
            child.stdout.close()
            err = child.stderr.read()
            child.stderr.close()
            status = child.wait(timeout=SECONDS)
        part.expect("the first line comes", first == b"       0      0: NULL\n")
        wanted = [(3, b"E2 write failed\n")] if ignored else [(3, b"E2 write failed\n"), (-signal.SIGPIPE, b"")]
        what = "a pipe closed early, SIGPIPE " + ("ignored" if ignored else "as it is by itself")
        part.expect(what, (status, err) in wanted, f"status {status}", f"errors {err}")


def heed(number):
    """Gives a signal its default effect in the program, even if
    it is ignored here, as SIGINT is in the background of a shell.
    """
    if number != signal.SIGKILL:
        signal.signal(number, signal.SIG_DFL)


def signals(part):
    """A signal ends the program in the usual way, and what was written stays. Stopping and continuing changes nothing.
    """
    for number in (signal.SIGTERM, signal.SIGINT, signal.SIGHUP, signal.SIGKILL):
        child = part.start(["dump"], **PIPES, preexec_fn=lambda: heed(number))
        child.stdin.write(STEPS[0][0])
        first = read_so_far(child.stdout, len(STEPS[0][1]))
        child.send_signal(number)
        out, err = child.communicate(timeout=SECONDS)
        part.expect(f"the line before {number.name}", first == STEPS[0][1])
        part.same(f"death by {number.name}", Done(child.returncode, out, err), Done(-number, b"", b""))
    child = part.start(["dump"], **PIPES)
    child.stdin.write(STEPS[0][0])
    first = read_so_far(child.stdout, len(STEPS[0][1]))
    child.send_signal(signal.SIGSTOP)
    child.stdin.write(STEPS[1][0] + STEPS[2][0])
    child.send_signal(signal.SIGCONT)
    out, err = child.communicate(timeout=SECONDS)
    rest = STEPS[1][1] + STEPS[2][1]
    part.same("a pause by SIGSTOP", Done(child.returncode, out, err), Done(0, rest, b""))


def nested_lines(depth):
    """Returns the lines of `depth` open SEQUENCEs of indefinite length."""
    lines = [f"{2 * level:8}  indef: {'  ' * level}SEQUENCE {{\n" for level in range(depth)]
    return "".join(lines).encode()


def depth(part):
    """At most 128 elements may be open, and a wrapper counts as one."""
    opened = b"\x30\x80" * 128
    ends = [f"{256 + 2 * n:8}    end: {'  ' * (127 - n)}}}\n".encode() for n in range(128)]
    part.gives(["dump"], opened + bytes(256), 0, nested_lines(128) + b"".join(ends))
    deep = "fault at 257: F10 more than 128 open elements"
    part.gives(["dump"], opened + b"\x30\x80", 2, nested_lines(128), deep)
    part.gives(["dump", "--inside", "256"], opened + b"\x04\x00", 2, nested_lines(128), deep)
    short = "fault at 258: F02 input ends inside an encoding"
    string = f"{256:8} {0:6}: {'  ' * 128}OCTET STRING\n".encode()
    part.gives(["dump"], opened + b"\x04\x00", 2, nested_lines(128) + string, short)
    part.gives(["indef"], opened + bytes(256), 0, opened + bytes(256))
    inner = b"\x30\x80" * 2 + bytes(4)
    part.gives(["extract", "--offset", "252"], opened + bytes(256), 0, inner)


def test(part):
    lines_come_at_once(part)
    ends_early(part)
    closed_early(part)
    signals(part)
    depth(part)

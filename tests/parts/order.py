"""Tests the order in which lines come, where standard output and standard error are one pipe or one terminal.

What a block was taken for comes before its title and its lines, and its message, with the reasons, after them. The note that
standard input is read comes before a key is typed.
"""
import os
import pty
import select
import subprocess
import termios
import threading
import time
import tty

from parts.harness import Done, SECONDS
from parts.show_program import Program

NULL, NULL_LINE = b"\x05\x00", b"       0      0: NULL\n"
CUT, CUT_LINE = bytes.fromhex("3003020201"), b"       0      3: SEQUENCE {\n"
CUT_FAULT = "fault at 3: F11 element runs past the enclosing length"
BROKEN = bytes.fromhex("300b0603551d0f0404030305a0")
BROKEN_LINES = (
    b"       0     11: SEQUENCE {\n"
    b"       2      3:   OBJECT IDENTIFIER 2.5.29.15 (keyUsage)\n"
    b"       7      4:   OCTET STRING 03 03 05 a0\n"
    b"                 }\n"
)
BREAKS = "string at 7 is the value of an extension and breaks at 10: F11 element runs past the enclosing length"
TYPED = b"standard input is read, up to Ctrl-D\n"
HEX = b"taken for hexadecimal\n"


def one_pipe(part, program):
    """Both streams are one pipe."""
    both = {"stderr": subprocess.STDOUT}
    for words, octets, status, wanted in (
        (["dump"], CUT, 2, CUT_LINE + CUT_FAULT.encode() + b"\n"),
        (["check"], b"\x30\x80\x04\x81\x01\x07\x00\x00", 1, b"0 D01 indefinite length\n2 S01 length is not the shortest\nfindings: 2\n"),
    ):
        part.same(f"one pipe: tlvdump {' '.join(words)}", part.run(words, octets, **both), Done(status, wanted, b""))
    for name, octets in (("null", NULL), ("cut", CUT), ("broken", BROKEN)):
        part.write(name, octets)
        part.write(f"{name}.hex", octets.hex().encode())
    cut = program.with_reasons(CUT_FAULT, CUT).encode() + b"\n"
    breaks = program.with_reasons(BREAKS, BROKEN).encode() + b"\n"
    title = lambda at, count, name: f"# block {at} of {count}: {name}\n".encode()
    missing = b"missing: E5 cannot open the file: no such file\n"
    for words, status, wanted in (
        (["null.hex"], 0, b"null.hex: " + HEX + NULL_LINE),
        (["cut"], 2, CUT_LINE + b"cut: " + cut),
        (["cut.hex"], 2, b"cut.hex: " + HEX + CUT_LINE + b"cut.hex: " + cut),
        (["--check", "cut.hex"], 2, b"cut.hex: " + HEX + b"cut.hex: " + cut),
        (["broken"], 1, BROKEN_LINES + b"broken: " + breaks),
        (["null", "cut.hex", "null.hex"], 2, title(1, 3, "null") + NULL_LINE
         + b"cut.hex: " + HEX + title(2, 3, "cut.hex") + CUT_LINE + b"cut.hex: " + cut
         + b"null.hex: " + HEX + title(3, 3, "null.hex") + NULL_LINE),
        (["broken", "missing", "null.hex"], 3, title(1, 3, "broken") + BROKEN_LINES + b"broken: " + breaks
         + title(2, 3, "missing") + missing + b"null.hex: " + HEX + title(3, 3, "null.hex") + NULL_LINE),
        (["--raw", "null.hex"], 0, b"null.hex: " + HEX + NULL),
    ):
        got = program.run(words, b"", **both)
        part.same(f"one pipe: tlvdump-show {' '.join(words)}", got, Done(status, wanted, b""))


def read_until(file, wanted, seconds):
    """Reads from a file descriptor until it has given these octets, or ends, or the time is over. Returns what came."""
    got, end = b"", time.time() + seconds
    while wanted not in got and time.time() < end:
        if select.select([file], [], [], 0.1)[0]:
            try:
                more = os.read(file, 4096)
            except OSError:
                break
            if not more:
                break
            got += more
    return got


def before_a_key(part, program):
    """The note that standard input is read comes while nothing was typed, and what the text was taken for before its lines.
    All three streams are a terminal.
    """
    mine, its = pty.openpty()
    tty.setraw(its)
    # It shows no keys and changes no line ends, but takes Ctrl-D for the end.
    modes = termios.tcgetattr(its)
    modes[3] |= termios.ICANON
    termios.tcsetattr(its, termios.TCSANOW, modes)
    child = part.start([], program=program.path, stdin=its, stdout=its, stderr=its)
    os.close(its)
    first = read_until(mine, TYPED, 30)
    part.expect("the note comes before a key is typed", first == TYPED, repr(first), str(child.poll()))
    os.write(mine, b"05 00\n")
    time.sleep(0.2)
    os.write(mine, b"\x04")
    rest = read_until(mine, NULL_LINE, 30)
    try:
        status = child.wait(timeout=SECONDS)
    except subprocess.TimeoutExpired:
        child.kill()
        status = child.wait()
    rest += read_until(mine, b"nothing more", 0.3)
    os.close(mine)
    part.expect("what comes then", (status, rest) == (0, HEX + NULL_LINE), str(status), repr(rest))


def while_it_comes(part):
    """`dump` writes the lines that the octets so far allow before it reads again: each comes before the next is given."""
    child = part.start(["dump"], stdin=subprocess.PIPE, stdout=subprocess.PIPE, stderr=subprocess.STDOUT)
    for octets, line in ((CUT[:2], CUT_LINE), (CUT[2:4], CUT_FAULT.encode() + b"\n")):
        child.stdin.write(octets)
        child.stdin.flush()
        got = read_until(child.stdout.fileno(), line, 30)
        part.expect(f"dump, after {octets.hex()}", got == line, repr(got))
    child.stdin.close()
    part.expect("dump, its status", child.wait(timeout=SECONDS) == 2)
    child.stdout.close()


def once(part, program):
    """A FILE is opened once: a FIFO gives its octets once, to whoever opens it first. So does a names file."""
    def feed(name, octets):
        with open(part.path(name), "wb") as file:
            file.write(octets)

    names = b"2.5.4.3 cn\n"
    named = b"       0      3: OBJECT IDENTIFIER 2.5.4.3 (cn)\n"
    element = bytes.fromhex("0603550403")
    for what, path, words, given, wanted in (
        ("tlvdump dump", part.program, ["dump", "FIFO"], NULL * 40_000, b"".join(b"%8d      0: NULL\n" % (2 * at) for at in range(40_000))),
        ("tlvdump indef", part.program, ["indef", "FIFO"], NULL, NULL),
        ("tlvdump --names", part.program, ["dump", "--names", "FIFO"], names, named),
        ("tlvdump-show", program.path, ["FIFO"], NULL * 40_000, b"".join(b"%8d      0: NULL\n" % (2 * at) for at in range(40_000))),
        ("tlvdump-show --raw", program.path, ["--raw", "FIFO"], NULL, NULL),
        ("tlvdump-show --names", program.path, ["--names", "FIFO"], names, named),
    ):
        os.mkfifo(part.path("FIFO"))
        feeder = threading.Thread(target=feed, args=("FIFO", given), daemon=True)
        feeder.start()
        child = part.start(words, program=path, stdin=subprocess.PIPE, stdout=subprocess.PIPE, stderr=subprocess.PIPE)
        try:
            out, err = child.communicate(element if "--names" in what else b"", timeout=30)
            got = Done(child.returncode, out, err)
        except subprocess.TimeoutExpired:
            child.kill()
            child.communicate()
            got = Done("none: it did not end", b"", b"")
        part.same(f"a FIFO is opened once: {what}", got, Done(0, wanted, b""))
        os.remove(part.path("FIFO"))


def test(part):
    program = Program(part)
    one_pipe(part, program)
    before_a_key(part, program)
    while_it_comes(part)
    once(part, program)

"""Tests the calls of read and write that tlvdump-show makes, and what it does if one fails.

A call that failed is not repeated. tests/parts/calls.c is loaded before the C library (parts/device_calls.py). After a
failed read nothing of that input is shown. The lines before a failed write are right.
"""
import errno

from parts.device_calls import Calls, null_lines
from parts.harness import Done, message
from parts.show_program import Program

NULL = b"\x05\x00"
GIVEN = NULL * 5000
STRINGS = b"\x04\x02\x05\x00" * 2000
# Many elements, followed by a string that breaks, or by an octet that begins an element without its end.
BROKEN, CUT = GIVEN + bytes.fromhex("300b0603551d0f0404030305a0"), GIVEN + b"\x04"
READ, WRITE = "E1 read failed", "E2 write failed"
ERRORS = (errno.EAGAIN, errno.EINTR, errno.EIO, errno.ENOSPC)
JOBS = (["--names", "none"], ["--check"], ["--offsets"], ["--offset", "4"], ["--raw"], ["--why"])


class ShowCalls(Calls):
    """Runs tlvdump-show with calls.c loaded before the C library."""

    def __init__(self, part, loaded, program):
        super().__init__(part, loaded)
        self.path = program.path

    def run(self, words, given=b"", fail=None, most=None):
        """Runs it in the same way as tlvdump. Returns what it did, and its calls."""
        part, path = self.part, self.path
        start = part.start
        part.start = lambda words, program=None, **how: start(words, program=path, **how)
        try:
            return super().run(words, given, fail, most)
        finally:
            part.start = start


def of(calls, name, descriptor):
    """Returns the calls of this name and descriptor."""
    return [call for call in calls if call[:2] == (name, descriptor)]


def reads(part, calls):
    """Each failed read gives E1. Nothing of the input is shown, and the read is not repeated."""
    for words in JOBS:
        got, own = calls.run(words, GIVEN)
        count = len(of(own, "read", 0))
        part.expect(f"{words}: several reads", got.status == 0 and count > 2, *got.lines())
        for number in range(1, count + 1):
            for error in ERRORS:
                got, made = calls.run(words, GIVEN, fail=("read", 0, number, error))
                what = f"{' '.join(words)}: read {number} fails with {errno.errorcode[error]}"
                part.same(what, got, Done(3, b"", message(READ)))
                part.expect(f"{what}: no read after it", len(of(made, "read", 0)) == number, *map(str, made))
    part.write("input", GIVEN)
    part.write("null", NULL)
    got, own = calls.run(["--names", "none", "input", "null"])
    blocks = [b"# block 1 of 2: input\n", null_lines(len(GIVEN)), b"# block 2 of 2: null\n", null_lines(2)]
    part.same("two files", got, Done(0, b"".join(blocks), b""))
    file = of(own, "read", own[-1][1])[0][1] if own[-1][0] == "read" else max(call[1] for call in own if call[0] == "read")
    got, _ = calls.run(["--names", "none", "input", "null"], fail=("read", file, len(of(own, "read", file)) - 4, errno.EIO))
    fine = got.status == 3 and got.err.startswith(b"input: E1 read failed\n") and got.out.endswith(b"".join(blocks[2:]))
    part.expect("the first of two files fails", fine, *got.lines())


def writes(part, calls):
    """Each write that fails or takes nothing gives E2. The lines before it are right, and no write follows.

    If it fails because nothing reads standard output any more (EPIPE), that is no message. The lines of broken strings
    come in each case, without reasons.
    """
    for words, given in ((["--names", "none"], GIVEN), (["--names", "none"], STRINGS), (["--offsets"], STRINGS),
                         (["--offset", "0"], b"\x04\x82\x27\x10" + GIVEN), (["--check"], b"\x02\x02\x00\x05" * 500),
                         (["--raw"], GIVEN), (["--names", "none"], STRINGS.hex().encode()), (["--why"], STRINGS),
                         (["--names", "none"], BROKEN), (["--names", "none"], CUT), (["--offsets"], STRINGS + b"\x04"),
                         (["--why"], CUT), (["--why"], BROKEN)):
        whole, own = calls.run(words, given)
        count, taken = len(of(own, "write", 1)), 0
        note = whole.err if whole.err.startswith(b"taken for ") else b""
        broken = b"".join(line for line in whole.err.splitlines(True) if line.startswith(b"string at "))
        part.expect(f"{words}: writes", count > 0, *whole.lines())
        for number in range(1, count + 1):
            for error in (*ERRORS, errno.EPIPE, 0):
                got, made = calls.run(words, given, fail=("write", 1, number, error))
                what = f"{' '.join(words)}: write {number} fails with {errno.errorcode.get(error, 'nothing')}"
                said = b"" if error == errno.EPIPE else message(WRITE)
                part.same(what, got, Done(3, whole.out[:taken], note + said + broken))
                part.expect(f"{what}: no write after it", len(of(made, "write", 1)) == number)
            taken += of(own, "write", 1)[number - 1][3]


def messages(part, calls):
    """Each failed write to standard error changes neither output nor status, and is not repeated."""
    for words, given in ((["--names", "none"], BROKEN[-13:]), (["--check"], CUT), (["--offsets"], CUT), (["--why"], BROKEN)):
        whole, own = calls.run(words, given)
        lengths = [call[3] for call in of(own, "write", 2)]
        part.expect(f"{words}: writes to standard error", lengths, *whole.lines())
        for number in range(1, len(lengths) + 1):
            before, lost = sum(lengths[: number - 1]), lengths[number - 1]
            got, _ = calls.run(words, given, fail=("write", 2, number, errno.EIO))
            fine = (got.status, got.out) == (whole.status, whole.out) and got.err[:before] == whole.err[:before]
            fine = fine and whole.err[before + lost :].startswith(got.err[before:])
            part.expect(f"{words}: write {number} to standard error fails", fine, *got.lines())


def small_pieces(part, calls):
    """Reads and writes of one octet, of three, and of many give the same results."""
    for words, given in ((["--names", "none"], STRINGS[:400]), (["--check"], b"\x02\x02\x00\x05" * 5), (["--offsets"], STRINGS[:400])):
        wanted, _ = calls.run(words, given)
        for most in (1, 3, 1000):
            got, _ = calls.run(words, given, most=most)
            part.same(f"{' '.join(words)}: {most} octets at once", got, wanted)


def test(part):
    loaded = part.made_of("calls.c")
    if not loaded:
        return
    calls = ShowCalls(part, loaded, Program(part))
    part.write("none", b"# no names\n")
    reads(part, calls)
    writes(part, calls)
    messages(part, calls)
    small_pieces(part, calls)

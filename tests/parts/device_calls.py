"""Tests the calls of read and write that tlvdump makes.

A call that failed is not repeated. Before each read, all lines for the octets read so far have been written.

tests/parts/calls.c is loaded before the C library. It logs the calls, and makes one of them fail, once: so a repeated
call would succeed and be seen. After a failure only the message may be written.
"""
import errno
import fcntl
import os
import re
import struct
import termios

from parts.harness import Done, message
from parts.row_files import files

NULL, NAMES = b"\x05\x00", b"1.2.840 us\n" + b"# x\n" * 2500
READ, WRITE, UNREAD = "E1 read failed", "E2 write failed", "N5 names file not read"
# The largest number of octets that a read asks for.
PIECE = 4096
# Input for four reads: two of 4096 octets, one of the rest, and one at the end.
GIVEN = NULL * 5000
FEW = (errno.EAGAIN, errno.EINTR, errno.EIO, errno.ENOSPC)
COMMANDS = (["dump"], ["check"], ["indef"], ["extract", "--offset", str(len(GIVEN) - 2)])


def null_lines(octets):
    """Returns the lines of the dump of `octets` octets, which are NULLs 05 00."""
    return b"".join(b"%8d      0: NULL\n" % offset for offset in range(0, octets - 1, 2))


# What each command has written after reading this number of octets.
WRITTEN = {"dump": null_lines, "check": lambda octets: b"", "indef": lambda octets: GIVEN[:octets]}
WRITTEN["extract"] = lambda octets: NULL if octets == len(GIVEN) else b""


class Calls:
    """Runs the program with calls.c loaded before the C library."""

    def __init__(self, part, loaded):
        self.part, self.loaded, self.log = part, loaded, part.path("log")

    def run(self, words, given=b"", fail=None, most=None):
        """Runs it with a file of these octets as standard input. Returns what it did, and its calls.

        A call is "read" or "write", the descriptor, the size, and the result.
        """
        env = dict(os.environ, LD_PRELOAD=self.loaded, CALLS_LOG=self.log)
        env |= {"CALLS_FAIL": " ".join(map(str, fail))} if fail else {}
        env |= {"CALLS_MOST": str(most)} if most else {}
        if os.path.exists(self.log):
            os.remove(self.log)
        with open(self.part.write("given", given), "rb") as file:
            got = self.part.run(words, stdin=file, env=env)
        with open(self.log, encoding="ascii") as file:
            calls = [line.split() for line in file]
        return got, [(name, *map(int, numbers)) for name, *numbers in calls]


def failing(calls, name, file, number, error):
    """Returns the calls up to the one with this name, descriptor and number, which fails with this error."""
    places = [place for place, call in enumerate(calls) if call[:2] == (name, file)]
    place = places[number - 1]
    return [*calls[:place], (*calls[place][:3], -error)]


def fails_once(part, calls, what, words, given, fail, wanted, own):
    """Checks that after the failed call `fail` the program makes no call but the one of its message, and ends as
    wanted.

    `own` has the calls of a run in which none fails.
    """
    got, made = calls.run(words, given, fail=fail)
    said = len(wanted.err)
    wanted_calls = [*failing(own, *fail), ("write", 2, said, said)]
    what = f"{what}: {fail[0]} {fail[2]} fails with {errno.errorcode.get(fail[3], 'nothing')}"
    part.same(what, got, wanted)
    part.expect(f"{what}, the calls", made == wanted_calls, f"last calls {made[-4:]}", f"wanted {wanted_calls[-4:]}")


def reads_that_fail(part, calls):
    """A failed read is not repeated, whatever the error. The lines of the octets before it are written."""
    for words in COMMANDS:
        got, own = calls.run(words, GIVEN)
        written = WRITTEN[words[0]]
        part.same(f"{words[0]} of {len(GIVEN)} octets", got, Done(0, written(len(GIVEN)), b""))
        count = sum(call[0] == "read" for call in own)
        part.expect(f"{words[0]}: the reads", count == (3 if words[0] == "extract" else 4), f"{count} reads")
        for number in range(1, count + 1):
            before = written(min(len(GIVEN), PIECE * (number - 1)))
            for error in errno.errorcode if words == ["dump"] else FEW:
                wanted = Done(3, before, message(READ))
                fails_once(part, calls, words[0], words, GIVEN, ("read", 0, number, error), wanted, own)


def files_that_fail(part, calls):
    """A failed read of FILE or of the names file is not repeated, whatever the error."""
    part.write("input", GIVEN)
    part.write("names", NAMES)
    words = ["dump", "--names", "names", "input"]
    got, own = calls.run(words)
    part.same("a dump with names", got, Done(0, null_lines(len(GIVEN)), b""))
    opened = dict.fromkeys(call[1] for call in own if call[0] == "read")
    part.expect("two files are read", 1 <= len(opened) <= 2, str(own[:9]))
    # The file is opened after the names file is closed, and may get the same descriptor. Its reads are the last four.
    file, count = own[-1][1], sum(call[0] == "read" for call in own)
    for number in range(1, count + 1):
        is_of_names = number <= count - 4
        before = null_lines(min(len(GIVEN), PIECE * max(0, number - (count - 3))))
        wanted = Done(4, b"", message(UNREAD)) if is_of_names else Done(3, before, message(READ))
        for error in FEW:
            fails_once(part, calls, " ".join(words), words, b"", ("read", file, number, error), wanted, own)


def writes_that_fail(part, calls):
    """A write that fails or takes nothing is not repeated, and no read is made after it."""
    for words in (["dump"], ["indef"], ["extract", "--offset", "0"]):
        given = GIVEN if words[0] != "extract" else b"\x04\x82\x27\x10" + GIVEN
        got, own = calls.run(words, given)
        writes = [call for call in own if call[:2] == ("write", 1)]
        part.expect(f"{words[0]} writes several times", got.status == 0 and len(writes) > 2, *got.lines())
        errors = [*errno.errorcode, 0] if words == ["dump"] else [*FEW, 0]
        for number in {1, 2, len(writes) // 2, len(writes)}:
            before = got.out[: sum(call[3] for call in writes[: number - 1])]
            for error in errors:
                wanted = Done(3, before, message(WRITE))
                fails_once(part, calls, words[0], words, given, ("write", 1, number, error), wanted, own)


def messages_that_fail(part, calls):
    """A message that cannot be written is not written again, and the status stays. Help that cannot be written is E2.
    """
    for words in (["--help"], ["dump", "--help"], ["--version"]):
        for error in (errno.EAGAIN, errno.EIO, errno.ENOSPC, 0):
            got, made = calls.run(words, fail=("write", 1, 1, error))
            fine = got == Done(3, b"", message(WRITE)) and [call[:2] for call in made] == [("write", 1), ("write", 2)]
            part.expect(f"{' '.join(words)} that fails with {error}", fine, *got.lines(), str(made))
    line = b"       0      3: SEQUENCE {\n"
    for error in [*FEW, 0]:
        got, made = calls.run(["dump"], b"\x30\x03\x02\x02\x01", fail=("write", 2, 1, error))
        said = sum(call[:2] == ("write", 2) for call in made)
        fine = got == Done(2, line, b"") and said == 1
        part.expect(f"a message that fails with {error}", fine, *got.lines(), str(made))


def reads_of(row):
    """Returns how many reads of single octets a row needs, or None if the row does not say it."""
    fault = re.fullmatch(r"fault at (\d+): (F\d\d) .*", row.message)
    if fault and fault[2] not in ("F01", "F02"):
        return int(fault[1]) + 1
    if row.words[0] == "extract" and row.status == 0:
        # Contents may be written before the element is whole.
        is_said = row.written and row.is_timed() and "--contents" not in row.words
        return max(come for come, _ in row.written) if is_said else None
    return len(row.given) + 1


def late_lines(row, made):
    """Returns how the calls of a row are wrong: before each read exactly the output that is due must have been written.
    """
    wrong, octets, written = [], 0, 0
    for name, file, size, result in made:
        if (name, file) == ("write", 1):
            written += result
        elif (name, file) == ("read", 0):
            due = sum(len(text) for come, text in row.written if come <= octets)
            if written != due or not 1 <= size <= PIECE:
                wrong.append(f"after {octets} octets {written} were written, {due} were due, room for {size}")
            octets += result
    return wrong


def rows_in_single_octets(part, calls):
    """Runs each row with reads and writes of single octets."""
    for rows in files(part.root).values():
        for row in rows:
            if row.names is not None:
                part.write("names", row.names)
            what = f"{row.place} {' '.join(row.words)}"
            got, made = calls.run(row.words, row.given, most=1)
            part.same(f"{what}, one octet for each call", got, Done(row.status, row.out, message(row.message)))
            count, wanted = sum(call[:2] == ("read", 0) for call in made), reads_of(row)
            part.expect(f"{what}: the reads", wanted in (None, count), f"{count} reads, not {wanted}")
            if row.is_timed():
                wrong = late_lines(row, made)
                part.expect(f"{what}: lines before each read", not wrong, *wrong[:4])


def waiting(pipe):
    """Returns the number of octets in the pipe."""
    return struct.unpack("i", fcntl.ioctl(pipe, termios.FIONREAD, b"\0" * 4))[0]


def full_disk(part):
    """If the disk is full, only one piece is read from a pipe."""
    for words in (["dump"], ["indef"], ["extract", "--offset", "0", "--contents"], ["dump", "/dev/stdin"]):
        reading, writing = os.pipe()
        os.write(writing, b"\x04\x83\x01\x00\x00" + bytes(50_000))
        offered = waiting(reading)
        with open("/dev/full", "wb") as full:
            part.gives(words, None, 3, err=WRITE, stdin=reading, stdout=full)
        left = waiting(reading)
        part.expect(f"{words[0]}: one piece is read", left == offered - PIECE, f"{offered - left} octets are read")
        os.close(writing)
        os.close(reading)


def pipes_that_do_not_wait(part):
    """A pipe that does not block fails if it is empty or full."""
    reading, writing = os.pipe()
    os.set_blocking(reading, False)
    for words in COMMANDS:
        part.gives(words, None, 3, err=READ, stdin=reading)
    os.close(reading)
    os.close(writing)
    for words in (["dump"], ["indef"]):
        reading, writing = os.pipe()
        fcntl.fcntl(writing, fcntl.F_SETPIPE_SZ, PIECE)
        os.set_blocking(writing, False)
        part.gives(words, GIVEN, 3, err=WRITE, stdout=writing)
        os.close(writing)
        with open(reading, "rb") as pipe:
            some = pipe.read()
        fine = 0 < len(some) <= PIECE and WRITTEN[words[0]](len(GIVEN)).startswith(some)
        part.expect(f"{words[0]}: what a full pipe took", fine, f"{len(some)} octets")


def test(part):
    full_disk(part)
    pipes_that_do_not_wait(part)
    loaded = part.made_of("calls.c")
    if not loaded:
        return
    calls = Calls(part, loaded)
    reads_that_fail(part, calls)
    files_that_fail(part, calls)
    writes_that_fail(part, calls)
    messages_that_fail(part, calls)
    rows_in_single_octets(part, calls)

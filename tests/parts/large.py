"""Sends 300 MB through a pipe, or an eighth of that as records: the output is right, and the memory stays small."""
import subprocess
import threading

MEGABYTE = 1 << 20
TOTAL = 300 * MEGABYTE
MOST_KILOBYTES = 8 * 1024


def highest(child):
    """Returns the peak resident memory of the program, in kilobytes."""
    with open(f"/proc/{child.pid}/status", encoding="ascii") as file:
        for line in file:
            if line.startswith("VmHWM:"):
                return int(line.split()[1])
    return None


class Feeder(threading.Thread):
    """Writes octets repeatedly. Measures the memory before the input ends."""

    def __init__(self, child, first, again, times, last):
        super().__init__()
        self.child, self.first, self.again, self.times, self.last = child, first, again, times, last
        self.kilobytes = None

    def run(self):
        pipe = self.child.stdin
        try:
            pipe.write(self.first)
            for _ in range(self.times):
                pipe.write(self.again)
            # The last octets are written only when all others are in the pipe or read.
            pipe.flush()
            self.kilobytes = highest(self.child)
            pipe.write(self.last)
            pipe.close()
        except OSError:
            pass


def compare(pipe, first, again, times, last):
    """Returns whether the pipe gives exactly `first`, then `again` repeated `times` times, then `last`."""
    if pipe.read(len(first)) != first:
        return False
    for _ in range(times):
        if pipe.read(len(again)) != again:
            return False
    return pipe.read() == last


def long_run(part, what, words, given, wanted):
    """Writes `given`, and compares the output with `wanted`.
    Each has a beginning, a part to repeat, a count, and an end.
    """
    pipes = {"stdin": subprocess.PIPE, "stdout": subprocess.PIPE, "stderr": subprocess.PIPE}
    child = part.start(words, bufsize=MEGABYTE, **pipes)
    feeder = Feeder(child, *given)
    feeder.start()
    same = compare(child.stdout, *wanted)
    child.stdout.close()
    err = child.stderr.read()
    child.stderr.close()
    status = child.wait()
    feeder.join()
    part.expect(f"{what}: output", same and (status, err) == (0, b""), f"status {status}", f"errors {err}")
    if feeder.kilobytes is None:
        part.expect(f"{what}: memory", False, "it could not be measured (/proc/PID/status)")
    else:
        few = feeder.kilobytes <= MOST_KILOBYTES
        part.expect(f"{what}: memory", few, f"{feeder.kilobytes} kB at its highest")
        part.note(f"{what}: {feeder.kilobytes} kB resident at the highest")


def test(part):
    string = b"\x04\x84" + TOTAL.to_bytes(4, "big")
    block = bytes(range(256)) * (MEGABYTE // 256)
    times = TOTAL // MEGABYTE
    rows = [" " * 19 + " ".join(f"{n:02x}" for n in range(at, at + 16)) + "\n" for at in range(0, 256, 16)]
    text = ("".join(rows) * (MEGABYTE // 256)).encode()
    line = f"{0:8} {TOTAL:6}: OCTET STRING\n".encode()
    long_run(part, "dump of one string", ["dump"], (string, block, times, b""), (line, text, times, b""))

    # The last octets come after the measurement, since the program ends when it has read them.
    words = ["extract", "--offset", "2", "--contents"]
    given = (b"\x30\x80" + string, block, times - 1, block + b"\x00\x00")
    long_run(part, "extract of one string", words, given, (b"", block, times, b""))

    record = bytes.fromhex("300e a003 020105 0404 01020304 8101 7f".replace(" ", ""))
    record = b"\x30" + bytes([len(record) - 2]) + record[2:]
    respelled = bytes.fromhex("3080 a080 020105 0000 0404 01020304 8101 7f 0000".replace(" ", ""))
    count = TOTAL // 8 // 4096
    each = 4096 // len(record) + 1
    given = (b"\x30\x80", record * each, count, b"\x00\x00")
    wanted = (b"\x30\x80", respelled * each, count, b"\x00\x00")
    long_run(part, "indef of records", ["indef"], given, wanted)

    pure = b"  SEQUENCE {\n    [0] {\n      INTEGER 5\n    }\n    OCTET STRING 01 02 03 04\n    [1] 7f\n  }\n"
    given = (b"\x30\x80", record * each, count, b"\x00\x00")
    wanted = (b"SEQUENCE {\n", pure * each, count, b"}\n")
    long_run(part, "dump of records", ["dump", "--pure"], given, wanted)

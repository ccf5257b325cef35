"""Refuses each request for memory of tlvdump-show in turn: it reports U3, N6 or E8, and writes nothing wrong.

tests/parts/refuse.c does this (parts/memory_requests.py). The words come first, then the names file is read, then each
FILE is opened and read into memory, and then all are shown. After its messages a block has reasons, which need memory
too. Further tests measure the memory of whole runs.
"""
import base64
import functools
import os
import re
import resource
import subprocess
import time

from parts.harness import Done
from parts.memory_requests import LAST, Requests
from parts.show_program import Program
from second_opinion.findings import shortest
from second_opinion.texts import TOO_LONG

# A string that holds a string, a broken string, and an object identifier with a name.
OCTETS = bytes.fromhex("0404040205 00 300b0603551d0f0404030305a0 0603550403".replace(" ", ""))
PEM = b"".join(b"-----BEGIN %c-----\n%s-----END %c-----\n" % (label, base64.encodebytes(OCTETS), label) for label in b"AB")
# Command lines, whether the run on OCTETS reads FILE, and whether it reads a names file.
TAKEN = ["", "--check --rules der", "--offsets", "--offset 4", "--closed a.der", "--names names a.der", "--pure --padding a.der"]
TAKEN += ["many.der", "--offsets many.der", "--check many.der a.der", "a.der many.der", "--names names - a.der"]
TAKEN += ["chain.pem", "--raw chain.pem a.der", "--check base64 a.der", "--as hex digits", "--offset 4 --as dump dump"]
TAKEN += ["--raw --as runs runs"]
# Command lines that give reasons, after messages or as output, for a broken string or a fault.
EXPLAINED = ["", "--check --rules der", "many.der -", "damaged", "--check damaged a.der", "--offsets damaged"]
EXPLAINED += ["--offset 4 damaged", "--why a.der", "--why damaged"]
TAKEN += [text for text in EXPLAINED if text not in TAKEN]
FILES = {
    "a.der": OCTETS,
    "many.der": b"\x04\x02\x05\x00" * 3000,
    "chain.pem": PEM,
    "base64": base64.b64encode(PEM),
    "digits": OCTETS.hex(":").encode(),
    "dump": b"".join(b"%04x: %s\n" % (at, OCTETS[at : at + 16].hex(" ").encode()) for at in range(0, len(OCTETS), 16)),
    "runs": b"name:: " + base64.b64encode(OCTETS * 3) + b"\nother:: " + base64.b64encode(OCTETS * 2) + b"\n",
    "names": b"2.5.4.3 commonName\n",
    # An input in which one length is wrong, and that could be a damaged text.
    "damaged": bytes.fromhex("0402 0500 3008 0c03c3a9 04020d0a"),
}
PRINTED = ["--help", "--version", "--limit", "--check --pure"]
# Command lines for which `clap` looks for similar words.
# If only one request is refused there, it may print a message without them.
ALIKE = ["--nonsense", "--lim 1"]
WORDS, NAMES, INPUT = "U3 out of memory", "N6 out of memory", "E8 out of memory"
MB = 1_000_000
# The most octets of an input, and what is said of more.
LARGEST = 1 << 32
TOO_LARGE = f"E3 input of more than {LARGEST} octets; tlvdump dump reads longer ones"


def blocks_of(out):
    """Returns what is written of each block, without its title."""
    return re.split(rb"^# block .*\n", out, flags=re.M)


def without_mending(lines):
    """Returns these lines without the one that says what would mend the input, for which memory is needed, and without
    those about lengths in front, which come if nothing would.
    """
    return [line for line in lines if not line.startswith(("If the header at offset ", "Or a length in front is wrong: "))]


def is_begun(written, block):
    """Returns whether the beginning of what is written of a block was written, or all but the line of what would mend it."""
    lines = [without_mending(each.decode("latin-1").splitlines()) for each in (written, block)]
    return block.startswith(written) or bool(lines[0]) and lines[0] == lines[1][: len(lines[0])]


class Line:
    """A command line: its result if no request is refused, and the files that it opens."""

    def __init__(self, part, program, refusing, text):
        self.part, self.program, self.refusing, self.text = part, program, refusing, text or "no words"
        self.words, self.log = text.split(), part.path("log")
        self.own, log = self.run(0, 0)
        self.opened, self.requests = log.opened, log.requests or 0
        files = [word for word in self.words if word == "-" or word in FILES and word != "names"] or ["-"]
        self.reads_standard_input = "-" in files
        places = "|".join("" if word == "-" else re.escape(f"{word}: ") for word in files)
        self.refusal = re.compile(f"(?:{places})(?:block [12]: )?{INPUT}")
        self.refused_reasons = 0

    def run(self, first, last):
        """Runs it with these requests refused. Returns the result, and the report of refuse.c."""
        env = dict(os.environ, LD_PRELOAD=self.refusing, REFUSE_LOG=self.log)
        env |= {"REFUSE_FIRST": str(first), "REFUSE_LAST": str(last)}
        if os.path.exists(self.log):
            os.remove(self.log)
        got = self.program.run(self.words, OCTETS, env=env)
        return got, Requests(self.log)

    def is_fine(self, got, number):
        """Returns whether the result is allowed for a run in which this request is refused.

        Before a file is opened, and while files are read, the whole run ends.
        Later only one FILE or block ends, and the others are shown.
        """
        before = [name for name, count in self.opened if count < number]
        ends = [] if before else [WORDS]
        has_names = bool(before) and before[-1].endswith(("names", "names.txt"))
        if not before or has_names:
            ends.append(NAMES)
        if before and not has_names or self.reads_standard_input:
            ends.append(INPUT)
        return got in [Done(5, b"", f"{end}\n".encode()) for end in ends] or self.is_part(got)

    def is_part(self, got):
        """Returns whether the run wrote part of each block, and reported E8 or its usual messages.

        A FILE for which memory is refused counts as one block, even if it has several.
        """
        said, own = got.err.decode().splitlines(), self.own.err.decode().splitlines()
        refused = [line for line in said if self.refusal.fullmatch(line)]
        blocks = iter(blocks_of(self.own.out))
        is_prefix = all(any(is_begun(written, block) for block in blocks) for written in blocks_of(got.out))
        self.refused_reasons += self.is_all_but_reasons(got.out, said, refused)
        said, own = without_mending(said), without_mending(own)
        return got.status == 5 and is_prefix and bool(refused) and set(said) <= {*refused, *own}

    def is_all_but_reasons(self, out, said, refused):
        """Returns whether the run wrote everything except reasons, which E8 ends."""
        if "--why" in self.words:
            return out not in (b"", self.own.out)
        own, said = without_mending(self.own.err.decode().splitlines()), without_mending(said)
        at = said.index(refused[0]) if refused else 0
        return out == self.own.out and len(refused) == 1 and 0 < at <= len(own) and said[:at] == own[:at]

    def refuse_each(self, may_pass=False):
        """Refuses each request in turn, alone, and with all after it."""
        for is_alone in (True, False):
            wrong = []
            for number in range(1, self.requests + 1):
                got, log = self.run(number, number if is_alone else LAST)
                passes = may_pass and is_alone and got == self.own
                if not log.refused or not passes and not self.is_fine(got, number):
                    wrong += [f"request {number} of {self.opened}", *got.lines()]
            how = "alone" if is_alone else "and all after it"
            self.part.expect(f"{self.text}: each of {self.requests} requests refused, {how}", not wrong, *wrong[:12])


def requests(part, program):
    """Refuses each request of each command line."""
    refusing = part.made_of("refuse.c")
    if not refusing:
        return
    for name, octets in FILES.items():
        part.write(name, octets)
    # A names file of one line, because each line takes some requests.
    part.write("prefix/share/tlvdump/names.txt", b"2.5.4.3 commonName\n")
    total = 0
    for text in TAKEN + PRINTED + ALIKE:
        line = Line(part, program, refusing, text)
        part.same(f"{line.text}: no request refused", line.own, program.run(line.words, OCTETS))
        line.refuse_each(text in ALIKE)
        if text in EXPLAINED:
            part.expect(f"{line.text}: memory for reasons is refused", line.refused_reasons > 1, str(line.refused_reasons))
        total += line.requests
    part.expect("requests for memory", total > 100)
    part.note(f"{len(TAKEN + PRINTED + ALIKE)} lines of words, {total} requests")


def resident(pid):
    """Returns the peak resident memory of a process, in octets, or 0 if it has ended."""
    try:
        with open(f"/proc/{pid}/status", encoding="ascii") as file:
            found = re.search(r"VmHWM:\s*(\d+) kB", file.read())
    except (FileNotFoundError, ProcessLookupError):
        return 0
    return int(found[1]) * 1024 if found else 0


def most_memory(part, program, words):
    """Returns the peak resident memory of a run, in octets. The output is read piece by piece, so that the run does not
    end before the measurement.

    The figure that the system reports after the end of a process includes the process that started it.
    """
    child = part.start(words, program=program.path, stdin=subprocess.PIPE, stdout=subprocess.PIPE, stderr=subprocess.DEVNULL)
    most, piece = 0, True
    if not words:
        time.sleep(0.3)
        most = resident(child.pid)
    child.stdin.close()
    while piece:
        piece = child.stdout.read(1 << 16)
        most = max(most, resident(child.pid))
    child.stdout.close()
    child.wait()
    return most


def string(octets):
    """Returns an OCTET STRING that holds these octets."""
    return b"\x04" + shortest(len(octets)) + octets


def in_all(part, program):
    """The memory of a run is at most that of a run on a small input,
    and twice the input, 8 octets for each opened string, and 2 MB.
    """
    small = most_memory(part, program, [])
    for what, octets, strings in (
        ("a long string", b"\x04" + shortest(20 * MB) + bytes(20 * MB), 0),
        ("a million strings", b"\x04\x02\x05\x00" * MB, MB),
        ("strings of 120 levels", nested(120, 8 * MB), 120),
    ):
        part.write("large", octets)
        taken = most_memory(part, program, ["large"]) - small
        most = 2 * len(octets) + 8 * strings + 2 * MB
        part.expect(f"{what}: memory", taken <= most, f"{taken} octets, and at most {most}")
        part.note(f"{what}, {len(octets) / MB:.0f} MB: {taken / MB:.1f} MB beside {small / MB:.1f}")


def nested(levels, size):
    """Returns nested strings. The innermost has about `size` octets."""
    octets = b"\x05\x00" * (size // 2)
    for _ in range(levels):
        octets = string(octets)
    return octets


def limited(part, program):
    """With a limit on all memory, the run ends with E8 or writes its lines."""
    part.write("large", b"\x04\x02\x05\x00" * 5 * MB)

    got = run_in(16 * MB, program, ["large"])
    part.same("a file of 20 MB in a space of 16 MB", got, Done(5, b"", f"large: {INPUT}\n".encode()))


def run_in(space, program, words):
    """Returns the result of a run that may take this much memory."""
    limit = functools.partial(resource.setrlimit, resource.RLIMIT_AS, (space, space))
    return program.run(words, stdin=subprocess.DEVNULL, preexec_fn=limit)


def few_characters(part, program):
    """A text whose line with `*` stands for nearly 2^30 octets is refused before they take memory."""
    part.write("few", b"0000 " + b"00 " * 16 + b"\n*\n3ff00000\n")
    got = run_in(48 * MB, program, ["--raw", "few"])
    part.same("65 characters in a space of 48 MB", got, Done(4, b"", f"few: {TOO_LONG}\n".encode()))


def too_large(part, program):
    """An input of more than 2^32 octets is refused, and takes no more memory than these."""
    if available() < 2 * LARGEST:
        part.note("there is no memory for an input of more than 2^32 octets")
        return
    with open(part.path("sparse"), "wb") as file:
        file.truncate(100_000 * MB)
    got = run_in(LARGEST + 100 * MB, program, ["sparse"])
    part.same("a sparse file of 100 GB", got, Done(3, b"", f"sparse: {TOO_LARGE}\n".encode()))


def available():
    """Returns how much memory the machine has left, in octets."""
    with open("/proc/meminfo", encoding="ascii") as file:
        return int(re.search(r"MemAvailable:\s*(\d+) kB", file.read())[1]) * 1024


def test(part):
    program = Program(part)
    requests(part, program)
    in_all(part, program)
    limited(part, program)
    few_characters(part, program)
    too_large(part, program)

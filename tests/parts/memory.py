"""Runs the program with less and less memory: it reports U3 or N6, and does nothing else.

If there is too little memory even to load the program, it reports nothing, which is no fault of the program. A copy of
the program shows how much that is: its first instructions, which the loader starts, end it with a status of their own.
If the copy ends so, the program has been loaded as well, and must report.
"""
import os
import resource
import struct

OBJECT = b"\x06\x03\x2a\x86\x48"
WORDS = ["dump", "--names", "names"]
RIGHT = (0, b"       0      3: OBJECT IDENTIFIER 1.2.840 (us)\n", b"")
NO_WORDS = (5, b"", b"U3 out of memory\n")
NO_NAMES = (5, b"", b"N6 out of memory\n")
LOADED = 42
# exit_group(42) of Linux on x86-64: mov edi, 42; mov eax, 231; syscall.
ENDS = b"\xbf\x2a\x00\x00\x00\xb8\xe7\x00\x00\x00\x0f\x05"
X86_64, LOAD = 62, 1
# Sizes in kilobytes: small steps where the words take memory, wider steps where the names do.
STEPS = [*range(0, 512, 8), *range(512, 16384, 48)]


def place_of(octets, address):
    """Returns the place in the file of the octet that is loaded to this address."""
    table, size, count = struct.unpack_from("<Q", octets, 32)[0], *struct.unpack_from("<HH", octets, 54)
    for number in range(count):
        kind, _, offset, start, _, length = struct.unpack_from("<IIQQQQ", octets, table + number * size)
        if kind == LOAD and start <= address < start + length:
            return offset + address - start
    raise ValueError("no octet of the file is loaded there")


def ended_at_once(part):
    """Writes the copy of the program. Returns its path."""
    with open(part.program, "rb") as file:
        octets = bytearray(file.read())
    _, machine, _, entry = struct.unpack_from("<HHIQ", octets, 16)
    part.expect("a program for x86-64", octets[:6] == b"\x7fELF\x02\x01" and machine == X86_64, str(machine))
    place = place_of(octets, entry)
    octets[place : place + len(ENDS)] = ENDS
    path = part.write("ends", octets)
    os.chmod(path, 0o700)
    return path


def run_with(part, octets, program=None):
    """Runs the program, or the one at this path, with a limit of `octets` octets of data. Returns the result."""

    def limit():
        resource.setrlimit(resource.RLIMIT_DATA, (octets, octets))

    got = part.run(WORDS, OBJECT, program=program, preexec_fn=limit)
    return got.status, got.out, got.err


def test(part):
    entries = b"".join(b"1.2.3.%d name %d\n" % (number, number) for number in range(20_000))
    part.write("names", b"1.2.840 us\n" + entries)
    copy = ended_at_once(part)
    part.expect("with all memory", run_with(part, resource.RLIM_INFINITY) == RIGHT)
    loaded = (LOADED, b"", b"")
    part.expect("the copy, with all memory", run_with(part, resource.RLIM_INFINITY, copy) == loaded)
    results, unloaded = [], 0
    for kilobytes in STEPS:
        if run_with(part, kilobytes * 1024, copy) != loaded:
            part.expect(f"{kilobytes} kB load no less than fewer do", not results)
            unloaded += 1
            continue
        results.append(run_with(part, kilobytes * 1024))
        fine = results[-1] in (NO_WORDS, NO_NAMES, RIGHT)
        part.expect(f"with {kilobytes} kB", fine, str(results[-1]))
        if results[-1] == RIGHT:
            break
    part.note(f"the program was not loaded at {unloaded} limits, and reported at {len(results)}")
    for wanted in (NO_WORDS, NO_NAMES, RIGHT):
        part.expect(f"with less memory: {wanted}", wanted in results, f"{len(results)} results, not this")

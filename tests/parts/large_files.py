"""Tests files of more than 2^31 and 2^32 octets, and very many findings.
The files are sparse, so they take little room.
"""
import os
import shutil
import tempfile

from parts.harness import Done, message

GIGABYTE = 1 << 30
BOOLEAN, LAST = b"\x01\x01\x01", b"\x02\x01\x05"
# A file system in memory, where the holes of a file are read without a disk.
# If it is missing, the part's own folder is used.
SHARED = "/dev/shm"


def folder_for(part):
    """Returns a new folder for the large files."""
    try:
        return tempfile.mkdtemp(prefix="tlvdump-tests-", dir=SHARED)
    except OSError:
        return tempfile.mkdtemp(dir=part.folder)


def string_header(length):
    """Returns the header of an OCTET STRING, with the fewest length octets."""
    octets = length.to_bytes(4 if length < 1 << 32 else 5, "big")
    return bytes([4, 0x80 | len(octets)]) + octets


def write_file(path, length, after):
    """Writes an OCTET STRING of `length` octets 00, and these octets after it. Returns where the string ends."""
    header = string_header(length)
    end = len(header) + length
    with open(path, "wb") as file:
        file.write(header)
        file.truncate(end)
        file.seek(end)
        file.write(after)
    return end


def past_the_limits_of_32_bits(part, folder):
    """Offsets, lengths and sizes above 2^32 are right."""
    path = os.path.join(folder, "five")
    end = write_file(path, 5 * GIGABYTE, LAST + BOOLEAN)
    found = f"{end + 3} S02 TRUE is not ff\n".encode()
    part.gives(["extract", "--offset", str(end), path], b"", 0, LAST)
    part.gives(["check", path], b"", 1, found, "findings: 1")
    missing = f"E4 no element at offset {end + 1}"
    part.gives(["extract", "--offset", str(end + 1), path], b"", 1, err=missing)
    with open(path, "rb") as file:
        part.gives(["extract", "--contents", "--offset", str(end + 3)], None, 0, BOOLEAN[2:], stdin=file)
    with open(path, "rb") as file:
        part.gives(["check", "/dev/stdin"], None, 1, found, "findings: 1", stdin=file)
    with open(path, "ab") as file:
        file.write(b"\x04\xff")
    fault = f"fault at {end + 7}: F07 length octet ff is reserved"
    part.gives(["check", "--rules", "ber", path], b"", 2, err=fault)
    # A names file of that size is read only up to its limit.
    part.gives(["dump", "--names", path], LAST, 4, err="N4 names file too large")


def past_the_limits_of_31_bits(part, folder):
    """A dump of an input of more than 2^31 octets, with one row shown."""
    path = os.path.join(folder, "two")
    end = write_file(path, 2 * GIGABYTE, LAST)
    lines = f"{0:8} {2 * GIGABYTE:6}: OCTET STRING\n{' ' * 19}{'00 ' * 15}00\n{' ' * 19}...\n{end:8} {1:6}: INTEGER 5\n"
    part.gives(["dump", "--limit", "1", path], b"", 0, lines.encode())


def many_findings(part):
    """Each finding has its line, and the message counts them, however many there are."""
    for count in (1, 255, 256, 257, 65_535, 65_536, 65_537, 100_000, 1_000_000):
        given, said = BOOLEAN * count, message(f"findings: {count}")
        lines = "".join(f"{3 * number} S02 TRUE is not ff\n" for number in range(count)).encode()
        part.same(f"check with {count} findings", part.run(["check"], given), Done(1, lines, said))
        got = part.run(["dump", "--rules=cer", "--pure"], given)
        part.same(f"dump with {count} findings", got, Done(1, b"BOOLEAN TRUE\n" * count, said))


def test(part):
    folder = folder_for(part)
    try:
        past_the_limits_of_32_bits(part, folder)
        past_the_limits_of_31_bits(part, folder)
    finally:
        shutil.rmtree(folder, ignore_errors=True)
    many_findings(part)

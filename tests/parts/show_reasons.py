"""Tests the reasons of tlvdump-show why octets do not parse, or why a string in them breaks: after the messages of a
run, and with --why.

The rows in parts/show_why.py have the sentences about faults, and those here the sentences about strings.
"""
from parts.harness import Done
from parts.show_why import ANEW, FAULTS, INDEFINITE, NULL, WHOLE, WRONG, Why, element, findings, header, in_front, sound, string

# A string that is the value of an extension, and breaks.
BREAKS = bytes.fromhex("300b0603551d0f0404030305a0")


def broken(place):
    """Returns the line on standard error about the broken string in BREAKS, where BREAKS is at this offset."""
    return (f"string at {7 + place} is the value of an extension and breaks at {10 + place}:"
            " F11 element runs past the enclosing length")


def why_broken(place):
    """Returns the sentences about the broken string in BREAKS, without the first."""
    return [f"The octet at offset {10 + place} completes the header of the BIT STRING at offset {9 + place}. "
            + header(9 + place, "03 03", "3 octets"),
            f"It would end at offset {14 + place}, but the OCTET STRING at offset {7 + place} ends at offset {13 + place}. "
            "Missing there: 1 octet. " + header(7 + place, "04 04", "4 octets"), WRONG, ANEW]


def mended(place):
    """Returns the first sentence about the broken string in BREAKS."""
    return f"If the header at offset {9 + place} said 2 octets and not 3, all would parse."


LEFT, BEFORE = "Whole encodings end at offset {0}. Left over: {1} octets.", element(0x30, string(NULL) * 2)
# Octets with broken strings, the lines about these strings, and the sentences about the first.
STRINGS = [
    (BREAKS, [broken(0)], [mended(0), *why_broken(0)]),
    # A broken string inside a string that is opened.
    (element(0x30, string(BREAKS) + NULL), [broken(4)], [mended(4), *why_broken(4)]),
    # A broken string after and before other elements. In the second row these include strings that are opened.
    (NULL * 9 + BREAKS + NULL, [broken(18)], [mended(18), LEFT.format(18, 15), WHOLE.format(18), *why_broken(18)]),
    (BEFORE + BREAKS + NULL, [broken(10)], [mended(10), *why_broken(10), LEFT.format(10, 15), WHOLE.format(10)]),
    # Two broken strings. A change of the first alone would make all parse, because the second is not read as encodings.
    (element(0x30, BREAKS * 2), [broken(2), broken(15)], [mended(2), *why_broken(2)]),
    # A string that ends with the input.
    (bytes.fromhex("300c 0603551d0f 0405 3080020105"),
     ["string at 7 is the value of an extension and breaks at 14: F05 no end-of-contents inside the enclosing length"],
     ["The input ends inside the SEQUENCE at offset 9. " + header(9, "30 80", INDEFINITE),
      "The SEQUENCE at offset 0 ends with the input, at offset 14: its length leaves no room for what is missing.",
      "Elements with an indefinite length that are not ended: 1; each needs two octets 00.",
      "Try: look for a length that is too small, or fetch the input anew, in binary.", in_front("INTEGER", 11, "02 01", "1 octet")]),
]
# Runs in which the reasons of a fault follow its message.
JOBS = ([], ["--closed"], ["--check"], ["--offsets"], ["--offset", "1099511627776"])


def faults(why):
    """The message of a fault is followed by the lines of --why, without the first. With --raw there are none."""
    for _, digits, words, _ in FAULTS:
        octets = bytes.fromhex(digits)
        message, (_, lines) = why.part.run(["dump", *words], octets).err, why.said(octets, *words)
        for job in JOBS:
            got = why.program.run([*job, "--as=octets", *words], octets)
            fine = (got.status, got.err) == (2, message + "".join(f"{line}\n" for line in lines[1:]).encode())
            why.part.expect(f"reasons after a fault, {digits} {job + words}", fine, *got.lines())
        got = why.program.run(["--raw", "--as=octets"], octets)
        why.part.same(f"no reasons with --raw, {digits}", got, Done(0, octets, b""))


def strings(why):
    """The first broken string is explained, with offsets in the input. With --closed, --offset and --offsets it is not.
    """
    for octets, said, reasons in STRINGS:
        what, front = f"why a string breaks, {octets.hex()}", [sound(octets), findings(0, 0)]
        for words, status, err in (([], 1, said), (["--closed"], 0, [])):
            status_of, lines = why.said(octets, *words)
            wanted = [*front, f"The {said[0]}.", *reasons] if err else front
            why.part.expect(f"{what}, --why {words}", (status_of, lines) == (status, wanted), *lines)
            got = why.program.run(["--why", "--as=octets", *words], octets)
            why.part.expect(f"{what}: its line, {words}", got.err.decode().splitlines() == err, *got.lines())
        for job, status, err in (([], 1, said + reasons), (["--check"], 1, said + reasons), (["--closed"], 0, []),
                                 (["--offsets"], 0, []), (["--offset", "0"], 0, [])):
            got = why.program.run([*job, "--as=octets"], octets)
            fine = (got.status, got.err.decode().splitlines()) == (status, err)
            why.part.expect(f"{what}, {job}", fine, *got.lines())


def strings_and_faults(why):
    """If there is a fault, only the fault is explained. Each broken string has its line."""
    for octets, said, _ in STRINGS:
        wrong = octets + b"\x04"
        message = f"fault at {len(wrong)}: F02 input ends inside an encoding"
        status, lines = why.said(wrong)
        fine = (status, lines[:1]) == (2, [f"It does not parse: {message}."])
        why.part.expect(f"a string and a fault, {wrong.hex()}", fine, *lines)
        got = why.program.run(["--as=octets"], wrong)
        fine = (got.status, got.err.decode().splitlines()) == (2, [message, *said, *lines[1:]])
        why.part.expect(f"reasons of the fault, {wrong.hex()}", fine, *got.lines())


def several(why):
    """With several FILEs and blocks, the reasons of each follow its messages. Only the messages have names in front."""
    part, cut = why.part, bytes.fromhex("3005 0201")
    octets, said, reasons = STRINGS[0]
    part.write("broken", octets)
    part.write("whole", NULL)
    part.write("cut.pem", b"-----BEGIN A-----\nMAUCAQ==\n-----END A-----\n" * 2)
    lines = [f"broken: {said[0]}", *reasons]
    for number in (3, 4):
        messages = ("taken for PEM, A", "fault at 4: F02 input ends inside an encoding")
        lines += [*(f"cut.pem: block {number}: {it}" for it in messages), *why.said(cut)[1][1:]]
    for job in ([], ["--check"]):
        got = why.program.run([*job, "whole", "broken", "cut.pem"])
        fine = (got.status, got.err.decode().splitlines()) == (2, lines)
        part.expect(f"reasons of several, {job}", fine, *got.lines())


def test(part):
    why = Why(part)
    faults(why)
    strings(why)
    strings_and_faults(why)
    several(why)

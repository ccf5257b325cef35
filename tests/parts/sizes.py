"""Tests that memory is not said to be refused where there is enough: large inputs, many strings, blocks and FILEs.

Each test compares the status and both streams with what they have to be. For a text that says more than offsets, that is what
comes for a short input, with each offset behind the front moved by as much as the front of the large input is longer.
"""
import base64
import os
import re

from parts.harness import Done
from parts.show_program import Program
from second_opinion.texts import TOO_LONG

NULL, NULL_LINE = b"\x05\x00", "       0      0: NULL\n"
CUT = bytes.fromhex("3003020201")
# keyUsage in a string that is opened, and in one that breaks.
SOUND, BROKEN = bytes.fromhex("300b0603551d0f0404030205a0"), bytes.fromhex("300b0603551d0f0404030305a0")
BREAKS = "string at {} is the value of an extension and breaks at {}: F11 element runs past the enclosing length"


def front(count):
    """Returns an OCTET STRING of this many octets 00 as contents, with a header of five octets."""
    return b"\x04\x83" + count.to_bytes(3, "big") + bytes(count)


def moved(text, after, by):
    """Returns a text in which each offset of `after` and more is greater by `by`: those in sentences and messages, and those
    with which lines begin.
    """
    add = lambda it: it[1] + b"%d" % (int(it[2]) + by * (int(it[2]) >= after))
    text = re.sub(rb"\b((?:at|offset|head -c|tail -c) \+?)(\d+)\b", add, text)
    column = lambda it: b"%8d" % (int(it[1]) + by * (int(it[1]) >= after)) + it[2]
    text = re.sub(rb"^ *(\d+)( +\d+: )", column, text, flags=re.M)
    return re.sub(rb"^()(\d+)(?= [A-Z]\d\d )", add, text, flags=re.M)


# What follows a sound front: a fault, an end that comes too early, a string that breaks, findings. No line says of any of these
# that a length in front is wrong: such a line comes only where nothing is found that would mend the input.
BEHIND = (
    ("a fault", CUT, ([], ["--check"], ["--why"])),
    ("an end too early", b"\x30\x05\x02\x03\x07", ([], ["--check"], ["--why"])),
    ("a string that breaks", BROKEN, ([], ["--check"], ["--why"])),
    ("findings", b"\x01\x01\x01\x04\x81\x01\x00", ([], ["--check"], ["--why"])),
    ("an element", NULL, ([], ["--check"], ["--why"])),
)
# In more than this no octet that is missing or was put in is looked for, and no header with the wrong length in a string, but one
# in an element that stands alone. The front of the short input is so long that its length has as many octets as that of a
# longer one, and that one header is named.
SEARCHED, SHORT = 1 << 20, 270_000


def without_search(text):
    """Returns the lines of a text without those that only a search gives."""
    return b"".join(line for line in text.splitlines(True) if not line.startswith(b"If "))


def long_inputs(part, program):
    """What follows more than 500,000 octets, or more than a MiB, is shown and explained as what follows fewer."""
    for count in (600_000, 1_000_000, 2 << 20, 5 << 20):
        for what, octets, jobs in BEHIND:
            for words in jobs:
                words = words or ["--limit", "0"]
                like = program.run(words, front(SHORT) + octets)
                wanted = Done(like.status, *(moved(text, SHORT, count - SHORT) for text in (like.out, like.err)))
                if count + 5 + len(octets) > SEARCHED and what != "a fault":
                    wanted.out, wanted.err = without_search(wanted.out), without_search(wanted.err)
                parses = b"It parses: %d octets"
                wanted.out = wanted.out.replace(parses % (5 + SHORT + len(octets)), parses % (5 + count + len(octets)))
                wanted.out = wanted.out.replace(b" %6d: OCTET STRING\n" % SHORT, b" %6d: OCTET STRING\n" % count, 1)
                part.same(f"{what} after {count} octets: {' '.join(words)}", program.run(words, front(count) + octets), wanted)
    # One header has the wrong length, in a SEQUENCE around all.
    for count in (SHORT, 524_288, 600_000, 1_000_000):
        contents = front(count) + b"\x02\x02\x07"
        got = program.run(["--check"], b"\x30\x83" + len(contents).to_bytes(3, "big") + contents)
        said = f"If the header at offset {10 + count} said 1 octet and not 2, all would parse."
        fine = (got.status, got.out) == (2, b"") and said in got.err.decode().splitlines() and b"E8" not in got.err
        part.expect(f"the header with the wrong length after {count} octets", fine, *got.lines())
    got = program.run(["--why"], front(2 << 20) + b"\x01\x01\x01\x04\x81\x01\x00")
    counted = ("It parses: 2097164 octets, which are whole encodings.\nBy the rules of BER: findings: 0. By those of DER: findings: 2.\n"
               "2097157 S02 TRUE is not ff\n2097160 S01 length is not the shortest\n")
    part.same("findings that --why counts", got, Done(0, counted.encode(), b""))


def padding(part, program):
    """--padding with more than 100,000 octets 00 before, between and after the encodings."""
    octets = bytes(150_000) + NULL + bytes(200_000) + NULL + bytes(120_000)
    lines = "       0    pad: padding\n  150000      0: NULL\n  150002    pad: padding\n  350002      0: NULL\n  350004    pad: padding\n"
    part.gives(["dump", "--padding"], octets, 0, lines.encode())
    program.gives(["--padding"], octets, 0, lines.encode())
    part.gives(["check", "--padding"], octets, 0)
    program.gives(["--check", "--padding"], octets, 0)
    program.gives(["--offset", "350002", "--padding"], octets, 0, NULL)


def many(part, program):
    """Many strings that break, many that are opened, many blocks of PEM and many FILEs."""
    count = 1_000
    said = [BREAKS.format(13 * at + 7, 13 * at + 10) for at in range(count)]
    got = program.run(["--check"], BROKEN * count)
    fine = (got.status, got.out) == (1, b"") and got.err.decode().splitlines()[:count] == said and b"E8" not in got.err
    part.expect(f"{count} strings that break", fine, *got.lines())
    # The reasons are those of the first string, and do not depend on how many follow it.
    few = program.run(["--check"], BROKEN * 2)
    part.expect("the reasons of the first", got.err.split(b"\n")[count:] == few.err.split(b"\n")[2:], *got.lines())
    count = 20_000
    offsets = ",".join(str(13 * at + 7) for at in range(count))
    program.gives(["--offsets"], SOUND * count, 0, f"{offsets}\n".encode())
    program.gives(["--check"], SOUND * count, 0)
    count = 2_500
    block = b"-----BEGIN X-----\n" + base64.b64encode(NULL) + b"\n-----END X-----\n"
    out = "".join(f"# block {at} of {count}: X\n{NULL_LINE}" for at in range(1, count + 1))
    said = "\n".join(f"block {at}: taken for PEM, X" for at in range(1, count + 1))
    program.gives([], block * count, 0, out.encode(), said, what=f"{count} blocks of PEM")
    part.write("n", NULL)
    count = 70_000
    titles = "".join(f"# block {at} of {count}: n\n{NULL_LINE}" for at in range(1, count + 1))
    got = program.run(["n"] * count)
    part.same(f"{count} FILEs", got, Done(0, titles.encode(), b""))


def names(part, program):
    """A path of more than 200 octets for --names, with letters of one and of two octets."""
    for letter in ("n", "\u00e9"):
        folder = "/".join([letter * 100] * 8)
        os.makedirs(part.path(folder))
        part.write(f"{folder}/names", b"2.5.4.3 cn\n")
        line = b"       0      3: OBJECT IDENTIFIER 2.5.4.3 (cn)\n"
        part.same(f"tlvdump, a path of {len(folder.encode())} octets", part.run(["dump", "--names", f"{folder}/names"], b"\x06\x03\x55\x04\x03"),
                  Done(0, line, b""))
        part.same(f"tlvdump-show, a path of {len(folder.encode())} octets",
                  program.run(["--names", f"{folder}/names"], b"\x06\x03\x55\x04\x03"), Done(0, line, b""))


def texts_in_all(part, program):
    """The texts of a run give at most 2^30 octets in all. One that would give more is refused, and later ones are looked at."""
    row = b"0000 " + b"00 " * 16 + b"\n*\n"
    part.write("large", row + b"1000000\n")
    part.write("rest", row + b"0fffff0\n")
    part.write("octets", NULL)
    part.write("pem", b"-----BEGIN X-----\n" + base64.b64encode(NULL) + b"\n-----END X-----\n")
    for words, refused in (
        (["large"] * 63 + ["rest", "pem", "octets"], None),
        (["large"] * 64 + ["octets", "pem"], "pem"),
        (["large"] * 63 + ["pem", "large", "octets", "rest"], "large"),
    ):
        got = program.run(["--check", *words])
        lines = got.err.decode().splitlines()
        taken = sum(": taken for " in line for line in lines)
        wrong = [line for line in lines if line.endswith(TOO_LONG)]
        fine = wrong == [f"{refused}: {TOO_LONG}"] * bool(refused) and taken == len(words) - 1 - bool(refused)
        part.expect(f"texts of 2^30 octets in all, {refused} refused", fine and got.status == (4 if refused else 2), str(wrong), str(taken))


def whole(part, program):
    """An input of more than 150 MB is held, shown and explained."""
    count = 160 << 20
    with open(part.path("large"), "wb") as file:
        file.write(b"\x04\x84" + count.to_bytes(4, "big"))
        file.truncate(6 + count)
    program.gives(["--check", "large"], b"", 0)
    shown = f"       0 {count}: OCTET STRING\n                   ...\n"
    program.gives(["--limit", "0", "large"], b"", 0, shown.encode())
    with open(part.path("large"), "ab") as file:
        file.write(NULL)
    program.gives(["--offset", str(count + 6), "large"], b"", 0, NULL)
    os.remove(part.path("large"))


def test(part):
    program = Program(part)
    long_inputs(part, program)
    padding(part, program)
    many(part, program)
    names(part, program)
    texts_in_all(part, program)
    whole(part, program)

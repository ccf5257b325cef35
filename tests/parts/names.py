"""Tests names files: what is accepted, and each refusal."""
import os

OBJECT = b"\x06\x03\x2a\x86\x48"
SMALL = 1_048_576
ENTRIES = 65_536


def line_for(name):
    shown = f" ({name})" if name else ""
    return f"       0      3: OBJECT IDENTIFIER 1.2.840{shown}\n".encode()


# Names files that are accepted, and the name that 1.2.840 then has.
TAKEN = [
    (b"", None),
    (b"\n\n", None),
    (b"# 1.2.840 us\n", None),
    (b"1.2.840 us", "us"),
    (b"1.2.840 us\r\n", "us"),
    (b"1.2.840\tus\n", "us"),
    (b" \t1.2.840 \t us \t\r\n", "us"),
    (b"  # 1.2.840 x\n1.2.840 us\n", "us"),
    (b"1.2.840 United States (ANSI) # no comment\n", "United States (ANSI) # no comment"),
    (b"1.2.8400 us\n1.2.84 us\n2.2.840 us\n", None),
    (b"1.39.0 a\n0.39 b\n2.40 c\n2.999.340282366920938463463374607431768211456 d\n1.2.840 us\n", "us"),
    (b"#" + b"x" * 399 + b"\n1.2.840 us\n", "us"),
    (b"1.2.840 " + b"y" * 392, "y" * 392),
    (b"1.2.840 " + b"y" * 391 + b"\r\n", "y" * 391),
]

NO_IDENTIFIER = [
    b"1.40 x",
    b"0.40 x",
    b"3.1 x",
    b"1 x",
    b"x",
    b"x 1.2.840",
    b"1. x",
    b".1 x",
    b"1..2 x",
    b"1.2. x",
    b"01.2 x",
    b"1.02 x",
    b"1.2.00 x",
    b"-1.2 x",
    b"1.2a x",
    b"1,2 x",
    b"{1 2} x",
    b"1.2.840\r x",
    b"\xef\xbb\xbf1.2.840 us",
    b"10.2 x",
    b"9",
]
NO_NAME = [b"2.5.4.3", b"2.5.4.3 ", b"2.5.4.3\t \t", b"2.5.4.3 caf\xc3\xa9", b"2.5.4.3 a\tb", b"2.5.4.3 \x7f"]
NO_NAME += [b"2.5.4.3 a\0", b"2.5.4.3 a\r\r"]


def refuses(part, what, octets, said):
    part.write("names", octets)
    got = part.run(["dump", "--names", "names"], OBJECT)
    fine = (got.status, got.out, got.err) == (4, b"", said.encode() + b"\n")
    part.expect(f"{what}: {said}", fine, *got.lines())


def takes(part, what, octets, name):
    part.write("names", octets)
    got = part.run(["dump", "--names", "names"], OBJECT)
    part.expect(what, (got.status, got.out, got.err) == (0, line_for(name), b""), *got.lines())


def lines(part):
    for octets, name in TAKEN:
        takes(part, f"taken: {octets[:60]}", octets, name)
    for line in NO_IDENTIFIER:
        refuses(part, f"{line}", line + b"\n", "N1 line 1: not an object identifier")
        refuses(part, f"{line}", b"# one\n\n1.2.840 us\r\n" + line, "N1 line 4: not an object identifier")
    for line in NO_NAME:
        refuses(part, f"{line}", line + b"\n", "N2 line 1: no usable name")
        refuses(part, f"{line}", b"1.2.840 us\n" + line, "N2 line 2: no usable name")
    for line in (b"2.5.4.3 cn", b"2.5.4.3 commonName", b"\t2.5.4.3\tcn\r"):
        refuses(part, f"{line}", b"# x\n2.5.4.3 commonName\n" + line + b"\n", "N3 line 3: repeated")
    # The first refused line is reported. A line without a name takes precedence over a repeated one.
    refuses(part, "two lines", b"2.5.4.3\n1.40 x\n", "N2 line 1: no usable name")
    refuses(part, "a repeat without a name", b"2.5.4.3 a\n2.5.4.3\n", "N2 line 2: no usable name")


def entries(count):
    """Returns a names file of `count` short entries."""
    return b"".join(b"1.2.%d n\n" % number for number in range(count))


def limits(part):
    big = "N4 names file too large"
    refuses(part, "a line of 401 octets", b"#" * 401 + b"\n", big)
    refuses(part, "a line of 401 octets with its CR", b"#" + b"x" * 399 + b"\r\n", big)
    refuses(part, "a line of 401 octets without an LF", b"1.2.840 " + b"y" * 393, big)
    refuses(part, "a wrong line before a long one", b"1.40 x\n" + b"#" * 401, "N1 line 1: not an object identifier")
    full = b"1.2.840 us\n" + (b"#" * 399 + b"\n") * 2621
    full += b"#" * ((SMALL - len(full)) // 2) + b"\n"
    full += b"#" * (SMALL - len(full))
    assert len(full) == SMALL
    takes(part, f"{SMALL} octets", full, "us")
    refuses(part, f"{SMALL + 1} octets", full + b"\n", big)
    refuses(part, f"{SMALL + 1} octets, a wrong line first", b"1.40 x\n" + full[6:], big)
    most = entries(ENTRIES)
    takes(part, f"{ENTRIES} entries", most, "n")
    takes(part, f"{ENTRIES} entries and a comment", most + b"# x\n\n", "n")
    refuses(part, f"{ENTRIES + 1} entries", most + b"1.3 n\n", big)
    refuses(part, f"a repeat after {ENTRIES} entries", most + b"1.2.7 n\n", f"N3 line {ENTRIES + 1}: repeated")


def unread(part):
    """Names files that cannot be read, and which refusal takes precedence."""
    said = "N5 names file not read"
    os.mkdir(part.path("folder"))
    part.write("input", OBJECT)
    for name in ("missing", "folder", "", "input/names"):
        part.gives(["dump", "--names", name], OBJECT, 4, err=said)
        part.gives(["dump", "--names", name, "input"], b"", 4, err=said)
    part.gives(["dump", "--names", "missing", "also-missing"], b"", 4, err=said)
    part.write("names", b"1.2.840 us\n")
    part.gives(["dump", "--names", "names", "missing"], b"", 3, err="E5 cannot open the file")
    part.gives(["dump", "--names", "names", "input"], b"", 0, line_for("us"))
    part.gives(["dump", "--names=names", "input"], b"", 0, line_for("us"))
    # A names file may be called `-`. It is never standard input.
    part.write("-", b"1.2.840 a dash\n")
    part.gives(["dump", "--names", "-"], OBJECT, 0, line_for("a dash"))
    part.gives(["dump", "--names=-", "input"], b"1.2.840 standard input\n", 0, line_for("a dash"))
    os.remove(part.path("-"))
    for words in (["dump", "--names", "-"], ["dump", "--names=-", "input"]):
        part.gives(words, OBJECT, 4, err=said)
    # The names may come through a pipe if FILE is named.
    by_pipe = ["dump", "--names", "/dev/stdin", "input"]
    part.gives(by_pipe, b"1.2.840 by a pipe\n", 0, line_for("by a pipe"))
    part.gives(by_pipe, b"1.40 x\n", 4, err="N1 line 1: not an object identifier")


# Names files that are refused, with the messages.
WRONG = {
    "no-identifier": (b"1.40 x\n", "N1 line 1: not an object identifier"),
    "no-name": (b"1.2.840 us\n2.5.4.3\n", "N2 line 2: no usable name"),
    "repeated": (b"1.2.840 us\n1.2.840 us\n", "N3 line 2: repeated"),
    "too-large": (b"#" * 401 + b"\n", "N4 names file too large"),
    "folder": (None, "N5 names file not read"),
    "missing": (None, "N5 names file not read"),
    "": (None, "N5 names file not read"),
}
# FILEs that do not open, are empty, or have a fault.
FILES = ("also-missing", "folder", "", "input/below", "fault")


def words_first(part, names, file):
    """Words that are refused take precedence over the names file and FILE, whatever those are."""
    said = "U2 value out of range:"
    part.gives(["dump", "--names", names, file, "--limit", "x"], b"", 4, err=f"{said} --limit")
    part.gives(["dump", file, "--inside=x", "--names", names], b"", 4, err=f"{said} --inside")
    got = part.run(["dump", "--names", names, file, "--nonsense"])
    fine = (got.status, got.out) == (4, b"") and got.err.startswith(b"error: unexpected argument '--nonsense'")
    part.expect(f"--nonsense after names in {names} and FILE {file}", fine, *got.lines())


def order(part):
    """The words are checked first, then the names file is read, then FILE is opened."""
    part.write("fault", b"\x04\xff")
    for names, (octets, said) in WRONG.items():
        if octets:
            part.write(names, octets)
        for file in FILES:
            part.gives(["dump", "--names", names, file], OBJECT, 4, err=said)
        part.gives(["dump", "fault", f"--names={names}"], OBJECT, 4, err=said)
    for names in WRONG:
        for file in ("also-missing", "folder", "fault"):
            words_first(part, names, file)
    # To open a pipe without a writer blocks. So these runs would not end if the program opened it.
    os.mkfifo(part.path("pipe"))
    words_first(part, "pipe", "pipe")
    part.gives(["dump", "--names", "no-name", "pipe"], b"", 4, err="N2 line 2: no usable name")
    part.write("names", b"1.2.840 us\n")
    part.gives(["dump", "--names", "names", "folder"], OBJECT, 3, err="E1 read failed")
    part.gives(["dump", "--names", "names", "fault"], OBJECT, 2, err="fault at 1: F07 length octet ff is reserved")
    # If both are the same pipe, the names file takes all octets.
    empty = "fault at 0: F01 empty input"
    part.gives(["dump", "--names", "/dev/stdin"], b"1.2.840 us\n", 2, err=empty)
    twice = ["dump", "--names", "/dev/stdin", "/dev/stdin"]
    part.gives(twice, b"1.2.840 us\n", 2, err=empty)
    part.gives(twice, OBJECT, 4, err="N1 line 1: not an object identifier")


def test(part):
    lines(part)
    limits(part)
    unread(part)
    order(part)

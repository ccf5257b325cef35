"""Tests the command line: which words are refused, and how."""
from parts.harness import Done, message
from parts.show_program import Program

NULL = b"\x05\x00"
NULL_LINE = b"       0      0: NULL\n"

# Words that the parser refuses, with status 4 and a message of its own on standard error.
REFUSED = [
    "",
    "dumpx",
    "help",
    "help dump",
    "-h",
    "-V",
    "--dump",
    "--pure dump",
    "dump -h",
    "dump -p",
    "dump help extra",
    "dump a b",
    "dump -- a b",
    "dump --limit",
    "dump --limit -5",
    "dump --limit 1 --limit 2",
    "dump --limit=1 --limit=1",
    "dump --lim 1",
    "dump --limits 1",
    "dump --limit 1 2 3",
    "dump --names",
    "dump --names a --names b",
    "dump --inside",
    "dump --inside -1",
    "dump --inside 0 --inside 1",
    "dump --pure --pure",
    "dump --pure=1",
    "dump --pure=true",
    "dump --pur",
    "dump --padding --padding",
    "dump --padding=",
    "dump --offset 0",
    "dump --contents",
    "dump --nonsense --limit x",
    "dump --limit x --limit y",
    "extract",
    "extract --contents",
    "extract --inside 0",
    "extract --offset",
    "extract --offset -1",
    "extract --offset 0 --offset 0",
    "extract --offset 0 --contents --contents",
    "extract --offset 0 --contents=x",
    "extract --offset 0 --pure",
    "extract --offset 0 --limit 1",
    "extract --offset 0 --names n",
    "extract --offset 0 a b",
    "extract --offset x --nonsense",
    "dump --rules der --rules der",
    "check --rules",
    "check --limit 1",
    "check --pure",
    "check --names n",
    "check --offset 0",
    "check a b",
    "extract --offset 0 --rules der",
    "indef --rules der",
    "indef --inside 0",
    "indef --offset 0",
    "indef --contents",
    "indef --pure",
    "indef --limit 1",
    "indef --names n",
    "indef --padding --padding",
    "indef a b",
]

NO_NUMBERS = ["", "x", "+5", "-5", " 5", "5 ", "5.0", "0x10", "1_000", "1,000", "\u0665", "00000000000005"]
NO_LISTS = ["", ",", "4,", ",4", "1,,2", "5,3", "3,3", "1, 2", " 1", "1;2", "-1", "+1", "0x1", "a"]
NO_LISTS += ["1099511627777", "00000000000001", "0,1099511627777", ",".join(map(str, range(17)))]

# The option whose value is out of range, and the words.
VALUES = [("--limit", ["dump", f"--limit={text}"]) for text in NO_NUMBERS]
VALUES += [("--limit", ["dump", "--limit", text]) for text in ("4294967296", "9999999999999", "")]
VALUES += [("--offset", ["extract", f"--offset={text}"]) for text in NO_NUMBERS]
VALUES += [("--offset", ["extract", "--offset", text]) for text in ("1099511627777", "9999999999999", "")]
VALUES += [("--inside", ["dump", f"--inside={text}"]) for text in NO_LISTS]
VALUES += [("--inside", ["extract", "--offset=0", f"--inside={text}"]) for text in NO_LISTS]
NO_RULES = ["", "xer", "DER", "der ", "ber,der", "b"]
VALUES += [("--rules", [command, f"--rules={text}"]) for command in ("dump", "check") for text in NO_RULES]
VALUES += [("--inside", ["check", f"--inside={text}"]) for text in NO_LISTS]
VALUES += [
    ("--rules", ["dump", "--limit", "x", "--rules", "xer", "--inside", "y"]),
    ("--rules", ["check", "--inside", "y", "--rules", "xer"]),
    ("--limit", ["dump", "--limit", "x", "--inside", "y"]),
    ("--limit", ["dump", "--inside", "y", "--limit", "x"]),
    ("--offset", ["extract", "--inside", "y", "--offset", "x"]),
    ("--offset", ["extract", "--offset", "x", "--inside", "y"]),
    # Values are checked before the names file and FILE are opened.
    ("--limit", ["dump", "--limit", "x", "--names", "missing", "missing"]),
    ("--inside", ["dump", "--names", "missing", "--inside", "x"]),
    ("--offset", ["extract", "--offset", "x", "missing"]),
]

# Words that are accepted, and what is written for the octets 05 00.
TAKEN = [
    ("dump", NULL_LINE),
    ("dump --limit=1", NULL_LINE),
    ("dump --limit 0", NULL_LINE),
    ("dump --limit 4294967295", NULL_LINE),
    ("dump --limit 0000000000001", NULL_LINE),
    ("dump --limit=0004294967295", NULL_LINE),
    ("dump --pure", b"NULL\n"),
    ("dump --padding --pure --limit 3", b"NULL\n"),
    ("dump --", NULL_LINE),
    ("dump --pure --", b"NULL\n"),
    ("dump --rules der", NULL_LINE),
    ("dump --rules=cer --pure", b"NULL\n"),
    ("check", b""),
    ("check --rules ber", b""),
    ("check --rules=cer --padding", b""),
    ("extract --offset 0", NULL),
    ("extract --offset=0", NULL),
    ("extract --offset 0000000000000", NULL),
    ("extract --contents --offset 0", b""),
    ("extract --offset 0 --padding --contents", b""),
    ("extract --offset 0 --inside 0,1099511627776", NULL),
    ("extract --offset 0 --inside=0,0000000000001", NULL),
    ("extract --offset 0 --inside " + ",".join(map(str, range(16))), NULL),
    ("indef", NULL),
    ("indef --padding", NULL),
    ("indef --", NULL),
]


def check_refusals(part):
    for text in REFUSED:
        got = part.run(text.split(), NULL)
        fine = got.status == 4 and got.out == b"" and got.err.startswith(b"error: ")
        part.expect(f"refused: {text or 'no words'}", fine and got.err.endswith(b"\n"), *got.lines())
    for name, words in VALUES:
        part.gives(words, NULL, 4, err=f"U2 value out of range: {name}")


def check_taken(part):
    for text, out in TAKEN:
        part.gives(text.split(), NULL, 0, out)
    far = "E4 no element at offset 1099511627776"
    part.gives(["extract", "--offset", "1099511627776"], NULL, 1, err=far)


# Octets that are not UTF-8, alone or inside a word.
NO_TEXTS = [b"\xff", b"\xff\xfe", b"\xc3", b"\x80", b"\xc0\x80", b"\xe2\x82", b"\xed\xa0\x80"]
NO_TEXTS += [b"\xf0\x9f\x98", b"\xf4\x90\x80\x80", b"a\xffb", b"ab\xe9", b"\xc3\xa9\xff"]
NO_TEXTS += [b"x" * 299 + b"\xff", b"\xff" * 300]

# The places of such a word in a command line, as `*`.
PLACES = [
    "*",
    "* dump",
    "dump *",
    "dump null *",
    "dump * null",
    "dump -- *",
    "dump --limit *",
    "dump --limit=*",
    "dump --rules *",
    "dump --names * null",
    "dump --names=* null",
    "dump --inside * null",
    "dump --*",
    "dump --pure=*",
    "check *",
    "check --rules=* null",
    "extract --offset *",
    "extract --offset 0 *",
    "extract --offset=0 --inside=* null",
    "indef *",
    "indef --padding -- *",
    # An argument that is not UTF-8 takes precedence over all other refusals, and over help.
    "nonsense *",
    "dump --nonsense *",
    "dump a b *",
    "dump --limit x *",
    "dump --names missing missing *",
    "dump missing *",
    "--help *",
    "--version *",
    "dump --help *",
]


def not_utf_8(part):
    part.write("null", NULL)
    said = "U1 an argument is not UTF-8"
    for place in PLACES:
        for octets in NO_TEXTS if place in ("dump *", "dump --names=* null") else NO_TEXTS[:1]:
            words = [word.encode().replace(b"*", octets) for word in place.split()]
            got = part.run(words, NULL)
            part.same(f"{place} with {octets[:20]}", got, Done(4, b"", message(said)))
    # A file of such a name is not opened.
    with open(part.path("f").encode() + b"\xff", "wb") as file:
        file.write(NULL)
    part.same("a file whose name is not UTF-8", part.run([b"dump", b"f\xff"]), Done(4, b"", message(said)))


def files(part):
    """Words that name files, with and without `--`."""
    for name in ("--pure", "-", "a b", "dump", "\u00e9.der", "help"):
        part.write(name, NULL)
    for words in ("dump -- --pure", "dump -", "dump -- -", "dump dump", "dump \u00e9.der", "dump help"):
        part.gives(words.split(), b"", 0, NULL_LINE)
    part.gives(["dump", "a b"], b"", 0, NULL_LINE)
    part.gives(["dump", "-", "--pure"], b"", 0, b"NULL\n")
    part.gives(["dump", "--pure", "--", "--pure"], b"", 0, b"NULL\n")
    part.gives(["extract", "-", "--offset", "0"], b"", 0, NULL)
    part.gives(["indef", "--", "--pure"], b"", 0, NULL)
    part.gives(["dump", "--", "--names"], NULL, 3, err="E5 cannot open the file")
    part.gives(["dump", ""], NULL, 3, err="E5 cannot open the file")


def no_raw_octets(part):
    """A word that `clap` repeats reaches a terminal with a question mark for each octet that is not printable ASCII."""
    shown = {"--\x1b[31mX": b"--?[31mX", "--a\x07\x7f\n\r": b"--a??\n?", "--\u00e9": b"--??"}
    for word, wanted in shown.items():
        for name, program, words in (("tlvdump", None, ["dump", word]), ("tlvdump-show", part.suite.show_program, [word])):
            got = part.run(words, NULL, program=program or part.program)
            fine = got.status == 4 and wanted in got.err and all(it == 10 or 32 <= it < 127 for it in got.err)
            part.expect(f"{name}: no raw octet of {ascii(word)}", fine, *got.lines())
    # Each character of one octet but NUL and `=`, which ends the name of an option, and C1 characters, which terminals may
    # take for commands: of two octets in UTF-8, 80 to 9f among them.
    for code in (*range(0x01, 0x3D), *range(0x3E, 0xC0), 0x2028, 0x1F600):
        octets = chr(code).encode()
        kept = octets if 32 <= code < 127 or code == 10 else b"?" * len(octets)
        wanted = b"error: unexpected argument '--a" + kept + b"b' found\n"
        for name, program, words in (("tlvdump", part.program, ["dump"]), ("tlvdump-show", part.suite.show_program, [])):
            got = part.run([*words, f"--a{chr(code)}b"], NULL, program=program)
            fine = (got.status, got.out) == (4, b"") and got.err.startswith(wanted) and all(it == 10 or 32 <= it < 127 for it in got.err)
            part.expect(f"{name}: the character {code:x} in a word", fine, *got.lines())


def many_words(part):
    """No word is left out, however many there are: of 1,100 FILEs the last is shown, and an option after them counts."""
    program = Program(part)
    part.write("null", NULL)
    part.write("seven", b"\x02\x01\x07")
    names = [*["null"] * 1099, "seven"]
    lines = {"null": "       0      0: NULL\n", "seven": "       0      1: INTEGER 7\n"}
    out = "".join(f"# block {at} of 1100: {name}\n{lines[name]}" for at, name in enumerate(names, 1))
    part.same("1,100 FILEs", program.run(names), Done(0, out.encode(), b""))
    pure = "".join(f"# block {at} of 1100: {name}\n{lines[name][17:]}" for at, name in enumerate(names, 1))
    part.same("an option after 1,100 FILEs", program.run([*names, "--pure"]), Done(0, pure.encode(), b""))
    for path, words in ((part.program, ["dump"]), (program.path, [])):
        got = part.run([*words, *names, "--nonsense"], program=path)
        part.expect("an unknown option after 1,100 FILEs", (got.status, got.out) == (4, b""), *got.lines())


def test(part):
    check_refusals(part)
    no_raw_octets(part)
    many_words(part)
    check_taken(part)
    not_utf_8(part)
    files(part)

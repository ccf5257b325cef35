"""Rows for tlvdump-show on texts: words, a text, and the results that docs/TEXTS.md describes."""
import base64
import re
import subprocess

from parts import text_table
from parts.harness import Done
from parts.text_makers import pem
from second_opinion.findings import shortest
from second_opinion.texts import EXPECTED


def element(tag, octets):
    """Returns an element with the shortest length octets."""
    return bytes([tag]) + shortest(len(octets)) + octets


NULL = b"\x05\x00"
NULL_LINE = b"       0      0: NULL\n"
# Encodings with a name, a string that holds encodings, and text. The others have findings.
SOUND = element(0x30, b"\x06\x03\x55\x04\x03" + element(4, NULL) + b"\x0c\x03abc")
FOUND = element(0x30, b"\x02\x02\x00\x05")
DIGITS, BASE64 = SOUND.hex(), base64.b64encode(SOUND)
HEX, OF_BASE64, CMS = "taken for hexadecimal", "taken for base64", "taken for PEM, CMS"
NO_END = "its end marker is missing"
KNOWN = "known are PEM, hex dumps, hexadecimal, decimal numbers and base64"
NO_PEM, NO_BASE64 = "X2 there is no block of PEM", "X2 there is no base64"
TOO_LONG = "X4 texts of more than 1073741824 octets in all, or one of 16777216 more octets than characters"
NO_LIST = "X2 there is no list of decimal numbers"
FORMS = "--as (octets, pem, dump, hex, numbers, base64 or runs)"

SAME = [
    ("octets", SOUND, ""), ("hexadecimal", DIGITS.encode(), HEX),
    ("capitals in lines", "\r\n".join(re.findall("..?.?.?", DIGITS.upper())).encode(), HEX),
    ("hexadecimal with colons", SOUND.hex(":").encode() + b"\n", HEX),
    ("hexadecimal with hyphens", SOUND.hex("-").encode(), HEX),
    ("a list with 0x", ", ".join(f"0x{it:02x}" for it in SOUND).encode(), HEX),
    ("\\x in front", "".join(f"\\x{it:02X}" for it in SOUND).encode(), HEX),
    ("an array of C", b"{ " + b",\n".join(b"0x%02X" % it for it in SOUND) + b" };\n", HEX),
    ("a string of C", b'"' + b"".join(b"\\x%02x" % it for it in SOUND) + b'";\n', HEX),
    ("numbers", str(list(SOUND)).encode(), "taken for decimal numbers"),
    ("base64", BASE64, OF_BASE64), ("base64 in lines", base64.encodebytes(SOUND), OF_BASE64),
    ("base64 without =", BASE64.rstrip(b"="), OF_BASE64), ("base64 with \\n", BASE64[:8] + b"\\n" + BASE64[8:], OF_BASE64),
    ("PEM", pem(b"CERTIFICATE", SOUND), "taken for PEM, CERTIFICATE"),
    ("PEM with CR", pem(b"X509 CRL", SOUND).replace(b"\n", b"\r\n"), "taken for PEM, X509 CRL"),
    ("PEM after text", b"caf\xe9: 1\n" + pem(b"CMS", SOUND) + b"end\n", CMS),
    ("PEM with a head", pem(b"CMS", SOUND, b"Name: a,\n b\n\n"), CMS),
    ("PEM in one line", pem(b"CMS", SOUND).replace(b"\n", b""), CMS),
    ("PEM with spaces for line ends", pem(b"CMS", SOUND).replace(b"\n", b" "), CMS),
    ("PEM in JSON", b'{"a": "' + pem(b"CMS", SOUND).replace(b"\n", b"\\n") + b'"}', CMS),
    ("PEM without its end", pem(b"CMS", SOUND)[:-18], f"{CMS}; {NO_END}"),
    ("PEM in base64", base64.b64encode(pem(b"CMS", SOUND)), f"{CMS}, in base64"),
    ("base64 in base64", base64.b64encode(BASE64), f"{OF_BASE64}, in base64"),
]


def t2(taken, line, expected="base64"):
    """Returns the note of a text that is refused."""
    return f"taken for {taken}; X2 refused in line {line}, where {expected} is expected"


def t1(text):
    """Returns the note of a text of unknown form."""
    return f'X1 text of no form that is known: "{text}"; {KNOWN}'


ENDS = "taken for a hex dump; it ends in front of line"
PAIR, ROW, LIST = "a pair of hexadecimal digits", "a row of a hex dump", "taken for decimal numbers"
ONE_LIST = "only one list of numbers from -128 to 255"
BROKEN = b"-----BEGIN A-----\nBQA\n*\n-----END A-----\n"
SEALED = pem(b"RSA PRIVATE KEY", b"\xd3\x9d\x34\xff", b"Proc-Type: 4,ENCRYPTED\nDEK-Info: AES-256-CBC,00\n\n")
SLASHES = b'["' + pem(b"CMS", element(4, b"\xff" * 9)).replace(b"/", b"\\/").replace(b"\n", b"\\r\\n") + b'"]'
BOTH = element(0xA0, element(4, b"\0" * 21)).hex().upper().encode()
WRAPPED = element(12, pem(b"CMS", NULL))
# A run of two lines: 60 symbols, which are 45 octets, and 24.
TWO_LINES = element(0x30, element(4, bytes(59)))
RUN = base64.b64encode(TWO_LINES[:45]) + b"\n" + base64.b64encode(TWO_LINES[45:])
# An encoding that consists of printable characters.
PRIVATE = element(0x41, b"cn=admin,dc=example,dc=org".ljust(40))
# 43 elements of printable characters, more than 4096 in all, one of which holds a block of PEM; and an encoding after them.
DECOY = b"".join(element(0x41, (pem(b"CMS", NULL) if at == 3 else b"").ljust(100, b"a")) for at in range(43))
DECOY += b"\x30\x03\x02\x01\x05"
# Words, a text, the status, the output of --raw, and the note.
RAW = [
    ([], DECOY, 0, DECOY, ""), (["--as=pem"], DECOY, 0, NULL, CMS),
    ([], b"a" * 5000 + pem(b"CMS", NULL) + b"\x05", 0, NULL, CMS), ([], b"a" * 5000 + pem(b"CMS", NULL) + b"caf\xe9", 0, NULL, CMS),
    ([], SLASHES, 0, element(4, b"\xff" * 9), CMS),
    ([], b"let a = [0x30u8, 0x03, 0x02];", 2, b"", t1("let a = [0x30u8, 0x03, 0x02];")),
    (["--as=hex"], b"let a = [\n0x30, 0x03, 0x02u8];", 2, b"\x30\x03", t2("hexadecimal", 2, PAIR)),
    (["--as=hex"], b"b'\\x04\\x05\\x06abc'", 2, b"\x04\x05", t2("hexadecimal", 1, PAIR)),
    (["--as=hex"], b"b'\\x04\\x05\\x06\\n'", 2, b"\x04\x05", t2("hexadecimal", 1, PAIR)),
    (["--as=hex"], b'"\\x30\\x03\\xg2\\x01"', 2, b"\x30\x03", t2("hexadecimal", 1, PAIR)),
    (["--as=hex"], b"{0x30, 0x03,\n 0x}", 2, b"\x30\x03", t2("hexadecimal", 2, PAIR)),
    ([], b'"\\x30\\x03\\\n\\x02\\x01\\x05"', 0, b"\x30\x03\x02\x01\x05", HEX),
    ([], b"x := [2]byte{5, 0}\n", 0, NULL, LIST), ([], b"int x[2] = {5, 0};\n", 0, NULL, LIST),
    ([], b"0000000 0330 0102 0005\n0000006\n", 2, b"", t1("0000000 0330 0102 0005?0000006?")),
    ([], b"0000000 001460 000402\n0000004\n", 2, b"", t1("0000000 001460 000402?0000004?")),
    ([], b"BAX7_78-Pw", 0, b"\x04\x05\xfb\xff\xbf\x3e\x3f", OF_BASE64),
    ([], element(4, b"ab" * 100_000).hex().encode(), 0, element(4, b"ab" * 100_000), HEX),
    ([], element(4, bytes(range(256))).hex().encode(), 0, element(4, bytes(range(256))), HEX),
    (["--as=hex"], DIGITS.encode() + b"\n3", 2, SOUND, t2("hexadecimal", 2, PAIR)),
    (["--as=hex"], b"30\n0g", 2, b"\x30", t2("hexadecimal", 2, PAIR)),
    (["--as=hex"], b"0x30, 0x03,\n5, 0x02", 2, b"\x30\x03", t2("hexadecimal", 2, PAIR)),
    (["--as=dump"], b"0000 05 00", 0, NULL, "taken for a hex dump"),
    (["--as=dump"], b"0000: 05 00\nend", 0, NULL, f"{ENDS} 2"), ([], b"0000: 05 00\nend", 0, NULL, f"{ENDS} 2"),
    ([], b"$ xxd a\n00000000: 3002 0500    0...\n\n$ \n", 0, b"\x30\x02\x05\x00", f"{ENDS} 4"),
    (["--as=dump"], b"0000: 0500 05\nend", 0, NULL + b"\x05", f"{ENDS} 2"),
    ([], b"0000: 0500 05\nend", 2, b"", t1("0000: 0500 05?end")),
    ([], b"0000: 3103 05\nend", 0, b"\x31\x03\x05", f"{ENDS} 2"),
    (["--as=dump"], b"0000: 0500\nend\n0002: 0500\n", 2, NULL, t2("a hex dump", 2, ROW)),
    ([], b"0000: 0500\nend\n0002: 0500\n", 2, b"", t1("0000: 0500?end?0002: 0500?")),
    (["--as=dump"], b"0000: 0500\n0002: zz\n", 2, NULL, t2("a hex dump", 2, ROW)),
    (["--as=dump"], b"0000: 0500\n0002: 0500\n*\nend", 2, NULL * 2, t2("a hex dump", 4, ROW)),
    ([], b"0100: 0500\n", 0, NULL, "taken for a hex dump; it begins at offset 256"),
    ([], b"0100: 0500\nend\n", 0, NULL, f"{ENDS} 2"),
    (["--as=dump"], b"no dump", 2, b"", t2("a hex dump", 1, ROW)),
    (["--as=dump"], b"0000: 05 00  |..|\n", 0, NULL, "taken for a hex dump"),
    (["--as=dump"], b"0000: 05 00  |..||\n", 2, b"", t2("a hex dump", 1, ROW)),
    (["--as=dump"], "0000: 05 00  \u00e9\u00e9\u00e9\u00e9".encode(), 0, NULL, "taken for a hex dump"),
    (["--as=dump"], b"0000: 05 00  ..0002: 05 00  ..", 2, b"", t2("a hex dump", 1, ROW)),
    (["--as=dump"], b"0000: 05 00  ..0002: 05 00  ..\n0004: 05 00  ..\n", 2, b"", t2("a hex dump", 1, ROW)),
    (["--as=base64"], b"0500", 0, b"\xd3\x9d\x34", OF_BASE64), (["--as=base64"], b"BQA\nB", 0, b"\x05\x00\x01", OF_BASE64),
    (["--as=base64"], b"BQAF\nB", 2, b"\x05\x00\x05", t2("base64", 2)), (["--as=base64"], b"BQB=", 2, b"", t2("base64", 1)),
    (["--as=base64"], b"BQ=", 2, b"", t2("base64", 1)), (["--as=base64"], b"BQA==", 2, b"", t2("base64", 1)),
    (["--as=numbers"], b"x = [5, 0,]", 0, NULL, LIST), (["--as=numbers"], b"[5, 256]", 2, b"", NO_LIST),
    (["--as=numbers"], b"[5, 0]\n[1, 2]", 2, NULL, t2("decimal numbers", 2, ONE_LIST)),
    (["--as=numbers"], b"{5, 0,\n300, 1}", 2, NULL, t2("decimal numbers", 2, ONE_LIST)),
    (["--as=numbers"], b"x = [5, 0, 1", 2, NULL, t2("decimal numbers", 1, ONE_LIST)),
    ([], b"[30, 03, 02, 01, 05]", 2, b"", t1("[30, 03, 02, 01, 05]")),
    (["--as=numbers"], b"[30, 03, 02, 01, 05]", 0, b"\x1e\x03\x02\x01\x05", LIST),
    ([], b"{48,3,2,1,05}", 2, b"", t1("{48,3,2,1,05}")), ([], b"x = [48, 3, 2, 1, 5]", 0, b"\x30\x03\x02\x01\x05", LIST),
    ([], b"[048, 003, 002, 001, 005]", 0, b"\x30\x03\x02\x01\x05", LIST),
    ([], b"[48, 3, 2, 1, -05]", 0, b"\x30\x03\x02\x01\xfb", LIST),
    ([], b"{48, 3, 2, 1, 5} // 05, 06", 0, b"\x30\x03\x02\x01\x05", LIST),
    ([], b"x = [5, 0, 300]", 2, b"", t1("x = [5, 0, 300]")), (["--as=numbers"], b"[-1, -128]", 0, b"\xff\x80", LIST),
    (["--as=pem"], SOUND, 2, b"", NO_PEM), (["--as=runs"], b"Dear Sir", 2, b"", NO_BASE64),
    (["--as=runs"], b"x:\n" + b"A" * 40 + b"\n", 0, bytes(30), "taken for base64 of line 2"),
    ([], b"see `" + RUN + b"`.\n", 0, TWO_LINES, "taken for base64 of line 1"),
    ([], b"x\n(" + RUN + b")\n", 0, TWO_LINES, "taken for base64 of line 2"),
    (["--as=runs"], b"CERT=" + RUN + b"\nKEY=BAEA", 0, TWO_LINES, "taken for base64 of line 1"),
    ([], b"x:: " + RUN.replace(b"\n", b"  \r\n ") + b" \ny: z\n", 0, TWO_LINES, "taken for base64 of line 1"),
    ([], b"&quot;" + RUN + b"&quot;", 0, TWO_LINES, "taken for base64 of line 1"),
    ([], b"<c>\n" + RUN.replace(b"\n", b"&#13;\n") + b"&#13;\n</c>", 2, TWO_LINES[:45], t2("base64 of line 2", 2)),
    ([], BOTH, 0, bytes.fromhex(BOTH.decode()), HEX), (["--as=hex"], BOTH, 0, bytes.fromhex(BOTH.decode()), HEX),
    (["--as=ber"], BOTH, 0, BOTH, ""),
    (["--as=der"], BOTH, 0, BOTH, ""), (["--as=cer"], BOTH, 0, BOTH, ""), (["--as", "octets"], BOTH, 0, BOTH, ""),
    ([], WRAPPED, 0, WRAPPED, ""), (["--as=ber"], WRAPPED, 0, WRAPPED, ""), (["--as=pem"], WRAPPED, 0, NULL, CMS),
    ([], element(0x80, pem(b"CMS", NULL)), 0, element(0x80, pem(b"CMS", NULL)), ""),
    ([], b"caf\xc3\xa9: " + pem(b"CMS", NULL), 0, NULL, CMS), ([], b"\x0c\n" + pem(b"CMS", NULL), 0, NULL, CMS),
    ([], element(0x30, NULL + WRAPPED), 0, element(0x30, NULL + WRAPPED), ""), ([], PRIVATE, 0, PRIVATE, ""),
    ([], b"0000 05 01\nend", 2, b"", t1("0000 05 01?end")), ([], b"00000 05 00\n0000", 2, b"", t1("00000 05 00?0000")),
    ([], b"000000 05 00\n0000", 2, b"", t1("000000 05 00?0000")), (["--as=hex"], b"000000 05", 0, b"\0\0\0\x05", HEX),
    ([], b"-----BEGIN A-----\nMAMCAQ:=\n-----END A-----\n", 2, b"\x30\x03\x02", t2("PEM, A", 2)),
    ([], pem(b"A", NULL, b"Version: x\n"), 2, base64.b64decode(b"Vers"), t2("PEM, A", 2)),
    ([], pem(b"A", b"", b"Version: x\n\n"), 2, base64.b64decode(b"Vers"), t2("PEM, A", 2)),
    ([], BROKEN, 2, b"", t2("PEM, A", 3)), ([], SEALED, 2, b"", "taken for PEM, RSA PRIVATE KEY; X3 it is encrypted"),
    ([], b"Dear Sir", 2, b"", t1("Dear Sir")), ([], b"caf\xc3\xa9\n", 2, b"", t1("caf???")),
    ([], b"The quick brown fox jumps over the lazy dog.", 2, b"", t1("The quick brown fox jumps over t")),
    ([], pem(b"\x1b[31mX", NULL), 2, b"", t1("-----BEGIN ?[31mX-----?BQA=?----")),
    ([], b"0000 " + b"00 " * 16 + b"\n*\n40000010\n", 4, b"", TOO_LONG),
    ([], b"0000 " + b"00 " * 16 + b"\n*\n1000000\n", 0, bytes(1 << 24), "taken for a hex dump"),
    ([], b"0000 " + b"00 " * 16 + b"\n*\n1000040\n", 0, bytes((1 << 24) + 64), "taken for a hex dump"),
    ([], b"0000 " + b"00 " * 16 + b"\n*\n1000050\n", 4, b"", TOO_LONG),
    (["--as=dump"], b"0000 " + b"00 " * 16 + b"\n*\n1000050\n", 4, b"", TOO_LONG),
    ([], (b"x: " + base64.b64encode(b"0000 " + b"00 " * 16 + b"\n*\n1000000\n") + b" y\n") * 65, 4, b"", TOO_LONG),
    ([], b"caf\xe9", 0, b"caf\xe9", ""), ([], b" \n", 0, b" \n", ""), ([], b"", 0, b"", ""),
    *((words, b"", 4, b"", f"U2 value out of range: {FORMS}") for words in (["--as=x"], ["--as="], ["--as=PEM"])),
]
# Options that exclude each other, and the message.
ALONE = [
    ("--raw --check", "not with --check: --raw"), ("--raw --offset 0", "not with --offset: --raw"),
    ("--raw --offsets", "not with --offsets: --raw"), ("--raw --rules ber", "not with --raw: --rules"),
    ("--raw --limit 1", "not with --raw: --limit"), ("--raw --pure", "not with --raw: --pure"),
    ("--raw --names n", "not with --raw: --names"), ("--raw --closed", "not with --raw: --closed"),
    ("--raw --no-text", "not with --raw: --no-text"), ("--raw --contents", "only with --offset: --contents"),
    ("--raw --no-text --closed --names n --pure --limit 1 --rules ber", "not with --raw: --rules"),
    ("--raw --no-text --closed --names n --pure --limit 1", "not with --raw: --limit"),
    ("--check --no-text --names n --pure --limit 1 --raw --offsets --offset 0", "not with --check: --offset"),
    ("--check --limit 1 --raw --offsets", "not with --check: --offsets"),
    ("--check --limit 1 --raw", "not with --check: --raw"),
    ("--offset 0 --rules ber --raw --offsets", "not with --offset: --offsets"),
    ("--offset 0 --rules ber --raw", "not with --offset: --raw"),
    ("--offsets --rules ber --raw", "not with --offsets: --raw"),
]


def same(part, program):
    """Each text of SOUND, on a pipe and as a file, gives the dump of SOUND, and with --raw its octets."""
    out = program.run(["--as=octets"], SOUND).out
    part.expect("names and an open string", b"(commonName)" in out and b" wraps {" in out)
    for what, given, note in SAME:
        program.gives([], given, 0, out, note, what=what)
        program.gives(["--raw"], given, 0, SOUND, note, what=f"{what}, --raw")
        part.write("it", given)
        program.gives(["it"], b"", 0, out, note and f"it: {note}", what=f"{what}, a file")
    for words in (["--closed"], ["--no-text"], ["--check"], ["--offsets"], ["--offset", "7"], ["--offset=7", "--contents"]):
        wanted = program.run(words, SOUND)
        program.gives(words, SOUND.hex().encode(), wanted.status, wanted.out, HEX, what=f"{' '.join(words)}, a text")


def handed_on(part, program):
    """Options, faults and broken strings apply to the decoded octets. The note precedes the messages."""
    part.write("mine", b"2.5.4.3 cn\n")
    long = element(0x30, b"\x06\x03\x55\x04\x03" + element(4, b"\x05" * 99))
    breaks = bytes.fromhex("300b0603551d0f0404030305a0")
    for given, octets, status in (
        (["--limit", "2", "--rules=cer", "--pure", "--names", "mine"], long, 1), (["--padding"], b"\0" + SOUND + b"\0\0", 0),
        ([], NULL + b"\x04", 2), (["--offsets"], NULL + b"\x04", 2), (["--check"], breaks, 1), ([], breaks, 1),
        (["--offsets"], element(4, NULL) * 20, 0), (["--offset=8"], SOUND, 1), (["--check"], FOUND, 1),
    ):
        wanted = program.run([*given, "--as=octets"], octets)
        part.expect(f"{' '.join(given)} {octets[:9].hex()}: status", wanted.status == status, *wanted.lines())
        reasons = program.reasons(octets, *given)
        messages = wanted.err.decode().splitlines()[: -len(reasons) or None]
        part.expect(f"{' '.join(given)} {octets[:9].hex()}: reasons", wanted.err.decode().splitlines() == messages + reasons)
        for note, text in ((HEX, octets.hex().encode()), ("taken for PEM, A", pem(b"A", octets))):
            said = "\n".join([note, *messages, *reasons])
            program.gives(given, text, status, wanted.out, said, what=f"{' '.join(given)}, {note}, {octets[:9].hex()}")
            part.write("-x", text)
            said = "\n".join([*(f"-x: {line}" for line in (note, *messages)), *reasons])
            program.gives([*given, "--", "-x"], b"", status, wanted.out, said, what=f"{' '.join(given)}, {note}, a file")


def words(part, program):
    """Each row of RAW gives its output with --raw.
    A value of --as that is out of range is reported after those of other options.
    """
    for given, text, status, out, note in RAW:
        program.gives(["--raw", *given], text, status, out, note, what=f"--raw {' '.join(given)} {text[:40]!r}")
        if status == 2 and not out:
            program.gives(given, text, 4, b"", note, what=f"{' '.join(given)} {text[:40]!r}")
    for given, said in (("--rules x", "--rules (ber, der or cer)"), ("--limit x", "--limit (0 to 4294967295)"),
                        ("--offset x", "--offset (0 to 1099511627776)")):
        program.gives(["--as=x", *given.split(), "missing"], b"", 4, err=f"U2 value out of range: {said}")
    program.gives(["--as=x", "--names", "missing", "missing"], b"", 4, err=f"U2 value out of range: {FORMS}")
    for given, said in ALONE:
        program.gives(given.split(), NULL, 4, err=f"U4 {said}")
    for text in ("--as", "--as hex --as hex", "--raw --raw", "--raw=1"):
        program.refuses(text.split(), NULL)


def tables(part, program):
    """Each text of the tables gives its octets with --raw, and names the line in which it is refused."""
    for form, rows in text_table.NAMED.items():
        for text, octets, line in rows:
            got = program.run(["--raw", f"--as={form}"], text)
            said = f"X2 refused in line {line}, where {EXPECTED[form]} is expected\n".encode()
            fine = (got.status, got.out) == (2 if line else 0, octets) and got.err.endswith(said) == bool(line)
            part.expect(f"--raw --as={form} {text[:40]!r}", fine, *got.lines())
    for text, status, octets, note in text_table.TAKEN:
        program.gives(["--raw"], text, status, octets, note, what=f"--raw {text[:40]!r}")


def statuses(part, program):
    """The status of a text that is refused is that of the octets before the refusal, or 4 if that is 0."""
    for text, status, raw in (
        (b"BQAF*", 2, b"\x05\x00\x05"), (b"AgIABQIC*", 2, b"\x02\x02\x00\x05\x02\x02"),
        (b"AgIABQUA*", 1, b"\x02\x02\x00\x05\x05\x00"), (b"BQAFAAUA*", 4, NULL * 3),
    ):
        shown = program.run(["--as=octets"], raw)
        err = t2("base64", 1) + "\n" + shown.err.decode()
        part.same(f"{text!r}", program.run(["--as=base64"], text), Done(status, shown.out, err.encode()))
    cut = base64.b64encode(NULL + b"\x04")
    program.gives(["--offset", "0"], b"-----BEGIN A-----\n" + cut, 0, NULL, f"taken for PEM, A; {NO_END}")
    said = f"taken for PEM, A; {NO_END}\nfault at 3: F02 input ends inside an encoding"
    program.gives(["--offsets"], b"-----BEGIN A-----\n" + cut, 2, b"", program.with_reasons(said, NULL + b"\x04"))


def blocks(part, program):
    """A FILE with several blocks."""
    given = pem(b"A", SOUND) + pem(b"B", FOUND) + pem(b"C", NULL)
    shows = [program.run(["--as=octets"], octets).out for octets in (SOUND, FOUND, NULL)]
    out = b"".join(b"# block %d of 3: %c\n%s" % (number, 64 + number, of) for number, of in enumerate(shows, 1))
    notes = [f"block {number}: taken for PEM, {label}" for number, label in ((1, "A"), (2, "B"), (3, "C"))]
    said = "\n".join([*notes[:2], "block 2: findings: 1", notes[2]])
    program.gives([], given, 1, out, said, what="three blocks")
    program.gives(["--raw"], given, 0, SOUND + FOUND + NULL, "\n".join(notes), what="three blocks, --raw")
    program.gives(["--offset", "0"], given, 0, SOUND + FOUND + NULL, "\n".join(notes), what="three blocks, --offset")
    program.gives(["--offsets"], given, 0, b"7\n", "\n".join(notes), what="three blocks, --offsets")
    lines = b"# block 1 of 3: A\n# block 2 of 3: B\n2 B08 integer is padded\n# block 3 of 3: C\n"
    program.gives(["--check"], given, 1, lines, said, what="three blocks, --check")
    nothing = b"# block 1 of 2: A\n# block 2 of 2: B\n" + NULL_LINE
    said = f"block 1: {t2('PEM, A', 3)}\nblock 2: taken for PEM, B"
    program.gives([], BROKEN + pem(b"B", NULL), 4, nothing, said, what="a block of which nothing is decoded")
    run = base64.b64encode(element(4, bytes(40)))
    out = b"".join(b"# block %d of 2: base64 of line %d\n" % (number, number + 1) for number in (1, 2))
    said = "block 1: taken for base64 of line 2\nblock 2: taken for base64 of line 3"
    program.gives(["--check"], b"x:\n y: %s.\n z: %s.\n" % (run, run), 0, out, said, what="two runs")


def several(part, program):
    """Several FILEs of octets and texts. All are read before the first is shown."""
    for name, octets in (("a.der", SOUND), ("b.der", NULL), ("a text", SOUND.hex().encode()),
                         ("it's.pem", pem(b"X", NULL) * 2), ("none", b"Dear Sir")):
        part.write(name, octets)
    out = b"# block 1 of 4: a text\n" + program.run([], SOUND).out + b"# block 2 of 4: it's.pem: X\n" + NULL_LINE
    out += b"# block 3 of 4: it's.pem: X\n" + NULL_LINE + b"# block 4 of 4: b.der\n" + NULL_LINE
    said = f"a text: {HEX}\nit's.pem: block 2: taken for PEM, X\nit's.pem: block 3: taken for PEM, X"
    program.gives(["a text", "it's.pem", "b.der"], b"", 0, out, said)
    program.gives(["--raw", "a text", "it's.pem", "b.der"], b"", 0, SOUND + NULL * 3, said)
    program.gives(["b.der", "-", "--check"], SOUND, 0, b"# block 1 of 2: b.der\n# block 2 of 2: standard input\n")
    lines = b"# block 1 of 3: standard input: A\n# block 2 of 3: none\n# block 3 of 3: missing\n"
    said = f"taken for PEM, A\nnone: {t1('Dear Sir')}\nmissing: E5 cannot open the file: no such file"
    program.gives(["--check", "-", "none", "missing"], pem(b"A", NULL), 4, lines, said)
    program.gives(["--raw", "none", "missing"], b"", 3, b"", f"none: {t1('Dear Sir')}\nmissing: E5 cannot open the file: no such file")
    program.gives(["--raw", "."], b"", 3, b"", ".: E1 read failed")
    program.gives(["--as", "ber", "b.der", "a.der"], b"", 0, program.run(["b.der", "a.der"]).out)


def made(part, program):
    """A certificate made by openssl: in PEM, and after a text."""
    if not part.has("openssl"):
        return
    for command in ("openssl req -x509 -newkey ec -pkeyopt ec_paramgen_curve:P-256 -nodes -keyout key.pem -out cert.pem"
                    " -days 9 -subj /C=DE/CN=x -addext keyUsage=critical,cRLSign",
                    "openssl x509 -in cert.pem -text -out text.pem", "openssl x509 -in cert.pem -outform DER -out cert.der",
                    "openssl ec -in key.pem -aes128 -passout pass:x -out sealed"):
        got = subprocess.run(command.split(), cwd=part.folder, stdin=subprocess.DEVNULL, capture_output=True, timeout=60)
        part.expect(command[:70], got.returncode == 0, got.stderr.decode(errors="replace"))
    wanted = program.run(["cert.der"])
    part.expect("a certificate with strings", wanted.status == 0 and wanted.out.count(b" wraps {") >= 3, *wanted.lines())
    for name in ("cert.pem", "text.pem"):
        program.gives([name], b"", 0, wanted.out, f"{name}: taken for PEM, CERTIFICATE")
    program.gives(["sealed"], b"", 4, b"", "sealed: taken for PEM, EC PRIVATE KEY; X3 it is encrypted")


def test_rows(part, program):
    """Counts the tests of all rows."""
    for test in (same, handed_on, words, tables, statuses, blocks, several, made):
        test(part, program)

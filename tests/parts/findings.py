"""Tests findings in long and deep inputs, in pieces, and with devices that fail. The expected lines are computed here.
"""
import os
import re

from parts.harness import Done, message

STRING = b"\x24\x80" + b"\x04\x01\x00" * 1000 + b"\x00\x00"
SEGMENT = "segment follows one not of 1000 octets"
FITS = "constructed string fits in 1000 octets"
# The headings of the two tables of docs/FINDINGS.md.
OF_BOTH, OF_SHOW = "Findings of both programs", "Findings of tlvdump-show alone"


def finding_lines(rows):
    return "".join(f"{offset} {code} {text}\n" for offset, code, text in rows).encode()


def count_of(rows):
    return f"findings: {len(rows)}"


def segments(part):
    """A string of 1000 segments. Each but the first follows one that is not full, and all would fit in one."""
    part.gives(["check", "--rules", "ber"], STRING, 0)
    rows = [(2 + 3 * number, "C04", SEGMENT) for number in range(1, 1000)] + [(0, "C05", FITS)]
    part.gives(["check", "--rules", "cer"], STRING, 1, finding_lines(rows), count_of(rows))
    more = STRING[:-2] + b"\x04\x01\x00\x00\x00"
    rows = [(2 + 3 * number, "C04", SEGMENT) for number in range(1, 1001)]
    part.gives(["check", "--rules", "cer"], more, 1, finding_lines(rows), count_of(rows))


def levels(part):
    """128 nested elements, each with a finding."""
    deep = b"\x30\x80" * 128 + b"\x00\x00" * 128
    rows = [(2 * level, "D01", "indefinite length") for level in range(128)]
    part.gives(["check"], deep, 1, finding_lines(rows), count_of(rows))
    lines = ""
    for level in range(128):
        lines += f"{2 * level:>8}    D01: {'  ' * level}indefinite length\n"
        lines += f"{2 * level:>8}  indef: {'  ' * level}SEQUENCE {{\n"
    for level in reversed(range(128)):
        lines += f"{510 - 2 * level:>8}    end: {'  ' * level}}}\n"
    part.gives(["dump", "--rules", "der"], deep, 1, lines.encode(), count_of(rows))


def rows_of(part, heading):
    """Returns the rows of the table below a heading of docs/FINDINGS.md."""
    with open(os.path.join(part.root, "docs", "FINDINGS.md"), encoding="utf-8") as file:
        section = file.read().split(f"\n## {heading}\n")[-1].split("\n## ")[0]
    return [line.strip("| \n").split(" | ") for line in section.splitlines() if re.match(r"\| [BSDC]\d\d ", line)]


def check_table(part, heading, count, program, *option):
    """Checks a table of docs/FINDINGS.md: a program has for each example
    the finding, under the rule sets that are named, and under no other.
    """
    rows = rows_of(part, heading)
    part.expect(f"{count} findings", len(rows) == count)
    for code, text, _, examples, sets, _, _ in rows:
        for example in examples.split(" \u00b7 "):
            given = re.sub(r", (\d+) octets", lambda it: " 00" * int(it[1]), example.strip("`"))
            for rules in ("ber", "der", "cer"):
                got = part.run([*option, "--rules", rules], bytes.fromhex(given), program=program).out.decode()
                there = re.search(rf"^\d+ {code} {re.escape(text.strip('`'))}$", got, re.M) is not None
                part.expect(f"{code} in {example} under {rules}", there == (rules in sets.split(", ")), got)


def check_tables(part):
    """Checks the two tables. tlvdump-show has the findings of both, and tlvdump none of the second."""
    of_show = part.suite.show_program
    check_table(part, OF_BOTH, 31, part.program, "check")
    check_table(part, OF_BOTH, 31, of_show, "--check")
    check_table(part, OF_SHOW, 13, of_show, "--check")
    codes = [row[0] for row in rows_of(part, OF_SHOW)]
    for _, text, _, examples, *_ in rows_of(part, OF_SHOW):
        for example in examples.split(" \u00b7 "):
            got = part.run(["check", "--rules", "ber"], bytes.fromhex(example.strip("`")))
            part.expect(f"{text} is none of tlvdump", not any(code in got.out.decode() for code in codes), *got.lines())


# Violations of X.690 clauses 8 to 11 that neither program looks for: a word of the line in the table, octets, and the
# rule sets under which nothing else is found.
LONG = "04 46" + " 00" * 69
UNSEEN = [
    ("components of a SEQUENCE", "30 03 02 01 05", "ber der"),
    ("instance-of", "28 03 06 01 2a", "ber der"),
    ("named bits", "03 02 00 80", "ber der cer"),
    ("default values", "30 03 01 01 00", "ber der"),
    ("not universal", "81 02 00 7f", "ber der cer"),
    ("SET alone", "31 07 a0 02 05 00 81 01 05", "ber der"),
    ("SET OF alone", "31 07 81 01 05 a0 02 05 00", "ber der"),
    ("SET OF alone", "31 0b 04 01 00 81 01 05 a0 03 02 01 05", "ber der"),
    ("different tags", "31 80 04 01 00 02 01 00 00 00", "ber cer"),
    ("first 64 octets", f"31 81 90 {LONG} 02 {LONG} 01", "ber der"),
    ("first 64 octets", f"31 80 {LONG} 02 {LONG} 01 00 00", "ber cer"),
    ("binary or decimal", "09 06 03 31 2e 45 2b 30", "ber der cer"),
    ("TIME or DURATION", "0e 01 ff", "ber der cer"),
    ("TIME or DURATION", "1f 22 01 ff", "ber der cer"),
    ("labels of an OID-IRI", "1f 23 02 2f 20", "ber der cer"),
    ("labels of an OID-IRI", "1f 24 03 61 20 62", "ber der cer"),
    ("EXTERNAL", "28 06 81 01 05 06 01 2a", "ber der"),
    ("EXTERNAL", "28 03 02 01 05", "ber der"),
    ("EMBEDDED PDV", "2b 06 80 01 05 80 01 05", "ber der"),
    ("CHARACTER STRING", "3d 03 81 01 05", "ber der"),
    ("escape sequences", "1b 02 1b 1b", "ber der cer"),
    ("constructed UTF8String", "2c 03 04 01 ff", "ber"),
    ("constructed UTF8String", "3e 04 04 02 d8 00", "ber"),
    ("segments of a segment", "33 05 24 03 04 01 5f", "ber"),
    ("time that is a constructed", "37 03 04 01 2a", "ber"),
    ("more than 64 octets", "17 41" + " 2a" * 65, "ber der cer"),
    ("unused bits inside", "23 0a 23 04 03 02 01 00 03 02 00 ff", "ber"),
]
# Violations that tlvdump alone does not look for, in the same form. The first words are those of the paragraph on it.
UNSEEN_BY_TLVDUMP = [
    ("REAL", "09 01 44", "ber der cer"),
    ("REAL", "09 03 80 00 02", "ber der cer"),
    ("DATE", "1f 1f 01 ff", "ber der cer"),
    ("TIME-OF-DAY", "1f 20 01 ff", "ber der cer"),
    ("DATE-TIME", "1f 21 01 ff", "ber der cer"),
    ("OID-IRI", "1f 23 01 ff", "ber der cer"),
    ("RELATIVE-OID-IRI", "1f 24 00", "ber der cer"),
    ("order of a SET", "31 06 04 01 00 02 01 00", "ber der"),
    ("a SET OF", "31 06 02 01 02 02 01 01", "ber der"),
    ("a SET OF", "31 80 02 01 02 02 01 01 00 00", "ber cer"),
    ("type of B22", "3f 23 00", "ber der"),
    ("EXTERNAL", "28 00", "ber der"),
    ("EMBEDDED PDV", "2b 00", "ber der"),
    ("CHARACTER STRING", "3d 00", "ber der"),
    ("EXTERNAL", "28 02 05 00", "ber der"),
    ("RELATIVE-OID without", "0d 00", "ber der cer"),
    ("surrogates", "1e 02 d8 00", "ber der cer"),
    ("day that its month", "17 0d" + "230230120000Z".encode().hex(), "ber der cer"),
    ("characters of segments", "33 03 04 01 2a", "ber"),
]
# The pages where a user looks for them, and the words that each page must have.
NAMED = ("default values", "SET and SET OF", "REAL", "EXTERNAL", "EMBEDDED PDV", "CHARACTER STRING")
NAMED += ("OID-IRI", "RELATIVE-OID-IRI", "TIME")
PLACES = {"docs/USE.md": r"\n\n", "tests/help/check.txt": r"\n\n", "man/tlvdump.1": r"\n\.SH"}


def check_unseen(part):
    """The programs find nothing in the violations that they do not look for, and the pages name them."""
    with open(os.path.join(part.root, "docs", "FINDINGS.md"), encoding="utf-8") as file:
        section = file.read().split("## What is not looked for\n")[-1]
    lines = section.splitlines()
    table = [line.strip("| ").split(" | ") for line in lines if line.startswith("| ")][1:]
    for what, octets, sets in UNSEEN:
        part.expect(f"the line of {what}", any(what in row[0] for row in table))
        for rules in sets.split():
            part.gives(["check", "--rules", rules], bytes.fromhex(octets), 0)
            part.gives(["--check", "--rules", rules], bytes.fromhex(octets), 0, program=part.suite.show_program)
    words = " ".join(section.split("Neither program")[0].split())
    for what, octets, sets in UNSEEN_BY_TLVDUMP:
        part.expect(f"the words {what}", what in words)
        for rules in sets.split():
            part.gives(["check", "--rules", rules], bytes.fromhex(octets), 0)
    unseen = [row[0] for row in table if not any(what in row[0] for what, *_ in UNSEEN)]
    part.expect("each line has its octets", table and not unseen, *unseen)
    fine = all(re.match(r"(8|9|1[01])\.\d", row[1]) and row[2].endswith(".") for row in table)
    part.expect("each line has a clause of 8 to 11 and a reason", fine)
    for place, end in PLACES.items():
        with open(os.path.join(part.root, place), encoding="utf-8") as file:
            found = re.search(rf"Not looked\s+for\b(.*?){end}", file.read(), re.S)
        text = " ".join(found[1].split()) if found else ""
        missing = [name for name in NAMED if not re.search(rf"(?<![\w-]){re.escape(name)}(?![\w-])", text)]
        part.expect(f"{place} says what is not looked for", not missing, *missing)


def devices(part):
    with open("/dev/full", "wb") as full:
        part.gives(["check", "--rules", "cer"], STRING, 3, err="E2 write failed", stdout=full)
        part.gives(["check", "--rules", "ber"], STRING, 0, stdout=full)
    os.mkdir(part.path("folder"))
    part.gives(["check", "folder"], b"", 3, err="E1 read failed")
    part.gives(["check", "missing"], b"", 3, err="E5 cannot open the file")
    part.same("check, no input", part.run(["check"], b""), Done(2, b"", message("fault at 0: F01 empty input")))


def test(part):
    segments(part)
    levels(part)
    check_tables(part)
    check_unseen(part)
    devices(part)

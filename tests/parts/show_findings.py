"""Tests the findings of tlvdump-show alone, the second table of docs/FINDINGS.md.

The rows of tests/finding_rows say what is found, and tlvdump finds the same without the codes of this table. On drawn
inputs, too, the programs differ in these codes alone. Changes of the second opinion that are wrong differ from some row.
Names, attributes and certificates from openssl and Debian have none of these findings, until elements of a SET are exchanged.
"""
import glob
import itertools
import os
import random
import re
from unittest.mock import patch

from parts.finding_rows import RULES, rows_of
from parts.harness import Done, message
from parts.show_made import ANCHORS, command, octets_of
from parts.show_program import Program
from second_opinion import findings, show_findings
from second_opinion.finding_drawing import input_octets
from second_opinion.opened import Strings
from second_opinion.reading import Reading
from second_opinion.showing import File, Show, run

SET, MOST_NAMED, DRAWN = 17, 16, 300
CODES = tuple(show_findings.MORE)


def checked(lines):
    """Returns the result of a check that writes these lines."""
    out = "".join(f"{line}\n" for line in lines).encode()
    return Done(1 if lines else 0, out, message(f"findings: {len(lines)}" if lines else ""))


def is_new(line):
    """Returns whether a line of a check has a finding of tlvdump-show alone."""
    return line.split(" ")[1] in CODES


def check_rows(part, program, rows):
    """tlvdump-show has the findings of each row, and tlvdump those that are not of tlvdump-show alone."""
    for row in rows:
        opened = Strings(row.octets).opened
        inside = ["--inside", ",".join(map(str, opened))] if opened else []
        for rules, lines in row.lines.items():
            got = program.run(["--check", "--rules", rules], row.octets)
            part.same(f"{row.text} by {rules}", got, checked(lines))
            got = part.run(["check", "--rules", rules, *inside], row.octets)
            part.same(f"{row.text} by {rules}, tlvdump", got, checked([line for line in lines if not is_new(line)]))
        program.agrees(row.text, row.octets, "dump", "offsets")


def check_counts(part, program):
    """--why counts them, --pure hides them, and --closed leaves out those in strings."""
    real, in_string, falling = b"\x09\x01\x44", b"\x04\x03\x09\x01\x44", bytes.fromhex("3106020105020103")
    for octets, ber, der in ((real, 1, 1), (in_string, 1, 1), (falling, 0, 1)):
        got = program.run(["--why"], octets)
        line = f"By the rules of BER: findings: {ber}. By those of DER: findings: {der}."
        fine = got.status == min(ber, 1) and line in got.out.decode().splitlines()
        part.expect(f"--why of {octets.hex(' ')}", fine, *got.lines())
    program.gives(["--pure"], real, 1, b"REAL 44\n", "findings: 1")
    program.gives(["--check", "--closed"], in_string, 0)
    program.gives(["--offsets"], in_string, 0, b"0\n", what="a REAL of no form in a string that is opened")


def by_tag(tag, before, falls):
    """Returns whether an element is out of order by tag alone."""
    return tag < before


def wrong_order(is_wrong, has_form=False):
    """Returns a wrong way to judge the order of elements: by their tags, and whether their octets fall."""
    def judge(octets, element, parent, previous, _):
        if previous is None or parent is None or not parent.is_universal(SET):
            return False
        tag, before = ((it.tag_class, it.number, it.constructed and has_form) for it in (element, previous))
        return is_wrong(tag, before, show_findings.first_octets(octets, element) < show_findings.first_octets(octets, previous))
    return judge


def in_any_holder(octets, element, parent, previous, rules):
    """Judges the order of elements of a SEQUENCE, too."""
    falls = previous is not None and show_findings.first_octets(octets, element) < show_findings.first_octets(octets, previous)
    return falls and (element.tag_class, element.number) <= (previous.tag_class, previous.number) and rules != "ber"


NR1, NR2, NR3 = (show_findings.NUMBERS[number] for number in (1, 2, 3))
# Wrong ways: what is wrong, and what of show_findings it replaces.
WRONG = [
    ("compares 63 octets", "MOST_COMPARED", 63),
    ("compares 65 octets", "MOST_COMPARED", 65),
    ("orders by octets alone", "is_out_of_order", wrong_order(lambda tag, before, falls: falls)),
    ("orders by tag alone", "is_out_of_order", wrong_order(by_tag)),
    ("lets any two of different tags be", "is_out_of_order", wrong_order(lambda tag, before, falls: falls and tag == before)),
    ("judges CER as DER", "is_out_of_order", wrong_order(lambda tag, before, falls: falls and tag <= before)),
    ("takes the form for a part of the tag", "is_out_of_order",
     wrong_order(lambda tag, before, falls: falls and tag <= before, has_form=True)),
    ("judges a SEQUENCE", "is_out_of_order", in_any_holder),
    ("takes NR2 without a mark", "NUMBERS", {1: NR1, 2: NR2 + b"|" + NR1, 3: NR3}),
    ("takes NR3 without an exponent", "NUMBERS", {1: NR1, 2: NR2, 3: NR3 + b"|" + NR2}),
    ("wants a mark in NR3", "NUMBERS", {1: NR1, 2: NR2, 3: NR2 + b"[Ee][+-]?[0-9]+"}),
    ("takes one form of numbers for another", "NUMBERS", dict.fromkeys((1, 2, 3), NR1 + b"|" + NR2 + b"|" + NR3)),
    ("takes 44 for special", "SPECIAL", (*show_findings.SPECIAL, b"\x44")),
    ("takes no minus zero", "SPECIAL", show_findings.SPECIAL[:3]),
    ("takes 0 for a first digit", "CANONICAL_NUMBER", show_findings.CANONICAL_NUMBER.replace(b"-?[1-9](", b"-?[0-9](", 1)),
    ("takes each REAL for canonical", "is_canonical_real", lambda contents: True),
    ("takes a mantissa that ends with 00 for zero", "is_zero", lambda contents: contents[:1] >= b"\x80" and contents[-1] == 0),
    ("counts the digits of the exponent", "is_zero",
     lambda contents: not contents[:1] >= b"\x40" and contents != b"" and re.search(rb"[1-9]", contents[1:]) is None),
    ("judges elements of a SEQUENCE as of an EXTERNAL", "has_parts",
     lambda element: element.constructed and element.is_universal(8, 11, 16, 29)),
    ("judges elements of any class as of an EXTERNAL", "has_parts",
     lambda element: element.constructed and element.number in (8, 11, 29)),
    ("judges elements of an EXTERNAL alone", "has_parts", lambda element: element.constructed and element.is_universal(8)),
    ("judges elements inside a string", "has_parts", lambda element: element.is_universal(8, 11, 29, 4)),
    ("lets an EMBEDDED PDV hold what an EXTERNAL does", "is_part",
     lambda element, parent: element.is_universal(2, 6, 7) or element.tag_class == 2 and element.number <= 2),
    ("lets an EXTERNAL hold no universal type", "PARTS_OF_EXTERNAL", ()),
    ("lets an EXTERNAL hold no ObjectDescriptor", "PARTS_OF_EXTERNAL", (2, 6)),
    ("lets a component be [3]", "LAST_PART", 3),
    ("lets no component be [2]", "LAST_PART", 1),
    ("takes any class for context-specific", "is_part",
     lambda element, parent: parent.number == 8 and element.is_universal(2, 6, 7) or element.number <= 2),
    ("has 29 February each fourth year", "is_leap_year", lambda year: year % 4 == 0),
    ("has 31 days in each month", "DAYS", (31,) * 12),
    ("has surrogates to dbff", "is_scalar", lambda unit: unit <= 0x10FFFF and not 0xD800 <= unit < 0xDC00),
    ("has numbers above 10ffff", "is_scalar", lambda unit: not 0xD800 <= unit <= 0xDFFF),
    ("lets labels of an IRI be empty", "IRIS", {35: rb"/[^/]+(/[^/]*)*", 36: rb"[^/]+(/[^/]*)*"}),
    ("lets an OID-IRI have no label", "IRIS", {**show_findings.IRIS, 35: show_findings.IRIS[35] + rb"|/"}),
    ("lets a RELATIVE-OID-IRI begin with /", "IRIS", {**show_findings.IRIS, 36: rb"/?" + show_findings.IRIS[36]}),
    ("takes any octets for an IRI", "is_iri", lambda number, contents: contents[:1] == b"/" or number == 36 and contents != b""),
]


def second_opinion_of(row, rules):
    """Returns the lines of a check of a row by the second opinion."""
    show = Show("check", rules=rules, files=[File("-", row.octets, True)])
    return run(show, dict).out.decode().splitlines()


def check_wrong(part, rows):
    """The second opinion gives what each row says, and with each wrong way it differs from some row."""
    def differing():
        return [row.text for row in rows for rules in RULES if second_opinion_of(row, rules) != row.lines[rules]]

    unlike = differing()
    part.expect("the second opinion has these rows", rows and not unlike, *unlike)
    for what, name, wrong in WRONG:
        with patch.object(show_findings, name, wrong):
            part.expect(f"a row refuses what {what}", differing())


def exchanged(octets, holder, order):
    """Returns the octets with the elements of a SET in another order, and the offsets at which they are then."""
    members = [octets[it.offset : it.end] for it in holder.children]
    made, offsets = b"", []
    for place in order:
        offsets.append(holder.start + len(made))
        made += members[place]
    return octets[: holder.start] + made + octets[holder.start + len(made) :], offsets


def check_orders(part, program, what, octets, least):
    """Puts the elements of each SET in every order. Those of one tag have S05 where their octets fall, and only there."""
    opened = Strings(octets).opened
    holders = [it for it in Reading(octets, opened).elements() if it.is_universal(SET) and len(it.children) >= least]
    part.expect(f"{what}: SETs of {least} elements or more", holders)
    for holder in holders:
        members = [octets[it.offset : it.end] for it in holder.children]
        for order in itertools.permutations(range(len(members))):
            made, offsets = exchanged(octets, holder, order)
            falls = [offsets[place] for place in range(1, len(order)) if members[order[place]] < members[order[place - 1]]]
            wanted = [f"{offset} S05 {show_findings.TEXTS['S05']}" for offset in falls]
            got = program.run(["--check"], made)
            new = [line for line in got.out.decode().splitlines() if is_new(line)]
            part.expect(f"{what}: the order {order}", new == wanted and Strings(made).opened == opened, *got.lines())
            program.agrees(f"{what}: the order {order}", made, "check")
            has_no_new(part, f"{what}: the order {order}", made, opened)


def has_no_new(part, what, octets, opened):
    """tlvdump has none of these findings."""
    inside = ["--inside", ",".join(map(str, opened[:16]))] if opened else []
    got = part.run(["check", *inside], octets)
    part.expect(f"{what}, tlvdump", got.status in (0, 1) and not any(map(is_new, got.out.decode().splitlines())), *got.lines())


def check_made(part, program):
    """A name with three attributes in one RDN, and the attributes of the bags of a PKCS#12 file."""
    part.write("cnf", b"[req]\ndistinguished_name = name\n[name]\n")
    command(part, "openssl req -x509 -newkey ec -pkeyopt ec_paramgen_curve:P-256 -nodes -keyout key -out cert -days 9"
                  " -multivalue-rdn -subj /C=DE+O=Example+CN=a.example -config cnf")
    command(part, "openssl x509 -in cert -outform DER -out cert.der")
    check_orders(part, program, "a name", octets_of(part, "cert.der"), 3)
    command(part, "openssl pkcs12 -export -in cert -inkey key -passout pass:x -certpbe NONE -keypbe NONE -nomac"
                  " -name friend -out file.p12")
    check_orders(part, program, "attributes of a bag", octets_of(part, "file.p12"), 2)


def check_sound(part, program):
    """The certificates of Debian's ca-certificates, and the inputs of tests/data, have none of these findings."""
    paths = sorted(glob.glob(os.path.join(ANCHORS, "*.crt")))
    part.expect("ca-certificates", paths, f"there are no certificates in {ANCHORS}")
    for rules in ("der", "cer"):
        lines = program.run(["--check", "--rules", rules, *paths]).out.decode().splitlines()
        found = [line for line in lines if not line.startswith("#") and is_new(line)]
        part.expect(f"the certificates by {rules}", sum(line.startswith("#") for line in lines) == len(paths) and not found, *found)
    for path in sorted(glob.glob(os.path.join(part.root, "tests", "data", "*"))):
        got = program.run(["--check", "--rules", "der", path])
        found = [line for line in got.out.decode().splitlines() if is_new(line)]
        part.expect(f"{os.path.basename(path)} by der", got.status in (0, 1) and not found, *found)


def check_drawn(part, program):
    """On drawn inputs with the same strings opened, tlvdump has the findings of tlvdump-show without those of its own."""
    for seed in range(1, DRAWN + 1):
        octets = input_octets(random.Random(f"findings {seed}"))
        opened = Strings(octets).opened
        if not opened or len(opened) > MOST_NAMED:
            opened, words = [], ["--closed"]
        else:
            words = []
        inside = ["--inside", ",".join(map(str, opened))] if opened else []
        for rules in RULES:
            got = program.run(["--check", "--rules", rules, *words], octets)
            of_both = [line for line in got.out.decode().splitlines() if not is_new(line)]
            one = part.run(["check", "--rules", rules, *inside], octets)
            fine = one.out.decode().splitlines() == of_both and (got.status == 2) == (one.status == 2)
            part.expect(f"drawn input {seed} by {rules}: {octets[:100].hex()}", fine, *one.lines(), *got.lines())


def check_texts(part):
    """The second table of docs/FINDINGS.md has the codes and texts of the second opinion."""
    with open(os.path.join(part.root, "docs", "FINDINGS.md"), encoding="utf-8") as file:
        table = dict(re.findall(r"^\| ([BSDC]\d\d) \| `([^`]*)` ", file.read(), re.M))
    part.expect("codes and texts", table == show_findings.TEXTS and len(findings.TEXTS) == 31, *sorted(table))


def test(part):
    program = Program(part)
    rows = rows_of(part.root)
    check_texts(part)
    check_rows(part, program, rows)
    check_counts(part, program)
    check_wrong(part, rows)
    check_drawn(part, program)
    check_sound(part, program)
    if part.has("openssl"):
        check_made(part, program)

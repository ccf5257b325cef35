"""Tests tlvdump-show on common inputs: a large CRL, certificates (also damaged, and those of Debian), PKCS#12 and CMS.
"""
import base64
import glob
import itertools
import os
import re
import subprocess

from parts.harness import Done
from parts.show_program import Program
from second_opinion.findings import shortest
from second_opinion.opened import Strings
from second_opinion.reading import Reading

ANCHORS = "/usr/share/ca-certificates/mozilla"
ENTRIES = 20_000
EXTENSIONS = """
basicConstraints = critical, CA:TRUE, pathlen:3
keyUsage = critical, keyCertSign, cRLSign
subjectKeyIdentifier = hash
authorityKeyIdentifier = keyid, issuer
subjectAltName = DNS:a.example, DNS:www.a.example, email:x@a.example, IP:192.0.2.7, URI:https://a.example/
extendedKeyUsage = serverAuth, clientAuth, emailProtection
certificatePolicies = 1.3.6.1.4.1.99999.1, @policy
crlDistributionPoints = URI:http://a.example/list.crl, URI:ldap://b.example/cn=list
authorityInfoAccess = OCSP;URI:http://ocsp.a.example/, caIssuers;URI:http://a.example/ca.cer
nameConstraints = permitted;DNS:a.example, excluded;IP:192.0.2.0/255.255.255.0
1.3.6.1.5.5.7.1.24 = DER:30:03:02:01:05
"""
CONFIGURATION = "[req]\ndistinguished_name = name\n[name]\n[policy]\npolicyIdentifier = 1.3.6.1.4.1.99999.2\n"
CONFIGURATION += "CPS.1 = https://a.example/cps\n[extensions]" + EXTENSIONS
SEQUENCE, OCTETS = 0x30, 0x04


def element(tag, *contents):
    """Returns an element with the shortest length octets."""
    octets = b"".join(contents)
    return bytes([tag]) + shortest(len(octets)) + octets


def extension(number, value):
    """Returns an extension below 2.5.29 whose string holds this element."""
    return element(SEQUENCE, element(6, bytes([0x55, 0x1D, number])), element(OCTETS, value))


def entry(number):
    """Returns the entry of a revoked certificate, with a reason (2.5.29.21)."""
    serial = element(2, b"\x01" + number.to_bytes(7, "big"))
    time = element(0x17, b"261127120000Z")
    return element(SEQUENCE, serial, time, element(SEQUENCE, extension(21, element(10, b"\x01"))))


def crl(entries):
    """Returns a CRL. Its last string is the CRL number (2.5.29.20)."""
    algorithm = element(SEQUENCE, element(6, bytes.fromhex("2b6570")))
    name = element(SEQUENCE, element(0x31, element(SEQUENCE, element(6, b"\x55\x04\x03"), element(0x0C, b"x"))))
    times = element(0x17, b"261127120000Z") + element(0x17, b"261227120000Z")
    revoked = element(SEQUENCE, *map(entry, range(entries)))
    numbered = element(0xA0, element(SEQUENCE, extension(20, element(2, b"\x07"))))
    listed = element(SEQUENCE, element(2, b"\x01"), algorithm, name, times, revoked, numbered)
    return element(SEQUENCE, listed, algorithm, element(3, b"\0" + b"\x5a" * 64))


def large_crl(part, program):
    """All strings in a CRL of 20,000 entries are opened."""
    octets = crl(ENTRIES)
    place, offsets = 0, []
    while (place := octets.find(b"\x06\x03\x55\x1d", place)) >= 0:
        offsets.append(place + 5)
        place += 5
    listed = ",".join(map(str, offsets)).encode() + b"\n"
    part.expect("a list of 20,000 entries has 20,001 strings", len(offsets) == ENTRIES + 1)
    program.gives(["--offsets"], octets, 0, listed, what="all strings of a list of 20,000 entries are opened")
    got = program.run([], octets)
    part.expect("its dump", got.status == 0 and got.out.count(b" wraps {\n") == ENTRIES + 1, *got.lines())
    program.gives(["--check"], octets, 0, what="its check")
    program.agrees("it", octets, "dump")
    last = element(10, b"\x01")
    program.gives([f"--offset={offsets[-2] + 2}"], octets, 0, last, what="the last reason, cut out")
    cut = octets[: offsets[ENTRIES // 2] + 2]
    program.agrees("its first half", cut, is_large=True)


def command(part, text):
    """Runs a command of openssl in the folder of the part."""
    got = subprocess.run(text.split(), cwd=part.folder, stdin=subprocess.DEVNULL, capture_output=True, timeout=60)
    part.expect(text[:70], got.returncode == 0, got.stderr.decode(errors="replace"))


def octets_of(part, name):
    """Returns the octets of a file of the part."""
    with open(part.path(name), "rb") as file:
        return file.read()


def certificate(part):
    """Makes a certificate with extensions. Returns its octets."""
    part.write("cnf", CONFIGURATION.encode())
    command(part, "openssl req -x509 -newkey ec -pkeyopt ec_paramgen_curve:P-256 -nodes -keyout key -out cert -days 9"
                  " -subj /C=DE/O=Example/CN=a.example -config cnf -extensions extensions")
    command(part, "openssl x509 -in cert -outform DER -out cert.der")
    return octets_of(part, "cert.der")


def values_of(octets):
    """Returns the strings of a certificate that are values of extensions."""
    strings = [it for it in Reading(octets).elements() if it.is_universal(4) and not it.constructed]
    return [it for it in strings if it.offset in Strings(octets).opened]


def length_places(octets, value):
    """Returns the offsets of the length octets in the contents of a string, and in the strings that are opened there.
    """
    places = []
    reading = Reading(octets, Strings(octets).opened)
    for it in reading.elements():
        if value.start <= it.offset < value.end:
            first = it.offset + len(it.identifier)
            places += range(first, it.start)
    return places


def damaged_certificates(part, program, octets):
    """Each length octet inside an extension is made one more or one less: the program names that extension.

    In rare cases the octets still parse, and have a finding.
    """
    values, named, found = values_of(octets), 0, 0
    part.expect("the extensions of a certificate", len(values) == EXTENSIONS.count(" = "), str(len(values)))
    for value in values:
        for place, more in itertools.product(length_places(octets, value), (1, -1)):
            if not 0 <= octets[place] + more <= 255:
                continue
            wrong = octets[:place] + bytes([octets[place] + more]) + octets[place + 1 :]
            what, got = f"length octet at {place}, {octets[place]:02x}, {more:+}", program.run([], wrong)
            part.same(what, got, program.wanted("dump", wrong))
            said = got.err.decode().partition("\n")[0]
            part.expect(f"{what}: the reasons", got.err.decode() == program.with_reasons(said, wrong) + "\n", *got.lines())
            says = re.fullmatch(r"string at (\d+) .* and breaks at (\d+): F.*", said)
            is_named = says and int(says[1]) == value.offset and value.start <= int(says[2]) <= value.end
            is_found = re.fullmatch(rb"findings: \d+\n", got.err) and value.offset in Strings(wrong).opened
            part.expect(f"{what}: it is named", got.status == 1 and (is_named or is_found), *got.lines())
            named, found = named + bool(is_named), found + bool(is_found)
    part.expect("nearly all are named", named > 100 and found < 5, f"{named} are named, and {found} parse")
    part.note(f"{named + found} certificates with a wrong length inside an extension: {named} named, {found} parse")


def stores(part, program):
    """PKCS#12, CMS and a CRL from openssl, and PKCS#12 with one segment in an indefinite string, as NSS writes it."""
    command(part, "openssl pkcs12 -export -in cert -inkey key -passout pass:x -certpbe NONE -out file.p12")
    command(part, "openssl cms -sign -binary -nodetach -in cert.der -signer cert -inkey key -outform DER -out file.cms")
    command(part, "openssl cms -sign -binary -nodetach -stream -in cert.der -signer cert -inkey key -outform DER -out stream.cms")
    part.write("index", b"R\t300101000000Z\t200101000000Z,keyCompromise\t02\tunknown\t/CN=two\n")
    part.write("number", b"01\n")
    part.write("ca", b"[ca]\ndefault_ca=d\n[d]\ndatabase=index\ncrlnumber=number\ndefault_md=sha256\n"
               b"default_crl_days=9\ncrl_extensions=e\n[e]\nauthorityKeyIdentifier=keyid\n")
    command(part, "openssl ca -gencrl -config ca -cert cert -keyfile key -out list")
    command(part, "openssl crl -in list -outform DER -out file.crl")
    within = values_of(octets_of(part, "cert.der"))
    for name, least in (("file.p12", len(within) + 2), ("file.cms", 2 * len(within) + 1), ("stream.cms", 2 * len(within) + 1),
                        ("file.crl", 3)):
        octets = octets_of(part, name)
        opened = Strings(octets).opened
        part.expect(f"{name}: strings", len(opened) >= least, f"{len(opened)} of {least}")
        program.agrees(name, octets)
    safe = element(SEQUENCE, element(SEQUENCE, element(6, bytes.fromhex("2a864886f70d010701"))))
    segment = element(OCTETS, safe)
    string = b"\x24\x80" + segment + b"\0\0"
    data = b"\x30\x80" + element(6, bytes.fromhex("2a864886f70d010701")) + b"\xa0\x80" + string + b"\0\0" * 2
    store = b"\x30\x80" + element(2, b"\x03") + data + b"\0\0"
    program.gives(["--offsets"], store, 0, b"22\n", what="one segment in an indefinite string")
    program.agrees("one segment in an indefinite string", store)


def by_both(part, program, what, octets):
    """Counts one test: given the list of opened strings, tlvdump writes the same as tlvdump-show."""
    listed = program.run(["--offsets"], octets).out.decode().strip()
    words = ["--inside", listed] if listed else []
    names = part.path("prefix/share/tlvdump/names.txt")
    part.same(f"{what} by both programs", program.run(["--no-text"], octets), part.run(["dump", "--names", names, *words], octets))


def anchors(part, program):
    """Some of the certificates of Debian's ca-certificates, as octets and in PEM, in which they are installed."""
    files = sorted(glob.glob(os.path.join(ANCHORS, "*.crt")))
    part.expect("ca-certificates", files, f"there are no certificates in {ANCHORS}")
    for path in files[::20]:
        with open(path, encoding="ascii") as file:
            octets = base64.b64decode("".join(line for line in file if not line.startswith("-")))
        name = os.path.basename(path)
        program.agrees(name, octets)
        by_both(part, program, name, octets)
        wanted = program.wanted("dump", octets)
        note = f"{path}: taken for PEM, CERTIFICATE\n".encode()
        part.same(f"{name}, a FILE", program.run([path]), Done(wanted.status, wanted.out, note + wanted.err))


def test(part):
    program = Program(part)
    anchors(part, program)
    if not part.has("openssl"):
        return
    large_crl(part, program)
    octets = certificate(part)
    program.agrees("a certificate", octets)
    by_both(part, program, "a certificate", octets)
    damaged_certificates(part, program, octets)
    stores(part, program)

"""Reads the lists of object identifiers in Debian's packages.

Each reader takes the folder in which the packages are unpacked, `/` if they are installed, and returns pairs of dotted
arcs and a name. A missing list has no pairs.
"""
import ast
import glob
import os
import re
import shutil
import struct
import subprocess
import tempfile

from .classes import Classes
from .table import contents_of

PYTHON = "usr/lib/python3/dist-packages"
DOTTED = r"[012](?:\.\d+)+"
ROOTS = {"iso": "1", "ccitt": "0", "itu-t": "0", "joint-iso-ccitt": "2", "joint-iso-itu-t": "2"}
ROOTS |= {"internet": "1.3.6.1", "mib-2": "1.3.6.1.2.1", "enterprises": "1.3.6.1.4.1"}
MACROS = "OBJECT IDENTIFIER|OBJECT-TYPE|OBJECT-IDENTITY|MODULE-IDENTITY|NOTIFICATION-TYPE|OBJECT-GROUP"


def texts(folder, *patterns):
    """Yields the texts of the files that match the patterns."""
    for pattern in patterns:
        for path in sorted(glob.glob(os.path.join(folder, pattern), recursive=True)):
            if os.path.isfile(path):
                with open(path, encoding="utf-8", errors="replace") as file:
                    yield file.read()


def dotted_of(numbers):
    """Returns `1.3.6` for the list `1, 3, 6`, and None if it is not a list of numbers."""
    arcs = [arc.strip() for arc in numbers.split(",") if arc.strip()]
    return ".".join(arcs) if all(arc.isdigit() for arc in arcs) else ""


def output_of(*words):
    quiet = {"stdout": subprocess.PIPE, "stderr": subprocess.DEVNULL, "text": True, "check": False}
    return subprocess.run(words, **quiet).stdout


def openssl(folder):
    """Reads the objects that `openssl` prints. It is run only if the folder is that of the machine."""
    if folder != "/" or not shutil.which("openssl"):
        return
    shown = output_of("openssl", "list", "-objects")
    for names, arcs in re.findall(rf"^(.*?)(?: =|,) ({DOTTED})$", shown, re.M):
        for name in re.split(r" = ", names):
            yield arcs, name


def dumpasn1(folder):
    for text in texts(folder, "etc/dumpasn1/dumpasn1.cfg"):
        pattern = r"^OID = ([0-9 ]+?)\s*\n(?:Comment.*\n)?Description = (.*)"
        for arcs, name in re.findall(pattern, text, re.M):
            yield arcs.replace(" ", "."), name


def asn1crypto(folder):
    for text in texts(folder, f"{PYTHON}/asn1crypto/*.py"):
        yield from re.findall(rf"'({DOTTED})':\s*'([^']+)'", text)


def pyasn1_modules(folder):
    """Reads the assignments in the modules, such as `a = univ.ObjectIdentifier('1.2')` and `b = _OID(a, 3)`."""
    made = r"(?:univ\.ObjectIdentifier|_OID|_buildOid)"
    for text in texts(folder, f"{PYTHON}/pyasn1_modules/rfc*.py"):
        known = {}
        for name, right in re.findall(rf"^(\w+)\s*=\s*({made}\(.*|\w+ \+ \(.*)", text, re.M):
            arcs = arcs_of_python(re.sub(made, "", right.split("#")[0]), known)
            if arcs:
                known[name] = arcs
                yield ".".join(arcs), name


def arcs_of_python(right, known):
    arcs = []
    for word in re.findall(r"'[\d.]+'|\w+", right):
        if word.isdigit():
            arcs.append(word)
        elif word[0] == "'":
            arcs += word.strip("'").split(".")
        elif word in known:
            arcs += known[word]
        else:
            return []
    return arcs


def cryptography(folder):
    for text in texts(folder, f"{PYTHON}/cryptography/hazmat/_oid.py"):
        for name, arcs in re.findall(rf'(\w+) = ObjectIdentifier\(\s*"({DOTTED})"', text):
            yield arcs, name


def ldap3(folder):
    for text in texts(folder, f"{PYTHON}/ldap3/protocol/oid.py"):
        quoted = r"""'(?:[^'\\]|\\.)*'|"[^"]*\""""
        for arcs, names in re.findall(rf"\('({DOTTED})', OID_\w+, (\[.*?\]|{quoted})", text):
            found = ast.literal_eval(names)
            for name in [found] if isinstance(found, str) else found:
                yield arcs, name


def schemas(folder):
    """Reads the schemas of OpenLDAP and of 389 Directory Server."""
    where = ("etc/ldap/schema/*.schema", "usr/share/dirsrv/schema/*.ldif")
    for text in texts(folder, *where):
        for arcs, names in re.findall(rf"\(\s*({DOTTED})\s+NAME\s+(\([^)]*\)|'[^']*')", text):
            yield from ((arcs, name) for name in re.findall(r"'([^']+)'", names))


def active_directory(folder):
    """Reads the schema of Active Directory in samba-ad-provision."""
    for text in texts(folder, "usr/share/samba/setup/ad-schema/*"):
        for block in re.split(r"\n\s*\n", text):
            fields = {key.lower(): value for key, value in re.findall(r"^(\w+): (\S+)", block, re.M)}
            arcs = fields.get("attributeid") or fields.get("governsid")
            if arcs and "ldapdisplayname" in fields:
                yield arcs, fields["ldapdisplayname"]


def headers(folder):
    """Reads the header of OpenLDAP, and the headers of Windows in mingw-w64-common."""
    for text in texts(folder, "usr/include/ldap.h", "usr/share/mingw-w64/include/win*.h"):
        for name, arcs in re.findall(rf'#define\s+(\w+)\s+"({DOTTED})"', text):
            yield arcs, name


def bouncy_castle(folder):
    """Reads the fields of the classes in the archives bcprov and bcutil."""
    classes = Classes(glob.glob(os.path.join(folder, "usr/share/java/bc*.jar")))
    for name in sorted(classes.places):
        if "/asn1/" in name:
            yield from ((arcs, field) for field, arcs in classes.fields(name).items())


def heimdal(folder):
    for text in texts(folder, "usr/include/heimdal/*_asn1.h"):
        for name, right in re.findall(r"OBJECT IDENTIFIER ([\w-]+) ::= \{([^}]*)\}", text):
            yield ".".join(re.findall(r"\((\d+)\)", right)), name


def assigned_values(all_texts):
    """Returns the values that ASN.1 modules and MIBs assign, each resolved by the names of the others."""
    pending = {}
    for text in all_texts:
        text = re.sub(r'"[^"]*"|--.*', "", text)
        pattern = rf"^\s*([a-z][\w-]*)\s+(?:{MACROS})\b(?:(?!::=).)*?::=\s*\{{([^}}]*)\}}"
        for name, right in re.findall(pattern, text, re.M | re.S):
            pending.setdefault(name, right)
    known = dict(ROOTS)
    while found := {name: arcs for name, right in pending.items() if (arcs := resolve(right, known))}:
        known |= found
        pending = {name: right for name, right in pending.items() if name not in found}
        yield from ((arcs, name) for name, arcs in found.items())


def resolve(right, known):
    """Returns the arcs of `{ id-pkix 3 }` or `{ iso(1) org(3) }`, or None if a name is not known."""
    arcs = []
    for word in re.findall(r"[\w-]+\s*\(\s*\d+\s*\)|[\w-]+", right):
        number = re.search(r"\((\s*\d+\s*)\)|^(\d+)$", word)
        if number:
            arcs.append((number.group(1) or number.group(2)).strip())
        elif not arcs and word in known:
            arcs.append(known[word])
        else:
            return ""
    return ".".join(arcs)


def erlang(folder):
    return assigned_values(texts(folder, "usr/lib/erlang/lib/public_key-*/asn1/*.asn1"))


def erlang_headers(folder):
    for text in texts(folder, "usr/lib/erlang/lib/*/include/*.hrl"):
        for name, numbers in re.findall(r"-define\('([\w-]+)', *\{([\d,\s]+)\}\)", text):
            yield dotted_of(numbers), name


def mibs(folder):
    """Reads the MIBs of libsnmp-base and of snmp-mibs-downloader."""
    where = ("usr/share/snmp/mibs/*.txt", "var/lib/snmp/mibs/**/*", "usr/share/mibs/**/*")
    return assigned_values(texts(folder, *where))


def pysnmp(folder):
    """Reads the MIBs of python3-pysnmp4-mibs and python3-pysnmp4, which are compiled to Python."""
    pattern = r"^(\w+) = (Mib\w+|ModuleIdentity|ObjectIdentity|NotificationType|ObjectGroup)\(\(([\d, ]+)\)"
    where = (f"{PYTHON}/pysnmp_mibs/*.py", f"{PYTHON}/pysnmp/smi/mibs/*.py")
    for text in texts(folder, *where):
        labels = dict(re.findall(r"(\w+)\.setLabel\('([^']+)'\)", text))
        for name, _, numbers in re.findall(pattern, text, re.M):
            yield dotted_of(numbers), labels.get(name, name)


def go(folder):
    """Reads the object identifiers of zlint, Fulcio, step, cfssl and go-sev-guest, which are written in Go."""
    where = ("github.com/zmap/z*", "github.com/sigstore/fulcio", "go.step.sm/crypto")
    where += ("github.com/cloudflare/cfssl", "github.com/google/go-sev-guest")
    for text in texts(folder, *(f"usr/share/gocode/src/{place}/**/*.go" for place in where)):
        for name, numbers in re.findall(r"(\w+)\s*=\s*asn1\.ObjectIdentifier(?:\(\[\]int)?\{([\d, ]+)\}", text):
            yield dotted_of(numbers), name


def authorities(folder):
    """Reads the policies of certificate authorities in zcrypto: a map
    for each kind, with the authority in a comment above its lines.
    """
    kinds = {"ExtendedValidation": "EV", "OrganizationValidation": "OV", "DomainValidation": "DV"}
    for text in texts(folder, "usr/share/gocode/src/github.com/zmap/zcrypto/x509/extensions.go"):
        for map_name, lines in re.findall(r"^var (\w+)OIDs = map[^\n]*\{\n(.*?)^\}", text, re.M | re.S):
            for comment, entries in re.findall(rf'((?:^\t// .*\n)+)((?:^\t"{DOTTED}": +nil,\n)+)', lines, re.M):
                for arcs in re.findall(DOTTED, entries):
                    yield arcs, f"{comment.splitlines()[0][4:]} {kinds[map_name]} policy"


def capture(wanted):
    """Returns a capture file whose packets are SEQUENCEs of object identifiers."""
    octets = struct.pack("<IHHIIII", 0xA1B2C3D4, 2, 4, 0, 0, 65535, 147)
    for start in range(0, len(wanted), 100):
        every = [contents_of(dotted) for dotted in wanted[start:start + 100]]
        body = b"".join(bytes([6, len(contents)]) + contents for contents in every)
        packet = b"\x30\x82" + len(body).to_bytes(2, "big") + body
        octets += struct.pack("<IIII", 0, 0, len(packet), len(packet)) + packet
    return octets


def wireshark(folder, wanted=()):
    """Reads the names that tshark shows for the object identifiers, which are put into a capture file."""
    if folder != "/" or not shutil.which("tshark"):
        return
    kind = 'uat:user_dlts:"User 0 (DLT=147)","ber","0","","0",""'
    with tempfile.TemporaryDirectory(prefix="tlvdump-names-") as room:
        path = os.path.join(room, "names.pcap")
        with open(path, "wb") as file:
            file.write(capture(wanted))
        shown = output_of("tshark", "-o", kind, "-r", path, "-V")
    for arcs, name in re.findall(rf"OID: ({DOTTED}) \((.*)\)", shown):
        if not re.search(r"\.\d+$", name):
            yield arcs, name


READERS = (openssl, dumpasn1, asn1crypto, pyasn1_modules, cryptography, ldap3, schemas, headers)
READERS += (active_directory, bouncy_castle, heimdal, erlang, erlang_headers, mibs, pysnmp, go, authorities, wireshark)

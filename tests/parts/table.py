"""Tests data/names.txt: its form, some well-known names, and the certificates of Debian's ca-certificates."""
import glob
import os
import ssl

ANCHORS = "/usr/share/ca-certificates/mozilla"

# Copied from the standards, independently of the file.
KNOWN = """
2.5.4.3 commonName
2.5.4.5 serialNumber
2.5.4.6 countryName
2.5.4.7 localityName
2.5.4.8 stateOrProvinceName
2.5.4.10 organizationName
2.5.4.11 organizationalUnitName
2.5.4.42 givenName
2.5.4.65 pseudonym
2.5.4.97 organizationIdentifier
2.5.6.6 person
2.5.13.2 caseIgnoreMatch
2.5.29.14 subjectKeyIdentifier
2.5.29.15 keyUsage
2.5.29.17 subjectAltName
2.5.29.19 basicConstraints
2.5.29.20 cRLNumber
2.5.29.31 cRLDistributionPoints
2.5.29.32 certificatePolicies
2.5.29.32.0 anyPolicy
2.5.29.35 authorityKeyIdentifier
2.5.29.37 extKeyUsage
0.9.2342.19200300.100.1.25 domainComponent
1.2.840.113549.1.1.1 rsaEncryption
1.2.840.113549.1.1.10 id-RSASSA-PSS
1.2.840.113549.1.1.11 sha256WithRSAEncryption
1.2.840.113549.1.5.13 id-PBES2
1.2.840.113549.1.7.2 signedData
1.2.840.113549.1.9.1 emailAddress
1.2.840.113549.1.9.4 messageDigest
1.2.840.113549.1.9.16.1.4 id-ct-TSTInfo
1.2.840.113549.1.9.16.2.47 id-aa-signingCertificateV2
1.2.840.113549.1.12.10.1.2 pkcs8ShroudedKeyBag
1.2.840.113549.3.7 des-EDE3-CBC
1.2.840.10045.2.1 id-ecPublicKey
1.2.840.10045.3.1.7 prime256v1
1.2.840.10045.4.3.2 ecdsa-with-SHA256
1.2.840.10040.4.1 id-dsa
1.2.840.113554.1.2.2 krb5
1.2.840.113635.100.1.18 APPLE_TP_APPLEID_SHARING
1.3.132.0.34 secp384r1
1.3.101.112 id-Ed25519
1.3.36.3.3.2.8.1.1.7 brainpoolP256r1
1.3.14.3.2.26 id-sha1
1.3.6.1.5.5.2 spnego
1.3.6.1.5.5.7.1.1 id-pe-authorityInfoAccess
1.3.6.1.5.5.7.3.1 id-kp-serverAuth
1.3.6.1.5.5.7.3.9 id-kp-OCSPSigning
1.3.6.1.5.5.7.6.40 id-MLDSA44-ECDSA-P256-SHA256
1.3.6.1.5.5.7.7.33 id-cmc-popLinkWitnessV2
1.3.6.1.5.5.7.7.34 id-cmc-identityProofV2
1.3.6.1.5.5.7.48.1 id-ad-ocsp
1.3.6.1.5.5.7.48.1.1 id-pkix-ocsp-basic
1.3.6.1.4.1.311.2.1.4 SPC_INDIRECT_DATA_OBJID
1.3.6.1.4.1.311.2.1.30 SPC_SIGINFO_OBJID
1.3.6.1.4.1.1466.101.119.1 refreshRequest
1.3.6.1.4.1.1466.101.119.2 dynamicObject
1.3.6.1.4.1.8072.3.2.7 netbsd
1.3.6.1.2.1.1.1 sysDescr
1.3.6.1.2.1.1.3.0 sysUpTime.0
1.3.6.1.6.3.1.1.4.1 snmpTrapOID
2.16.840.1.101.3.4.1.42 id-aes256-CBC
2.16.840.1.101.3.4.2.1 id-sha256
2.16.840.1.101.3.4.3.18 id-ml-dsa-65
2.16.840.1.101.3.4.4.2 id-alg-ml-kem-768
2.23.140.1.2.1 domain-validated
2.23.146.1.2.1.1 id-rspRole-euicc
0.4.0.1862.1.1 id-etsi-qcs-QcCompliance
0.4.0.0.1.0.1.3 networkLocUpContext-v3
0.0.17.773.1.1.1 dialogue-as-id
1.0.18013.5.1.2 mDL document signer
1.2.643.100.113.1 classSignToolKC1
1.3.6.1.4.1.3704.1.3.8 ucodeSPL
1.3.6.1.4.1.11129.2.5.3 Google Trust Services policy
1.3.6.1.4.1.44363.44 id-ce-delegationUsage
2.16.840.1.114413.1.7.23.1 Go Daddy DV policy
"""


def arcs_of(dotted):
    return [int(arc) for arc in dotted.split(".")]


def contents_of(dotted):
    """Returns the contents octets of an object identifier (X.690, 8.19)."""
    first, second, *rest = arcs_of(dotted)
    octets = b""
    for number in (40 * first + second, *rest):
        parts = [number & 0x7F]
        while number := number >> 7:
            parts.insert(0, number & 0x7F | 0x80)
        octets += bytes(parts)
    return octets


def pairs_of(lines):
    return [line.split(" ", 1) for line in lines if line and not line.startswith("#")]


def form(part, path):
    """Checks what the file promises beyond what the program requires. Returns its pairs."""
    with open(path, "rb") as file:
        octets = file.read()
    lines = octets.decode("ascii").split("\n")
    part.expect("the last line is ended", lines.pop() == "")
    part.expect("no spaces at the ends of a line", all(line == line.strip(" \t\r") for line in lines))
    part.expect("one space in front of a name", all(name == name.strip() for _, name in pairs_of(lines)))
    wanted = "a comment, and then arcs that rise"
    for group in "\n".join(lines).split("\n\n")[1:]:
        comment, *entries = group.split("\n")
        arcs = [arcs_of(dotted) for dotted, _ in pairs_of(entries)]
        fine = comment.startswith("# ") and len(arcs) == len(entries) > 0 and arcs == sorted(arcs)
        part.expect(f"{comment}: {wanted}", fine)
    pairs = pairs_of(lines)
    part.expect("1,500 entries", len(pairs) >= 1500, f"there are {len(pairs)}")
    part.expect("no repeat", len(dict(pairs)) == len(pairs))
    part.expect("the limits", len(octets) <= 1_048_576 and len(pairs) <= 65_536 and max(map(len, lines)) <= 400)
    return dict(pairs)


def check_names(part, path, what, pairs):
    """Checks that the program reads the file and shows these names for these object identifiers."""
    octets = b""
    wanted = []
    for dotted, name in pairs:
        contents = contents_of(dotted)
        octets += bytes([6, len(contents)]) + contents
        wanted.append(f"OBJECT IDENTIFIER {dotted} ({name})")
    got = part.run(["dump", "--pure", "--names", path], octets)
    lines = got.out.decode().splitlines()
    fine = got.status == 0 and got.err == b"" and lines == wanted
    part.expect(what, fine, *[f"{a} | {b}" for a, b in zip(lines, wanted) if a != b][:5], *got.lines()[::2])


def strings_of(lines):
    """Returns the offsets of the primitive OCTET STRINGs in a dump, such as those of a certificate's extensions."""
    return [line.split()[0] for line in lines if line[17:].lstrip().startswith("OCTET STRING")]


def anchors(part, path):
    """Each object identifier in the certificates of ca-certificates has a name, also inside extensions."""
    files = sorted(glob.glob(os.path.join(ANCHORS, "*.crt")))
    part.expect("ca-certificates", files, f"there are no certificates in {ANCHORS}")
    count, without = 0, set()
    for name in files:
        with open(name, encoding="ascii") as file:
            octets = ssl.PEM_cert_to_DER_cert(file.read())
        plain = part.run(["dump"], octets)
        inside = ",".join(strings_of(plain.out.decode().splitlines())[:16])
        words = ["dump", "--names", path] + (["--inside", inside] if inside else [])
        got = part.run(words, octets)
        found = [line for line in got.out.decode().splitlines() if "OBJECT IDENTIFIER" in line]
        part.expect(f"{os.path.basename(name)} is dumped whole", got.status == 0 and found, *got.lines()[::2])
        count += len(found)
        without |= {line.split()[4] for line in found if not line.endswith(")")}
    part.expect("ca-certificates: each object identifier is named", not without, *sorted(without))
    part.note(f"{len(files)} certificates of ca-certificates, {count} object identifiers, {len(without)} without a name")


def test(part):
    path = os.path.join(part.root, "data", "names.txt")
    pairs = form(part, path)
    check_names(part, path, "every entry is named by the program", list(pairs.items()))
    known = pairs_of(KNOWN.split("\n"))
    part.expect("76 well-known pairs", len(known) == 76)
    check_names(part, path, "the well-known pairs", known)
    anchors(part, path)

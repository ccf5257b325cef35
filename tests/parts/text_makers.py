"""Makes texts of encodings, as common tools write them and as people write them by hand.

Each text is a name, the value of --as, and the text. docs/TEXTS.md defines the forms.
"""
import base64
import re
import subprocess

from second_opinion import text_dump_drawing as rows

# Commands that make texts from a file "octets".
COMMANDS = (
    ("dump", "xxd octets"), ("dump", "xxd -u octets"), ("dump", "xxd -g1 octets"), ("dump", "xxd -g4 octets"),
    ("dump", "xxd -c8 octets"), ("dump", "xxd -c32 octets"), ("dump", "xxd -g0 octets"), ("dump", "xxd -o4096 octets"),
    ("dump", "xxd -a octets"), ("dump", "xxd -E octets"), ("dump", "xxd -C octets"),
    ("hex", "xxd -p octets"), ("hex", "xxd -p -u octets"), ("hex", "xxd -p -c7 octets"),
    ("hex", "xxd -i octets"), ("hex", "xxd -i -u octets"), ("hex", "xxd -C -i octets"), ("hex", "xxd -n NAME -i octets"),
    ("hex", "od -v -An -tx1 octets"),
    ("dump", "hexdump -C octets"), ("dump", "hexdump -v -C octets"),
    ("dump", "od -tx1 octets"), ("dump", "od -v -tx1 octets"),
    ("dump", "od -Ax -tx1 octets"), ("dump", "od -Ax -tx1z octets"), ("dump", "od -w8 -tx1 octets"),
    ("base64", "base64 octets"), ("base64", "base64 -w0 octets"), ("base64", "base64 -w4 octets"),
    ("base64", "openssl base64 -in octets"), ("base64", "openssl base64 -A -in octets"),
)
ROW = re.compile(rb"\s*(?:0x)?[0-9a-fA-F]{4,}[: \t].*\d")
CAPTURE = b"12:00:01.500000 IP 192.0.2.1.389 > 192.0.2.7.40000: Flags [P.], length 5\n"


def tools_of(part):
    """Returns those of the tools that the machine has."""
    return {tool for tool in sorted({command.split()[0] for _, command in COMMANDS}) if part.has(tool)}


def len_of_row(name):
    """Returns how many octets a row of this dump has."""
    width = re.search(r"-[cw](\d+)", name)
    return int(width[1]) if width else 8 if name.startswith("gdb") else 16


def made(part, tools, octets):
    """Returns the texts that the commands of these tools make of octets."""
    part.write("octets", octets)
    found = []
    for form, command in COMMANDS:
        if command.split()[0] in tools:
            got = subprocess.run(command.split(), cwd=part.folder, capture_output=True, timeout=60)
            part.expect(command, got.returncode == 0, got.stderr.decode(errors="replace"))
            found.append((command, form, got.stdout))
    return found


def pem(label, octets, head=b""):
    """Returns a block of PEM."""
    return b"-----BEGIN %s-----\n%s%s-----END %s-----\n" % (label, head, in_lines(octets), label)


def in_lines(octets, size=64, end=b"\n"):
    """Returns base64 in lines of this size."""
    text = base64.b64encode(octets)
    return b"".join(text[at : at + size] + end for at in range(0, len(text), size))


def dump(octets, row, width=16):
    """Returns the rows of a hex dump."""
    return "".join(row(at, octets[at : at + width], width) + "\n" for at in range(0, len(octets), width)).encode()


def dumps(octets):
    """Returns hex dumps as written by programs that the machine may lack."""
    return [
        ("tcpdump -x", "dump", CAPTURE + dump(octets, lambda at, it, width: f"\t0x{at:04x}:  {rows.joined(it, 2)}")),
        ("xxd without characters", "dump", dump(octets, lambda at, it, width: f"{at:08x}: {rows.joined(it, 2)}")),
        ("tcpdump -X", "dump", CAPTURE + dump(octets, rows.tcpdump)),
        ("tcpdump -XX", "dump", CAPTURE.replace(b"12:00:01.500000 ", b"2026-11-27 ") + dump(octets, rows.tcpdump)),
        ("Wireshark", "dump", dump(octets, rows.wireshark)),
        ("Wireshark, offsets and pairs", "dump", dump(octets, lambda at, it, width: f"{at:04x}   {it.hex(' ')}")),
        ("Format-Hex", "dump", b"\n\n           Path: C:\\cert.der\n\n" + dump(octets, rows.powershell)),
        ("BIO_dump", "dump", dump(octets, rows.bio_dump)),
        ("gdb", "dump", dump(octets, lambda at, it, width: rows.gdb(0x555555558000 + at, it, width), 8)),
        ("gdb, a symbol", "dump", dump(octets, lambda at, it, width: rows.gdb_symbol(0x404040 + at, it, width), 8)),
        ("Wireshark's string", "hex", b'"' + b'" \\\n"'.join(re.findall(b"(?:.{4}){1,16}", digits(octets, rb"\x"))) + b'"'),
        ("Wireshark's array", "hex", b"/* Packet */\nstatic const unsigned char p[] = {\n"
         + digits(octets, b", 0x")[2:] + b"\n};\n"),
    ]


def digits(octets, front):
    """Returns pairs of digits, each with these characters in front."""
    return b"".join(front + b"%02x" % it for it in octets)


def others(octets):
    """Returns texts in hexadecimal, numbers, PEM and base64, as written by hand."""
    text, listed = base64.b64encode(octets), b", ".join(b"%d" % it for it in octets)
    signed = b", ".join(b"%d" % (it - 256 if it > 127 else it) for it in octets)
    block = pem(b"CERTIFICATE", octets)
    return [
        ("colons", "hex", octets.hex(":").encode() + b"\n"), ("hyphens", "hex", octets.hex("-").encode()),
        ("Go", "numbers", b"x := []byte{" + listed + b"}\n"), ("Go's array", "numbers", b"x := [5]byte{" + listed + b"}\n"),
        ("JSON's numbers", "numbers", b'{"data": [' + listed + b"]}\n"),
        ("Java", "numbers", b"byte[] x = new byte[] {\n" + signed + b",\n};\n"),
        ("PEM", "pem", block), ("PEM in JSON", "pem", b'{"a": "' + block.replace(b"\n", b"\\n") + b'"}\n'),
        ("PEM in mail", "pem", b"> " + block.replace(b"\n", b"\n> ")),
        ("PEM in C", "pem", b"".join(b'    "' + line + b'\\n"\n' for line in block.splitlines())),
        ("base64 without padding", "base64", text.rstrip(b"=") + b"\n"),
        ("base64 of URLs", "base64", base64.urlsafe_b64encode(octets)),
        ("base64 of base64", None, base64.b64encode(in_lines(octets))),
        ("base64 of PEM", None, base64.b64encode(block)),
    ]


def runs(octets):
    """Returns base64 inside other texts."""
    text, block = base64.b64encode(octets), base64.b64encode(pem(b"CERTIFICATE", octets))
    folded = re.sub(b"(.{76})", rb"\1\n ", b"userCertificate;binary:: " + text)
    return [
        ("LDIF", "runs", b"dn: cn=x,dc=example\nobjectClass: person\n" + folded + b"\nmail: x@a.example\n\n"),
        ("x5c", None, b'{"keys": [{"kty": "EC", "kid": "' + b"a" * 43 + b'", "x5c": ["' + text + b'"]}]}\n'),
        ("SAML", "runs", b"<ds:X509Certificate>\n" + in_lines(octets, 76) + b"</ds:X509Certificate>\n"),
        ("SAML in one line", "runs", b"<ds:X509Certificate>" + text + b"</ds:X509Certificate>\n"),
        ("S/MIME", "runs", b"MIME-Version: 1.0\nContent-Type: application/pkcs7-mime; smime-type=signed-data; "
         b"name=smime.p7m\nContent-Transfer-Encoding: base64\n\n" + in_lines(octets) + b"\n"),
        ("multipart", "runs", b"--b1\nContent-Transfer-Encoding: base64\n\n" + in_lines(octets, 76) + b"--b1--\n"),
        ("Kubernetes", None, b"apiVersion: v1\ndata:\n  tls.crt: " + block + b"\nkind: Secret\n"),
    ]


def all_of(part, tools, octets):
    """Returns all texts of octets, including those of these tools."""
    return made(part, tools, octets) + dumps(octets) + others(octets) + runs(octets)

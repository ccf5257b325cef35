"""Draws texts of the forms of docs/TEXTS.md at random: sound ones, and some with small faults."""
import base64
import re

from second_opinion import text_dump_drawing

LABELS = (b"CERTIFICATE", b"RSA PRIVATE KEY", b"X509 CRL", b"CMS", b"A", b"a b/c+d=", b"A" * 64)
ODD_LABELS = (b"", b"A" * 65, b"A-B", b"\x1b[31mX", b"caf\xc3\xa9", b"A\nB", b"A\tB", b" ", b"\x7f")
HEADERS = (b"Proc-Type: 4,ENCRYPTED\nDEK-Info: AES-256-CBC,00\n\n", b"Name: a,\n b\n\n")
HEADERS += (b"Version: 1\n \t\n", b"A: b\n", b"a:\n\n")
PROSE = (b"Dear Sir,\n\nyours\n", b"caf\xc3\xa9\n", b"abc", b"x = 1;\n", b"-----", b"[1, 2, 300]\n", b"0x\n")
PROSE += (b"MIIC", b"\n \t\n", b"")
PROSE += (b"d41d8cd98f00b204e9800998ecf8427e  -\n", b"# title\n", b"caf\xe9", b"0000:\n", b"{[]}", b"\\x3\n")
PROSE += (b"*", b"=", b"a=b")
PROSE += (b"The quick brown fox jumps over the lazy dog and over all the other dogs that it meets on the way home.\n",)
ODD_NUMBERS = (b"256", b"-129", b"-0", b"007", b"0000", b"", b"+5", b"5.0", b"-128", b"x")
BEFORE_LISTS = (b'{"data": ', b"x := []byte", b"byte[] x = new byte[] ", b"[5]byte", b"[5, 6]", b"[[", b"var a = ")
SEPARATORS = (b"", b" ", b":", b",", b"-", b", ", b"\n", b"\r\n", b" : ", b"' '", b'" "')
FORMS = ("octets", "ber", "der", "cer", "pem", "dump", "hex", "numbers", "base64", "runs")
MARKS = (b"\xef\xbb\xbf", b"\xff\xfe", b"\xfe\xff")
INSERTED = (b"*", b"=", b"-", b":", b"A", b"0", b"\\", b'"', b">", b"\r", b"\n", b"g", b"_")
INSERTED += (b"+", b"\xc3\xa9", b"\xff", b" ", b"-----")
INSERTED += (b"\x00", b"\x1a", b"\x7f", b"=====", b"--", b"\n*\n", b"0x", b"\\x41", b"[", b"]", b",")


def pick(rng, usual, *others, often=0.6):
    """Returns the usual value, or sometimes one of the others."""
    return usual if rng.random() < often else rng.choice(others)


def in_lines(rng, text):
    """Returns a text in lines of a random length, or in one line."""
    size = rng.choice([64, 64, 76, 48, 40, 39, 10, 1, 4000])
    end = pick(rng, b"\n", b"\r\n", b"\n ", b"\n\n", b"\\n", b"\\r\\n", b" ", b"\n> ", b"\n\t", often=0.7)
    return end.join(text[at : at + size] for at in range(0, len(text), size)) + rng.choice([end, end, b""])


def base64_text(rng, octets):
    """Returns base64 in lines, with or without padding. Rarely it is that of section 5, or its last bits are wrong."""
    text = base64.b64encode(octets)
    if rng.random() < 0.15:
        text = text.translate(bytes.maketrans(b"+/", b"-_"))
    if rng.random() < 0.25:
        text = text.rstrip(b"=")
    if rng.random() < 0.05:
        text = text.rstrip(b"=")[: -rng.randrange(1, 4)] + rng.choice([b"", b"=", b"==", b"===", b"B", b"/"])
    return in_lines(rng, text)


def pem_block(rng, octets):
    """Returns a block of PEM, rarely with unusual markers."""
    label = pick(rng, rng.choice(LABELS), *ODD_LABELS, often=0.92)
    body = in_lines(rng, base64.b64encode(octets))
    if rng.random() < 0.2:
        body = rng.choice(HEADERS) + body
    begin = b"-----BEGIN " + label + pick(rng, b"-----", b"----", b"------", b"----- ", often=0.96)
    end = b"-----END " + pick(rng, label, b"B", often=0.95) + b"-----"
    text = begin + pick(rng, b"\n", b"\r\n", b"", b" ", b"AAAA\n", often=0.8) + body
    text += pick(rng, end, b"", b"----", begin, end + end, often=0.9)
    return text + pick(rng, b"\n", b"", b"\r\n", b" etc.\n")


def pem(rng, octets, others=()):
    """Returns blocks of PEM: with text around them, in JSON, in mail, or quoted."""
    text = b"".join(pem_block(rng, it) for it in (octets, *others))
    how = rng.random()
    if how < 0.08:
        text = b'{"a": "' + text.replace(b"\n", b"\\n").replace(b"\r", b"\\r") + b'"}'
    elif how < 0.16:
        text = b"> " + text.replace(b"\n", b"\n> ")
    elif how < 0.24:
        text = text.replace(b"\n", b"\r\n")
    elif how < 0.3:
        text = b"\n".join(b'"' + line + b'\\n"' for line in text.splitlines())
    return pick(rng, b"", b"Subject: CN=x\n    Serial: 05\n", b"caf\xe9 ", b"\n\n", b"05 00\n", often=0.8) + text


def hexadecimal(rng, octets):
    """Returns pairs of digits, or tokens, in upper or lower case."""
    pairs = [b"%02x" % it for it in octets]
    how = rng.random()
    if how < 0.5:
        text = pick(rng, b"", rng.choice(SEPARATORS), often=0.3).join(pairs)
        if rng.random() < 0.3:
            text = in_lines(rng, text)
    elif how < 0.75:
        pairs = [pair.lstrip(b"0") or b"0" for pair in pairs] if rng.random() < 0.2 else pairs
        front = pick(rng, b"0x", b"0X", b" 0x", b"(byte)0x", b"0x0", often=0.85)
        end = pick(rng, b"", b"u8", b"U", often=0.93)
        joined = rng.choice([b", ", b",", b",\n  ", b" ", b"\n"]).join(front + pair + end for pair in pairs)
        text = pick(rng, b"", b"unsigned char a[] = {\n  ", b"let a: [u8; 3] = [", b"{", b"x0 = ", b"0x1234: ") + joined
        text += pick(rng, b"", b"\n};\nunsigned int a_len = 5;\n", b"];", b"}", b" // 0x5\n")
    else:
        joined = b"".join(b"\\x" + pair for pair in pairs)
        if rng.random() < 0.3:
            joined = b'"\n  "'.join(joined[at : at + 40] for at in range(0, len(joined), 40))
        text = pick(rng, b'"', b"", b"b'", b"a = \"", b"a") + joined + pick(rng, b'"', b"", b'";\n', b"'", b"a")
    return text.upper() if rng.random() < 0.1 else text


def numbers(rng, octets):
    """Returns a list of decimal numbers, signed or unsigned."""
    is_signed = rng.random() < 0.3
    texts = [b"%d" % (it - 256 if is_signed and it > 127 else it) for it in octets]
    if rng.random() < 0.05 and texts:
        texts[rng.randrange(len(texts))] = rng.choice(ODD_NUMBERS)
    joined = rng.choice([b", ", b",", b",\n  ", b" , "]).join(texts) + pick(rng, b"", b",", b" ", b",\n", b" ,", often=0.8)
    opening, closing = rng.choice([(b"[", b"]"), (b"{", b"}"), (b"[ ", b" ]"), (b"{\n", b"\n}\n")])
    if rng.random() < 0.03:
        closing = rng.choice([b"", b"}", b")", b"]]"])
    front = pick(rng, b"", *BEFORE_LISTS, often=0.5)
    return front + opening + joined + closing + pick(rng, b"", b"}", b";\n", b" [1]", b" [2", b"// x\n", often=0.6)


def runs(rng, octets, others=()):
    """Returns base64 inside another text: LDIF, mail, XML, JSON or YAML."""
    texts = [base64.b64encode(it) for it in (octets, *others)]
    kind = rng.randrange(6)
    if kind == 0:
        lines = [b"userCertificate;binary:: " + re.sub(b"(.{76})", rb"\1\n ", text) + b"\n" for text in texts]
        return b"dn: cn=x,dc=example\nobjectClass: person\n" + b"".join(lines) + pick(rng, b"", b"cn: foo\n", b"\n")
    if kind == 1:
        return b"Content-Transfer-Encoding: base64\n\n" + b"\n--x\n\n".join(in_lines(rng, text) for text in texts) + b"\n"
    if kind == 2:
        lines = [b"<b>" + pick(rng, text, in_lines(rng, text)) + b"</b>\n" for text in texts]
        if rng.random() < 0.2:
            end = rng.choice([b"&#13;\n", b"&#xD;\n"])
            lines = [line.replace(b"\n", end) for line in lines]
        return b"<a>\n" + b"".join(lines) + b"</a>\n"
    if kind == 3:
        return b'{"kid": "' + b"a" * rng.choice([5, 39, 40, 43]) + b'", "x5c": ["' + b'", "'.join(texts) + b'"]}\n'
    if kind == 4:
        lines = [b"  tls.crt: " + text + b"\n" for text in texts]
        return b"data:\n" + b"".join(lines) + pick(rng, b"", b"kind: Secret\n", b"  tls.key: AAAA\n")
    end = pick(rng, b".", b"=", b"===", b" x", b"-", b")", b"`")
    return rng.choice([b" ", b"#", b"\n\n", b":", b"-"]).join(texts) + end


def several(rng, octets, others):
    """Returns a text of a random form. `others` are further octets, for forms with several blocks."""
    choice = rng.random()
    if choice < 0.24:
        return pem(rng, octets, others)
    if choice < 0.5:
        return text_dump_drawing.dump(rng, octets)
    if choice < 0.64:
        return hexadecimal(rng, octets)
    if choice < 0.72:
        return numbers(rng, octets)
    if choice < 0.84:
        return base64_text(rng, octets)
    if choice < 0.96:
        return runs(rng, octets, others)
    return rng.choice(PROSE)


def damaged(rng, text):
    """Returns a text with a small change."""
    for _ in range(rng.choice([1, 1, 1, 2])):
        place, how = rng.randrange(len(text) + 1), rng.randrange(9)
        lines = text.splitlines(True)
        line = rng.randrange(len(lines)) if lines else 0
        if how == 0:
            text = text[:place] + rng.choice(INSERTED) + text[place + 1 :]
        elif how == 1:
            text = text[:place] + rng.choice(INSERTED) + text[place:]
        elif how == 2:
            text = text[:place] + text[place + rng.choice([1, 1, 2, 9]) :]
        elif how == 3:
            text = rng.choice([text[:place], text[:place], text[place:]])
        elif how == 4:
            text = b"".join(lines[:line] + lines[line + 1 :])
        elif how == 5:
            text = b"".join(lines[:line] + lines[line : line + 1] * 2 + lines[line + 1 :])
        elif how == 6:
            text = text.replace(b"\n", rng.choice([b"\r\n", b"", b" ", b"\r", b"\n\n"]))
        elif how == 7:
            text = text.swapcase()
        else:
            text = text + rng.choice([b"\n", b"=", b" ", text, b"\x1a", b"end\n"])
    return text


def text(rng, draw):
    """Returns a text of encodings, which `draw` makes. Rarely it is in base64 again, or begins with a byte order mark.
    """
    others = [draw() for _ in range(rng.choice([0, 0, 0, 1, 1, 2]))]
    drawn = several(rng, draw(), others)
    if rng.random() < 0.3:
        drawn = damaged(rng, drawn)
    while rng.random() < 0.12 and len(drawn) < 4000:
        drawn = base64_text(rng, drawn) if rng.random() < 0.7 else runs(rng, drawn, others)
    choice = rng.random()
    if choice < 0.05:
        drawn = MARKS[0] + drawn
    elif choice < 0.1:
        drawn = drawn.decode("latin-1").encode(rng.choice(["utf-16", "utf-16-le", "utf-16-be"]))
        drawn = pick(rng, b"", MARKS[1], MARKS[2], often=0.6) + drawn
        drawn = drawn if rng.random() < 0.9 else damaged(rng, drawn)
    return drawn


def form(rng):
    """Returns a value of --as, mostly one that is known."""
    return rng.choice(FORMS) if rng.random() < 0.95 else rng.choice(["", "PEM", "text", "base-64", "hex ", "xxd"])

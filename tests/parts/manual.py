"""Tests the manual and the pages that it is made of, docs/USE.md and man/others.md: they have what the programs have, their
recipes and commands work as written, and the manual has all of it and renders without warnings.
"""
import base64
import os
import re
import shutil
import subprocess

from parts.completions import FORMS, show_options, words_of
from parts.install import SHOW, install
from parts.show_made import command, element
from second_opinion.opened import Strings

NULL = b"\x05\x00"
# The inputs of the commands of other programs: files that tests/make-data makes, and the offset of an element in each.
DATA = {"certificate.der": 4, "signed.ber": 20, "keys.p12": 4, "revoked.der": 4, "snmp.ber": 13, "ldap.ber": 7, "tap.ber": 58}
# The codes, as the programs write them.
FAULT_CODES = [f"F{number:02}" for number in range(1, 13)]
MESSAGES = [*(f"E{number}" for number in (1, 2, 3, 4, 5, 7, 8)), *(f"N{number}" for number in range(1, 7))]
MESSAGES += [f"{letter}{number}" for letter in "UX" for number in (1, 2, 3, 4)]
FINDINGS = [f"B{number:02}" for number in range(1, 31)] + [f"S{number:02}" for number in range(1, 7)]
FINDINGS += ["D01", "D02"] + [f"C{number:02}" for number in range(1, 7)]
# An input for each fault, F01 first, in hexadecimal. The last is read with --inside 0.
FAULTS = ["", "30", "00", "3080 0001", "3002 3080 05", "1f" + "81" * 9, "04ff", "0480", "048601", "3080" * 129, "3003 020201"]
FAULTS += ["030201"]


def read_page(part, *names):
    with open(os.path.join(part.root, *names), encoding="utf-8") as file:
        return file.read()


def section_of(text, title):
    """Returns the section of a page with this title, with what is below it."""
    marks = title.split(" ")[0]
    return re.split(rf"^#{{1,{len(marks)}}} ", text.split(f"\n{title}\n")[1], flags=re.M)[0]


def rows_of(text):
    """Returns the cells of the rows of the tables in a text, without their heads."""
    lines = [line for line in re.sub(r"^\|.*\n\|--.*\n", "", text, flags=re.M).splitlines() if line.startswith("|")]
    return [[cell.strip().replace("\\|", "|") for cell in re.split(r"(?<!\\)\|", line)[1:-1]] for line in lines]


def blocks_of(text, language="sh"):
    """Returns the blocks of code in this language."""
    return [code for name, code in re.findall(r"^```(\w*)\n(.*?)^```$", text, re.M | re.S) if name == language]


def rendered(page):
    """Returns the manual as it is shown in long lines, with single blanks."""
    words = ["groff", "-man", "-Tascii", "-P-cbou", "-rLL=2000n", page]
    text = subprocess.run(words, capture_output=True, text=True).stdout
    return [" ".join(line.split()) for line in text.splitlines()]


def check_rendering(part, page, texts):
    """packaging/make-manual makes the manual. The tools that know its form report nothing. It shows each command of the pages."""
    got = subprocess.run([os.path.join(part.root, "packaging", "make-manual"), "--check"], capture_output=True, text=True)
    part.expect("man/tlvdump.1 is as packaging/make-manual makes it", got.returncode == 0, got.stderr)
    tools = [["mandoc", "-T", "lint", "-W", "warning"], ["groff", "-ww", "-man", "-Tascii", "-z"]]
    for tool in tools:
        if not part.has(tool[0]):
            continue
        got = subprocess.run([*tool, page], capture_output=True, text=True)
        # mandoc also reports pages that the machine lacks. That is no fault of this page.
        reported = [line for line in (got.stdout + got.stderr).splitlines() if "mandoc.db" not in line]
        part.expect(" ".join(tool), got.returncode == 0 and not reported, *reported)
    if not part.has("groff"):
        return
    lines = rendered(page)
    shown = "\n".join(lines)
    for text in texts:
        for line in "".join(blocks_of(text) + blocks_of(text, "")).splitlines():
            part.expect(f"the manual shows {line}", not line or " ".join(line.split()) in lines)
        spans = re.findall(r"`([^`]+)`", re.sub(r"^```.*?^```$", "", text, flags=re.M | re.S).replace("\\|", "|"))
        missing = [span for span in spans if " ".join(span.split()) not in shown]
        part.expect("the manual shows what the pages quote", not missing, *missing)
    codes = {line.split()[0] for line in lines if re.match(r"[BSCDF]\d\d ", line)}
    part.expect("the codes of the manual", codes == {*FINDINGS, *FAULT_CODES}, *sorted(codes ^ {*FINDINGS, *FAULT_CODES}))


def synopsis(part, text):
    """The synopsis has the commands and options of the programs' help, and the tables have each option with its commands."""
    [block] = blocks_of(section_of(text, "## Synopsis"), "")
    wanted = {name: options - {"--help"} for name, options in words_of(part).items()}
    of_show = show_options(part) - {"--help", "--version"}
    stated = {}
    for words in map(str.split, re.sub(r"\n +", " ", block).splitlines()):
        if words:
            name = words[1] if words[0] == "tlvdump" else words[0]
            stated.setdefault(name, set()).update(word.strip("[]") for word in words if word.strip("[]").startswith("--"))
    part.expect("the synopsis", stated == {**wanted, "tlvdump-show": of_show}, str(stated))
    section = section_of(text, "## tlvdump")
    commands, options = {}, {name: set() for name in wanted}
    for first, *others in rows_of(section):
        if len(others) == 1:
            commands[first.strip("`")] = others[0]
        else:
            for name in wanted if others[0] == "all" else re.findall(r"`(\w+)`", others[0]):
                options[name] |= set(re.findall(r"`(--[a-z-]+)", first))
    part.expect("the table of commands", set(commands) == set(wanted), *commands)
    part.expect("the table of options", options == wanted, str(options))
    rows = [row[0] for row in rows_of(section_of(text, "## tlvdump-show"))]
    listed = {option for row in rows for option in re.findall(r"`(--[a-z-]+)", row)}
    part.expect("the options of tlvdump-show", listed == of_show, *sorted(listed ^ of_show))
    forms = {row.strip("`") for row in rows if not row.startswith("`--")}
    part.expect("the forms", forms == FORMS - {"octets", "ber", "der", "cer"}, *sorted(forms))
    missing = [form for form in FORMS if f"`{form}`" not in section_of(text, "## tlvdump-show")]
    part.expect("the values of --as", not missing, *missing)


def complete(part, text):
    """The page has each status and code, and the texts of the faults that the program writes."""
    statuses = [row[0] for row in rows_of(section_of(text, "## Exit status"))]
    part.expect("the statuses", statuses == [*"012345", "127"], *statuses)
    messages = rows_of(section_of(text, "## Messages"))
    codes = {code for row in messages for code in re.findall(r"`(?:taken for [^`]*; )?([ENUX]\d) ", row[1])}
    part.expect("the codes of messages", codes == set(MESSAGES), *sorted(codes ^ set(MESSAGES)))
    part.expect("the statuses of messages", {row[0] for row in messages} == {*"12345", "127"})
    stated = [(row[0], row[1].strip("`")) for row in rows_of(section_of(text, "## Faults"))]
    inputs = [bytes.fromhex(octets) for octets in FAULTS]
    said = [part.run(["check", *["--inside", "0"] * (at == 11)], octets).err.decode() for at, octets in enumerate(inputs)]
    written = [tuple(message.rstrip("\n").split(": ", 1)[-1].split(" ", 1)) for message in said]
    part.expect("the faults", stated == written, *map(str, zip(stated, written)))


def recipes_of(text):
    return blocks_of(section_of(text, "## Recipes"))


def indefinite(octets):
    """Returns these elements with all constructed lengths in the indefinite form."""
    made, place = b"", 0
    while place < len(octets):
        tag, length, start = octets[place], octets[place + 1], place + 2
        if length > 0x80:
            start += length & 0x7F
            length = int.from_bytes(octets[place + 2 : start], "big")
        contents = octets[start : start + length]
        made += bytes([tag, 0x80]) + indefinite(contents) + b"\0\0" if tag & 0x20 else octets[place : start + length]
        place = start + length
    return made


def read(part, name):
    with open(part.path(name), "rb") as file:
        return file.read()


def make_files(part):
    """Writes the files that the recipes use."""
    command(part, "openssl req -x509 -newkey rsa:2048 -nodes -keyout key.pem -out cert.pem -days 9 -subj /C=DE/CN=x"
                  " -addext keyUsage=critical,digitalSignature -addext subjectAltName=DNS:x.example")
    command(part, "openssl x509 -in cert.pem -outform DER -out cert.der")
    command(part, "openssl pkcs12 -export -in cert.pem -inkey key.pem -passout pass:x -out file.p12")
    record = element(0x30, b"\x02\x01\x05\x02\x01\x06")
    shutil.copy(os.path.join(part.root, "tests", "data", "signed.ber"), part.folder)
    part.write("cert.ber", indefinite(read(part, "cert.der")))
    part.write("damaged.ber", element(0x30, b"\x02\x01\x01" + NULL) + b"\x30\x03\x02\x02\x01" + record)
    part.write("calls.ber", (record + b"\0" * 8) * 3)
    part.write("long.ber", record * 300_000)
    part.write("old.der", element(0x30, b"\x02\x01\x05" + NULL))
    part.write("new.der", element(0x30, b"\x02\x01\x06" + NULL))
    os.mkdir(part.path("certs"))
    part.write("certs/a.der", b"\x30\x03\x02\x02\x01")
    part.write("certs/b.der", record)
    part.write("certs/c.der", element(0x30, b"\x04\x81\x01\x07" + b"\x01\x01\x01"))
    return record


def dump_of(part, octets, *words):
    return part.run(["dump", *words], octets).out


def shown_of(part, octets, *words):
    return part.run(list(words), octets, program=part.path(f"there/{SHOW}")).out


# The first lines of --why for the file with a damaged length.
WHY = """\
It does not parse: fault at 10: F11 element runs past the enclosing length.
If the header at offset 9 said 1 octet and not 2, or that at offset 7 said 4 octets and not 3, all would parse.
The octet at offset 10 completes the header of the INTEGER at offset 9. The header at offset 9, 02 02, says that its contents are 2 octets.
It would end at offset 13, but the SEQUENCE at offset 7 ends at offset 12. Missing there: 1 octet. \
The header at offset 7, 30 03, says that its contents are 3 octets.
"""


class Server:
    """A server with the certificate of the recipes. It reports the port on which it listens."""

    def __init__(self, part):
        line = "openssl s_server -accept 127.0.0.1:0 -cert cert.pem -key key.pem"
        how = {"cwd": part.folder, "stdin": subprocess.PIPE, "stdout": subprocess.PIPE, "stderr": subprocess.DEVNULL}
        self.child = subprocess.Popen(line.split(), **how)

    def __enter__(self):
        for line in self.child.stdout:
            if line.startswith(b"ACCEPT "):
                return "127.0.0.1:" + line.decode().strip().rsplit(":", 1)[1]
        return "127.0.0.1:0"

    def __exit__(self, *_):
        self.child.kill()
        self.child.communicate()


def wanted_of(part, record):
    """Returns the expected results of the recipes, in their order: the status, the output (of --why its beginning), and
    the file that is written.
    """
    cert, p12 = read(part, "cert.der"), read(part, "file.p12")
    data = p12[30 : 30 + int.from_bytes(p12[28:30], "big")]
    inside = ",".join(map(str, Strings(cert).opened))
    names = part.path("there/share/tlvdump/names.txt")
    shown = shown_of(part, cert)
    part.expect("strings that are opened", shown.count(b" wraps {") == inside.count(",") + 1)
    lines = b"".join(b"line %03d of the content\n" % number for number in range(210))
    long = ("long.txt", dump_of(part, record * 300_000))
    fault = b"certs/a.der: fault at 3: F11 element runs past the enclosing length\n"
    checked = b"# block 1 of 3: certs/a.der\n# block 2 of 3: certs/b.der\n# block 3 of 3: certs/c.der\n"
    checked += b"2 S01 length is not the shortest\n6 S02 TRUE is not ff\n"
    return [
        (0, shown * 5, None),
        (2, checked, None),
        (2, WHY.encode(), None),
        (0, shown, None),
        (0, b"", ("octets.der", cert)),
        (0, dump_of(part, cert) * 2, None),
        (0, dump_of(part, cert, "--names", names, "--limit", "2"), None),
        (0, dump_of(part, cert, "--inside", inside), None),
        (0, dump_of(part, data[: 4 + int.from_bytes(data[2:4], "big")]), None),
        (0, dump_of(part, data) + dump_of(part, p12, "--inside", "26"), None),
        (0, b"", ("joined", lines)),
        (0, dump_of(part, record), None),
        (0, dump_of(part, record), None),
        (0, dump_of(part, (record + b"\0" * 8) * 3, "--padding"), ("record.ber", record)),
        (0, b"", long),
        (1, b"2c2\n<   INTEGER 5\n---\n>   INTEGER 6\n", ("old.txt", b"SEQUENCE {\n  INTEGER 5\n  NULL\n}\n")),
        (0, b"", ("der.ber", indefinite(cert))),
        (0, fault, None),
        (0, b"certs/c.der: 2 S01 length is not the shortest\n", None),
    ]


def recipes(part, text):
    if not part.has("openssl"):
        return
    record = make_files(part)
    blocks, wanted = recipes_of(text), wanted_of(part, record)
    part.expect("each recipe has its test", len(blocks) == len(wanted), f"{len(blocks)} recipes, {len(wanted)} tests")
    env = {"PATH": part.path("there/bin") + ":" + os.environ["PATH"], "NAMES": part.path("there/share/tlvdump/names.txt")}
    for block, (status, out, held) in zip(blocks, wanted):
        if "\npv " in block and not part.has("pv"):
            block = block.split("pv ")[0]
        how = {"cwd": part.folder, "env": env, "stdin": subprocess.DEVNULL, "capture_output": True, "timeout": 120}
        if "$SERVER" in block:
            with Server(part) as env["SERVER"]:
                got = subprocess.run(["sh", "-c", block], **how)
        else:
            got = subprocess.run(["sh", "-c", block], **how)
        written = got.stdout[: len(out)] if "--why" in block else got.stdout
        fine = (got.returncode, written) == (status, out)
        part.expect(block.strip(), fine, f"status {got.returncode}", str(got.stdout[:300]), str(got.stderr[:300]))
        if held:
            part.expect(f"{held[0]} of {block.strip()}", read(part, held[0]) == held[1])
    before = part.run(["dump", "damaged.ber"])
    part.expect("the damage that the manual has", before.status == 2 and before.err.startswith(b"fault at 10: F11"))
    name = b"OBJECT IDENTIFIER 2.5.4.3 (commonName)"
    part.expect("the names that the manual has", name in wanted[6][1])


def in_shell(part, script):
    env = {"PATH": part.path("there/bin") + ":" + os.environ["PATH"]}
    how = {"cwd": part.folder, "env": env, "stdin": subprocess.DEVNULL, "capture_output": True, "timeout": 120}
    return subprocess.run(["sh", "-c", script], **how)


def replace_names(line, **values):
    return re.sub(r"\b(F|N|M|HEX)\b", lambda it: values[it[0]], line)


def replacements(part, text):
    """Runs the commands that replace options of other programs, with the values of F, N, M and HEX."""
    section = section_of(text, "## Options of other programs")
    commands = [span for row in rows_of(section) for span in re.findall(r"`([^`]*)`", row[-1])]
    commands += re.findall(r"`(tlvdump[^`]*)`", re.sub(r"^\|.*\n", "", section, flags=re.M).replace("\n", " "))
    commands = [line for line in commands if line.startswith(("tlvdump", "tail", "head", "echo", "xxd"))]
    part.expect("commands in place of options", len(commands) >= 14, *commands)
    part.write("octets", element(4, NULL))
    part.write("bits", element(3, b"\0" + NULL))
    part.write("plain", NULL)
    part.write("text", element(4, b"abc"))
    part.write("nested", element(0x30, element(0x30, NULL)))
    null = b"       0      0: NULL\n"
    # The expected output of those that do not show a NULL: the file, N and M, and the output.
    special = {
        "tlvdump-show --no-text F": ("octets", "0", "1", dump_of(part, element(4, NULL), "--inside", "0")),
        "tlvdump-show --closed F": ("text", "0", "1", b"       0      3: OCTET STRING 61 62 63  |abc|\n"),
        "tlvdump dump --limit 0 F | grep '[{}]$'": ("nested", "0", "1", dump_of(part, element(0x30, element(0x30, NULL))).replace(
            b"       4      0:     NULL\n", b"")),
        "xxd -s N -l 16 F": ("plain", "0", "1", b"00000000: 0500" + b" " * 37 + b"..\n"),
        r"tlvdump dump F | grep -v '^.\{17\} \{M\}'": ("nested", "1", "2", b"       0      4: SEQUENCE {\n                 }\n"),
        "tlvdump dump F | cut -c -N": ("plain", "21", "1", null),
    }
    part.expect("the special ones are there", set(special) <= set(commands), *sorted(set(special) - set(commands)))
    for line in commands:
        if "xxd" in line and not part.has("xxd"):
            continue
        inner = "--contents" in line
        file = "bits" if "tail -c +2" in line else "octets" if inner else "plain"
        plain = (file, "2" if line.startswith("head") else "0", "1", b"" if ">" in line else null)
        file, number, more, wanted = special.get(line, plain)
        script = replace_names(line, F=file, N=number, M=more, HEX="0500")
        got = in_shell(part, script)
        part.expect(line, (got.returncode, got.stdout, got.stderr) == (0, wanted, b""), script, str(got))
    part.expect("what extract wrote", read(part, "out") == NULL)


def by_task(part, octets, offset):
    """Returns the output of the command of this program for each task, in the order of the tasks."""
    shown, short = shown_of(part, octets), dump_of(part, octets, "--limit", "0")
    cut = part.run(["extract", "--offset", str(offset)], octets).out
    outline = b"".join(line for line in short.splitlines(True) if line.endswith((b"{\n", b"}\n")))
    plain = dump_of(part, octets)
    example = b"       0      3: SEQUENCE {\n       2      1:   INTEGER 5\n                 }\n"
    violated = part.run(["check"], octets).out
    return [shown, plain, plain, dump_of(part, octets, "--pure"), dump_of(part, octets, "--limit", "2"), outline, b"", violated,
            dump_of(part, cut), b"", shown, example], cut


def made(part):
    """tests/make-data makes the files of tests/data. Those made without openssl are the same octet by octet."""
    if not part.has("openssl"):
        return
    folder, kept = part.path("made"), os.path.join(part.root, "tests", "data")
    got = subprocess.run([os.path.join(part.root, "tests", "make-data"), folder], capture_output=True, timeout=120)
    names = sorted(os.listdir(kept))
    part.expect("make-data", got.returncode == 0 and sorted(os.listdir(folder)) == names == sorted(DATA), str(got))
    for name in ("snmp.ber", "ldap.ber", "tap.ber"):
        with open(os.path.join(kept, name), "rb") as file:
            part.expect(f"make-data: {name}", file.read() == read(part, f"made/{name}"))
    for name in names:
        got = part.run(["dump", f"made/{name}"])
        part.expect(f"made: {name}", got.status == 0 and got.out, *got.lines())
    part.expect("the indefinite lengths", part.run(["check", "made/signed.ber"]).out.count(b" D01 ") >= 6)


def coming(part, text):
    """Runs for each task the commands of other programs that are
    installed, and the one of this program, on each kind of input.
    """
    [tasks] = blocks_of(text)
    blocks = [task.splitlines()[1:] for task in tasks.split("\n\n")]
    part.expect("each task says what it does", all(task.startswith("# ") for task in tasks.split("\n\n")), tasks)
    there = [tool for tool in ("openssl", "dumpasn1", "unber") if part.has(tool)]
    for name, offset in DATA.items():
        with open(os.path.join(part.root, "tests", "data", name), "rb") as file:
            octets = file.read()
        part.write("F", octets)
        part.write("F.pem", b"-----BEGIN CMS-----\n" + base64.encodebytes(octets) + b"-----END CMS-----\n")
        wanted, cut = by_task(part, octets, offset)
        part.expect(f"{name}: tasks", len(blocks) == len(wanted), f"{len(blocks)} tasks, {len(wanted)} tests")
        for block, out in zip(blocks, wanted):
            for line in block:
                script = re.sub(r"\bN\b", str(offset), line)
                tool = re.search(r"\b(dumpasn1|openssl|unber|tlvdump)\b", line)[1]
                if tool != "tlvdump" and tool not in there:
                    continue
                got = in_shell(part, script)
                # The status of dumpasn1 counts errors. It takes a file of telephony records for base64.
                fine = got.returncode == 0 or tool == "dumpasn1"
                if tool == "tlvdump":
                    # A check with findings, and a grep that finds nothing, end with status 1.
                    fine = got.stdout == out and got.returncode == (1 if "check" in line and out else 0)
                part.expect(f"{name}: {line}", fine, f"status {got.returncode}", str(got.stdout[:200]), str(got.stderr[:200]))
                if line.endswith("> out"):
                    part.expect(f"{name}: the element", read(part, "out") == cut)


def remarks(part, text):
    """Checks remarks on the page."""
    got = part.run(["dump", "--version"])
    part.expect("dump --version is refused", got.status == 4 and "`--version`, without a command" in text)
    part.write("many", NULL * 200_000)
    got = in_shell(part, "tlvdump dump many | head -n 2")
    fine = (got.stdout, got.stderr) == (b"       0      0: NULL\n       2      0: NULL\n", b"E2 write failed\n")
    part.expect("a write that fails before head has all", fine, str(got))
    part.write(b"caf\xe9".decode("utf-8", "surrogateescape"), NULL)
    got = in_shell(part, b"tlvdump dump caf\xe9")
    part.expect("a name that is not UTF-8", (got.returncode, got.stderr) == (4, b"U1 an argument is not UTF-8\n"), str(got))
    got = in_shell(part, b"tlvdump dump < caf\xe9")
    part.expect("it as standard input", (got.returncode, got.stdout) == (0, b"       0      0: NULL\n"), str(got))
    # Two inputs that indef writes differently, though dump --pure shows them alike.
    padded, plain = element(0x30, b"\x04\x81\x01\x07"), element(0x30, b"\x04\x01\x07")
    unlike = part.run(["indef"], padded).out != part.run(["indef"], plain).out
    part.expect("padded lengths of primitives", unlike and dump_of(part, padded, "--pure") == dump_of(part, plain, "--pure"))


def test(part):
    use, others = read_page(part, "docs", "USE.md"), read_page(part, "man", "others.md")
    check_rendering(part, os.path.join(part.root, "man", "tlvdump.1"), (use, others))
    synopsis(part, use)
    complete(part, use)
    install(part, "there")
    recipes(part, use)
    replacements(part, others)
    made(part)
    coming(part, others)
    remarks(part, use)

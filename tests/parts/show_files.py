"""Tests tlvdump-show on octets: its words, several FILEs, names files, and what cannot be opened, read or written."""
import os
import pty
import resource
import shutil
import signal
import subprocess

from parts.files import as_another_user
from parts.harness import Done
from parts.show_program import Program
from second_opinion.running import put

NULL = b"\x05\x00"
NULL_LINE = b"       0      0: NULL\n"
# keyUsage in a string, and a string in which a length is one too many.
SOUND, BROKEN = bytes.fromhex("300b0603551d0f04040302 05a0"), bytes.fromhex("300b0603551d0f0404030305a0")
NAMED = "OBJECT IDENTIFIER 2.5.29.15 (keyUsage)"
LINES = (
    "       0     11: SEQUENCE {\n"
    f"       2      3:   {NAMED}\n"
    "       7      4:   OCTET STRING wraps {\n"
    "       9      2:     BIT STRING 3 bits 101\n"
    "                   }\n"
    "                 }\n"
).encode()
CLOSED = (
    "       0     11: SEQUENCE {\n"
    f"       2      3:   {NAMED}\n"
    "       7      4:   OCTET STRING 03 02 05 a0\n"
    "                 }\n"
).encode()
BREAKS = "string at 7 is the value of an extension and breaks at 10: F11 element runs past the enclosing length"
READ, WRITE, OPEN = "E1 read failed", "E2 write failed", "E5 cannot open the file: no such file"
NO_NAMES = "no names file was found: object identifiers have no names"

REFUSED = [
    "--nonsense", "-x", "-h", "--rules", "--limit", "--names", "--offset", "--rules ber --rules ber", "--pure --pure",
    "--closed --closed", "--no-text --no-text", "--padding --padding", "--closed=1", "--check --check", "--offsets --offsets",
    "--offset 0 --offset 0", "--limits 1", "--inside 0", "--limit -1", "--as", "--as ber --as ber", "--raw --raw", "--raw=1",
    "--why --why", "--why=1",
]
# Options that exclude each other.
ALONE = [
    ("--check --limit 1", "not with --check: --limit"), ("--pure --check", "not with --check: --pure"),
    ("--check --names n", "not with --check: --names"), ("--check --no-text", "not with --check: --no-text"),
    ("--check --offset 0", "not with --check: --offset"), ("--offsets --check", "not with --check: --offsets"),
    ("--contents", "only with --offset: --contents"), ("--check --contents", "only with --offset: --contents"),
    ("--offsets --contents", "only with --offset: --contents"), ("--offsets --rules ber", "not with --offsets: --rules"),
    ("--offsets --closed", "not with --offsets: --closed"), ("--offsets --limit 1", "not with --offsets: --limit"),
    ("--offsets --offset 0", "not with --offset: --offsets"), ("--offsets a b", "one FILE with --offsets"),
    ("--offset 0 --rules ber", "not with --offset: --rules"), ("--offset 0 --closed", "not with --offset: --closed"),
    ("--offset 0 --pure", "not with --offset: --pure"), ("--offset 0 --no-text", "not with --offset: --no-text"),
    ("--offset 0 --limit 1", "not with --offset: --limit"), ("--offset 0 --names n", "not with --offset: --names"),
    ("--offset 0 a b", "one FILE with --offset"),
    ("--check --raw", "not with --check: --raw"), ("--raw --offset 0", "not with --offset: --raw"),
    ("--raw --offsets", "not with --offsets: --raw"), ("--raw --contents", "only with --offset: --contents"),
    ("--check --why", "not with --check: --why"), ("--why --offset 0", "not with --offset: --why"),
    ("--why --offsets", "not with --offsets: --why"), ("--why --raw", "not with --raw: --why"),
    ("--why --contents", "only with --offset: --contents"), ("--raw --closed", "not with --raw: --closed"),
]
ALONE += [(f"{job} {words}", f"not with {job}: {words.split()[0]}") for job in ("--raw", "--why")
          for words in ("--rules ber", "--limit 1", "--pure", "--names n", "--no-text")]
ALONE += [(f"--offsets {words}", f"not with --offsets: {words.split()[0]}") for words in ("--pure", "--names n", "--no-text")]
RULES, LIMIT, OFFSET = "--rules (ber, der or cer)", "--limit (0 to 4294967295)", "--offset (0 to 1099511627776)"
FORM = "--as (octets, pem, dump, hex, numbers, base64 or runs)"
NO_NUMBERS = ("", "x", "+5", "-5", " 5", "5.0", "0x10", "00000000000005")
VALUES = [(RULES, [f"--rules={text}"]) for text in ("", "xer", "DER", "der ", "b")]
VALUES += [(RULES, ["--check", "--rules", "xer"]), (RULES, ["--limit", "x", "--rules", "xer"])]
VALUES += [(LIMIT, [f"--limit={text}"]) for text in (*NO_NUMBERS, "4294967296")]
VALUES += [(OFFSET, [f"--offset={text}"]) for text in (*NO_NUMBERS, "1099511627777")]
VALUES += [(LIMIT, ["--limit", "x", "--names", "missing", "missing"]), (RULES, ["--rules", "x", "missing"])]
VALUES += [(FORM, [*job, f"--as={text}"]) for text in ("", "xml", "DER", "ber ", "octet") for job in ([], ["--raw"], ["--why"])]
VALUES += [(LIMIT, ["--as", "x", "--limit", "x"]), (OFFSET, ["--as", "x", "--offset", "x"]), (FORM, ["--as", "x", "missing"])]


def words(part, program):
    """Words that are accepted, and words that are refused."""
    for text in REFUSED:
        program.refuses(text.split(), NULL)
    for text, said in ALONE:
        program.gives(text.split(), NULL, 4, err=f"U4 {said}")
    for option, given in VALUES:
        program.gives(given, NULL, 4, err=f"U2 value out of range: {option}")
    program.gives([b"\xff"], NULL, 4, err="U1 an argument is not UTF-8", what="a word that is not UTF-8")
    version = program.run(["--version"])
    of_tlvdump = part.run(["--version"]).out.replace(b"tlvdump ", b"tlvdump-show ")
    part.same("--version", version, Done(0, of_tlvdump, b""))
    shown = program.run(["--help"])
    with open(os.path.join(part.root, "tests", "help", "tlvdump-show.txt"), "rb") as file:
        part.same("--help is tests/help/tlvdump-show.txt", shown, Done(0, file.read(), b""))
    part.write("-x", SOUND)
    for given in (["--", "-x"], ["./-x"], ["--limit", "4294967295", "--", "-x"], ["--rules=der", "--", "-x"]):
        program.gives(given, b"", 0, LINES)
    program.gives(["--closed"], SOUND, 0, CLOSED)
    program.gives(["-"], SOUND, 0, LINES)
    program.gives([], SOUND, 0, LINES)
    program.gives(["--offset", "9"], SOUND, 0, SOUND[9:])
    program.gives(["--offset=9", "--contents"], SOUND, 0, SOUND[11:])
    program.gives(["--offset", "8"], SOUND, 1, err="E4 no element at offset 8")
    program.gives(["--offset", "8", "./-x"], b"", 1, err="./-x: E4 no element at offset 8")
    cut = b"\x30\x03\x05\x00"
    program.gives(["--offset", "0"], cut, 2, cut, program.with_reasons("fault at 4: F02 input ends inside an encoding", cut))


def several(part, program):
    """Several FILEs: a title before each, messages with names, and the highest status."""
    for name, octets in (("sound", SOUND), ("broken", BROKEN), ("cut", SOUND[:-1]), ("null", NULL)):
        part.write(name, octets)
    program.gives(["sound"], b"", 0, LINES)
    broken = program.with_reasons(f"broken: {BREAKS}", BROKEN)
    program.gives(["broken", "--check"], b"", 1, err=broken)
    two = b"# block 1 of 2: null\n" + NULL_LINE + b"# block 2 of 2: sound\n" + LINES
    program.gives(["null", "sound"], b"", 0, two)
    program.gives(["null", "--padding", "sound"], b"", 0, two)
    again = b"# block 1 of 2: null\n" + NULL_LINE + b"# block 2 of 2: null\n" + NULL_LINE
    program.gives(["null", "null"], b"", 0, again)
    checked = b"# block 1 of 3: null\n# block 2 of 3: broken\n# block 3 of 3: cut\n"
    cut = program.with_reasons("cut: fault at 12: F02 input ends inside an encoding", SOUND[:-1])
    program.gives(["--check", "null", "broken", "cut"], b"", 2, checked, f"{broken}\n{cut}")
    program.gives(["--check", "cut", "broken", "null"], b"", 2, b"# block 1 of 3: cut\n# block 2 of 3: broken\n"
                  b"# block 3 of 3: null\n", f"{cut}\n{broken}")
    found = b"# block 1 of 2: found\n0 B08 integer is padded\n# block 2 of 2: null\n"
    part.write("found", b"\x02\x02\x00\x05")
    program.gives(["--check", "found", "null"], b"", 1, found, "found: findings: 1")
    standard = b"# block 1 of 2: standard input\n" + NULL_LINE + b"# block 2 of 2: sound\n" + LINES
    program.gives(["-", "sound"], NULL, 0, standard)
    program.gives(["--check", "-", "sound"], b"\x02\x02\x00\x05", 1, b"# block 1 of 2: standard input\n0 B08 integer is padded\n"
                  b"# block 2 of 2: sound\n", "findings: 1")
    missing = b"# block 1 of 2: missing\n# block 2 of 2: null\n" + NULL_LINE
    program.gives(["missing", "null"], b"", 3, missing, f"missing: {OPEN}")
    odd = "\u00e9\x1b[0m\n"
    part.write(odd, BROKEN)
    shown = "???[0m?"
    said = program.with_reasons(f"{shown}: {BREAKS}", BROKEN)
    program.gives(["--check", odd], b"", 1, err=said, what="a name that is not printable")
    blocks = f"# block 1 of 2: {shown}\n# block 2 of 2: null\n".encode()
    program.gives(["--check", odd, "null"], b"", 1, blocks, said, what="it, and another file")


def long_lines(part, program):
    """Names with which the lines of a block are about as long as their room, 512 octets, or much longer."""
    part.write("hex", NULL.hex().encode())
    part.write("\u00e9", NULL.hex().encode())
    for name, shown in (("hex", "hex"), ("\u00e9", "??")):
        for count in (*range(236, 260), 500, 1900):
            before = "./" * count
            titles = f"# block 1 of 2: {before}{shown}\n# block 2 of 2: {before}{shown}\n".encode()
            said = f"{before}{shown}: taken for hexadecimal"
            words = ["--check", before + name, before + name]
            program.gives(words, b"", 0, titles, f"{said}\n{said}", what=f"a name of {2 * count} octets and {shown}")


def names_of_others(part, program, bare):
    """A file `data/names.txt` three folders above the program is not read, unless the program lies where the build puts it,
    beside its sources. So it is not read from a folder such as /tmp, in which others may write.
    """
    wanted = Done(0, bare, f"{NO_NAMES}\n".encode())
    part.write("names of others", b"2.5.29.15 of others\n")
    for at, place in enumerate((
        "x/y/z/prog", "x/y/z/tlvdump_show", "x/y/bin/tlvdump-show", "crates/tlvdump/out/tlvdump_show",
        "crates/tlvdump_show/out/tlvdump-show", "crates/tlvdump_show/out/tlvdump_show2", "crates/tlvdump_show/in/tlvdump_show",
        "xcrates/tlvdump_show/out/tlvdump_show", "crates/tlvdump_show/out/x/tlvdump_show",
    )):
        path = put(program.path, part.path(f"others {at}/{place}"))
        for above in range(1, 4):
            data = os.path.join(os.path.dirname(path), *[".."] * above, "data")
            os.makedirs(data)
            shutil.copy(part.path("names of others"), os.path.join(data, "names.txt"))
        part.same(f"names: those of others beside {place}", part.run([], SOUND, program=path), wanted)
    # The path of the program itself counts, not that of a link to it.
    link = part.path("others 0/crates/tlvdump_show/out/tlvdump_show")
    os.makedirs(os.path.dirname(link))
    os.symlink(part.path("others 0/x/y/z/prog"), link)
    part.same("names: those of others beside a link", part.run([], SOUND, program=link), wanted)


def no_place(part, program):
    """Where the program cannot know its own place, since there is no proc file system, no names file is looked for. Only root
    can try this, in a mount namespace.
    """
    if os.geteuid() or subprocess.run(["unshare", "-m", "true"], capture_output=True).returncode:
        part.note("no root, or no unshare: a system without the proc file system is not tried")
        return
    bare = LINES.replace(b" (keyUsage)", b"")
    script = 'mount -t tmpfs none /proc && exec "$@"'
    for what, words, wanted in (
        ("no place known", [], Done(0, bare, f"{NO_NAMES}\n".encode())),
        ("no place known, --names", ["--names", "names"], Done(0, LINES.replace(b"(keyUsage)", b"(another)"), b"")),
        ("no place known, --check", ["--check"], Done(0, b"", b"")),
    ):
        words = ["-m", "sh", "-c", script, "sh", program.path, *words]
        part.same(f"names: {what}", part.run(words, SOUND, program=shutil.which("unshare")), wanted)


def names(part, program):
    """The names file of the installation, that of the tree, another one, and none."""
    alone = put(program.path, part.path("alone/tlvdump-show"))
    in_tree = put(program.path, part.path("tree/crates/tlvdump_show/out/tlvdump_show"))
    os.makedirs(part.path("tree/data"))
    part.write("tree/data/names.txt", b"2.5.29.15 its name\n")
    part.write("names", b"2.5.29.15 another\n")
    part.write("wrong", b"1.40 x\n")
    bare, own = LINES.replace(b" (keyUsage)", b""), LINES.replace(b"(keyUsage)", b"(another)")
    for what, path, given, status, out, err in (
        ("of the tree", in_tree, [], 0, LINES.replace(b"(keyUsage)", b"(its name)"), ""),
        ("none", alone, [], 0, bare, NO_NAMES),
        ("none, and --names", alone, ["--names", "names"], 0, own, ""),
        ("none is needed for findings", alone, ["--check"], 0, b"", ""),
        ("none is needed for offsets", alone, ["--offsets"], 0, b"7\n", ""),
        ("none is needed for an element", alone, ["--offset", "9"], 0, SOUND[9:], ""),
        ("another one", program.path, ["--names", "names"], 0, own, ""),
        ("one that does not open", program.path, ["--names", "missing"], 4, b"", "N5 names file not read"),
        ("one that is a folder", program.path, ["--names", "tree"], 4, b"", "N5 names file not read"),
        ("one that is refused", program.path, ["--names", "wrong"], 4, b"", "N1 line 1: not an object identifier"),
        ("one that is refused, and no FILE", program.path, ["--names", "wrong", "missing"], 4, b"",
         "N1 line 1: not an object identifier"),
    ):
        got = part.run(given, SOUND, program=path)
        part.same(f"names: {what}", got, Done(status, out, f"{err}\n".encode() if err else b""))
    linked = part.path("tlvdump-show")
    os.symlink(program.path, linked)
    part.same("names: by a link", part.run([], SOUND, program=linked), Done(0, LINES, b""))
    names_of_others(part, program, bare)
    # If there are both, that of the installation counts.
    part.write("tree/data/names.txt", b"2.5.29.15 of the tree\n")
    os.makedirs(part.path("tree/crates/tlvdump_show/share/tlvdump"))
    part.write("tree/crates/tlvdump_show/share/tlvdump/names.txt", b"2.5.29.15 of an installation\n")
    wanted = LINES.replace(b"(keyUsage)", b"(of an installation)")
    part.same("names: one of an installation in the tree", part.run([], SOUND, program=in_tree), Done(0, wanted, b""))
    shutil.rmtree(part.path("tree/crates/tlvdump_show/share"))
    part.write("tree/data/names.txt", b"2.5.29.15 x\n1.40 x\n")
    wanted = Done(4, b"", b"N1 line 2: not an object identifier\n")
    part.same("names: one of the tree that is refused", part.run([], SOUND, program=in_tree), wanted)


def inputs(part, program):
    """FILE, or standard input, that gives nothing or fails."""
    os.mkdir(part.path("folder"))
    for given in ([], ["--check"], ["--offsets"], ["--offset", "0"]):
        for name in ("missing", "null/below", ""):
            program.gives([*given, name], NULL, 3, err=f"{name}: {OPEN}")
        program.gives([*given, "folder"], NULL, 3, err=f"folder: {READ}")
        program.gives([*given, "n" * 300], NULL, 3, err=f"{'n' * 300}: E5 cannot open the file")
        empty = "fault at 0: F01 empty input"
        program.gives([*given, "/dev/null"], NULL, 2, err=program.with_reasons(f"/dev/null: {empty}", b""))
        program.gives(given, b"", 2, err=program.with_reasons(empty, b""))
        folder = os.open(part.path("folder"), os.O_RDONLY)
        program.gives(given, None, 3, err=READ, stdin=folder)
        os.close(folder)
    program.gives(["/dev/stdin"], SOUND, 0, LINES)
    long = b"\x04\x83\x0f\x42\x40" + NULL * 500_000
    got = program.run([], long)
    fine = got.status == 0 and got.out.count(b"NULL\n") == 500_000 and got.out.startswith(b"       0 1000000: OCTET STRING wraps {\n")
    part.expect("a million octets by a pipe", fine, *got.lines())


def inputs_that_may_not_be_read(part, program):
    """A file of mode 0, and one in a folder of mode 0."""
    how = as_another_user(part, program.path)
    os.chmod(part.write("closed", NULL), 0)
    os.mkdir(part.path("closed-folder"))
    part.write("closed-folder/null", NULL)
    os.chmod(part.path("closed-folder"), 0)
    for given in (["--check"], ["--offsets"], ["--offset", "0"]):
        for name in ("closed", "closed-folder/null"):
            wanted = Done(3, b"", f"{name}: E5 cannot open the file: permission denied\n".encode())
            part.same(f"{' '.join(given)} {name}", part.run([*given, name], NULL, **how), wanted)
    os.chmod(part.path("closed-folder"), 0o700)


def at_a_terminal(part, program):
    """If standard input is a terminal, a note says that it is read. There is no note if a FILE is named."""
    part.write("typed", NULL)
    note = "standard input is read, up to Ctrl-D\ntaken for hexadecimal"
    for words, keys, err in ([], b"05 00\n\x04", note), (["typed"], b"", ""):
        mine, its = pty.openpty()
        os.write(mine, keys)
        program.gives(words, NULL, 0, NULL_LINE, err, f"at a terminal: {' '.join(words) or 'no words'}", stdin=its)
        os.close(mine)
        os.close(its)


def outputs(part, program):
    """A full disk, and a limit on the size of a file."""
    for given, octets in (([], SOUND), (["--check"], b"\x02\x02\x00\x05"), (["--offsets"], SOUND), (["--offset", "0"], SOUND),
                          (["--help"], b""), (["--version"], b"")):
        with open("/dev/full", "wb") as full:
            program.gives(given, octets, 3, err=WRITE, stdout=full, what=f"{' '.join(given)}: a full disk")
    part.write("many", NULL * 100_000)

    def limit_files():
        resource.setrlimit(resource.RLIMIT_FSIZE, (5000, 5000))
        signal.signal(signal.SIGXFSZ, signal.SIG_IGN)

    with open(part.path("out"), "w+b") as out:
        got = program.run(["many"], stdin=subprocess.DEVNULL, stdout=out, preexec_fn=limit_files)
        out.seek(0)
        written = out.read()
    lines = b"".join(b"%8d      0: NULL\n" % offset for offset in range(0, 2000, 2))
    part.same("a file that may not grow", got, Done(3, b"", f"many: {WRITE}\n".encode()))
    part.expect("what is written before", written == lines[:5000], f"{len(written)} octets")


def without_reader(part, program):
    """If nothing reads standard output any more, that is no message. What is said of the input itself stays.

    The status is 3, and no other block is shown. Help that nothing reads is E2.
    """
    part.write("many", NULL * 100_000)
    part.write("texts", b"05 00\n")
    part.write("broken", BROKEN)
    line = f"broken: {BREAKS}"
    for given, octets, err in (([], SOUND, ""), (["--check"], b"\x02\x02\x00\x05", ""), (["--offsets"], SOUND, ""),
                               (["--offset", "0"], SOUND, ""), (["--raw"], SOUND, ""), (["--why"], SOUND, ""),
                               ([], b"05 00\n", "taken for hexadecimal"), ([], NULL * 3000 + b"\x04", ""),
                               (["many"], b"", ""), (["many", "missing", "texts"], b"", ""),
                               (["texts", "many"], b"", "texts: taken for hexadecimal"),
                               (["missing", "many"], b"", ""), (["broken"], b"", line),
                               (["--help"], b"", WRITE), (["--version"], b"", WRITE)):
        reader, writer = os.pipe()
        os.close(reader)
        what = f"{' '.join(given)} {octets[:8].hex()}: nothing reads it"
        program.gives(given, octets, 3, err=err, stdout=writer, what=what)
        os.close(writer)
    child = part.start(["many"], program=program.path, stdin=subprocess.DEVNULL, stdout=subprocess.PIPE, stderr=subprocess.PIPE)
    first = child.stdout.read(1)
    child.stdout.close()
    err = child.stderr.read()
    child.stderr.close()
    part.same("a reader that ends after the first octet", Done(child.wait(timeout=60), first, err), Done(3, b" ", b""))


def test(part):
    program = Program(part)
    words(part, program)
    several(part, program)
    long_lines(part, program)
    names(part, program)
    no_place(part, program)
    inputs(part, program)
    inputs_that_may_not_be_read(part, program)
    at_a_terminal(part, program)
    outputs(part, program)
    without_reader(part, program)

"""Tests long words, long file names, file names with unusual characters, and command lines of many words."""
import os

from parts.harness import Done, message

OBJECT = b"\x06\x03\x55\x04\x03"
PLAIN = b"       0      3: OBJECT IDENTIFIER 2.5.4.3\n"
NAMED = b"       0      3: OBJECT IDENTIFIER 2.5.4.3 (commonName)\n"
NAMES = b"# x\n2.5.4.3 commonName\n"
OPEN = "E5 cannot open the file"
UNREAD = "N5 names file not read"
# The largest number of octets of a file name, of a path, and of a word that the system passes on.
LONGEST_NAME, LONGEST_PATH, LONGEST_WORD = 255, 4095, 131_071
LENGTHS = (31, 32, 63, 64, 99, 100, 101, 127, 128, 199, 200, 201, 254, 255)
# Lengths of words that name no file.
LONG_WORDS = (5_001, *range(6_007, 60_000, 6_000), 59_999, 65_535, 65_536, 100_003, LONGEST_WORD)
# The first and last characters that have two, three and four octets in UTF-8, and some characters with special effects:
# characters that join others or change the direction, the byte order mark, and an emoji.
WIDE = "\u0080\u00e9\u07ff\u0800\u20ac\u0301\u200d\u202e\ufeff\ufffd\uffff\U00010000\U0001f600\U0010ffff"


def name_of(octets, letter="a"):
    """Returns a name of `octets` octets, which begins with the number and goes on with characters of two octets."""
    name = f"{octets}{letter}"
    return name + "é" * ((octets - len(name)) // 2) + "z" * ((octets - len(name)) % 2)


def path_of(name, octets):
    """Returns a path of `octets` octets to the file of this name."""
    more = octets - len(name.encode())
    path = ("./" * (more // 2)).replace("./", ".//", more % 2) + name
    assert len(path.encode()) == octets
    return path


def check_opening(part, path, names):
    """Checks that each command that takes FILE or NAMES opens them at these paths."""
    what = f"{len(path.encode())} octets of FILE, {len(names.encode())} of NAMES"
    for words, out in [
        (["dump", path], PLAIN),
        (["dump", "--", path], PLAIN),
        (["dump", "--names", names, path], NAMED),
        (["dump", f"--names={names}", path], NAMED),
        (["check", path], b""),
        (["extract", "--offset", "0", path], OBJECT),
        (["indef", "--padding", path], OBJECT),
    ]:
        part.same(f"{' '.join(words)[:40]!r}.., {what}", part.run(words), Done(0, out, b""))


def names_of_files(part):
    """Names of up to 255 octets and paths of up to 4095 octets are opened."""
    for octets in LENGTHS:
        part.write(name_of(octets), OBJECT)
        part.write(name_of(octets, "n"), NAMES)
        check_opening(part, name_of(octets), name_of(octets, "n"))
    for octets in (256, 257, 300, 511, 512, 513, 1000, 1024, 4000, LONGEST_PATH):
        check_opening(part, path_of(name_of(200), octets), path_of(name_of(200, "n"), octets))
    folder = ""
    for _ in range(5):
        folder += "f" * 200 + "/"
        os.mkdir(part.path(folder))
    part.write(folder + name_of(LONGEST_NAME), OBJECT)
    part.write(folder + name_of(LONGEST_NAME, "n"), NAMES)
    check_opening(part, folder + name_of(LONGEST_NAME), folder + name_of(LONGEST_NAME, "n"))


def characters_in_names(part):
    """Names may have any character but NUL and slash: all of ASCII in one name and each by itself, and some others."""
    ascii_characters = [chr(number) for number in range(1, 128) if chr(number) != "/"]
    names = ["".join(ascii_characters), WIDE, "a:b", "C:\\a", "%s", "a\n", " ", "...", "\U0001f600", "\U0001f600:" * 50]
    names += [character for character in ascii_characters if character not in ".-"]
    names += [character for character in WIDE]
    os.mkdir(part.path("names"))
    for name in names:
        part.write(name, OBJECT)
        part.write(f"names/{name}", NAMES)
    for name in names[:10]:
        check_opening(part, name, f"names/{name}")
    for name in names[10:]:
        got = part.run(["dump", "--names", f"names/{name}", name])
        part.same(f"the character {name!r} alone", got, Done(0, NAMED, b""))


def names_of_no_file(part):
    """Long names that no file has, and names that are too long for the system, do not open."""
    good = name_of(200, "n")
    missing = [name_of(200, "m"), name_of(LONGEST_NAME, "m"), "m" * 256, "m" * 300, "m" * 1000]
    missing += [path_of(name_of(200), LONGEST_PATH + 1), "m" * 4096, "m" * 70_000]
    missing += ["m" * octets for octets in LONG_WORDS] + [path_of(name_of(200), octets) for octets in LONG_WORDS]
    missing += [letter * (octets // len(letter.encode())) for letter in (":", "\U0001f600") for octets in LONG_WORDS]
    closed, unread = Done(3, b"", message(OPEN)), Done(4, b"", message(UNREAD))
    for name in missing:
        what = f"a name of {len(name)} characters"
        for words in (["dump"], ["dump", "--names", good], ["check"], ["extract", "--offset=0"], ["indef"]):
            part.same(f"{' '.join(words)[:20]}, {what}", part.run([*words, name], OBJECT), closed)
        part.same(f"no NAMES, {what}", part.run(["dump", "--names", name, good]), unread)


def values(part):
    """Long values of options are out of range, whatever their number is."""
    longest = LONGEST_WORD - len("--inside=")
    for octets in (14, 64, 100, 128, 200, 254, 255, 256, 257, 300, 5000, *LONG_WORDS[:-1], longest):
        for words, name in [
            (["dump", "--limit", "1" * octets], "--limit"),
            (["dump", "--limit=" + "0" * (octets - 1) + "1"], "--limit"),
            (["dump", "--rules", "b" * octets], "--rules"),
            (["check", "--rules=" + "d" * octets], "--rules"),
            (["extract", "--offset", "0" * octets], "--offset"),
            (["extract", "--offset=" + "9" * octets], "--offset"),
            (["check", "--inside", "1," * (octets // 2)], "--inside"),
            (["indef", "--padding", "--", "x" * octets], None),
        ]:
            status, said = (4, f"U2 value out of range: {name}") if name else (3, OPEN)
            got = part.run(words, OBJECT)
            part.same(f"{' '.join(words)[:30]}, {octets} octets", got, Done(status, b"", message(said)))


def is_refused(part, what, words, said):
    """Checks that the parser refuses the words, and names the word at which it stops."""
    got = part.run(words, OBJECT)
    said_so = got.err.startswith(f"error: {said}\n".encode()) and got.err.endswith(b"'--help'.\n")
    part.expect(what, (got.status, got.out) == (4, b"") and said_so, *got.lines())


def unexpected_text(word):
    return f"unexpected argument '{word}' found"


def check_long_words(part):
    """If the parser refuses a long word, it reports it in full."""
    for octets in (200, 256, 300, 5000, 5001, 20_000, 59_999, 100_003):
        word, size = "x" * octets, f"{octets} octets"
        is_refused(part, f"a command of {size}", [word], f"unrecognized subcommand '{word}'")
        is_refused(part, f"a second FILE of {size}", ["dump", "a", word], unexpected_text(word))
        word = "--" + word
        is_refused(part, f"an option of {size}", ["dump", word], unexpected_text(word))
        is_refused(part, f"another option of {size}", ["dump", "--limit", "1", word], unexpected_text(word))
        is_refused(part, f"an option of {size} with a value", ["indef", f"{word}=1"], unexpected_text(word))
        said = f"unexpected value '{word}' for '--pure' found; no more were expected"
        is_refused(part, f"--pure with a value of {size}", ["dump", f"--pure={word}"], said)


def check_many_words(part):
    """Command lines of many words."""
    again = "the argument '--pure' cannot be used multiple times"
    for count in (20, 255, 256, 257, 2000, 20_000, 25_000, 100_000):
        is_refused(part, f"{count} words", ["dump", "a"] + ["b"] * (count - 2), unexpected_text("b"))
        is_refused(part, f"{count} words, --", ["indef", "--", "a"] + ["b"] * (count - 3), unexpected_text("b"))
        is_refused(part, f"--pure {count} times", ["dump"] + ["--pure"] * count, again)
    is_refused(part, "2,000 words of 300 octets", ["dump"] + ["y" * 300] * 2000, unexpected_text("y" * 300))


def longest_lines(part):
    """Each option once, with the longest values that are in range."""
    rising = ",".join(str(1099511627761 + number) for number in range(16))
    # An OBJECT IDENTIFIER in an OCTET STRING at offset 4, after two elements.
    part.write(name_of(200, "s"), b"\x05\x00\x05\x00\x04\x05" + OBJECT)
    path, names = path_of(name_of(200, "s"), LONGEST_PATH), path_of(name_of(200, "n"), LONGEST_PATH)
    framing = ["--padding", "--inside", "0000000000004"]
    dump = ["dump", "--rules", "cer", "--limit", "0004294967295", "--pure"]
    dump += ["--names", names, *framing, "--", path]
    named = b"NULL\nNULL\nOCTET STRING wraps {\n  OBJECT IDENTIFIER 2.5.4.3 (commonName)\n}\n"
    part.same("a longest line of dump", part.run(dump), Done(0, named, b""))
    none = Done(1, b"", b"E7 no string to read at offset 1099511627761\n")
    got = part.run(["check", "--inside", rising, "--rules=cer", "--padding", path])
    part.same("a longest line of check", got, none)
    extract = ["extract", "--contents", *framing, "--offset=0000000000006", path]
    part.same("a longest line of extract", part.run(extract), Done(0, OBJECT[2:], b""))
    extract[4] = rising
    far = Done(1, b"", b"E4 no element at offset 6\n")
    part.same("an extract with a longest list", part.run(extract), far)
    # The name of the program is a word, too.
    for octets in (256, 5000):
        got = part.run(["dump"], OBJECT, called="p" * octets)
        part.same(f"a program's name of {octets} octets", got, Done(0, PLAIN, b""))


def test(part):
    names_of_files(part)
    characters_in_names(part)
    names_of_no_file(part)
    values(part)
    check_long_words(part)
    check_many_words(part)
    longest_lines(part)

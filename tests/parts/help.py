"""Compares help and the version with the files of tests/help, octet by octet."""
import os

from parts.harness import Done

COMMANDS = ("dump", "check", "extract", "indef")


def whole(part, words, name):
    """With these words the program writes exactly the contents of the file. Returns the result."""
    with open(os.path.join(part.root, "tests", "help", name), "rb") as file:
        text = file.read()
    got, wanted = part.run(words), Done(0, text, b"")
    pairs = enumerate(zip(got.out.splitlines(), text.splitlines()), 1)
    differ = [f"line {number}: {one}, wanted {other}" for number, (one, other) in pairs if one != other]
    said = [*differ[:3], f"status {got.status}", f"errors {got.err}", f"{len(got.out)} octets of {len(text)}"]
    part.expect(f"{' '.join(words)} is tests/help/{name}", got == wanted, *said)
    return got


def before_all_else(part, name, wanted):
    """Help takes precedence over words that are refused, values out of range and files. Nothing is read."""
    part.same(f"{name} --help --nonsense", part.run([name, "--help", "--nonsense"]), wanted)
    part.same(f"{name} missing --help", part.run([name, "missing", "--help"]), wanted)
    twice = part.run([name, "--padding", "--help", "--padding"])
    part.same(f"{name} --padding --help --padding", twice, wanted)
    part.same(f"{name} --help a b", part.run([name, "--help", "a", "b"]), wanted)


def devices(part, top):
    with open("/dev/full", "wb") as full:
        for words in (["--help"], ["--version"], *([name, "--help"] for name in COMMANDS)):
            part.gives(words, b"", 3, err="E2 write failed", stdout=full)
    got = part.run(["--help"], stdin=None, preexec_fn=lambda: os.close(0))
    part.same("--help with a closed standard input", got, top)


def test(part):
    version = whole(part, ["--version"], "version.txt")
    top = whole(part, ["--help"], "tlvdump.txt")
    of_commands = {name: whole(part, [name, "--help"], f"{name}.txt") for name in COMMANDS}
    for name, text in of_commands.items():
        before_all_else(part, name, text)
    dump = of_commands["dump"]
    part.same("dump --limit x --help", part.run(["dump", "--limit", "x", "--help"]), dump)
    part.same("dump --names missing --help", part.run(["dump", "--names", "missing", "--help"]), dump)
    part.same("--version --help", part.run(["--version", "--help"]), version)
    part.same("--help --version", part.run(["--help", "--version"]), top)
    devices(part, top)

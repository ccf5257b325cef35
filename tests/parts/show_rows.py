"""Runs tlvdump-show on the rows of tests/show_rows and tests/rows.

Each row is run on a pipe, on a file as standard input, and on FILE. Rows of tests/rows are run with --closed and
--no-text, which gives what the row says, unless tlvdump-show has more findings in it, and without these options, which
gives what the second opinion expects.
Further tests have strings of each size, and strings within strings.
"""
import os
import re
import subprocess

from parts.harness import Done, message
from parts.row_files import files
from parts.show_program import Program
from second_opinion.commands import Options, Values, answer
from second_opinion.findings import LETTERS, shortest
from second_opinion.opened import Strings

NULL = b"\x05\x00"
# Options of rows that tlvdump-show lacks.
FOREIGN = ("--inside",)
MOST_SIZE = 300


def string(octets, tag=4):
    """Returns a string that holds these octets."""
    return bytes([tag]) + shortest(len(octets)) + octets


def wanted_of(program, row, name=""):
    """Returns the expected result of a row, with the reasons after its message.
    If the input is a FILE, its name precedes the message.
    """
    said = "\n".join(f"{name}{line}" for line in row.message.splitlines())
    return Done(row.status, row.out, message(program.with_reasons(said, row.given, *row.words)))


def run_row(part, program, row):
    """Runs a row of tests/show_rows."""
    if row.names is not None:
        part.write("names", row.names)
    what, wanted = f"{row.place} {' '.join(row.words)}", wanted_of(program, row)
    part.same(f"{what}, a pipe", program.run(row.words, row.given), wanted)
    path = part.write("input", row.given)
    with open(path, "rb") as file:
        part.same(f"{what}, a file as standard input", program.run(row.words, stdin=file), wanted)
    part.same(f"{what}, a FILE", program.run([*row.words, "input"], stdin=subprocess.DEVNULL),
              wanted_of(program, row, "input: "))


def words_of(row):
    """Returns the words with which tlvdump-show does the same as tlvdump in a row of tests/rows, or None."""
    if any(word.startswith(FOREIGN) for word in row.words) or row.message.startswith("U"):
        return None
    command, *rest = row.words
    return {"dump": [*rest, "--no-text", "--closed"], "check": ["--check", *rest, "--closed"]}.get(command)


def has_more_findings(row):
    """Returns whether the lines of a row lack findings that tlvdump-show alone looks for."""
    rules = [word for word in row.words if word in LETTERS] or [word[8:] for word in row.words if word.startswith("--rules=")]
    values = Values(rules[0] if rules else "ber" if row.words[0] == "dump" else "der", 0, 0, [])
    one, other = (answer(Options("check", padding="--padding" in row.words, all_findings=more), values, {}, row.given)
                  for more in (False, True))
    return one.out != other.out


def octets_of(text):
    """Returns the octets that a cell of a table of docs/FORMAT.md describes: `30 80` 127 times, `05 00`."""
    found = re.findall(r"`([0-9a-f ]+)`(?: (\d+) times)?", text)
    return b"".join(bytes.fromhex(octets) * int(times or 1) for octets, times in found)


def page(part, program):
    """The table of docs/FORMAT.md says which strings are opened."""
    with open(os.path.join(part.root, "docs", "FORMAT.md"), encoding="utf-8") as file:
        table = file.read().partition("| Octets | Opened |\n|---|---|\n")[2].partition("\n\n")[0]
    part.expect("the table of docs/FORMAT.md", table.count("\n") > 10, table)
    for line in table.splitlines():
        octets, offsets = line.strip("| ").split(" | ")
        for one, listed in zip(octets.split(" \u00b7 "), offsets.split(" \u00b7 "), strict=True):
            got = program.run(["--offsets"], octets_of(one))
            wanted = b"" if listed == "none" else listed.replace(" ", "").encode() + b"\n"
            part.expect(f"docs/FORMAT.md: {one}", got.out == wanted, *got.lines())


def rows_of_tlvdump(part, program):
    """Runs the rows of tests/rows with strings closed, as the row says, and with strings opened."""
    for rows in files(part.root).values():
        for row in rows:
            if row.names is not None:
                part.write("names", row.names)
            words = words_of(row)
            if words and has_more_findings(row):
                words = None
            if words:
                said = program.with_reasons(row.message, row.given, *words)
                wanted = Done(row.status, row.out, message(said))
                part.same(f"{row.place} {' '.join(words)}", program.run(words, row.given), wanted)
            strings = Strings(row.given, "--padding" in row.words)
            if words and not strings.opened and not strings.broken:
                words.remove("--closed")
                part.same(f"{row.place} {' '.join(words)}", program.run(words, row.given), wanted)
            program.agrees(f"{row.place}, opened", row.given)


def sizes(part, program):
    """Strings of each size that hold encodings, and encodings of which the last octet is wrong."""
    for size in range(2, MOST_SIZE + 1):
        sound = NULL * (size // 2) if size % 2 == 0 else NULL * (size // 2 - 1) + b"\x02\x01\x05"
        wrong = NULL * (size // 2 - 1) + b"\x05\x01" if size % 2 == 0 else NULL * (size // 2) + b"\x05"
        program.gives(["--offsets"], string(sound), 0, b"0\n", what=f"{size} octets that are sound")
        program.gives(["--offsets"], string(wrong), 0, what=f"{size} octets, the last of which is wrong")
        program.agrees(f"a SEQUENCE of {size} octets, the last of which is wrong", string(string(wrong, 0x30)), "check")


def depths(part, program):
    """Of nested strings 128 are opened, and no more."""
    for count in (1, 2, 127, 128, 129, 200):
        octets, offsets = NULL, []
        for _ in range(count):
            octets = string(octets)
        place = 0
        for number in range(min(count, 128)):
            offsets.append(place)
            place += 1 + len(shortest(inner_size(count - number)))
        out = ",".join(map(str, offsets)).encode() + b"\n"
        program.gives(["--offsets"], octets, 0, out, what=f"{count} strings, each in the one before")
        program.agrees(f"{count} strings, each in the one before", octets)


def inner_size(count):
    """Returns how many octets the outermost of `count` nested strings holds."""
    size = len(NULL)
    for _ in range(count - 1):
        size += 1 + len(shortest(size))
    return size


def test(part):
    program = Program(part)
    for rows in files(part.root, "show_rows").values():
        for row in rows:
            run_row(part, program, row)
    page(part, program)
    rows_of_tlvdump(part, program)
    sizes(part, program)
    depths(part, program)

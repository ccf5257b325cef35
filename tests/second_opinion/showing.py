"""Runs tlvdump-show: docs/FORMAT.md from "Which strings are opened" on, docs/TEXTS.md and docs/WHY.md."""
from dataclasses import dataclass, field

from second_opinion import texts, why
from second_opinion.commands import FAULTS, LARGEST_LIMIT, LARGEST_OFFSET, Options, Refused, Values
from second_opinion.commands import answer, fault_text, in_range
from second_opinion.findings import LETTERS
from second_opinion.opened import Strings
from second_opinion.paths import LONGEST_PATH
from second_opinion.reading import Reading

# The longest part of a path, in octets, on the usual file systems.
LONGEST_PART = 255


@dataclass
class File:
    """A FILE: its word, its octets (None if it cannot be opened), and whether it is standard input."""

    word: str
    octets: bytes | None
    is_standard_input: bool = False

    def shown(self):
        """Returns the word, with ? in place of each octet that is not printable ASCII."""
        if self.is_standard_input:
            return "standard input"
        return "".join(chr(it) if 0x20 <= it <= 0x7E else "?" for it in self.word.encode("utf-8", "surrogateescape"))

    def cause(self):
        """Returns why a file of this name does not open: there is none, or the name is too long for the system."""
        octets = self.word.encode("utf-8", "surrogateescape")
        fits = len(octets) <= LONGEST_PATH and all(len(part) <= LONGEST_PART for part in octets.split(b"/"))
        return ": no such file" if fits else ""


@dataclass
class Show:
    """The options of a run: `job` is dump, check, offset, offsets, raw or why. A value is the text in the words.

    Without `has_reasons` the reasons after the messages are left out, because they take long in a large input.
    """

    job: str
    rules: str | None = None
    limit: str | None = None
    pure: bool = False
    names: bool = False
    closed: bool = False
    no_text: bool = False
    offset: str | None = None
    contents: bool = False
    padding: bool = False
    as_form: str | None = None
    names_open: bool = True
    files: list = field(default_factory=list)
    has_reasons: bool = True


@dataclass
class Result:
    """The status, standard output, and standard error. `said` is standard error without the reasons."""

    status: int
    out: bytes
    err: bytes
    said: bytes = b""


@dataclass
class Shown:
    """The result for a block: the status, the output, the lines that are reported, and the reasons after them."""

    status: int
    out: bytes = b""
    lines: list = field(default_factory=list)
    reasons: tuple = ()


ALLOWED = {
    "rules": ("ber, der or cer", lambda text: text in LETTERS),
    "limit": (f"0 to {LARGEST_LIMIT}", lambda text: in_range(text, LARGEST_LIMIT)),
    "offset": (f"0 to {LARGEST_OFFSET}", lambda text: in_range(text, LARGEST_OFFSET)),
    "as": ("octets, pem, dump, hex, numbers, base64 or runs", lambda text: text in texts.OCTETS + texts.TEXTS),
}


def run(show, names):
    """Returns the result of a run. `names` is a function that reads the names file."""
    try:
        for name, (allowed, is_fine) in ALLOWED.items():
            text = show.as_form if name == "as" else getattr(show, name)
            if text is not None and not is_fine(text):
                raise Refused(f"U2 value out of range: --{name} ({allowed})")
        if show.names and not show.names_open:
            raise Refused("N5 names file not read")
        known = names() if show.job == "dump" else {}
    except Refused as refused:
        return Result(4, b"", f"{refused}\n".encode())
    whole, number = Result(0, b"", b""), 0
    # The blocks of each FILE. A FILE that cannot be opened has one block, which is None.
    room, blocks = texts.MOST_OCTETS, []
    for it in show.files:
        blocks.append([None] if it.octets is None else texts.blocks_within(room, it.octets, show.as_form))
        room -= sum(texts.decoded_size(block) for block in blocks[-1])
    count = sum(map(len, blocks))
    for file, of_file in zip(show.files, blocks):
        for block in of_file:
            number += 1
            if count > 1 and show.job in ("dump", "check", "why"):
                whole.out += f"# block {number} of {count}: {title(show, file, block)}\n".encode()
            shown = of_block(show, file, block, known, count)
            front = "" if file.is_standard_input else f"{file.shown()}: "
            front += f"block {number}: " if len(of_file) > 1 else ""
            whole.status, whole.out = max(whole.status, shown.status), whole.out + shown.out
            said = written([f"{front}{line}" for line in shown.lines])
            whole.err, whole.said = whole.err + said + written(shown.reasons), whole.said + said
    return whole


def title(show, file, block):
    """Returns the title of a block, which is written before it."""
    name = block.name() if block else None
    if not name:
        return file.shown()
    return name if len(show.files) == 1 else f"{file.shown()}: {name}"


def of_block(show, file, block, known, count):
    """Returns the result for a block of a run with so many. The first line that is reported is the note."""
    if block is None:
        return Shown(3, lines=[f"E5 cannot open the file{file.cause()}"])
    note, is_raw = block.note(), show.job == "raw"
    shown = of_octets(show, block.octets, known, count) if block.is_shown() else Shown(0)
    shown.status, shown.lines = block.status(shown.status, is_raw), [note] * bool(note) + shown.lines
    return shown


def of_octets(show, octets, known, count):
    """Returns the result for the octets of a block of a run with so many."""
    if show.job == "raw":
        return Shown(0, octets)
    strings = Strings(octets, show.padding)
    if show.closed or show.job in ("offset", "offsets"):
        strings.broken.clear()
    if show.job == "why":
        return why_shown(show, octets, strings, count)
    if show.job == "offsets":
        shown = offsets(octets, show.padding, strings.opened)
    else:
        got = answer(options_of(show), values_of(show, strings.opened), known, octets)
        shown = Shown(got.status, got.out, [got.message] * bool(got.message))
    if show.has_reasons:
        shown.reasons = why.lines_of(octets, show.padding, count)[1:] if shown.status == 2 else of_first(strings)
    return with_broken(shown, strings)


def with_broken(shown, strings):
    """Returns the result with a line for each broken string."""
    broken = [line_of(*it) for it in strings.faults()]
    shown.status, shown.lines = max(shown.status, 1 if broken else 0), shown.lines + broken
    return shown


def of_first(strings):
    """Returns the reasons why the first broken string breaks, if there is one."""
    for broken in strings.broken[:1]:
        before = [it for it in strings.opened if it < broken.offset]
        return why.lines_of_string(strings.octets, strings.padding, (*before, broken.offset))
    return ()


def why_shown(show, octets, strings, count):
    """Returns the output of --why for the octets of a block of a run with so many."""
    lines = why.lines_of(octets, show.padding, count)
    if lines:
        return Shown(2, written(lines))
    inside = [] if show.closed else strings.opened
    ber, der = (found_by(rules, octets, show.padding, inside) for rules in ("ber", "der"))
    headings = [f"The {line_of(*it)}." for it in strings.faults()][:1]
    lines = [*why.sound_lines(octets, show.padding, ber, der), *headings, *of_first(strings)]
    return with_broken(Shown(1 if ber else 0, written(lines)), strings)


def written(lines):
    """Returns the octets of lines."""
    return "".join(f"{line}\n" for line in lines).encode()


def found_by(rules, octets, padding, inside):
    """Returns the lines of a check by these rules, with these strings opened."""
    options = Options("check", padding=padding, all_findings=True)
    return answer(options, Values(rules, 0, 0, inside), {}, octets).out.decode().splitlines()


def line_of(broken, fault):
    """Returns the line that reports a broken string."""
    return f"string at {broken.offset} {broken.looks} and breaks at {fault.offset}: {fault.code} {FAULTS[fault.code]}"


def offsets(octets, padding, opened):
    """Returns the output of --offsets for the octets of a block."""
    out = (",".join(map(str, opened)) + "\n").encode() if opened else b""
    fault = Reading(octets, padding=padding).fault
    return Shown(2, out, [fault_text(fault)]) if fault else Shown(0, out)


def options_of(show):
    """Returns the options with which tlvdump writes the same."""
    command = {"dump": "dump", "check": "check", "offset": "extract"}[show.job]
    text = command == "dump" and not show.no_text
    return Options(command, pure=show.pure, contents=show.contents, padding=show.padding, text=text, all_findings=True)


def values_of(show, opened):
    """Returns the values of these options, with the strings that are opened."""
    rules = show.rules or ("der" if show.job == "check" else "ber")
    inside = [] if show.closed else opened
    return Values(rules, int(show.limit or LARGEST_LIMIT), int(show.offset or 0), inside)

"""Draws a random case from a seed: an input, a names file, and the commands to run on them."""
import random
from dataclasses import dataclass, field

from second_opinion import contents, drawing, paths
from second_opinion.commands import Options
from second_opinion.reading import BIT_STRING, OCTET_STRING, Reading

MOST_NAMED, LARGEST_OFFSET = 16, 1 << 40
LIMITS = ("0", "1", "2", "3", "5", "62", "256", "007", "0000000000001", "4294967295")


@dataclass
class Run:
    """A run: its options, its words, and whether it reads a pipe."""

    options: Options
    words: list
    by_pipe: bool


@dataclass
class Case:
    """An input and the runs on it, with the name of its file and that of the names file.

    `more` has further inputs, by file name.
    """

    seed: int
    octets: bytes
    names: bytes
    file: str
    names_file: str
    runs: list
    more: dict = field(default_factory=dict)


def case_of(seed):
    """Returns the case of a seed. The same seed always gives the same case."""
    rng = random.Random(f"tlvdump {seed}")
    octets, padding = drawing.input_octets(rng)
    files = [paths.file_name(rng, "input"), paths.file_name(rng, "names")]
    commands = ["dump", "check", "extract", "indef", rng.choice(["dump", "dump", "check"])]
    runs = [run_of(rng, command, octets, padding, files) for command in commands]
    return Case(seed, octets, names_file(rng), *files, runs)


def run_of(rng, command, octets, padding, files):
    """Returns a run of this command with random options."""
    options = Options(command, padding=padding if rng.random() < 0.95 else not padding)
    if command != "indef" and rng.random() < 0.6:
        options.inside = inside(rng, octets, options.padding)
    if command in ("dump", "check") and rng.random() < 0.8:
        options.rules = rng.choice(["ber", "der", "cer", "cer"])
    if command == "dump":
        options.pure, options.names = rng.random() < 0.2, rng.random() < 0.4
        if rng.random() < 0.4:
            options.limit = rng.choice(LIMITS)
    if command == "extract":
        options.offset, options.contents = offset(rng, octets, options), rng.random() < 0.5
    if rng.random() < 0.02:
        out_of_range(rng, options)
    by_pipe = rng.random() < 0.2
    return Run(options, words(rng, options, by_pipe, *files), by_pipe)


def inside(rng, octets, padding):
    """Returns a list of offsets, mostly of strings that hold encodings, or None."""
    named = set()
    for _ in range(rng.choice([1, 2, 3, 9])):
        elements = [it for it in Reading(octets, named, padding).elements() if it.offset not in named]
        strings = [it for it in elements if it.is_universal(BIT_STRING, OCTET_STRING)]
        likely = [it.offset for it in strings if not it.constructed and holds_elements(rng, it)]
        if not likely:
            break
        named.update(offset for offset in likely if rng.random() < 0.8)
        named.update(it.offset for it in strings if rng.random() < 0.03)
    if rng.random() < 0.08:
        named.add(rng.choice([0, 2, rng.randrange(len(octets) + 1), LARGEST_OFFSET]))
    return ",".join(map(str, sorted(named)[:MOST_NAMED])) if named else None


def holds_elements(rng, string):
    """Returns whether the contents of a string are encodings, or sometimes whether they begin like one."""
    held = Reading(string.contents[1:] if string.is_universal(BIT_STRING) else string.contents)
    return len(held.items) > 0 and (held.fault is None or rng.random() < 0.2)


def offset(rng, octets, options):
    """Returns the offset of an element, or sometimes another offset."""
    named = [int(text) for text in options.inside.split(",")] if options.inside else []
    elements = Reading(octets, named, options.padding).elements()
    if elements and rng.random() < 0.9:
        return str(rng.choice(elements).offset)
    return str(rng.choice([0, rng.randrange(len(octets) + 1), len(octets), LARGEST_OFFSET]))


def out_of_range(rng, options):
    """Gives some options of a run values that are out of range."""
    if options.command in ("dump", "check") and rng.random() < 0.5:
        options.rules = rng.choice(["BER", "xer", "de", ""])
    if options.command == "dump" and rng.random() < 0.5:
        options.limit = rng.choice(["4294967296", "x", "1x", "", "0x1", "+1", "0" * 13 + "1"])
    if options.command == "extract" and rng.random() < 0.5:
        options.offset = rng.choice(["1099511627777", "", "1 ", "a", "0" * 14])
    if options.command != "indef" and rng.random() < 0.5:
        many = ",".join(map(str, range(17)))
        options.inside = rng.choice(["", "1,", ",1", "2,2", "3,1", "1099511627777", many, "0;1"])


def words(rng, options, by_pipe, file, names):
    """Returns the words: the command, the options in any order, and FILE unless the input is a pipe.

    Notes in the options whether the files can be opened.
    """
    given = []
    for name in ("rules", "limit", "offset", "inside"):
        value = getattr(options, name)
        if value is not None:
            given.append([f"--{name}={value}"] if rng.random() < 0.5 else [f"--{name}", value])
    for name in ("pure", "contents", "padding"):
        if getattr(options, name):
            given.append([f"--{name}"])
    if options.names:
        path, options.names_open = paths.path_to(rng, names)
        given.append([f"--names={path}"] if rng.random() < 0.5 else ["--names", path])
    if not by_pipe:
        path, options.file_opens = paths.path_to(rng, file)
        given.append([path])
    rng.shuffle(given)
    return [options.command, *(word for group in given for word in group)]


OTHER_LINES = (
    "# 2.5.4.3 no", "", " \t", "2.47.1 \t deep(name)", "\t1.39 x~", "0.39.1 !", "2.5.4.99 y \t\r",
    "2.340282366920938463463374607431768211455 most", "2.340282366920938463463374607431768211376 z",
    f"2.{'9' * 396} n", f"1.3{'.70' * 100} m", f"0.39.2 {'l' * 393}",
)
REFUSED_LINES = (
    "1.40 x", "3.1 x", "1 x", "2.5.04 x", "2..5 x", "x", "1.2.3.", "2.5.8", "2.5.8 \x7f",
    "2.5.8 a\tb", "2.5.8 \xe9", "1.2.9 x\n1.2.9 y", "2.5.8x y", f"2.5.8 {'x' * 395}",
)


def name_for(rng, arcs):
    """Returns a name, rarely one that is about as long as the line may be."""
    name = f"name of {arcs}"[:150]
    return name if rng.random() < 0.8 else name.ljust(rng.randrange(100, 400 - len(arcs)), "-")


def names_file(rng):
    """Returns a names file with comments, known object identifiers and others.

    Rarely it has a line that is refused, or very many lines.
    """
    lines = [f"{arcs} {name_for(rng, arcs)}" for arcs in contents.KNOWN if rng.random() < 0.7]
    lines += rng.sample(OTHER_LINES, 6)
    if rng.random() < 0.05:
        lines.append(rng.choice(REFUSED_LINES))
    if rng.random() < 0.03:
        width = rng.choice([1, 20, 200, 380])
        lines += [f"2.100.{number} {'t' * width}" for number in range(rng.choice([1000, 1100, 2700]))]
    rng.shuffle(lines)
    return "\n".join(lines).encode() + b"\n" * (rng.random() < 0.8)

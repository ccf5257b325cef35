"""Tests names files with long object identifiers, long names and many entries, and names files that come in small
pieces.

All are accepted. There is memory for the largest, so none gives N6.
"""
import fcntl
import os
import random
import threading

FILE_LIMIT, ENTRY_LIMIT, LINE_LIMIT = 1_048_576, 65_536, 400
# The object identifier of a certificate template: 69 octets as text. `openssl asn1parse` gives its encoding.
TEMPLATE = "1.3.6.1.4.1.311.21.8.15041462.15123212.9520540.10244456.12914242.71.1"
TEMPLATE_OCTETS = bytes.fromhex("061f2b060104018237150887968736879b860c84c58b1c84f1a26886949c424701")
US = (b"1.2.840 us\n", b"\x06\x03\x2a\x86\x48", "1.2.840 (us)")
# The shortest and the longest text in these inputs. The encoding of a longer text has more than 64 octets, so it is
# shown in rows, without a name.
SHORTEST_TEXT, LONGEST_TEXT = 5, 256


def arcs_of(octets):
    """Returns the arcs of an object identifier whose text has `octets` octets. Each subidentifier is below 128."""
    arcs, left = ([1, 3], octets - 3) if octets < LONGEST_TEXT else ([2, 47], octets - 4)
    while left:
        # An arc and the dot before it take two to four octets.
        width = next(width for width in (4, 3, 2) if left >= width and left - width != 1)
        arcs.append({4: 127, 3: 50, 2: 7}[width])
        left -= width
    return arcs


def text_of(arcs):
    return ".".join(map(str, arcs))


def encoding_of(arcs):
    """Returns the encoding of an object identifier whose subidentifiers are all below 128."""
    contents = bytes([40 * arcs[0] + arcs[1], *arcs[2:]])
    return bytes([6, len(contents)]) + contents


def long_text(octets, number):
    """Returns a text of `octets` octets whose last arc is this number.
    With more than 256 octets it is too long to be shown.
    """
    end = f".{100_000 + number}"
    return "2." + "9" * (octets - 2 - len(end)) + end


class Names:
    """A names file, and an input with the expected lines."""

    def __init__(self):
        self.lines, self.given, self.wanted = [], b"", []

    def add(self, text, name, encoding=None):
        """Adds an entry. If an encoding is given, its object identifier is in the input."""
        self.lines.append(f"{text} {name}\n".encode())
        if encoding:
            self.wanted.append(f"{len(self.given):8} {encoding[1]:6}: OBJECT IDENTIFIER {text} ({name})\n")
            self.given += encoding

    @property
    def octets(self):
        return b"".join(self.lines)

    @property
    def out(self):
        return "".join(self.wanted).encode()


def takes(part, what, names):
    """Checks that the names file is accepted and its names are shown."""
    octets = names.octets
    assert len(octets) <= FILE_LIMIT and max(map(len, names.lines)) <= LINE_LIMIT + 1
    part.write("names", octets)
    got = part.run(["dump", "--names", "names"], names.given)
    part.expect(what, (got.status, got.out, got.err) == (0, names.out, b""), *got.lines())


def template():
    names = Names()
    names.add(TEMPLATE, "a template", TEMPLATE_OCTETS)
    return names


def all_lengths():
    """Returns entries with texts of all lengths, and with names of all lengths."""
    names = Names()
    for octets in range(SHORTEST_TEXT, LONGEST_TEXT + 1):
        arcs = arcs_of(octets)
        assert len(text_of(arcs)) == octets
        names.add(text_of(arcs), f"{octets} octets", encoding_of(arcs))
    for octets in range(LONGEST_TEXT + 1, LINE_LIMIT - 1):
        names.add(long_text(octets, 0), "n")
    names.add("0.1", "o" * (LINE_LIMIT - len("0.1 ")), encoding_of([0, 1]))
    for octets in range(1, LINE_LIMIT - len("1.2.99.3 ") + 1):
        arcs = [1, 2, octets % 100, octets // 100]
        names.add(text_of(arcs), "m" * (octets - 1) + "n", encoding_of(arcs))
    return names


def many_long_lines():
    """Returns as many lines of 400 octets as a file may have, each with a long text, a long name, or both."""
    names = Names()
    for number in range(FILE_LIMIT // (LINE_LIMIT + 1)):
        octets = (LINE_LIMIT - 2, 20, 66, 200, 255)[number % 5]
        text = long_text(octets, number)
        names.add(text, "y" * (LINE_LIMIT - 1 - len(text)))
    names.lines[-1] = US[0]
    names.given, names.wanted = US[1], [f"{0:8} {3:6}: OBJECT IDENTIFIER {US[2]}\n"]
    return names


def full_table():
    """Returns as many entries as a table may have. One in 128, and the last, has a long name or a long text."""
    names = Names()
    for number in range(ENTRY_LIMIT - 1):
        if number % 128 < 127:
            names.add(f"1.2.{number}", "n")
        elif number % 256 == 127:
            arcs = [1, 3, number // 16384, number // 128 % 128]
            names.add(text_of(arcs), f"{number} ".ljust(LINE_LIMIT - 1 - len(text_of(arcs)), "z"), encoding_of(arcs))
        else:
            names.add(long_text(390, number), "a name")
    names.add(TEMPLATE, "t" * (LINE_LIMIT - 1 - len(TEMPLATE)), TEMPLATE_OCTETS)
    return names


def in_packets(octets, sizes):
    """Returns the octets in pieces of these sizes, which are repeated."""
    place, number = 0, 0
    while place < len(octets):
        size = sizes[number % len(sizes)]
        yield octets[place : place + size]
        place, number = place + size, number + 1


def feed(writing, octets, sizes):
    """Writes the octets so that each read gives one of the pieces, until all are read or the reader has ended."""
    fcntl.fcntl(writing, fcntl.F_SETFL, os.O_DIRECT)
    try:
        for piece in in_packets(octets, sizes):
            os.write(writing, piece)
    except BrokenPipeError:
        pass
    os.close(writing)


def run_with_fifo(part, octets, sizes, given):
    """Runs `dump` with a names file that is a FIFO."""
    path = part.path("fifo")
    os.mkfifo(path)
    feeder = threading.Thread(target=lambda: feed(os.open(path, os.O_WRONLY), octets, sizes))
    feeder.start()
    got = part.run(["dump", "--names", "fifo"], given)
    # If nobody has opened the FIFO, the feeder still waits.
    os.close(os.open(path, os.O_RDONLY | os.O_NONBLOCK))
    feeder.join()
    os.remove(path)
    return got


def run_with_pipe(part, octets, sizes, given):
    """Runs `dump` with a names file that is a pipe, as with `--names <(..)` in bash."""
    reading, writing = os.pipe()
    feeder = threading.Thread(target=feed, args=(writing, octets, sizes))
    feeder.start()
    got = part.run(["dump", f"--names=/dev/fd/{reading}"], given, pass_fds=[reading])
    os.close(reading)
    feeder.join()
    return got


def takes_pieces(part, what, names, sizes, run=run_with_fifo):
    """Checks that the names file is accepted, whatever the pieces."""
    got = run(part, names.octets, sizes, names.given)
    part.expect(what, (got.status, got.out, got.err) == (0, names.out, b""), *got.lines())


def refuses_pieces(part):
    """A names file that is refused in one piece is also refused in single octets."""
    long_line, comment = b"#" * (LINE_LIMIT + 1) + b"\n", b"#" * LINE_LIMIT + b"\n"
    full = comment * (FILE_LIMIT // len(comment))
    full += b"#" * (FILE_LIMIT - len(full))
    for what, octets, said in [
        ("a line that is too long", US[0] + long_line, "N4 names file too large"),
        ("an octet too many", full + b"\n", "N4 names file too large"),
        ("a repeat", US[0] * 2, "N3 line 2: repeated"),
        ("no name", TEMPLATE.encode(), "N2 line 1: no usable name"),
    ]:
        got = run_with_fifo(part, octets, [1], US[1])
        fine = (got.status, got.out, got.err) == (4, b"", said.encode() + b"\n")
        part.expect(f"{what}, in single octets", fine, *got.lines())


def test(part):
    names, table = all_lengths(), full_table()
    takes(part, "the object identifier of a template", template())
    takes(part, "texts and names of all lengths", names)
    takes(part, "as many long lines as may be", many_long_lines())
    takes(part, "as many entries as may be, some of them long", table)
    takes_pieces(part, "a template in single octets", template(), [1])
    takes_pieces(part, "all lengths in single octets", names, [1])
    takes_pieces(part, "all lengths in single octets, by a pipe", names, [1], run_with_pipe)
    takes_pieces(part, "a full table in single octets", table, [1])
    rng = random.Random("pieces of a names file")
    sizes = [rng.choice([1, 2, 15, 100, 400, 1000, 4095, 4096, rng.randrange(1, 4097)]) for _ in range(997)]
    takes_pieces(part, "a full table in pieces", table, sizes)
    takes_pieces(part, "long lines in pieces, by a pipe", many_long_lines(), sizes, run_with_pipe)
    refuses_pieces(part)

"""Refuses each request for memory of tlvdump in turn: the program reports U3 or N6 and does nothing else.

tests/parts/refuse.c is loaded before the C library. It numbers the requests that the program makes, refuses some, and
reports how many came before each file was opened. So the tests know which requests are those of the words and which are
those of the names file: the words come first, then the names
file is read, then FILE is opened, and a run allocates nothing.
"""
import os

from parts.harness import Done, message

# An OCTET STRING with an INTEGER, an empty OCTET STRING at offset 5, and an OBJECT IDENTIFIER at offset 7.
OCTETS = bytes.fromhex("0403020105 0400 0603550403")
LINES = (
    b"       0      3: OCTET STRING 02 01 05\n"
    b"       5      0: OCTET STRING\n"
    b"       7      3: OBJECT IDENTIFIER 2.5.4.3%s\n"
)
PLAIN, NAMED = LINES % b"", LINES % b" (commonName)"
INSIDE = (
    b"       0      3: OCTET STRING wraps {\n"
    b"       2      1:   INTEGER 5\n"
    b"                 }\n"
    b"       5      0: OCTET STRING wraps {\n"
    b"                 }\n"
    b"       7      3: OBJECT IDENTIFIER 2.5.4.3 (commonName)\n"
)
NO_WORDS = Done(5, b"", b"U3 out of memory\n")
NO_NAMES = Done(5, b"", b"N6 out of memory\n")
LAST = 1_000_000_000
OPEN, UNREAD, VALUE = "E5 cannot open the file", "N5 names file not read", "U2 value out of range: --limit"

# Command lines that `clap` accepts, with the results if no request is refused, and the files that are opened.
TAKEN = [
    ("dump --limit 4294967295", 0, PLAIN, "", ""),
    ("dump --rules der", 0, PLAIN, "", ""),
    ("check", 0, b"", "", ""),
    ("extract --offset 007 --contents a.der", 0, OCTETS[9:], "", "a.der"),
    ("indef a.der", 0, OCTETS, "", "a.der"),
    ("dump --names names", 0, NAMED, "", "names"),
    ("dump --inside 0,5 --padding --names names a.der", 0, INSIDE, "", "names a.der"),
    ("dump --names many", 0, NAMED, "", "many"),
    ("dump --rules=der --limit 9 --inside 0,5 --padding --names names a.der", 0, INSIDE, "", "names a.der"),
    # If a file is also missing, or a value out of range, the first fault is reported.
    ("dump --names names missing", 3, b"", OPEN, "names missing"),
    ("dump --names missing missing", 4, b"", UNREAD, "missing"),
    ("dump --names wrong missing", 4, b"", "N1 line 2: not an object identifier", "wrong"),
    ("indef missing", 3, b"", OPEN, "missing"),
    ("dump --limit x --names missing missing", 4, b"", VALUE, ""),
]
# Command lines after which `clap` prints help, or a message on standard error.
PRINTED = ["--help", "extract --help", "--version", "", "dump a b", "dump --limit", "extract a.der"]
PRINTED += ["dump --pure --pure", "indef --padding=1"]
# Command lines for which `clap` looks for similar words.
# If only one request is refused there, it may print a message without them.
ALIKE = ["dump --lim 1", "nonsense", "extrac --offset 0", "check --limit 1"]


class Program:
    """Runs the program with refuse.c loaded before the C library."""

    def __init__(self, part, refusing):
        self.part, self.refusing, self.log, self.runs = part, refusing, part.path("log"), 0

    def run(self, words, first=0, last=0):
        """Runs it, with the requests `first` to `last` refused. Returns the result, and the report of refuse.c."""
        env = dict(os.environ, LD_PRELOAD=self.refusing, REFUSE_LOG=self.log)
        env |= {"REFUSE_FIRST": str(first), "REFUSE_LAST": str(last)}
        if os.path.exists(self.log):
            os.remove(self.log)
        self.runs += 1
        got = self.part.run(words, OCTETS, env=env)
        return got, Requests(self.log)


class Requests:
    """The report of refuse.c: the files that were opened with the
    number of requests before each, and the number of all requests.
    """

    def __init__(self, path):
        self.opened, self.requests, self.refused = [], None, None
        lines = []
        if os.path.exists(path):
            with open(path, encoding="utf-8") as file:
                lines = file.read().splitlines()
        for line in lines:
            kind, count, rest = line.split(" ", 2)
            if kind == "open":
                self.opened.append((rest, int(count)))
            else:
                self.requests, self.refused = int(count), int(rest)

    def files(self):
        return [name for name, _ in self.opened]


class Line:
    """A command line: its result if no request is refused, and
    which requests belong to the words and to the names file.
    """

    def __init__(self, program, text, may_pass=False):
        self.program, self.text, self.may_pass = program, text or "no words", may_pass
        self.words = text.split()
        self.own, log = program.run(self.words)
        self.files, self.requests = log.files(), log.requests or 0
        # The requests of the words end where the first file is opened.
        self.of_words = log.opened[0][1] if log.opened else self.requests

    def expected_results(self, number, is_alone):
        """Returns the allowed results if this request is refused, and the files that are opened then."""
        if number > self.requests:
            return [self.own], self.files
        if number > self.of_words:
            return [NO_NAMES], self.files[:1]
        return [NO_WORDS, self.own] if self.may_pass and is_alone else [NO_WORDS], []

    def refuse(self, number, is_alone):
        """Refuses this request, alone or with all after it.

        Returns how many were refused, and lines about the result if it is not allowed.
        """
        got, log = self.program.run(self.words, number, number if is_alone else LAST)
        wanted, files = self.expected_results(number, is_alone)
        if got in wanted and log.files() == files:
            return log.refused, []
        lines = [f"request {number}: wanted {done.lines()}" for done in wanted]
        lines += [f"got {got.lines()}", f"opened {log.files()}, wanted {files}"]
        return log.refused, lines

    def refuse_each(self):
        """Refuses each request in turn, until a run makes no request that is refused."""
        for is_alone in (True, False):
            refused, number, wrong = 1, 0, []
            while refused:
                number += 1
                refused, lines = self.refuse(number, is_alone)
                wrong += lines
            how = "alone" if is_alone else "and all after it"
            what = f"{self.text}: each of {self.requests} requests refused, {how}"
            is_last = number == self.requests + 1 > 1
            self.program.part.expect(what, is_last and not wrong, f"{number} runs", *wrong[:12])


def check_taken(part, program):
    for text, status, out, err, files in TAKEN:
        line = Line(program, text)
        part.same(f"{text}: no request refused", line.own, Done(status, out, message(err)))
        part.expect(f"{text}: the files", line.files == files.split(), str(line.files))
        # The names file takes memory when it is read. A run takes none.
        after = line.requests - line.of_words
        reads_names = not {"names", "many", "wrong"}.isdisjoint(line.files)
        fine = after > 0 if reads_names else after == 0
        part.expect(f"{text}: {after} requests after the words", fine)
        line.refuse_each()


def check_printed(part, program):
    for text in PRINTED + ALIKE:
        line = Line(program, text, text in ALIKE)
        fine = line.own == part.run(line.words) and line.own.status in (0, 4) and not line.files
        part.expect(f"{text or 'no words'}: no request refused", fine, *line.own.lines())
        line.refuse_each()


def test(part):
    refusing = part.made_of("refuse.c")
    if not refusing:
        return
    program = Program(part, refusing)
    part.write("a.der", OCTETS)
    part.write("names", b"# x\n2.5.4.3 commonName\n")
    entries = [b"2.5.4.%d %s\n" % (number, b"n" * 300) for number in range(4, 44)]
    part.write("many", b"2.5.4.3 commonName\n" + b"".join(entries))
    part.write("wrong", b"2.5.4.3 commonName\n1.40 x\n")
    check_taken(part, program)
    check_printed(part, program)
    part.note(f"{len(TAKEN) + len(PRINTED + ALIKE)} lines of words, {program.runs} runs")

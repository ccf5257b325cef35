"""Runs the built program tlvdump-show, installed below a prefix as ./install does it."""
import itertools
import os
import re

from parts.harness import Done, message
from second_opinion.names import read_names
from second_opinion.running import put
from second_opinion.showing import File, Show, run


# Options without reasons after the messages, and options with which no string is examined.
WITHOUT_REASONS, WITHOUT_STRINGS = {"--raw", "--why"}, {"--offset", "--offsets"}
# The lines of findings, and of outermost elements that begin with many different octets: only --why has them.
FOUND = re.compile(r"\d+ [A-Z]\d\d |It has ")


def words_of_why(words):
    """Returns those of the words that --why accepts, too."""
    kept = [word for word in words if word in ("--padding", "--closed") or word.startswith("--as=")]
    return kept + [f"--as={value}" for word, value in itertools.pairwise(words) if word == "--as"]


class Program:
    """Runs tlvdump-show below the folder "prefix" of a part, with the names file of this tree."""

    def __init__(self, part):
        self.part = part
        names = os.path.join(part.root, "data", "names.txt")
        self.path = put(part.suite.show_program, part.path("prefix/bin/tlvdump-show"))
        with open(put(names, part.path("prefix/share/tlvdump/names.txt")), "rb") as file:
            self.names = read_names(file.read())

    def run(self, words, given=b"", **how):
        """Runs it with these octets on a pipe, or with `stdin`. Returns the result."""
        return self.part.run(words, given, program=self.path, **how)

    def gives(self, words, given, status, out=b"", err="", what="", **how):
        """Counts one test: with these words it gives this status, output and lines on standard error."""
        got = self.run(words, given, **how)
        what = what or " ".join(words) or "no words"
        self.part.same(what, got, Done(status, out, f"{err}\n".encode() if err else b""))

    def reasons(self, octets, *words):
        """Returns the lines that follow the messages of a run with these words on these octets, which are one block.

        They are the lines of --why after those that precede the reasons.
        """
        options = {word.partition("=")[0] for word in words}
        if options & WITHOUT_REASONS:
            return []
        got = self.run(["--why", *words_of_why(words)], octets)
        lines = [line for line in got.out.decode().splitlines() if got.status == 2 or not FOUND.match(line)]
        front = ("It does not parse: ",) if got.status == 2 else ("It parses: ", "By the rules of BER: ", "The string at ")
        # If no string is broken, the third of these lines is absent, and there are no reasons.
        is_whole = all(line.startswith(it) for line, it in zip(lines, front)) and len(lines) >= min(len(front), 2)
        self.part.expect(f"--why of {octets[:20].hex()}: the lines in front", is_whole, *got.lines())
        if got.status != 2 and options & WITHOUT_STRINGS:
            return []
        return lines[len(front) :]

    def with_reasons(self, said, octets, *words):
        """Returns the lines of messages, followed by the reasons of these octets."""
        return "\n".join([said, *self.reasons(octets, *words)]) if said else ""

    def refuses(self, words, given=b"", **how):
        """Counts one test: it refuses these words with a text of `clap`."""
        got = self.run(words, given, **how)
        fine = got.status == 4 and not got.out and got.err.startswith(b"error: ")
        self.part.expect(f"refused: {' '.join(words)}", fine, *got.lines())

    def wanted(self, job, octets, **options):
        """Returns what the second opinion expects of a run on standard input."""
        show = Show(job, files=[File("-", octets, True)], **options)
        wanted = run(show, lambda: self.names)
        return Done(wanted.status, wanted.out, wanted.err)

    def agrees(self, what, octets, *jobs, is_large=False):
        """Counts tests: for each of these jobs, or for all three, it does what the second opinion expects.

        In a large input the reasons are compared with those of --why,
        because the second opinion would take minutes for them.
        """
        for job in jobs or ("dump", "check", "offsets"):
            words = [] if job == "dump" else [f"--{job}"]
            wanted = self.wanted(job, octets, has_reasons=not is_large)
            if is_large:
                said = self.with_reasons(wanted.err.decode().removesuffix("\n"), octets, *words)
                wanted.err = message(said)
            self.part.same(f"{what}: {job}", self.run(words, octets), wanted)

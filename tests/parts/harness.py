"""Runs the program, compares the results with the expected ones, and counts the tests."""
import functools
import os
import shutil
import signal
import subprocess
import sys
import tempfile

HERE = os.path.dirname(os.path.realpath(__file__))
# Tools that are not in the list of tests/tools.
EVERYWHERE = ("rt", "base64", "od")
# The time limit of a run, which must hold on a busy machine.
SECONDS = 120


class Done:
    """The result of a run: its status (or the signal, negative), and what it wrote."""

    def __init__(self, status, out, err):
        self.status, self.out, self.err = status, out, err

    def __eq__(self, other):
        return (self.status, self.out, self.err) == (other.status, other.out, other.err)

    def lines(self):
        return [
            f"status {shown_status(self.status)}",
            f"output {shown(self.out)}",
            f"errors {shown(self.err)}",
        ]


def shown_status(status):
    if isinstance(status, int) and status < 0:
        return f"death by {signal.Signals(-status).name}"
    return str(status)


def shown(octets):
    text = repr(octets)
    return text if len(text) <= 600 else f"{text[:300]} .. {text[-280:]} ({len(octets)} octets)"


def message(text):
    """Returns what a run writes to standard error for this message: one line, or nothing."""
    return text.encode() + b"\n" if text else b""


class Suite:
    """The counts of all parts, and the temporary folder. `find_show` returns the path of tlvdump-show. `tools` is the list of
    tests/tools: whether a tool is needed or useful, by its name.
    """

    def __init__(self, program, find_show, root, tools):
        self.program, self.find_show, self.root, self.tools = program, find_show, root, tools
        self.passed = self.failed = 0

    def __enter__(self):
        self.folder = tempfile.mkdtemp(prefix="tlvdump-tests-")
        return self

    def __exit__(self, *_):
        shutil.rmtree(self.folder, ignore_errors=True)

    @functools.cached_property
    def show_program(self):
        """Returns the path of tlvdump-show. It is built when a part first asks for it."""
        return self.find_show()

    def part(self, name):
        folder = os.path.join(self.folder, name)
        os.mkdir(folder)
        return Part(self, name, folder)


class Part:
    """The functions that the tests of one part use. `folder` is the folder in which its runs are made."""

    def __init__(self, suite, name, folder):
        self.suite, self.name, self.folder = suite, name, folder
        self.program, self.root = suite.program, suite.root

    def path(self, name):
        return os.path.join(self.folder, name)

    def write(self, name, octets):
        """Writes a file in the part's folder. Returns its path."""
        with open(self.path(name), "wb") as file:
            file.write(octets)
        return self.path(name)

    def start(self, words, program=None, called=None, **how):
        """Starts the program, or the one at another path, under its path or the name `called`.

        It has the signals of a program that a shell starts.
        """
        how.setdefault("cwd", self.folder)
        path = program or self.program
        return subprocess.Popen([called or path, *words], executable=path, **how)

    def run(self, words, given=b"", **how):
        """Runs the program with these octets on a pipe, or with `stdin`. Returns the result."""
        if "stdin" not in how:
            how["stdin"] = subprocess.PIPE
        how.setdefault("stdout", subprocess.PIPE)
        how.setdefault("stderr", subprocess.PIPE)
        child = self.start(words, **how)
        given = given if how["stdin"] == subprocess.PIPE else None
        try:
            out, err = child.communicate(given, timeout=SECONDS)
        except subprocess.TimeoutExpired:
            child.kill()
            child.communicate()
            return Done("none: it did not end", b"", b"")
        return Done(child.returncode, out or b"", err or b"")

    def made_of(self, source):
        """Compiles a C source of this folder for LD_PRELOAD. Returns the path of the object.

        If it cannot be compiled, that is a failure, and the path is None.
        """
        if not self.has("cc"):
            return None
        path = self.path(source.removesuffix(".c") + ".so")
        words = ["cc", "-O1", "-U_FORTIFY_SOURCE", "-shared", "-fPIC", "-o", path, os.path.join(HERE, source)]
        got = subprocess.run(words, capture_output=True, text=True)
        self.expect(f"{source} compiles", got.returncode == 0, got.stdout, got.stderr)
        return path if got.returncode == 0 else None

    def has(self, tool):
        """Returns whether the machine has this tool. If it has not, that is a failure, or, of a tool that is only useful, is
        reported in a note. A tool that tests/tools does not list is a failure, but for what each Debian has and the kit's rt.
        """
        if tool not in self.suite.tools and tool not in EVERYWHERE:
            self.expect(f"the tool {tool}", False, "tests/tools does not list it")
        if shutil.which(tool):
            return True
        if self.suite.tools.get(tool) == "useful":
            self.note(f"no {tool}: what needs it is not run")
        else:
            self.expect(f"the tool {tool}", False, "this machine does not have it")
        return False

    def expect(self, what, fine, *lines):
        """Counts one test. Reports it if it fails."""
        if fine:
            self.suite.passed += 1
            return
        self.suite.failed += 1
        print(f"FAILED {self.name}: {what}")
        for line in lines:
            print(f"    {line}")
        sys.stdout.flush()

    def same(self, what, got, wanted):
        """Counts one test: the result is the wanted one."""
        got_lines, wanted_lines = got.lines(), wanted.lines()
        differing = [f"wanted {w}\n       got {g}" for g, w in zip(got_lines, wanted_lines) if g != w]
        self.expect(what, got == wanted, *differing)

    def gives(self, words, given, status, out=b"", err="", **how):
        """Counts one test: with these words the program gives this status, output and message."""
        got = self.run(words, given, **how)
        self.same(" ".join(words) or "no words", got, Done(status, out, message(err)))

    def note(self, text):
        """Prints a note. It is not counted as a test."""
        print(f"{self.name}: {text}")

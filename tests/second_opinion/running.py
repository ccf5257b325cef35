"""Runs the program on the cases of seeds, and compares the results with what the pages describe."""
import os
import shlex
import shutil
import subprocess

from second_opinion import cases, commands, show_cases, showing, why_cases
from second_opinion.names import read_names

SECONDS = 120


class Runner:
    """Runs the program in a folder that has the input and the names file of a case."""

    name = "tlvdump"

    def __init__(self, program, folder):
        """Keeps the path of the program, and the folder."""
        self.program, self.folder, self.written = os.path.realpath(program), folder, []

    def path(self, name):
        """Returns the path of a file of the folder."""
        return os.path.join(self.folder, name)

    def write(self, name, octets):
        """Writes a file of the folder."""
        with open(self.path(name), "wb") as file:
            file.write(octets)

    def write_files(self, case):
        """Writes the inputs and the names file of a case, and removes those of the case before."""
        for name in self.written:
            os.remove(self.path(name))
        files = {case.file: case.octets, case.names_file: case.names, **case.more}
        self.written = list(files)
        for name, octets in files.items():
            self.write(name, octets)

    def run(self, words, octets):
        """Returns the program's status, output and message. `octets` is None if FILE is named."""
        how = {"cwd": self.folder, "stdin": subprocess.DEVNULL if octets is None else subprocess.PIPE}
        with open(self.path("out"), "w+b") as out, open(self.path("err"), "w+b") as err:
            child = subprocess.Popen([self.program, *words], stdout=out, stderr=err, close_fds=False, **how)
            try:
                child.communicate(octets, timeout=SECONDS)
            except subprocess.TimeoutExpired:
                child.kill()
                child.communicate()
            return child.returncode, read_whole(out), read_whole(err)

    def case_of(self, seed):
        """Returns the case of a seed."""
        return cases.case_of(seed)

    def wanted(self, it, case):
        """Returns the expected status, output and message of a run."""
        wanted = commands.run(it.options, case.octets, lambda: read_names(case.names))
        return wanted.status, wanted.out, wanted.message.encode() + b"\n" * bool(wanted.message)

    def differences(self, seed):
        """Runs the case of a seed. Returns a text for each difference."""
        case = self.case_of(seed)
        self.write_files(case)
        texts = []
        for it in case.runs:
            wanted = self.wanted(it, case)
            got = self.run(it.words, case.octets if it.by_pipe else None)
            if got != wanted:
                texts.append(difference(self.name, case, it, wanted, got))
        return texts


class ShowRunner(Runner):
    """Runs tlvdump-show in a folder, installed below "prefix" with the names file `names`."""

    name = "tlvdump-show"

    def __init__(self, program, folder, names):
        """Installs the program and the names file below the prefix."""
        super().__init__(program, folder)
        self.program = put(program, self.path("prefix/bin/tlvdump-show"))
        with open(put(names, self.path("prefix/share/tlvdump/names.txt")), "rb") as file:
            self.names = read_names(file.read())

    def case_of(self, seed):
        """Returns the case of a seed."""
        return show_cases.case_of(seed)

    def wanted(self, it, case):
        """Returns the expected status, output and messages of a run."""
        wanted = showing.run(it.options, lambda: read_names(case.names) if it.options.names else self.names)
        return wanted.status, wanted.out, wanted.err


class WhyRunner(ShowRunner):
    """Runs tlvdump-show --why, installed in the same way."""

    def case_of(self, seed):
        """Returns the case of a seed."""
        return why_cases.case_of(seed)


def put(source, target):
    """Copies a file into a folder, which is made if it is missing. Returns the path of the copy."""
    os.makedirs(os.path.dirname(target), exist_ok=True)
    return shutil.copy(source, target)


def read_whole(file):
    """Returns the contents of an open file."""
    file.seek(0)
    return file.read()


def difference(name, case, it, wanted, got):
    """Returns the text of a difference: the seed, the words, the input, and the first line that differs."""
    words = shlex.join(word if len(word) < 200 else f"{word[:40]}..({len(word)})" for word in it.words)
    lines = [f"seed {case.seed}: {name} {words}", f"input {case.octets.hex()}"]
    lines += [f"as a text {case.octets!r}"] * (b"\n" in case.octets)
    lines += [f"{name}: {octets!r}" for name, octets in case.more.items() if name in it.words]
    if it.options.names:
        lines.append(f"names {case.names[:5000]!r}")
    if wanted[0] != got[0]:
        lines.append(f"status: wanted {wanted[0]}, got {got[0]}")
    for what, one, other in (("output", wanted[1], got[1]), ("message", wanted[2], got[2])):
        if one != other:
            lines += first_unlike(what, one, other)
    return "\n".join(lines)


def first_unlike(what, wanted, got):
    """Returns lines that show where two outputs first differ."""
    wanted, got = wanted.splitlines(True), got.splitlines(True)
    place = 0
    while wanted[place : place + 1] == got[place : place + 1]:
        place += 1
    wanted, got = wanted[place : place + 1], got[place : place + 1]
    return [f"{what}, line {place + 1}: wanted {wanted}", f"    got {got}"]

"""The program and the yardsticks: the words that start them, their texts, and their times."""
import contextlib
import io
import math
import os
import re
import subprocess
import sys

HERE = os.path.dirname(os.path.realpath(__file__))

# The yardsticks: the source of each, and the name of its walk.
YARDSTICKS = {"yardstick": ("yardstick.c", "walk"), "fast": ("fast_yardstick.c", "fast walk")}
COMPILE = dict.fromkeys(YARDSTICKS, ["-O2", "-march=native"])
# Valgrind does not know all the instructions that -march=native allows.
COMPILE_COUNTED = {"yardstick": ["-O2"], "fast": ["-O2", "-mavx2", "-mbmi2"]}
BLOCK = 1 << 20
NOWHERE = str(1 << 40)  # an offset without an element
NULL = b"\x05\x00"  # an input for which a program does little but start

# What is measured: the words of the program, and the statuses that are right.
COMMANDS = {
    "dump": (["dump"], (0,)),
    "dump der": (["dump", "--rules", "der"], (0, 1)),
    "check ber": (["check", "--rules", "ber"], (0,)),
    "check der": (["check"], (0, 1)),
    "extract": (["extract", "--offset", NOWHERE], (1,)),
    "indef": (["indef"], (0,)),
}
# Of real files nobody knows whether they have findings, which the yardsticks do not write.
MAY_HAVE_FINDINGS = ("real",)
FINDING = re.compile(rb"^ *\d+ +[BCD]\d\d: .*\n", re.M)
# Where text goes.
OUTPUTS = ("null", "pipe", "file")


def stop(text):
    sys.exit(f"bench/run: {text}")


def compile_yardstick(source, folder, flags):
    """Compiles a yardstick into the folder. Returns its path, or None if that fails."""
    path = os.path.join(folder, os.path.splitext(source)[0])
    words = [os.environ.get("CC", "cc"), *flags, os.path.join(HERE, source), "-o", path]
    try:
        if subprocess.run(words, stderr=subprocess.DEVNULL).returncode == 0:
            return path
    except FileNotFoundError:
        pass
    print(f"not compiled: {' '.join(words)}")
    return None


class Rig:
    """The program and the yardsticks, and the words that start each of them for what is measured.

    There is no fast yardstick if it cannot be compiled, as on a processor that lacks its instructions.
    """

    def __init__(self, program, folder, flags):
        """Compiles the yardsticks into the folder, each with its flags."""
        self.words = {name: [program, *words] for name, (words, _) in COMMANDS.items()}
        self.yardsticks = []
        for name, (source, walk) in YARDSTICKS.items():
            path = compile_yardstick(source, folder, flags[name])
            if path:
                self.yardsticks.append(name)
                self.words |= {name: [path], walk: [path, "w"]}
        if "yardstick" not in self.yardsticks:
            stop("there is no yardstick")

    def check_status(self, name, status, path):
        right = COMMANDS.get(name, (None, (0,)))[1]
        if name in COMMANDS and os.path.basename(path) in MAY_HAVE_FINDINGS:
            right = (0, 1)
        if status not in right:
            stop(f"{' '.join(self.words[name])} <{path} ended with status {status}")


# Texts


def first_difference(one, other):
    """Compares two pipes. Returns the first line that differs, or None."""
    lines = 1
    while True:
        left, right = one.read(BLOCK), other.read(BLOCK)
        if left != right:
            same = len(os.path.commonprefix([left, right]))
            return lines + left.count(b"\n", 0, same)
        if not left:
            return None
        lines += left.count(b"\n")


@contextlib.contextmanager
def text_of(rig, what, path):
    """Gives the text of a dump as a pipe, and then checks the status. What is not read is thrown away."""
    with open(path, "rb") as file:
        child = subprocess.Popen(rig.words[what], stdin=file, stdout=subprocess.PIPE, stderr=subprocess.DEVNULL)
    yield child.stdout
    while child.stdout.read(BLOCK):
        pass
    child.stdout.close()
    rig.check_status(what, child.wait(), path)


def compare_text(rig, other, path):
    """Compares the program's text with that of a yardstick. Returns the first line that differs, or None."""
    with text_of(rig, "dump", path) as left, text_of(rig, other, path) as right:
        if os.path.basename(path) in MAY_HAVE_FINDINGS:
            left = io.BytesIO(FINDING.sub(b"", left.read()))
        return first_difference(left, right)


def compare_texts(rig, paths):
    """Prints which texts differ. Returns whether all are the same."""
    same = True
    for name, path in paths.items():
        for other in rig.yardsticks:
            line = compare_text(rig, other, path)
            if line is not None:
                print(f"{name}: the program's text differs from that of {other}, first in line {line}")
                same = False
    if same:
        print(f"The program's text is the same as that of {' and of '.join(rig.yardsticks)} on each input.\n")
    return same


# Seconds


@contextlib.contextmanager
def output_to(where, folder):
    """Opens where an output goes: /dev/null, a pipe to another process, or a file that is new in each run."""
    if where == "pipe":
        with subprocess.Popen(["cat"], stdin=subprocess.PIPE, stdout=subprocess.DEVNULL) as reader:
            yield reader.stdin
        return
    with open(os.path.join(folder, "output") if where == "file" else os.devnull, "wb") as file:
        yield file


def run_once(words, path, output=subprocess.DEVNULL):
    """Returns user and system seconds, and the status."""
    with open(path, "rb") as file:
        child = subprocess.Popen(words, stdin=file, stdout=output, stderr=subprocess.DEVNULL)
        _, status, used = os.wait4(child.pid, 0)
        child.returncode = os.waitstatus_to_exitcode(status)
    return used.ru_utime + used.ru_stime, child.returncode


def best_seconds(rig, path, rounds):
    """Returns the best time of `rounds` rounds for each command. All commands take part in each round."""
    best = dict.fromkeys(rig.words, math.inf)
    for _ in range(rounds):
        for name, words in rig.words.items():
            seconds, status = run_once(words, path)
            rig.check_status(name, status, path)
            best[name] = min(best[name], seconds)
    return best


def best_by_output(rig, path, folder, rounds):
    """Returns the best time of `rounds` rounds for each output and each dumper."""
    best = {(where, what): math.inf for where in OUTPUTS for what in ("dump", *rig.yardsticks)}
    for _ in range(rounds):
        for where, what in best:
            with output_to(where, folder) as output:
                seconds, status = run_once(rig.words[what], path, output)
            rig.check_status(what, status, path)
            best[where, what] = min(best[where, what], seconds)
    return best


def without_start(best, start):
    """Returns the times without those of a start, by the same keys."""
    return {what: max(best[what] - start[what], 1e-6) for what in best}


def null_input(folder):
    path = os.path.join(folder, "null")
    with open(path, "wb") as file:
        file.write(NULL)
    return path


def measure(rig, paths, folder, rounds):
    """Returns seconds by input and by command, without the time to start."""
    start = best_seconds(rig, null_input(folder), max(rounds, 5))
    seconds = {}
    for name, path in paths.items():
        seconds[name] = without_start(best_seconds(rig, path, rounds), start)
    return seconds

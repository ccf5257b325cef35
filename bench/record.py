"""Puts measurements into pages, each at the place of its name: between the lines `<!-- NAME: .. -->` and `<!-- end of NAME -->`."""
import contextlib
import io
import os
import platform
import re
import subprocess
import sys
import time

ROOT = os.path.dirname(os.path.dirname(os.path.realpath(__file__)))
PAGES = (("docs", "STATUS.md"), ("bench", "RESULTS.md"))


def place(name):
    return re.compile(rf"(^<!-- {re.escape(name)}:.*-->\n)(.*?)(^<!-- end of {re.escape(name)} -->\n)", re.M | re.S)


def page_of(name):
    """Returns the path and the text of the page that has this place, or None."""
    for names in PAGES:
        path = os.path.join(ROOT, *names)
        with open(path, encoding="utf-8") as file:
            text = file.read()
        if place(name).search(text):
            return path, text
    return None


def has_place(name):
    return page_of(name) is not None


def put(name, lines):
    """Replaces what stands at this place by these lines."""
    path, text = page_of(name)
    middle = "\n" + "\n".join(lines).strip("\n") + "\n\n"
    with open(path, "w", encoding="utf-8") as file:
        file.write(place(name).sub(lambda found: found[1] + middle + found[3], text))
    print(f"{name}: written to {os.path.relpath(path, ROOT)}")


class Both(io.StringIO):
    """Keeps what is printed, and prints it."""

    def __init__(self, out):
        super().__init__()
        self.out = out

    def write(self, text):
        self.out.write(text)
        self.out.flush()
        return super().write(text)


@contextlib.contextmanager
def printed(name):
    """Puts what is printed meanwhile to this place. If something fails, nothing is put."""
    both = Both(sys.stdout)
    with contextlib.redirect_stdout(both):
        yield
    put(name, [f"Measured on {circumstances()}.", "", both.getvalue()])


def table(lines):
    """Returns the lines of a table: the first has the heads. The first column is on the left, the others are on the right."""
    widths = [max(map(len, column)) for column in zip(*lines)]
    lines = [lines[0], ["-" * widths[0], *("-" * (width - 1) + ":" for width in widths[1:])], *lines[1:]]
    return ["| " + " | ".join(cell.rjust(width) if at else cell.ljust(width)
                              for at, (cell, width) in enumerate(zip(line, widths))) + " |" for line in lines]


def circumstances():
    """Returns when, of which commit and on what a measurement was made, and how busy the machine was."""
    commit = subprocess.run(["git", "-C", ROOT, "describe", "--always", "--dirty"], capture_output=True, text=True).stdout.strip()
    with open("/proc/cpuinfo", encoding="utf-8") as file:
        model = re.search(r"^model name\s*: (.*)$", file.read(), re.M)
    name = " ".join(model[1].split()) if model else platform.machine()
    day, load = time.strftime("%d %B %Y").lstrip("0"), os.getloadavg()[2]
    return f"{day}, commit {commit}, {os.cpu_count()} processors ({name}), a load of {load:.1f} over 15 minutes"

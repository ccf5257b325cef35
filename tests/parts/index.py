"""Checks that each file of code, definitions and lemmas begins with a sentence that says what it has. tests/index prints them."""
import os
import re
import subprocess

MARKS = {".rt": "//!", ".antt": "--"}
# The prover's files for one function, by its name; and lists of modules.
BY_NAME = ("Answers.antt", "Invariants.antt", "Lib.antt")


def first_sentence(text, mark):
    """Returns the first sentence of the comment with which a file begins, or an empty text."""
    lines = []
    for line in text.split("\n"):
        if not line.startswith(mark) or not line[len(mark):].strip():
            break
        lines.append(line[len(mark):].strip())
    return re.split(r"(?<=\.) (?=[A-Z`])", " ".join(lines))[0]


def entries(root):
    """Yields the crate, the path in it and the first sentence of each file of code, definitions and lemmas."""
    top = os.path.join(root, "crates")
    for crate in sorted(os.listdir(top)):
        for kind in ("src", "specs", "proofs"):
            for at, folders, names in os.walk(os.path.join(top, crate, kind)):
                folders.sort()
                for name in sorted(names):
                    path = os.path.join(at, name)
                    mark = MARKS.get(os.path.splitext(name)[1])
                    with open(path, encoding="utf-8") as file:
                        text = file.read()
                    if mark and name not in BY_NAME and not text.startswith("pub mod "):
                        yield crate, os.path.relpath(path, os.path.join(top, crate)), first_sentence(text, mark)


def test(part):
    for crate, path, sentence in entries(part.root):
        fine = len(sentence) >= 10 and sentence[0] != "#" and sentence.endswith(".")
        part.expect(f"the first sentence of {crate}/{path}", fine, sentence)
    script = os.path.join(part.root, "tests", "index")
    for word, status in (("tlv_walk", 0), ("X.690", 0), ("no file has this", 1)):
        got = subprocess.run([script, word], capture_output=True, text=True)
        fine = got.returncode == status and bool(got.stdout) == (status == 0) and bool(got.stderr) == (status == 1)
        part.expect(f"tests/index {word}", fine, str(got.returncode), got.stderr)

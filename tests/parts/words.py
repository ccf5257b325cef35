"""Checks the words of specs.

Each word has one definition in the repository, including proofs, so that no reader meets one with two meanings. No file
of specs calls a tactic: what a reader has to believe is written out. Each edit that the prover must refuse is named
after a function of the file that it changes.
"""
import os
import re

CODE = re.compile(r'(?:"(?:\\.|[^"\\])*"|(?!--).)*')
TACTIC = re.compile(r"\b(?:omega|grind|search|simp|cc|ground|assumption)\b")
EDIT = re.compile(r"(?:[A-Z]\w*\.)?(\w+)\.\w+\.edit")
DEFINITION = re.compile(r"^(\s*)(?:(?:abbrev|unfoldable) )?pub (?:(record|data) )?([A-Za-z_◌][\w'◌-]*)")
OF_PROOFS = re.compile(
    r"(?:abbrev |unfoldable )?(?:pub )?(?:(?:record|data) ([A-Za-z_◌][\w'◌-]*)|([A-Za-z_◌][\w'◌-]*) :(?: |$))")


def without_comment(line):
    """Returns a line of specs up to its comment, which begins with "--" outside of a literal."""
    return CODE.match(line)[0]


def definitions(text):
    """Yields the names that a file of specs defines, except fields of records and constructors of data."""
    inside = None
    for line in text.split("\n"):
        depth = len(line) - len(line.lstrip())
        if line.strip() and inside is not None and depth <= inside:
            inside = None
        found = DEFINITION.match(line)
        if not found or inside is not None or found.group(3) in ("mod", "use"):
            continue
        if found.group(2):
            inside = depth
        yield found.group(3)


def definitions_of_proofs(text):
    """Yields the names that a file of proofs defines at its top level and in its modules, except fields and what is
    defined inside a lemma.
    """
    in_module = False
    for line in text.split("\n"):
        depth = len(line) - len(line.lstrip())
        if line.strip() and depth == 0:
            in_module = line.startswith("module ")
        found = OF_PROOFS.match(line.strip())
        if found and (depth == 0 or (depth == 2 and in_module)):
            yield found.group(1) or found.group(2)


def files(root, folder):
    """Yields the path and the text of each file in folders of this name below the root."""
    for crate in sorted(os.listdir(os.path.join(root, "crates"))):
        for at, _, names in sorted(os.walk(os.path.join(root, "crates", crate, folder))):
            for name in sorted(names):
                path = os.path.join(at, name)
                with open(path, encoding="utf-8") as file:
                    yield os.path.relpath(path, root), file.read()


def edits(root):
    """Yields the path of each edit, the function after which it is named, and the text of the file that it changes."""
    for crate in sorted(os.listdir(os.path.join(root, "crates"))):
        folder = os.path.join(root, "crates", crate, "must-fail")
        for name in sorted(os.listdir(folder)) if os.path.isdir(folder) else ():
            path = os.path.join(folder, name)
            with open(path, encoding="utf-8") as file:
                changed = file.readline().removeprefix("file: ").strip()
            with open(os.path.join(root, "crates", crate, changed), encoding="utf-8") as file:
                yield os.path.relpath(path, root), EDIT.fullmatch(name)[1], file.read()


def test(part):
    """Counts a test for each word, one for each file, and one for each edit."""
    homes = {}
    for path, text in files(part.root, "specs"):
        for word in definitions(text):
            homes.setdefault(word, []).append(path)
        tactics = [line for line in text.split("\n") if TACTIC.search(without_comment(line))]
        part.expect(f"{path} calls no tactic", not tactics, *tactics)
    for path, text in files(part.root, "proofs"):
        for word in definitions_of_proofs(text):
            if word in homes:
                homes[word].append(path)
    for word, found in sorted(homes.items()):
        part.expect(f"the word {word} of specs has one definition", len(found) == 1, *found)
    part.expect("specs define words", len(homes) > 500)
    for path, function, source in edits(part.root):
        part.expect(f"{path} is named by a function of the file", re.search(rf"\bfn {function}\b", source))

"""The definitions in specs, and which of them a contract reaches.

`tests/definitions` prints them. A definition is a pair of a file, such as tlv_head.Header, and a name.
"""
import os
import re

from . import contract_pages
from .allocators import uses
from .words import DEFINITION, files, without_comment

IMPORT = re.compile(r"^\s*(?:pub |ghost )*use Rattle\.(tlv_\w+)\.specs\.([\w.]+?)(?:\.\{([^}]*)\}| as (\w+))?;?$", re.M)
TOKEN = re.compile(r"[^\s(){}\[\];,λ:]+")
CLAUSE = re.compile(r"\b(?:requires|ensures|ghost)\b[^;{]*(\{)")


def blocks(text):
    """Yields the name and the text of each definition in a file of specs.
    The text ends where the next definition begins.
    """
    name, inside, lines = None, None, []
    for line in text.split("\n"):
        code = without_comment(line).rstrip()
        depth = len(code) - len(code.lstrip())
        found = DEFINITION.match(code)
        if found and found[3] not in ("mod", "use") and (inside is None or depth <= inside):
            if name:
                yield name, "\n".join(lines)
            name, inside, lines = found[3], depth if found[2] else None, [code]
        elif code.strip():
            inside = inside if inside is not None and depth > inside else None
            lines += [] if code.lstrip().startswith(("use ", "pub use ", "pub mod ", "module ")) else [code]
    if name:
        yield name, "\n".join(lines)


class Definitions:
    """The definitions of all files of specs, as pairs of file and name, and the definitions that each cites."""

    def __init__(self, root):
        self.root, self.homes, self.texts, self.imports, self.by_file = root, {}, {}, {}, {}
        for path, text in files(root, "specs"):
            file = path.split("/", 1)[1].removesuffix(".antt").replace("/specs/", ".").replace("/", ".")
            self.imports[file], self.by_file[file] = IMPORT.findall(text), []
            for name, block in blocks(text):
                self.texts[file, name] = block
                self.by_file[file].append(name)
                self.homes[file, name] = (file, name)
                for constructor in re.findall(r"^ +([A-Za-z]\w*) :", block, re.M) if "data " in block else ():
                    self.homes[file, constructor] = (file, name)

    def home(self, file, name):
        """Returns the place in specs where the name that this file exports is defined, if there is one."""
        found = self.homes.get((file, name))
        for crate, other, names, _ in () if found else self.imports.get(file, ()):
            if name in re.findall(r"[^\s,]+", names):
                return self.home(f"{crate}.{other}", name)
        return found

    def citations(self, text, imports, file=None):
        """Returns the definitions that a text cites, resolved by the imports above it."""
        names, aliases = set(), {}
        for crate, other, group, alias in imports:
            aliases[alias] = f"{crate}.{other}"
            names |= {(f"{crate}.{other}", name) for name in re.findall(r"[^\s,]+", group)}
        names |= {place for place in self.homes if place[0] == file}
        tokens = set(TOKEN.findall(text))
        tokens |= {part for token in tokens for part in token.split(".")}
        found = {self.home(*place) for place in names if all(part in tokens for part in place[1].split("◌") if part)}
        for token in TOKEN.findall(text):
            alias, _, name = token.partition(".")
            found.add(self.home(aliases.get(alias), name.split(".")[0]))
        return found - {None}

    def closure(self, found):
        """Returns these definitions and all that they reach."""
        reached, left = set(), list(found)
        while left:
            place = left.pop()
            if place not in reached:
                reached.add(place)
                left += self.citations(self.texts[place], self.imports[place[0]], place[0])
        return reached

    def of_clauses(self, source):
        """Returns the definitions that the clauses, views and invariants of a source cite."""
        code = re.sub(r"//.*|ghost use [^;]*;", "", source)
        found = set()
        for clause in CLAUSE.finditer(code):
            end, open_braces = clause.end(), 1
            while open_braces:
                open_braces += {"{": 1, "}": -1}.get(code[end], 0)
                end += 1
            found |= self.citations(code[clause.start() : end], IMPORT.findall(source))
        return found

    def of_word(self, word):
        """Returns all that a word reaches: a definition, or a public call or law by its clauses. None if it is neither."""
        found = {place for place in self.texts if place[1] == word}
        for source in sources(self.root):
            names = set(re.findall(r"\w+", word.partition("::")[0]))
            for at, name in contract_pages.items(source, names, True):
                if name == word and contract_pages.FUNCTION.match(source, at):
                    said = " ".join(clause[2] for clause in contract_pages.clauses(source, at))
                    found |= self.citations(said, IMPORT.findall(source))
        return self.closure(found) if found else None

    def lines(self, places):
        """Returns the number of lines of these definitions, without comments."""
        return sum(self.texts[place].count("\n") + 1 for place in places)

    def in_order(self, places):
        """Yields each file that has some of these definitions, with their names, in the order in which to read them: crate
        by crate, and in a crate each file after the files that it needs.
        """
        done, named = set(), uses(self.root)
        crates = sorted({file.partition(".")[0] for file, _ in places}, key=lambda crate: chain(named, crate))

        def visit(file):
            if file in done or file not in self.by_file:
                return
            done.add(file)
            for crate, other, _, _ in self.imports[file]:
                if file.startswith(f"{crate}."):
                    yield from visit(f"{crate}.{other}")
            names = [name for name in self.by_file[file] if (file, name) in places]
            if names:
                yield file, names

        for crate in crates:
            for file in sorted({file for file, _ in places if file.startswith(f"{crate}.")}):
                yield from visit(file)


def chain(named, crate):
    """Returns how many crates of this repository lie below a crate, one below the other, and its place in crates.txt."""
    depth = lambda name: 1 + max((depth(below) for below in named[name] if below in named), default=0)
    return depth(crate), list(named).index(crate)


def sources(root):
    """Yields the text of each source of the crates."""
    crates = os.path.join(root, "crates")
    for crate in sorted(os.listdir(crates)):
        for at, _, names in os.walk(os.path.join(crates, crate, "src")):
            for name in names:
                if name.endswith(".rt"):
                    with open(os.path.join(at, name), encoding="utf-8") as file:
                        yield file.read()

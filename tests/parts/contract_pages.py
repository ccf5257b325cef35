"""Makes a page of what each public call promises, from the comments and clauses in the sources. `tests/make-contracts`
prints it.
"""
import os
import re

from .allocators import uses

BEGINNING = """# What each public call promises

`tests/make-contracts` prints this page from the sources. Each public item of the libraries is here, with the first paragraph
of its comment. The comment in the source has the rest: units, errors, limits.

Each function is proved to be safe, and to return if each read, write and opening of a file does. What it promises beyond that
its clauses say: the name of a clause stands in italics, and behind it the definitions of ours that it names, or, if it names
none, its text. To believe a promise, read these definitions (docs/READING.md), and those that they need: `tests/definitions
CALL` prints them all.
"""
WIDTH = 128
LINK = re.compile(r"\[(`[^`]+`)\](?:\([^)]*\))?")
FUNCTION = re.compile(r"^(?P<indent> *)(?P<word>pub (?:const )?fn|fn) (?P<name>\w+)", re.M)
CLAUSE = re.compile(r"^ *(?P<kind>requires|ensures)(?: (?P<label>\w+))? \{", re.M)
OWNER = re.compile(r"^(?:impl(?:<[^>]*>)? (?P<type>\w+)(?:<[^{]*>)?|pub trait (?P<trait>\w+)(?:: [^{]*)?) \{$", re.M)
ITEM = re.compile(r"^pub (?:enum|struct|trait|const|static|type) (?P<name>\w+)", re.M)
USE = re.compile(r"^ *ghost use Rattle\.(?P<module>tlv_\w+\.specs\.[\w.]+)\.\{(?P<names>[^}]*)\};", re.M)


def read(*parts):
    with open(os.path.join(*parts), encoding="utf-8") as file:
        return file.read()


def sources(folder):
    """Yields the path of each source below the folder, and its text."""
    for at, _, names in sorted(os.walk(folder)):
        for name in sorted(names):
            if name.endswith(".rt"):
                yield os.path.relpath(os.path.join(at, name), folder), read(at, name)


def public_names(library):
    """Returns the names that the `pub use` lines of lib.rt make public, except those of other crates."""
    found = set()
    for group, single in re.findall(r"^pub use (?!tlv_)[\w:]+::(?:\{([^}]*)\}|(\w+));", library, re.M):
        found |= set(re.findall(r"\w+", group or single))
    return found


def first_paragraph(text, at):
    """Returns the first paragraph of the comment before this place."""
    lines = []
    for line in reversed(text[:at].split("\n")[:-1]):
        bare = line.strip()
        if bare.startswith("///"):
            lines.insert(0, bare[3:].strip())
        elif not bare.startswith("#["):
            break
    return " ".join("\n".join(lines).split("\n\n")[0].split("\n"))


def braced(text, at):
    """Returns the text of the braces that begin at this place, on one line, and the place after them."""
    depth, end = 0, at
    while True:
        depth += {"{": 1, "}": -1}.get(text[end], 0)
        end += 1
        if not depth:
            return " ".join(text[at + 1:end - 1].split()), end


def clauses(text, at):
    """Yields the kind, the name and the text of each clause of the function whose line begins at this place."""
    while True:
        end = text.index("\n", at)
        clause = CLAUSE.match(text, at)
        if clause:
            said, end = braced(text, clause.end() - 1)
            yield clause["kind"], clause["label"], said
            end = text.index("\n", end)
        if text[at:end].endswith(("{", ";")) or not clause and text[at:end].endswith("}"):
            return
        at = end + 1


def definitions(text):
    """Returns the module of specs that defines each word, by the word as the source names it."""
    found = {}
    for line in USE.finditer(text):
        for name in line["names"].split(","):
            found[name.strip()] = line["module"]
    return found


def link(root, word, module):
    """Returns the word with a link to the file that defines it. A word that the prover derives from a type has no link.
    """
    crate, _, path = module.partition(".specs.")
    file = os.path.join("crates", crate, "specs", *path.split(".")) + ".antt"
    return f"[{word}]({file})" if os.path.exists(os.path.join(root, file)) else f"`{word}`"


def promise(root, homes, kind, label, said):
    """Returns the line of a clause."""
    words = [word for word in dict.fromkeys(re.findall(r"[^\s(){}\[\],.;]+", said)) if word in homes]
    name = f"{kind} *{label}*" if label else kind
    return f"{name}: " + (", ".join(link(root, word, homes[word]) for word in words) or f"`{said}`")


def entry(root, text, at, name):
    """Returns the lines of an item."""
    homes = definitions(text)
    lines = wrapped("- ", f"`{name}`: " + LINK.sub(r"\1", first_paragraph(text, at)))
    for clause in clauses(text, at) if FUNCTION.match(text, at) else ():
        lines += wrapped("  - ", promise(root, homes, *clause))
    return lines


def wrapped(mark, said):
    """Returns a list item, or a paragraph if there is no mark, wrapped into lines."""
    lines = [mark]
    for word in said.split():
        if lines[-1] != mark and len(lines[-1]) + len(word) >= WIDTH:
            lines.append(" " * len(mark))
        lines[-1] += (" " if lines[-1].strip(" -") else "") + word
    return lines


def items(text, names, is_law):
    """Yields the place and the name of each public item of a source. `names` has those that its crate makes public."""
    owners = [(it.start(), text.index("\n}", it.end()), it) for it in OWNER.finditer(text)]
    for item in sorted([*FUNCTION.finditer(text), *ITEM.finditer(text)], key=lambda it: it.start()):
        name, is_public = item["name"], item.re is ITEM or item["word"].startswith("pub")
        owner = next((it for start, end, it in owners if start < item.start() < end), None)
        if owner and (is_public or owner["trait"]) and (owner["type"] or owner["trait"]) in names:
            yield item.start(), f"{owner['type'] or owner['trait']}::{name}"
        elif not owner and is_public and (name in names or is_law):
            yield item.start(), name


def crate_lines(root, crate):
    """Returns the lines of a crate."""
    folder = os.path.join(root, "crates", crate, "src")
    library = read(folder, "lib.rt")
    title = "\n".join(line[3:].strip() for line in library.split("\n") if line.startswith("//!")).split("\n\n")[0]
    lines, names = [f"## {crate}", "", *wrapped("", title), ""], public_names(library)
    for path, text in sources(folder):
        found = list(items(text, names, path == "laws.rt"))
        if found:
            lines += [f"[{path}](crates/{crate}/src/{path})", ""]
            lines += [line for at, name in found for line in entry(root, text, at, name)] + [""]
    return lines


def libraries(root):
    """Returns the crates that make names public, each after the crates that it uses."""
    named, found = uses(root), []

    def add(crate):
        for other in sorted(named[crate]):
            if other in named:
                add(other)
        library = os.path.join(root, "crates", crate, "src", "lib.rt")
        if crate not in found and os.path.exists(library) and public_names(read(library)):
            found.append(crate)

    for crate in named:
        add(crate)
    return found


def page(root, crates):
    """Returns the text of the page, with these crates."""
    return BEGINNING + "\n" + "\n".join(line for crate in crates for line in crate_lines(root, crate))

"""Checks that each public item of the libraries is on the page that `tests/make-contracts` prints, with its comment, and
each function with its clauses.
"""
import os
import re

from . import contract_pages

# Functions that promise nothing beyond being safe and returning. What a table of texts holds changes no result; which
# words the system gives, no clause can say.
WITHOUT_CLAUSES = ("KnownTexts::new", "words_of")


def entries(root, crate):
    """Yields the name of each item of a crate, and its text: the lines from its own up to the next item."""
    for text in re.split(r"^- ", "\n".join(contract_pages.crate_lines(root, crate)), flags=re.M)[1:]:
        yield re.match(r"`([^`]+)`", text)[1], text


def functions(root, crate):
    """Returns the names of all functions of a crate."""
    texts = (text for _, text in contract_pages.sources(os.path.join(root, "crates", crate, "src")))
    return {found["name"] for text in texts for found in contract_pages.FUNCTION.finditer(text)}


def test(part):
    """Counts a test for each public name, and one for each item."""
    libraries = contract_pages.libraries(part.root)
    part.expect("there are libraries", len(libraries) > 10)
    for crate in libraries:
        items = list(entries(part.root, crate))
        there, called = {name for name, _ in items}, functions(part.root, crate)
        names = contract_pages.public_names(contract_pages.read(part.root, "crates", crate, "src", "lib.rt"))
        for name in sorted(names):
            part.expect(f"the page of contracts has {name} of {crate}", name in there)
        for name, text in items:
            has_comment = re.match(r"`[^`]+`: +\S", text)
            is_function = name.split("::")[-1] in called
            has_clauses = "\n  - " in text or name in WITHOUT_CLAUSES or not is_function
            part.expect(f"{name} of {crate} has its comment and clauses", has_comment and has_clauses)

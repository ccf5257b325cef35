"""Checks what the pages say of the definitions that a reader must believe.

docs/PROVED.md says how many definitions the contract of `run_octets` reaches, how many lines these have, how many more `run` and
`view_octets` reach, and how many the latter reaches in all. README may say the first number too. What the pages give `tests/definitions` must be there. Each definition in
specs must be reached by some contract.
"""
import os
import re

from . import contract_pages
from .definitions import Definitions, sources

# What a page gives the script: in backticks, or in a block, where two spaces end it.
COMMAND = re.compile(r"\btests/definitions ((?:[^`\s]+ ?)+)")
# "277 definitions", "277 short definitions" and so on, wherever the lines of a page end.
NUMBER = re.compile(r"\b(\d+)\s+(?:short\s+)?definitions\b(?:,\s+(?:of\s+)?([\d,]+)\s+lines\b)?")


def said(root, *page):
    """Returns the numbers of definitions that a page says, and the numbers of lines beside them."""
    return [(int(number), int(lines.replace(",", "")) if lines else None) for number, lines in NUMBER.findall(
        contract_pages.read(root, *page))]


def test(part):
    """Counts a test for each number, and one for each file of specs."""
    all_of = Definitions(part.root)
    of_octets = all_of.of_word("run_octets")
    of_view = all_of.of_word("view_octets")
    needed = [of_octets, all_of.of_word("run") - of_octets, of_view - of_octets]
    here = {(len(each), all_of.lines(each)) for each in needed} | {(len(of_view), None)}
    numbers = set(said(part.root, "docs", "PROVED.md"))
    part.expect("docs/PROVED.md says how many definitions a run needs", numbers == here, *sorted(map(str, numbers ^ here)))
    others = {number for number, _ in said(part.root, "README.md")} - {len(of_octets)}
    part.expect("README.md says no other number of definitions", not others, *sorted(map(str, others)))
    for page in ("PROVED.md", "READING.md"):
        for words in COMMAND.findall(contract_pages.read(part.root, "docs", page)):
            unknown = [word for word in words.split() if word not in ("--but", "CALL") and all_of.of_word(word) is None]
            part.expect(f"docs/{page}: tests/definitions {words.strip()}", not unknown, *unknown)
    reached = all_of.closure(set().union(*(all_of.of_clauses(source) for source in sources(part.root))))
    for file, names in sorted(all_of.by_file.items()):
        idle = sorted(set(names) - {name for home, name in reached if home == file})
        part.expect(f"contracts reach each definition of {file}", not idle, *idle)

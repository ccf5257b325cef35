"""Writes the tables of tests/rows_of_definitions as statements that the prover shows by computing.

A table has rows of definitions: what each says of one input. The first character, or word, of a line says what it is:

    # text                   a comment: in front of the first `use`, what the table shows, and else a title of the next row
    use Rattle.m.{x, y}      names that templates and rows use, beside those that all may use (NAMES in parts/row_proofs.py)
    row x {octets} ≡ {list}  a template of the rows up to the next one
    by y {term}              the proof of these rows, if it is not `refl`
    unfolding digits         the definitions that the proofs unfold, of these rows and of all below, up to the next such line
    30 00 | 2, 5             a row: columns for the places of the template, and then for those of the proof
    30 00 | 2, 5  # text     the same, with a title
    | text                   a line for the place {lines} of the row above; if it has none, these lines are its last column

The places are

    {octets}    30 80 (00)*3 "a"   octets, in the notation of parts/row_files.py
    {text}      "a\\n"              a text, as a literal of the prover
    {lines}                        lines of text, each below the row after `| `
    {list}      2, 5               a list
    {findings}  B01, 5 S05         the lines of a check, in the notation of parts/finding_rows.py
    {ending}    done               or F02 at 3: what an input comes to
    {term}      Definite 3         whatever else, as the prover reads it

In a column for octets, a list or findings, `-` stands for none. Columns have ` | ` between them.
"""
import os
import re

from parts.finding_rows import lines_of
from parts.row_files import parts_of
from parts.row_proofs import CODES, WIDTH, in_brackets, list_of, octets, string, uses

HEAD = """-- {heading}
-- `tests/make-rows` writes this file from tests/rows_of_definitions/{file}.rows.
"""
PLACE = re.compile(r"\{(\w+)\}")
COLUMN = re.compile(r'(?:"(?:\\.|[^"\\])*"|[^"|])+')
TITLED = re.compile(r'((?:"(?:\\.|[^"\\])*"|[^"])*?)(?:  # (.*))?')


def items(column):
    return [] if column == "-" else column.split(", ")


def ending(column):
    """Returns what an input comes to, from `done` or from a fault such as `F02 at 3`."""
    code, _, offset = column.partition(" at ")
    return f"(fault_ending {CODES[code]} {int(offset)})" if offset else "Done"


KINDS = {
    "octets": lambda column: in_brackets(octets(parts_of("" if column == "-" else column))),
    "text": lambda column: f"(codes {column})",
    "list": lambda column: in_brackets(list_of(items(column))),
    "findings": lambda column: in_brackets(list_of(map(string, lines_of(column)))),
    "ending": ending,
    "term": in_brackets,
}


class Row:
    """A row: its template, its proof, the definitions that the proof unfolds, its titles, columns, and lines below it."""

    def __init__(self, section, titles, line):
        columns, title = TITLED.fullmatch(line).groups()
        self.section, self.titles, self.lines = section, titles + [title] * bool(title), []
        self.columns = [column.strip() for column in COLUMN.findall(columns)]

    def statement(self, number):
        """Returns the row as a statement with its proof."""
        template, proof = self.section["row"], self.section["by"]
        if self.lines and "{lines}" not in template:
            self.columns += [" ".join(line.strip() for line in self.lines)]
        kinds = [kind for kind in PLACE.findall(f"{template} {proof}") if kind != "lines"]
        if len(kinds) != len(self.columns):
            raise ValueError(f"{template}: {len(kinds)} columns are wanted: {self.columns}")
        filled = iter([KINDS[kind](column) for kind, column in zip(kinds, self.columns)])
        lines = f"(lines {in_brackets(list_of(map(string, self.lines)))})"
        says, proof = (PLACE.sub(lambda place: lines if place[1] == "lines" else next(filled), it) for it in (template, proof))
        says = f"row-{number} : {says}"
        says = says if len(says) <= WIDTH else says.replace(" ≡ ", "\n    ≡ ")
        unfolding = f"unfolding {self.section['unfolding']}\n" if self.section["unfolding"] else ""
        return "".join(f"-- {title}\n" for title in self.titles) + f"{says}\n{unfolding}row-{number} = {proof}\n"


def read(text):
    """Returns what a table shows, the lines with the names that it uses, and its rows."""
    heading, named, rows, titles, section = [], [], [], [], None
    for line in text.split("\n"):
        word, _, rest = line.partition(" ")
        if word == "#":
            (titles if named else heading).append(rest)
        elif word == "use":
            named.append(line)
        elif word == "row":
            section = {"row": rest, "by": "refl", "unfolding": section["unfolding"] if section else "", "unfolds": False}
        elif word == "by":
            section["by"] = rest
        elif word == "unfolding":
            section["unfolding"] = f"{section['unfolding']} {rest}" if section["unfolds"] else rest
            section["unfolds"] = True
        elif word == "|":
            rows[-1].lines.append(rest)
        elif line:
            rows.append(Row(section, titles, line))
            titles = []
    return heading, named, rows


def module(name):
    """Returns the name of the proof file for a table."""
    return "".join(word.capitalize() for word in name.split("_"))


def text(name, table):
    """Returns the text of the proof file for a table."""
    heading, named, rows = read(table)
    body = "\n".join(row.statement(number) for number, row in enumerate(rows, 1))
    head = HEAD.format(heading="\n-- ".join(heading), file=name)
    known = set(re.findall(r"[^\s{},]+", " ".join(line.partition("{")[2] for line in named)))
    return "\n".join([head + "".join(uses(body, known)) + "\n".join(named), "", body])


def files(root):
    """Returns the text of each table, by name."""
    folder = os.path.join(root, "tests", "rows_of_definitions")
    found = {}
    for name in sorted(os.listdir(folder)):
        with open(os.path.join(folder, name), encoding="utf-8") as file:
            found[name.removesuffix(".rows")] = file.read()
    return found

"""Writes the rows of tests/rows as a table in Rust, for the tests that run each row in many ways.

Each row is a line of text, in the notation of crates/tlv_program_tests/src/runs/row.rt.
"""

# The largest number of characters of a line in the file, without the backslash at its end.
WIDTH = 110

HEAD = """//! The rows of tests/rows/{file}.rows. `tests/make-rows` writes this file.

pub(crate) static {name}: &str = "\\
{lines}";
"""
LIST = """//! The rows of tests/rows, file by file. `tests/make-rows` writes this file and those beside it.
{modules}
/// The rows, a text for each file, with a line for each row.
pub(crate) fn tables() -> [&'static str; {count}] {{
    [{tables}]
}}
"""


def groups(parts):
    """Returns octets as groups, from pairs of octets and how often they are repeated."""
    texts, plain = [], ""
    for octets, times in parts:
        if times > 16:
            texts += [plain] * bool(plain) + [f"{octets.hex()}*{times}"]
            plain = ""
        else:
            plain += octets.hex() * times
    return " ".join(texts + [plain] * bool(plain))


def come(row):
    """Returns the field that says how many octets of the output are written after how many octets of the input."""
    pairs, count = [], 0
    for number, octets in row.written:
        count += len(octets)
        pairs.append(f"{number}:{count}")
    return ",".join(pairs) if row.is_timed() else ""


def wrap_line(text):
    """Returns the line as part of a string literal, in pieces of which each but the last ends with a backslash."""
    pieces = []
    while len(text) > WIDTH:
        at = max(place for place in range(WIDTH) if text[place] != " ")
        pieces.append(text[:at] + "\\\n")
        text = text[at:]
    return "".join([*pieces, text, "\n"])


def line(row):
    """Returns the row as a line of text."""
    fields = [row.place, " ".join(row.words), (row.names or b"").hex(), groups(row.parts), row.out.hex()]
    fields += [come(row), str(row.status), str(row.findings()), row.message]
    if any(character in field for field in fields for character in '|"\\\\'):
        raise ValueError(f"{row.place}: a character that the table has for itself")
    return "|".join(fields)


def text(name, rows):
    """Returns the text of the table for a file of rows."""
    return HEAD.format(file=name, name=name.upper(), lines="".join(wrap_line(line(row)) for row in rows))


def list_text(names):
    """Returns the text of the file that names the tables."""
    modules = "".join(f"mod {name};\n" for name in names)
    tables = ", ".join(f"{name}::{name.upper()}" for name in names)
    return LIST.format(modules=modules, count=len(names), tables=tables)

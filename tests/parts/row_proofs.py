"""Writes the rows of tests/rows as statements that the prover shows by computing.

Each statement says what the definitions make of an input.
"""
import re

HEAD = """-- What commands make of the inputs of tests/rows/{file}.rows, shown by computing.
-- `tests/make-rows` writes this file.
"""
# The largest number of columns of a line.
WIDTH = 118
# The names that the statements may use, by the module that has them.
NAMES = {
    "Rattle.std.proofs.Common": "◌≡◌ false true [] ◌∷◌ ◌++◌ None Some codes refl",
    "Rattle.std.specs.Prelude": "Err Ok map negsuc pos replicate",
    "Rattle.std.specs.Fmt": "digits",
    "Rattle.std.specs.Str": "chars is_utf8",
    "Rattle.hex.specs.Hex": "encode_with",
    "lib.Utf8": "encode",
    "Rattle.tlv_head.specs.declared.fault.FaultCode.TheVariants": "Empty Short StrayEnd BadEnd MissingEnd "
    "TagTooLong ReservedLength IndefinitePrimitive LengthTooLarge TooDeep Overrun BadInside",
    "Rattle.tlv_head.specs.declared.header.Class.TheVariants": "Universal Application Context Private",
    "Rattle.tlv_head.specs.declared.header.Size.TheVariants": "Definite Indefinite",
    "Rattle.tlv_show.specs.declared.rules.Rules.TheVariants": "Ber Der Cer",
    "Rattle.tlv_value.specs.Names": "names_of",
    "Rattle.tlv_walk.specs.Ending": "fault_ending",
    "Rattle.tlv_walk.specs.declared.ending.Ending.TheVariants": "Done",
    "Rattle.tlv_walk.specs.Framing": "plain_framing",
    "Rattle.tlv_walk.proofs.GrammarLemmas.Readings": "padding_framing reading",
    "Rattle.tlv_rows.proofs.Words.Octets": "framing_of lines octets",
    "Rattle.tlv_rows.proofs.Words.Runs": "check clean_result dump extract fault_result indef named nameless entries_table "
    "notice_result result result_with",
}
CODES = {
    "F01": "Empty",
    "F02": "Short",
    "F03": "StrayEnd",
    "F04": "BadEnd",
    "F05": "MissingEnd",
    "F06": "TagTooLong",
    "F07": "ReservedLength",
    "F08": "IndefinitePrimitive",
    "F09": "LengthTooLarge",
    "F10": "TooDeep",
    "F11": "Overrun",
    "F12": "BadInside",
}
FAULT = re.compile(r"fault at (\d+): (F\d\d) .*")


def module(name):
    """Returns the name of the proof file for a file of rows."""
    return "".join(word.capitalize() for word in name.split("_")) + "Rows"


def list_of(items):
    return " ∷ ".join([*items, "[]"])


def in_brackets(text):
    return f"({text})" if " " in text else text


def octets(parts):
    """Returns the octets as an expression, from pairs of octets and how often they are repeated."""
    texts, plain = [], b""
    for group, times in parts:
        if times > 16 and len(group) == 1:
            texts += [f'octets "{plain.hex(" ")}"'] * bool(plain) + [f"replicate {times} 0x{group.hex()}"]
            plain = b""
        else:
            plain += group * times
    texts += [f'octets "{plain[at : at + 32].hex(" ")}"' for at in range(0, len(plain), 32)]
    whole = " ++ ".join(texts) or "[]"
    return whole if len(whole) < WIDTH - 40 else " ++\n    ".join(texts)


def join_texts(first, second):
    """Joins two texts, on one line if there is room."""
    is_short = len(first) + len(second.partition("\n")[0]) < WIDTH and "\n" not in first
    return f"{first} {second}" if is_short else f"{first}\n    {second}"


def string(text):
    return '"' + text.replace("\\", "\\\\").replace('"', '\\"').replace("\t", "\\t") + '"'


def output_of(row):
    """Returns the output of the row as an expression: the lines of a dump or a check, octets otherwise."""
    if not row.out:
        return "[]"
    if row.words[0] in ("dump", "check"):
        lines = " ∷\n    ".join([*map(string, row.out.decode().splitlines()), "[]"])
        return f"(lines (\n    {lines}))".replace(" ∷\n    []", " ∷ []")
    return in_brackets(octets([(row.out, 1)]))


def options(words):
    """Returns the values of the options by name, or True for a flag."""
    found, at = {}, 1
    while at < len(words):
        name, sign, value = words[at].partition("=")
        if name in ("--pure", "--padding", "--contents"):
            value = True
        elif not sign:
            at += 1
            value = words[at]
        found[name] = value
        at += 1
    return found


def truth(value):
    return "true" if value else "false"


def framing(given):
    """Returns the framing with which the input is read."""
    if not {"--inside", "--padding"} & set(given):
        return "plain_framing"
    offsets = [str(int(offset)) for offset in given.get("--inside", "").split(",") if offset]
    return f"(framing_of {in_brackets(list_of(offsets))} {truth(given.get('--padding'))})"


def command(words):
    """Returns the command of the words."""
    given = options(words)
    rules = given.get("--rules", "der" if words[0] == "check" else "ber").capitalize()
    if words[0] == "dump":
        limit = f"(Some {int(given['--limit'])})" if "--limit" in given else "None"
        return f"dump {rules} {limit} {truth(given.get('--pure'))} {framing(given)}"
    if words[0] == "check":
        return f"check {rules} {framing(given)}"
    if words[0] == "extract":
        return f"extract {int(given['--offset'])} {truth(given.get('--contents'))} {framing(given)}"
    return f"indef {truth(given.get('--padding'))}"


def made(row):
    """Returns the end of a statement: the output that the row expects for its input."""
    fault = FAULT.fullmatch(row.message)
    if fault:
        said = f"fault_result {row.findings()} {CODES[fault[2]]} {fault[1]} {string(row.message)}"
    elif row.status:
        said = f"notice_result {row.findings()} {string(row.message)}"
    else:
        said = "clean_result"
    return join_texts(f"    ≡ {said}", output_of(row))


def entries(row):
    """Returns the entries of the row's names file."""
    pairs = [line.split(" ", 1) for line in row.names.decode().splitlines()]
    return in_brackets(list_of(f"(codes {string(dotted)}, codes {string(name)})" for dotted, name in pairs))


def read_names(name, row):
    """Returns the statement that the row's names file gives the table of these entries."""
    text = "lines " + in_brackets(list_of(string(line) for line in row.names.decode().splitlines()))
    proof = f"{name}-names = refl\n"
    return join_texts(f"{name}-names : names_of ({text})", f"≡ Ok (entries_table {entries(row)})\n{proof}")


def statement(number, row):
    """Returns the row as a statement with its proof."""
    name, asked, given = f"row-{number}", command(row.words), in_brackets(octets(row.parts))
    proof, result = "refl", "result"
    if row.names is not None:
        proof = join_texts(f"named {entries(row)}", f"{asked[5:]} {given}")
        result = f"result_with (entries_table {entries(row)})"
    elif b"OBJECT IDENTIFIER" in row.out:
        proof = join_texts(f"nameless {asked[5:]}", given)
    title = f"-- {row.title}\n" if row.title else ""
    stated = join_texts(join_texts(f"{name} : {result}", f"({asked})"), given)
    shown = f"unfolding digits encode_with is_utf8 chars encode\n{name} = {proof}\n"
    names = f"\n{read_names(name, row)}" if row.names is not None else ""
    return f"{title}{stated}\n{made(row)}\n{shown}{names}"


def use(module, names):
    """Returns the lines that import names of a module."""
    line = f"use {module}.{{{', '.join(names)}}}\n"
    half = len(names) // 2
    return line if len(line) <= WIDTH else use(module, names[:half]) + use(module, names[half:])


def uses(body, known=()):
    """Returns the lines that import what the statements name, except what is known."""
    words = set(re.findall(r"[^\s(){},;]+", re.sub(r'"(?:\\.|[^"\\])*"|--.*', "", body)))
    for module, names in NAMES.items():
        named = [name for name in names.split() if name.strip("◌") in words and name not in known]
        if named:
            yield use(module, named)


def text(name, rows):
    """Returns the text of the proof file for a file of rows."""
    body = "\n".join(statement(number, row) for number, row in enumerate(rows, 1))
    return f"{HEAD.format(file=name)}{''.join(uses(body))}\n{body}"

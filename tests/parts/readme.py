"""Tests README.md: its examples as written, its links, and the kit that it names.

The examples run one after another at the top of a copy of this repository in which the program is built.
"""
import os
import re
import shutil
import subprocess

from parts.install import clone

# Commands that are not run: a run without a proof, which takes minutes; the gate, which runs this part; and those that change
# the system, which have tests of their own.
TRY = "cd crates/tlvdump && {} | rt try -- dump"
NOT_RUN = [".ci/run", "./install", "./install", "./package"]
TOOLS = ("xxd",)


def blocks_of(text):
    """Returns the language and the lines of each block of code."""
    return [(name, lines.splitlines()) for name, lines in re.findall(r"^```(\w*)\n(.*?)^```$", text, re.M | re.S)]


def commands_of(lines):
    """Returns the commands of an example, each the line after "$ ", with the lines that it writes."""
    commands = []
    for line in lines:
        if line.startswith("$ "):
            commands.append((line[2:], []))
        else:
            commands[-1][1].append(line)
    return commands


def examples(part, blocks):
    root = os.path.dirname(clone(part, "copy", True))
    shown = [lines for name, lines in blocks if name == "console"]
    part.expect("examples", len(shown) >= 3, f"{len(shown)} examples")
    part.expect("an example begins with a command", all(lines[0].startswith("$ ") for lines in shown))
    for words, wanted in [command for lines in shown for command in commands_of(lines)]:
        how = {"cwd": root, "stdin": subprocess.DEVNULL, "stdout": subprocess.PIPE, "stderr": subprocess.STDOUT}
        got = subprocess.run(["sh", "-c", words], timeout=120, **how)
        part.expect(words, got.stdout.decode().splitlines() == wanted, got.stdout.decode())
    shutil.rmtree(root)


def not_run(part, blocks):
    """Checks that the other shell blocks contain only commands that exist, and that what is run without a proof is the command
    that a proof is made for.
    """
    first, *others = [line for name, lines in blocks if name == "sh" for line in lines]
    proved = [words.split(" | ") for name, lines in blocks if name == "console" for words, _ in commands_of(lines)]
    tries = [TRY.format(words[0]) for words in proved if words[1:] == ["./tlvdump dump"]]
    part.expect("the run without a proof", first in tries, first)
    named = [line.split()[0] for line in others]
    part.expect("commands that are not run", named == NOT_RUN, *named)
    for name in set(named):
        part.expect(f"{name} is there", os.access(os.path.join(part.root, name), os.X_OK))
    languages = {name for name, _ in blocks}
    part.expect("languages of blocks", languages == {"sh", "console"}, *languages)


def links(part, text):
    for path in re.findall(r"\]\(([^)#]*)\)", text):
        part.expect(f"the link {path}", os.path.exists(os.path.join(part.root, path)))
    documents = [f"docs/{name}" for name in sorted(os.listdir(os.path.join(part.root, "docs")))]
    missing = [path for path in documents if f"]({path})" not in text]
    part.expect("README names each document", not missing, *missing)


def kit(part, text):
    """README names the kit that the program is proved with. The kit of this machine may have another version, which is
    noted, but must have the same logic: kits of one logic prove by the same rules.
    """
    if not part.has("rt"):
        return
    got = subprocess.run(["rt", "version"], cwd=part.root, capture_output=True, text=True)
    named = re.findall(r"^Proved with `([^`]*)` \(`rt version`\)\.$", text, re.M)
    here = got.stdout.strip()
    fine = got.returncode == 0 and len(named) == 1 and logic_of(named[0]) == logic_of(here) != ""
    part.expect("the kit", fine, f"README names {named}", f"rt version prints {here}")
    if fine and named != [here]:
        part.note(f"README names {named[0]}; this is {here}")


def logic_of(kit):
    """Returns the logic of a kit, from the line that names the kit."""
    return kit.partition(" logic ")[2]


def test(part):
    with open(os.path.join(part.root, "README.md"), encoding="utf-8") as file:
        text = file.read()
    blocks = blocks_of(text)
    if all([part.has(tool) for tool in TOOLS]):
        examples(part, blocks)
    not_run(part, blocks)
    links(part, text)
    kit(part, text)

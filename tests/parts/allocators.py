"""Checks which sources can allocate memory.

docs/PROVED.md says that in the crates of a run only two modules name an allocator, or a type of the kit that holds one:
`names` of tlv_value and `text` of tlv_run. Memory cannot be requested without an allocator, and an allocator cannot be
made without the runtime, which only `main` receives.
"""
import os
import re

from parts.words import files

CRATES = ("tlv_head", "tlv_io", "tlv_walk", "tlv_value", "tlv_show", "tlv_run")
# The sources that may name an allocator, below crates/.
MODULES = re.compile(r"tlv_value/src/names(?:\.rt|/\w+\.rt)|tlv_run/src/text\.rt")
# What these crates may use of others: modules of std and its lemmas, and crates of the kit.
# None of these gives an allocator.
STD, KIT = {"io", "marker", "mem", "proofs"}, {"arrayvec", "hex", "itoa", "simdutf8", "thiserror"}
# Allocators, the runtime that makes one, the types of std that
# hold one, and ways to make a value of a type that is not named.
ALLOCATORS = "Alloc AllocGlobal Allocator AnyAllocGlobal Global HostRuntime LibcRuntime LocalHeap alloc"
HOLDERS = "Arc BTreeMap BTreeSet BinaryHeap Box BufReader BufWriter CString Cow HashMap HashSet LinkedList OsString PathBuf Rc"
HOLDERS += " String ToString Vec VecDeque"
UNSEEN = {"extern", "unsafe"}
WORD = re.compile(rf"\b(?:{'|'.join([*ALLOCATORS.split(), *HOLDERS.split(), *UNSEEN])})\b|\b(?:format|vec)!")
# Comments, literals, and lines that only the prover reads.
NO_CODE = re.compile(r'//[^\n]*|b?"(?:\\.|[^"\\])*"|ghost use [^;]*;', re.S)


def code_of(text):
    return NO_CODE.sub(" ", text)


def reasons(code):
    """Returns the words by which a source could allocate memory, and the modules of std that it uses beyond STD."""
    return set(WORD.findall(code)) | {f"std::{name}" for name in re.findall(r"\bstd::(\w+)", code) if name not in STD}


def uses(root):
    """Returns the crates that each crate uses, as crates.txt says."""
    with open(os.path.join(root, "crates.txt"), encoding="utf-8") as file:
        lines = [line.partition(":") for line in file.read().splitlines() if not line.startswith("#")]
    return {name.strip(): set(below.split()) for name, _, below in lines}


def test(part):
    found = {path.split("/", 1)[1]: reasons(code_of(text)) for path, text in files(part.root, "src")}
    for path, words in sorted(found.items()):
        if path.split("/")[0] in CRATES:
            words = words & UNSEEN if MODULES.fullmatch(path) else words
            part.expect(f"{path} names no allocator", not words, *sorted(words))
    for path in ("tlv_value/src/names.rt", "tlv_value/src/names/table.rt", "tlv_run/src/text.rt"):
        part.expect(f"{path} names one", found.get(path))
    named = uses(part.root)
    for crate in CRATES:
        others = named.get(crate, {"no such crate"}) - KIT - set(CRATES)
        part.expect(f"what {crate} uses", not others, *sorted(others))

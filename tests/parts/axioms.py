"""Checks which functions of C the verdict on a program rests on.

tests/trusted.txt must have the functions that the prover lists for each program, and say which of them the program calls. It
must also have all symbols that each program takes from the C library.

For a proved program the list comes from `rt check`, which starts from the results of earlier runs. After `rt ci` alone
only the built libraries are kept, in crates/*/out. Then the prover is run over these libraries, so that it proves only
the functions of the program's own crate.
"""
import os
import re
import subprocess
import time
from concurrent.futures import ThreadPoolExecutor

from parts.allocators import uses

REACHED = re.compile(r"^  (\w+(?:::\w+)+) +reached$", re.M)
PROVED = re.compile(r"^logic=proved .* axioms=(\d+) ", re.M)


def kit():
    """Returns the folder of the kit, which holds the page that `rt doc` names."""
    return os.path.dirname(subprocess.run(["rt", "doc"], capture_output=True, text=True).stdout.strip())


def below(named, crate):
    """Returns all libraries of this repository that a crate depends on."""
    own = [name for name in named[crate] if name in named]
    return {*own, *[name for one in own for name in below(named, one)]}


def words(part, crate):
    """Returns the command that checks a program over the built libraries and prints the list."""
    named, home = uses(part.root), kit()
    out = lambda name: os.path.join(part.root, "crates", name, "out", "rlib")
    found = [f"{home}/bin/rattle", "check", "--crate-name", crate, "src/main.rt", "--list-axioms"]
    found += ["--antt-project", f"{home}/rattle/logic/antt-project.json", "--logic-built", f"{home}/logic_built"]
    found += ["-L", f"dependency={home}/rlibs"]
    for name in sorted(below(named, crate)):
        found += ["-L", f"dependency={out(name)}"]
    for name in sorted({"std", *named[crate]}):
        found += ["--extern", f"{name}={out(name) if name in named else f'{home}/rlibs'}/{name}.rlib"]
    return found


def are_of_ci(part, crate):
    """Returns whether `rt ci` built the libraries below. Any other command leaves a stamp."""
    places = [os.path.join(part.root, "crates", name, "out", "rlib") for name in below(uses(part.root), crate)]
    return not any(os.path.exists(f"{place}/stamp") for place in places) and all(os.path.isdir(place) for place in places)


def listed(part, crate):
    """Returns the functions that the prover lists (None if the
    program is not proved), its output, and the seconds it took.
    """
    began = time.time()
    asked = words(part, crate) if are_of_ci(part, crate) else ["rt", "check", "--list-axioms"]
    how = {"cwd": os.path.join(part.root, "crates", crate), "stdin": subprocess.DEVNULL, "stdout": subprocess.PIPE}
    text = subprocess.run(asked, stderr=subprocess.STDOUT, text=True, errors="replace", **how).stdout
    proved, found = PROVED.search(text), REACHED.findall(text)
    return (sorted(found) if proved and int(proved[1]) == len(found) else None), text, time.time() - began


def trusted(root):
    """Returns the names in each section of tests/trusted.txt, by its heading."""
    found, names = {}, []
    with open(os.path.join(root, "tests", "trusted.txt"), encoding="utf-8") as file:
        for line in file.read().splitlines():
            if line.startswith("== "):
                names = found.setdefault(line[3:], [])
            elif line and not line.startswith("#"):
                names.append(line)
    return found


def programs(file):
    """Returns all functions below each program, and those that it calls."""
    called = set(file["functions that tlvdump calls"])
    below = called | set(file["functions that tlvdump does not call"])
    show = set(file["functions that tlvdump_show calls besides those of tlvdump"])
    alone = set(file["functions of tlv_examples"])
    return {"tlvdump": (below, called), "tlvdump_show": (below | show, called | show), "tlv_examples": (alone, None)}


def page(part, file, of_program):
    """Counts the tests of the file that need no prover: against the symbols of the built programs."""
    repeated = [name for names in file.values() for name in set(names) if names.count(name) > 1]
    part.expect("tests/trusted.txt has each name of a section once", not repeated, *repeated)
    symbols = set(file["symbols that tlvdump takes"])
    compare_symbols(part, "tlvdump", part.program, of_program["tlvdump"], symbols)
    symbols |= set(file["symbols that tlvdump_show takes besides those of tlvdump"])
    compare_symbols(part, "tlvdump_show", part.suite.show_program, of_program["tlvdump_show"], symbols)


def compare_symbols(part, name, program, functions, stated):
    """The file says which functions the program calls, and has each symbol that it takes from a library, and no other."""
    text = subprocess.run(["nm", program], capture_output=True, text=True).stdout
    below, called = functions
    there = {one for one in below if re.search(rf" [TU] {one.split('::')[-1]}(?:@.*)?$", text, re.M)}
    part.expect(f"functions that {name} calls", called == there, *sorted(called ^ there))
    listed = subprocess.run(["nm", "-D", "--undefined-only", program], capture_output=True, text=True).stdout
    there = {line.split()[-1].partition("@")[0] for line in listed.splitlines()}
    part.expect(f"symbols that {name} takes from the C library", stated == there, *sorted(stated ^ there))


def is_of_readme(part):
    """Returns whether the kit is the one that README names. Another kit may have another standard library."""
    version = subprocess.run(["rt", "version"], cwd=part.root, capture_output=True, text=True).stdout.strip()
    with open(os.path.join(part.root, "README.md"), encoding="utf-8") as file:
        return f"Proved with `{version}` " in file.read()


def test(part):
    if not part.has("rt") or not part.has("nm"):
        return
    file = trusted(part.root)
    of_program = programs(file)
    page(part, file, of_program)
    crates = sorted(of_program)
    with ThreadPoolExecutor(len(crates)) as pool:
        results = list(pool.map(lambda crate: listed(part, crate), crates))
    for crate, (found, text, seconds) in zip(crates, results):
        wanted = sorted(of_program[crate][0])
        others = sorted(set(wanted) ^ set(found or wanted))
        part.note(f"{crate}: {len(found or [])} functions, listed in {seconds:.0f} s")
        if found and others and not is_of_readme(part):
            part.note(f"another kit than README names; {crate} differs in {', '.join(others)}")
        else:
            part.expect(f"the functions of C below {crate}", found == wanted, *others, *text.splitlines()[-8:])
    heap = [name for name in of_program["tlv_examples"][0] if name.startswith("libc::heap::")]
    part.expect("tlv_examples reaches no heap", not heap, *heap)

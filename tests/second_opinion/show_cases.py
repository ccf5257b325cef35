"""Draws a random case for tlvdump-show from a seed: an input, a names file, and the runs on them."""
import random

from second_opinion import paths, show_drawing, text_drawing, texts
from second_opinion.cases import LIMITS, Case, Run, names_file
from second_opinion.opened import Strings
from second_opinion.reading import Reading
from second_opinion.showing import File, Show

LARGEST = 1 << 40
# The options that select a job. A dump has none. --offset has a value as well.
JOBS = {"check": [["--check"]], "offsets": [["--offsets"]], "raw": [["--raw"]], "why": [["--why"]]}
# The jobs that may have several FILEs.
OF_SEVERAL = ("dump", "check", "raw", "why")
MOST_OCTETS = 700
TEXTS, FORMS = 1 / 3, 0.1


def case_of(seed):
    """Returns the case of a seed. The same seed always gives the same case. About a third of the inputs are texts."""
    rng = random.Random(f"tlvdump-show {seed}")
    is_text = rng.random() < TEXTS
    octets, padding = (text(rng), rng.random() < 0.1) if is_text else show_drawing.input_octets(rng)
    names = [paths.file_name(rng, "input"), paths.file_name(rng, "names")]
    case = Case(seed, octets, names_file(rng), *names, [])
    if is_text:
        case.more = {"second.txt": text(rng), "third": rng.choice([text, encodings])(rng)}
    jobs = ["dump", "check", "offsets", "offset", "raw", rng.choice(["dump", "dump", "check", "why", "why"])]
    case.runs = [run_of(rng, job, case, padding) for job in jobs]
    return case


def encodings(rng):
    """Returns encodings, small enough for a text."""
    return show_drawing.input_octets(rng)[0][:MOST_OCTETS]


def text(rng):
    """Returns a text of a random form."""
    return text_drawing.text(rng, lambda: encodings(rng))


def run_of(rng, job, case, padding):
    """Returns a run of this job with random options."""
    show = Show(job, padding=padding if rng.random() < 0.95 else not padding)
    if rng.random() < (TEXTS if case.more else FORMS):
        show.as_form = text_drawing.form(rng)
    if job in ("dump", "check", "why"):
        show.closed = rng.random() < 0.15
        if job != "why" and rng.random() < 0.5:
            show.rules = rng.choice(["ber", "der", "cer"])
    if job == "dump":
        show.pure, show.no_text, show.names = rng.random() < 0.15, rng.random() < 0.2, rng.random() < 0.3
        if rng.random() < 0.2:
            show.limit = rng.choice(LIMITS)
    if job == "offset":
        shown = rng.choice(texts.blocks_of(case.octets, show.as_form if show.as_form in text_drawing.FORMS else None))
        show.offset, show.contents = offset(rng, shown.octets, show.padding), rng.random() < 0.4
    if rng.random() < 0.02:
        out_of_range(rng, show)
    by_pipe = rng.random() < 0.2
    return Run(show, words(rng, show, by_pipe, case), by_pipe)


def offset(rng, octets, padding):
    """Returns the offset of an element, possibly inside an opened string, or sometimes another offset."""
    elements = Reading(octets, Strings(octets, padding).opened, padding).elements()
    if elements and rng.random() < 0.9:
        return str(rng.choice(elements).offset)
    return str(rng.choice([0, rng.randrange(len(octets) + 1), len(octets), LARGEST]))


def out_of_range(rng, show):
    """Gives an option of a run a value that is out of range."""
    if show.job in ("dump", "check"):
        show.rules = rng.choice(["BER", "xer", "de", ""])
    elif show.job == "offset":
        show.offset = rng.choice(["1099511627777", "", "1 ", "a", "0" * 14])


def words(rng, show, by_pipe, case):
    """Returns the words: the job and the options in any order, and the FILEs. Notes the values in `show`."""
    given = list(JOBS.get(show.job, []))
    for name in ("rules", "limit", "offset", "as"):
        value = getattr(show, "as_form" if name == "as" else name)
        if value is not None:
            given.append([f"--{name}={value}"] if rng.random() < 0.5 else [f"--{name}", value])
    for name in ("pure", "closed", "no_text", "contents", "padding"):
        if getattr(show, name):
            given.append([f"--{name.replace('_', '-')}"])
    if show.names:
        path, show.names_open = paths.path_to(rng, case.names_file)
        given.append([f"--names={path}"] if rng.random() < 0.5 else ["--names", path])
    given += files(rng, show, by_pipe, case)
    rng.shuffle(given)
    drawn = [word for group in given for word in group]
    if len(show.files) > 1:
        show.files.sort(key=lambda file: drawn.index(file.word))
    return drawn


def files(rng, show, by_pipe, case):
    """Draws the FILEs. Returns their words, each in a group of its own."""
    if by_pipe and rng.random() < 0.7:
        show.files = [File("-", case.octets, True)]
        return [["-"]] if rng.random() < 0.3 else []
    several = show.job in OF_SEVERAL and rng.random() < (0.4 if case.more else 0.2)
    show.files = [File("-", case.octets, True)] if by_pipe else []
    while len(show.files) < (rng.choice([2, 2, 3]) if several else 1):
        name = rng.choice([case.file, case.file, *case.more])
        path, opens = paths.path_to(rng, name)
        if path not in [file.word for file in show.files]:
            show.files.append(File(path, case.more.get(name, case.octets) if opens else None))
    return [[file.word] for file in show.files]

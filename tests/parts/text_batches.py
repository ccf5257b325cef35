"""Runs tlvdump-show on many texts at once, each of which is a FILE: texts that are cut at each place, and random texts.

What --raw writes is compared with the second opinion.
"""
import itertools
import os
import random
import re
import subprocess

from second_opinion import show_cases, showing, text_drawing, texts

BATCHES, EACH = 100, 200
PLAIN = re.compile(rb"[\n\x20-\x7e]*")


def at_each_place(checks, octets):
    """Each text is cut at each place, without --as and with it. Only octets from the beginning are written."""
    for name, form, text in checks.all_of(octets):
        places = iter(range(1, len(text)))
        while batch := list(itertools.islice(places, EACH)):
            given = {f"{place}": text[:place] for place in batch}
            for as_form in (None, form) if form else (None,):
                what = f"{name}, cut at {batch[0]} to {batch[-1]}, --as {as_form}"
                with Files(checks.part, given):
                    same_as_second(checks.part, checks.program, what, given, as_form)
                wrong = [cut for cut in given.values() if not is_beginning(cut, form, as_form, octets)]
                checks.part.expect(f"{what}: no other octets", not wrong, *map(repr, wrong[:9]))


def is_beginning(cut, form, as_form, octets):
    """Returns whether a cut text gives only octets from the beginning, by the second opinion.

    The last octet may lack a digit of its token. A text that is cut before its first octet may be taken for another form:
    of a dump only `00` may be left. A text may by chance be a whole encoding itself.
    """
    last = 1 if b"0x" in cut[-6:].lower() else 0
    blocks = texts.blocks_of(cut, as_form)
    if all(octets.startswith(it.octets[: len(it.octets) - last]) for it in blocks):
        return True
    if as_form:
        return False
    return not any(it.octets for it in texts.blocks_of(cut, form)) or [it.octets for it in blocks] == [cut]


def drawn(part, program):
    """20,000 random texts, in batches of FILEs: the output is
    printable, and --raw writes what the second opinion expects.
    """
    for batch in range(BATCHES):
        rng = random.Random(f"texts {batch}")
        given = {f"{batch}.{number}": show_cases.text(rng) for number in range(EACH)}
        form = rng.choice([None, None, None, *text_drawing.FORMS])
        words = [f"--as={form}"] if form else []
        with Files(part, given):
            got = program.run([*rng.choice([[], ["--check"], ["--closed"]]), *words, *given], stdin=subprocess.DEVNULL)
            fine = got.status in range(5) and PLAIN.fullmatch(got.out) and PLAIN.fullmatch(got.err)
            part.expect(f"drawn texts {batch}: shown", fine, *got.lines())
            same_as_second(part, program, f"drawn texts {batch}, --as {form}: --raw", given, form)


class Files:
    """Files of a part that have these texts. They are removed at the end."""

    def __init__(self, part, given):
        """Keeps the part, and the texts by the name of their file."""
        self.part, self.given = part, given

    def __enter__(self):
        for name, text in self.given.items():
            self.part.write(name, text)

    def __exit__(self, *_):
        for name in self.given:
            os.remove(self.part.path(name))


def same_as_second(part, program, what, given, form):
    """Counts a test: --raw of these FILEs writes what the second opinion expects."""
    words = [f"--as={form}"] if form else []
    got = program.run(["--raw", *words, *given], stdin=subprocess.DEVNULL)
    show = showing.Show("raw", as_form=form, files=[showing.File(name, text) for name, text in given.items()])
    wanted = showing.run(show, dict)
    same = (got.status, got.out, got.err) == (wanted.status, wanted.out, wanted.err)
    part.expect(what, same, *unlike(program, given, form)[:9] if not same else ())


def unlike(program, given, form):
    """Returns lines that name the texts of a batch on which the program and the second opinion differ."""
    lines = []
    for name, text in given.items():
        words = ["--raw"] + ([f"--as={form}"] if form else [])
        got, wanted = program.run(words, text), program.wanted("raw", text, as_form=form)
        if got != wanted:
            lines += [f"{name}: {text[:400]!r}", *(f"  wanted {it}" for it in wanted.lines())]
            lines += [f"  got {it}" for it in got.lines()]
    return lines

"""Compares tlvdump-show with a second implementation of docs/FORMAT.md, docs/TEXTS.md and docs/WHY.md
(tests/second_opinion).

To run it by hand, with any seeds: tests/second --show, and tests/second --why.
"""
import os

from second_opinion.running import ShowRunner, WhyRunner

FIRST, COUNT, COUNT_WHY = 1, 3000, 1000


def compare(part, runner, option, count):
    """Counts a test for each seed of these runs."""
    for seed in range(FIRST, FIRST + count):
        differences = runner.differences(seed)
        what = f"tests/second {option} --seed {seed} --count 1"
        part.expect(what, not differences, *"\n".join(differences).splitlines())


def test(part):
    """Counts a test for each seed."""
    names = os.path.join(part.root, "data", "names.txt")
    compare(part, ShowRunner(part.suite.show_program, part.folder, names), "--show", COUNT)
    compare(part, WhyRunner(part.suite.show_program, part.folder, names), "--why", COUNT_WHY)

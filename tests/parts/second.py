"""Compares the program with a second implementation of docs/FORMAT.md and docs/FINDINGS.md (tests/second_opinion).

To run it by hand, with any seeds: tests/second.
"""
from second_opinion.running import Runner

FIRST, COUNT = 1, 3000


def test(part):
    """Counts a test for each seed."""
    runner = Runner(part.program, part.folder)
    for seed in range(FIRST, FIRST + COUNT):
        differences = runner.differences(seed)
        part.expect(f"tests/second --seed {seed} --count 1", not differences, *"\n".join(differences).splitlines())

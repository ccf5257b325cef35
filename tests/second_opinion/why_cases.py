"""Draws a random case for tlvdump-show --why from a seed: an input, and the runs on it."""
import random

from second_opinion import why_drawing
from second_opinion.cases import Case, Run
from second_opinion.showing import File, Show


def case_of(seed):
    """Returns the case of a seed. The same seed always gives the same case.
    The input is taken as octets, whatever it looks like.
    """
    rng = random.Random(f"tlvdump-show --why {seed}")
    octets, padding = why_drawing.input_octets(rng)
    show = Show("why", padding=padding, closed=rng.random() < 0.1, as_form="octets")
    words = ["--why", "--as", "octets", *["--padding"] * padding, *["--closed"] * show.closed]
    show.files = [File("-", octets, True)]
    return Case(seed, octets, b"", "input", "names", [Run(show, words, True)])

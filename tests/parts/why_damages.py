"""Damages sound encodings at random, and tests how often tlvdump-show --why says what was done.

Each kind of damage has the share of inputs that is answered right, and the least share that is allowed. Inputs that
still parse do not count. Of all damages that change no length, few may have a line about another length. By itself
this file asks the second opinion: python3 tests/parts/why_damages.py [SEED].
"""
import functools
import os
import random
import re
import sys

if __name__ == "__main__":
    sys.dont_write_bytecode = True
    sys.path.insert(0, os.path.dirname(os.path.dirname(os.path.realpath(__file__))))

from parts import packets, real_encodings
from parts.show_made import crl
from second_opinion.reading import Reading
from second_opinion.tries import Walk

SEED, STEP, COUNT = 1, 6, 300
# More octets than are searched as a whole.
LONG = 1 << 20
LENGTH = re.compile(r" at offset (\d+) said (\d+) octets? and not \d+")


class Damage:
    """Damaged octets. For a wrong length: the offset of its header, and the right length. For octets that were lost or
    put in: their number.
    """

    def __init__(self, octets, offset=None, length=None, by=None):
        self.octets, self.offset, self.length, self.by = octets, offset, length, by


@functools.cache
def headers(octets):
    """Returns the elements of definite length, without the outermost ones, whose lengths have lines of their own."""
    return [it for it in Reading(octets).elements() if it.length is not None and it.end != len(octets)]


def can_say(it, length):
    """Returns whether the length octets of an element can say a length."""
    count = len(it.length_octets) - 1
    return 0 <= length < (1 << 8 * count if count else 128)


def with_length(octets, it, length):
    """Returns the damage of a length that is another, or None if the length octets cannot say it."""
    if not can_say(it, length):
        return None
    count = len(it.length_octets) - 1
    said = it.length_octets[:1] + length.to_bytes(count, "big") if count else bytes([length])
    return Damage(octets[: it.start - len(said)] + said + octets[it.start :], it.offset, it.length)


def by_few(rng, octets):
    """A length is wrong by 1 to 5."""
    it = rng.choice(headers(octets))
    return with_length(octets, it, it.length + rng.choice((-1, 1)) * rng.randrange(1, 6))


def by_bit(rng, octets):
    """A bit of a length is wrong, and the length by more than 5."""
    it = rng.choice(headers(octets))
    return with_length(octets, it, it.length ^ 1 << rng.randrange(3, 8 * (len(it.length_octets) - 1) or 7))


def by_swap(rng, octets):
    """The octets of a length stand in reverse order."""
    long = [it for it in headers(octets) if len(it.length_octets) > 2]
    it = rng.choice(long) if long else None
    return with_length(octets, it, int.from_bytes(it.length_octets[:0:-1], "big")) if it else None


def by_256(rng, octets):
    """A length is wrong by 256."""
    long = [it for it in headers(octets) if len(it.length_octets) > 2]
    it = rng.choice(long) if long else None
    return with_length(octets, it, it.length + rng.choice((-256, 256))) if it else None


def in_record(rng, octets):
    """A length in one of many records is wrong by 1 to 5. 2^19 octets or more stand in front of it, and as many behind it, or
    twice as many.
    """
    return among_records(rng, octets, by_few(rng, octets))


def among_records(rng, octets, damage):
    """Puts so many sound records around a damaged one, if there is one."""
    if damage is None:
        return None
    others = octets * (LONG // (2 * len(octets)) + 1)
    behind = others * rng.choice((1, 2))
    offset = None if damage.offset is None else len(others) + damage.offset
    return Damage(others + damage.octets + behind, offset, damage.length)


def by_any(rng, octets):
    """A length is wrong by 6 to 200."""
    it = rng.choice(headers(octets))
    return with_length(octets, it, it.length + rng.choice((-1, 1)) * rng.randrange(6, 201))


def block(rng, octets):
    """Returns the offset of a random block, and the number of its octets."""
    count = min(rng.choice((2, 3, 4, 8, 16, 23)), len(octets))
    return rng.randrange(len(octets) - count + 1), count


def lost(rng, octets):
    """One octet or several are lost."""
    place, count = (rng.randrange(len(octets)), 1) if rng.random() < 0.5 else block(rng, octets)
    return Damage(octets[:place] + octets[place + count :], by=count)


def put_in(rng, octets):
    """One octet or several are put in."""
    place, count = rng.randrange(len(octets)), rng.choice((1, 1, 1, 2, 4, 10))
    return Damage(octets[:place] + rng.randbytes(count) + octets[place:], by=count)


def doubled(rng, octets):
    """An octet or a block stands twice."""
    place, count = (rng.randrange(len(octets)), 1) if rng.random() < 0.5 else block(rng, octets)
    return Damage(octets[: place + count] + octets[place:], by=count)


def edited(rng, octets):
    """A value is longer or shorter by up to 10, which its own length says, and the lengths around it are left, though
    they could say it.
    """
    inner = [it for it in headers(octets) if not it.constructed and 0 < it.length < 100]
    if not inner:
        return None
    it, by = rng.choice(inner), rng.choice((-1, 1)) * rng.randrange(1, 11)
    size = it.length + by
    around = [each for each in Reading(octets).elements() if each.offset < it.offset and it.end <= each.end]
    if size < 0 or not all(each.length is None or can_say(each, each.length + by) for each in around):
        return None
    head = octets[it.offset : it.offset + len(it.identifier)]
    contents = (octets[it.start : it.end] + rng.randbytes(10))[:size]
    return Damage(octets[: it.offset] + head + bytes([size]) + contents + octets[it.end :], by=abs(by))


def cut(rng, octets):
    """The end is lost."""
    return Damage(octets[: rng.randrange(1, len(octets))])


def over(rng, octets):
    """Other octets stand in place of some: equal ones, or any."""
    place, count = block(rng, octets)
    new = rng.choice((b"\0", b"\xff")) * count if rng.random() < 0.6 else rng.randbytes(count)
    return Damage(octets[:place] + new + octets[place + count :])


def of_tag(rng, octets):
    """The first octet of a header is another."""
    it = rng.choice(headers(octets))
    return Damage(octets[: it.offset] + rng.randbytes(1) + octets[it.offset + 1 :])


def as_text(rng, octets):
    """The octets were copied as a text, in one of several ways."""
    return rng.choice(AS_TEXT)(rng, octets)


def in_utf_8(rng, octets):
    """The octets were taken for Windows-1252 and written in UTF-8."""
    as_text = lambda it: it.decode("cp1252", "ignore") or it.decode("latin-1")
    return Damage("".join(as_text(bytes([it])) for it in octets).encode())


def in_utf_8_cut(rng, octets):
    """The octets were taken for Latin-1 and written in UTF-8, and the end was lost."""
    whole = octets.decode("latin-1").encode()
    return Damage(whole[: rng.randrange(len(whole) // 2, len(whole))])


def in_utf_16(rng, octets):
    """The octets were taken for Latin-1 and written in UTF-16."""
    return Damage(octets.decode("latin-1").encode(rng.choice(("utf-16-le", "utf-16-be"))))


def with_replacements(rng, octets):
    """The octets were taken for UTF-8, and others were replaced."""
    return Damage(octets.decode("utf-8", "replace").encode())


def with_returns(rng, octets):
    """Octets 0d were put in front of 0a."""
    return Damage(octets.replace(b"\n", b"\r\n"))


def with_returns_cut(rng, octets):
    """Octets 0d were put in front of 0a, and the end was lost."""
    whole = octets.replace(b"\n", b"\r\n")
    return Damage(whole[: rng.randrange(len(whole) // 2, len(whole))]) if octets.count(b"\n") > 6 else None


def of_seven_bits(rng, octets):
    """The highest bit of each octet was cleared."""
    return Damage(bytes(it & 0x7F for it in octets)) if len(octets) >= 128 else None


def with_marks(rng, octets):
    """Octets above 7f were replaced by the character ?."""
    return Damage(bytes(it if it < 0x80 else 0x3F for it in octets)) if len(octets) >= 128 else None


AS_TEXT = in_utf_8, in_utf_8_cut, in_utf_16, with_replacements, with_returns, with_returns_cut, of_seven_bits, with_marks


def turned(rng, octets):
    """The octets stand in reverse order, in pairs, in fours or all of them, or their bits are inverted."""
    if len(octets) < 256:
        return None
    way, size = rng.randrange(4), len(octets)
    if way == 3:
        return Damage(bytes(it ^ 0xFF for it in octets))
    count = (2, 4, size)[way]
    whole = size - size % count
    return Damage(b"".join(octets[at : at + count][::-1] for at in range(0, whole, count)) + octets[whole:])


def overwritten(rng, octets):
    """A block is octets 00 or ff."""
    count = rng.randrange(32, 65)
    if len(octets) < 4 * count:
        return None
    place = rng.randrange(len(octets) - count)
    return Damage(octets[:place] + rng.choice((b"\0", b"\xff")) * count + octets[place + count :])


def doubled_block(rng, octets):
    """A block of 4 to 200 octets stands twice."""
    count = rng.randrange(4, min(201, len(octets) // 2))
    place = rng.randrange(len(octets) - count + 1)
    return Damage(octets[: place + count] + octets[place:])


def apart(rng, octets):
    """Other octets stand between records: a line feed, filler, or a length in front of each."""
    way, records = rng.randrange(3), [octets] * rng.randrange(2, 5)
    if octets[:1] != b"\x30" or headers(octets) == []:
        return None
    if way == 0:
        return Damage(b"\n".join(records) + rng.choice((b"", b"\n")))
    if way == 1:
        gap = b"\xff" * rng.randrange(1, 5)
        return Damage(gap.join(records))
    size = rng.choice((2, 4))
    return Damage(b"".join(len(it).to_bytes(size, rng.choice(("big", "little"))) + it for it in records))


def other_in_record(rng, octets):
    """In one of many such records, of definite length, octets are lost, put in or doubled, or a value is edited."""
    if Reading(octets).items[0].length is None:
        return None
    return among_records(rng, octets, rng.choice((lost, put_in, doubled, edited))(rng, octets))


# Damages of a length: the least share of 100 with the header among those that are named, and with its right length.
# Those by more than 5 have to reach theirs together. No share is asked of a length that is wrong by any number.
FEW, MORE, ANY = ((by_few,), 95, 75), ((by_bit, by_swap, by_256), 95, 80), ((by_any,), 0, 0)
IN_RECORD = (in_record,), 95, 75
# Other damages. Of those of the second row, which change octets in place, many look like a wrong length.
OTHERS = (lost, put_in, doubled, edited, cut, as_text)
IN_PLACE = (over, of_tag)
MOST_FALSE = 2
LEAST_SIZES, LEAST_PACKETS = 85, 95
# What a line has to say of a damage, by its number of octets. For each: the damages, and the least share of 100.
NUMBER = (r"Too many: {0} octets?\.|Missing: {0} octets?\.|Missing (up to )?there: {0} octets?\.|Left over: {0} octets?\.|"
          r"were {0} (more|less)|The {0} octets from offset|{1}")
TOGETHER = r"^If (the length|each of the lengths) at .* were {0} (more|less), all would parse|{1}"
SINGLE = "one octet (more|fewer) stood"
WHOLE = {
    in_utf_8: "It is UTF-8 throughout|written in UTF-8", in_utf_8_cut: "It is UTF-8 throughout|written in UTF-8",
    in_utf_16: "written in UTF-16", with_replacements: "It has the octets ef bf bd", with_returns: "0d were put in front of 0a",
    with_returns_cut: "0a stands behind 0d", of_seven_bits: "is above 7f", with_marks: "the character [?]",
    turned: "stand in reverse order|bits are inverted", overwritten: "may stand in place of others",
    doubled_block: "stand twice|Left over", apart: "other octets stand", **packets.KINDS,
}


class Shares:
    """Asks why damaged octets do not parse, and counts the answers. `explain` returns the lines about octets."""

    def __init__(self, encodings, explain, seed):
        self.encodings, self.explain, self.seed = encodings, explain, seed

    def damages(self, kind, count):
        """Yields so many damages of a kind that do not parse."""
        rng, found = random.Random(f"{kind.__name__} {self.seed}"), 0
        for _ in range(100 * count):
            damage = kind(rng, rng.choice(self.encodings))
            if found < count and damage and Walk(damage.octets).fault:
                found += 1
                yield damage

    def of_lengths(self, kind, count):
        """Returns the shares of damages of a length in which the header is named, and in which its right length is
        said.
        """
        named = right = found = 0
        for damage in self.damages(kind, count):
            said = LENGTH.findall("\n".join(self.explain(damage.octets)))
            place, found = str(damage.offset), found + 1
            named += place in (offset for offset, _ in said)
            right += (place, str(damage.length)) in said
        return 100 * named / found, 100 * right / found

    def of_numbers(self, kind, count, pattern):
        """Returns the share of damages of which a line says by how many octets the size is wrong."""
        right = found = 0
        for damage in self.damages(kind, count):
            wanted = pattern.format(damage.by, SINGLE if damage.by == 1 else "(?!)")
            right += any(re.search(wanted, line) for line in self.explain(damage.octets))
            found += 1
        return 100 * right / found

    def of_whole(self, kind, count, pattern):
        """Returns the share of damages of which a line fits the pattern."""
        right = [any(re.search(pattern.format(it.offset), line) for line in self.explain(it.octets))
                 for it in self.damages(kind, count)]
        return 100 * sum(right) / len(right)

    def of_others(self, kind, count):
        """Returns the share of other damages with a line about another length."""
        said = [bool(LENGTH.search("\n".join(self.explain(it.octets)))) for it in self.damages(kind, count)]
        return 100 * sum(said) / len(said)


def what_of(kind):
    """Returns what a kind of damage is."""
    return " ".join(kind.__doc__.split()).rstrip(".")


def measure(shares, tell, expect):
    """Measures all kinds. `tell` writes a line, and `expect` counts a test."""
    for kinds, least_named, least_right in (FEW, MORE, ANY, IN_RECORD):
        found = [shares.of_lengths(kind, COUNT // 10 if kinds == (in_record,) else COUNT) for kind in kinds]
        for kind, (named, right) in zip(kinds, found):
            tell(f"{what_of(kind)}: the header is named in {named:.0f} of 100, its right length is said in {right:.0f}")
        named, right = (sum(it) / len(kinds) for it in zip(*found))
        what = f"lengths: {what_of(kinds[0])}"
        expect(what, named >= least_named and right >= least_right, f"{named:.1f} named, {right:.1f} right")
    others = [shares.of_others(kind, COUNT) for kind in OTHERS]
    for kind, share in zip(OTHERS, others):
        tell(f"{what_of(kind)}: another length is said in {share:.1f} of 100")
    share = sum(others) / len(others)
    expect("damages that change no length", share <= MOST_FALSE, f"another length is said in {share:.1f} of 100")
    share = shares.of_others(other_in_record, COUNT // 2)
    tell(f"{what_of(other_in_record)}: another length is said in {share:.1f} of 100")
    expect("damages in a record that change no length", share <= MOST_FALSE, f"another length is said in {share:.1f} of 100")
    for kind in IN_PLACE:
        tell(f"{what_of(kind)}: another length is said in {shares.of_others(kind, COUNT):.1f} of 100")
    measure_sizes(shares, tell, expect)
    measure_whole(shares, tell, expect)
    for octets in shares.encodings:
        lines = shares.explain(octets)
        fine = lines[0].startswith("It parses: ") and not LENGTH.search("\n".join(lines))
        expect(f"sound octets, {octets[:20].hex()}", fine, *lines)


def measure_sizes(shares, tell, expect):
    """Measures how often the number of octets that are lost or too many is said, and the lengths that are wrong with it."""
    found = [shares.of_numbers(kind, COUNT, NUMBER) for kind in (lost, put_in, doubled)]
    for kind, share in zip((lost, put_in, doubled), found):
        tell(f"{what_of(kind)}: the number of octets is said in {share:.0f} of 100")
    share = sum(found) / len(found)
    expect("numbers of octets that are lost or too many", share >= LEAST_SIZES, f"{share:.1f} right")
    share = shares.of_numbers(edited, COUNT, TOGETHER)
    tell(f"{what_of(edited)}: these lengths are said in {share:.0f} of 100")
    expect("lengths that are wrong together", share >= LEAST_SIZES, f"{share:.1f} right")


def measure_whole(shares, tell, expect):
    """Measures how often what was done to an input as a whole is said, and where a packet holds an encoding."""
    found = {kind: shares.of_whole(kind, COUNT // 3, pattern) for kind, pattern in WHOLE.items()}
    for kind, share in found.items():
        tell(f"{what_of(kind)}: it is said in {share:.0f} of 100")
    for what, kinds, least in (("packets", packets.KINDS, LEAST_PACKETS), ("inputs as a whole", WHOLE, LEAST_SIZES)):
        share = sum(found[kind] for kind in kinds) / len(kinds)
        expect(what, share >= least, f"{share:.1f} right")


def inputs(part):
    """Returns the encodings that are damaged: real ones, and a list of revoked certificates."""
    found = [octets for _, octets in real_encodings.encodings(part, STEP)] + [crl(20)]
    return [octets for octets in found if not Walk(octets).fault and headers(octets) and len(octets) < 4000]


def test(part):
    from parts.show_why import Why
    if part.has("openssl"):
        why = Why(part)
        shares = Shares(inputs(part), lambda octets: why.said(octets)[1], SEED)
        measure(shares, part.note, part.expect)


class Alone:
    """Stands for a part, without a program."""

    def __init__(self, folder):
        self.folder, self.root = folder, os.path.dirname(os.path.dirname(os.path.dirname(os.path.realpath(__file__))))

    def path(self, name):
        return os.path.join(self.folder, name)

    def write(self, name, octets):
        with open(self.path(name), "wb") as file:
            file.write(octets)

    def expect(self, what, fine, *lines):
        if not fine:
            print("FAILED", what, *lines, sep="\n    ")


def alone(seed):
    """Measures what the second opinion says."""
    import tempfile

    from second_opinion.showing import File, Show, run
    with tempfile.TemporaryDirectory() as folder:
        part = Alone(folder)
        show_of = lambda octets: Show("why", as_form="octets", files=[File("-", octets, True)])
        explain = lambda octets: run(show_of(octets), dict).out.decode().splitlines()
        measure(Shares(inputs(part), explain, seed), print, part.expect)


if __name__ == "__main__":
    alone(sys.argv[1] if len(sys.argv) > 1 else SEED)

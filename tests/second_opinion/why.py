"""Explains why octets, or a string in them, do not parse: docs/WHY.md up to "The fault"."""
import functools

from second_opinion import why_chains, why_lines, why_search, why_whole
from second_opinion.commands import fault_text
from second_opinion.reading import Element, Reading

MOST_BEFORE, MOST_OPEN = 25, 16
LEAST_TEXT = 8
MOST_SHOWN = 5
BLANK = b" \t\n\r\x1a"
PRINTABLE = b"\t\n\r" + bytes(range(0x20, 0x7F))


class Stand:
    """The place where the reading of an input ends, and the elements there.

    place: the offset. open: the open elements, outermost first. inner: the innermost of them, or None. before: the
    element before, or None. top: the top end. primitive: the one that lacks contents, or None. there: the element whose
    whole header begins at the place, or None.
    """

    def __init__(self, octets, padding, inside=()):
        """Reads the octets. The strings at the offsets `inside` are wrappers."""
        self.octets, self.reading = octets, Reading(octets, inside, padding)
        self.fault = self.reading.fault
        self.open, elements = [], elements_of(self.reading.items)
        at_top = last_whole(elements)
        self.top = at_top.end if at_top else 0
        while elements and elements[-1].end is None and elements[-1].opens():
            self.open.append(elements[-1])
            elements = elements_of(elements[-1].children)
        self.inner, self.before = self.open[-1] if self.open else None, last_whole(elements)
        self.primitive = elements[-1] if elements and elements[-1].end is None else None
        self.place = self.primitive.offset if self.primitive else self.reading.kept
        self.there = why_search.header_at(octets, self.place)

    def is_half_of_a_pair(self):
        """Returns whether only the first of two end-of-contents octets is at the place."""
        is_indefinite = self.inner is not None and self.inner.length is None
        return is_indefinite and not self.primitive and self.fault.offset > self.place and self.octets[self.place] == 0

    def bounds(self):
        """Returns the open elements of definite length."""
        return [it for it in self.open if it.length is not None]

    def with_around(self):
        """Returns the elements whose length may be wrong, in the order in which they are tried. With each comes the list
        of the elements around it that have a definite length, outermost first.
        """
        return [(it, [holder for holder in around if holder.length is not None]) for it, around in self.suspects()]

    def candidates(self):
        """Returns the same elements. With each come the ends of the elements around it, outermost first, None for one of
        indefinite length.
        """
        return [(it, tuple(map(why_search.end_of, around))) for it, around in self.suspects()]

    def suspects(self):
        """Returns the same elements. With each come the elements around it, outermost first."""
        read = [it for it in with_holders(self.reading.items, ()) if it[0] is not self.primitive]
        recent = read[: -MOST_BEFORE - 1 : -1]
        first = [(self.there, tuple(self.open))] if self.there else []
        places = {it.offset for it in self.open[:MOST_OPEN]}
        outer = [it for it in read if it[0].offset in places]
        return list({it.offset: (it, around) for it, around in (*first, *recent, *outer)}.values())


def elements_of(items):
    """Returns the elements among items, without padding."""
    return [it for it in items if isinstance(it, Element)]


def with_holders(items, around):
    """Yields these elements and those in them, each before the elements in it, with the elements around it."""
    for it in elements_of(items):
        yield it, around
        yield from with_holders(it.children, (*around, it))


def last_whole(elements):
    """Returns the last of these elements that is whole, or None."""
    return next((it for it in reversed(elements) if it.end is not None), None)


# A case has several runs on the same octets.
@functools.lru_cache(maxsize=16)
def lines_of(octets, padding, count=1):
    """Returns the lines about octets that do not parse, or none if they parse. `count` is the number of blocks of the
    run.
    """
    stand = Stand(octets, padding)
    if stand.fault is None:
        return ()
    first = f"It does not parse: {fault_text(stand.fault)}."
    kind = why_search.other_kind(octets)
    if kind:
        return (first, *kind)
    whole = why_whole.line(octets, padding)
    replaced = why_whole.replaced(octets)
    if whole:
        return (first, *(replaced if why_whole.is_trace(whole[0]) else []), *whole, *why_lines.of_fault(stand)[:1])
    search = why_search.Search(octets, padding)
    start = why_search.other_start(octets, padding, stand.top, stand.fault.offset)
    named, end = ([], None) if start else named_lengths(search, stand)
    mending = (start or why_search.overwritten(octets, stand.fault.offset) or why_search.line_of_lengths(named, end)
               or why_chains.doubled(search, stand) or search.other_count(stand.candidates())
               or why_chains.chain(search, stand))
    sizes = [] if mending or is_followed_by_other(stand) else why_lines.of_sizes(stand)
    is_named = mending == why_search.line_of_lengths(named, end) and stand.top in [it.offset for it, _ in named]
    record = [] if start or is_named else why_search.next_record(octets, padding, stand.fault.offset, stand.top, count)
    return (first, *replaced, *mending, *sizes, *reasons(stand, bool(mending)), *record)


def named_lengths(search, stand):
    """Returns the elements of which another length is named, each with that length, and up to where all would parse then, or
    None for the end of the input.
    """
    octets, padding, top = search.octets, search.padding, stand.top
    if not search.is_short:
        return lengths_in_window(octets, padding, top)
    if not why_search.sizes_agree(octets, padding, top):
        return [], None
    return search.other_lengths(stand.candidates(), stand.open), None


def lengths_in_window(octets, padding, top):
    """Returns the same for an input that is too long to be searched: the octets from the top end on are searched."""
    end = top + why_search.MOST_SEARCHED
    part, is_cut = octets[top:end], end < len(octets)
    stand = Stand(part, padding)
    if not is_followed(part, padding, is_cut) or is_cut and stand.fault.code == "F02":
        return [], None
    is_wide = stand.fault.offset <= why_search.MOST_WIDE
    search = why_search.Search(part, padding, is_wide=is_wide, is_cut=is_cut)
    named = search.other_lengths(stand.candidates(), stand.open)
    for it, _ in named:
        it.offset += top
    return named, end if is_cut else None


def is_followed(part, padding, is_cut):
    """Returns whether what follows the first element of a window speaks for the length that it states."""
    first = why_search.header_at(part, 0)
    if first is None or first.length is None:
        return first is not None
    end = why_search.end_of(first)
    if not first.constructed or end >= len(part):
        return first.constructed and end == len(part)
    fault = Reading(part[end:], (), padding).fault
    return part[end] == part[0] and (fault is None or is_cut and fault.code == "F02")


@functools.lru_cache(maxsize=16)
def lines_of_string(octets, padding, inside):
    """Returns the lines about the string at the last of these offsets, which breaks.
    The strings at the others are opened.
    """
    stand = Stand(octets, padding, inside)
    candidates = [it for it in stand.candidates() if it[0].offset >= inside[-1]]
    search = why_search.Search(octets, padding, inside)
    changed = why_search.line_of_lengths(search.other_lengths(candidates, stand.open))
    return (*changed, *reasons(stand, bool(changed)))


def sound_lines(octets, padding, ber, der):
    """Returns the lines about octets that parse, with these lines of a check by BER and by DER."""
    return [f"It parses: {why_lines.so_many(len(octets))}, which are whole encodings.",
            *why_search.line_of_kinds(octets, padding),
            f"By the rules of BER: findings: {len(ber)}. By those of DER: findings: {len(der)}.", *der[:MOST_SHOWN]]


def is_followed_by_other(stand):
    """Returns whether blanks, filler or text alone follow whole encodings."""
    return len(reasons_of_rest(stand)) > 0


def reasons_of_rest(stand):
    """Returns the lines about blanks, filler or text that follow whole encodings, if nothing else does."""
    rest, top = stand.octets[stand.top :], stand.top
    whole = f"Whole encodings end at offset {top}. The octets after them are"
    try_line = f"Try: head -c {top} FILE, for the whole encodings."
    if top and rest and not rest.strip(BLANK):
        return [f"{whole} line ends or spaces: {len(rest)}.", try_line]
    if top and len(rest) > 1 and rest[0] and rest == rest[:1] * len(rest):
        return [f"{whole} {rest[:1].hex()} alone, as filler is: {len(rest)}.", try_line]
    if top and len(rest) >= LEAST_TEXT and not rest.strip(PRINTABLE):
        return [f"{whole} printable text: {len(rest)}.", try_line]
    return []


def reasons(stand, is_mended):
    """Returns the lines about the fault, and about octets that remain. Lengths in front are left out if a change is
    known that would mend the input.
    """
    if is_followed_by_other(stand):
        return reasons_of_rest(stand)
    rest, top = stand.octets[stand.top :], stand.top
    lines = why_lines.of_fault(stand)
    if is_mended:
        lines = [line for line in lines if not line.startswith(why_lines.SUSPECT)]
    says_rest = stand.fault.code == "F01" or stand.fault.code == "F03" and not stand.open
    if not top or says_rest:
        return lines
    left = [f"Whole encodings end at offset {top}. Left over: {why_lines.so_many(len(rest))}.",
            f"Try: head -c {top} FILE, for the whole encodings."]
    return left + lines if len(rest) <= top else lines + left

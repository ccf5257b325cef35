"""Returns the lines about a fault: "Words" and "The fault" in docs/WHY.md."""
from second_opinion import values
from second_opinion.why_search import end_of, so_many

MOST_PAIRS = 16
ANEW = "Try: fetch the input anew, in binary; or go on at the next record, with tail -c +M FILE, where M is its offset and 1."
FAILED = "Try: look whether the program that should write it failed."
CUT = "Try: fetch the input anew, since the copy was cut; or, where it is whole, look for a length that is too great."
SMALL = "Try: look for a length that is too small, or fetch the input anew, in binary."
PADDING = "Try: --padding, which allows octets 00 between the encodings."
OTHER_FILE = "No encoding begins so. Try: file FILE, which knows files of other kinds."
DEEPER = "Try: tail -c +M FILE, where M is 1 and the offset of an element some levels deep."
WRONG = "One of the two lengths is wrong, or octets between them are missing or were put in."
SUSPECT = "Or a length in front is wrong: "
HEADERS = {
    "F06": "has more than nine octets of tag number",
    "F07": "has the first length octet ff, which X.690 reserves",
    "F08": "is that of a primitive, which cannot have the indefinite length",
    "F09": "announces a length of 2^40 or more",
}


def pairs(octets):
    """Returns the first octets as pairs of digits, with dots if there are more."""
    return octets[:MOST_PAIRS].hex(" ") + " ..." * (len(octets) > MOST_PAIRS)


def named(element):
    """Returns the name of an element, and its offset."""
    return f"{values.tag_text(element)} at offset {element.offset}"


def says(stand, element):
    """Returns the sentence about the length in a header."""
    size = "an indefinite number of octets" if element.length is None else so_many(element.length)
    header = pairs(stand.octets[element.offset : element.start])
    return f"The header at offset {element.offset}, {header}, says that its contents are {size}."


def of_fault(stand):
    """Returns the lines about the fault."""
    code = stand.fault.code
    if code in HEADERS:
        return of_header(stand)
    if code == "F03" and not stand.open:
        return of_zeros(stand)
    return {"F01": of_nothing, "F02": of_cut, "F03": of_stray, "F04": of_half, "F05": of_missing_end, "F10": of_depth,
            "F11": of_overrun}[code](stand)


def suspect(stand, element):
    """Returns the line about an element in front, if there is one and its length is definite."""
    if element is None or element.length is None:
        return []
    return [f"{SUSPECT}that of the {named(element)}. {says(stand, element)}"]


def of_sizes(stand):
    """Returns the line about the end of the outermost open element and the end of the input."""
    if stand.fault.code == "F02" or not stand.open or stand.open[0].length is None:
        return []
    outer, size = stand.open[0], len(stand.octets)
    end, line = end_of(outer), f"By its length the {named(outer)} ends "
    if end == size:
        return [f"{line}with the input, at offset {end}: no octet was lost or put in."]
    line += f"at offset {end}, the input at offset {size}. "
    if size < end:
        return [f"{line}Missing: {so_many(end - size)}."]
    return [] if stand.octets[end] == stand.octets[outer.offset] else [f"{line}Too many: {so_many(size - end)}."]


def of_nothing(stand):
    """F01."""
    count = len(stand.octets)
    return [f"The input has octets 00 alone: {count}." if count else "The input is empty.", FAILED]


def of_cut(stand):
    """F02."""
    size, bounds = len(stand.octets), stand.bounds()
    lines = cut_at(stand)
    ends_with_input = bool(bounds) and end_of(bounds[0]) == size
    if ends_with_input:
        lines.append(f"The {named(bounds[0])} ends with the input, at offset {size}: "
                     "its length leaves no room for what is missing.")
    elif bounds:
        end = end_of(bounds[0])
        lines.append(f"The outermost element of definite length that is not whole, the {named(bounds[0])}, would end at offset {end}. "
                     f"Missing up to there: {so_many(end - size)}.")
    indefinite = len(stand.open) - len(bounds)
    if indefinite:
        lines.append(f"Elements with an indefinite length that are not ended: {indefinite}; each needs two octets 00.")
    return [*lines, SMALL if ends_with_input else CUT, *suspect(stand, stand.before)]


def cut_at(stand):
    """Returns the first lines about F02."""
    octets, primitive = stand.octets, stand.primitive
    if primitive:
        lacks = end_of(primitive) - len(octets)
        return [f"The input ends inside the {named(primitive)}. {says(stand, primitive)}", f"Missing there: {so_many(lacks)}."]
    if stand.is_half_of_a_pair():
        return [f"The input ends between the two octets 00 that end the {named(stand.inner)}."]
    if stand.place < len(octets):
        return [f"The input ends inside the header at offset {stand.place}: {pairs(octets[stand.place :])}."]
    return [f"The input ends inside the {named(stand.inner)}. {says(stand, stand.inner)}"]


def of_zeros(stand):
    """F03 if no element is open."""
    place, rest = stand.place, stand.octets[stand.place :]
    zeros = len(rest) - len(rest.lstrip(b"\0"))
    if not place:
        return [f"The input begins with octets 00: {zeros}. No element begins with such an octet.", PADDING]
    return [f"Whole encodings end at offset {place}. Octets 00 follow: {zeros}. Left over: {so_many(len(rest))}.",
            PADDING, f"Try: head -c {place} FILE, for what stands in front of them."]


def of_stray(stand):
    """F03 inside an open element."""
    inner, place = stand.inner, stand.fault.offset
    end = end_of(inner)
    return [f"Inside the {named(inner)}, which ends at offset {end}, an element should begin at offset {place}."
            f" There is an octet 00, with which none begins. {says(stand, inner)}",
            f"Left over: {so_many(end - place)}. Its length, or one in front of that offset, is wrong.",
            ANEW, *suspect(stand, stand.before)]


def of_half(stand):
    """F04."""
    refused = pairs(stand.octets[stand.fault.offset : stand.fault.offset + 1])
    return [f"At offset {stand.place} the octets 00 00 should end the {named(stand.inner)}, but the second is {refused}."
            f" {says(stand, stand.inner)}", ANEW, *suspect(stand, stand.before)]


def of_missing_end(stand):
    """F05."""
    inner, holder = stand.inner, stand.bounds()[-1]
    lacks = "1 octet, 00" if stand.is_half_of_a_pair() else "2 octets, 00 00"
    return [f"The {named(inner)} is not ended where the {named(holder)} ends, at offset {end_of(holder)}. Missing there: "
            f"{lacks}. {says(stand, inner)} {says(stand, holder)}", ANEW, *suspect(stand, stand.before)]


def of_header(stand):
    """F06 to F09."""
    place = stand.place
    octets = pairs(stand.octets[place : stand.fault.offset + 1])
    look = (f"Try: look at the element that ends at offset {place}, or begins there: its length may be wrong; "
            "or fetch the input anew, in binary.")
    return [f"The header at offset {place} {HEADERS[stand.fault.code]}: {octets}.", look if place else OTHER_FILE,
            *suspect(stand, stand.inner), *suspect(stand, stand.before)]


def of_depth(stand):
    """F10."""
    return [f"At offset {stand.place} element 129 would be open. The program holds 128.", DEEPER]


def of_overrun(stand):
    """F11."""
    holder, it = stand.bounds()[-1], stand.there
    end = end_of(holder)
    if it is not None and it.start <= end:
        lines = [f"The octet at offset {stand.fault.offset} completes the header of the {named(it)}. {says(stand, it)}",
                 f"It would end at offset {end_of(it)}, but the {named(holder)} ends at offset {end}. "
                 f"Missing there: {so_many(end_of(it) - end)}. {says(stand, holder)}"]
    else:
        left = stand.octets[stand.place : end]
        lines = [f"The header at offset {stand.place} runs past the end of the {named(holder)}, which ends at offset {end}. "
                 f"{says(stand, holder)}", f"Left over: {so_many(end - stand.place)}, {pairs(left)}."]
    return [*lines, WRONG, ANEW, *suspect(stand, stand.before)]

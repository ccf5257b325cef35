"""Looks for blocks that stand twice, and for lengths that are wrong together: docs/WHY.md, "A block that stands twice" and
"Several lengths".
"""
from second_opinion.why_search import MOST_WIDE, end_of, parses, so_many, spelled

MOST_DIFFERENT, MOST_BLOCKS, MOST_TOGETHER = 4096, 16, 8


def difference(search, stand):
    """Returns by how many octets the input is longer than its outermost open element says, below 0 if it is shorter. 0
    if that is not looked at.
    """
    if not stand.open or stand.open[0].length is None or len(search.octets) > MOST_WIDE:
        return 0
    outer, octets = stand.open[0], search.octets
    by = len(octets) - end_of(outer)
    is_alike = by > 0 and octets[end_of(outer)] == octets[outer.offset]
    return by if abs(by) <= MOST_DIFFERENT and not is_alike else 0


def doubled(search, stand):
    """Returns the line about a block that stands twice."""
    octets, by = search.octets, difference(search, stand)
    if by < 2:
        return []
    tried, same = 0, 0
    for at in range(len(octets) - by):
        same = same + 1 if octets[at] == octets[at + by] else 0
        offset = at + 1 - by
        if same >= by and tried < MOST_BLOCKS:
            tried += 1
            if parses(octets[:offset] + octets[offset + by :], search.padding):
                return [f"The {so_many(by)} from offset {offset} on stand twice. If they stood once, all would parse."]
    return []


def chain(search, stand):
    """Returns the line about lengths that are wrong together."""
    by = 0 if stand.fault.code == "F02" else difference(search, stand)
    for it, around in stand.with_around() if by else ():
        lists = [around, [*around, it]] if it.length is not None else [around]
        for headers in lists:
            changed = with_lengths(search.octets, headers, by)
            if changed and parses(changed, search.padding):
                return [line(headers, by)]
    return []


def with_lengths(octets, headers, by):
    """Returns the octets with each length of these headers greater by a number; None if they cannot say it, or if there
    are no headers or too many.
    """
    if not 0 < len(headers) <= MOST_TOGETHER:
        return None
    for it in headers:
        count, length = len(it.length_octets) - 1, it.length + by
        if not 0 <= length < (1 << 8 * count if count else 128):
            return None
        said = spelled(it.length_octets, length)
        octets = octets[: it.start - len(said)] + said + octets[it.start :]
    return octets


def line(headers, by):
    """Returns the line about these headers."""
    places = [str(it.offset) for it in headers]
    where = " and ".join([*([", ".join(places[:-1])] if places[1:] else []), places[-1]])
    whose, it = ("the length", "it was") if len(headers) == 1 else ("each of the lengths", "they were")
    more, did, raised = ("more", "put in", "raised") if by > 0 else ("less", "lost", "lowered")
    return (f"If {whose} at {where} were {abs(by)} {more}, all would parse: {so_many(abs(by))} may have been {did} there, "
            f"and {it} not {raised}.")

"""Tests tlvdump-show --why: whether octets parse, and if not, why, in sentences.

The rows have octets, and the sentences that must be written about them.
"""
import random
import re

from parts import real_encodings
from parts.show_program import Program
from second_opinion.findings import shortest
from second_opinion.reading import Reading

NULL = b"\x05\x00"


def element(tag, octets):
    """Returns an element of definite length."""
    return bytes([tag]) + shortest(len(octets)) + octets


def string(octets):
    """Returns an OCTET STRING that holds these octets."""
    return element(4, octets)


def header(offset, octets, contents):
    return f"The header at offset {offset}, {octets}, says that its contents are {contents}."


def in_front(name, offset, octets, contents):
    return f"Or a length in front is wrong: that of the {name} at offset {offset}. {header(offset, octets, contents)}"


def sizes(name, end, size):
    """Returns the line about an element that ends at an offset, in an input of so many octets."""
    line = f"By its length the {name} ends "
    if end == size:
        return f"{line}with the input, at offset {end}: no octet was lost or put in."
    count, what = abs(end - size), "Missing" if size < end else "Too many"
    return f"{line}at offset {end}, the input at offset {size}. {what}: {count} octet{'s' * (count > 1)}."


CUT = "Try: fetch the input anew, since the copy was cut; or, where it is whole, look for a length that is too great."
WRONG = "One of the two lengths is wrong, or octets between them are missing or were put in."
INDEFINITE = "an indefinite number of octets"
ANEW = "Try: fetch the input anew, in binary; or go on at the next record, with tail -c +M FILE, where M is its offset and 1."
START = "No encoding begins so. Try: file FILE, which knows files of other kinds."
MORE = "If one octet more stood after the header at offset {0}, all would parse: an octet of its contents may be missing."
FEWER = "If one octet fewer stood after the header at offset {0}, all would parse: an octet may have been put in there."
WHOLE = "Try: head -c {0} FILE, for the whole encodings."
# Octets that parse, the numbers of findings, and the lines of the first five.
FINDINGS = [
    (NULL, 0, 0, []),
    (b"\x02\x02\x00\x05" + NULL, 1, 1, ["0 B08 integer is padded"]),
    (b"\x04\x81\x01a", 0, 1, ["0 S01 length is not the shortest"]),
    (b"\x30\x81\x03\x01\x01\x01", 0, 2, ["0 S01 length is not the shortest", "3 S02 TRUE is not ff"]),
    (b"\x01\x01\x01" * 5, 0, 5, [f"{offset} S02 TRUE is not ff" for offset in range(0, 15, 3)]),
    (b"\x01\x01\x01" * 6, 0, 6, [f"{offset} S02 TRUE is not ff" for offset in range(0, 15, 3)]),
    (b"\x01\x01\x01" * 2000, 0, 2000, [f"{offset} S02 TRUE is not ff" for offset in range(0, 15, 3)]),
]
MANY_KINDS = ("It has {} outermost elements, which begin with {} different octets. Primitive: {}. "
              "Octets that are no encodings may parse so by chance.")
# First octets of 33 primitive elements and 31 constructed ones.
TAGS = [*range(0x40, 0x5F), 4, 5, *range(0x60, 0x7F)]
# Octets that parse, the numbers in the line about outermost elements, and the words.
CHANCE = [
    (NULL * 3 + b"\x04\x00", None, []),
    (NULL + b"\x04\x00\x30\x00", (3, 3, 2), []),
    (NULL + b"\x04\x00\x30\x00" + NULL * 2, (5, 3, 4), []),
    (b"".join(bytes([tag, 0]) for tag in TAGS[:63]), (63, 63, 33), []),
    (b"".join(bytes([tag, 0]) for tag in TAGS), None, []),
    (NULL + b"\x04\x00\x30\x80\x00\x00", None, []),
    (NULL + b"\x00\x04\x00\x00\x00\x30\x00\x00", (3, 3, 2), ["--padding"]),
]
# For each fault: the code, the octets, the words, and the sentences after "It does not parse".
FAULTS = [
    ("F01", "", [], ["The input is empty.", "Try: look whether the program that should write it failed."]),
    ("F01", "00 00", ["--padding"],
     ["The input has octets 00 alone: 2.", "Try: look whether the program that should write it failed."]),
    ("F02", "30 05 02 01", [],
     ["The input ends inside the INTEGER at offset 2. " + header(2, "02 01", "1 octet"), "Missing there: 1 octet.",
      "The outermost element of definite length that is not whole, the SEQUENCE at offset 0, would end at offset 7. Missing up to there: 3 octets.", CUT]),
    ("F02", "30 82 01", [], ["The input ends inside the header at offset 0: 30 82 01.", CUT]),
    ("F02", "04 20 aa", [],
     ["The input ends inside the OCTET STRING at offset 0. " + header(0, "04 20", "32 octets"), "Missing there: 31 octets.", CUT]),
    ("F02", "30 80 02 01 05", [],
     ["The input ends inside the SEQUENCE at offset 0. " + header(0, "30 80", INDEFINITE),
      "Elements with an indefinite length that are not ended: 1; each needs two octets 00.", CUT,
      in_front("INTEGER", 2, "02 01", "1 octet")]),
    ("F02", "30 80 00", [],
     ["The input ends between the two octets 00 that end the SEQUENCE at offset 0.",
      "Elements with an indefinite length that are not ended: 1; each needs two octets 00.", CUT]),
    ("F02", "05 00 30 80 00 00 02 02 01", [],
     [MORE.format(6), "Whole encodings end at offset 6. Left over: 3 octets.", WHOLE.format(6),
      "The input ends inside the INTEGER at offset 6. " + header(6, "02 02", "2 octets"), "Missing there: 1 octet.", CUT]),
    ("F02", "05 00 02 02 01 05 30 09 02 01 05 04 02 aa", [],
     ["The input ends inside the OCTET STRING at offset 11. " + header(11, "04 02", "2 octets"), "Missing there: 1 octet.",
      "The outermost element of definite length that is not whole, the SEQUENCE at offset 6, would end at offset 17. Missing up to there: 3 octets.", CUT,
      in_front("INTEGER", 8, "02 01", "1 octet"), "Whole encodings end at offset 6. Left over: 8 octets.", WHOLE.format(6)]),
    ("F02", "30 04 30 80 05 00", [],
     ["The input ends inside the SEQUENCE at offset 2. " + header(2, "30 80", INDEFINITE),
      "The SEQUENCE at offset 0 ends with the input, at offset 6: its length leaves no room for what is missing.",
      "Elements with an indefinite length that are not ended: 1; each needs two octets 00.",
      "Try: look for a length that is too small, or fetch the input anew, in binary.", in_front("NULL", 4, "05 00", "0 octets")]),
    ("F02", "05 00 ff ff ff", [],
     ["Whole encodings end at offset 2. The octets after them are ff alone, as filler is: 3.", WHOLE.format(2)]),
    ("F02", "05 00 0a", [],
     ["Whole encodings end at offset 2. The octets after them are line ends or spaces: 1.", WHOLE.format(2)]),
    ("F03", "05 00 00 00 00", [],
     ["Whole encodings end at offset 2. Octets 00 follow: 3. Left over: 3 octets.",
      "Try: --padding, which allows octets 00 between the encodings.", "Try: head -c 2 FILE, for what stands in front of them."]),
    ("F03", "00 05 00", [],
     ["The input begins with octets 00: 1. No element begins with such an octet.",
      "Try: --padding, which allows octets 00 between the encodings."]),
    ("F03", "30 04 05 00 00 00", [],
     ["If the header at offset 2 said 2 octets and not 0, all would parse.",
      "Inside the SEQUENCE at offset 0, which ends at offset 6, an element should begin at offset 4."
      " There is an octet 00, with which none begins. " + header(0, "30 04", "4 octets"),
      "Left over: 2 octets. Its length, or one in front of that offset, is wrong.", ANEW]),
    # One of the two contents octets of the INTEGER is missing.
    ("F03", "30 06 02 02 01 05 00", [],
     [MORE.format(2), "Inside the SEQUENCE at offset 0, which ends at offset 8, an element should begin at offset 6."
      " There is an octet 00, with which none begins. " + header(0, "30 06", "6 octets"),
      "Left over: 2 octets. Its length, or one in front of that offset, is wrong.", ANEW]),
    ("F04", "30 80 00 05", [],
     ["At offset 2 the octets 00 00 should end the SEQUENCE at offset 0, but the second is 05. "
      + header(0, "30 80", INDEFINITE), ANEW]),
    ("F04", "30 80 05 00 00 05", [],
     ["At offset 4 the octets 00 00 should end the SEQUENCE at offset 0, but the second is 05. "
      + header(0, "30 80", INDEFINITE), ANEW, in_front("NULL", 2, "05 00", "0 octets")]),
    ("F05", "30 05 a1 80 02 01 05 00", [],
     [sizes("SEQUENCE at offset 0", 7, 8), "The [1] at offset 2 is not ended where the SEQUENCE at offset 0 ends, at offset 7. Missing there: 2 octets, 00 00. "
      + header(2, "a1 80", INDEFINITE) + " " + header(0, "30 05", "5 octets"), ANEW,
      in_front("INTEGER", 4, "02 01", "1 octet")]),
    ("F06", "3f" + " ff" * 9 + " 01", [],
     ["The header at offset 0 has more than nine octets of tag number: 3f" + " ff" * 9 + ".", START]),
    ("F07", "04 ff", [], ["The header at offset 0 has the first length octet ff, which X.690 reserves: 04 ff.", START]),
    ("F08", "30 02 04 80", [],
     [sizes("SEQUENCE at offset 0", 4, 4), "The header at offset 2 is that of a primitive, which cannot have the indefinite length: 04 80.",
      "Try: look at the element that ends at offset 2, or begins there: its length may be wrong; or fetch the input anew, in binary.",
      in_front("SEQUENCE", 0, "30 02", "2 octets")]),
    ("F08", "30 04 05 00 04 80", [],
     ["If the header at offset 2 said 2 octets and not 0, all would parse.",
      "The header at offset 4 is that of a primitive, which cannot have the indefinite length: 04 80.",
      "Try: look at the element that ends at offset 4, or begins there: its length may be wrong; or fetch the input anew, in binary."]),
    # Nothing that is tried mends it, so two lengths in front are named.
    ("F08", "30 10 05 00 04 80 04 80 04 80 04 80 04 80 04 80 04 80", [],
     [sizes("SEQUENCE at offset 0", 18, 18), "The header at offset 4 is that of a primitive, which cannot have the indefinite length: 04 80.",
      "Try: look at the element that ends at offset 4, or begins there: its length may be wrong; or fetch the input anew, in binary.",
      in_front("SEQUENCE", 0, "30 10", "16 octets"), in_front("NULL", 2, "05 00", "0 octets")]),
    ("F09", "04 86 01", [], ["The header at offset 0 announces a length of 2^40 or more: 04 86 01.", START]),
    ("F10", "30 80 " * 129, [], ["At offset 256 element 129 would be open. The program holds 128.",
      "Try: tail -c +M FILE, where M is 1 and the offset of an element some levels deep."]),
    ("F11", "30 03 02 02 01", [],
     ["If the header at offset 2 said 1 octet and not 2, all would parse.",
      "The octet at offset 3 completes the header of the INTEGER at offset 2. " + header(2, "02 02", "2 octets"),
      "It would end at offset 6, but the SEQUENCE at offset 0 ends at offset 5. Missing there: 1 octet. "
      + header(0, "30 03", "3 octets"), WRONG, ANEW]),
    ("F11", "30 03 02 02 01 05 00", [],
     ["If the header at offset 2 said 1 octet and not 2, all would parse.",
      "The octet at offset 3 completes the header of the INTEGER at offset 2. " + header(2, "02 02", "2 octets"),
      "It would end at offset 6, but the SEQUENCE at offset 0 ends at offset 5. Missing there: 1 octet. "
      + header(0, "30 03", "3 octets"), WRONG, ANEW]),
    # The INTEGER has one octet too many.
    ("F11", "30 05 02 01 05 07 05 00", [],
     [FEWER.format(2), "The octet at offset 6 completes the header of the ObjectDescriptor at offset 5. " + header(5, "07 05", "5 octets"),
      "It would end at offset 12, but the SEQUENCE at offset 0 ends at offset 7. Missing there: 5 octets. "
      + header(0, "30 05", "5 octets"), WRONG, ANEW]),
    # Nothing that is tried mends it: two such elements.
    ("F11", "30 05 02 01 05 07 05 30 05 02 01 05 07 05 00", [],
     ["The octet at offset 6 completes the header of the ObjectDescriptor at offset 5. " + header(5, "07 05", "5 octets"),
      "It would end at offset 12, but the SEQUENCE at offset 0 ends at offset 7. Missing there: 5 octets. "
      + header(0, "30 05", "5 octets"), WRONG, ANEW, in_front("INTEGER", 2, "02 01", "1 octet")]),
    # What is left over is printable text: 8 octets or more.
    ("F11", "05 00 67 61 72 62 61 67 65 0a", [],
     ["Whole encodings end at offset 2. The octets after them are printable text: 8.", WHOLE.format(2)]),
    ("F11", "05 00 67 61 72 62 61 67 65", [],
     [sizes("[APPLICATION 7] at offset 2", 101, 9), "The octet at offset 5 completes the header of the [APPLICATION 18] at offset 4. " + header(4, "72 62", "98 octets"),
      "It would end at offset 104, but the [APPLICATION 7] at offset 2 ends at offset 101. Missing there: 3 octets. "
      + header(2, "67 61", "97 octets"), WRONG, ANEW, "Whole encodings end at offset 2. Left over: 7 octets.", WHOLE.format(2)]),
    ("F11", "30 02 30 82 01 01", [],
     [sizes("SEQUENCE at offset 0", 4, 6), "The header at offset 2 runs past the end of the SEQUENCE at offset 0, which ends at offset 4. "
      + header(0, "30 02", "2 octets"),
      "Left over: 2 octets, 30 82.", WRONG, ANEW]),
]


def sound(octets):
    """Returns the first sentence about octets that parse."""
    return f"It parses: {len(octets)} octets, which are whole encodings."


def findings(ber, der):
    """Returns the sentence about the findings in octets that parse."""
    return f"By the rules of BER: findings: {ber}. By those of DER: findings: {der}."


BODY = element(0x30, b"\x02\x01\x05" * 9 + b"\x04\x02\xe9\x0a")
REPLACED = ("It has the octets ef bf bd, with which programs replace what is no UTF-8: it was copied as a text. "
            "Try: fetch it anew, in binary.")
UTF_16 = "It begins as text in UTF-16 does. Try: iconv -f UTF-16 -t UTF-8 FILE | tlvdump-show"
# A record, and one with a header that is refused inside it.
RECORD, DAMAGED = element(0x30, b"\x02\x01\x05"), element(0x30, b"\xa0\x04\x04\xff\x05\x00")
NEXT = "From offset {} on it parses: the next record may begin there. Try: tail -c +{} FILE | tlvdump-show"
FAR_NEXT = ("The next record may begin at offset {}: from there on it parses up to another fault, at offset {}. "
            "Try: tail -c +{} FILE | tlvdump-show")
# Hints for a wrong start, a copy as text, and files of other kinds: words that must be written, and the status.
HINTS = [
    ("the next record", RECORD + DAMAGED + RECORD, NEXT.format(13, 14), 2),
    ("the next record, by its first octet", RECORD + b"\x30\x30\x02\x01\x06" + RECORD, NEXT.format(10, 11), 2),
    ("the next record, before the announced end", RECORD + bytes.fromhex("3007a00404ff3000") + RECORD, NEXT.format(13, 14), 2),
    ("the next record, after it", RECORD + bytes.fromhex("300504ff30020500") + RECORD, NEXT.format(13, 14), 2),
    ("a record inside the damaged one", RECORD + bytes.fromhex("3009a00404ff3000") + RECORD, NEXT.format(11, 12), 2),
    ("the next record that parses", RECORD + DAMAGED + RECORD + DAMAGED + RECORD, NEXT.format(26, 27), 2),
    # The faults are at 10 and 4109, which is 4096 octets behind the next record, and at 10 and 4108.
    ("the next record, and another fault far behind", RECORD + DAMAGED + RECORD + string(bytes(4082)) + DAMAGED + RECORD,
     FAR_NEXT.format(13, 4109, 14), 2),
    ("the next record, and another fault nearer", RECORD + DAMAGED + RECORD + string(bytes(4081)) + DAMAGED + RECORD,
     NEXT.format(4111, 4112), 2),
    ("a wrong start", b"\0\0\0" + BODY, "From offset 3 on it parses", 2),
    ("the command for it", b"\0\0\0" + BODY, "Try: tail -c +4 FILE | tlvdump-show", 2),
    ("a header that parses in part", b"\x02\x93" + BODY, "From offset 2 on it parses", 2),
    ("a text in UTF-8", element(0x30, b"\x04\x81\xe9" + b"a" * 0xE9).decode("latin-1").encode(),
     "iconv -f UTF-8 -t ISO-8859-1", 2),
    ("a text with CR", element(0x30, string(b"\x0a")).replace(b"\x0a", b"\r\n"), "octets 0d were put in front of 0a", 2),
    ("a text with marks", element(0x30, b"\x02\x01\x05\xef\xbf\xbd") + b"\xff", REPLACED, 2),
    ("a string with marks, and CR", element(0x30, string(b"\x0a\xef\xbf\xbd")).replace(b"\x0a", b"\r\n"),
     "octets 0d were put in front of 0a", 2),
]
UNDONE = [(what, octets) for what, octets, wanted, _ in HINTS if "ISO-8859-1" in wanted or "0d were" in wanted]
PCAP = "It begins as a capture of packets (pcap) does: export the octets of a packet first."
CHUNKS = ("It begins with a chunk of HTTP and its size. Try: fetch it anew with a program that joins the chunks, "
          "as curl does.")
# Files of other kinds, and the line that is the only reason why they do not parse. Behind some of the first octets stand
# octets for which there would be lines of left-over octets, another length, line ends, or another start.
KINDS = [
    (b"\x1f\x8b\x08\0\0\0\0\0\0\x03" + BODY, "It begins as a file of gzip does. Try: gzip -dc FILE | tlvdump-show"),
    (b"PK\x03\x04" + BODY, "It begins as a ZIP file does: unpack it first."),
    (b"BZh91AY&SY\r\n", "It begins as a file of bzip2 does. Try: bzip2 -dc FILE | tlvdump-show"),
    (b"%PDF-1.7\r\n%\xe2\xe3\xcf\xd3\r\n", "It begins as a PDF file does."),
    (b"<?xml version='1.0'?>\n\xef\xbf\xbd", "It begins with the character <, as XML and HTML do."),
    (b"<" + b"\x04" + b"a" * 5, "It begins with the character <, as XML and HTML do."),
    (b"openssh-key-v1\0\0\0\0\x04none", "It is a key of OpenSSH, which is no encoding by X.690."),
    (b"\xff\xfe\xe9\x00", UTF_16),
    (b"\xfe\xff\x00\x30", UTF_16),
    (b"\xd4\xc3\xb2\xa1\x02\x00\x04\x00" + BODY, PCAP),
    (b"\x4d\x3c\xb2\xa1\x02\x00\x04\x00", PCAP),
    (b"\x0a\x0d\x0d\x0a\x1c\x00\x00\x00", PCAP),
    (b"\xfe\xed\xfe\xed\x00\x00\x00\x02", "It begins as a key store of Java (JKS) does: export what you need first."),
    (b"HTTP/1.1 200 OK\r\n\r\n" + BODY, "It begins with the header of an answer of HTTP. Try: sed '1,/^.$/d' FILE | tlvdump-show"),
    (b"\xef\xbb\xbf" + BODY, "It begins with the byte order mark of a text in UTF-8. Try: tail -c +4 FILE | tlvdump-show"),
    (f"{len(BODY):x}\r\n".encode() + BODY + b"\r\n0\r\n\r\n", CHUNKS),
    (f"{len(BODY):08X}\r\n".encode() + BODY + b"\r\n", CHUNKS),
]
# Octets for which no other start may be suggested: those after whole encodings, and the last record.
NO_START = [BODY + b"garbage\n", BODY + b"\x41\x82\x13\x04\x30", BODY + DAMAGED]
# The header of a string that holds the last record and lacks an octet. So the input ends inside it for every walk up to it.
# Between a damaged record and these octets, each record that stands there is tried, and a string makes each try long.
WALL, LONG = b"\x04\x03", 524_000


def behind_many(count):
    """Returns octets in which the last record is the next one, behind a damaged one, so many others, a string and a wall."""
    return RECORD + b"\x30\x04\x05\x05\0\0" + b"\x30\0" * count + element(4, bytes(LONG)) + WALL + b"\x30\0"


# Octets in which another length of one header, of two or of three would mend all, and the line about them.
LENGTHS = [
    ("a length that differs in one bit", b"\x30\x0b\x04\x19" + b"a" * 9, "If the header at offset 2 said 9 octets and not 25, all would parse."),
    ("lengths of two headers", bytes.fromhex("3006300202020500"),
     "If the header at offset 4 said 0 octets and not 2, or that at offset 2 said 4 octets and not 2, all would parse."),
    ("lengths of three headers", bytes.fromhex("300a040261613002 02020500"),
     "If the header at offset 8 said 0 octets and not 2, or that at offset 6 said 4 octets and not 2,"
     " or that at offset 2 said 4 octets and not 2, all would parse."),
    # 300 is 01 2c, and 2c 01 is 11265.
    ("length octets in reverse order", b"\x30\x83\0\x2d\x7a" + b"\x04\x82\x2c\x01" + b"a" * 300 + b"\x04\x82\x2c\x46" + b"a" * 11334,
     "If the header at offset 5 said 300 octets and not 11265, all would parse."),
    # 1279 is 04 ff, and 1535 is 05 ff: two bits differ.
    ("256 more", b"\x30\x82\x04\x99" + b"\x30\x82\x03\x01" + b"\x04\x82\x03\xfd" + b"a" * 1021 + element(4, b"a" * 145),
     "If the header at offset 4 said 1025 octets and not 769, all would parse."),
    # With 24 octets the inner SEQUENCE ends with the outer one. An INTEGER of three octets ends behind its header.
    ("the end of an open element", b"\x30\x1d\x02\x01\x05\x30\x07" + element(4, b"a" * 12) + element(4, b"b" * 8),
     "If the header at offset 5 said 24 octets and not 7, or that at offset 2 said 3 octets and not 1, all would parse."),
]
# An encoding of 264 octets.
LARGE = element(0x30, element(4, b"a" * 256))


def turned(octets, count):
    """Returns octets with each group of so many in reverse order."""
    return b"".join(octets[at : at + count][::-1] for at in range(0, len(octets), count))


def moved(how, what):
    """Returns the line about octets that were all moved."""
    return f"Its octets stand in reverse order{how}: {what}, all would parse. "


FETCH = "Try: fetch it anew, in binary."
# What else would mend an input, or was done to it as a whole: the first line about it.
OTHERS = [
    ("lengths that are wrong together", b"\x30\x06\x30\x04\x04\x05abcde",
     "If each of the lengths at 0 and 2 were 3 more, all would parse: 3 octets may have been put in there, and they were not raised."),
    ("a block that stands twice", b"\x30\x0a\x30\x05\x04\x03ababc\x02\x01\x05",
     "The 2 octets from offset 6 on stand twice. If they stood once, all would parse."),
    ("octets in place of others", b"\x30\x1b\x02\x01\x05" + bytes(24),
     "The octets from offset 5 on are 00 alone: 24. They may stand in place of others."),
    ("line feeds between records", RECORD + b"\n" + RECORD + b"\n",
     "There are encodings from offset 0 on: 2. Between each two of them other octets stand: 1 octet, first 0a at offset 5."
     " Try: tail -c +1 FILE | head -c 5 | tlvdump-show, for the first."),
    ("a length in front of each record", (b"\0\5" + RECORD) * 2,
     "There are encodings from offset 2 on: 2. Between each two of them other octets stand: 2 octets, first 00 05 at offset 7."
     " Try: tail -c +3 FILE | head -c 5 | tlvdump-show, for the first."),
    ("pairs turned round", turned(LARGE, 2),
     moved(" in pairs", "if each pair were turned round") + "Try: dd conv=swab status=none <FILE | tlvdump-show"),
    ("fours turned round", turned(LARGE, 4), moved(" in fours", "if each four were turned round") + FETCH),
    ("all octets turned round", LARGE[::-1], moved("", "read from the last to the first") + FETCH),
    ("inverted bits", bytes(it ^ 0xFF for it in LARGE),
     f"Its bits are inverted: if each were turned round, all would parse. {FETCH}"),
    ("every second octet 00", element(4, bytes(range(128, 256))).decode("latin-1").encode("utf-16-le"),
     f"Nearly every second of its octets is 00. It was taken for a text and written in UTF-16. {FETCH}"),
]
# The size of a long input, what ends it, and the line about lengths. In the first case the OCTET STRING in front could have one
# octet more, since 03 02 02 01 is a BIT STRING.
ONE, BIT = bytes.fromhex("3003020201"), b"\x30\x0b\x04\x19" + b"a" * 9
WIDE, SEARCHED = 1 << 18, 1 << 20
# A record of indefinite length in which a length is wrong, and more records than are searched.
OPEN, MANY = bytes.fromhex("3080020205") + bytes(2), RECORD * (SEARCHED // len(RECORD) + 1)
LONG_LENGTHS = [
    (WIDE, ONE, "If the header at offset 262141 said 1 octet and not 2, or that at offset 0 said 262135 octets and not 262134, all would parse."),
    (WIDE + 1, ONE, "If the header at offset 262142 said 1 octet and not 2, all would parse."),
    (SEARCHED, ONE, "If the header at offset 1048573 said 1 octet and not 2, all would parse."),
    # Here the octets from the damaged element on are searched, 2^20 of them at most. If more follow, the line says where these
    # end. The first fault has to be among them, and no other. In front of some records an element may also swallow the first
    # octet of one, since 03 02 01 05 is a BIT STRING.
    (SEARCHED + 1, ONE, "If the header at offset 1048574 said 1 octet and not 2, all would parse."),
    (SEARCHED + 1, ONE + RECORD, "If the header at offset 1048569 said 1 octet and not 2, or that at offset 1048567 said 4 octets and not 3, all would parse."),
    (SEARCHED + 1, ONE + RECORD + b"\x05", None),
    (SEARCHED + 1, b"\x30\x0b\x04\x19" + b"a" * 9, "If the header at offset 1048566 said 9 octets and not 25, all would parse."),
    (2 * SEARCHED, element(0x30, bytes([4]) + b"\x83\x0f\xff\xf1" + bytes(SEARCHED - 13) + b"\x04\x01"), None),
    (SEARCHED + 20, OPEN, "If the header at offset 1048591 said 1 octet and not 2, all would parse."),
    (2 * SEARCHED, OPEN + MANY, "If the header at offset 1048567 said 1 octet and not 2, all up to offset 2097141 would parse."),
    (2 * SEARCHED, BIT + MANY, "If the header at offset 1048561 said 9 octets and not 25, or that at offset 1048559 said 27 octets and not 11, all up to offset 2097135 would parse."),
    (2 * SEARCHED, OPEN + DAMAGED + MANY, None),
    (2 * SEARCHED, element(0x30, string(bytes(WIDE - 100)) + BIT) + MANY,
     "If the header at offset 1048561 said 9 octets and not 25, all up to offset 1835081 would parse."),
    (2 * SEARCHED, element(0x30, string(bytes(WIDE)) + BIT) + MANY, None),
    (2 * SEARCHED, OPEN + MANY + DAMAGED, "If the header at offset 1048559 said 1 octet and not 2, all up to offset 2097133 would parse."),
    (WIDE, BIT, "If the header at offset 262133 said 9 octets and not 25, all would parse."),
    (WIDE + 1, BIT, None),
]
# A header that is named: "the header at offset 2", "that at offset 2", "the INTEGER at offset 2", "the [1] at offset 2".
NAMED = re.compile(r"(?:eader|that|[A-Z][A-Za-z0-9-]*|\]) at offset (\d+)")
# The number of headers of each encoding that are changed, and the step by which certificates of the machine are taken.
CHANGES, STEP = 12, 8
PEM = b"-----BEGIN A-----\nMAMCAQU=\n-----END A-----\n-----BEGIN B-----\nMAMCAQ==\n-----END B-----\n"


class Why:
    """Runs of --why."""

    def __init__(self, part):
        self.part, self.program = part, Program(part)

    def run(self, words, given=b""):
        """Runs --why with these words. Returns the result. Counts a test: the output is printable."""
        got = self.program.run(["--why", *words], given)
        odd = {*got.out, *got.err} - {10, *range(32, 127)}
        self.part.expect(f"--why {words} of {given[:30].hex()}: what it writes is printable", not odd, str(odd))
        return got

    def said(self, octets, *words):
        """Returns the status and the lines that it writes about these octets, which are not taken for a text."""
        got = self.run(["--as", "octets", *words], octets)
        return got.status, got.out.decode(errors="replace").splitlines()


def faults(why):
    """Each fault has its sentences, with the header at fault, and the number of missing or remaining octets."""
    part = why.part
    # F12 requires strings that are named, and none is named here.
    part.expect("each fault", {code for code, *_ in FAULTS} == {f"F{number:02}" for number in range(1, 12)})
    for code, digits, words, wanted in FAULTS:
        octets = bytes.fromhex(digits)
        status, lines = why.said(octets, *words)
        message = part.run(["dump", *words], octets).err.decode()
        fine = status == 2 and f": {code} " in message and lines[:1] == [f"It does not parse: {message.strip()}."]
        fine = fine and lines[1 : len(wanted) + 1] == wanted
        part.expect(f"why {digits} {words}", fine, *lines)
    for octets, ber, der, wanted in FINDINGS:
        got = why.said(octets)
        status = 1 if ber else 0
        part.expect(f"why {octets.hex()}", got == (status, [sound(octets), findings(ber, der), *wanted]), str(got))


def by_chance(why):
    """If outermost elements begin with 3 to 63 different octets, their numbers are said, but not if one has no length."""
    for octets, numbers, words in CHANCE:
        _, lines = why.said(octets, *words)
        wanted = [MANY_KINDS.format(*numbers)] if numbers else []
        given = [line for line in lines if line.startswith("It has ")]
        why.part.expect(f"outermost elements, {octets[:12].hex()}", lines[:1] == [sound(octets)] and given == wanted, *lines)


def undone(why):
    """If the input would parse without a change that was made to it as a text, that is said, and one line of the fault."""
    for what, octets in UNDONE:
        _, lines = why.said(octets)
        fine = len(lines) == 3 and lines[1].startswith("It was taken for a text") and lines[2].startswith("The ")
        why.part.expect(f"what was done to {what}", fine, *lines)


def open_elements(number):
    """Returns 18 elements, each inside the one before and with a NULL behind it, and the offset of the one with this
    number, of which the length is 1 too great. In the innermost one are 26 elements, read after all these headers.
    """
    octets = NULL * 26
    for level in range(18, 0, -1):
        octets = bytes([0x30, len(octets) + (level == number)]) + octets + NULL
    return octets, 2 * (number - 1)


def others(why):
    """What else would mend an input, or was done to it as a whole, is said first."""
    for what, octets, wanted in OTHERS:
        status, lines = why.said(octets)
        why.part.expect(what, status == 2 and lines[1] == wanted, *lines)


def outermost(why):
    """Of the open elements 16 are tried, from the outermost one on."""
    for number, is_named in ((2, True), (16, True), (17, False), (18, False)):
        octets, offset = open_elements(number)
        _, lines = why.said(octets)
        fine = any(f" at offset {offset} said" in line for line in lines) == is_named
        why.part.expect(f"a wrong length in open element {number}", fine, *lines)


def no_length(why):
    """No other length is named if octets are missing or left over by an outermost length, though one would mend the input."""
    numbers = b"".join(element(2, bytes([number])) for number in range(5))
    missing = element(0x30, numbers)[:-3]
    behind = element(0x31, NULL) + missing
    left = element(0x30, numbers)[:-1] + b"\x01\x7f"
    longer = b"\x30" + bytes([len(numbers) + 1]) + numbers
    inside = open_elements(1)[0]
    for octets in (missing, behind, left, longer, inside, b"\x04\x20\xaa\xbb", b"\x30\x10" + element(2, b"\x05" * 144)):
        _, lines = why.said(octets)
        why.part.expect(f"no other length, {octets[:12].hex()}", "If the header" not in "\n".join(lines), *lines)
    # A later record is whole, and an element of indefinite length does not say where it ends.
    for octets in (element(0x30, b"\x02\x02\x05") + element(0x30, NULL), b"\x30\x80\x30\x03\x02\x02\x05\0\0"):
        _, lines = why.said(octets)
        why.part.expect(f"another length, {octets.hex()}", "If the header" in "\n".join(lines), *lines)


def hints(why):
    """The hints are given, and following one helps."""
    for what, octets, wanted, ends in HINTS:
        status, lines = why.said(octets)
        why.part.expect(f"hint: {what}", status == ends and wanted in "\n".join(lines), str(status), *lines)
    for octets in NO_START:
        _, lines = why.said(octets)
        text = "\n".join(lines)
        fine = f"end at offset {len(BODY)}." in text and "From offset" not in text
        why.part.expect(f"no other start after whole encodings, {octets.hex()}", fine, *lines)
    # From the element in the damaged record on it parses far, but only up to the fault of the input.
    _, lines = why.said(RECORD + element(0x30, RECORD + string(bytes(5000)) + b"\x04\xff") + RECORD[:-1])
    why.part.expect("no next record in front of the fault", "record may begin" not in "\n".join(lines), *lines)
    got = why.program.run([], (b"\0\0\0" + BODY)[3:])
    why.part.expect("after the wrong start", got.status == 0, *got.lines())


def kinds(why):
    """Of a file of another kind, its message and the line of its kind are all that is said."""
    for octets, wanted in KINDS:
        message = why.part.run(["dump"], octets).err.decode().strip()
        status, lines = why.said(octets)
        fine = (status, lines) == (2, [f"It does not parse: {message}.", wanted])
        why.part.expect(f"a file of another kind, {octets[:8].hex()}", fine, *lines)
        got = why.program.run(["--as=octets"], octets)
        fine = (got.status, got.err.decode().splitlines()) == (2, [message, wanted])
        why.part.expect(f"a dump of such a file, {octets[:8].hex()}", fine, *got.lines())
    # An element that begins so, and parses: 3c is the constructed form of the universal number 28.
    octets = b"\x3c\x04\x04\x02aa"
    _, lines = why.said(octets)
    why.part.expect("what parses is of no other kind", lines[:1] == [sound(octets)], *lines)


def other_lengths(why):
    """Up to three headers are named, each with the first length that would mend all."""
    for what, octets, wanted in LENGTHS:
        _, lines = why.said(octets)
        why.part.expect(f"another length: {what}", lines[1:2] == [wanted], *lines)


def of_size(size, octets):
    """Returns an input of this size: an OCTET STRING, and then these octets."""
    return next(it for head in range(2, 7) if len(it := string(bytes(size - len(octets) - head)) + octets) == size)


def long_input(why):
    """In more than 2^18 octets only lengths nearby are tried, and one header is named. In more than 2^20 a window is searched:
    for all lengths if its fault is in the first 2^18 octets.
    """
    for size, octets, wanted in LONG_LENGTHS:
        _, lines = why.said(of_size(size, octets))
        fine = wanted in lines if wanted else not any(line.startswith("If ") for line in lines)
        why.part.expect(f"another length in {size} octets, {octets[:20].hex()}", fine, *lines)
    for size in (1 << 20, (1 << 20) + 1):
        _, lines = why.said(of_size(size, DAMAGED + RECORD))
        why.part.expect(f"the next record in {size} octets", NEXT.format(size - 5, size - 4) in lines, *lines)


def many_tries(why):
    """The tries for the next record read 2^24 octets, divided by the number of blocks, and then no other is made.

    With N records in front of the string, the first of these is tried twice: as the end of the damaged one, and after its
    start. A walk from a record reads its two octets, those of the records behind it, the string and four octets up to the end
    of the input. So all walks read N * (N + 3) + (N + 1) * (LONG + 9) octets.
    """
    part = why.part
    part.write("other", RECORD + DAMAGED + RECORD)
    for blocks, last_found in ((1, 31), (2, 15), (3, 9)):
        for count in (last_found - 1, last_found, last_found + 1, last_found + 2):
            octets, is_found = behind_many(count), count <= last_found
            last, read = len(octets) - 2, count * (count + 3) + (count + 1) * (LONG + 9)
            part.write("many", octets)
            got = why.run(["--as", "octets", *["other"] * (blocks - 1), "many"])
            lines = got.out.decode().splitlines()
            fine = got.status == 2 and is_found == (read < (1 << 24) // blocks) and (NEXT.format(last, last + 1) in lines) == is_found
            fine = fine and lines.count(NEXT.format(13, 14)) == blocks - 1
            part.expect(f"the next record, behind {count} that break, in block {blocks}", fine, *lines)


def cuts(why):
    """Each prefix of an encoding is reported with the number of octets that it lacks."""
    octets = element(0x30, b"\x02\x01\x05" + element(0x31, string(b"\x05" * 130) + NULL))
    wrong = []
    for size in [*range(4, 20), *range(len(octets) - 6, len(octets))]:
        status, lines = why.said(octets[:size])
        stated = re.findall(r"Missing up to there: (\d+) octets?\.", "\n".join(lines))
        if status != 2 or stated != [str(len(octets) - size)]:
            wrong += [f"{size}: {status}", *lines]
    why.part.expect("prefixes of an encoding", not wrong, *wrong)


def wrong_lengths(rng, octets):
    """Yields the offset of a random header, and the octets with its last length octet changed by 1 to 5."""
    headers = [it for it in Reading(octets).elements() if it.length is not None]
    for it in rng.choices(headers, k=CHANGES):
        last = it.length_octets[-1] + rng.choice([-5, -4, -3, -2, -1, 1, 2, 3, 4, 5])
        if 0 <= last <= (255 if len(it.length_octets) > 1 else 127):
            yield it.offset, octets[: it.start - 1] + bytes([last]) + octets[it.start :]


def real_headers(why):
    """In real encodings with one length changed by 1 to 5, that header is named in more than nine of ten cases.

    Encodings that still parse do not count.
    """
    part, rng, named, mended, unnamed = why.part, random.Random(1), 0, 0, []
    for name, octets in real_encodings.encodings(part, STEP):
        for offset, wrong in wrong_lengths(rng, octets):
            status, lines = why.said(wrong)
            if status == 2:
                text = "\n".join(lines)
                mended += f" at offset {offset} said" in text
                is_named = str(offset) in NAMED.findall(text)
                named, unnamed = named + is_named, unnamed + [f"{name}, {offset}"] * (not is_named)
    count = named + len(unnamed)
    share = f"{count} real encodings with a wrong length: {named} headers named, {mended} as the one that would mend all"
    part.expect("real encodings with a wrong length", count >= 200, share)
    part.expect("the header is named in more than nine of ten", named > 0.9 * count, share, *unnamed)
    part.note(share)


def other_counts(rng, octets):
    """Yields offsets of random primitives with two contents octets or more, and the octets in which they lack one of
    these or have one of them twice.
    """
    primitives = [it for it in Reading(octets).elements() if not it.constructed and (it.length or 0) > 1]
    for it in rng.choices(primitives, k=CHANGES):
        place = it.start + rng.randrange(it.length)
        again = octets[place : place + 1] * rng.choice((0, 2))
        yield it.offset, octets[:place] + again + octets[place + 1 :]


def real_contents(why):
    """In real encodings with one contents octet missing or doubled, the header in front is named in most cases.

    Encodings that still parse do not count.
    """
    part, rng, named, other = why.part, random.Random(2), 0, []
    for name, octets in real_encodings.encodings(part, STEP):
        for offset, wrong in other_counts(rng, octets):
            status, lines = why.said(wrong)
            if status == 2:
                is_named = any(line in lines for line in (MORE.format(offset), FEWER.format(offset)))
                named, other = named + is_named, other + [f"{name}, {offset}"] * (not is_named)
    count = named + len(other)
    share = f"{count} real encodings with one contents octet missing or doubled: {named} headers named"
    part.expect("real encodings with one contents octet missing or doubled", count >= 200, share)
    part.expect("the header in front of them is named in most cases", named > 0.5 * count, share, *other)
    part.note(share)


def is_sequence(octets):
    """Returns whether these octets are one SEQUENCE."""
    first = Reading(octets).items[0]
    return octets[:1] == b"\x30" and first.end == len(octets)


def real_records(why):
    """Of three real encodings, the one in the middle has a header that is refused inside it. The last one is named."""
    part, rng, count, unnamed = why.part, random.Random(3), 0, []
    encodings = [octets for _, octets in real_encodings.encodings(part, STEP) if is_sequence(octets)]
    for front, octets, back in zip(encodings, encodings[1:], encodings[2:]):
        it = rng.choice(Reading(octets).elements()[1:])
        place = it.offset + len(it.identifier)
        _, lines = why.said(front + octets[:place] + b"\xff" + octets[place + 1 :] + back)
        offset, count = len(front + octets), count + 1
        unnamed += [] if NEXT.format(offset, offset + 1) in lines else [f"{offset}: {lines}"]
    part.expect("real encodings behind a damaged one", count > 20 and not unnamed, str(count), *unnamed)


def texts(why):
    """Each block of a text is explained. The status of several FILEs is the highest."""
    part, octets = why.part, element(0x30, b"\x02\x01\x05")
    got = why.run([], octets.hex().encode())
    fine = (got.status, got.err) == (0, b"taken for hexadecimal\n") and got.out.startswith(sound(octets).encode())
    part.expect("why, of hexadecimal", fine, *got.lines())
    got = why.run([], PEM)
    lines = got.out.decode(errors="replace").splitlines()
    fine = got.status == 2 and all(f"taken for PEM, {label}\n".encode() in got.err for label in "AB")
    fine = fine and any(line.startswith(sound(octets)) for line in lines) and "Missing there: 1 octet." in lines
    part.expect("why, of PEM", fine, *got.lines())
    part.write("whole", octets)
    part.write("cut", octets[:-1])
    for words, status in ((["whole"], 0), (["cut"], 2), (["whole", "cut"], 2), (["cut", "missing"], 3)):
        got = why.run(words)
        part.expect(f"why, of {words}", got.status == status, *got.lines())


def test(part):
    why = Why(part)
    faults(why)
    by_chance(why)
    undone(why)
    others(why)
    outermost(why)
    no_length(why)
    other_lengths(why)
    long_input(why)
    hints(why)
    kinds(why)
    many_tries(why)
    cuts(why)
    texts(why)
    if part.has("openssl"):
        real_headers(why)
        real_contents(why)
        real_records(why)

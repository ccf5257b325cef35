"""Draws hex dumps at random, as common programs write them, with variants, and with wrong offsets and rows."""


def shown(octets):
    """Returns the characters that dumps show for octets."""
    return "".join(chr(it) if 0x20 <= it < 0x7F else "." for it in octets)


def joined(octets, group):
    """Returns pairs of digits in groups, with a space between groups."""
    return " ".join(octets[at : at + group].hex() for at in range(0, len(octets), group))


def xxd(offset, octets, width):
    """Returns a row of xxd."""
    return f"{offset:08x}: {joined(octets, 2):{width * 5 // 2}} {shown(octets)}"


def hexdump(offset, octets, width):
    """Returns a row of hexdump -C."""
    half = width // 2
    return f"{offset:08x}  {octets[:half].hex(' ') + '  ' + octets[half:].hex(' '):{width * 3}}  |{shown(octets)}|"


def od(offset, octets, width):
    """Returns a row of od -tx1."""
    return f"{offset:07o} {octets.hex(' ')}"


def od_z(offset, octets, width):
    """Returns a row of od -Ax -tx1z."""
    return f"{offset:06x} {octets.hex(' '):{width * 3}} >{shown(octets)}<"


def wireshark(offset, octets, width):
    """Returns a row of Wireshark."""
    return f"{offset:04x}   {octets.hex(' '):{width * 3}}  {shown(octets)}"


def tcpdump(offset, octets, width):
    """Returns a row of tcpdump -X."""
    return f"\t0x{offset:04x}:  {joined(octets, 2):{width * 5 // 2}} {shown(octets)}"


def gdb(offset, octets, width):
    """Returns a row of gdb."""
    return f"{offset:#08x}:\t" + "\t".join(f"{octet:#04x}" for octet in octets)


def gdb_symbol(offset, octets, width):
    """Returns a row of gdb with a symbol."""
    return f"{offset:#08x} <a+{offset % 100}>:\t" + "\t".join(f"{octet:#04x}" for octet in octets)


def bio_dump(offset, octets, width):
    """Returns a row of openssl."""
    half = width // 2
    middle = "-" if len(octets) > half else " "
    return f"{offset:04x} - {octets[:half].hex(' ') + middle + octets[half:].hex(' '):{width * 3}}  {shown(octets)}"


def powershell(offset, octets, width):
    """Returns a row of Format-Hex."""
    return f"{offset:08X}   {octets.hex(' ').upper():{width * 3}} {shown(octets)}"


def one_blank(offset, octets, width):
    """Returns a row whose characters follow after one blank."""
    return f"{offset:04x}: {octets.hex(' ')} {shown(octets)}"


def xxd_in_words(offset, octets, width):
    """Returns a row of xxd -e, with the octets of each word in reverse."""
    reversed_words = (octets[at : at + 4][::-1].hex().rjust(8) for at in range(0, len(octets), 4))
    return f"{offset:08x}: {' '.join(reversed_words):{width * 9 // 4}} {shown(octets)}"


def xxd_in_bits(offset, octets, width):
    """Returns a row of xxd -b."""
    return f"{offset:08x}: {' '.join(f'{it:08b}' for it in octets):{width * 9}} {shown(octets)}"


def words(offset, octets, width):
    """Returns a row of hexdump without options."""
    return f"{offset:07x} {joined(octets, 2)}"


ROWS = (
    xxd, xxd, hexdump, hexdump, od, od, od_z, wireshark, tcpdump, gdb, gdb_symbol, bio_dump, powershell, one_blank, words,
    xxd_in_words, xxd_in_bits,
)
OCTAL = (od,)
BEFORE = ("12:00:01.5 IP 10.0.0.1.22 > 10.0.0.2.5: Flags [P.], length 5", "# x", "", "Path: a", "0000 zz", "*", "abcd")
AFTER = ("user@host:~$ ", "end", "", "*", "0010", "1234 files", "00000010: 05", "zz: 05 00")
ENDED = (hexdump, od, od_z, words)


def dump(rng, octets):
    """Returns a hex dump of octets."""
    row = rng.choice(ROWS)
    width = 16 if rng.random() < 0.7 else rng.choice([1, 2, 4, 8, 15, 17, 32, 255, 256, 257])
    start = 0 if rng.random() < 0.85 else rng.choice([1, 16, 256, 0x1000, (1 << 32) - 1, (1 << 63) + 5])
    if rng.random() < 0.25:
        octets += rng.choice([b"\0", b"\x05\x00", b"ab"]) * rng.choice([16, 40, 64]) + rng.choice([b"", b"\x05\0"])
    lines, before, is_left_out = [], None, False
    for at in range(0, len(octets), width):
        part = octets[at : at + width]
        if part == before and rng.random() < 0.95:
            lines += [] if is_left_out else ["*"]
            is_left_out = True
        else:
            lines.append(row(start + at, part, width))
            before, is_left_out = part, False
    if row in ENDED or is_left_out or rng.random() < 0.1:
        end = start + len(octets)
        lines.append(f"{end:07o}" if row in OCTAL else f"{end:08x}")
    if rng.random() < 0.1:
        lines.insert(0, rng.choice(BEFORE))
    while rng.random() < 0.15:
        lines.append(rng.choice(AFTER))
    if rng.random() < 0.12:
        lines = altered(rng, lines)
    return ("\n".join(lines) + rng.choice(["\n", "\n", "\n\n", ""])).encode()


def altered(rng, lines):
    """Returns the lines of a dump with a wrong offset, a row that is too long or too short, an inserted line, or two
    lines in one.
    """
    if not lines:
        return lines
    at, how = rng.randrange(len(lines)), rng.randrange(7)
    line = lines[at]
    if how == 0:
        lines[at] = rng.choice("0123456789abcdefg") + line[1:]
    elif how == 1:
        lines[at] = line[: rng.randrange(len(line) + 1)]
    elif how == 2:
        lines[at] = line + rng.choice([" 05", "05", "  05", " 05 ", "  |..|", " .", " " + "\u00e9" * 9, "..."])
    elif how == 3:
        lines.insert(at, rng.choice(["", "*", "* ", "**", "end", "0010", "00000010", "0000001z", " \t"]))
    elif how == 4:
        lines[at] = line.replace(" ", rng.choice(["  ", "\t", "", "-", ":"]))
    elif how == 5:
        lines[at] = lines[at].upper()
    else:
        lines[at : at + 2] = [rng.choice(["", " "]).join(lines[at : at + 2])]
    return lines

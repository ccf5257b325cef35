"""Draws names of files, and the words for them: short and long names, and names that no file has."""
LONGEST_PATH, LONGEST_WORD = 4095, 131_000
# Unusual names that a file can have. An ending is added so that two files have different names.
ODD = ("a:b", "\U0001f600", "\U0001f600:", "a b", "%s", "\u00e9" * 120, "x" * 240, "\\n", "'", "*", "~", "a=b", "\n")
ODD += ("\u202e", "\ufeff", "\x7f", "\x01")


def file_name(rng, usual):
    """Returns the name of a file, mostly the usual one."""
    return usual if rng.random() < 0.7 else f"{rng.choice(ODD)}.{usual}"


def path_to(rng, name):
    """Returns a path, and whether it can be opened: mostly the name
    itself, or a longer path to it, rarely one that no file has.
    """
    choice, octets = rng.random(), len(name.encode())
    if choice < 0.75:
        return name, True
    if choice < 0.9:
        return longer(name, rng.randint(0, LONGEST_PATH - octets)), True
    length = rng.randrange(LONGEST_PATH + 1, rng.choice([5_000, 20_000, 60_000, LONGEST_WORD]))
    if choice < 0.94:
        return longer(name, length - octets), False
    start = rng.choice(["missing", *ODD])
    return start + "m" * rng.choice([1, 300, length - len(start.encode())]), False


def longer(name, octets):
    """Returns a path to the file of this name that is longer by `octets` octets, or by one less."""
    return "./" * (octets // 2) + name

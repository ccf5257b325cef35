"""Reads the object identifiers among the constants of Java classes, as Bouncy Castle declares them."""
import struct
import zipfile

MADE = "(Ljava/lang/String;)V"
# The number of octets after each opcode that is used to make the constants.
FOLLOW = {0x12: 1, 0x13: 2, 0x59: 0, 0xB1: 0, 0xB2: 2, 0xB3: 2, 0xB6: 2, 0xB7: 2, 0xBB: 2}
# The size in octets of each kind of constant.
SIZES = {3: 4, 4: 4, 5: 8, 6: 8, 7: 2, 8: 2, 9: 4, 10: 4, 11: 4, 12: 4, 15: 3, 16: 2, 17: 4, 18: 4}
SIZES |= {19: 2, 20: 2}


class Reader:
    def __init__(self, octets):
        self.octets, self.at = octets, 0

    def take(self, count):
        self.at += count
        return self.octets[self.at - count:self.at]

    def number(self, count):
        return int.from_bytes(self.take(count), "big")


def pool_of(reader):
    """Returns the constants of a class: texts, and references to other constants."""
    pool, count, index = {}, reader.number(2), 1
    while index < count:
        tag = reader.number(1)
        if tag == 1:
            pool[index] = reader.take(reader.number(2)).decode("utf-8", "replace")
        else:
            octets = reader.take(SIZES[tag])
            pool[index] = struct.unpack(f">{len(octets) // 2}H", octets[:len(octets) // 2 * 2])
        index += 2 if tag in (5, 6) else 1
    return pool


def member(pool, index):
    """Returns the class, the name and the type of a field or method."""
    owner, both = pool[index]
    name, kind = pool[both]
    return pool[pool[owner][0]], pool[name], pool[kind]


def skip_attributes(reader, pool):
    """Skips attributes. Returns the octets of the attribute Code, if there is one."""
    code = b""
    for _ in range(reader.number(2)):
        name, octets = pool[reader.number(2)], reader.take(reader.number(4))
        code = octets if name == "Code" else code
    return code


def start_of(octets):
    """Returns the constants of a class, and the code that runs when it is loaded."""
    reader = Reader(octets)
    reader.take(8)
    pool = pool_of(reader)
    reader.take(6)
    reader.take(2 * reader.number(2))
    found = b""
    for kind in ("fields", "methods"):
        for _ in range(reader.number(2)):
            reader.take(2)
            name = pool[reader.number(2)]
            reader.take(2)
            code = skip_attributes(reader, pool)
            found = code if kind == "methods" and name == "<clinit>" else found
    return pool, found[8:8 + int.from_bytes(found[4:8], "big")]


class Classes:
    """The classes of some archives. Anything in a class that is not understood is skipped."""

    def __init__(self, paths):
        self.archives = [zipfile.ZipFile(path) for path in paths]
        self.places = {}
        self.known = {}
        for archive in self.archives:
            for name in archive.namelist():
                if name.endswith(".class"):
                    self.places[name[:-len(".class")]] = archive

    def fields(self, name):
        """Returns the object identifiers that are fields of a class, by field name."""
        if name not in self.known:
            self.known[name] = {}
            if name in self.places:
                self.run(name, *start_of(self.places[name].read(name + ".class")))
        return self.known[name]

    def run(self, name, pool, code):
        reader, stack = Reader(code), []
        while reader.at < len(code):
            opcode = reader.number(1)
            if opcode not in FOLLOW:
                return
            index = reader.number(FOLLOW[opcode])
            self.step(name, pool, opcode, index, stack)

    def step(self, name, pool, opcode, index, stack):
        if opcode in (0x12, 0x13):
            text = pool[pool[index][0]] if isinstance(pool[index], tuple) else None
            stack.append(text)
        elif opcode == 0xB2:
            owner, field, _ = member(pool, index)
            stack.append(self.fields(owner).get(field))
        elif opcode == 0xB7 and member(pool, index)[1:] == ("<init>", MADE):
            made = stack.pop() if stack else None
            stack[-2:] = [made]
        elif opcode == 0xB6 and member(pool, index)[1] == "branch" and len(stack) > 1:
            last, first = stack.pop(), stack.pop()
            stack.append(f"{first}.{last}" if first and last else None)
        elif opcode in (0xBB, 0x59):
            stack.append(None)
        elif opcode == 0xB3:
            value = stack.pop() if stack else None
            if isinstance(value, str) and value[:2] in ("0.", "1.", "2."):
                self.known[name][member(pool, index)[1]] = value

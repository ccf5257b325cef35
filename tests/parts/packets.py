"""Makes packets: messages of SNMP, LDAP and Kerberos behind the headers of a link, of IP, and of UDP or TCP."""
import struct


def element(tag, *parts):
    """Returns an element with the shortest length."""
    contents = b"".join(parts)
    size = len(contents)
    count = (size.bit_length() + 7) // 8
    said = bytes([size]) if size < 128 else bytes([0x80 | count]) + size.to_bytes(count, "big")
    return bytes([tag]) + said + contents


class Packet:
    """A packet, with the offset at which its message begins."""

    def __init__(self, octets, offset):
        self.octets, self.offset, self.length, self.by = octets, offset, None, None


def variable(rng):
    """Returns a variable of SNMP and its value."""
    name = element(6, b"\x2b\x06\x01\x02\x01\x01" + bytes([rng.randrange(1, 9), 0]))
    return element(0x30, name, element(4, rng.randbytes(rng.randrange(4, 40))))


def snmp(rng, octets):
    """A packet of SNMP in UDP."""
    variables = [variable(rng) for _ in range(rng.randrange(1, 6))]
    body = element(0xA2, element(2, rng.randbytes(4)), element(2, b"\0"), element(2, b"\0"), element(0x30, *variables))
    return behind(rng, element(0x30, element(2, b"\1"), element(4, b"public"), body), True, 161)


def ldap(rng, octets):
    """A packet of LDAP in TCP."""
    attributes = [element(0x30, element(4, b"mail"), element(0x31, element(4, b"a%d@example.org" % rng.randrange(99))))
                  for _ in range(rng.randrange(1, 5))]
    entry = element(0x64, element(4, b"cn=jon,dc=example,dc=org"), element(0x30, *attributes))
    return behind(rng, element(0x30, element(2, bytes([rng.randrange(1, 100)])), entry), False, 389)


def kerberos(rng, octets):
    """A packet of Kerberos in UDP."""
    realm, host = element(0xA2, element(0x1B, b"EXAMPLE.ORG")), element(0x1B, b"krbtgt")
    name = element(0xA3, element(0x30, element(0xA0, element(2, b"\2")), element(0xA1, element(0x30, host))))
    body = element(0xA4, element(0x30, realm, name, element(0xA7, element(2, rng.randbytes(4)))))
    return behind(rng, element(0x6A, element(0x30, element(0xA1, element(2, b"\5")), body)), True, 88)


def behind(rng, message, is_udp, port):
    """Returns the message behind the headers of Ethernet or of none, of IP, and of UDP or TCP."""
    ports = struct.pack(">HH", rng.randrange(1024, 65536), port)
    if is_udp:
        carried = ports + struct.pack(">HH", 8 + len(message), rng.randrange(65536)) + message
    else:
        carried = ports + rng.randbytes(8) + b"\x50\x18" + rng.randbytes(2) + b"\1\2\0\0" + message
    size = 20 + len(carried)
    ip = struct.pack(">BBHHHBBH", 0x45, 0, size, rng.randrange(65536), 0x4000, 64, 17 if is_udp else 6, rng.randrange(65536))
    ip += b"\xc0\xa8\0" + rng.randbytes(1) + b"\x0a\0\0" + rng.randbytes(1)
    link = b"\0\x1b" + rng.randbytes(4) + b"\0\x50\x56" + rng.randbytes(3) + b"\x08\0" if rng.random() < 0.7 else b""
    whole = link + ip + carried
    return Packet(whole, len(whole) - len(message))


# What a line has to say of each.
KINDS = {kind: "^From offset {0} on it parses" for kind in (snmp, ldap, kerberos)}

"""Tests the sources and destinations of octets: FILE, standard input and output, and devices that fail."""
import os
import pwd
import resource
import shutil
import signal
import socket
import subprocess

from parts.harness import Done, message

NULL = b"\x05\x00"
NULL_LINE = b"       0      0: NULL\n"
JONES = bytes.fromhex("3a0904034a6f6e04026573")
JONES_LINES = [
    b"       0      9: VisibleString {\n",
    b"       2      3:   OCTET STRING 4a 6f 6e\n",
    b"       7      2:   OCTET STRING 65 73\n",
    b"                 }\n",
]
COMMANDS = [["dump"], ["extract", "--offset", "0"], ["indef"]]
READ = "E1 read failed"
WRITE = "E2 write failed"
OPEN = "E5 cannot open the file"


def closing(*descriptors):
    """Returns what the child does before it becomes the program:
    it closes these descriptors, as `<&-` of the shell does.
    """

    def close():
        for it in descriptors:
            os.close(it)

    return close


def inputs(part):
    """FILE, or standard input, that gives nothing."""
    os.mkdir(part.path("folder"))
    part.write("null", NULL)
    for words in COMMANDS:
        part.gives([*words, "missing"], NULL, 3, err=OPEN)
        part.gives([*words, "null/below"], NULL, 3, err=OPEN)
        part.gives([*words, ""], NULL, 3, err=OPEN)
        part.gives([*words, "folder"], NULL, 3, err=READ)
        part.gives([*words, "/dev/null"], NULL, 2, err="fault at 0: F01 empty input")
        folder = os.open(part.path("folder"), os.O_RDONLY)
        part.gives(words, None, 3, err=READ, stdin=folder)
        os.close(folder)
        writable = os.open("/dev/null", os.O_WRONLY)
        part.gives(words, None, 3, err=READ, stdin=writable)
        os.close(writable)
        part.gives(words, None, 3, err=READ, stdin=None, preexec_fn=closing(0))
    part.gives(["dump", "null"], None, 0, NULL_LINE, stdin=None, preexec_fn=closing(0))
    part.gives(["dump", part.path("null")], b"", 0, NULL_LINE)


def standard_input_by_name(part):
    """/dev/stdin as FILE: a pipe, a file, and an empty input."""
    for words, out in ((["dump"], NULL_LINE), (["check"], b""), (["extract", "--offset=0"], NULL), (["indef"], NULL)):
        part.gives([*words, "/dev/stdin"], NULL, 0, out)
        with open(part.path("null"), "rb") as file:
            part.gives([*words, "/dev/stdin"], None, 0, out, stdin=file)
        part.gives([*words, "/dev/stdin"], None, 3, err=OPEN, stdin=None, preexec_fn=closing(0))
    part.gives(["dump", "/dev/stdin"], b"", 2, err="fault at 0: F01 empty input")
    long = b"\x04\x82\x27\x10" + bytes(10_000)
    part.gives(["extract", "--offset", "0", "/dev/stdin"], long, 0, long)


def as_another_user(part, program=None):
    """Returns how to run the program as a user who may not read each file: nobody, if the tests run as root.

    Nobody may not enter the folder of the tests, so a copy of the program is put where the child already is. Without a
    path of another program it is tlvdump.
    """
    if os.geteuid():
        return {"program": program} if program else {}
    shutil.copy(program or part.program, part.path("program"))
    os.chmod(part.path("program"), 0o755)
    os.chmod(part.folder, 0o755)
    nobody = pwd.getpwnam("nobody")
    return {"program": "./program", "user": nobody.pw_uid, "group": nobody.pw_gid, "extra_groups": []}


def files_that_may_not_be_read(part):
    """A file of mode 0 cannot be opened: E5 for FILE, N5 for a names file."""
    how = as_another_user(part)
    object_octets, named = b"\x06\x03\x2a\x86\x48", b"       0      3: OBJECT IDENTIFIER 1.2.840 (us)\n"
    for name, octets in (("object", object_octets), ("names", b"1.2.840 us\n"), ("wrong", b"1.40 x\n")):
        os.chmod(part.write(name, octets), 0o644)
        os.chmod(part.write(f"closed-{name}", octets), 0)
    os.mkdir(part.path("closed-folder"))
    part.write("closed-folder/object", object_octets)
    os.chmod(part.path("closed-folder"), 0)
    unread = "N5 names file not read"
    part.gives(["dump", "--names", "names", "object"], b"", 0, named, **how)
    for file in ("closed-object", "closed-folder", "closed-folder/object"):
        for words in (*COMMANDS, ["check"], ["dump", "--names", "names"]):
            part.gives([*words, file], object_octets, 3, err=OPEN, **how)
        part.gives(["dump", "--names", file, "object"], b"", 4, err=unread, **how)
    for file in ("object", "closed-object", "missing"):
        part.gives(["dump", "--names", "closed-names", file], b"", 4, err=unread, **how)
        part.gives(["dump", "--names", "closed-wrong", file], b"", 4, err=unread, **how)
        part.gives(["dump", "--names", "wrong", file], b"", 4, err="N1 line 1: not an object identifier", **how)
        words = ["dump", "--names", "closed-names", "--limit", "x", file]
        part.gives(words, b"", 4, err="U2 value out of range: --limit", **how)
    os.chmod(part.path("closed-folder"), 0o700)


def inputs_that_break(part):
    """If a read fails, the output of the octets before it is written."""
    # A socket whose other end was closed with unread octets gives what came, and then an error.
    near, far = socket.socketpair()
    near.sendall(b"unread")
    far.sendall(JONES[:4])
    far.close()
    part.gives(["dump"], None, 3, JONES_LINES[0], READ, stdin=near)
    near.close()
    # A pipe that does not block fails if it is empty while its writer is open.
    reading, writing = os.pipe()
    os.set_blocking(reading, False)
    os.write(writing, JONES[:7])
    part.gives(["dump"], None, 3, b"".join(JONES_LINES[:2]), READ, stdin=reading)
    # No read is made after a fault, or after the element of `extract`.
    os.write(writing, b"\x05\x00\x04\xff")
    said = "fault at 3: F07 length octet ff is reserved"
    part.gives(["dump"], None, 2, NULL_LINE, said, stdin=reading)
    os.write(writing, b"\x30\x80\x02\x01\x05")
    part.gives(["extract", "--offset", "2"], None, 0, b"\x02\x01\x05", stdin=reading)
    os.close(reading)
    os.close(writing)


def outputs_that_fail(part):
    """A full disk, and a closed standard output."""
    for words in COMMANDS:
        with open("/dev/full", "wb") as full:
            part.gives(words, NULL, 3, err=WRITE, stdout=full)
            # A failed write takes precedence over a fault after it.
            part.gives(words, b"\x30\x03\x02\x02\x01", 3, err=WRITE, stdout=full)
            part.gives(words, b"", 2, err="fault at 0: F01 empty input", stdout=full)
        part.gives(words, NULL, 3, err=WRITE, stdout=None, preexec_fn=closing(1))
        with open("/dev/null", "rb") as readable:
            part.gives(words, NULL, 3, err=WRITE, stdout=readable)
    with open("/dev/full", "wb") as full:
        missing = "E4 no element at offset 7"
        part.gives(["extract", "--offset", "7"], NULL, 1, err=missing, stdout=full)
    # If standard output is closed, nothing may be written to the file that is opened.
    path = part.write("kept", NULL)
    got = part.run(["dump", "kept"], stdout=None, preexec_fn=closing(1))
    part.same("dump kept, standard output closed", got, Done(3, b"", message(WRITE)))
    with open(path, "rb") as file:
        part.expect("the file is as it was", file.read() == NULL)


def messages_that_fail(part):
    """A message that cannot be written is lost, but the output and the status stay the same."""
    fault = b"\x30\x03\x02\x02\x01"
    line = b"       0      3: SEQUENCE {\n"
    with open("/dev/full", "wb") as full:
        part.gives(["dump"], fault, 2, line, stderr=full)
        part.gives(["dump", "missing"], b"", 3, stderr=full)
        part.gives(["dump", "--limit", "x"], b"", 4, stderr=full)
        part.gives(["dump", "--names", "missing"], b"", 4, stderr=full)
        part.gives(["nonsense"], b"", 4, stderr=full)
    part.gives(["dump"], fault, 2, line, stderr=None, preexec_fn=closing(2))
    part.gives(["dump"], NULL, 0, NULL_LINE, stderr=None, preexec_fn=closing(2))
    part.gives(["dump"], b"", 3, stdin=None, stdout=None, stderr=None, preexec_fn=closing(0, 1, 2))


def outputs_that_fill_up(part):
    """If a file may not grow beyond a size, it gets a prefix of the output."""
    whole = b"".join(JONES_LINES)
    for room in (0, 1, 7, 17, len(whole) - 1):

        def limit_file_size(ignored=signal.SIG_IGN):
            signal.signal(signal.SIGXFSZ, ignored)
            resource.setrlimit(resource.RLIMIT_FSIZE, (room, room))

        path = part.path("out")
        with open(path, "wb") as out:
            got = part.run(["dump"], JONES, stdout=out, preexec_fn=limit_file_size)
        part.same(f"room for {room} octets", got, Done(3, b"", message(WRITE)))
        with open(path, "rb") as file:
            part.expect(f"what {room} octets hold", file.read() == whole[:room])
    with open(path, "wb") as out:
        how = {"stdout": out, "preexec_fn": lambda: limit_file_size(signal.SIG_DFL)}
        got = part.run(["dump"], JONES, **how)
    part.same("a limit that kills", got, Done(-signal.SIGXFSZ, b"", b""))
    with open(path, "ab") as out:
        got = part.run(["dump"], JONES, stdout=out, stderr=subprocess.STDOUT)
    part.same("both streams in one file", got, Done(0, b"", b""))


def test(part):
    inputs(part)
    standard_input_by_name(part)
    files_that_may_not_be_read(part)
    inputs_that_break(part)
    outputs_that_fail(part)
    messages_that_fail(part)
    outputs_that_fill_up(part)

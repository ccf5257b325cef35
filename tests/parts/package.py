"""Tests ./package: the contents of the Debian package, its installation and removal, and the report of lintian."""
import gzip
import hashlib
import math
import os
import re
import shutil
import signal
import stat
import subprocess
import time

from parts.install import PROGRAM, SHOW, SIGNALS, all_below, clone, content, files_below, install, usual_signals, without_tools
from parts.show_program import Program
from parts.swaps import check_swaps

TOOLS = ("dpkg-deb", "dpkg", "gzip", "strip", "readelf")
DOCUMENTS = ["usr/share/doc/tlvdump/changelog.gz", "usr/share/doc/tlvdump/copyright"]


def environment(part, program=None, **more):
    """Returns an environment in which temporary files go to a folder of their own."""
    more = {"TLVDUMP_SHOW": part.suite.show_program, **more}
    return dict(os.environ, TLVDUMP=program or part.program, TMPDIR=part.path("work"), **more)


def package(part, *words, program=None, **more):
    """Runs the script with the program of the tests, or with another. Returns its status, its output and its errors."""
    how = {"cwd": part.folder, "env": environment(part, program, **more), "timeout": 120}
    got = subprocess.run([os.path.join(part.root, "package"), *words], capture_output=True, text=True, **how)
    left = os.listdir(part.path("work"))
    part.expect(f"no temporary file of package {' '.join(words)} is left", not left, *left)
    return got.returncode, got.stdout, got.stderr


def said_by(*words):
    return subprocess.run(words, capture_output=True, text=True, check=True).stdout


def place_of(path):
    """Returns the path in the package of a file that ./install puts at this path below its PREFIX."""
    path = path.replace("zsh/site-functions", "zsh/vendor-completions")
    return f"usr/{path}" + ".gz" * path.startswith("share/man/")


def with_paths(page):
    """Returns the manual page with the paths of the package, and without the sentence on PREFIX."""
    page = re.sub(rb"^PREFIX is .*\n", b"", page, flags=re.M)
    return page.replace(b"PREFIX/", b"/usr/")


def holds(part, made):
    """The package has the files of ./install, with the manual compressed and with the paths of the package. Modes,
    owners and checksums are right.
    """
    said_by("dpkg-deb", "-R", made, part.path("tree"))
    install(part, part.path("there"))
    put = files_below(part.path("there"))
    wanted = sorted([*map(place_of, put), *DOCUMENTS])
    found = [path for path in files_below(part.path("tree")) if not path.startswith("DEBIAN/")]
    part.expect("the files of the package", found == wanted, *sorted({*found} ^ {*wanted}))
    for path in put:
        if path in (PROGRAM, SHOW):
            continue
        octets, other = content(part.path(f"there/{path}")), content(part.path(f"tree/{place_of(path)}"))
        if path.startswith("share/man/"):
            octets = with_paths(octets)
            other = gzip.decompress(other)
        part.expect(f"{path} in the package", octets == other)
    page = gzip.decompress(content(part.path("tree/usr/share/man/man1/tlvdump.1.gz")))
    named = b"/usr/share/tlvdump/names.txt" in page and b"PREFIX" not in page
    part.expect("the manual of the package names its files", named)
    for path in found:
        mode = stat.S_IMODE(os.stat(part.path(f"tree/{path}")).st_mode)
        part.expect(f"the mode of {path}", mode == (0o755 if path.startswith("usr/bin/") else 0o644), oct(mode))
    owners = {line.split()[1] for line in said_by("dpkg-deb", "-c", made).splitlines()}
    part.expect("owners", owners == {"root/root"}, *owners)
    sums = [f"{hashlib.md5(content(part.path(f'tree/{path}'))).hexdigest()}  {path}\n" for path in found]
    part.expect("sums", content(part.path("tree/DEBIAN/md5sums")).decode() == "".join(sums))


def control(part, made, version):
    fields = dict(line.split(": ", 1) for line in said_by("dpkg-deb", "-f", made).splitlines() if not line.startswith(" "))
    wanted = {"Package": "tlvdump", "Version": version, "Architecture": "amd64"}
    part.expect("fields of the package", {key: fields[key] for key in wanted} == wanted, str(fields))
    depends(part, fields["Depends"], *(part.path(f"tree/usr/{place}") for place in (PROGRAM, SHOW)))
    # The installed size as dpkg-gencontrol computes it: kilobytes of each file, rounded up, and one for each folder.
    tree = [part.path(f"tree/{path}") for path in all_below(part.path("tree")) if path.split("/")[0] == "usr"]
    size = sum(1 if os.path.isdir(path) else math.ceil(os.path.getsize(path) / 1024) for path in tree)
    part.expect("Installed-Size", fields["Installed-Size"] == str(size), fields["Installed-Size"], str(size))


def depends(part, field, *programs):
    """Depends names the highest version of the C library from which a program has a symbol."""
    found = re.findall(r"\bGLIBC_([0-9.]+)\b", said_by("objdump", "-T", *programs))
    highest = max(found, key=lambda version: [int(number) for number in version.split(".")])
    fine = len(set(found)) > 1 and field == f"libc6 (>= {highest})"
    part.expect("the C library that it needs", fine, field, *sorted(set(found)))
    return highest


# A program with symbols of versions that sort differently as texts, such as 2.34 and 2.4.
OTHER_PROGRAM = r"""
#include <stdio.h>
int main(int count, char **words) {
    char text[64];
    snprintf(text, sizeof text, "tlvdump %s", VERSION);
    puts(text);
    return 0;
}
"""


def depends_of_another(part, version):
    if not all([part.has(tool) for tool in ("cc", "objdump")]):
        return
    part.write("other.c", OTHER_PROGRAM.encode())
    made = part.path("other-program")
    said_by("cc", "-O0", "-fstack-protector-all", f'-DVERSION="{version}"', "-o", made, part.path("other.c"))
    os.mkdir(part.path("of another"))
    got = package(part, "of another", program=made, TLVDUMP_SHOW=made)
    part.expect("package of another program", got[0] == 0, *map(str, got))
    fields = said_by("dpkg-deb", "-f", part.path(f"of another/tlvdump_{version}_amd64.deb"), "Depends")
    highest = depends(part, fields.strip(), made)
    part.expect("a version that is not the last as a text", highest < "2.4", highest)


def check_links(part, name):
    """A link at the place of the output is replaced, not followed. A folder there is a failure. Nothing else is left."""
    os.mkdir(part.path("linked"))
    victim = part.write("victim", b"not to be written")
    for ending in ("", ".new", ".tmp", "~"):
        os.symlink(victim, part.path(f"linked/{name}{ending}"))
    got = package(part, "linked")
    part.expect("package over links", got == (0, f"linked/{name}\n", ""), *map(str, got))
    made = part.path(f"linked/{name}")
    part.expect("what a link leads to", content(victim) == b"not to be written")
    part.expect("a package in place of a link", not os.path.islink(made) and content(made) == content(part.path(name)))
    part.expect("what is left beside it", len(os.listdir(part.path("linked"))) == 4, *os.listdir(part.path("linked")))
    part.expect("the mode of a package", stat.S_IMODE(os.stat(made).st_mode) == 0o644)
    os.makedirs(part.path(f"taken/{name}"))
    status, out, err = package(part, "taken")
    fine = (status, out) == (1, "") and err and all_below(part.path("taken")) == [name]
    part.expect("a folder in the way", fine, str(status), out, err, *all_below(part.path("taken")))
    status, out, err = package(part, "/proc")
    part.expect("a FOLDER that cannot be written", (status, out) == (1, "") and err, str(status), out, err)


NEEDED = ("chmod", "cp", "date", "dpkg-deb", "find", "gzip", "head", "id", "ls", "md5sum", "mkdir", "mktemp", "mv", "readelf")
NEEDED += ("readlink", "rm", "sed", "sort", "stat", "strip", "tail", "touch", "xargs")


def check_signals(part):
    """A signal while the script works leaves nothing.
    The program is slow to print its version, so that the signal comes in time.
    """
    slow = part.write("slow", b'#!/bin/sh\n: >"$SLOW"\nexec sleep 1\n')
    os.chmod(slow, 0o755)
    os.mkdir(part.path("stopped"))
    pipes = {"stdout": subprocess.PIPE, "stderr": subprocess.PIPE}
    for name, wanted in SIGNALS.items():
        begun = part.path(f"begun-{name}")
        how = {"cwd": part.folder, "env": environment(part, slow, SLOW=begun), "preexec_fn": usual_signals}
        child = subprocess.Popen([os.path.join(part.root, "package"), "stopped"], **how, **pipes)
        for _ in range(400):
            time.sleep(0.05)
            if os.path.exists(begun):
                break
        child.send_signal(getattr(signal, f"SIG{name}"))
        out, err = child.communicate(timeout=60)
        left = os.listdir(part.path("work")) + os.listdir(part.path("stopped"))
        fine = (child.returncode, out, left) == (wanted, b"", [])
        part.expect(f"{name} while it works", fine, str(child.returncode), str(err), *left)
    # The reader of the path that it prints is gone.
    reader, writer = os.pipe()
    os.close(reader)
    os.mkdir(part.path("unread"))
    how = {"cwd": part.folder, "env": environment(part), "preexec_fn": usual_signals, "timeout": 120}
    got = subprocess.run([os.path.join(part.root, "package"), "unread"], stdout=writer, stderr=subprocess.PIPE, **how)
    os.close(writer)
    left = os.listdir(part.path("work")) + [name for name in os.listdir(part.path("unread")) if not name.endswith(".deb")]
    part.expect("no reader", got.returncode == 141 and not left, str(got), *left)


def works(part):
    """The programs of the package, which are stripped, do the same as those of the tests."""
    path = part.path(f"tree/usr/{PROGRAM}")
    for words, octets in ((["--help"], b""), (["dump"], b"\x30\x05\x02\x01\x05\x05\x00"), (["check"], b"\x30\x80\x00\x00"), (["dump"], b"\x30\x03\x02")):
        part.same(f"the package: {' '.join(words)}", part.run(words, octets, program=path), part.run(words, octets))
    show = Program(part)
    for words, octets in ((["--help"], b""), ([], b"\x04\x08\x30\x06\x80\x04text"), (["--check"], b"\x30\x03\x02")):
        got = part.run(words, octets, program=part.path(f"tree/usr/{SHOW}"))
        part.same(f"the package: tlvdump-show {' '.join(words)}", got, show.run(words, octets))


def installs(part, made):
    """dpkg installs the package in a system of its own that has only libc6, and removes all of it."""
    if os.geteuid():
        part.note("not root: the package is not installed")
        return
    for folder in ("system/var/lib/dpkg/info", "system/var/lib/dpkg/updates", "system/etc"):
        os.makedirs(part.path(folder))
    libc = "Package: libc6\nStatus: install ok installed\nArchitecture: amd64\nVersion: 2.36\nMaintainer: x\nDescription: x\n"
    part.write("system/var/lib/dpkg/status", libc.encode())
    part.write("system/var/lib/dpkg/info/libc6.list", b"/.\n")
    how = {"capture_output": True, "text": True, "timeout": 120, "env": dict(os.environ, PATH=os.environ["PATH"] + ":/usr/sbin:/sbin")}
    words = ["dpkg", f"--root={part.path('system')}", "--force-script-chrootless", "--log=/dev/null"]
    got = subprocess.run([*words, "--install", made], **how)
    part.expect("dpkg --install", got.returncode == 0, got.stdout, got.stderr)
    found = files_below(part.path("system/usr"))
    wanted = [path[4:] for path in files_below(part.path("tree")) if path.startswith("usr/")]
    part.expect("what dpkg puts", found == wanted, *sorted({*found} ^ {*wanted}))
    got = subprocess.run([*words, "--verify", "tlvdump"], **how)
    part.expect("dpkg --verify", (got.returncode, got.stdout) == (0, ""), got.stdout, got.stderr)
    got = subprocess.run([*words, "--purge", "tlvdump"], **how)
    part.expect("dpkg --purge", got.returncode == 0 and "warning" not in got.stderr, got.stdout, got.stderr)
    part.expect("what dpkg leaves", not os.path.exists(part.path("system/usr")), *files_below(part.path("system")))


def check_with_lintian(part, made):
    if not part.has("lintian"):
        return
    got = subprocess.run(["lintian", "--fail-on", "error", made], capture_output=True, text=True, timeout=300)
    part.expect("lintian", got.returncode == 0, got.stdout, got.stderr)


def check_refusals(part, version):
    for words in (["--nonsense"], ["-x"], ["a", "b"], [""]):
        status, out, err = package(part, *words)
        part.expect(f"refused: {words}", (status, out) == (4, "") and err.startswith("usage: "), err)
    status, out, err = package(part, "--help")
    part.expect("--help", status == 0 and out.startswith("usage: ./package [FOLDER]") and not err)
    status, out, err = package(part, "missing")
    part.expect("a FOLDER that is not there", (status, out) == (1, "") and err and not os.path.exists(part.path("missing")))
    wanted = f"package: the program is version 99.9, and packaging/changelog begins with {version}\n"
    for name in ("tlvdump", "tlvdump-show"):
        other = part.write(f"other-{name}", f"#!/bin/sh\necho {name} 99.9\n".encode())
        os.chmod(other, 0o755)
        got = package(part, program=other) if name == "tlvdump" else package(part, TLVDUMP_SHOW=other)
        part.expect(f"another version of {name}", got == (1, "", wanted), *map(str, got))
    # A clone whose program cannot be built.
    root = os.path.dirname(clone(part, "unbuilt", False))
    shutil.copy(os.path.join(part.root, "package"), root)
    os.chmod(part.write("rt", b"#!/bin/sh\nexit 1\n"), 0o755)
    env = {"PATH": f"{part.folder}:{os.environ['PATH']}"}
    got = subprocess.run([os.path.join(root, "package")], cwd=root, env=env, capture_output=True, text=True, timeout=60)
    part.expect("a program that cannot be built", (got.returncode, got.stdout) == (70, ""), str(got))


def test(part):
    if not all([part.has(tool) for tool in TOOLS]):
        return
    version = part.run(["--version"]).out.decode().split()[1]
    os.mkdir(part.path("work"))
    name = f"tlvdump_{version}_amd64.deb"
    os.mkdir(part.path("a folder"))
    got = package(part, "a folder")
    part.expect("package", got == (0, f"a folder/{name}\n", ""), *map(str, got))
    made = part.path(f"a folder/{name}")
    part.expect("what package leaves", files_below(part.path("a folder")) == [name])
    holds(part, made)
    control(part, made, version)
    works(part)
    for mask in (0o077, 0o000, 0o027):
        usual = os.umask(mask)
        got = package(part)
        os.umask(usual)
        part.expect(f"package, umask {mask:o}", got == (0, f"./{name}\n", ""), *map(str, got))
        part.expect(f"the same package, umask {mask:o}", content(made) == content(part.path(name)))
        mode = stat.S_IMODE(os.stat(part.path(name)).st_mode)
        part.expect(f"others can read it, umask {mask:o}", mode == 0o644, oct(mode))
    depends_of_another(part, version)
    check_links(part, name)
    os.mkdir(part.path("untouched"))
    without_tools(part, NEEDED, lambda folder: package(part, "untouched", PATH=folder))
    os.mkdir(part.path("swapped"))
    check_swaps(part, "package", ["swapped"], "swapped", name)
    check_signals(part)
    installs(part, made)
    check_with_lintian(part, made)
    check_refusals(part, version)

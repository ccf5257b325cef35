"""Tests ./install: the files that it installs and removes, and the completions among them.

parts/swaps.py has the tests in which somebody else writes there at the same time.
"""
import glob
import os
import resource
import shutil
import signal
import stat
import subprocess
import time

from parts.completions import bash, words_of, zsh
from parts.swaps import check_swaps

PROGRAM, SHOW = "bin/tlvdump", "bin/tlvdump-show"
PLACES = {
    PROGRAM: None,
    SHOW: None,
    "share/man/man1/tlvdump.1": "man/tlvdump.1",
    "share/man/man1/tlvdump-show.1": "man/tlvdump-show.1",
    "share/tlvdump/names.txt": "data/names.txt",
    "share/bash-completion/completions/tlvdump": "completions/tlvdump.bash",
    "share/bash-completion/completions/tlvdump-show": "completions/tlvdump.bash",
    "share/zsh/site-functions/_tlvdump": "completions/_tlvdump",
}
# Files that an earlier version installed. --remove removes them, too.
OLD = ("lib/tlvdump/tlvdump-show", "bin/tlvdump-inside", "share/man/man1/tlvdump-inside.1",
       "share/bash-completion/completions/tlvdump-inside")


def install(part, *words, program=None, **how):
    """Runs the script with the programs of the tests, or with another. Returns its status, its output and its errors.
    """
    env = dict(os.environ, TLVDUMP=program or part.program, TLVDUMP_SHOW=part.suite.show_program)
    script = os.path.join(part.root, "install")
    how = {"cwd": part.folder, "env": env, "capture_output": True, "text": True, "timeout": 60, **how}
    got = subprocess.run([script, *words], **how)
    return got.returncode, got.stdout, got.stderr


def content(path):
    with open(path, "rb") as file:
        return file.read()


def files_below(folder):
    found = [os.path.join(path, name) for path, _, names in os.walk(folder) for name in names]
    return sorted(os.path.relpath(path, folder) for path in found)


def all_below(folder):
    """Returns the files and the folders below a folder."""
    found = [os.path.join(path, name) for path, folders, names in os.walk(folder) for name in [*folders, *names]]
    return sorted(os.path.relpath(path, folder) for path in found)


def places(part, prefix):
    """Checks that exactly the wanted files are below this prefix, each with the contents of its source."""
    found = files_below(part.path(prefix))
    part.expect(f"files below {prefix}", found == sorted(PLACES), *found)
    for place, source in PLACES.items() if found == sorted(PLACES) else ():
        path = os.path.join(part.folder, prefix, place)
        program = part.suite.show_program if place == SHOW else part.program
        wanted = os.path.join(part.root, source) if source else program
        mode = 0o755 if place.startswith("bin/") else 0o644
        fine = content(path) == content(wanted) and stat.S_IMODE(os.stat(path).st_mode) == mode
        part.expect(f"{prefix}/{place}", fine)


def check_install(part):
    """Installs, installs again, and removes."""
    printed = "".join(f"there/{place}\n" for place in PLACES)
    for what in ("first", "again"):
        got = install(part, "there")
        part.expect(f"install, {what}", got == (0, printed, ""), *map(str, got))
        places(part, "there")
    # The installed programs work by themselves.
    octets = part.write("cert", b"\x30\x07\x06\x03\x55\x04\x03\x05\x00")
    env = {"PATH": os.path.join(part.folder, "there", "bin") + ":" + os.environ["PATH"]}
    got = subprocess.run(["tlvdump", "dump", "--pure", "--names", "there/share/tlvdump/names.txt", octets],
                         cwd=part.folder, env=env, capture_output=True)
    part.expect("the installed program", got.returncode == 0 and b"2.5.4.3 (commonName)" in got.stdout)
    got = subprocess.run(["tlvdump-show", octets], cwd=part.folder, env=env, capture_output=True)
    fine = (got.returncode, got.stderr) == (0, b"") and b"2.5.4.3 (commonName)" in got.stdout
    part.expect("tlvdump-show, installed", fine, str(got))
    got = subprocess.run(["tlvdump-show"], input=content(octets).hex().encode(), cwd=part.folder, env=env, capture_output=True)
    fine = (got.returncode, got.stderr) == (0, b"taken for hexadecimal\n") and b"2.5.4.3 (commonName)" in got.stdout
    part.expect("tlvdump-show, installed, of a text", fine, str(got))
    part.write("there/share/tlvdump/mine.txt", b"2.5.4.3 cn\n")
    got = install(part, "--remove", "there")
    printed = "".join(f"removed there/{place}\n" for place in PLACES)
    part.expect("remove", got == (0, printed, ""), *map(str, got))
    stays = ["share", "share/tlvdump", "share/tlvdump/mine.txt"]
    part.expect("what it did not put stays", all_below(part.path("there")) == stays, *all_below(part.path("there")))
    got = install(part, "--remove", "there")
    part.expect("remove, again", got == (0, "", ""), *map(str, got))
    part.expect("install, a space", install(part, "a place")[0] == 0)
    places(part, "a place")
    install(part, "--remove", part.path("a place"))
    part.expect("no folder stays but PREFIX", all_below(part.path("a place")) == [], *all_below(part.path("a place")))
    part.expect("PREFIX stays", os.path.isdir(part.path("a place")))


def check_old(part):
    """--remove also removes the files of an earlier version. Installing leaves them alone."""
    for place in OLD:
        os.makedirs(os.path.dirname(part.path(f"earlier/{place}")), exist_ok=True)
        part.write(f"earlier/{place}", b"old")
    part.expect("install over an earlier version", install(part, "earlier")[0] == 0)
    found = files_below(part.path("earlier"))
    part.expect("files of both versions", found == sorted([*PLACES, *OLD]), *found)
    got = install(part, "--remove", "earlier")
    printed = "".join(f"removed earlier/{place}\n" for place in (*PLACES, *OLD))
    part.expect("remove, with what an earlier version put", got == (0, printed, ""), *map(str, got))
    part.expect("nothing of it stays", all_below(part.path("earlier")) == [], *all_below(part.path("earlier")))


def check_folders(part):
    """Folders and links to folders that others made stay. The folders of a system stay, even if they are empty."""
    for folder in ("shared/bin", "shared/share/zsh/mine", "elsewhere/man1", "shared/lib/tlvdump/mine"):
        os.makedirs(part.path(folder))
    part.write("shared/bin/other", b"")
    os.symlink("../../elsewhere", part.path("shared/share/man"))
    # What is made in it has its group and this bit, as in /usr/local of some systems.
    os.chmod(part.path("shared/bin"), 0o2775)
    part.expect("install among others", install(part, "shared")[0] == 0)
    part.expect("a folder by a link", "elsewhere/man1/tlvdump.1" in files_below(part.folder))
    got = install(part, "--remove", "shared")
    part.expect("remove among others", got[0] == 0 and not got[2], *map(str, got))
    stays = ["bin", "bin/other", "lib", "lib/tlvdump", "lib/tlvdump/mine", "share", "share/man", "share/zsh", "share/zsh/mine"]
    part.expect("what others have stays", all_below(part.path("shared")) == stays, *all_below(part.path("shared")))
    of_a_system(part)


# Run with the path of install, with the folder of a system that is made of the folders of this one, and with PREFIX: makes that
# system, in which PREFIX has nothing but the empty folders that a system has by itself, and installs and removes there.
SYSTEM = r"""
install=$(readlink -f -- "$1") root=$2 prefix=$3
mount -t tmpfs none "$root" || exit
for folder in bin lib lib64 tools; do
    from=/$folder
    [ $folder != tools ] || from=/usr/bin
    [ -d $from ] || continue
    mkdir "$root/$folder" && mount --bind $from "$root/$folder" || exit
done
mkdir -p "$root/clone" "$root/dev" "$root/programs" && mount --bind "${install%/*}" "$root/clone" || exit
mknod -m 666 "$root/dev/null" c 1 3 && cp -- "$TLVDUMP" "$TLVDUMP_SHOW" "$root/programs" || exit
mkdir -p "$root$prefix/bin" "$root$prefix/lib/tlvdump" "$root$prefix/share/man/man1" || exit
: >"$root$prefix/lib/tlvdump/tlvdump-show"
there() {
    PATH=$PATH:/usr/sbin:/sbin chroot "$root" /tools/env PATH=/bin:/tools "TLVDUMP=/programs/${TLVDUMP##*/}" \
        "TLVDUMP_SHOW=/programs/${TLVDUMP_SHOW##*/}" "$@"
}
there /clone/install "$prefix" && there /clone/install --remove "$prefix" || exit
cd "$root$prefix" && find . | LC_ALL=C sort
"""


def of_a_system(part):
    """What a system has by itself in /usr and in /usr/local stays, also if it is empty. In another PREFIX nothing stays.
    Only root can make such a system, in a mount namespace.
    """
    if os.geteuid() or subprocess.run(["unshare", "-m", "true"], capture_output=True).returncode:
        part.note("no root, or no unshare: /usr and /usr/local are not tried")
        return
    programs = {"TLVDUMP": shutil.copy(part.program, part.path("copy")), "TLVDUMP_SHOW": part.suite.show_program}
    how = {"cwd": part.folder, "env": dict(os.environ, **programs), "capture_output": True, "text": True, "timeout": 60}
    os.mkdir(part.path("system"))
    for prefix, stays in (("/usr", True), ("/usr/local", True), ("/opt/usr", False)):
        words = ["sh", "-c", SYSTEM, "sh", os.path.join(part.root, "install"), part.path("system"), prefix]
        got = subprocess.run(["unshare", "-m", *words], **how)
        left = [line for line in got.stdout.splitlines() if line.startswith(".")]
        wanted = [".", "./bin", "./lib", "./share", "./share/man"] if stays else ["."]
        part.expect(f"{prefix}", (got.returncode, left) == (0, wanted), str(got.returncode), got.stdout, got.stderr)


def check_links(part):
    """A link at the place of a file or of a temporary file is not followed."""
    os.makedirs(part.path("linked/bin"))
    os.makedirs(part.path("linked/share/tlvdump"))
    victim = part.write("victim", b"not to be written")
    for name in ("bin/tlvdump", "share/tlvdump/names.txt"):
        for ending in ("", ".new", ".tmp", "~"):
            os.symlink(victim, part.path(f"linked/{name}{ending}"))
    os.symlink("nowhere", part.path("linked/bin/tlvdump-show"))
    got = install(part, "linked")
    part.expect("install over links", got[0] == 0 and not got[2], *map(str, got))
    fine = content(victim) == b"not to be written" and not os.path.exists(part.path("linked/bin/nowhere"))
    part.expect("what a link leads to", fine)
    for name in ("bin/tlvdump", "bin/tlvdump-show", "share/tlvdump/names.txt"):
        mode = os.lstat(part.path(f"linked/{name}")).st_mode
        part.expect(f"a file in place of the link {name}", stat.S_ISREG(mode), oct(mode))
    nothing_left(part, "links", "linked")
    for name in ("bin/tlvdump", "bin/tlvdump-show"):
        os.remove(part.path(f"linked/{name}"))
        os.symlink("victim" if name == "bin/tlvdump" else "nowhere", part.path(f"linked/{name}"))
    got = install(part, "--remove", "linked")
    there = [name for name in ("tlvdump", "tlvdump-show") if os.path.lexists(part.path(f"linked/bin/{name}"))]
    fine = got[0] == 0 and not there and content(victim) == b"not to be written"
    part.expect("remove of links", fine, *map(str, got), *there)


def limit_files():
    """Limits files to 64 kilobytes. A write beyond that fails."""
    signal.signal(signal.SIGXFSZ, signal.SIG_IGN)
    resource.setrlimit(resource.RLIMIT_FSIZE, (65536, 65536))


def nothing_left(part, what, prefix):
    """Counts one test: the script left no temporary folder below this prefix."""
    left = [path for path in all_below(part.path(prefix)) if os.path.basename(path).startswith(".")]
    part.expect(f"{what}: nothing is left", not left, *left)


def check_failures(part):
    """If a file cannot be installed or removed, the status is 1, also for root.
    The other files are installed, and nothing else is left.
    """
    others = [place for place in PLACES if place != "bin/tlvdump"]
    printed = "".join(f"in-the-way/{place}\n" for place in others)
    os.makedirs(part.path("in-the-way/bin/tlvdump"))
    status, out, err = install(part, "in-the-way")
    part.expect("a folder in the way", (status, out) == (1, printed) and err, str(status), out, err)
    found = files_below(part.path("in-the-way"))
    part.expect("what is put beside it", found == sorted(others), *found)
    nothing_left(part, "a folder in the way", "in-the-way")
    status, out, err = install(part, "--remove", "in-the-way")
    printed = "".join(f"removed in-the-way/{place}\n" for place in others)
    part.expect("remove, a folder in the way", (status, out) == (1, printed) and err, str(status), out, err)
    part.expect("the folder stays", all_below(part.path("in-the-way")) == ["bin", "bin/tlvdump"])
    os.makedirs(part.path("no-folder/share"))
    part.write("no-folder/share/man", b"")
    count = sum(not place.startswith("share/man/") for place in PLACES)
    status, out, err = install(part, "no-folder")
    part.expect("a file in place of a folder", status == 1 and out.count("\n") == count and err, str(status), out, err)
    # If the write of the program fails, the installed program stays.
    part.expect("install before that", install(part, "full")[0] == 0)
    for what, how in (
        ("no room", {"preexec_fn": limit_files}),
        ("no program", {"program": part.path("missing")}),
        ("a folder for a program", {"program": part.folder}),
    ):
        status, out, err = install(part, "full", **how)
        part.expect(f"{what}: status 1", status == 1 and "full/bin/tlvdump\n" not in out and err, str(status), out, err)
        places(part, "full")
        nothing_left(part, what, "full")
    for words in (["/proc/tlvdump"], ["/dev/null"]):
        status, out, err = install(part, *words)
        part.expect(f"PREFIX {words[0]}", (status, out) == (1, "") and err, str(status), out, err)


def check_running(part):
    """The program is replaced while it runs. The old one goes on, and the new one is another file."""
    path = part.path("there/bin/tlvdump")
    install(part, "there")
    child = part.start(["dump"], program=path, stdin=subprocess.PIPE, stdout=subprocess.PIPE)
    child.stdin.write(b"\x05\x00")
    child.stdin.flush()
    first = child.stdout.readline()
    got = install(part, "there")
    part.expect("install while it runs", got[0] == 0 and not got[2], *map(str, got))
    out, _ = child.communicate(b"\x05\x00", timeout=60)
    fine = (child.returncode, first, out) == (0, b"       0      0: NULL\n", b"       2      0: NULL\n")
    part.expect("the one that ran", fine, str(child.returncode), str(first), str(out))
    part.expect("the new one", part.run(["--version"], program=path) == part.run(["--version"]))


SIGNALS = {"TERM": 143, "INT": 130, "HUP": 129, "QUIT": 131, "PIPE": 141}


def usual_signals():
    """Gives a child the signals of a program that a shell starts."""
    for name in SIGNALS:
        signal.signal(getattr(signal, f"SIG{name}"), signal.SIG_DFL)


def check_signals(part):
    """A signal while a file is written leaves nothing of the file.
    The program is read from a pipe that gives nothing, so the script waits.
    """
    os.mkfifo(part.path("slow"))
    env = dict(os.environ, TLVDUMP=part.path("slow"), TLVDUMP_SHOW=part.suite.show_program)
    pipes = {"stdout": subprocess.PIPE, "stderr": subprocess.PIPE}
    for name, wanted in SIGNALS.items():
        how = {"cwd": part.folder, "env": env, "start_new_session": True, "preexec_fn": usual_signals}
        child = subprocess.Popen([os.path.join(part.root, "install"), "stopped"], **how, **pipes)
        for _ in range(200):
            time.sleep(0.05)
            if glob.glob(part.path("stopped/bin/.*")):
                break
        time.sleep(0.3)
        os.killpg(child.pid, getattr(signal, f"SIG{name}"))
        out, err = child.communicate(timeout=60)
        left = all_below(part.path("stopped"))
        fine = (child.returncode, out, left) == (wanted, b"", ["bin"])
        part.expect(f"{name} while a file is written", fine, str(child.returncode), str(out), str(err), *left)
    # The reader of the names that it prints is gone, as with `./install there | head -n 0`.
    reader, writer = os.pipe()
    os.close(reader)
    script, env = os.path.join(part.root, "install"), dict(env, TLVDUMP=part.program)
    how = {"cwd": part.folder, "env": env, "stderr": subprocess.PIPE, "preexec_fn": usual_signals, "timeout": 60}
    got = subprocess.run([script, "unread"], stdout=writer, **how)
    os.close(writer)
    left = all_below(part.path("unread"))
    part.expect("no reader", got.returncode == 141 and left == ["bin", PROGRAM], str(got), *left)


def check_umask(part):
    """With umask 077, other users can still read the installed files and folders."""
    before = os.umask(0o077)
    got = install(part, "masked/prefix")
    os.umask(before)
    part.expect("install, umask 077", got[0] == 0, *map(str, got))
    places(part, "masked/prefix")
    folders = [path for path, *_ in os.walk(part.path("masked"))]
    closed = [path for path in folders if stat.S_IMODE(os.stat(path).st_mode) != 0o755]
    part.expect("folders that others can read", len(folders) > 9 and not closed, *closed)


def clone(part, name, built):
    """Makes a clone with what the script needs. Its programs are newer than their sources, or missing."""
    root = part.path(name)
    for place in ("src", "specs", "proofs", "out"):
        for crate in ("tlvdump", "tlvdump_show"):
            os.makedirs(os.path.join(root, "crates", crate, place))
    for place in ("install", "tlvdump", "tlvdump-show", "crates.txt"):
        shutil.copy(os.path.join(part.root, place), root)
    for place in ("man", "data", "completions", "packaging"):
        shutil.copytree(os.path.join(part.root, place), os.path.join(root, place))
    if built:
        shutil.copy(part.program, os.path.join(root, "crates", "tlvdump", "out", "tlvdump"))
        shutil.copy(part.suite.show_program, os.path.join(root, "crates", "tlvdump_show", "out", "tlvdump_show"))
    return os.path.join(root, "install")


def builds(part):
    """Without TLVDUMP the programs of the clone are installed. If one of them cannot be built, nothing is installed."""
    # The PATH begins with an rt that builds nothing, before the kit of this machine.
    part.write("rt", b"#!/bin/sh\nexit 1\n")
    os.chmod(part.path("rt"), 0o755)
    env = {"PATH": f"{part.folder}:{os.environ['PATH']}"}
    how = {"cwd": part.folder, "env": env, "capture_output": True, "text": True, "timeout": 60}
    script = clone(part, "built", True)
    # Other users cannot read the files of this clone. They must be able to read the installed files.
    for path in files_below(part.path("built")):
        os.chmod(part.path(f"built/{path}"), 0o700 if os.access(part.path(f"built/{path}"), os.X_OK) else 0o600)
    got = subprocess.run([script, "from-clone"], **how)
    part.expect("the program of a clone", got.returncode == 0 and got.stderr == "", got.stderr)
    places(part, "from-clone")
    got = subprocess.run([clone(part, "unbuilt", False), "nowhere"], **how)
    fine = got.returncode == 70 and "tlvdump: not built" in got.stderr and not os.path.exists(part.path("nowhere"))
    part.expect("a program that cannot be built", fine, str(got.returncode), got.stderr)
    script = clone(part, "half-built", True)
    os.remove(part.path("half-built/crates/tlvdump_show/out/tlvdump_show"))
    got = subprocess.run([script, "nowhere"], **how)
    fine = got.returncode == 70 and "tlvdump-show: not built" in got.stderr and not os.path.exists(part.path("nowhere"))
    part.expect("the other program, which cannot be built", fine, str(got.returncode), got.stderr)
    # To remove, nothing is built, and nothing has to be there.
    os.chmod(part.write("rt", b'#!/bin/sh\n: >"$BEGUN"\nexit 1\n'), 0o755)
    how["env"]["BEGUN"] = part.path("build begun")
    got = subprocess.run([part.path("unbuilt/install"), "--remove", "from-clone"], **how)
    printed = "".join(f"removed from-clone/{place}\n" for place in PLACES)
    part.expect("remove from a clone without programs", (got.returncode, got.stdout, got.stderr) == (0, printed, ""), str(got))
    part.expect("remove builds nothing", not os.path.exists(part.path("build begun")))
    subprocess.run([part.path("unbuilt/install"), "nowhere"], **how)
    part.expect("install builds", os.path.exists(part.path("build begun")))


def foreign(part):
    """Root does not build in a clone of another user. If the programs are there, or are named, root installs them."""
    if os.geteuid():
        part.note("not root: a clone of another user is not tried")
        return
    os.chmod(part.folder, 0o755)
    fake = b'#!/bin/sh\necho begun >>"$BEGUN"\n: >out/"${PWD##*/}"\nchmod 755 out/"${PWD##*/}"\n'
    os.makedirs(part.path("foreign-kit"))
    os.chmod(part.write("foreign-kit/rt", fake), 0o755)
    begun = part.path("begun")
    env = {"PATH": f"{part.path('foreign-kit')}:{os.environ['PATH']}", "BEGUN": begun}
    how = {"cwd": part.folder, "capture_output": True, "text": True, "timeout": 60}
    scripts = {name: clone(part, name, name != "theirs") for name in ("theirs", "theirs-old", "theirs-built")}
    os.utime(part.path("theirs-old/crates/tlvdump_show/out/tlvdump_show"), (1, 1))
    for name, script in scripts.items():
        subprocess.run(["chown", "-R", "65534:65534", os.path.dirname(script)], check=True)
    for name, called in (("theirs", "tlvdump"), ("theirs-old", "tlvdump-show")):
        got = subprocess.run([scripts[name], "nowhere"], env=env, **how)
        fine = (got.returncode, got.stdout, got.stderr.count("\n")) == (70, "", 1) and "build first" in got.stderr
        fine = fine and "65534" in got.stderr and got.stderr.endswith(f": ./{called} --version\n")
        part.expect(f"root and a clone of another user, {name}", fine, str(got))
        owners = {os.lstat(part.path(f"{name}/{path}")).st_uid for path in all_below(part.path(name))}
        fine = owners == {65534} and not os.path.exists(begun) and not os.path.exists(part.path("nowhere"))
        part.expect(f"nothing is built in it, {name}", fine, *map(str, owners))
    got = subprocess.run([scripts["theirs-built"], "from-theirs"], env=env, **how)
    part.expect("root and the programs of another user", (got.returncode, got.stderr) == (0, ""), str(got))
    places(part, "from-theirs")
    named = dict(env, TLVDUMP=part.program, TLVDUMP_SHOW=part.suite.show_program)
    got = subprocess.run([scripts["theirs"], "from-theirs"], env=named, **how)
    part.expect("root and programs that are named", (got.returncode, got.stderr) == (0, ""), str(got))
    got = subprocess.run([scripts["theirs"], "--remove", "from-theirs"], env=env, **how)
    part.expect("root removes", (got.returncode, got.stderr, all_below(part.path("from-theirs"))) == (0, "", []), str(got))
    # An own clone is built, also by root.
    script = clone(part, "own", False)
    subprocess.run([script, "from-own"], env=env, **how)
    part.expect("root builds in an own clone", os.path.exists(begun))


def odd_paths(part):
    """A clone, a PREFIX or a program may have a line feed, a blank or a backslash in its name, also at the end."""
    script = clone(part, "a\\tb\n", True)
    how = {"cwd": part.folder, "env": {"PATH": os.environ["PATH"]}, "capture_output": True, "text": True, "timeout": 60}
    got = subprocess.run([script, "to\\n\n"], **how)
    printed = "".join(f"to\\n\n/{place}\n" for place in PLACES)
    part.expect("a line feed", (got.returncode, got.stdout, got.stderr) == (0, printed, ""), str(got))
    places(part, "to\\n\n")
    got = subprocess.run([script, "--remove", "to\\n\n"], **how)
    printed = "".join(f"removed to\\n\n/{place}\n" for place in PLACES)
    part.expect("remove, a line feed", (got.returncode, got.stdout, got.stderr) == (0, printed, ""), str(got))
    got = install(part, "named", program=shutil.copy(part.program, part.path("a\\tprogram\n")))
    part.expect("a program with a line feed", got[0] == 0, *map(str, got))
    places(part, "named")


TOOLS = ("chmod", "cp", "dirname", "id", "ls", "mkdir", "mktemp", "mv", "readlink", "rm", "rmdir", "sed", "stat")


def tools(part):
    """Makes a folder of links to all tools of the PATH. Returns its path."""
    folder = part.path("tools")
    os.mkdir(folder)
    for path in os.get_exec_path():
        for tool in os.listdir(path) if os.path.isdir(path) else ():
            if not os.path.lexists(os.path.join(folder, tool)):
                os.symlink(os.path.join(path, tool), os.path.join(folder, tool))
    return folder


def without_tools(part, names, run):
    """If a tool is missing, the script names it and makes nothing. The PATH has all other tools. `run` runs the script
    with an environment, into the folder `untouched`.
    """
    folder = tools(part)
    for name in names:
        link = os.path.join(folder, name)
        path = os.readlink(link)
        os.remove(link)
        status, out, err = run(folder)
        fine = (status, out) == (1, "") and err.endswith(f": there is no {name}\n") and err.count("\n") == 1
        left = all_below(part.path("untouched"))
        part.expect(f"no {name}", fine and not left, str(status), out, err, *left)
        os.symlink(path, link)
    status, out, err = run(folder)
    part.expect("all tools", status == 0 and out and not err, str(status), out, err)


def without_tool(part):
    copies = {"TLVDUMP": part.program, "TLVDUMP_SHOW": part.suite.show_program}
    os.mkdir(part.path("untouched"))
    without_tools(part, TOOLS, lambda folder: install(part, "untouched", env=dict(os.environ, **copies, PATH=folder)))


def check_refusals(part):
    words_of_none = (["--nonsense"], ["-x"], ["a", "b"], [""], ["--remove", "a", "b"], ["--remove", "--x"], ["--remove", "-x"])
    for words in (*words_of_none, ["--remove", ""], ["--remove", "--help"], ["a", "--remove"]):
        status, out, err = install(part, *words)
        part.expect(f"refused: {words}", (status, out) == (4, "") and err.startswith("usage: "), err)
    status, out, err = install(part, "--help")
    part.expect("--help", status == 0 and out.startswith("usage: ./install [PREFIX]") and not err)
    part.write("plain", b"")
    status, out, err = install(part, "plain")
    part.expect("a file for PREFIX", (status, out) == (1, "") and err)


def test(part):
    check_install(part)
    check_old(part)
    check_umask(part)
    check_folders(part)
    check_links(part)
    check_failures(part)
    check_running(part)
    check_signals(part)
    check_swaps(part, "install", ["swapped"], "swapped/bin", "tlvdump")
    builds(part)
    foreign(part)
    odd_paths(part)
    without_tool(part)
    check_refusals(part)
    options = words_of(part)
    bash(part, options)
    zsh(part, options)

"""A false rt, which writes the lines of a build and then installs a program of the tests, and functions that start
./tlvdump with it and examine what a build leaves.
"""
import os
import signal
import subprocess
import time

from parts.install import clone, content

# Writes the lines of rt: for the sources, for two crates in turn, and for the run of the program. As rt does, it
# replaces the program in one step, leaves it if nothing has changed, and reads its input. RT_HOW changes this:
# `fails`; `waits` for a minute, with the number of a process that it started in the file RT_CHILD; `quick`; `same`, if
# nothing has changed; `edits` a source while it builds; `later` sets the clock of CLOCK to the second RT_LATER. RT_VERSION is
# what it says of itself.
RT = r"""#!/bin/sh
if [ "$1" = version ]; then
    [ -z "${RT_VERSION-}" ] || echo "$RT_VERSION"
    exit
fi
[ "$1" = run ] || exit 2
cat >/dev/null
echo begun >>../../builds
put_program() {
    cp "$RT_PROGRAM" out/new && mv out/new "out/${PWD##*/}"
}
case ${RT_HOW-} in
fails)
    printf 'one\ntwo\nfn tlv_low::f: not proved\nrt: the library tlv_low did not build\n' >&2
    exit 1
    ;;
waits)
    sleep 60 &
    echo $! >"$RT_CHILD.new" && mv "$RT_CHILD.new" "$RT_CHILD"
    wait
    exit
    ;;
quick)
    put_program
    exit
    ;;
same) exit 0 ;;
later)
    put_program
    echo "$RT_LATER" >"$RT_CLOCK.new" && mv "$RT_CLOCK.new" "$RT_CLOCK"
    exit
    ;;
edits)
    sleep 0.1
    echo >>../tlv_low/src/lib.rt
    put_program
    exit
    ;;
esac
echo 'only=0 proved=0' >&2
sleep 1.5
for name in tlv_low tlvdump; do
    echo "rt: chose --jobs 4 for $name" >&2
    kept=../$name/out/incremental/kit
    mkdir -p "$kept"
    sleep 1.5
    : >"$kept/Rattle-$name-proofs.a.Proof.oantt"
    : >"$kept/Rattle-$name-proofs.b.Proof.oantt"
    sleep 1.5
    echo "fn $name::a: proved" >&2
    echo "logic=proved functions=3 sum=00 native=nat,char,string" >&2
done
sleep 1.5
put_program
echo 'rt: running out/tlvdump; to give it other input, run that file yourself' >&2
"""

# A date that tells the second in the file RT_CLOCK.
CLOCK = r"""#!/bin/sh
[ "$*" = +%s ] && cat "$RT_CLOCK"
"""

LOW = """#[derive(Clone, Copy, Debug)]
pub fn one(f: u8) -> u8 {
    // no fn here
}
"""


def make_clone(part, name):
    """Makes a clone of two crates without the program. The program uses tlv_low. Another crate is not used."""
    script = os.path.join(os.path.dirname(clone(part, name, False)), "tlvdump")
    part.write(f"{name}/crates.txt", b"tlvdump: tlv_low clap\ntlv_low: hex # a comment\ntlv_tests: tlv_low\n")
    os.makedirs(part.path(f"{name}/crates/tlv_low/src"))
    part.write(f"{name}/crates/tlv_low/src/lib.rt", LOW.encode())
    return script


def environment(part, how="", **more):
    own = {"PATH": f"{part.path('kit')}:{os.environ['PATH']}", "RT_PROGRAM": part.program, "RT_HOW": how}
    return dict(os.environ, **{**own, **more})


def run(part, script, words, given=b"", how="", **more):
    """Runs the script on these octets. Returns its status, its output and its errors."""
    more = {"cwd": part.folder, "env": environment(part, how), "capture_output": True, "timeout": 60, **more}
    got = subprocess.run([script, *words], input=given, **more)
    return got.returncode, got.stdout, got.stderr.decode()


def start(part, script, words, how="", **more):
    """Starts the script without input, with the signals of a program that a shell starts."""

    def usual():
        for number in (signal.SIGHUP, signal.SIGINT, signal.SIGPIPE, signal.SIGQUIT, signal.SIGTERM):
            signal.signal(number, signal.SIG_DFL)

    pipes = {"stdin": subprocess.DEVNULL, "stdout": subprocess.PIPE, "stderr": subprocess.PIPE}
    return subprocess.Popen([script, *words], env=environment(part, how, **more), preexec_fn=usual, **pipes)


def end_of(child):
    """Waits for a script that was started. Returns its status, its output and its errors."""
    try:
        out, err = child.communicate(timeout=60)
    except subprocess.TimeoutExpired:
        # Processes that it has started may still hold its pipes.
        child.kill()
        child.stdout.close()
        child.stderr.close()
        return "none: it did not end", b"", ""
    return child.returncode, out, err.decode()


def await_file(path):
    """Waits until a file exists. Returns its contents."""
    for _ in range(600):
        if os.path.exists(path):
            with open(path, encoding="ascii") as file:
                return file.read()
        time.sleep(0.05)
    return ""


def await_waiters(script, count):
    """Waits until `count` processes wait for the lock of the script. Returns whether they do."""
    lock = f":{os.stat(os.path.dirname(log_of(script))).st_ino} "
    for _ in range(600):
        with open("/proc/locks", encoding="ascii") as file:
            if sum("-> FLOCK" in line and lock in line for line in file) >= count:
                return True
        time.sleep(0.05)
    return False


def wait_for(child):
    """Waits until a script has ended, even if other processes still hold its pipes."""
    try:
        child.wait(timeout=60)
    except subprocess.TimeoutExpired:
        child.kill()


def runs(pid):
    """Returns whether a process exists and has not ended."""
    try:
        with open(f"/proc/{pid}/stat", encoding="ascii") as file:
            return file.read().rsplit(") ", 1)[1][0] not in "ZX"
    except (FileNotFoundError, ProcessLookupError):
        return False


def has_ended(pid):
    for _ in range(100):
        if not runs(pid):
            return True
        time.sleep(0.05)
    return False


def top_of(script):
    return os.path.dirname(script)


def program_of(script):
    return os.path.join(top_of(script), "crates", "tlvdump", "out", "tlvdump")


def log_of(script):
    return os.path.join(top_of(script), "crates", "tlvdump", "out", "build.log")


def left_of(script):
    """Returns the names of what a build left besides the program and its log."""
    return sorted(set(os.listdir(os.path.dirname(log_of(script)))) - {"tlvdump", "build.log", "incremental"})


def builds_of(script):
    """Returns how many builds were begun."""
    with open(os.path.join(top_of(script), "builds"), encoding="ascii") as file:
        return file.read().count("begun\n")


def begin_of(script):
    return f"tlvdump: {BEGINS} ({log_of(script)})\n"


BEGINS = "building; the first time this takes 10 to 30 minutes, since each crate is proved"
OLD = b"#!/bin/sh\necho the old program\n"


def put_old(script):
    """Installs a program that is older than a source."""
    with open(program_of(script), "wb") as file:
        file.write(OLD)
    os.chmod(program_of(script), 0o755)
    os.utime(program_of(script), (1, 1))


def has_old(script):
    """Returns whether the old program is in its place, unchanged."""
    path = program_of(script)
    return os.access(path, os.X_OK) and content(path) == OLD


def start_waiting(part, script, name):
    """Starts a build that waits. Returns the process of the
    script, and the number of a process that rt has started in it.
    """
    child = start(part, script, ["--version"], how="waits", RT_CHILD=part.path(name))
    return child, int(await_file(part.path(name)) or 0)

"""Tests ./tlvdump and ./tlvdump-show: when they build the program, what they print meanwhile, and how a build can end.

In place of the kit's rt they run a script that takes little time (parts/fake_kit.py).
"""
import os
import pty
import re
import shutil
import signal
import subprocess
import time

from parts.fake_kit import BEGINS, CLOCK, RT, await_file, await_waiters, begin_of, builds_of, end_of, environment, has_ended
from parts.fake_kit import has_old, left_of, log_of, make_clone, program_of, put_old, run, runs, start, start_waiting
from parts.fake_kit import top_of, wait_for
from parts.install import tools


def not_on_a_terminal(part):
    """Without a terminal, a build prints a line for each crate, and the program then runs on its input.
    The next run builds nothing.
    """
    script = make_clone(part, "clone")
    octets = bytes.fromhex("3003020201")
    wanted = part.run(["dump"], octets)
    status, out, err = run(part, script, ["dump"], octets)
    part.expect("a build, then the program", (status, out) == (wanted.status, wanted.out), str(status), str(out), err)
    lines = re.sub(r"\d+ s\b", "N s", err)
    printed = begin_of(script)
    printed += "tlvdump: tlv_low, crate 1 of 2: 3 functions proved, N s\n"
    printed += "tlvdump: tlvdump, crate 2 of 2: 3 functions proved, N s\n"
    printed += "tlvdump: built, N s\n" + wanted.err.decode()
    part.expect("a line for each crate", lines == printed, err)
    part.expect("what a build leaves", left_of(script) == [], *left_of(script))
    got = run(part, script, ["dump"], octets)
    part.expect("a program that is there", got == (wanted.status, wanted.out, wanted.err.decode()), *map(str, got))


def on_a_terminal(part):
    """On a terminal, a build prints one line that changes, and clears it at the end."""
    script = make_clone(part, "terminal")
    main, side = pty.openpty()
    how = {"env": environment(part), "stdin": subprocess.DEVNULL, "stdout": subprocess.PIPE}
    child = subprocess.Popen([script, "--version"], cwd=part.folder, stderr=side, **how)
    os.close(side)
    text = b""
    while True:
        try:
            more = os.read(main, 4096)
        except OSError:
            break
        if not more:
            break
        text += more
    out, _ = child.communicate(timeout=60)
    os.close(main)
    wanted = part.run(["--version"])
    part.expect("a build on a terminal", (child.returncode, out) == (0, wanted.out), str(child.returncode), str(out))
    lines = text.decode().split("\r\n")
    fine = len(lines) == 3 and lines[0] + "\n" == begin_of(script) and lines[2] == ""
    part.expect("lines on a terminal", fine, *lines)
    shown = [re.sub(r"\d+ s$", "N s", state.rstrip()) for state in lines[1].split("\r")]
    states = [state for at, state in enumerate(shown) if state and state != shown[at - 1]]
    wanted = [
        "tlvdump: the sources are read, N s",
        "tlvdump: tlv_low, crate 1 of 2: 0 of about 2 functions proved, N s",
        "tlvdump: tlv_low, crate 1 of 2: 2 of about 2 functions proved, N s",
        "tlvdump: tlvdump, crate 2 of 2: 0 functions proved, N s",
        "tlvdump: tlvdump, crate 2 of 2: 2 functions proved, N s",
        "tlvdump: all crates are proved; the program is compiled, N s",
        "tlvdump: built, N s",
    ]
    # A busy machine may miss some of the states.
    in_order = [state for state in wanted if state in states] == states
    part.expect("the line that changes", in_order and len(states) >= 5 and states[-1] == wanted[-1], *states)
    part.expect("no state is wider than a line", max(map(len, lines[1].split("\r"))) <= 78)


def words_and_links(part):
    """The words reach the program unchanged, also after a build. The script may be called through a link or the PATH.
    """
    script = make_clone(part, "a clone")
    octets = b"\x05\x00"
    part.write("two  blanks", octets)
    wanted = part.run(["dump", "two  blanks"])
    for what in ("built", "there"):
        status, out, err = run(part, script, ["dump", "two  blanks"], how="quick")
        part.expect(f"a word with blanks, {what}", (status, out) == (0, wanted.out), str(status), err)
    for words in (["dump", ""], ["dump", "*"], ["dump", "two", "blanks"], ["dump", "--", "-x"], []):
        wanted = part.run(words, program=program_of(script))
        got = run(part, script, words)
        part.expect(f"the words {words}", got == (wanted.status, wanted.out, wanted.err.decode()), *map(str, got))
    os.makedirs(part.path("links/bin"))
    os.symlink("../../a clone/tlvdump", part.path("links/bin/tlvdump"))
    os.symlink(part.path("links/bin/tlvdump"), part.path("links/other"))
    wanted = part.run(["--version"])
    env = environment(part, "quick")
    path = {"env": dict(env, PATH=f"{part.path('links/bin')}:{env['PATH']}")}
    for called, how in (("links/bin/tlvdump", {}), (part.path("links/other"), {}), ("tlvdump", path)):
        for program in ("there", "built"):
            if program == "built":
                os.remove(program_of(script))
            status, out, err = run(part, called, ["--version"], how="quick", **how)
            fine = (status, out) == (0, wanted.out) and err.startswith(begin_of(script)) == (program == "built")
            part.expect(f"called {called}, {program}", fine, str(status), err)
            run(part, script, ["--version"], how="quick")


def changes(part):
    """Each change of a source of the program causes one build. So does a change during a build."""
    script = make_clone(part, "changes")
    run(part, script, ["--version"], how="quick")
    sources = ["crates.txt", "crates/tlv_low/src/lib.rt"]
    for name in ("specs/Low.antt", "specs/Private/Low.antt", "proofs/low/Low.antt"):
        sources.append(f"crates/tlv_low/{name}")
        os.makedirs(os.path.dirname(part.path(f"changes/{sources[-1]}")), exist_ok=True)
        part.write(f"changes/{sources[-1]}", b"")
    wanted = part.run(["--version"])
    for source in sources:
        then = time.time() - 100
        for folder, _, names in os.walk(part.path("changes")):
            for path in (folder, *(os.path.join(folder, name) for name in names)):
                os.utime(path, (then, then))
        os.utime(program_of(script), (then + 10, then + 10))
        got = run(part, script, ["--version"])
        part.expect(f"no change of {source}", got == (0, wanted.out, ""), *map(str, got))
        os.utime(part.path(f"changes/{source}"), (then + 20, then + 20))
        status, out, err = run(part, script, ["--version"], how="same")
        fine = (status, out) == (0, wanted.out) and err.startswith(begin_of(script))
        part.expect(f"a change of {source}", fine, str(status), err)
        got = run(part, script, ["--version"])
        part.expect(f"no build after that of {source}", got == (0, wanted.out, ""), *map(str, got))
    os.remove(program_of(script))
    status, _, err = run(part, script, ["--version"], how="edits")
    part.expect("an edit during a build", status == 0 and err.startswith(begin_of(script)), str(status), err)
    status, _, err = run(part, script, ["--version"], how="quick")
    part.expect("a build after that edit", status == 0 and err.startswith(begin_of(script)), str(status), err)


def failing(part):
    """If a build fails, the status is 70 and the end of the log is printed. The same holds if there is no rt. An old
    program is kept, but it is not run.
    """
    script = make_clone(part, "failing")
    end = "two\nfn tlv_low::f: not proved\nrt: the library tlv_low did not build\ntlvdump: not built\n"
    for program in ("none", "old"):
        got = run(part, script, ["dump"], how="fails")
        part.expect(f"a build that fails, program: {program}", got == (70, b"", begin_of(script) + end), *map(str, got))
        part.expect("what a failed build leaves", left_of(script) == [], *left_of(script))
        part.expect(f"the program after a build that fails: {program}", program == "none" or has_old(script))
        put_old(script)
    # A machine without the kit: a PATH that has only the tools of the script.
    few = part.path("few tools")
    os.mkdir(few)
    for name in ("sh", "readlink", "find"):
        os.symlink(shutil.which(name), os.path.join(few, name))
    got = subprocess.run([script], env={"PATH": few}, capture_output=True, text=True, timeout=60)
    message = "tlvdump: not built: rt, the command of the Rattle kit, is not on the PATH\n"
    part.expect("no kit", (got.returncode, got.stdout, got.stderr) == (70, "", message), str(got))
    part.expect("the program of a machine without the kit", has_old(script))


def without_program(part):
    """If rt ends well and there is no program, the build has failed. Without tools that a build needs there is none."""
    script = make_clone(part, "without-program")
    got = run(part, script, ["--version"], how="same")
    part.expect("rt ends well, and there is no program", got == (70, b"", begin_of(script) + "tlvdump: not built\n"), *map(str, got))
    part.expect("what is left without a program", left_of(script) == [], *left_of(script))
    os.remove(log_of(script))
    folder = tools(part)
    if os.path.lexists(os.path.join(folder, "rt")):
        os.remove(os.path.join(folder, "rt"))
    shutil.copy(part.path("kit/rt"), folder)
    before = builds_of(script)
    for name in ("awk", "cat", "date", "find", "mkdir", "rm", "sed", "setsid", "sleep", "tail", "touch", "wc"):
        path = os.readlink(os.path.join(folder, name))
        os.remove(os.path.join(folder, name))
        got = run(part, script, ["--version"], env=environment(part, "quick", PATH=folder))
        fine = got == (70, b"", f"tlvdump: not built: there is no {name}\n") and builds_of(script) == before
        part.expect(f"a build without {name}", fine and not os.path.exists(log_of(script)), *map(str, got))
        os.symlink(path, os.path.join(folder, name))
    status, _, err = run(part, script, ["--version"], env=environment(part, "quick", PATH=folder))
    part.expect("a build with these tools alone", status == 0 and err.startswith(begin_of(script)), str(status), err)


def times(part):
    """The time of a build is told in seconds up to two minutes, and then in whole minutes."""
    script = make_clone(part, "times")
    os.makedirs(part.path("clock"))
    os.chmod(part.write("clock/date", CLOCK.encode()), 0o755)
    path, clock = f"{part.path('clock')}:{part.path('kit')}:{os.environ['PATH']}", part.path("clock/second")
    for seconds, told in ((0, "0 s"), (119, "119 s"), (120, "2 min"), (179, "2 min"), (180, "3 min"), (3659, "60 min")):
        if os.path.exists(program_of(script)):
            os.remove(program_of(script))
        part.write("clock/second", b"1000000\n")
        own = {"PATH": path, "RT_CLOCK": clock, "RT_LATER": str(1000000 + seconds)}
        status, _, err = run(part, script, ["--version"], env=environment(part, "later", **own))
        fine = (status, err) == (0, begin_of(script) + f"tlvdump: built, {told}\n")
        part.expect(f"a build of {seconds} seconds", fine, str(status), err)


def other_kit(part):
    """A kit whose logic is not the one that README names is told before a build, which goes on."""
    script = make_clone(part, "other-kit")
    one, other = "dac8208d650f15bf", "0123456789abcdef"
    unlike = "tlvdump: the kit's logic is {}; README.md names {}, so a proof may fail\n"
    for what, readme, version, said in (
        ("the same kit", one, f"rattle-kit-13f logic {one}", ""),
        ("the same logic", one, f"rattle-kit-14 logic {one}", ""),
        ("another logic", one, f"rattle-kit-13f logic {other}", unlike.format(other, one)),
        ("a logic that begins so", one, f"rattle-kit-13f logic {one}0", unlike.format(one + "0", one)),
        ("a kit that says nothing", one, "", unlike.format("not known", one)),
        ("a README that names none", "", f"rattle-kit-13f logic {one}", unlike.format(one, "none")),
    ):
        if os.path.exists(program_of(script)):
            os.remove(program_of(script))
        named = f"Proved with `rattle-kit-13f logic {readme}` (`rt version`).\n" if readme else "Proved.\n"
        part.write("other-kit/README.md", f"# tlvdump\n\nThe kit's logic is trusted.\n{named}".encode())
        status, _, err = run(part, script, ["--version"], env=environment(part, "quick", RT_VERSION=version))
        fine = status == 0 and err.startswith(said + begin_of(script))
        part.expect(f"{what}", fine, str(status), err)
        status, _, err = run(part, script, ["--version"], env=environment(part, "quick", RT_VERSION=version))
        part.expect(f"{what}, built", (status, err) == (0, ""), str(status), err)
    readme = open(os.path.join(part.root, "README.md"), encoding="utf-8").read()
    part.expect("README.md names a logic", re.search(r"rattle-kit-\S+ logic [0-9a-f]{16}\b", readme))


def not_to_build(part):
    """With --no-build the program is run, but never built."""
    script = make_clone(part, "no-build")
    run_built = os.path.join(top_of(script), "packaging", "run-built")
    words = ["--no-build", "tlvdump", "--version"]
    for program in ("none", "old"):
        got = run(part, run_built, words, how="quick")
        left = os.listdir(os.path.dirname(program_of(script)))
        fine = got == (70, b"", "") and left == ["tlvdump"] * (program == "old")
        part.expect(f"--no-build, program: {program}", fine, *map(str, got), *left)
        put_old(script)
    part.expect("the old program is left alone", has_old(script))
    run(part, script, ["--version"], how="quick")
    wanted = part.run(["--version"])
    got = run(part, run_built, words, how="fails")
    part.expect("--no-build, a program that is there", got == (0, wanted.out, ""), *map(str, got))


def read_only(part, script):
    """Runs the script in a tree that cannot be written. Returns None if this machine has no way to make one."""
    folder = os.path.dirname(log_of(script))
    if os.geteuid():
        os.chmod(folder, 0o555)
        got = run(part, script, ["--version"], how="quick")
        os.chmod(folder, 0o755)
        return got
    if subprocess.run(["unshare", "-m", "true"], capture_output=True).returncode:
        return None
    mounts = 'mount --bind "$0" "$0" && mount -o remount,bind,ro "$0" && exec "$@"'
    words = ["-m", "sh", "-c", mounts, top_of(script), script, "--version"]
    return run(part, shutil.which("unshare"), words, how="quick")


def not_writable(part):
    """If the tree cannot be written, the status is 70. A folder or file in the way stops root, too."""
    script = make_clone(part, "not-writable")
    put_old(script)
    for log in ("no log", "a log"):
        got = read_only(part, script)
        if got is None:
            part.note("root, and no unshare: a tree that cannot be written is not tried")
            break
        fine = got[:2] == (70, b"") and got[2].endswith("\ntlvdump: not built\n") and has_old(script)
        part.expect(f"a tree that cannot be written, {log}", fine, *map(str, got))
        part.write("not-writable/crates/tlvdump/out/build.log", b"")
    os.remove(log_of(script))
    os.mkdir(log_of(script))
    status, out, err = run(part, script, ["--version"], how="quick")
    fine = (status, out) == (70, b"") and err.endswith("\ntlvdump: not built\n")
    part.expect("a log that cannot be written", fine, str(status), err)
    part.expect("the program then", has_old(script))
    shutil.rmtree(os.path.dirname(log_of(script)))
    part.write("not-writable/crates/tlvdump/out", b"")
    status, out, err = run(part, script, ["--version"], how="quick")
    fine = (status, out) == (70, b"") and err.endswith("\ntlvdump: not built\n")
    part.expect("no folder for the log", fine, str(status), err)


def signals(part):
    """A signal to the script alone ends everything that the build has started. Only the old program is left."""
    script = make_clone(part, "signals")
    put_old(script)
    for name, status in (("INT", 130), ("TERM", 143), ("HUP", 129), ("PIPE", 141), ("QUIT", 131)):
        child, below = start_waiting(part, script, f"child-{name}")
        part.expect(f"{name}: the old program stays in a build", below and runs(below) and has_old(script))
        child.send_signal(getattr(signal, f"SIG{name}"))
        begun = time.time()
        wait_for(child)
        left = left_of(script)
        got = end_of(child)
        fine = got[:2] == (status, b"") and time.time() - begun < 20
        part.expect(f"{name} in a build", fine, *map(str, got), f"{time.time() - begun:.1f} s")
        part.expect(f"{name}: nothing goes on", has_ended(below))
        part.expect(f"{name}: what is left", left == [] and has_old(script), *left)
    wanted = part.run(["--version"])
    status, out, err = run(part, script, ["--version"], how="quick")
    part.expect("a build after signals", (status, out) == (0, wanted.out), str(status), err)


def killed(part):
    """A script that is killed leaves no lock. Anything else that it leaves is removed soon, or by the next build."""
    script = make_clone(part, "killed")
    put_old(script)
    child, below = start_waiting(part, script, "child-KILL")
    child.kill()
    # Its parent has not yet noticed its end.
    os.waitid(os.P_PID, child.pid, os.WEXITED | os.WNOWAIT)
    if part.has("flock"):
        free = subprocess.run(["flock", "-n", os.path.dirname(log_of(script)), "true"]).returncode == 0
        part.expect("KILL: no lock", free)
    for _ in range(100):
        if not left_of(script):
            break
        time.sleep(0.05)
    part.expect("KILL: what is left", left_of(script) == [] and has_old(script), *left_of(script))
    got = end_of(child)
    part.expect("KILL in a build", got[:2] == (-signal.SIGKILL, b""), *map(str, got))
    if runs(below):
        os.kill(below, signal.SIGKILL)
    part.write("killed/crates/tlvdump/out/building.1", b"")
    wanted = part.run(["--version"])
    status, out, err = run(part, script, ["--version"], how="quick")
    part.expect("a build after KILL", (status, out) == (0, wanted.out), str(status), err)
    part.expect("what is left then", left_of(script) == [], *left_of(script))


WAITS = "tlvdump: another run builds the program; this one waits for it\n"


def two_at_once(part):
    """A second run waits for the first, and then builds nothing.
    If the first has ended without a program, the second builds.
    """
    if not part.has("flock"):
        return
    script = make_clone(part, "two")
    wanted = part.run(["--version"])
    children = [start(part, script, ["--version"])]
    await_file(os.path.join(top_of(script), "builds"))
    children.append(start(part, script, ["--version"]))
    first, second = map(end_of, children)
    part.expect("the first of two", first[:2] == (0, wanted.out) and WAITS not in first[2], *map(str, first))
    part.expect("the second of two", second == (0, wanted.out, WAITS), *map(str, second))
    part.expect("one build of two", builds_of(script) == 1, str(builds_of(script)))
    for name, ends in (("TERM", 143), ("KILL", -signal.SIGKILL)):
        os.remove(program_of(script))
        child, below = start_waiting(part, script, f"first-{name}")
        other, third = start(part, script, ["--version"], how="quick"), start(part, script, ["--version"])
        part.expect(f"{name}: two wait", await_waiters(script, 2) and runs(below))
        third.terminate()
        got = end_of(third)
        part.expect(f"{name}: one that waits is ended", got == (143, b"", WAITS) and runs(below), *map(str, got))
        child.send_signal(getattr(signal, f"SIG{name}"))
        status, out, err = end_of(other)
        fine = (status, out) == (0, wanted.out) and err.startswith(WAITS + begin_of(script))
        part.expect(f"{name}: the second builds", fine, str(status), err)
        got = end_of(child)
        part.expect(f"{name}: the first", got[:2] == (ends, b""), *map(str, got))
        if runs(below):
            os.kill(below, signal.SIGKILL)
        time.sleep(1.5)
        part.expect(f"{name}: what is left", left_of(script) == [], *left_of(script))
        got = run(part, script, ["--version"])
        part.expect(f"{name}: the next run", got == (0, wanted.out, ""), *map(str, got))


def the_other_program(part):
    """./tlvdump-show builds and runs its own program in the same way. The program finds the names file of the clone."""
    top = top_of(make_clone(part, "show"))
    part.write("show/crates.txt", b"tlvdump_show: tlv_low clap\ntlv_low: hex\n")
    script, env = os.path.join(top, "tlvdump-show"), environment(part, "quick", RT_PROGRAM=part.suite.show_program)
    crate = os.path.join(top, "crates", "tlvdump_show")
    printed = f"tlvdump-show: {BEGINS} ({crate}/out/build.log)\ntlvdump-show: built, N s\n"
    octets, wanted = b"\x06\x03\x55\x04\x03", b"       0      3: OBJECT IDENTIFIER 2.5.4.3 (commonName)\n"
    status, out, err = run(part, script, [], octets, env=env)
    fine = (status, out, re.sub(r"\d+ s\b", "N s", err)) == (0, wanted, printed)
    part.expect("./tlvdump-show builds its program, and runs it", fine, str(status), str(out), err)
    got = run(part, script, ["-"], octets, env=env)
    part.expect("./tlvdump-show again", got == (0, wanted, ""), *map(str, got))
    part.expect("./tlvdump-show builds no other program", not os.path.exists(program_of(os.path.join(top, "tlvdump"))))
    os.symlink(script, part.path("show by a link"))
    got = run(part, part.path("show by a link"), ["--offsets"], b"\x04\x02\x05\x00", env=env)
    part.expect("./tlvdump-show by a link", got == (0, b"0\n", ""), *map(str, got))
    os.remove(os.path.join(crate, "out", "tlvdump_show"))
    env["RT_HOW"] = "fails"
    status, out, err = run(part, script, ["--version"], env=env)
    fine = (status, out) == (70, b"") and err.endswith("\ntlvdump-show: not built\n")
    part.expect("./tlvdump-show, not built", fine, str(status), err)
    # A clone whose path ends in a line feed.
    script = make_clone(part, "line feed\n")
    wanted = part.run(["--version"])
    for name, program in (("tlvdump", part.program), ("tlvdump-show", part.suite.show_program)):
        env = environment(part, "quick", RT_PROGRAM=program)
        got = run(part, os.path.join(top_of(script), name), ["--version"], env=env)
        fine = got[0] == 0 and got[1] == part.run(["--version"], program=program).out and "building; " in got[2]
        part.expect(f"a line feed at the end of a clone's path, {name}", fine, *map(str, got))


def test(part):
    os.mkdir(part.path("kit"))
    os.chmod(part.write("kit/rt", RT.encode()), 0o755)
    not_on_a_terminal(part)
    on_a_terminal(part)
    words_and_links(part)
    changes(part)
    failing(part)
    without_program(part)
    times(part)
    other_kit(part)
    not_to_build(part)
    not_writable(part)
    signals(part)
    killed(part)
    two_at_once(part)
    the_other_program(part)

"""Tests that ./install and ./package are not led astray by somebody who may write in the folder into which they write.

The tools that they call are replaced by a script, which acts at one of them as that person would: it renames the folder in
which a file is being written, and puts something else in its place. So the moment is chosen, and not left to chance.
"""
import os
import shutil
import stat
import subprocess

# Runs the tool of the system by whose name it is called. At the tool SWAP_AT it swaps each folder in SWAP_IN: mktemp makes
# the folder first; at the other tools it is there. SWAP_KIND says what is put in its place: a link to the folder TRAP or a
# copy of that folder, with its owner and mode.
SWAP = r"""#!/bin/sh
name=${0##*/} PATH=$USUAL_PATH
made=
[ "$name" != mktemp ] || made=$(mktemp "$@") || exit
if [ "$name" = "$SWAP_AT" ]; then
    for found in "$SWAP_IN"/.tlvdump.*; do
        [ -d "$found" ] && [ ! -L "$found" ] && mv -T -- "$found" "$SWAP_IN/moved.${found##*.}" || continue
        if [ "$SWAP_KIND" = link ]; then
            ln -s -- "$TRAP" "$found"
        else
            cp -a -- "$TRAP" "$found"
        fi
    done
fi
if [ -n "$made" ]; then
    printf '%s\n' "$made"
else
    exec "$name" "$@"
fi
"""
AT = ("mktemp", "stat", "id", "ls", "cp", "chmod", "mv")


def traps(part, victim, names):
    """Makes folders to be put in the place of one that is being written. In most of them, each name under which a copy may
    be written is a link to the victim. Returns their paths, and how each is put.
    """
    made = {}
    for name, mode, filled in (("filled", 0o700, True), ("open", 0o777, False), ("open-filled", 0o755, True), ("empty", 0o700, False)):
        folder = part.path(f"traps/{name}/folder")
        os.makedirs(folder)
        for place in names if filled else ():
            os.symlink(victim, os.path.join(folder, place))
        os.chmod(folder, mode)
        made[name] = folder
    # What is beside a trap must stay as it is, too.
    for name in names:
        os.symlink(victim, part.path(f"traps/empty/{name}"))
    kinds = [(f"a link to {name}", "link", folder) for name, folder in made.items()]
    kinds += [(f"the folder {name}", "copy", made[name]) for name in ("filled", "open", "open-filled")]
    if not os.geteuid():
        theirs = part.path("traps/theirs")
        os.mkdir(theirs, 0o700)
        os.chown(theirs, 65534, 65534)
        kinds.append(("an empty folder of another user", "copy", theirs))
    return kinds


def check_swaps(part, script, words, folder, name):
    """Runs the script with these words while somebody swaps the folders that it makes in `folder`, where it writes the file
    `name`. The victim of a link is not touched, and the file is either missing, with status 1, or the right one. It is
    missing if the swap comes before the folder is looked at.
    """
    env = dict(os.environ, TLVDUMP=part.program, TLVDUMP_SHOW=part.suite.show_program)
    run = lambda more: subprocess.run([os.path.join(part.root, script), *words], cwd=part.folder, env=dict(env, **more),
                                      capture_output=True, text=True, timeout=120)
    os.makedirs(part.path(folder), exist_ok=True)
    part.expect(f"{script}, nobody else there", run({}).returncode == 0)
    with open(part.path(f"{folder}/{name}"), "rb") as file:
        right = file.read()
    victim = part.path("a victim")
    os.mkdir(part.path("swaps"))
    for tool in AT:
        os.chmod(part.write(f"swaps/{tool}", SWAP.encode()), 0o755)
    own = {"USUAL_PATH": env["PATH"], "PATH": f"{part.path('swaps')}:{env['PATH']}", "SWAP_IN": part.path(folder)}
    for at, (kind, put, trap) in enumerate(traps(part, victim, ("file", name))):
        # Once the folder is found to be the right one, nobody asks what was put in its place.
        for tool in AT if at == 0 else AT[:1]:
            shutil.rmtree(part.path(folder))
            os.mkdir(part.path(folder))
            os.chmod(part.write("a victim", b"not to be written"), 0o640)
            before = sorted(os.walk(part.path("traps")))
            got = run({**own, "SWAP_AT": tool, "SWAP_KIND": put, "TRAP": trap})
            what = f"{script}, {kind} at {tool}"
            with open(victim, "rb") as file:
                fine = file.read() == b"not to be written" and stat.S_IMODE(os.stat(victim).st_mode) == 0o640
            part.expect(f"{what}: the victim", fine, str(got))
            part.expect(f"{what}: the traps", sorted(os.walk(part.path("traps"))) == before, str(got))
            path = part.path(f"{folder}/{name}")
            if tool == "mktemp":
                fine = got.returncode == 1 and "another was put in the place of the folder" in got.stderr
                fine = fine and not os.path.lexists(path)
            elif got.returncode == 0 and os.path.isfile(path) and not os.path.islink(path):
                with open(path, "rb") as file:
                    fine = file.read() == right
            else:
                fine = got.returncode == 1 and got.stderr and not os.path.lexists(path)
            part.expect(f"{what}: the file", fine, str(got))

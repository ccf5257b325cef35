"""Tests tests/tools, with a PATH that has only some tools: what is missing is installed by root, or said, and never passed over.
Tests also that no script of tests passes if what it is asked for selects no test.
"""
import os
import shutil
import stat
import subprocess

# What the script itself calls, and each Debian has.
OWN = ("sh", "sed", "sort", "paste", "id")
# In place of apt-get: it writes its words, and installs one file for each package, unless the package is in $LACKS.
APT = r"""#!/bin/sh
echo "$*" >>"$FOLDER/calls"
case " $* " in *" update "*) exit ;; esac
for word; do
    case " $LACKS " in *" $word "*) exit 100 ;; esac
    for name in $(sed -n "s/ [a-z]* $word\$//p" "$FOLDER/list"); do
        case $name in /*) ;; *) ln -sf /bin/sh "$FOLDER/bin/$name" ;; esac
    done
done
"""


def listed(part):
    text = subprocess.run([os.path.join(part.root, "tests", "tools"), "--list"], capture_output=True, text=True).stdout
    return [line.split() for line in text.splitlines()]


def folder_with(part, name, tools, user):
    """Makes a folder for a PATH with the script's own tools, with these, and with an `id` that names this user."""
    os.makedirs(part.path(f"{name}/bin"))
    for tool in (*OWN, *tools):
        target = shutil.which(tool) if tool in OWN else "/bin/sh"
        os.symlink(target, part.path(f"{name}/bin/{tool}"))
    os.remove(part.path(f"{name}/bin/id"))
    script(part, f"{name}/bin/id", f"#!/bin/sh\necho {user}\n")
    part.write(f"{name}/list", "".join(" ".join(row) + "\n" for row in listed(part)).encode())
    return part.path(name)


def script(part, name, text):
    os.chmod(part.write(name, text.encode()), stat.S_IRWXU)


def run(part, folder, lacks=""):
    env = {"PATH": os.path.join(folder, "bin"), "FOLDER": folder, "LACKS": lacks}
    got = subprocess.run([shutil.which("sh"), os.path.join(part.root, "tests", "tools")], env=env, capture_output=True, text=True)
    return got.returncode, got.stdout, got.stderr


def calls(folder):
    path = os.path.join(folder, "calls")
    with open(path, encoding="ascii") as file:
        return file.read()


def nothing_selected(part):
    """A word that no test has, a part that is not there and no seeds at all are failures."""
    for words in (["tests/rust", "no_such_test"], ["tests/program", "no_such_part"], ["tests/second", "--count", "0"]):
        got = subprocess.run([os.path.join(part.root, words[0]), *words[1:]], capture_output=True, text=True)
        part.expect(" ".join(words), got.returncode not in (0, None) and got.stderr and not got.stdout, str(got))


def test(part):
    nothing_selected(part)
    rows = listed(part)
    part.expect("the list", rows and all(len(row) == 3 and row[1] in ("needed", "useful") for row in rows), str(rows))
    names = [name for name, *_ in rows if not name.startswith("/")]
    useful = [name for name, use, _ in rows if use == "useful"]
    needed = [name for name in names if name not in useful]
    status, out, err = run(part, folder_with(part, "all", names, 1000))
    part.expect("all tools", (status, out, err) == (0, "", ""), str(status), out, err)
    status, out, err = run(part, folder_with(part, "needed", needed, 1000))
    fine = status == 0 and err.count("\n") == 1 and all(f" {name}" in err for name in useful) and ": apt-get install " in err
    part.expect("without the useful tools", fine, str(status), err)
    for missing in needed:
        status, out, err = run(part, folder_with(part, f"no {missing}", [name for name in names if name != missing], 1000))
        package = next(row[2] for row in rows if row[0] == missing)
        fine = status == 1 and err.endswith(f": apt-get install {package}\n") and f": not there: {missing}; " in err
        part.expect(f"without {missing}", fine, str(status), err)
    # Root installs what is missing. A package that the system lacks does not keep the others away.
    folder = folder_with(part, "root", [], 0)
    script(part, "root/bin/apt-get", APT)
    os.symlink(shutil.which("ln"), part.path("root/bin/ln"))
    status, out, err = run(part, folder, lacks="dumpasn1")
    there = set(os.listdir(part.path("root/bin")))
    fine = status == 0 and set(names) - there == {"dumpasn1"} and err.endswith(": apt-get install dumpasn1\n")
    part.expect("root installs", fine, str(status), err, calls(folder))
    status, out, err = run(part, folder, lacks="dumpasn1")
    part.expect("nothing needed is installed twice", status == 0 and calls(folder).count("openssl") == 1, calls(folder))
    folder = folder_with(part, "root without", [], 0)
    script(part, "root without/bin/apt-get", APT)
    status, out, err = run(part, folder, lacks="openssl bash")
    part.expect("root, and a needed package that is not to be had", status == 1 and " openssl" in err, str(status), err)

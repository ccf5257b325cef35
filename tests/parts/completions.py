"""Checks that the completions for bash and zsh match the help of the programs."""
import os
import re
import subprocess


def words_of(part):
    """Returns the commands and the options of each, from the program's own help."""
    top = part.run(["--help"]).out.decode()
    commands = re.findall(r"^  (\w+)  ", top.split("Commands:")[1].split("Options:")[0], re.M)
    options = {}
    for name in commands:
        options[name] = set(re.findall(r"^ +(--[a-z]+)", part.run([name, "--help"]).out.decode(), re.M))
    return options


def show_options(part):
    """Returns the options of tlvdump-show, from its own help."""
    text = part.run(["--help"], program=part.suite.show_program).out.decode()
    return set(re.findall(r"^ {6}(--[a-z-]+)", text, re.M))


# The values of --as of tlvdump-show.
FORMS = {"octets", "ber", "der", "cer", "pem", "dump", "hex", "numbers", "base64", "runs"}


def bash(part, options):
    if not part.has("bash"):
        return
    part.write("string", b"")

    def completed_by(name, *words):
        function = name.replace("-", "_")
        script = f'source "$1"; shift; COMP_WORDS=("$@"); COMP_CWORD=$(($# - 1)); _{function}; printf "%s\\n" "${{COMPREPLY[@]}}"'
        path = os.path.join(part.root, "completions", "tlvdump.bash")
        got = subprocess.run(["bash", "-c", script, "bash", path, name, *words], cwd=part.folder, capture_output=True, text=True)
        return set(got.stdout.split())

    def completions(*words):
        return completed_by("tlvdump", *words)

    part.expect("bash: commands", completions("") == {*options, "--help", "--version"}, str(completions("")))
    part.expect("bash: d", completions("d") == {"dump"})
    for name, wanted in options.items():
        part.expect(f"bash: options of {name}", completions(name, "--") == wanted, str(completions(name, "--")))
        part.expect(f"bash: FILE of {name}", completions(name, "str") == {"string"})
    part.expect("bash: --names", completions("dump", "--names", "str") == {"string"})
    part.expect("bash: --limit", completions("dump", "--limit", "") == set())
    rules = {"ber", "der", "cer"}
    part.expect("bash: --rules", completions("dump", "--rules", "") == rules)
    # Bash splits words at "=", unless it is set otherwise.
    part.expect("bash: --rules=", completions("dump", "--rules", "=") == rules)
    part.expect("bash: --rules=d", completions("dump", "--rules", "=", "d") == {"der"})
    part.expect("bash: --rules=d, one word", completions("dump", "--rules=d") == {"--rules=der"})
    part.expect("bash: --rules=, one word", completions("dump", "--rules=") == {f"--rules={it}" for it in rules})
    part.expect("bash: --names=", completions("dump", "--names", "=", "str") == {"string"})
    part.expect("bash: --limit=", completions("dump", "--limit", "=") == set())
    printed = completed_by("tlvdump-show", "--")
    part.expect("bash: options of tlvdump-show", printed == show_options(part), str(printed))
    part.expect("bash: FILE of tlvdump-show", completed_by("tlvdump-show", "str") == {"string"})
    for words, wanted in (
        (["--check"], {"--as", "--rules", "--closed", "--padding", "--help"}),
        (["--offset", "5"], {"--as", "--contents", "--padding", "--help"}),
        (["--offset=5"], {"--as", "--contents", "--padding", "--help"}),
        (["a.der", "--offsets"], {"--as", "--padding", "--help"}),
        (["--raw"], {"--as", "--padding", "--help"}),
        (["--why"], {"--as", "--closed", "--padding", "--help"}),
    ):
        printed = completed_by("tlvdump-show", *words, "--")
        part.expect(f"bash: tlvdump-show {words}", printed == wanted, str(printed))
    part.expect("bash: --offset", completed_by("tlvdump-show", "--offset", "") == set())
    part.expect("bash: --as", completed_by("tlvdump-show", "--as", "") == FORMS)


def zsh(part, options):
    """Runs the function with commands in place of zsh's own, which write their arguments."""
    if not part.has("zsh"):
        return
    stubs = '_arguments() { print -rl -- "$@" }; _describe() { print -rl -- "${(P@)2}" }; _files() { }\n'
    path = os.path.join(part.root, "completions", "_tlvdump")

    def completions(service, *words):
        call = f'service={service}; words=({service} "$@"); CURRENT=$(($# + 1)); main() {{ source "{path}" }}; main'
        got = subprocess.run(["zsh", "-f", "-c", stubs + call, "zsh", *words], cwd=part.folder, capture_output=True, text=True)
        return got.stdout if not got.stderr else got.stderr

    commands = re.findall(r"^(\w+):", completions("tlvdump", ""), re.M)
    part.expect("zsh: commands", set(commands) == set(options) and len(commands) == len(options), completions("tlvdump", ""))
    for name, wanted in options.items():
        printed = completions("tlvdump", name, "--")
        part.expect(f"zsh: options of {name}", set(re.findall(r"--[a-z]+", printed)) == wanted and "1:file:_files" in printed, printed)
    printed = completions("tlvdump-show", "--")
    options = set(re.findall(r"^(?:\(- \*\))?(--[a-z-]+)", printed, re.M))
    part.expect("zsh: options of tlvdump-show", options == show_options(part) and "\n*:file:_files\n" in printed, printed)
    forms = re.search(r"^--as=.*:form:\((.*)\)$", printed, re.M)
    part.expect("zsh: --as", forms and set(forms[1].split()) == FORMS, printed)

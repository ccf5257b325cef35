"""Checks that what the pages name exists: the pages and sections that they link to, files by their names or paths, and in
docs/MAP.md, docs/ADD.md and the promises of docs/PROVED.md all names in backticks. README and PROVED must have the same statement.
"""
import glob
import os
import re

PAGES = ("*.md", "bench/*.md", "data/*.md", "docs/*.md", "man/*.md")
# Names that stand for any file, or for files that are built.
MADE = {"MODULE", "FUNCTION", "NAME", "out"}
# A command that docs/ADD.md adds as an example.
MADE_UP = ": Count"
# The places where scripts of bench write what they measured, by the page.
PLACES = {"docs/STATUS.md": ["tlvdump"], "bench/RESULTS.md": ["speed", "outputs", "pipe", "show", "tlvdump-show", "gate"]}


def without_blocks(text):
    """Returns a page without its blocks of code, indented or fenced."""
    return re.sub(r"^```.*?^```", "", text, flags=re.M | re.S)


def anchors(text):
    """Returns the anchors that are made from the headings of a page."""
    heads = re.findall(r"^#+ (.*)", without_blocks(text), re.M)
    return {re.sub(r"[^\w -]", "", head.lower()).strip().replace(" ", "-") for head in heads}


def broken_links(root, page, text, texts):
    """Yields the links of a page that lead nowhere."""
    for path, anchor in re.findall(r"\]\(([^)#\s]*)(?:#([^)\s]*))?\)", without_blocks(text)):
        if re.match(r"\w+:", path):
            continue
        target = os.path.normpath(os.path.join(os.path.dirname(page), path)) if path else page
        if not os.path.exists(os.path.join(root, target)):
            yield path
        elif anchor and target in texts and anchor not in anchors(texts[target]):
            yield f"{path}#{anchor}"


def missing_files(text, known):
    """Yields the source files that a page names, by name or end of path, and that do not exist."""
    for name in re.findall(r"`([\w./+-]+\.(?:antt|rt|rows|py))`", without_blocks(text)):
        if not MADE & set(name.split("/")) and not any(path == name or path.endswith("/" + name) for path in known):
            yield name


def sources(root, paths):
    """Yields the files of code, definitions and proofs, without their comments."""
    for path in paths:
        if re.match(r"crates/\w+/(?:src/.*\.rt|(?:specs|proofs)/.*\.antt)$", path):
            with open(os.path.join(root, path), encoding="utf-8") as file:
                yield re.sub("//.*" if path.endswith(".rt") else "--.*", "", file.read())


def gone_names(root, text, known, others=()):
    """Yields the names in backticks that neither the sources nor the other files have, each with its line: words, members of
    types, and paths.
    """
    paths = "\n".join(path for path in known if re.match(r"crates/\w+/(?:src|specs|proofs)/|tests/", path))
    codes = list(sources(root, paths.split("\n")))
    with open(os.path.join(root, "crates.txt"), encoding="utf-8") as file:
        words = set(re.findall(r"[\w-]+", "\n".join([*codes, paths, file.read()])))
    for path in others:
        with open(path, encoding="utf-8") as file:
            words |= set(re.findall(r"\w+", file.read()))
    text = re.sub(r"^```.*?^```", lambda block: "\n" * block[0].count("\n"), text, flags=re.M | re.S)
    for span in re.finditer("`([^`]+)`", text):
        name = span[1].split()[0]
        if re.fullmatch(r"[^\W\d][\w-]*", name):
            there = name in words
        elif re.fullmatch(r"\w+::\w+", name):
            owner, member = name.split("::")
            there = any(re.search(rf"^(?:pub )?(?:impl|trait|enum)\b.*\b{owner}\b", code, re.M)
                        and re.search(rf"(?:\bfn |^ +){member}\b", code, re.M) for code in codes)
        elif re.fullmatch(r"[\w.*/-]*[/*][\w.*/-]*", name) and not MADE & set(name.split("/")):
            pattern = re.escape(name.rstrip("/")).replace(r"\*", "[^/\n]*")
            there = re.search(rf"(?:^|/){pattern}(?:/|\.\w+$|$)", paths, re.M)
        else:
            continue
        if not there:
            line = text.count("\n", 0, span.start()) + 1
            yield f"line {line}: {name}"


def statement(proved):
    """Returns the statement of docs/PROVED.md, which is its first quotation, on one line."""
    return " ".join(re.search(r"(?:^> .*\n)+", proved, re.M)[0].replace("> ", "").split())


def test(part):
    paths = [path for pattern in PAGES for path in sorted(glob.glob(os.path.join(part.root, pattern)))]
    texts = {}
    for path in paths:
        with open(path, encoding="utf-8") as file:
            texts[os.path.relpath(path, part.root)] = file.read()
    known = [os.path.relpath(os.path.join(at, name), part.root)
             for top in ("crates", "tests", "bench") for at, _, names in os.walk(os.path.join(part.root, top)) for name in names]
    for page, text in texts.items():
        broken = [*broken_links(part.root, page, text, texts), *missing_files(text, known)]
        part.expect(f"{page} names what is there", not broken, *broken)
    for page, names in PLACES.items():
        found = re.findall(r"^<!-- ([\w-]+): .*? -->\n.*?^<!-- end of \1 -->\n", texts[page], re.M | re.S)
        part.expect(f"the places of {page}", found == names, *found)
    readme = " ".join(texts["README.md"].replace("*", "").replace("> ", "").split())
    part.expect("README.md has the statement of docs/PROVED.md", statement(texts["docs/PROVED.md"]) in readme)
    promised = texts["docs/PROVED.md"].partition("\n## The statement\n")[2].partition("\n## What the types give\n")[0]
    part.expect("docs/PROVED.md has promises", promised)
    for page, text in (("docs/MAP.md", texts["docs/MAP.md"]), ("docs/PROVED.md", promised)):
        gone = list(gone_names(part.root, text, known))
        part.expect(f"{page} has no name that the sources lack", not gone, *gone)
    scripts = glob.glob(os.path.join(part.root, "tests", "second_opinion", "*.py"))
    gone = [name for name in gone_names(part.root, texts["docs/ADD.md"], known, scripts) if not name.endswith(MADE_UP)]
    part.expect("docs/ADD.md has no name that neither the sources nor the second implementation have", not gone, *gone)

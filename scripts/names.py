#!/usr/bin/env python3
"""Looks up the names that the pages have between backticks: definitions, calls, tests, files.

    names.py

The pages are README.md, CONTRIBUTING.md, docs/*.md and the README of each crate, without their examples. A name with an
underscore, with a capital letter inside, or with `::` or a file's ending must be there: in the code or the definitions of
a crate, in a script, in the toolchain's libraries (by their names), or among the files. Where a crate's README says that
a name is of a file of its specs/ (`NAME` of `FILE.antt`), it must be defined in a file of that name; and where a page says
that a test is of a crate (`NAME` of `trials_CRATE`), or in the table of tests of docs/CLAIMS.md, it must be a test there.
Prints what isn't there; the status is 1 if there is anything. Plain Python 3, no other packages.
"""
import re
import sys
from pathlib import Path

TOP = Path(__file__).resolve().parent.parent
CRATES = TOP / "crates"
FENCE = re.compile(r"^```.*?^```$", re.M | re.S)
SPAN = re.compile(r"`([^`\n]+)`")
WORD = re.compile(r"[A-Za-z_][A-Za-z0-9_]*")
ENDINGS = ("antt", "rt", "py", "md", "toml", "txt", "edit", "pcap", "pcapng", "html", "sh", "json", "png", "cert")
FILE = re.compile(r"[\w./-]+\.(%s)" % "|".join(ENDINGS))

# Names that stand in a list behind one of these words: `a`, `b` and `c` of `d`.
LIST = r"`[\w:]+`(?:(?:, | and |, and )`[\w:]+`)*"
OF_SPEC = re.compile(r"(%s) of `(\w+)\.antt`" % LIST)
IN_SPEC = re.compile(r"`(?:specs/)?(\w+)\.antt`: (%s)" % LIST)
OF_TESTS = re.compile(r"(%s)(?: there)? of `(trials_\w+)`" % LIST)

# What is named without being there: options of pcapng files, and files that a reader is to have.
ELSEWHERE = {"if_tsresol", "if_tsoffset"}
READERS_FILES = {"src/m.rt", "drafts/connection-001.toml", "connection-001.toml", "x.pcapng", "x.pcap", "ethernet.pcap"}

# Pages that list what was removed.
HISTORY = {"docs/GATE.md"}


def pages():
    """The text of each page, without its examples, by its path."""
    files = [TOP / "README.md", TOP / "CONTRIBUTING.md", *sorted((TOP / "docs").glob("*.md"))]
    files += sorted(CRATES.glob("*/README.md"))
    return {str(file.relative_to(TOP)): FENCE.sub("", file.read_text()) for file in files}


def sources(*patterns):
    """The text of the files below the repository that these patterns name, but for what is built."""
    for pattern in patterns:
        for file in TOP.glob(pattern):
            if "out" not in file.relative_to(TOP).parts and file.is_file():
                yield file, file.read_text(errors="replace")


def words_of_code():
    """Each word of code, definitions, proofs, scripts and the page, and the names of must-fail edits."""
    found = {file.stem for file in CRATES.glob("*/must-fail/*.edit")}
    texts = sources("crates/*/src/**/*.rt", "crates/*/specs/**/*.antt", "crates/*/proofs/**/*.antt", "crates.txt",
                    "scripts/*", "scripts/*/*", "bench/*", "viewer/*.html", "Makefile", "examples/**/*.toml",
                    "examples/*.py")
    for file, text in texts:
        if file != Path(__file__).resolve():
            found.update(WORD.findall(text))
    return found


def words_of_kit():
    """The names of the toolchain's libraries and of what their pages name, if the toolchain is there."""
    kit = Path("/opt/rattle/rattle")
    found = {folder.name for folder in kit.iterdir()} if kit.is_dir() else set()
    for page in kit.glob("*.md") if kit.is_dir() else []:
        found.update(WORD.findall(page.read_text(errors="replace")))
    return found


def defined_in_specs():
    """The names that each file of a crate's specs/ defines, by the file's stem."""
    found = {}
    for file, text in sources("crates/*/specs/**/*.antt"):
        names = re.findall(r"^\s*(?:pub |abbrev |unfoldable |record |data |module )*(\w+)\b", text, re.M)
        names += re.findall(r"^\s*(?:abbrev |unfoldable )?pub (?:record |data )?(\w+)", text, re.M)
        found.setdefault(file.stem, set()).update(names)
    return found


def tests():
    """The names of the tests of each crate."""
    found = {}
    for file, text in sources("crates/*/src/**/*.rt"):
        names = re.findall(r"^#\[test\]\n(?:#.*\n)*(?:pub )?fn (\w+)", text, re.M)
        found.setdefault(file.relative_to(CRATES).parts[0], set()).update(names)
    return found


def is_name(span):
    """Whether a span is a name that must be there: one word, or a path of words."""
    if not re.fullmatch(r"[A-Za-z_]\w*(::[A-Za-z_]\w*)*", span):
        return False
    return "_" in span or "::" in span or re.search(r"[a-z][A-Z]", span) is not None


def files_lost(path, text):
    """The files that a page names and that aren't there."""
    names = {str(file.relative_to(TOP)) for file in TOP.rglob("*") if "out" not in file.relative_to(TOP).parts}
    ends = {name.rsplit("/", 1)[-1] for name in names}
    for span in SPAN.findall(text):
        is_there = span in READERS_FILES or span.rsplit("/", 1)[-1] in ends
        if FILE.fullmatch(span) and not is_there:
            yield f"{path}: no file `{span}`"


def names_lost(path, text, known):
    """The names of a page that aren't there."""
    for span in SPAN.findall(text):
        if is_name(span) and not set(span.split("::")) <= known:
            yield f"{path}: no name `{span}`"


def misplaced(path, text, specs, tested):
    """The names that a page says to be of a file or of a crate, and that aren't."""
    flat = text.replace("\n", " ")
    placed = OF_SPEC.findall(flat) + [(names, stem) for stem, names in IN_SPEC.findall(flat)]
    for names, stem in placed:
        for name in SPAN.findall(names):
            if stem in specs and name not in specs[stem]:
                yield f"{path}: `{name}` isn't defined in {stem}.antt"
    for names, crate in OF_TESTS.findall(flat):
        for name in SPAN.findall(names):
            if is_name(name) and name not in tested.get(crate, set()) and name not in CALLS.get(crate, set()):
                yield f"{path}: `{name}` is no test of {crate}"


def table_of_tests(tested):
    """The rows of the table of tests in docs/CLAIMS.md that name a test that isn't there."""
    for row in re.findall(r"^ *\| (.*`.*) \|$", (TOP / "docs/CLAIMS.md").read_text(), re.M):
        cells = row.split(" | ")
        crates = SPAN.findall(cells[-1])
        if len(cells) != 3 or not crates or not crates[0].startswith("trials_"):
            continue
        there = set().union(*(tested.get(crate, set()) for crate in crates))
        for name in SPAN.findall(cells[1]):
            if name not in there:
                yield f"docs/CLAIMS.md: `{name}` is no test of {', '.join(crates)}"


def only_tested(tested, crates):
    """The lists of names in parentheses, in what docs/CLAIMS.md says to be only tested, of which one is no test."""
    section = (TOP / "docs/CLAIMS.md").read_text().split("\n## What is only tested")[1].split("\n## ")[0]
    there = set().union(*tested.values(), crates)
    for inner in re.findall(r"\(([^()]*)\)", section.replace("\n", " ")):
        words = set(WORD.findall(SPAN.sub("", inner)))
        if "`" in inner and words <= {"and", "of", "there", "too"}:
            for name in SPAN.findall(inner):
                if WORD.fullmatch(name) and name not in there:
                    yield f"docs/CLAIMS.md: `{name}` is no test"


# The calls of each crate of tests, which a page may name as such.
CALLS = {}
for file, text in sources("crates/trials_*/src/**/*.rt"):
    CALLS.setdefault(file.relative_to(CRATES).parts[0], set()).update(re.findall(r"\bpub fn (\w+)", text))


def main():
    known = words_of_code() | words_of_kit() | ELSEWHERE
    specs, tested = defined_in_specs(), tests()
    lost = [*table_of_tests(tested), *only_tested(tested, {file.name for file in CRATES.iterdir()})]
    for path, text in pages().items():
        lost += files_lost(path, text)
        lost += misplaced(path, text, specs, tested)
        if path not in HISTORY:
            lost += names_lost(path, text, known)
    for line in dict.fromkeys(lost):
        print(line)
    return bool(lost)


if __name__ == "__main__":
    sys.exit(main())

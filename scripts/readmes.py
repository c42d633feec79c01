#!/usr/bin/env python3
"""Type-checks the example in the README of each crate, and looks whether what the pages name is there.

    readmes.py [--names]

The example of a crate is the first ```rust block of crates/NAME/README.md: whole functions below the `use` lines that
they need, so that it is a module as it stands. All of them become one program in a copy of the repository, on which one
`rt try` is run. Nothing is proved by that. It takes a minute and a half of one processor; with `--names` it is left out.

Each file of a crate's specs/ that has definitions must be named in its README, and each relative link of a page (*.md)
must lead to a file or a folder, and to a heading where it names one. Prints what is wrong; the last line counts the
examples, and the status is 1 if anything is wrong. Plain Python 3, no other packages.
"""
import re
import shutil
import subprocess
import sys
import tempfile
from pathlib import Path

TOP = Path(__file__).resolve().parent.parent
CRATES = TOP / "crates"
PROGRAM = "readme_examples"
CODE = re.compile(r"^```.*?^```$|`[^`\n]*`", re.M | re.S)
FENCE = re.compile(r"^```.*?^```$", re.M | re.S)
LINK = re.compile(r"\]\(([^()\s]+)\)")
BUILT_IN = {"std", "core", "alloc", "crate"}


def examples():
    """The example of each crate whose README has one."""
    found = {}
    for page in sorted(CRATES.glob("*/README.md")):
        block = re.search(r"^```rust\n(.*?)^```$", page.read_text(), re.M | re.S)
        if block:
            found[page.parent.name] = block.group(1)
    return found


def write_program(copy, found):
    """Copies the crates, and writes the program of the examples beside them."""
    shutil.copy(TOP / "HANDLES", copy)
    left_out = shutil.ignore_patterns("out", "must-fail", "data")
    shutil.copytree(CRATES, copy / "crates", ignore=left_out)
    folder = copy / "crates" / PROGRAM / "src"
    folder.mkdir(parents=True)
    used = set(found)
    for name, text in found.items():
        (folder / f"{name}_example.rt").write_text(text)
        used |= set(re.findall(r"^use (\w+)", text, re.M))
    modules = "".join(f"mod {name}_example;\n" for name in found)
    (folder / "main.rt").write_text(f"#![tactic(auto)]\n\n{modules}\nfn main(rt: HostRuntime) {{}}\n")
    listed = (TOP / "crates.txt").read_text()
    (copy / "crates.txt").write_text(f"{listed}{PROGRAM}: {' '.join(sorted(used - BUILT_IN))}\n")
    return folder.parent


def tried(found):
    """The crates whose example is wrong, and what `rt try` says; all of them where it says nothing of a single one."""
    with tempfile.TemporaryDirectory() as folder:
        crate = write_program(Path(folder), found)
        ran = subprocess.run(["rt", "try"], cwd=crate, stdin=subprocess.DEVNULL, stdout=subprocess.PIPE,
                             stderr=subprocess.STDOUT, text=True)
    if ran.returncode == 0:
        return set(), ""
    wrong = set(re.findall(r"^src/(\w+)_example\.rt:", ran.stdout, re.M))
    return wrong or set(found), ran.stdout


def names_missing():
    """The files of specs/ that no README names, but those that only list modules."""
    for page in sorted(CRATES.glob("*/README.md")):
        text = page.read_text()
        specs = page.parent / "specs"
        for file in sorted(specs.rglob("*.antt")):
            code = [line for line in file.read_text().splitlines() if line and not line.startswith("--")]
            lists = all(line.startswith(("pub mod ", "mod ", "use ", "pub use ")) for line in code)
            if not lists and f"`{file.relative_to(specs)}`" not in text:
                yield f"{page.relative_to(TOP)}: doesn't name specs/{file.relative_to(specs)}"


def headings(page):
    """The anchors of a page, as its headings give them."""
    found = set()
    for title in re.findall(r"^#+ (.*)$", FENCE.sub("", page.read_text()), re.M):
        title = re.sub(r"\[([^\]]*)\]\([^)]*\)", r"\1", title)
        found.add(re.sub(r"[^\w\- ]", "", title.lower()).strip().replace(" ", "-"))
    return found


def links_lost():
    """The relative links of all pages that lead nowhere."""
    for page in sorted(TOP.rglob("*.md")):
        parts = page.relative_to(TOP).parts
        if ".git" in parts or "out" in parts:
            continue
        for link in LINK.findall(CODE.sub("", page.read_text())):
            if re.match(r"[a-z]+:", link):
                continue
            path, _, anchor = link.partition("#")
            target = (page.parent / path).resolve() if path else page
            if not target.exists():
                yield f"{page.relative_to(TOP)}: no file {link}"
            elif anchor and target.suffix == ".md" and anchor not in headings(target):
                yield f"{page.relative_to(TOP)}: no heading {link}"


def main():
    lost = [*names_missing(), *links_lost()]
    for line in lost:
        print(line)
    if "--names" in sys.argv[1:]:
        sys.exit(bool(lost))
    found = examples()
    wrong, said = tried(found)
    if wrong:
        print(said, end="")
    for name in sorted(wrong):
        print(f"crates/{name}/README.md: its example is wrong")
    print(f"{len(found)} examples, {len(wrong)} wrong")
    sys.exit(bool(lost or wrong))


if __name__ == "__main__":
    main()

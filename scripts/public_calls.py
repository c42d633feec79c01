#!/usr/bin/env python3
"""Lists the public calls of every crate of the product with their conditions and clauses.

    public_calls.py [--bare]

A line is `CRATE CALL | conditions | clauses`: the names of its `requires` and of its `ensures`, `-` for one
without a name. Public calls are the functions that a crate's root hands out: those of its public modules and
those that it uses publicly, with the calls of public types and traits. That a call is safe and returns needs no
clause: the toolchain proves it of every function. With `--bare` only the calls without a clause are listed.
"""
import pathlib
import re
import sys

ROOT = pathlib.Path(__file__).resolve().parent.parent
# How the names of crates outside the product begin.
OUTSIDE = ("trials_", "seatmelon_workloads")
HEAD = re.compile(r"^(\s*)(pub(?:\([a-z]+\))? )?(?:const )?(?:unsafe )?(fn|trait|struct|enum|mod|use|impl)\b(.*)")
CLAUSE = re.compile(r"^\s*(requires|ensures)(?:\*)?(?: ([a-z_]+))? \{")


def crates():
    for line in (ROOT / "crates.txt").read_text().splitlines():
        name = line.split("#")[0].split(":")[0].strip()
        if name and not name.startswith(OUTSIDE):
            yield name


def handed_out(source):
    """The modules and the names that a root hands out."""
    modules = set(re.findall(r"^pub mod (\w+);", source, re.M))
    names = set()
    for path in re.findall(r"^pub use ([^;]+);", source, re.M):
        group = re.search(r"\{([^}]*)\}", path)
        last = group.group(1) if group else path.split("::")[-1]
        names.update(word.strip() for word in last.split(",") if word.strip())
    return modules, names


def owner_of(rest):
    """The type of an `impl`, and the trait if there is one."""
    rest = re.sub(r"^<(?:[^<>]|<[^<>]*>)*>", "", rest.strip())
    rest = rest.split(" where ")[0].rstrip("{ ")
    if " for " in rest:
        of, to = rest.split(" for ", 1)
        return re.match(r"\s*&?(?:mut )?([A-Za-z_]\w*)", to.strip()).group(1), of.strip()
    return re.match(r"\s*([A-Za-z_]\w*)", rest).group(1), None


def calls_of(path, is_root, names, is_public_module):
    """Each public call of a file: its name, conditions and clauses."""
    owner = None
    found = []
    current = None
    for line in path.read_text().splitlines():
        head = HEAD.match(line)
        if head:
            indent, public, word, rest = head.groups()
            if word == "impl" and not indent:
                name, trait = owner_of(rest)
                owner = ("impl", name, trait)
            elif word == "trait" and not indent:
                name = re.match(r"\s*(\w+)", rest).group(1)
                owner = ("trait", name, None)
            elif word == "fn":
                name = re.match(r"\s*(\w+)", rest).group(1)
                current = None
                is_plain_pub = (public or "").strip() == "pub"
                if not indent:
                    owner = None
                    if is_plain_pub and (is_public_module or is_root or name in names):
                        current = (name, [], [])
                elif owner and owner[0] == "trait":
                    if is_public_module or is_root or owner[1] in names:
                        current = (f"{owner[1]}::{name}", [], [])
                elif owner and is_plain_pub and owner[2] is None:
                    if is_public_module or is_root or owner[1] in names:
                        current = (f"{owner[1]}::{name}", [], [])
                if current:
                    found.append(current)
        elif line.startswith("}"):
            owner = None
        clause = CLAUSE.match(line)
        if clause and current:
            kind, name = clause.groups()
            current[1 if kind == "requires" else 2].append(name or "-")
    return found


def main():
    bare = "--bare" in sys.argv[1:]
    total = with_clause = 0
    for crate in crates():
        folder = ROOT / "crates" / crate / "src"
        root = folder / "lib.rt" if (folder / "lib.rt").exists() else folder / "main.rt"
        modules, names = handed_out(root.read_text())
        for path in sorted(folder.rglob("*.rt")):
            if path.stem.endswith("tests") or path.stem in ("cases", "verdict_rows"):
                continue
            for name, requires, ensures in calls_of(path, path == root, names, path.stem in modules):
                total += 1
                with_clause += bool(ensures)
                if bare and ensures:
                    continue
                print(f"{crate} {name} | {' '.join(requires) or 'none'} | {' '.join(ensures) or 'none'}")
    print(f"{total} public calls, {with_clause} with a clause", file=sys.stderr)


if __name__ == "__main__":
    main()

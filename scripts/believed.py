#!/usr/bin/env python3
"""Counts the definitions that a reader of a contract has to believe.

    believed.py [--list] NAME...

A NAME is a public call, as `rasta_check::check`, one clause of it, as `rasta_check::check.headline`, or a definition,
as `rasta_check::Headline`. It prints how many definitions of this repository the contract (or the definition) cites,
directly or through others, with their lines, by crate. Lines are those of definitions, without imports, comments and
blank lines; what stands between brackets is one line, and one of more than 120 characters counts as the lines of 120
that it fills, so that it doesn't matter where lines are broken. A type that the code declares counts with the lines of
its declaration, and a type with a model with those of the model, but without its inverse, which is proved to undo the
view. What the toolchain defines isn't counted. `--list` names each.

Names are found by the text: a variable that has the name of an imported definition counts as that definition, so the
figures are rather too high than too low.
"""
import argparse
import re
import sys
from collections import defaultdict, namedtuple
from pathlib import Path

CRATES = Path(__file__).resolve().parent.parent / "crates"
# How the names of crates begin whose definitions don't count: those of the program `seatmelon`, and of trials.
OUTSIDE = ("seatmelon", "trials_")
WIDTH = 120
Definition = namedtuple("Definition", "crate file name text lines")

HEAD = re.compile(r"^(?:(?:abbrev|unfoldable|opaque|pub|infix[lr]? \d+)\s+)*(?:(?:record|data)\s+)?(\S+)(.*)")
MARKED = re.compile(r"^(?:abbrev|unfoldable|opaque|pub|record|data)\b")
IMPORT = re.compile(r"use Rattle\.(\w+)\.specs\.([\w.]+?)(?:\.\{([^}]*)\}| as (\w+))?;?$")
TOKEN = re.compile(r"(?<![\w.◌-])[^\s(){}\[\],;:.λ→×⊎∀≡]+(?:\.[^\s(){}\[\],;:.]+)?")
TYPE = re.compile(r"^(?:pub(?:\([a-z]+\))? )?(?:enum|struct) (\w+)")


def joined(lines):
    """The lines, with what stands between brackets in one."""
    depth, before = 0, ""
    for line in lines:
        before = f"{before} {line.strip()}" if before else line
        depth += sum(line.count(it) for it in "([{") - sum(line.count(it) for it in ")]}")
        if depth <= 0:
            yield before
            depth, before = 0, ""
    if before:
        yield before


def lines_in(lines):
    """How many lines of at most 120 characters these fill."""
    return sum(max(1, -(-len(it) // WIDTH)) for it in joined(lines))


def without_comments(text, mark):
    return [line for line in text.splitlines() if line.strip() and not line.strip().startswith(mark)]


class Room:
    """A file of definitions: what it defines, and what it imports under which name."""

    def __init__(self, crate, module, path):
        self.crate, self.module, self.imports, self.blocks = crate, module, {}, {}
        current = None
        for line in without_comments(path.read_text(), "--"):
            imported = IMPORT.match(line.removeprefix("pub "))
            if line.startswith(("use ", "pub use ")):
                if imported:
                    self.take(imported)
                continue
            if line[0].isspace():
                if current:
                    self.blocks[current].append(line)
                continue
            if line.startswith("infix"):
                continue
            name = HEAD.match(line).group(1)
            if MARKED.match(line) or (name != current and name not in self.blocks and re.match(r"\s*(\(.*\) )?:", HEAD.match(line).group(2))):
                current = name
                self.blocks.setdefault(current, [])
            if current:
                self.blocks[current].append(line)

    def take(self, imported):
        crate, module, names, alias = imported.groups()
        if names is None:
            self.imports[alias or module.split(".")[-1]] = (crate, module, None)
            return
        for word in filter(None, (it.strip() for it in names.split(","))):
            name, _, other = word.partition(" as ")
            self.imports[other or name] = (crate, module, name)


class Library:
    def __init__(self):
        self.rooms, self.types, self.models = {}, {}, {}
        for crate in sorted(it.name for it in CRATES.iterdir()):
            for path in sorted((CRATES / crate / "specs").rglob("*.antt")):
                module = ".".join(path.relative_to(CRATES / crate / "specs").with_suffix("").parts)
                self.rooms[crate, module] = Room(crate, module, path)
            for path in sorted((CRATES / crate / "src").rglob("*.rt")):
                self.add_types(crate, path)

    def add_types(self, crate, path):
        lines = without_comments(path.read_text(), "//")
        for at, line in enumerate(lines):
            declared, model = TYPE.match(line), re.match(r"^impl(?:<[^>]*>)? Model for (\w+)", line)
            if declared or model:
                end = at
                while not line.endswith(";") and lines[end] != "}" and end + 1 < len(lines):
                    end += 1
                table = self.types if declared else self.models
                table[crate, (declared or model).group(1)] = (path, lines[at : end + 1])

    def resolve(self, token, crate, imports, blocks, module):
        """The keys of the definitions that a token names."""
        first, _, rest = token.partition(".")
        if first in imports:
            at, inside, name = imports[first]
            if name is None:
                name, rest = rest, ""
            if inside.startswith("declared"):
                return [("type", at, inside.split(".")[2])]
            return [("spec", at, inside, name)]
        if first in blocks:
            return [("spec", crate, module, first)]
        return []

    def cited(self, text, room, bound=()):
        mixfix = {it: it.replace("◌", "") for it in [*room.imports, *room.blocks] if "◌" in it}
        found = []
        for token in TOKEN.findall(text):
            if token.split(".")[0] not in bound:
                found += self.resolve(token, room.crate, room.imports, room.blocks, room.module)
        for name, sign in mixfix.items():
            if sign in text:
                found += self.resolve(name, room.crate, room.imports, room.blocks, room.module)
        return found

    def kinds_in(self, text):
        """The types that a declaration or a signature mentions: the model of each that has one, else its declaration."""
        words = set(re.findall(r"\w+", text))
        models = [("model", *it) for it in self.models if it[1] in words and not it[0].startswith(OUTSIDE)]
        seen = {it[2] for it in models}
        types = [("type", *it) for it in self.types if it[1] in words - seen and not it[0].startswith(OUTSIDE)]
        return models + types

    def definition(self, key):
        """A definition and the keys that it cites; none for what is not of this repository."""
        if key[0] == "type":
            _, crate, name = key
            if (crate, name) not in self.types:
                return None
            path, lines = self.types[crate, name]
            text = "\n".join(lines)
            return Definition(crate, path, name, text, lines_in(lines)), [it for it in self.kinds_in(text) if it != key]
        if key[0] == "model":
            _, crate, name = key
            path, lines = self.models[crate, name]
            room = source_room(crate, path, "\n".join(lines))
            body = [it for it in without_inverse(lines) if not it.strip().startswith("ghost use")]
            return Definition(crate, path, f"model of {name}", "\n".join(body), lines_in(body)), self.cited("\n".join(body), room)
        _, crate, module, name = key
        room = self.rooms.get((crate, module))
        if room and name not in room.blocks and name in room.imports:  # a name that the file hands on
            at, inside, original = room.imports[name]
            return self.definition(("spec", at, inside, original or name)) if not inside.startswith("declared") else None
        if not room or name not in room.blocks:
            return None
        found = []
        lines = room.blocks[name]
        for line in equations(lines, name):
            head = line.split("=", 1)[0] if line.startswith(name + " ") and " : " not in line.split("=", 1)[0] else ""
            bound = {it for it in re.findall(r"[^\s(){}]+", head[len(name) :]) if it[0].islower()}
            found += self.cited(line, room, bound)
        return Definition(crate, module, name, "\n".join(lines), lines_in(lines)), [it for it in found if it != key]


def without_inverse(lines):
    """A model's lines but those of its inverse."""
    kept, left_out = [], False
    for line in lines:
        left_out = left_out or line.strip().startswith(("ghost inverse =", "ghost inverse_ok ="))
        if not left_out:
            kept.append(line)
        left_out = left_out and not line.rstrip().endswith("};")
    return kept


def equations(lines, name):
    """The lines of a definition, each equation with the lines that continue it."""
    whole = []
    for line in lines:
        if whole and line[0].isspace():
            whole[-1] += "\n" + line
        else:
            whole.append(line)
    return whole


def source_room(crate, path, more=""):
    """The imports of a source file, with those of a part of it."""
    room = Room.__new__(Room)
    room.crate, room.module, room.imports, room.blocks = crate, "", {}, {}
    for line in (path.read_text().split("\nimpl", 1)[0] + "\n" + more).splitlines():
        imported = IMPORT.match(line.strip().removeprefix("ghost "))
        if imported and line.strip().startswith("ghost use"):
            room.take(imported)
    return room


def contract(library, crate, call, clause):
    """What the clauses of a call cite, and the models of the types that it mentions."""
    owner, _, name = call.rpartition("::")
    for path in sorted((CRATES / crate / "src").rglob("*.rt")):
        lines, of, begun = without_comments(path.read_text(), "//"), "", 0
        for at, line in enumerate(lines):
            impl = re.match(r"^impl(?:<[^>]*>)? (?:\w+ for )?(\w+)", line)
            if impl or line == "}":
                of, begun = impl.group(1) if impl else "", at
            if not re.match(rf"\s*pub (?:const )?fn {name}\b", line) or of != owner:
                continue
            end = at
            while lines[end].strip() != "{":
                end += 1
            text = "\n".join(lines[at:end])
            room = source_room(crate, path, "\n".join(lines[begun:at]))
            if clause:
                parts = re.split(r"\n\s*(?=requires|ensures)", text)
                chosen = [it for it in parts if re.match(rf"ensures {clause} ", it)]
                return library.cited("\n".join(chosen), room) if chosen else None
            signature = re.split(r"\n\s*(?:requires|ensures)", text)[0]
            return library.cited(text, room) + library.kinds_in(signature)
    return None


def closure(library, keys):
    found, waiting = {}, list(keys)
    while waiting:
        key = waiting.pop()
        if key not in found:
            told = library.definition(key)
            found[key] = told and told[0]
            waiting += told[1] if told else []
    return list({(it.crate, it.file, it.name): it for it in found.values() if it}.values())


def keys_of(library, asked):
    crate, _, rest = asked.partition("::")
    for (at, module), room in library.rooms.items():
        if at == crate and rest in room.blocks:
            return [("spec", crate, module, rest)]
    call, _, clause = rest.partition(".")
    keys = contract(library, crate, call, clause)
    if keys is None:
        sys.exit(f"{asked}: no such definition, call or clause")
    return keys


def main():
    asked = argparse.ArgumentParser(description="Counts the definitions that a reader of a contract has to believe.")
    asked.add_argument("--list", action="store_true", help="name each definition")
    asked.add_argument("names", nargs="+", metavar="NAME")
    words = asked.parse_args()
    library = Library()
    for name in words.names:
        found = closure(library, keys_of(library, name))
        by_crate = defaultdict(list)
        for it in found:
            by_crate[it.crate].append(it)
        print(f"{name}: {len(found)} definitions, {sum(it.lines for it in found)} lines")
        for crate, its in sorted(by_crate.items()):
            print(f"  {crate}: {len(its)} definitions, {sum(it.lines for it in its)} lines")
            if words.list:
                for it in sorted(its, key=lambda it: it.name):
                    print(f"    {it.name} {it.lines}")


if __name__ == "__main__":
    main()

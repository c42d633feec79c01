#!/usr/bin/env python3
"""Writes answers at the goals at which must-fail edits are refused, so that the gate takes less time.

    answer_refusals.py CRATE

Where a goal has no answer, the check of an edit tries all its tactics before it refuses, and then works out what to
write for the goal. The script finds these goals by applying many edits of the crate at once, one for each function, in
a few checks, and those that such a check says nothing of one by one. It writes an answer for each goal, in
`proofs/.../Answers.antt`, that one call of a tactic proves in the code as it stands. Run it at the top of a clone in
which `rt check` passed in CRATE's folder. Its last line counts the goals, and those that have an answer now. Plain
Python 3, no other packages.
"""
import importlib.machinery
import importlib.util
import os
import re
import shutil
import subprocess
import sys
import tempfile
from collections import defaultdict, namedtuple
from pathlib import Path

sys.dont_write_bytecode = True

COMMON, STEPS = "Rattle.std.proofs.Common", "Rattle.std.proofs.lemmas.Grind"
# What is tried: a term, the definitions that it unfolds, and the names that it needs, by module.
Term = namedtuple("Term", "text unfolding names")
# What a function's attribute names: definitions that are unfolded, and lemmas.
Attribute = namedtuple("Attribute", "unfolding using")
# Where a check says what to write: a file, and lines of it; and where an answer is wrong.
OFFER = re.compile(r"^help: (?:write|add to|change) (?:\./)?(proofs/\S+/Answers\.antt)", re.M)
GOAL = re.compile(r"^    pub (\S+) : goal\.\1\n    \1((?: \S+)*) = \?", re.M)
GOALS = re.compile(r"^    (use \S+\.Goals as goal)$", re.M)
WRONG = re.compile(r"^(?:\./)?(proofs/\S+/Answers\.antt):(\d+):\d+: error", re.M)
NOTE = re.compile(r"^note: (src/\S+?):(\d+):\d+:", re.M)
TACTIC = re.compile(r"#\[tactic\(auto(.*?)\)\]\n((?:\s*#\[[^\n]*\n)*)([^\n]*)", re.S)
FUNCTION = re.compile(r"\s*(?:pub(?:\([a-z]+\))? )?(?:const )?(?:unsafe )?fn (\w+)")

# An edit: its name, what it turns as files, old and new lines, and the functions in which it does so.
Edit = namedtuple("Edit", "name turns functions")


def load_gate():
    path = os.path.realpath(shutil.which("rt"))
    loader = importlib.machinery.SourceFileLoader("gate", path)
    module = importlib.util.module_from_spec(importlib.util.spec_from_loader("gate", loader))
    loader.exec_module(module)
    return module


def function_at(text, line):
    """The line, from 0, of the head of the function in which a line of a text stands; the line itself outside of one."""
    lines = text.split("\n")
    return next((at for at in range(line, -1, -1) if FUNCTION.match(lines[at])), line)


class Tried:
    """The edits of a crate, and the checks that try them."""

    def __init__(self, gate, crate):
        self.gate, self.crate, self.folder = gate, crate, Path(crate.folder)
        self.said = []

    def text(self, file):
        return (self.folder / file).read_text(encoding="utf-8")

    def edit(self, path):
        turns, file, old = [], None, None
        for line in Path(path).read_text(encoding="utf-8").split("\n"):
            head, _, rest = line.partition(": ")
            if head == "file":
                file = rest.strip()
            elif head == "old":
                old = rest
            elif line.startswith("new:"):
                turns.append((file, old, rest))
        functions = {(file, function_at(self.text(file), self.text(file).split(old)[0].count("\n"))) for file, old, _ in turns}
        return Edit(Path(path).stem, turns, functions)

    def edits(self):
        found = [self.edit(it) for it in sorted((self.folder / "must-fail").glob("*.edit"))]
        # An edit of a statement is refused wherever it is used.
        return [it for it in found if all(file.startswith("src/") for file, _, _ in it.turns)]

    def check(self, edits):
        """What a check says with these edits, and their functions whose own goals it names."""
        texts = {}
        for edit in edits:
            for file, old, new in edit.turns:
                texts[file] = texts.get(file, self.text(file)).replace(old, new)
        with tempfile.TemporaryDirectory() as room:
            self.gate.linked(f"{self.folder}/out/incremental", f"{room}/seed")
            said = self.gate.checked(self.crate, texts, ["--jobs", "1", "--progress"], f"{room}/seed").stdout
        self.said.append(said)
        found = {(file, function_at(texts.get(file) or self.text(file), int(line) - 1)) for file, line in NOTE.findall(said)}
        named = {file.split("/")[-2] for file, _ in WRONG.findall(said)}
        heads = {it: FUNCTION.match(self.text(it[0]).split("\n")[it[1]]) for edit in edits for it in edit.functions}
        return found | {it for it, head in heads.items() if head and head[1] in named}

    def run(self):
        """Tries all edits: many in one check, as long as that says something of one of them, then each alone."""
        left = self.edits()
        while True:
            batch, used = [], set()
            for edit in left:
                if not edit.functions & used:
                    batch.append(edit)
                    used |= edit.functions
            found = self.check(batch) if batch else set()
            done = {it.name for it in batch if it.functions & found}
            print(f"{len(batch)} edits in one check: goals of {len(done)}", flush=True)
            left = [it for it in left if it.name not in done]
            if not done:
                break
        for edit in left:
            self.check([edit])


def offered(said):
    """The goals that stayed open, by file: the arguments of each, and the file's line for its goals."""
    goals, heads = defaultdict(dict), {}
    for text in said:
        found = list(OFFER.finditer(text))
        for here, after in zip(found, [*found[1:], None]):
            part = text[here.end() : after.start() if after else len(text)]
            head = GOALS.search(part)
            if head:
                heads[here[1]] = head[1]
            goals[here[1]].update(GOAL.findall(part))
    return goals, heads


def attributes(crate):
    """What the attributes of a crate's functions name, by the module and the name of the function."""
    found = {}
    for path in sorted(Path(crate.folder).glob("src/**/*.rt")):
        text = path.read_text(encoding="utf-8")
        module = str(path.relative_to(Path(crate.folder) / "src").with_suffix(""))
        for said, _, head in TACTIC.findall(text):
            name = FUNCTION.match(head)
            if name:
                parts = [re.search(rf"{word}\((.*?)\)", said + ")") for word in ("unfolding", "using")]
                found[module, name[1]] = Attribute(*([it.strip() for it in part[1].split(",")] if part else [] for part in parts))
    return found


def imported(crate, paths):
    """The names of paths of a crate, by their modules in the prover."""
    names = defaultdict(list)
    for path in paths:
        first, *inner, name = path.split("::")
        names[".".join(["Rattle", crate.name if first == "crate" else first, *inner])].append(name)
    return names


def terms(crate, given, file):
    """What is tried for the goals of a function, in turn."""
    module, name = file[len("proofs/") :].split("/")[:-2], file.split("/")[-2]
    its = next((given[at] for end in range(len(module), 0, -1) if (at := ("/".join(module[:end]), name)) in given), Attribute([], []))
    unfolded, lemmas = imported(crate, its.unfolding), imported(crate, its.using)
    definitions, named = ([it for its in names.values() for it in its] for names in (unfolded, lemmas))
    grind = f"grind ({', '.join(['arith', 'common_steps', *named])})"
    steps = {COMMON: ["arith"], STEPS: ["common_steps"], **lemmas}
    tried = [Term("search rules", [], {COMMON: ["rules"]}), Term("grind (arith, common_steps)", [], {COMMON: ["arith"], STEPS: ["common_steps"]})]
    if named:
        tried.append(Term(grind, [], steps))
    if definitions:
        tried.append(Term("search rules", definitions, {COMMON: ["rules"], **unfolded}))
        tried.append(Term(grind, definitions, {**steps, **unfolded}))
    return tried


def with_imports(text, names):
    """The text of a file with these names of a module imported, each once."""
    for module, words in names.items():
        line = re.search(rf"^use {re.escape(module)}\.\{{([^}}]*)\}}$", text, re.M)
        have = [it.strip() for it in line[1].split(",")] if line else []
        new = f"use {module}.{{{', '.join([*[it for it in words if it not in have], *have])}}}"
        text = text.replace(line[0], new) if line else f"{new}\n{text}"
    return text


def with_answers(text, head, answers):
    """The text of a function's answers with these more: a goal, its arguments and the term."""
    if " as goal" not in text:
        text += f"{head}\n"
    names = defaultdict(list)
    for _, _, term in answers:
        for module, words in term.names.items():
            names[module] += [it for it in words if it not in names[module]]
    for goal, given, term in answers:
        unfolding = f"unfolding {' '.join(term.unfolding)}\n" if term.unfolding else ""
        text += f"\npub {goal} : goal.{goal}\n{unfolding}{goal}{given} = {term.text}\n"
    return with_imports(text, names)


class Answers:
    """The answers of a crate's goals, and the check that judges them."""

    def __init__(self, folder, goals, heads):
        self.folder, self.goals, self.heads = folder, goals, heads
        self.before = {it: (folder / it).read_text(encoding="utf-8") if (folder / it).exists() else "" for it in goals}

    def missing(self):
        return {(file, goal) for file, its in self.goals.items() for goal in its
            if file in self.heads and f"pub {goal} :" not in self.before[file]}

    def write(self, answers):
        for file, text in self.before.items():
            its = [(goal, self.goals[file][goal], term) for (at, goal), term in sorted(answers.items()) if at == file]
            if its:
                (self.folder / file).parent.mkdir(parents=True, exist_ok=True)
                (self.folder / file).write_text(with_answers(text, self.heads[file], its), encoding="utf-8")
            elif text:
                (self.folder / file).write_text(text, encoding="utf-8")
            else:
                (self.folder / file).unlink(missing_ok=True)

    def wrong(self):
        """The goals whose answers a check refuses; it ends where the check fails for another reason."""
        ran = subprocess.run(["rt", "check"], cwd=self.folder, stdin=subprocess.DEVNULL, stdout=subprocess.PIPE,
            stderr=subprocess.STDOUT, text=True, check=False)
        found = set()
        for file, line in WRONG.findall(ran.stdout):
            lines = (self.folder / file).read_text(encoding="utf-8").split("\n")[: int(line)]
            found.add((file, next(it.split(" ")[1] for it in reversed(lines) if it.startswith("pub "))))
        if ran.returncode and not found:
            sys.exit(ran.stdout)
        return found


def main():
    if len(sys.argv) != 2:
        sys.exit(__doc__)
    gate = load_gate()
    gate.rtlib.guarded()
    gate.Crate.cuts_libraries = True
    crate = next(it for it in gate.crates_of(os.getcwd()) if it.name == sys.argv[1])
    tried = Tried(gate, crate)
    tried.run()
    answers = Answers(tried.folder, *offered(tried.said))
    left, kept = answers.missing(), {}
    count = len(left)
    given = attributes(crate)
    tried_terms = {it: terms(crate, given, it[0]) for it in left}
    for turn in range(max(map(len, tried_terms.values()), default=0)):
        now = {it: tried_terms[it][turn] for it in left if turn < len(tried_terms[it])}
        answers.write({**kept, **now})
        wrong = answers.wrong() if now else set()
        proved = {it: term for it, term in now.items() if it not in wrong}
        kept.update(proved)
        left -= set(proved)
    answers.write(kept)
    answers.wrong()
    for file, goal in sorted(left):
        print(f"no answer: {file} {goal}")
    print(f"{crate.name}: {count} goals, {len(kept)} answered")


if __name__ == "__main__":
    main()

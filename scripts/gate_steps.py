#!/usr/bin/env python3
"""Takes the steps of the gate one by one and keeps what passed, with a toolchain whose `rt ci` keeps nothing.

    scripts/gate_steps.py [--lanes N] [--only STEP] [NAME..]

The steps of a crate are its `proof`, from nothing, with its library, or with its program, which is run; its `tests`,
which are proved and run; and its `edits`, each of which the prover has to refuse. All are those of `rt ci`, and are
taken for the crates that are named, and the proofs also for those below them; for all crates, if none is named.
`--only` takes steps of one kind alone, with the proofs that they need. What passed is noted in the crate's out/, with a
sum of all that was read, and isn't done again until that changes; what was said stands there too, in proof.txt,
tests.txt and edits.txt. So a crate can be mended while the others go on, and `rt check` in its folder finds the
libraries below it built. Steps run side by side, in as many lanes as there are processors, the longest chain of crates
first. Prints a line for each step; the last one names those that didn't pass, and the status is 1 then.

Only `rt ci` is a verdict. Tests and edits keep what was checked between runs, which it doesn't.
Plain Python 3, no other packages.
"""
import argparse
import copy
import hashlib
import importlib.machinery
import importlib.util
import os
import re
import shutil
import sys
import threading
import time
from concurrent.futures import FIRST_COMPLETED, ThreadPoolExecutor, wait

sys.dont_write_bytecode = True
STEPS = ("proof", "tests", "edits")
KEPT = "out/incremental"


def load_gate():
    path = os.path.realpath(shutil.which("rt"))
    loader = importlib.machinery.SourceFileLoader("gate", path)
    module = importlib.util.module_from_spec(importlib.util.spec_from_loader("gate", loader))
    sys.modules["gate"] = module
    loader.exec_module(module)
    if hasattr(module, "Kept"):
        sys.exit("this toolchain keeps what passed: run rt ci NAME..")
    # Tests are checked over what was kept of them, and say so in their last line.
    words = module.rtlib.VERDICT.pattern.replace(r"\n\Z", r"(?: incremental=trusted)?\n\Z")
    module.rtlib.VERDICT = re.compile(words, re.M)
    return module


class Steps:
    def __init__(self, gate, root):
        self.gate, self.lib = gate, gate.rtlib
        self.lib.stop, self.lib.Crate = gate.stop, gate.Crate
        gate.Crate.cuts_libraries = True
        gate.Crate.allowed = gate.handles_of(root)
        # Its first call sets a signal's handler, which only the main thread may.
        self.lib.guarded()
        self.crates = sorted(self.lib.crates_below(root), key=lambda it: len(it.below()))
        self.printing, self.done, self.sums = threading.Lock(), {}, {}
        for crate in self.crates:
            self.sums[crate.name] = self.sum_of(crate)

    def say(self, text):
        with self.printing:
            print(time.strftime("%H:%M:%S"), text, flush=True)

    def sum_of(self, crate):
        """A sum of all that a check of the crate reads."""
        sums = [self.sums[it.name] for it in crate.deps]
        with open(f"{self.gate.KIT}/KIT-ID", "rb") as kit:
            read = hashlib.sha256(kit.read() + repr((crate.said, sums)).encode())
        for part in self.lib.PARTS:
            for at, folders, names in os.walk(f"{crate.folder}/{part}"):
                folders.sort()
                for name in sorted(names):
                    with open(f"{at}/{name}", "rb") as file:
                        read.update(repr((at[len(crate.folder) :], name, file.read())).encode())
        return read.hexdigest()

    def has_passed(self, crate, step):
        try:
            with open(f"{crate.folder}/out/{step}.passed", encoding="ascii") as note:
                return note.read() == self.sums[crate.name]
        except OSError:
            return False

    def note(self, crate, step):
        with open(f"{crate.folder}/out/{step}.passed", "w", encoding="ascii") as note:
            note.write(self.sums[crate.name])

    def stamp(self, crate):
        """Marks a library as built, for `rt check` in the crates above it."""
        if not crate.is_program:
            with open(f"{crate.folder}/out/rlib/stamp", "w", encoding="utf-8") as stamp:
                stamp.write(crate.stamp())

    def proof(self, crate, flags):
        status = crate.ci(flags, False)
        if not status:
            self.stamp(crate)
        return not status

    def tests(self, crate, flags):
        made = f"out/{crate.name}_tests"
        words = [*crate.words(flags, tests=True, keeps=False), "--incremental", f"{KEPT}_tests"]
        words += ["--toolchain", f"{self.gate.KIT}/toolchain", "--backend", "llvm", "-o", f"{made}.o"]
        return not (crate.prove(["build", *words]) or crate.link(f"{made}.o", made))

    def runs(self, crate, tests):
        """Whether the program, or the tests, were built and pass."""
        name = f"{crate.name}{'_tests' if tests else ''}"
        ends = [it for it in self.gate.BACKENDS.values() if os.path.isfile(f"{crate.folder}/out/{name}{it}")]
        with self.printing:
            return all(self.gate.run(crate, tests, it) for it in ends)

    def edits(self, crate, flags):
        """Tries the edits that weren't refused yet; what is refused is noted one by one."""
        edits, bad = self.gate.edits_of(crate)
        tried, well = f"{crate.folder}/out/refused", not bad
        os.makedirs(tried, exist_ok=True)
        for edit in edits:
            with open(edit, "rb") as file:
                sum_ = hashlib.sha256(self.sums[crate.name].encode() + file.read()).hexdigest()
            if os.path.exists(f"{tried}/{sum_}"):
                continue
            refused, text = self.gate.must_fail(crate, edit, flags, f"{crate.folder}/{KEPT}")
            print(text, file=crate.out, flush=True)
            if refused:
                open(f"{tried}/{sum_}", "w").close()
            else:
                self.say(text)
            well = well and refused
        return well

    def take(self, crate, step, jobs):
        """Takes a step, once those that it waits for are through, and answers whether it passed."""
        begun, crate = time.time(), copy.copy(crate)
        needed = [*crate.below(), *([crate] if step == "edits" else [])]
        if not all(self.done.get((it.name, "proof")) for it in needed):
            return False
        os.makedirs(f"{crate.folder}/out", exist_ok=True)
        with open(f"{crate.folder}/out/{step}.txt", "w+", errors="replace") as crate.out:
            try:
                well = getattr(self, step)(crate, ["--jobs", str(jobs)])
                if well and (step == "tests" or step == "proof" and crate.is_program):
                    well = self.runs(crate, step == "tests")
            except SystemExit:
                well = False
        self.say(f"{'passed' if well else 'FAILED'} {step} {crate.name}, {time.time() - begun:.0f} s")
        # What was changed meanwhile is looked at again.
        if well and self.sum_of(crate) == self.sums[crate.name]:
            self.note(crate, step)
        return well

    def wanted(self, names, only):
        """The steps that are asked for and haven't passed, with those that each waits for."""
        named = [it for it in self.crates if not names or it.name in names]
        below = {it.name for crate in named for it in [crate, *crate.below()]}
        steps = {}
        for crate in self.crates:
            has_edits = bool(self.gate.edits_of(crate)[0])
            has = {"proof": crate.name in below, "tests": crate.has_tests(), "edits": has_edits}
            for step in STEPS:
                is_asked = crate in named and only in (None, step) or step == "proof"
                if not has[step] or not is_asked:
                    continue
                if step != "edits" and self.has_passed(crate, step):
                    self.done[crate.name, step] = True
                    continue
                waits = [(it.name, "proof") for it in crate.below()]
                steps[crate.name, step] = crate, [*waits, *([(crate.name, "proof")] if step == "edits" else [])]
        return steps

    def order(self, steps):
        """Proofs first, then tests, then edits; of each the longest chain of lines above them first."""
        behind = {it: 0 for it in steps}
        for key in reversed(steps):
            crate, waits = steps[key]
            behind[key] += crate.count(rb"\n") if key[1] == "proof" else 0
            for it in waits:
                behind[it] = max(behind.get(it, 0), behind[key])
        return sorted(steps, key=lambda it: (STEPS.index(it[1]), -behind[it]))

    def run(self, steps, lanes):
        left, running = self.order(steps), {}
        with ThreadPoolExecutor(lanes) as pool:
            while left or running:
                ready = [it for it in left if all(below in self.done for below in steps[it][1])]
                for key in ready[: lanes - len(running)]:
                    left.remove(key)
                    alone = key[1] == "proof" and len(ready) == 1
                    running[pool.submit(self.take, steps[key][0], key[1], 2 if alone else 1)] = key
                for it in wait(running, return_when=FIRST_COMPLETED).done:
                    self.done[running.pop(it)] = it.result()
        return [it for it in steps if not self.done[it]]


def main():
    asked = argparse.ArgumentParser(description="takes the steps of the gate one by one")
    asked.add_argument("--lanes", type=int, default=len(os.sched_getaffinity(0)))
    asked.add_argument("--only", choices=STEPS)
    asked.add_argument("names", nargs="*", metavar="NAME")
    given = asked.parse_args()
    steps = Steps(load_gate(), os.getcwd())
    wanted = steps.wanted(given.names, given.only)
    failed = steps.run(wanted, given.lanes)
    names = " ".join(f"{step} of {name}" for name, step in failed)
    steps.say(f"{len(wanted) - len(failed)} passed, {len(failed)} failed{': ' if names else ''}{names}")
    return 1 if failed else 0


if __name__ == "__main__":
    sys.exit(main())

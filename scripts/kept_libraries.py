#!/usr/bin/env python3
"""Gives a clone the libraries that the gate has proved and kept on this machine, so that single crates can be checked
in it at once.

    kept_libraries.py CLONE [NAME..]

For each crate that is named, with those below it (all crates, if none is), it takes the library that was kept for the
same files over the same libraries, and marks it as built. It prints which were there, and which weren't: these are to
be checked in the clone, `rt check` and then `rt lib`, from the lowest on. Plain Python 3, no other packages.
"""
import importlib.machinery
import importlib.util
import os
import shutil
import sys

sys.dont_write_bytecode = True


def load_gate():
    path = os.path.realpath(shutil.which("rt"))
    loader = importlib.machinery.SourceFileLoader("gate", path)
    module = importlib.util.module_from_spec(importlib.util.spec_from_loader("gate", loader))
    sys.modules["gate"] = module
    loader.exec_module(module)
    return module


class Clone:
    def __init__(self, gate, root):
        gate.rtlib.Crate.allowed = gate.handles_of(root)
        self.crates = gate.crates_of(root)
        self.kept = gate.Kept(self.crates)
        self.given, self.missing, self.done = [], [], set()

    def take(self, crate):
        """Takes the library of a crate, after those below it."""
        if crate.name in self.done:
            return
        self.done.add(crate.name)
        for below in crate.below():
            self.take(below)
        if crate.is_program:
            return
        key, built = self.kept.key(crate), f"{crate.folder}/out/rlib"
        if not os.path.isdir(self.kept.place(crate, False, key)):
            self.missing.append(crate.name)
            if os.path.isdir(built):
                self.kept.is_built(crate)
            return
        shutil.rmtree(built, ignore_errors=True)
        self.kept.give(crate, False, key)
        self.kept.is_built(crate)
        with open(f"{built}/stamp", "w", encoding="utf-8") as stamp:
            stamp.write(crate.stamp())
        self.given.append(crate.name)


def main():
    root, names = os.path.abspath(sys.argv[1]), sys.argv[2:]
    gate = load_gate()
    os.chdir(root)
    clone = Clone(gate, root)
    for crate in clone.crates:
        if not names or crate.name in names:
            clone.take(crate)
    print("kept:", *clone.given)
    print("missing:", *clone.missing)


if __name__ == "__main__":
    main()

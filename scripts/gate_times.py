#!/usr/bin/env python3
"""Runs the gate and writes how long each of its steps took.

    scripts/gate_times.py OUT [must-fail NAME..]
    scripts/gate_times.py --table OUT

Run it at the top of a fresh clone, with nothing beside it. It is `rt ci` (or `rt must-fail NAME..`) with a clock
round each proof, each crate's tests and each must-fail edit: OUT gets a line for each step as it ends (minute of its
start and of its end, seconds, jobs, what it was), and standard output is that of the gate, whose last line is its
verdict. The line of an edit goes on with the seconds of its check's stages, where they take a tenth or more. The last
line of OUT is the minutes of processors that all steps took together. `--table` writes the seconds of each crate in an
OUT as the table that docs/FIGURES.md has.
"""
import importlib.machinery
import importlib.util
import os
import resource
import shutil
import sys
import tempfile
import threading
import time

sys.dont_write_bytecode = True


def load_gate():
    path = os.path.realpath(shutil.which("rt"))
    loader = importlib.machinery.SourceFileLoader("gate", path)
    module = importlib.util.module_from_spec(importlib.util.spec_from_loader("gate", loader))
    loader.exec_module(module)
    return module


def seconds(steps):
    return f"{sum(steps):.0f}" if sum(steps) >= 0.5 else "–"


def row(crate, steps):
    """A crate's row of the table."""
    edits = sorted(steps.get("edit", []))
    tried = f"{sum(edits):.0f} ({len(edits)})" if edits else "–"
    one = ", ".join(f"{edits[at]:.0f}" for at in (0, len(edits) // 2, -1)) if edits else "–"
    cells = [f"`{crate}`", *(seconds(steps.get(it, [])) for it in ("proof", "seed", "tests")), tried, one]
    return "| " + " | ".join(cells) + " |"


def write_table(path):
    crates = {}
    with open(path, encoding="utf-8") as file:
        for line in file:
            parts = line.split()
            if len(parts) < 6 or parts[4] not in ("proof", "seed", "tests", "edit"):
                continue
            crate = crates.setdefault(parts[5].split("/")[0], {})
            crate.setdefault(parts[4], []).append(float(parts[2]))
    print("| Crate | Proof, s | Seed, s | Tests, s | Edits, s (of how many) | One edit: least, middle, most, s |")
    print("|---|---|---|---|---|---|")
    for crate, steps in crates.items():
        print(row(crate, steps))


def main():
    if sys.argv[1] == "--table":
        return write_table(sys.argv[2])
    gate, started, lock = load_gate(), time.time(), threading.Lock()
    stages = threading.local()
    out = open(sys.argv[1], "w", encoding="utf-8")

    def told(begun, jobs, what):
        now = time.time()
        with lock:
            line = f"{(begun - started) / 60:6.1f} {(now - started) / 60:6.1f} {now - begun:7.1f} {jobs} {what}"
            print(line, file=out, flush=True)

    def timed(call, name):
        def run(given, jobs):
            begun = time.time()
            try:
                return call(given, jobs)
            finally:
                told(begun, jobs, f"{name[1]} {name[0]}")

        return run

    in_lanes, must_fail, checked, run_program = gate.in_lanes, gate.must_fail, gate.checked, gate.run

    def lanes(tasks):
        return in_lanes({key: (*it[:3], timed(it[3], key)) for key, it in tasks.items()})

    def with_stages(crate, texts, flags, *others):
        with tempfile.NamedTemporaryFile("r", encoding="utf-8") as file:
            try:
                return checked(crate, texts, [*flags, "--stage-times", file.name], *others)
            finally:
                found = [line.split() for line in file if line.startswith("stage ")]
                stages.told = "".join(f" {name} {float(took):.1f}" for _, name, took, _ in found if float(took) >= 0.1)

    def edit(crate, file, *others):
        begun = time.time()
        try:
            return must_fail(crate, file, *others)
        finally:
            told(begun, 1, f"edit {crate.name}/{os.path.basename(file)}{getattr(stages, 'told', '')}")

    def program(crate, tests, ending=""):
        begun = time.time()
        try:
            return run_program(crate, tests, ending)
        finally:
            told(begun, 1, f"run {crate.name}{' tests' if tests else ''}{ending}")

    gate.in_lanes, gate.must_fail, gate.checked, gate.run = lanes, edit, with_stages, program
    status = gate.main(sys.argv[2:] or ["ci"])
    used = resource.getrusage(resource.RUSAGE_CHILDREN)
    print(f"{(used.ru_utime + used.ru_stime) / 60:6.1f} minutes of processors", file=out, flush=True)
    return status


if __name__ == "__main__":
    sys.exit(main())

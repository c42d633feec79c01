#!/usr/bin/env python3
"""Runs each command on each sample, and compares what it prints with the stored texts.

    samples.py [--program PATH]

The captures are read from the file and, once more, through a pipe. `show`, `check` and `audit` are compared with the
texts of examples/expected; the certificate that `build` writes is checked, and has to give the text of `audit`. A
sample's own certificate may be another one, but lists the same messages. `rt run` in crates/rasta_audit leaves the
program. Plain Python 3, no other packages.
"""

import argparse
import os
import subprocess
import sys
import tempfile
import threading
from pathlib import Path

import rows

SAMPLES = Path(__file__).resolve().parent.parent / "examples"


def run(program, command, capture, parameters, *more):
    """What a command prints, and its status, from the file; the same through a pipe, or an error."""
    words = [program, command, capture, parameters, *more]
    told = subprocess.run(words, capture_output=True)
    with tempfile.TemporaryDirectory() as folder:
        pipe = Path(folder) / "pipe"
        os.mkfifo(pipe)
        writer = threading.Thread(target=write_in_pieces, args=(pipe, capture.read_bytes()), daemon=True)
        writer.start()
        words[2] = pipe
        piped = subprocess.run(words, capture_output=True)
        writer.join(10)
    same = (told.returncode, told.stdout, told.stderr) == (piped.returncode, piped.stdout, piped.stderr)
    return (told.returncode, told.stdout.decode()) if same else (None, "differs through a pipe")


def write_in_pieces(pipe, data):
    try:
        with open(pipe, "wb", buffering=0) as out:
            for at in range(0, len(data), 7):
                out.write(data[at : at + 7])
    except BrokenPipeError:
        pass


def taken(text):
    """The lines of a verdict from its list of taken messages on."""
    return text[text.index("taken by client") :] if "taken by client" in text else text


def expected(name):
    path = SAMPLES / "expected" / name
    return path.read_text() if path.exists() else None


def differences(program, capture, folder):
    """Each command on a sample whose answer isn't the stored one."""
    name, parameters = capture.stem, capture.with_suffix(".toml")
    shown = expected(f"{name}.txt")
    is_refused = shown.splitlines()[-1].startswith("refused")
    if run(program, "show", capture, parameters) != (int(is_refused), shown):
        yield "show"
    audited = run(program, "audit", capture, parameters)
    built = run(program, "build", capture, parameters)
    refusal, checked = expected(f"{name}.audit.txt"), expected(f"{name}.check.txt")
    if refusal:
        if audited != (1, refusal):
            yield "audit"
        if built != (1, refusal):
            yield "build"
        return
    certificate = Path(folder) / f"{name}.cert"
    certificate.write_text(built[1])
    if run(program, "check", capture, parameters, certificate) != audited:
        yield "check of the build"
    if checked:
        if run(program, "check", capture, parameters, capture.with_suffix(".cert")) != (0, checked):
            yield "check"
        if audited[0] != 0 or taken(audited[1]) != taken(checked):
            yield "audit"


def main():
    asked = argparse.ArgumentParser(description="Compares what the program prints of the samples.")
    asked.add_argument("--program", type=Path, default=rows.PROGRAM, help="rasta_audit")
    program = asked.parse_args().program.resolve()
    failed = 0
    with tempfile.TemporaryDirectory() as folder:
        for capture in sorted(SAMPLES.glob("*.pcap")):
            wrong = list(differences(program, capture, folder))
            failed += bool(wrong)
            print(capture.stem, ", ".join(wrong) or "ok")
    print(failed, "failed")
    return failed != 0


if __name__ == "__main__":
    sys.exit(main())

#!/usr/bin/env python3
"""Lets each allocation fail in turn, and compares what is answered.

    fail_allocations.py [--program PATH] [--seatmelon PATH] [samples|rows|seatmelon|tests]

The program, with each of its commands on each sample and on six rows of verdicts, or on one of the two: one
allocation fails, or it and all after it. The program must answer as it does with ample memory, or refuse for lack of
it with status 3; then no part of a verdict or a certificate is written. `rt run` in crates/rasta_audit leaves it.

With `seatmelon`: that program's commands, on a capture with three connections and on samples, in the same way; where it
refuses, it writes nothing to standard output. An audit of many connections may also answer that there was no memory for some of them,
and the others as with ample memory. `rt run` in crates/seatmelon leaves it.

With `tests`: tests that repeat a call that ran out of memory, of ends, of writing a datagram, of reading a
certificate, and of a check, a build and an audit of data. `rt test` in crates/trials_layers and
crates/trials_verdicts leaves them.
Needs gcc; plain Python 3, no other packages.
"""

import argparse
import os
import subprocess
import sys
import tempfile
from pathlib import Path

import rows

TOP = Path(__file__).resolve().parent.parent
CRATES = TOP / "crates"
SEATMELON = CRATES / "seatmelon/out/seatmelon"
REFUSAL = b"refused 1 NoMemory 0 -\n"
ROWS = [
    "handshake",
    "handed up once",
    "lost unit is resent",
    "both ask",
    "copies on two channels",
    "lost resend and second request",
]
# Samples that are explained: whole, from a quiet point, by which no two ends can have sent their packets, and from the middle.
EXPLAINED = ["retransmission", "quiet_start", "repeated_request", "flipped_bit", "from_the_middle"]
# Samples whose records make a capture of three connections.
THREE = ["retransmission", "wrapped", "both_ask"]
# Crate, test, and the first of its allocations that may fail; those before it belong to the test itself.
TESTS = [
    ("trials_layers", "ends::ends_by_rows", 1),
    ("trials_layers", "certificates::certificate_is_read_again", 1),
    ("trials_layers", "pdus::datagrams_are_written_again", 1),
    ("trials_verdicts", "device_tests::memory_runs_out", 121),
]


def calls_of_samples():
    for capture in sorted((TOP / "examples").glob("*.pcap")):
        parameters = capture.with_suffix(".toml")
        certificate = capture.with_suffix(".cert")
        for command in ("show", "audit", "build"):
            yield capture.name, [command, capture, parameters]
        if certificate.exists():
            yield capture.name, ["check", capture, parameters, certificate]


def calls_of_rows(folder):
    all_rows = rows.rows()
    for name in ROWS:
        capture, parameters, certificate = all_rows[name].write(folder)
        for command in ("show", "audit", "build"):
            yield name, [command, capture, parameters]
        yield name, ["check", capture, parameters, certificate]


def calls_of_seatmelon(folder):
    samples, three = TOP / "examples", Path(folder) / "three.pcap"
    captures = [(samples / f"{name}.pcap").read_bytes() for name in THREE]
    three.write_bytes(captures[0][:24] + b"".join(it[24:] for it in captures))
    yield "three connections", ["survey", three]
    for number in ("1", "2", "3"):
        yield "three connections", ["draft", three, number]
    station = samples / "station"
    yield "station", ["audit", station / "station.pcap", station]
    yield "quiet_start", ["draft", samples / "quiet_start.pcap", "1"]
    for name in EXPLAINED:
        capture = samples / f"{name}.pcap"
        parameters, certificate = capture.with_suffix(".toml"), capture.with_suffix(".cert")
        for form in ([], ["--json"]):
            yield name, ["explain", *form, capture, parameters]
            yield f"{name} without record 3", ["explain", *form, "--without", "3", capture, parameters]
            if certificate.exists():
                yield f"{name} by its certificate", ["explain", *form, capture, parameters, certificate]
    gap = samples / "missing_packet.pcap"
    for form in ([], ["--json"]):
        yield "missing_packet, with a supposed PDU", ["explain", *form, "--suppose", "1", gap, gap.with_suffix(".toml")]


class Failing:
    """Runs programs with the library of failing.c before the C library."""

    def __init__(self, folder):
        self.library = f"{folder}/failing.so"
        source = TOP / "scripts/fail_allocations/failing.c"
        subprocess.run(["gcc", "-shared", "-fPIC", "-O2", "-o", self.library, source], check=True)

    def run(self, words, fails_at, and_on=False):
        environment = {"LD_PRELOAD": self.library, "FAILS_AT": str(fails_at)}
        if and_on:
            environment["FAILS_ON"] = "1"
        return subprocess.run(words, env=environment, capture_output=True)

    def count(self, words):
        """How many allocations there are where none fails."""
        counted, writer = os.pipe()
        os.dup2(writer, 9)
        os.close(writer)
        environment = {"LD_PRELOAD": self.library, "FAILS_AT": "0"}
        subprocess.run(words, env=environment, pass_fds=[9], stdout=subprocess.DEVNULL)
        os.close(9)
        with os.fdopen(counted) as count:
            return int(count.read())


def is_refusal(answer, whole, command):
    """Whether a command refuses for lack of memory; `show` has written each line before it reads on."""
    begun = whole.stdout.startswith(answer.stdout) if command == "show" else not answer.stdout
    told = answer.stderr in (REFUSAL, b"seatmelon: out of memory\n")
    return answer.returncode == 3 and told and begun


def is_partial(answer, whole):
    """Whether an audit of many answers as with ample memory, but for connections that had none."""
    lines, wholes = (it.stdout.decode().splitlines() for it in (answer, whole))
    if answer.returncode != 1 or answer.stderr or len(lines) != len(wholes):
        return False
    pairs = list(zip(lines, wholes))[:-1]
    without = sum(line == whole.split(": ")[0] + ": out of memory" for line, whole in pairs)
    return f", {without} out of memory" in lines[-1] and without + sum(line == whole for line, whole in pairs) == len(pairs)


def is_same(answer, whole):
    told = [(it.returncode, it.stdout, it.stderr) for it in (answer, whole)]
    return told[0] == told[1]


def try_call(failing, program, name, call):
    """How many runs of a call were tried, how many were refused, and how many answers were wrong."""
    words = [program, *call]
    whole = failing.run(words, 0)
    tried, refused, wrong = 0, 0, 0
    for number in range(1, failing.count(words) + 1):
        for and_on in (False, True):
            answer = failing.run(words, number, and_on)
            tried += 1
            if is_refusal(answer, whole, call[0]):
                refused += 1
            elif not is_same(answer, whole) and not (call[0] == "audit" and is_partial(answer, whole)):
                wrong += 1
                print(f"  allocation {number}{' and on' if and_on else ''}: {answer}")
    print(f"{call[0]} {name}: tried {tried} refused {refused} wrong {wrong}")
    return tried, refused, wrong


def try_calls(failing, program, calls):
    """How many wrong answers calls of the program give."""
    counts = [try_call(failing, program, *it) for it in calls]
    tried, refused, wrong = (sum(count) for count in zip(*counts))
    print(f"{len(counts)} calls: tried {tried} refused {refused} wrong {wrong}")
    return wrong


def try_test(failing, crate, test, first):
    """How many allocations make a test fail."""
    words = [CRATES / crate / f"out/{crate}_tests", test]
    last = failing.count(words)
    failed = [it for it in range(first, last + 1) if failing.run(words, it).returncode != 0]
    print(f"{test}: allocations {first} to {last}", f"failed {failed}")
    return len(failed)


def main():
    asked = argparse.ArgumentParser(description="Lets each allocation fail in turn.")
    asked.add_argument("--program", type=Path, default=rows.PROGRAM, help="rasta_audit")
    asked.add_argument("--seatmelon", type=Path, default=SEATMELON)
    asked.add_argument("what", nargs="?", choices=("samples", "rows", "seatmelon", "tests"))
    words = asked.parse_args()
    program, seatmelon, failed = words.program.resolve(), words.seatmelon.resolve(), 0
    with tempfile.TemporaryDirectory() as folder:
        failing = Failing(folder)
        if words.what == "tests":
            failed = sum(try_test(failing, *it) for it in TESTS)
        if words.what in (None, "samples"):
            failed += try_calls(failing, program, calls_of_samples())
        if words.what in (None, "rows"):
            failed += try_calls(failing, program, calls_of_rows(folder))
        if words.what == "seatmelon":
            failed += try_calls(failing, seatmelon, calls_of_seatmelon(folder))
    print(failed, "failed")
    return failed != 0


if __name__ == "__main__":
    sys.exit(main())

#!/usr/bin/env python3
"""Drafts a parameter file for each sample, and audits by it.

    drafts.py [--program PATH] [--seatmelon PATH] [--late RUNS]

For each capture of examples/ with a parameter file, `seatmelon draft CAPTURE 1` (2 for `excerpt`) is audited as it is,
and then with the sample's own values in place of the placeholders of `t_max`, `slack` and `md4_start`. The answer to the
second has to be that of the sample's own parameters, word by word. Samples without a captured opening are listed apart.

With `--late`, so many random runs over a calm network (the ends are those of random_runs.py) are cut at a third, drafted,
and audited with their own `n_sendmax`, `t_max` and `slack`: it is counted how many have a quiet point, and what the audit
says by the earliest.

`rt run` in crates/rasta_audit and in crates/seatmelon leaves the programs. Plain Python 3, no other packages.
"""

import argparse
import collections
import random
import re
import struct
import subprocess
import sys
import tempfile
import tomllib
from pathlib import Path

import random_runs
import rows

SAMPLES = rows.TOP / "examples"
SEATMELON = rows.TOP / "crates/seatmelon/out/seatmelon"
CONNECTIONS = {"excerpt": 2}
NO_OPENING = "# No opening was captured."
DEFAULTS = {"md4_start": "67452301efcdab8998badcfe10325476", "t_max": 1800, "slack": 0}


def run(*words):
    told = subprocess.run([str(word) for word in words], capture_output=True, text=True)
    return told.returncode, told.stdout, told.stderr


def drafted(seatmelon, capture):
    status, text, error = run(seatmelon, "draft", capture, CONNECTIONS.get(capture.stem, 1))
    if status or error:
        sys.exit(f"draft of {capture}: status {status} {error}")
    return text


def with_values(draft, values):
    """The draft with these values in place of the placeholders."""
    lines = []
    for line in draft.splitlines():
        key = line.split(" = ")[0]
        if key in values and "# from the engineering data" in line:
            value = values[key]
            line = f'{key} = "{value}"' if isinstance(value, str) else f"{key} = {value}"
        lines.append(line)
    return "\n".join(lines) + "\n"


def audited(program, capture, folder, draft):
    path = Path(folder) / "draft.toml"
    path.write_text(draft)
    return run(program, "audit", capture, path)


def compare(program, seatmelon, capture, folder):
    """What comes of the draft of a sample, in a word or two."""
    own = capture.with_suffix(".toml")
    draft = drafted(seatmelon, capture)
    as_it_is = audited(program, capture, folder, draft)
    if as_it_is[0] not in (0, 1):
        return f"the draft is refused: {as_it_is[2].strip()}"
    values = DEFAULTS | tomllib.loads(own.read_text())
    filled = with_values(draft, {key: values[key] for key in DEFAULTS})
    wanted, given = run(program, "audit", capture, own), audited(program, capture, folder, filled)
    if NO_OPENING in draft:
        return f"no opening: {given[1].splitlines()[-1]}"
    return "same" if given == wanted else f"differs: {given[1].splitlines()[-1]}"


class CalmRun(random_runs.Run):
    """Two ends over a network that loses little, and repeats only what crossed last."""

    def __init__(self, chance):
        super().__init__(chance)
        self.loss = chance.choice((0.0, 0.02, 0.1))

    def step(self):
        chance, side = self.chance, self.chance.randrange(2)
        end, peer = self.ends[side], self.ends[1 - side]
        act = chance.random()
        if act < 0.15:
            self.clocks[side] += chance.randint(0, self.p.t_max // 100)
        elif act < 0.18 and self.crossed:
            self.cross(*self.crossed[-1][:2])
        elif act < 0.75 and self.marks[side] < len(peer.made) and end.may_take(self.clocks[side]):
            while self.marks[side] + 1 < len(peer.made) and chance.random() < self.loss:
                self.marks[side] += 1
            end.take(peer.made[self.marks[side]])
            self.marks[side] += 1
        elif end.choose(self.clocks[side], chance):
            self.cross(side, len(end.made) - 1)


def cut(capture, records):
    """A capture without its first records."""
    at = 24
    for _ in range(records):
        at += 16 + struct.unpack_from("<I", capture, at + 8)[0]
    return capture[:24] + capture[at:]


def late(program, seatmelon, number, folder):
    """What comes of a random run that is captured from a third on, in a word or two."""
    chance = random.Random(f"late {number}")
    made = CalmRun(chance)
    for _ in range(chance.choice((100, 500))):
        made.step()
    random_runs.write(made, folder)
    whole, capture = folder / "run.pcap", folder / "late.pcap"
    if len(made.crossed) < 6:
        return "too short"
    capture.write_bytes(cut(whole.read_bytes(), len(made.crossed) // 3))
    draft = drafted(seatmelon, capture)
    if NO_OPENING not in draft:
        return "with the opening"
    if not re.search(r"^quiet\.client", draft, re.MULTILINE):
        return "without a quiet point"
    values = {"n_sendmax": made.p.n_sendmax, "t_max": made.p.t_max, "slack": made.p.slack}
    status, text, error = audited(program, capture, folder, with_values(draft, values))
    return "explained" if status == 0 else (text or error).splitlines()[-1]


def main():
    asked = argparse.ArgumentParser(description="Drafts parameters of the samples, and audits by them.")
    asked.add_argument("--program", type=Path, default=rows.PROGRAM, help="rasta_audit")
    asked.add_argument("--seatmelon", type=Path, default=SEATMELON)
    asked.add_argument("--late", type=int, default=0, metavar="RUNS")
    words = asked.parse_args()
    program, seatmelon = words.program.resolve(), words.seatmelon.resolve()
    told, lates = collections.Counter(), collections.Counter()
    with tempfile.TemporaryDirectory() as name:
        folder = Path(name)
        for capture in sorted(SAMPLES.glob("*.pcap")):
            outcome = compare(program, seatmelon, capture, folder)
            told[outcome.split(":")[0]] += 1
            print(capture.stem, outcome)
        for number in range(words.late):
            lates[late(program, seatmelon, number, folder)] += 1
    print("samples:", ", ".join(f"{count} {outcome}" for outcome, count in told.most_common()))
    if words.late:
        print("late starts:", ", ".join(f"{count} {outcome}" for outcome, count in lates.most_common()))
    return any(outcome not in ("same", "no opening") for outcome in told)


if __name__ == "__main__":
    sys.exit(main())

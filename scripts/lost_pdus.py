#!/usr/bin/env python3
"""Takes PDUs out of captures, and asks `seatmelon explain --suppose` what explains the rest.

    lost_pdus.py [--program PATH] [--missing N] [--together] [--runs RUNS] [--seed SEED]

Of each run that random_runs.py makes (250 runs of seed 5, unless others are asked for) all copies of N PDUs are taken
out, one unless it is said otherwise, and none that is the first or the last one of its end: any of them, or with
`--together` such as follow one another at one end. It is told how many of the rest are explained, by which types, and
whether one lists a message as surely taken that the whole run doesn't list. With `--samples` the same of each sample of
examples/ that is explained, and each of its PDUs alone. The status is 1 if a message is listed too much.

`rt run` in crates/seatmelon leaves the program. Plain Python 3, no other packages.
"""

import argparse
import collections
import json
import pathlib
import random
import re
import shutil
import struct
import subprocess
import sys
import tempfile

from explanations import PROGRAM, SAMPLES
from random_runs import Run, write

HEADER, RECORD = 24, 16


def records_of(capture):
    """The records of a classic capture, each with its header."""
    order, at, records = "<" if capture[:1] in (b"\xd4", b"\x4d") else ">", HEADER, []
    while at < len(capture):
        (size,) = struct.unpack_from(order + "I", capture, at + 8)
        records.append(capture[at : at + RECORD + size])
        at += RECORD + size
    return records


def explained(program, folder, *more):
    """The verdict on the capture in a folder, as JSON."""
    words = [program, "explain", "--json", "run.pcap", "run.toml", *more]
    return json.loads(subprocess.run(words, cwd=folder, capture_output=True, text=True, check=False).stdout)


def taken(messages, kept):
    """The records of the messages that are listed as surely taken, in the whole capture, with what they say."""
    listed = collections.Counter()
    for way in messages:
        for message in way["messages"]:
            if message["surely_taken"]:
                listed[kept[message["data"]["record"] - 1], message["hex"]] += 1
    return listed


def moved_window(parameters, kept):
    """Parameters whose window has the same records where only these, counted from 0, are left."""

    def moved(found):
        bound = int(found[2])
        if found[1] == "last_record":
            number = sum(record < bound for record in kept)
        else:
            number = 1 + sum(record + 1 < bound for record in kept)
        return f"{found[1]} = {number}"

    return re.sub(r"^(first_record|last_record) *= *([0-9]+)", moved, parameters, flags=re.MULTILINE)


class Loss:
    """Captures without some of their PDUs, and what is said of them."""

    def __init__(self, program):
        self.program, self.tried, self.more = str(program.resolve()), 0, 0
        self.found = collections.Counter()

    def judge(self, folder, whole, packets, gone):
        """Asks about a capture without these PDUs, each a sender and a number; `packets` has those of each record."""
        capture = (folder / "run.pcap").read_bytes()
        records = records_of(capture)
        kept = [number for number, packet in enumerate(packets) if packet not in gone]
        parameters = (folder / "run.toml").read_text()
        (folder / "run.pcap").write_bytes(capture[:HEADER] + b"".join(records[number] for number in kept))
        (folder / "run.toml").write_text(moved_window(parameters, kept))
        answer = explained(self.program, folder, "--suppose", str(len(gone)))
        (folder / "run.pcap").write_bytes(capture)
        (folder / "run.toml").write_text(parameters)
        self.tried += 1
        self.found[self.kinds(answer)] += 1
        if "messages" in answer.get("supposed", {}):
            every = range(len(packets))
            self.more += bool(taken(answer["supposed"]["messages"], kept) - taken(whole["messages"], every))

    def kinds(self, answer):
        if answer["verdict"] != "explained_with_supposed_pdus":
            refused = f"{answer['verdict']} {answer.get('fault', {}).get('number', '')}"
            return ("not explained", refused)
        fillings = answer["supposed"]["fillings"]
        return ("explained", ", ".join("+".join(it["type_name"] for it in filling) for filling in fillings))

    def tell(self):
        explained = sum(count for (verdict, _), count in self.found.items() if verdict == "explained")
        print(f"{self.tried} captures, {explained} explained, {self.more} list a message too much")
        for (verdict, kinds), count in self.found.most_common():
            print(f"{count:6} {verdict}: {kinds}")
        return 1 if self.more else 0


def packets_of_run(run):
    return [(side, position) for side, position, _, _ in run.crossed]


def inner(packets):
    """The PDUs that are neither the first nor the last of their ends, by end, in their order."""
    ends = [[], []]
    for packet in packets:
        if packet not in ends[packet[0]]:
            ends[packet[0]].append(packet)
    return [end[1:-1] for end in ends]


def chosen(chance, packets, count, together):
    """So many PDUs to take out, if there are as many."""
    ends = inner(packets)
    if not together:
        every = ends[0] + ends[1]
        return chance.sample(every, count) if len(every) >= count else None
    end = max(ends, key=len)
    if len(end) < count:
        return None
    at = chance.randrange(len(end) - count + 1)
    return end[at : at + count]


def random_captures(loss, asked, folder):
    for number in range(asked.runs):
        chance = random.Random(f"{asked.seed} {number}")
        run = Run(chance)
        for _ in range(chance.choice((20, 100, 300))):
            run.step()
        packets = packets_of_run(run)
        gone = chosen(chance, packets, asked.missing, asked.together)
        if not gone:
            continue
        write(run, folder)
        whole = explained(loss.program, folder)
        loss.judge(folder, whole, packets, gone)


def listed_packets(program, folder):
    """Sender and number of each record of a sample that holds a packet of its connection, else none."""
    words = [program, "show", "run.pcap", "run.toml"]
    lines = subprocess.run(words, cwd=folder, capture_output=True, text=True, check=False).stdout.splitlines()
    packets = {}
    for line in lines:
        cells = line.split()
        if len(cells) > 6 and cells[0].isdigit() and cells[4] in ("client", "server"):
            packets[int(cells[0])] = (0 if cells[4] == "client" else 1, int(cells[5]))
    return packets


def samples(loss, folder):
    for parameters in sorted(SAMPLES.glob("*.toml")):
        shutil.copy(parameters, folder / "run.toml")
        shutil.copy(parameters.with_suffix(".pcap"), folder / "run.pcap")
        whole = explained(loss.program, folder)
        if whole["verdict"] != "explained":
            continue
        numbered = listed_packets(loss.program, folder)
        packets = [numbered.get(number + 1) for number in range(whole["records_read"])]
        for end in inner([packet for packet in packets if packet]):
            for packet in end:
                loss.judge(folder, whole, packets, [packet])


def main():
    asked = argparse.ArgumentParser(description="Takes PDUs out of captures.")
    asked.add_argument("--program", type=pathlib.Path, default=PROGRAM)
    asked.add_argument("--missing", type=int, default=1)
    asked.add_argument("--together", action="store_true")
    asked.add_argument("--runs", type=int, default=250)
    asked.add_argument("--seed", type=int, default=5)
    asked.add_argument("--samples", action="store_true")
    asked = asked.parse_args()
    folder, loss = pathlib.Path(tempfile.mkdtemp(prefix="lost-pdus-")), Loss(asked.program)
    if asked.samples:
        samples(loss, folder)
    else:
        random_captures(loss, asked, folder)
    shutil.rmtree(folder)
    return loss.tell()


if __name__ == "__main__":
    sys.exit(main())

#!/usr/bin/env python3
"""Cuts captures anywhere, takes packets out, and compares what `seatmelon explain` lists of the rest with the whole.

    from_the_middle.py [--program PATH] [--segments N] [--seed SEED] [--samples | --bad-use [PACKETS]]

Of runs that random_runs.py makes, every second one of them over a network that loses nothing or a packet in a hundred, as
lines do, N segments (20,000 unless it is said otherwise) are cut at random, of a third of them a fifth of the packets is
taken out at random, and what `explain --json` lists of each as surely taken whatever came
before is compared

- with what the run's ends handed up: each message had been handed up when its proof crossed;
- with what is listed of the whole run: how many of the messages whose first packet and whose proof are in the segment
  are listed of it too. Where no packet was taken out, at most one in 500 may be missing, and only where the segment ends
  inside a burst of their end, so that nothing tells how far it goes.

With `--samples` the same of every segment of each explained sample of examples/, where a message may be listed only if
the whole lists it; samples are so short that many of their segments end inside a burst. With `--bad-use` captures that no end sends: SNs that jump at each packet, come in any order or out of
order, CS that name nothing, copies alone, data sent again alone, wrong codes, and none; of each the counts are compared with
those that follow from how it was made. The status is 1 if a message is listed too much, too many are missing, or a count is
another one. `rt run` in crates/seatmelon leaves the program. Plain Python 3, no other packages.
"""

import argparse
import collections
import json
import pathlib
import random
import shutil
import subprocess
import sys
import tempfile
import time

import rows
from explanations import PROGRAM, SAMPLES
from lost_pdus import HEADER, explained, listed_packets, records_of
from random_runs import BYE, RESENT, RESPONSE, UNITS, Run, write

MOST_MISSING = 500
CLIENT = ("client", "server")


def units_of(end):
    """Of each position of an end the number of its unit, from 0, if it carries one."""
    units, fresh, next_again, responses = [], 0, 0, 0
    for pdu in end.made:
        if pdu.kind == RESPONSE:
            next_again = end.conveyed(end.asks[responses])
            responses += 1
            units.append(None)
        elif pdu.kind == RESENT:
            units.append(next_again)
            next_again += 1
        elif pdu.kind in UNITS:
            units.append(fresh)
            fresh += 1
        else:
            units.append(None)
    return units


def without_start(parameters):
    """Parameters without window and quiet point."""
    text = parameters.split("[quiet.")[0]
    return "".join(line for line in text.splitlines(keepends=True) if not line.startswith(("first_record", "last_record")))


def listed(answer, kept):
    """The messages that are listed as surely taken: end, record of the data, index in it, record of the proof, bytes."""
    ways, found = [], []
    middle = answer.get("from_the_middle")
    if middle:
        ways = middle["messages"] + middle["sent_again"]
    elif answer["verdict"] == "explained":
        ways = answer["messages"]
    for way in ways:
        seen = collections.Counter()
        for message in way["messages"]:
            data = kept[message["data"]["record"] - 1]
            index = seen[data]
            seen[data] += 1
            if message["surely_taken"]:
                proof = kept[message["proof"]["record"] - 1]
                found.append((CLIENT.index(way["from"]), data, index, proof, message["hex"]))
    return found


class Comparison:
    """Segments, and what is listed of them."""

    def __init__(self, program, folder):
        self.program, self.folder = str(program.resolve()), folder
        self.segments = self.more = self.wanted = self.missing = self.in_burst = self.listed = 0
        self.verdicts = collections.Counter()

    def ask(self, records, kept):
        """What is said of a capture of these records alone."""
        (self.folder / "run.pcap").write_bytes(self.header + b"".join(records[number] for number in kept))
        answer = explained(self.program, self.folder)
        self.segments += 1
        self.verdicts[answer["verdict"], answer.get("fault", {}).get("number")] += 1
        return answer

    def begin(self, whole_parameters):
        """Reads the whole, and leaves parameters without a start behind."""
        capture = (self.folder / "run.pcap").read_bytes()
        self.header = capture[:HEADER]
        whole = explained(self.program, self.folder)
        (self.folder / "run.toml").write_text(without_start(whole_parameters))
        return records_of(capture), whole

    def compare(self, found, whole, packets, kept, is_whole):
        """Counts what is listed too much, by the PDUs of the records, and what isn't listed though the whole lists it."""
        names = lambda items: {(end, packets[data], index) for end, data, index, _, _ in items}
        inside = set(kept)
        wanted = names(it for it in whole if it[1] in inside and it[3] in inside)
        self.listed += len(found)
        missing = wanted - names(found) if is_whole else set()
        if is_whole:
            self.wanted += len(wanted)
            self.missing += len(missing)
        return missing

    def tell(self, is_random):
        print(f"{self.segments} segments: {self.listed} messages listed, {self.more} too much")
        print(f"of {self.wanted} that the whole lists in a segment, {self.missing} are missing")
        if is_random:
            print(f"{self.in_burst} of these in a burst that goes on behind the segment")
        for (verdict, fault), count in self.verdicts.most_common():
            print(f"{count:6} {verdict} {fault or ''}")
        is_short = self.missing * MOST_MISSING > self.wanted or self.in_burst < self.missing
        return 1 if self.more or is_random and is_short else 0


def cut(chance, count):
    """The records of a segment, and whether all between its ends are there."""
    first = chance.randrange(count)
    kept = range(first, min(count, first + chance.randint(3, 400)))
    if chance.random() < 1 / 3:
        return [number for number in kept if chance.random() > 0.2], False
    return list(kept), True


def is_handed(run, units, message):
    """Whether the far end had handed up a message when its proof crossed."""
    end, data, index, proof, text = message
    side, position, _, _ = run.crossed[data]
    unit = units[side][position]
    if side != end or unit is None or run.crossed[proof][3][1 - end] <= unit:
        return False
    return run.ends[end].units[unit][index].hex() == text


def ends_in_burst(run, kept, side):
    """Whether the last PDU of an end among these records, but for a disconnection request, is one of a burst."""
    positions = sorted(run.crossed[number][1] for number in kept if run.crossed[number][0] == side)
    kinds = [run.ends[side].made[position].kind for position in positions]
    kinds = [kind for kind in kinds if kind != BYE]
    return bool(kinds) and kinds[-1] in (RESPONSE, RESENT)


def random_segments(comparison, asked):
    number = 0
    while comparison.segments < asked.segments:
        chance = random.Random(f"{asked.seed} {number}")
        number += 1
        run = Run(chance)
        if number % 2:
            run.loss = chance.choice((0.0, 0.01))
        for _ in range(chance.choice((20, 100, 500))):
            run.step()
        if len(run.crossed) < 4:
            continue
        write(run, comparison.folder)
        packets = [(side, position) for side, position, _, _ in run.crossed]
        units = [units_of(end) for end in run.ends]
        records, whole = comparison.begin((comparison.folder / "run.toml").read_text())
        taken = listed(whole, range(len(records)))
        for _ in range(10):
            kept, is_whole = cut(chance, len(records))
            if not kept:
                continue
            found = listed(comparison.ask(records, kept), kept)
            wrong = [message for message in found if not is_handed(run, units, message)]
            comparison.more += len(wrong)
            if wrong:
                print(f"run {number - 1} of seed {asked.seed}, records {kept[0]} to {kept[-1]}: {wrong[0]}")
            missing = comparison.compare(found, taken, packets, kept, is_whole)
            comparison.in_burst += sum(ends_in_burst(run, kept, end) for end, _, _ in missing)


def samples(comparison):
    for parameters in sorted(SAMPLES.glob("*.toml")):
        shutil.copy(parameters, comparison.folder / "run.toml")
        shutil.copy(parameters.with_suffix(".pcap"), comparison.folder / "run.pcap")
        numbered = listed_packets(comparison.program, comparison.folder)
        records, whole = comparison.begin(parameters.read_text())
        if whole["verdict"] != "explained":
            continue
        packets = [numbered.get(number + 1, number) for number in range(len(records))]
        taken = listed(whole, range(len(records)))
        known = {(end, packets[data], index): proof for end, data, index, proof, _ in taken}
        for first in range(len(records)):
            for last in range(first, len(records)):
                kept = list(range(first, last + 1))
                answer = comparison.ask(records, kept)
                found = listed({**answer, "from_the_middle": with_no_resent(answer)}, kept)
                for end, data, index, proof, _ in found:
                    if known.get((end, packets[data], index), len(records)) > proof:
                        comparison.more += 1
                        print(f"{parameters.name}, records {first + 1} to {last + 1}: {end} {data + 1} {index}")
                comparison.compare(found, taken, packets, kept, True)


def with_no_resent(answer):
    """What is listed whatever came before, without data that were sent again."""
    middle = answer.get("from_the_middle")
    return {**middle, "sent_again": []} if middle else None


# ---- bad use

MESSAGE = b"\1\0\x2a"
DATA, AGAIN, HEARTBEAT = 6240, 6241, 6220
# A PDU that crosses so many SNs behind another doesn't fit to it.
FAR = 4096
# So many messages are listed behind those that are shown to be taken.
MOST_WAITING = 65536
CODED = "code_length = 16/check_length = 0"


def pdu_of(side, number, kind, sn, cs):
    return side, number, kind, sn, cs, 1000, 0, b"" if kind == HEARTBEAT else MESSAGE


def in_turn(numbers, confirmed, back):
    """Data of the client with these numbers, each with what a heartbeat of the server then confirms."""
    for i, number in enumerate(numbers):
        yield pdu_of("client", number % 2**32, DATA, (number + 5) % 2**32, back)
        yield pdu_of("server", i + 1, HEARTBEAT, 500 + i, confirmed(number + 5) % 2**32)


def bad_captures(count, chance):
    """What each is, its packets, the keys of its codes, and of the client's messages how many are shown, and captured, and
    shown and captured of those that were sent again."""
    half = count // 2
    jumps = [sum(steps) for steps in zip(range(0, half * 300, 300), (chance.randrange(300) for _ in range(half)))]
    same = lambda sn: sn
    yield "numbers that jump at each packet", in_turn(jumps, same, 500), "-", (half, half, 0, 0)
    scattered = chance.sample(range(half), half)
    fitting, greatest = 0, scattered[0]
    for number in scattered:
        greatest = max(greatest, number)
        if greatest - number >= FAR:
            break
        fitting += 1
    yield "numbers in any order", in_turn(scattered, same, 500), "-", (fitting, fitting, 0, 0)
    late = [block + i for block in range(0, half - FAR + 1, FAR) for i in reversed(range(FAR))]
    yield "each block backwards", in_turn(late, same, 500), "-", (len(late), len(late), 0, 0)
    yield "CS that name nothing", in_turn(range(half), lambda sn: sn + 2**31, 500), "-", (0, half, 0, 0)
    copies = [pdu_of("client", 9, DATA, 102, 500), pdu_of("server", 41, HEARTBEAT, 501, 102)] * half
    yield "copies alone", copies, "-", (1, 1, 0, 0)
    again = [pdu_of("client", i + 1, AGAIN, i + 1, 500) for i in range(half)]
    again += [pdu_of("client", half + 1, HEARTBEAT, half + 1, 500)]
    again += [pdu_of("server", i + 1, HEARTBEAT, 500 + i, 1 + i % 2) for i in range(half)]
    yield "data sent again alone", again, "-", (0, 0, 2, min(half, FAR))
    yield "wrong codes", in_turn(range(half), same, 500), CODED, (0, 0, 0, 0)


def bad_use(program, folder, asked):
    wrong = 0
    for what, packets, codes, wanted in bad_captures(asked.bad_use, random.Random(asked.seed)):
        pdus = [(side, *fields, payload + bytes(16 * (codes == CODED))) for side, *fields, payload in packets]
        frames = [rows.frame_of(each[0], rows.datagram_of(*each)) for each in pdus]
        (folder / "run.pcap").write_bytes(rows.capture_of(frames))
        (folder / "run.toml").write_bytes(rows.parameters_of(codes))
        begun = time.time()
        ran = subprocess.run([program, "explain", "--json", folder / "run.pcap", folder / "run.toml"], capture_output=True)
        seconds = time.time() - begun
        middle = json.loads(ran.stdout)["from_the_middle"]
        own, again = middle["messages"][0], middle["sent_again"][0]
        told = own["surely_taken"], own["captured"], again["surely_taken"], again["sent_again"]
        listed = min(wanted[1], wanted[0] + MOST_WAITING)
        told += (len(own["messages"]), own["left_out"])
        wanted += (listed, wanted[1] - listed)
        wrong += told != wanted
        print(f"{what}: {len(frames)} packets, {told}{'' if told == wanted else f' in place of {wanted}'}, {seconds:.1f} s")
    return 1 if wrong else 0


def main():
    asked = argparse.ArgumentParser(description="Cuts captures anywhere.")
    asked.add_argument("--program", type=pathlib.Path, default=PROGRAM)
    asked.add_argument("--segments", type=int, default=20000)
    asked.add_argument("--seed", type=int, default=1)
    asked.add_argument("--samples", action="store_true")
    asked.add_argument("--bad-use", type=int, nargs="?", const=200000, metavar="PACKETS")
    asked = asked.parse_args()
    folder = pathlib.Path(tempfile.mkdtemp(prefix="from-the-middle-"))
    if asked.bad_use:
        status = bad_use(asked.program.resolve(), folder, asked)
        shutil.rmtree(folder)
        return status
    comparison = Comparison(asked.program, folder)
    if asked.samples:
        samples(comparison)
    else:
        random_segments(comparison, asked)
    shutil.rmtree(folder)
    return comparison.tell(not asked.samples)


if __name__ == "__main__":
    sys.exit(main())

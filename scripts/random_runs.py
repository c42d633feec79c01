#!/usr/bin/env python3
"""Runs two ends over a bad network, at random, and has `audit` and `check` judge what crossed.

    random_runs.py PROGRAM [RUNS [SEED]]        1,000 runs of seed 1

The ends keep the rules of docs/ENDS.md, written here anew. The network loses, repeats, delays and reorders. Of
each run it is tested that

- `audit` explains the packets, as is proved of it for two ends within the limits;
- what is listed as taken was handed up, once each and in order, each message before its proof crossed;
- `build` writes a certificate by which `check` writes the same text.

A run that fails is left beside its parameters in a folder that is named. Plain Python 3, no other packages.
"""

import argparse
import dataclasses
import pathlib
import random
import shutil
import struct
import subprocess
import sys
import tempfile

WRAP = 2**32
OPEN, OPENED, REQUEST, RESPONSE, BYE, BEAT, DATA, RESENT = 6200, 6201, 6212, 6213, 6216, 6220, 6240, 6241
TIMED, UNITS = (BEAT, DATA, RESENT), (DATA, RESENT)
CLOSED, DOWN, START, UP, RETR_REQ, RETR_RUN = "closed", "down", "start", "up", "retr_req", "retr_run"
CONNECTED = (UP, RETR_REQ, RETR_RUN)


@dataclasses.dataclass
class Pdu:
    kind: int
    sn: int
    cs: int
    ts: int
    cts: int
    messages: tuple = ()
    reason: int = 0


@dataclasses.dataclass
class Parameters:
    n_sendmax: int
    t_max: int
    slack: int
    quiet: list  # (next SN, clock) of client and server, or nothing


def ahead_by(a, b):
    return (a - b) % WRAP


class End:
    """One end: what it may make, and what it does with what it takes."""

    def __init__(self, p, is_client, first_sn):
        self.p, self.is_client, self.first_sn = p, is_client, first_sn
        self.phase = CLOSED if is_client else DOWN
        self.made, self.units, self.asks, self.owed, self.handed = [], [], [], [], []
        self.accepted = self.confirmed = self.clock = 0
        self.last_sn = self.last_ts = 0
        self.timed_ts = self.handed_ts = self.deadline = None
        if p.quiet:
            (own_sn, self.clock), (other_sn, other_clock) = p.quiet if is_client else reversed(p.quiet)
            self.phase, self.accepted, self.first_sn = UP, 1, (own_sn - 1) % WRAP
            self.made = [Pdu(BEAT, self.first_sn, (other_sn - 1) % WRAP, self.clock % WRAP, other_clock % WRAP)]
            self.last_sn, self.last_ts = (other_sn - 1) % WRAP, other_clock % WRAP
            self.timed_ts = self.last_ts

    def sn_at(self, position):
        return (self.first_sn + position) % WRAP

    def is_past(self, moment):
        return self.deadline is not None and moment > self.deadline + self.p.slack

    def is_early(self, moment):
        return self.deadline is not None and moment < self.deadline - self.p.slack

    def conveyed(self, position):
        through, responses = [], 0
        for pdu in self.made[: position + 1]:
            if not through:
                through.append(0)
            elif pdu.kind == RESPONSE:
                through.append(through[self.asks[responses]])
            else:
                through.append(through[-1] + (pdu.kind in UNITS))
            responses += pdu.kind == RESPONSE
        return through[position]

    def make(self, clock, kind, chance, messages=(), reason=0):
        times = [t for t in (self.last_ts, self.timed_ts, self.handed_ts) if t is not None]
        cs, cts = (self.last_sn, chance.choice(times)) if self.accepted else (chance.choice((0, 77)), 0)
        if kind == OPEN:
            cs, cts = 0, 0
        pdu = Pdu(kind, self.sn_at(len(self.made)), cs, clock % WRAP, cts, messages, reason)
        self.made.append(pdu)
        self.clock = clock
        if kind == DATA:
            self.units.append(messages)
        if kind == OPEN:
            self.phase = START
        if kind == BYE:
            self.phase, self.owed = CLOSED, []
        return pdu

    def choose(self, clock, chance):
        """Makes something that may be made now, or nothing."""
        if self.phase in (DOWN, CLOSED):
            is_first = self.phase == CLOSED and self.is_client and not self.made
            return self.make(clock, OPEN, chance) if is_first else None
        if not self.is_early(clock) and chance.random() < (0.3 if self.is_past(clock) else 0.002):
            return self.make(clock, BYE, chance, reason=4)
        if self.is_past(clock) or (self.phase == START and not self.owed):
            return None
        if chance.random() < 0.002:
            return self.make(clock, BYE, chance, reason=chance.choice((0, 1, 5)))
        if self.owed:
            owed = self.owed.pop(0)
            return self.make(clock, owed[0], chance, owed[1])
        if chance.random() < 0.5:
            return self.make(clock, BEAT, chance)
        count = chance.randint(1, 3)
        return self.make(clock, DATA, chance, tuple(chance.randbytes(chance.choice((0, 1, 4))) for _ in range(count)))

    def accept(self, pdu, steps):
        self.accepted += steps + 1
        self.last_sn, self.last_ts = pdu.sn, pdu.ts
        if pdu.kind in TIMED:
            self.timed_ts = pdu.ts
            self.deadline = self.clock - ahead_by(self.clock, pdu.cts) + self.p.t_max
        if pdu.kind in UNITS:
            self.handed.append(pdu.messages)
            self.handed_ts = pdu.ts

    def owe_burst(self, position, asks_too):
        first = self.conveyed(position)
        self.asks.append(position)
        self.owed = [(RESPONSE, ())] + [(RESENT, messages) for messages in self.units[first:]]
        if asks_too:
            self.owed.append((REQUEST, ()))

    def may_take(self, moment):
        return self.phase == CLOSED or (not self.owed and not self.is_past(moment))

    def take(self, pdu):
        phase, kind = self.phase, pdu.kind
        if phase == DOWN and kind == OPEN:
            self.accepted, self.last_sn, self.last_ts = 1, pdu.sn, pdu.ts
            self.phase, self.owed = START, [(OPENED, ())]
            return
        if phase not in (CLOSED, DOWN) and kind == BYE:
            self.phase, self.owed = CLOSED, []
            return
        steps = ahead_by(pdu.sn, self.last_sn + 1)
        named = ahead_by(pdu.cs, self.sn_at(self.confirmed))
        is_in, is_ahead = steps == 0, 0 < steps <= 10 * self.p.n_sendmax
        if phase in (CLOSED, DOWN) or named >= len(self.made) - self.confirmed:
            return
        if phase == START and self.is_client and kind == OPENED:
            self.accepted, self.last_sn, self.last_ts = 1, pdu.sn, pdu.ts
            self.phase, self.owed = UP, [(BEAT, ())]
        elif phase == START and not self.is_client and kind == BEAT and is_in:
            self.accept(pdu, 0)
            self.phase = UP
        elif phase in (UP, RETR_RUN) and kind in (BEAT, DATA) and is_in:
            self.accept(pdu, 0)
            self.phase = UP
        elif phase == RETR_RUN and kind == RESENT and is_in:
            self.accept(pdu, 0)
        elif is_ahead and ((phase == UP and kind in (BEAT, DATA)) or (phase == RETR_RUN and kind in TIMED)):
            self.phase, self.owed = RETR_REQ, [(REQUEST, ())]
            return
        elif phase == RETR_REQ and kind == RESPONSE:
            self.accept(pdu, steps)
            self.phase = RETR_RUN
        elif phase in (UP, RETR_RUN) and kind == REQUEST and (is_in or is_ahead):
            self.owe_burst(self.confirmed + named, is_ahead)
            if is_in:
                self.accept(pdu, 0)
            else:
                self.phase = RETR_REQ
        elif phase == RETR_REQ and kind == REQUEST and is_ahead:
            self.owe_burst(self.confirmed + named, False)
        else:
            return
        self.confirmed += named


class Run:
    """Two ends, a network between them, and what crossed."""

    def __init__(self, chance):
        self.chance = chance
        near = lambda: chance.choice((chance.randrange(WRAP), (WRAP - chance.randint(0, 30)) % WRAP))
        quiet = [(near(), chance.randrange(2**34)) for _ in range(2)] if chance.random() < 0.15 else []
        self.p = Parameters(chance.choice((1, 2, 5, 20)), chance.choice((300, 1800, 60000)), chance.choice((0, 5, 1000)), quiet)
        self.ends = [End(self.p, True, near()), End(self.p, False, near())]
        self.numbers = [near(), near()]
        self.clocks = [end.clock for end in self.ends]
        self.base = len(self.ends[0].made)
        self.marks = [self.base, self.base]
        self.crossed = []  # (side, position, channel, units handed up by each end)
        self.loss = chance.choice((0.0, 0.1, 0.35))

    def cross(self, side, position):
        handed = tuple(len(end.handed) for end in self.ends)
        self.crossed.append((side, position, self.chance.randint(1, 2), handed))

    def step(self):
        chance, side = self.chance, self.chance.randrange(2)
        end, peer = self.ends[side], self.ends[1 - side]
        act = chance.random()
        if act < 0.15:
            self.clocks[side] += chance.randint(0, self.p.t_max // 20)
        elif act < 0.2 and len(end.made) > self.base:
            self.cross(side, chance.randrange(self.base, len(end.made)))
        elif act < 0.7 and self.marks[side] < len(peer.made) and end.may_take(self.clocks[side]):
            while self.marks[side] + 1 < len(peer.made) and chance.random() < self.loss:
                self.marks[side] += 1
            end.take(peer.made[self.marks[side]])
            self.marks[side] += 1
        elif end.choose(self.clocks[side], chance):
            self.cross(side, len(end.made) - 1)


def datagram(run, side, position):
    pdu = run.ends[side].made[position]
    body = b""
    if pdu.kind in (OPEN, OPENED):
        body = b"0303" + struct.pack("<H", 20) + bytes(8)
    elif pdu.kind == BYE:
        body = struct.pack("<HH", 0, pdu.reason)
    elif pdu.kind in UNITS:
        body = b"".join(struct.pack("<H", len(m)) + m for m in pdu.messages)
    receiver, sender = ((97, 96), (96, 97))[side]
    safety = struct.pack("<HHIIIIII", 28 + len(body), pdu.kind, receiver, sender, pdu.sn, pdu.cs, pdu.ts, pdu.cts)
    number = (run.numbers[side] + position - run.base) % WRAP
    return struct.pack("<HHI", 8 + len(safety) + len(body), 0, number) + safety + body


def frame(payload, side, channel):
    client, server = bytes((10, 0, channel - 1, 1)), bytes((10, 0, channel - 1, 2))
    source, target = (client, server) if side == 0 else (server, client)
    port = 4999 + channel
    ip = struct.pack(">BBHHHBBH", 0x45, 0, 28 + len(payload), 0, 0, 64, 17, 0) + source + target
    return bytes(12) + b"\x08\x00" + ip + struct.pack(">HHHH", port, port, 8 + len(payload), 0) + payload


def write(run, folder):
    records = [frame(datagram(run, side, position), side, channel) for side, position, channel, _ in run.crossed]
    capture = struct.pack("<IHHiIII", 0xA1B2C3D4, 2, 4, 0, 0, 0x40000, 1)
    capture += b"".join(struct.pack("<IIII", 0, 0, len(f), len(f)) + f for f in records)
    (folder / "run.pcap").write_bytes(capture)
    text = "client_id = 96\nserver_id = 97\ncode_length = 0\ncheck_length = 0\n"
    text += f"n_sendmax = {run.p.n_sendmax}\nt_max = {run.p.t_max}\nslack = {run.p.slack}\n"
    for channel in (1, 2):
        at = f"10.0.{channel - 1}.%d:{4999 + channel}"
        text += f'[[channel]]\nclient = "{at % 1}"\nserver = "{at % 2}"\n'
    for name, (sn, clock) in zip(("client", "server"), run.p.quiet):
        text += f"[quiet.{name}]\nnext_sn = {sn}\nclock = {clock}\n"
    (folder / "run.toml").write_text(text)


def taken_lists(lines):
    lists, name = {"client": [], "server": []}, None
    for line in lines:
        words = line.split(" ")
        if words[:2] == ["taken", "by"]:
            name = words[2]
        elif name:
            message = b"" if words[3] == "." else bytes.fromhex(words[3])
            lists[name].append((int(words[2]), message))
    return lists


class Wrong(Exception):
    """What is wrong with what the program says of a run."""


def test_list(run, side, name, listed):
    """The list of one end against what it truly handed up."""
    units = run.ends[side].handed
    if [message for _, message in listed] != [m for messages in units for m in messages][: len(listed)]:
        raise Wrong(f"listed, and not handed up by the {name}")
    for i, (proof, _) in enumerate(listed):
        by_then = run.crossed[proof][3][side]
        if i >= sum(len(messages) for messages in units[:by_then]):
            raise Wrong(f"message {i} was not handed up by the {name} before place {proof}")


def test_run(run, program, folder):
    """Has the program judge a run, and answers how many messages it lists as taken."""

    def call(*words):
        return subprocess.run([program, *words], cwd=folder, capture_output=True, text=True)

    audit = call("audit", "run.pcap", "run.toml")
    lines = audit.stdout.splitlines()
    if audit.returncode or lines[0] != f"explained {len(run.crossed)}":
        raise Wrong(f"not explained: {lines[-1:]}")
    lists = taken_lists(lines)
    for side, name in enumerate(("client", "server")):
        test_list(run, side, name, lists[name])
    (folder / "run.cert").write_text(call("build", "run.pcap", "run.toml").stdout)
    if call("check", "run.pcap", "run.toml", "run.cert").stdout != audit.stdout:
        raise Wrong("check by the certificate says something else")
    return sum(len(listed) for listed in lists.values())


def main():
    asked = argparse.ArgumentParser(description="Has random runs of two ends audited.")
    asked.add_argument("program", type=pathlib.Path)
    asked.add_argument("runs", type=int, nargs="?", default=1000)
    asked.add_argument("seed", type=int, nargs="?", default=1)
    asked = asked.parse_args()
    program, runs = str(asked.program.resolve()), asked.runs
    packets = requests = listed = 0
    for number in range(runs):
        chance = random.Random(f"{asked.seed} {number}")
        run = Run(chance)
        for _ in range(chance.choice((20, 100, 500))):
            run.step()
        folder = pathlib.Path(tempfile.mkdtemp(prefix="random-run-"))
        write(run, folder)
        try:
            listed += test_run(run, program, folder)
        except Wrong as wrong:
            sys.exit(f"run {number} of seed {asked.seed}: {wrong}; see {folder}")
        shutil.rmtree(folder)
        packets += len(run.crossed)
        requests += sum(pdu.kind == REQUEST for end in run.ends for pdu in end.made)
    print(f"{runs} runs explained: {packets} packets, {requests} retransmission requests, {listed} messages listed")


if __name__ == "__main__":
    main()

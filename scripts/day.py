#!/usr/bin/env python3
"""A day of somebody new with captures that aren't known: makes them, and does with them what docs/INVESTIGATORS.md says.

    day.py [--seatmelon PATH] [--packets N] [--seed WORD] [--keep FOLDER]

The captures are made by the ends of random_runs.py over a calm network, others for each seed. The tasks, with how many
commands each takes, and what leads on:

- A port with five connections, copies of an opening and strangers between them (11): `survey` lists five connections;
  for each `draft CAPTURE N`, its values from the engineering data, and `explain CAPTURE PARAMS --summary`, whose first
  three lines are the verdict and both counts.
- Start words that the draft can't know (5): `explain` says that none of the codes fits the recorded ones, and
  `show --types data` lists the packets all the same; with the right ones `explain` explains them.
- A packet is missing in the middle (5): `explain` names the record and the packet before the gap, and that both numbers
  skip one; it says whether what stands before is explained, and by which `last_record`, and two commands explain what
  stands behind.
- 400,000 packets (3): `explain --summary` has 40 lines, and `--not-shown` those messages alone that weren't shown to be
  taken.
- Frames of another link type (16): `survey`, `draft`, `show` and `explain` name it, and what to do.
- Captures of Linux's `any` (14): of classic files `audit` names `seatmelon convert CAPTURE > OUT`, and its answer on
  what that writes is the one on the Ethernet frames; of pcapng files it is the same as they are.
- A short snapshot length (7): `survey` counts the datagrams that were captured cut, of each connection, or names the
  ends that only they show; `explain` names the snapshot length beside the first of them (15).
- Forty connections at once, one of which lacks a packet (4): `draft CAPTURE --all FOLDER` writes a parameter file for
  each, into which a script puts the engineering data; `audit CAPTURE FOLDER` says that 39 are explained and one is
  refused (28), and `explain` of that one that both its numbers skip 1.
- A port of ten connections in two rotated pcapng files (15): of the second file `audit` tells for each connection what
  was surely taken whatever came before, and `explain` that the capture begins in the middle; `survey` says of ten
  connections that they were opened before.
- Two ends that were tapped apart (4): `explain` names two clocks that differ by an SN that is confirmed before it
  crosses, and files in the wrong order by times that fall.
- A loop, in which each packet comes once more, three seconds later (3): copies end no silence, and behind the opening
  `survey` says `opened before the capture began`.
- Mistakes (5): a key that no parameter file has, a record that isn't there, client and server exchanged, and a capture
  in place of a parameter file are each named.

Prints for each task its commands and the seconds that they took; a task that doesn't come out as it should is named, and
the status is 1. Parameters come from drafts, with the values of the 'engineering data' in place of placeholders, as a
person would fill them in. `rt run` in crates/seatmelon leaves the program. Plain Python 3, no other packages.
"""

import argparse
import itertools
import json
import pathlib
import random
import re
import struct
import subprocess
import sys
import tempfile
import time

import pcapng
import random_runs
import rows

SEATMELON = rows.TOP / "crates/seatmelon/out/seatmelon"
WORDS = (0x0F1E2D3C, 0x4B5A6978, 0x8796A5B4, 0xC3D2E1F0)
MD4_WORDS = (0x67452301, 0xEFCDAB89, 0x98BADCFE, 0x10325476)
BEGIN = 1_767_225_600  # 2026-01-01
OPENING, DISCONNECTION_REQUEST = (6200, 6201), 6216


# ---- captures


def md4(data, start):
    """The MD4 digest of RFC 1320, which begins with these words."""
    rounds = (
        (lambda x, y, z: (x & y) | (~x & z), 0, tuple(range(16)), (3, 7, 11, 19)),
        (lambda x, y, z: (x & y) | (x & z) | (y & z), 0x5A827999, (0, 4, 8, 12, 1, 5, 9, 13, 2, 6, 10, 14, 3, 7, 11, 15), (3, 5, 9, 13)),
        (lambda x, y, z: x ^ y ^ z, 0x6ED9EBA1, (0, 8, 4, 12, 2, 10, 6, 14, 1, 9, 5, 13, 3, 11, 7, 15), (3, 9, 11, 15)),
    )
    state = list(start)
    data += b"\x80" + bytes((55 - len(data)) % 64) + struct.pack("<Q", 8 * len(data))
    for at in range(0, len(data), 64):
        block, (a, b, c, d) = struct.unpack("<16I", data[at : at + 64]), state
        for mix, constant, order, shifts in rounds:
            for step, place in enumerate(order):
                total = (a + mix(b, c, d) + block[place] + constant) & 0xFFFFFFFF
                shift = shifts[step % 4]
                a, b, c, d = d, (total << shift | total >> (32 - shift)) & 0xFFFFFFFF, b, c
        state = [(old + new) & 0xFFFFFFFF for old, new in zip(state, (a, b, c, d))]
    return struct.pack("<4I", *state)


class Connection:
    """A connection of two ends over a calm network: its parameters and its frames, each with its time."""

    def __init__(self, seed, hosts, ids, start=MD4_WORDS, packets=150, copies=True):
        self.chance, self.copies = random.Random(seed), copies
        self.hosts, self.ids, self.start = hosts, ids, start
        self.run = self.played(packets)
        self.frames = list(self.sent())

    def played(self, packets):
        while True:
            run = random_runs.Run(self.chance)
            if not run.p.quiet:
                break
        run.p.n_sendmax, run.p.t_max, run.p.slack, run.loss = 20, 1800, 0, 0.0
        while len(run.crossed) < packets:
            run.step()
        return run

    def datagram(self, side, position):
        plain = bytearray(random_runs.datagram(self.run, side, position))
        client, server = self.ids
        receiver, sender = ((server, client), (client, server))[side]
        struct.pack_into("<II", plain, 12, receiver, sender)
        safety = bytearray(plain[8:])
        struct.pack_into("<H", safety, 0, len(safety) + 16)
        safety += md4(bytes(safety), self.start)
        front = struct.pack("<H", 8 + len(safety)) + bytes(plain[2:8])
        return front + bytes(safety)

    def frame(self, side, datagram):
        client, server = (bytes((10, 1, self.hosts, end)) for end in (1, 2))
        source, target = (client, server) if side == 0 else (server, client)
        ip = struct.pack(">BBHHHBBH", 0x45, 0, 28 + len(datagram), 0, 0, 64, 17, 0) + source + target
        udp = struct.pack(">HHHH", 5000, 5000, 8 + len(datagram), 0)
        return bytes(12) + b"\x08\x00" + ip + udp + datagram

    def sent(self):
        moment, crossed = self.chance.random(), set()
        for side, position, _, _ in self.run.crossed:
            if self.copies or (side, position) not in crossed:
                moment += self.chance.random() / 20
                yield moment, self.frame(side, self.datagram(side, position))
            crossed.add((side, position))

    def values(self):
        """What the engineering data say of it, by the keys of a parameter file."""
        words = "".join(f"{word:08x}" for word in self.start)
        return {"t_max": 1800, "slack": 0, "n_sendmax": 20, "md4_start": f'"{words}"'}


def kind_of(frame):
    """The type of the PDU in a frame."""
    return struct.unpack_from("<H", frame, 52)[0]


def strangers(chance, count):
    """Frames of no connection: of ARP, and of other services over UDP."""
    for _ in range(count):
        moment = chance.random() * 8
        if chance.random() < 0.5:
            yield moment, bytes(12) + b"\x08\x06" + bytes(28)
        else:
            body = chance.randbytes(20)
            ip = struct.pack(">BBHHHBBH", 0x45, 0, 48, 0, 0, 64, 17, 0) + b"\x0a\x07\x07\x07\x0a\x07\x07\x08"
            yield moment, bytes(12) + b"\x08\x00" + ip + struct.pack(">HHHH", 53, 53, 28, 0) + body


def capture_of(frames):
    """A classic capture of frames with their times, in the order of these."""
    records = [struct.pack("<IHHiIII", 0xA1B2C3D4, 2, 4, 0, 0, 65_535, 1)]
    for moment, frame in sorted(frames, key=lambda it: it[0]):
        seconds = int(moment)
        micros = int((moment - seconds) * 1_000_000)
        records.append(struct.pack("<IIII", BEGIN + seconds, micros, len(frame), len(frame)) + frame)
    return b"".join(records)


# ---- tasks


class Day:
    def __init__(self, program, folder, seed):
        self.program, self.folder, self.seed, self.wrong = program, folder, seed, 0
        self.commands, self.seconds = 0, 0.0

    def path(self, name):
        return self.folder / name

    def connection(self, name, *more, **others):
        """A connection of this name, another one for each seed."""
        return Connection(f"{self.seed} {name}", *more, **others)

    def open_connection(self, name, *more, **others):
        """One that no end closes."""
        made = (self.connection(f"{name} {number}", *more, **others) for number in range(1000))
        return next(it for it in made if DISCONNECTION_REQUEST not in (kind_of(frame) for _, frame in it.frames))

    def call(self, *words):
        """Status, and both texts of a call."""
        begin = time.perf_counter()
        ran = subprocess.run([self.program, *map(str, words)], capture_output=True, text=True)
        self.commands, self.seconds = self.commands + 1, self.seconds + time.perf_counter() - begin
        return ran.returncode, ran.stdout, ran.stderr

    def expect(self, what, is_right, answer):
        if not is_right:
            self.wrong += 1
            print(f"  {what}: {[str(it)[:400] for it in answer]}")

    def task(self, what, run):
        self.commands, self.seconds = 0, 0.0
        run()
        print(f"{what}: {self.commands} commands, {self.seconds:.1f} s", flush=True)

    def filled_in(self, capture, number, values, name, *more):
        """The path of a draft with the engineering data's values in place of its placeholders."""
        status, text, error = self.call("draft", capture, number, *more)
        self.expect(f"draft {number}", status == 0, (status, text, error))
        for key, value in values.items():
            text = re.sub(rf"(?m)^{key} = [^#\n]*", f"{key} = {value} ", text)
        path = self.path(name)
        path.write_text(text)
        return path


def whole_port(day):
    """Five connections of one port: which are there, and which are in order."""
    chance = random.Random(f"{day.seed} strangers")
    connections = [day.connection(f"port {n}", n, (96 + 2 * n, 97 + 2 * n), packets=190) for n in range(5)]
    frames = [it for connection in connections for it in connection.frames]
    late = connections[2].frames[:4]
    frames += [(moment + 5, frame) for moment, frame in late]
    capture = day.path("port.pcap")
    capture.write_bytes(capture_of(frames + list(strangers(chance, 100))))
    answer = day.call("survey", capture)
    day.expect("five connections", answer[0] == 0 and answer[1].count("\nconnection ") == 5, answer)
    explained = 0
    for number in range(1, 6):
        parameters = day.filled_in(capture, number, connections[0].values(), f"port-{number}.toml")
        status, text, error = day.call("explain", capture, parameters, "--summary")
        explained += text.startswith("explained:")
    day.expect("explained", explained == 5, (explained,))


def start_words(day):
    """A connection with start words of its own, which the draft can't know."""
    connection = day.connection("words", 9, (96, 97), WORDS)
    capture = day.path("words.pcap")
    capture.write_bytes(capture_of(connection.frames))
    values = connection.values()
    known = {key: value for key, value in values.items() if key != "md4_start"}
    parameters = day.filled_in(capture, 1, known, "words.toml")
    answer = day.call("explain", capture, parameters)
    count = f"none of the {len(connection.frames)} codes fits the recorded start words"
    day.expect("unknown start words", answer[0] == 1 and count in answer[1], answer)
    answer = day.call("show", capture, parameters, "--types", "data")
    day.expect("show", answer[0] == 0 and "verdict" in answer[1], answer)
    parameters = day.filled_in(capture, 1, values, "words.toml")
    answer = day.call("explain", capture, parameters, "--summary")
    day.expect("right start words", answer[0] == 0 and answer[1].startswith("explained:"), answer)


def missing_packet(day):
    """A packet in the middle never reached the tap: what stands before the gap and behind it is explained apart."""
    connections = (day.open_connection(f"missing {n}", 11, (96, 97), packets=400, copies=False) for n in range(20))
    capture = day.path("missing.pcap")
    for connection, place in itertools.product(connections, range(120, 300, 4)):
        frames = connection.frames[:place] + connection.frames[place + 1 :]
        capture.write_bytes(capture_of(frames))
        parameters = day.filled_in(capture, 1, connection.values(), "missing.toml")
        status, text, error = day.call("explain", capture, parameters)
        gap = re.search(r"refused by 28 NumberGap.*?^record (\d+),", text, re.S | re.M)
        # Not behind each gap both ends come to rest.
        is_clear = "both numbers skip 1" in text and "before it are explained by themselves" in text
        if gap and is_clear and day.call("draft", capture, 1, "--after", gap.group(1))[0] == 0:
            break
    day.expect("refused at the gap", bool(gap), (status, text, error))
    day.commands, day.seconds = 2, 0.0
    record = int(gap.group(1))
    before = day.path("before.toml")
    before.write_text(re.sub(r"(?m)^last_record = \d+", f"last_record = {record - 1}", parameters.read_text()))
    answer = day.call("explain", capture, before, "--summary")
    day.expect("before the gap", answer[0] == 0 and answer[1].startswith("explained:"), answer)
    status, text, error = day.call("draft", capture, 1, "--after", record, parameters)
    behind = day.path("behind.toml")
    behind.write_text(text)
    day.expect("a quiet point behind the gap", status == 0 and "[quiet" in text or "quiet." in text, (status, text, error))
    answer = day.call("explain", capture, behind, "--summary")
    day.expect("behind the gap", answer[0] == 0 and answer[1].startswith("explained:"), answer)


def many_packets(day, packets):
    """As many packets as a working day has: what matters stands first."""
    connection = day.connection("many", 15, (96, 97), packets=packets)
    capture = day.path("many.pcap")
    capture.write_bytes(capture_of(connection.frames))
    parameters = day.filled_in(capture, 1, connection.values(), "many.toml")
    status, text, error = day.call("explain", capture, parameters, "--summary")
    lines = text.splitlines()
    right = status == 0 and lines[0].startswith("explained:") and lines[1].startswith("client to server: ")
    day.expect("verdict and counts first", right and len(lines) < 60, (status, text, error))
    answer = day.call("explain", capture, parameters, "--not-shown")
    day.expect("not shown", answer[0] == 0 and len(answer[1].splitlines()) < 200, answer)


LINK_TYPES = {113: "Linux cooked capture", 276: "Linux cooked capture v2", 200: None}


def other_frames(day):
    """Captures that weren't made on an Ethernet interface: what their frames are, and what can be done."""
    connection = day.connection("frames", 19, (96, 97))
    ethernet, capture = capture_of(connection.frames), day.path("frames.pcap")
    capture.write_bytes(ethernet)
    parameters = day.filled_in(capture, 1, connection.values(), "frames.toml")
    for number, name in LINK_TYPES.items():
        capture.write_bytes(ethernet[:20] + struct.pack("<I", number) + ethernet[24:])
        words = f"of link type {number}" + (f" ({name})" if name else "")
        advice = "seatmelon convert CAPTURE > OUT" if name else "Ethernet interface"
        for command in (("survey", capture), ("draft", capture, 1), ("show", capture, parameters)):
            answer = day.call(*command)
            day.expect(command[0], answer[0] == 1 and words in answer[2] and advice in answer[2], answer)
        answer = day.call("explain", capture, parameters)
        day.expect("explain", answer[0] == 1 and words in answer[1] and advice in answer[1], answer)
        status, text, error = day.call("explain", capture, parameters, "--json")
        told = json.loads(text)
        day.expect("JSON", status == 1 and (told["link_type"], told["link_type_name"]) == (number, name), (status, text, error))


def cooked(number, frame):
    """An Ethernet frame as Linux's `any` gives it, with a cooked header of this link type."""
    address, protocol = b"\x02\0\0\0\0\x07", frame[12:14]
    if number == 113:
        return struct.pack(">HHH", 0, 1, 6) + address + bytes(2) + protocol + frame[14:]
    return protocol + bytes(2) + struct.pack(">IHBB", 3, 1, 0, 6) + address + bytes(2) + frame[14:]


def captures_of_any(day):
    """Captures of Linux's `any`: the answers are those of the Ethernet frames that one command makes of a classic file,
    and that are read in a pcapng file."""
    connection = day.connection("any", 23, (96, 97))
    ethernet, capture = capture_of(connection.frames), day.path("any.pcap")
    capture.write_bytes(ethernet)
    parameters = day.filled_in(capture, 1, connection.values(), "any.toml")
    whole = day.call("audit", capture, parameters)
    for number in (113, 276):
        frames = capture_of([(moment, cooked(number, frame)) for moment, frame in connection.frames])
        capture.write_bytes(frames[:20] + struct.pack("<I", number) + frames[24:])
        answer = day.call("audit", capture, parameters)
        day.expect("the command is named", answer[0] == 1 and "seatmelon convert CAPTURE > OUT" in answer[2], answer)
        with day.path("converted.pcap").open("wb") as out:
            ran = subprocess.run([day.program, "convert", str(capture)], stdout=out, stderr=subprocess.PIPE, text=True)
        is_told = f"that got Ethernet headers: {len(connection.frames)};" in ran.stderr
        day.expect("converted", ran.returncode == 0 and is_told, (ran.returncode, "", ran.stderr))
        answer = day.call("audit", day.path("converted.pcap"), parameters)
        day.expect("the same answer", answer == whole and answer[0] == 0, answer)
        pcapng_of_any(day, connection, number, parameters)


def pcapng_of_any(day, connection, number, parameters):
    """The same packets in a pcapng file of this link type."""
    capture = day.path("any.pcapng")
    capture.write_bytes(in_pcapng(connection.frames, number, lambda frame: cooked(number, frame)))
    told = f"an interface of this file has link type {number} ("
    counts = day.call("audit", day.path("converted.pcap"), parameters)
    answer = day.call("audit", capture, parameters)
    lines = answer[1].splitlines()
    others = [line for line in lines if not line.startswith(told)]
    is_same = others == counts[1].splitlines() and len(lines) == len(others) + 1
    day.expect("read as frames", answer[0] == 0 and is_same, answer)
    answer = day.call("explain", capture, parameters)
    words = f"read as pcapng; an interface of it has link type {number} ("
    day.expect("explained as frames", answer[0] == 0 and words in answer[1], answer)
    with day.path("converted.pcap").open("wb") as out:
        ran = subprocess.run([day.program, "convert", str(capture)], stdout=out, stderr=subprocess.PIPE, text=True)
    is_told = f"packets of link type {number} (" in ran.stderr and "were written as Ethernet frames" in ran.stderr
    day.expect("converted", ran.returncode == 0 and is_told, (ran.returncode, "", ran.stderr))
    answer = day.call("audit", day.path("converted.pcap"), parameters)
    day.expect("the same answer again", answer == counts, answer)


def cut_to(capture, length):
    """The same capture, made with this snapshot length."""
    cut, at = [capture[:16] + struct.pack("<I", length) + capture[20:24]], 24
    while at < len(capture):
        front, captured = capture[at : at + 8], struct.unpack_from("<I", capture, at + 8)[0]
        frame = capture[at + 16 : at + 16 + captured]
        cut.append(front + struct.pack("<II", min(captured, length), captured) + frame[:length])
        at += 16 + captured
    return b"".join(cut)


def short_snapshots(day):
    """Captures with a short snapshot length: a survey says why there is no connection, or less of one."""
    connection = day.connection("short", 21, (96, 97))
    whole, capture = capture_of(connection.frames), day.path("short.pcap")
    capture.write_bytes(whole)
    parameters = day.filled_in(capture, 1, connection.values(), "short.toml")
    frames = [frame for _, frame in connection.frames]
    for length in (40, 60, 96):
        capture.write_bytes(cut_to(whole, length))
        count = sum(len(frame) > length for frame in frames)
        status, text, error = day.call("survey", capture)
        lines = text.splitlines()
        all_cut = f"UDP datagrams that were captured cut (snapshot length {length}): {count}"
        only_cut = f"only in datagrams that were captured cut (snapshot length {length}): "
        beside = f"  {count} datagrams of these hosts were captured cut (snapshot length {length})"
        day.expect("all cut datagrams", all_cut in lines, (status, text, error))
        has_whole = count < len(frames)
        day.expect("beside a connection", (beside in lines) == has_whole, (status, text, error))
        is_shown = length >= 54 and not has_whole
        day.expect("in no connection", (only_cut in text) == is_shown, (status, text, error))
        status, text, error = day.call("explain", capture, parameters)
        told = f"snapshot length in the file's header: {length} bytes"
        day.expect("explain", status == 1 and "refused by 15 CutPacket" in text and told in text, (status, text, error))


def fill_in(path, values):
    """Writes the engineering data's values into a draft, in place of its placeholders."""
    text = path.read_text()
    for key, value in values.items():
        text = re.sub(rf"(?m)^{key} = [^#\n]*", f"{key} = {value} ", text)
    path.write_text(text)


def all_connections(day):
    """All connections of a capture at once, one of which lacks a packet: drafts, audits, and why one is refused."""
    chance = random.Random(f"{day.seed} all")
    connections = [day.connection(f"all {n}", 50 + n, (200 + 2 * n, 201 + 2 * n), copies=False) for n in range(40)]
    capture, folder = day.path("all.pcap"), day.path("all")
    lacking = connections[17].frames
    del lacking[next(place for place in range(len(lacking) // 2, len(lacking)) if is_followed(lacking, place))]
    frames = [it for connection in connections for it in connection.frames]
    capture.write_bytes(capture_of(frames + list(strangers(chance, 100))))
    answer = day.call("survey", capture)
    day.expect("forty connections", answer[0] == 0 and answer[1].count("\nconnection ") == 40, answer)
    answer = day.call("draft", capture, "--all", folder)
    day.expect("forty drafts", answer[0] == 0 and len(answer[1].splitlines()) == 40, answer)
    for path in folder.glob("*.toml"):
        fill_in(path, connections[0].values())
    status, text, error = day.call("audit", capture, folder)
    lines = text.splitlines()
    refused = [line for line in lines if ": refused by 28 NumberGap, record " in line]
    counts = f"40 connections: 39 explained, 1 refused; {len(frames)} packets; 100 records of none of these connections"
    day.expect("one is refused", status == 1 and len(refused) == 1 and lines[-1] == counts, (status, lines[-1:], error))
    answer = day.call("explain", capture, refused[0].split(":")[0], "--summary")
    day.expect("why it is", answer[0] == 1 and "both numbers skip 1" in answer[1], answer)


def is_followed(frames, place):
    """Whether the sender of a frame sends another one behind it, so that its number is missed there."""
    sender = frames[place][1][26:30]
    return any(frame[26:30] == sender for _, frame in frames[place + 1 :])


def in_pcapng(frames, link_type=pcapng.ETHERNET, spelled=bytes):
    """A pcapng file of frames with their times, in the order of these, each as it is spelled for this link type."""
    blocks = [pcapng.section("<"), pcapng.interface("<", link_type)]
    for moment, frame in sorted(frames, key=lambda it: it[0]):
        blocks.append(pcapng.enhanced("<", 0, BEGIN * 1_000_000 + int(moment * 1_000_000), spelled(frame)))
    return b"".join(blocks)


def rotated_files(day):
    """A port of ten connections in two files: of those in the second one it is told what the packets show alone."""
    connections = [day.connection(f"rotated {n}", 100 + n, (300 + 2 * n, 301 + 2 * n)) for n in range(10)]
    frames = sorted((it for connection in connections for it in connection.frames), key=lambda it: it[0])
    first, second, whole = (day.path(f"rotated-{name}.pcapng") for name in ("1", "2", "whole"))
    half = len(frames) // 2
    for path, part in ((first, frames[:half]), (second, frames[half:]), (whole, frames)):
        path.write_bytes(in_pcapng(part))
    folder = day.path("rotated")
    answer = day.call("draft", whole, "--all", folder)
    day.expect("ten drafts", answer[0] == 0 and len(answer[1].splitlines()) == 10, answer)
    for path in folder.glob("*.toml"):
        fill_in(path, connections[0].values())
    answer = day.call("audit", whole, folder)
    day.expect("both files", answer[0] == 0 and "10 connections: 10 explained" in answer[1], answer)
    answer = day.call("audit", first, folder)
    day.expect("the first file", answer[0] == 0 and "10 connections: 10 explained" in answer[1], answer)
    status, text, error = day.call("audit", "--json", second, folder)
    told = json.loads(text)["connections"]
    has_counts = all(it["verdict"] == "refused" and it["from_the_middle"] and not it["begins_with_opening"] for it in told)
    day.expect("the second file", status == 1 and len(told) == 10 and has_counts, (status, text, error))
    for path in sorted(folder.glob("*.toml")):
        answer = day.call("explain", second, path)
        day.expect("its beginning", answer[0] == 1 and is_of_the_middle(answer[1]), answer)
    status, text, error = day.call("survey", second)
    begun = text.count("\n  no opening was captured\n") + text.count("\n  opened before the capture began\n")
    behind = [next((frame for moment, frame in connection.frames if moment >= frames[half][0]), None) for connection in connections]
    from_before = sum(frame is not None and kind_of(frame) != OPENING[0] for frame in behind)
    day.expect("connections from before", status == 0 and begun == from_before, (status, from_before, text, error))


def is_of_the_middle(text):
    """Whether a text says that the capture begins in the middle, and not that a packet was overtaken."""
    causes = text.partition("may be the cause:\n")[2].partition("look next at:\n")[0]
    counts = re.search(r"client to server: (\d+) of (\d+) captured messages surely taken", text)
    return "begins in the middle" in causes and "overtaken" not in causes and counts is not None


def ends_tapped_apart(day):
    """Each end on a tap of its own: with one clock they are explained, and with two it is said that these differ."""
    connection = day.open_connection("taps", 25, (96, 97), copies=False)
    capture = day.path("taps.pcap")
    capture.write_bytes(capture_of(connection.frames))
    parameters = day.filled_in(capture, 1, connection.values(), "taps.toml")
    answer = day.call("explain", capture, parameters, "--summary")
    day.expect("one clock", answer[0] == 0 and answer[1].startswith("explained:"), answer)
    sides = [[it for it in connection.frames if (it[1][29] == 1) == is_client] for is_client in (True, False)]
    capture.write_bytes(capture_of(sides[0] + [(max(0.0, moment - 5), frame) for moment, frame in sides[1]]))
    answer = day.call("explain", capture, parameters)
    day.expect("two clocks", answer[0] == 1 and "two taps whose clocks differ, or files in the wrong order" in answer[1], answer)
    # The middle of three files stands behind the last one.
    third = len(connection.frames) // 3
    first, second, last = (connection.frames[at : at + third] for at in (0, third, 2 * third))
    capture.write_bytes(capture_of(first) + capture_of(last)[24:] + capture_of(second)[24:])
    parameters.write_text(re.sub(r"(?m)^last_record = \d+", f"last_record = {3 * third}", parameters.read_text()))
    answer = day.call("explain", capture, parameters)
    day.expect("files in the wrong order", answer[0] == 1 and f"times fall, first in record {2 * third + 1}: files in the wrong order" in answer[1], answer)


def loop(day):
    """Each packet comes once more, three seconds later: copies end no silence, and open nothing."""
    connection = day.open_connection("loop", 27, (96, 97))
    later = [(moment + 3, frame) for moment, frame in connection.frames]
    capture = day.path("loop.pcap")
    capture.write_bytes(capture_of(connection.frames + later))
    parameters = day.filled_in(capture, 1, connection.values(), "loop.toml")
    status, text, error = day.call("explain", capture, parameters)
    day.expect("explained", status == 0 and text.startswith("explained:"), (status, text, error))
    silences = re.findall(r"longest silence of the .* to the end of the (?:capture|window)", text)
    day.expect("copies end no silence", len(silences) == 2, (status, text, error))
    # Without the opening, so that its late copies are the first that are captured of it.
    cut = [it for it in connection.frames if kind_of(it[1]) not in OPENING]
    capture.write_bytes(capture_of(cut + later))
    answer = day.call("survey", capture)
    day.expect("one connection", answer[1].count("\nconnection ") == 1 and "opened before the capture began" in answer[1], answer)


def mistakes(day):
    """What is mistyped leads on."""
    connection = day.connection("mistakes", 17, (96, 97))
    capture = day.path("mistakes.pcap")
    capture.write_bytes(capture_of(connection.frames))
    parameters = day.filled_in(capture, 1, connection.values(), "mistakes.toml")
    text = parameters.read_text()
    day.path("key.toml").write_text(text.replace("t_max", "tmax"))
    answer = day.call("explain", capture, day.path("key.toml"))
    day.expect("a mistyped key", answer[0] == 2 and "did you mean t_max?" in answer[2], answer)
    answer = day.call("explain", capture, parameters, "--without", "9999")
    day.expect("a record that isn't there", answer[0] == 2 and "no record 9999" in answer[2], answer)
    exchanged = text.replace("client_id", "other_id").replace("server_id", "client_id").replace("other_id", "server_id")
    exchanged = re.sub(r'client = ("[^"]*")(.*)\nserver = ("[^"]*")', r"client = \3\2\nserver = \1", exchanged)
    day.path("exchanged.toml").write_text(exchanged)
    answer = day.call("explain", capture, day.path("exchanged.toml"))
    day.expect("exchanged ends", answer[0] == 1 and "are client and server exchanged" in answer[1], answer)
    answer = day.call("explain", day.path("exchanged.toml"), capture)
    day.expect("exchanged files", answer[0] == 2 and "a parameter file is wanted" in answer[2], answer)


def main():
    asked = argparse.ArgumentParser(description="A day with captures that aren't known.")
    asked.add_argument("--seatmelon", type=pathlib.Path, default=SEATMELON)
    asked.add_argument("--packets", type=int, default=400_000)
    asked.add_argument("--seed", default="1")
    asked.add_argument("--keep", type=pathlib.Path, help="a folder in which the captures stay")
    asked = asked.parse_args()
    with tempfile.TemporaryDirectory() as folder:
        folder = asked.keep or pathlib.Path(folder)
        folder.mkdir(parents=True, exist_ok=True)
        day = Day(str(asked.seatmelon.resolve()), folder, asked.seed)
        day.task("a whole port", lambda: whole_port(day))
        day.task("start words of its own", lambda: start_words(day))
        day.task("a missing packet", lambda: missing_packet(day))
        day.task("many packets", lambda: many_packets(day, asked.packets))
        day.task("frames of another link type", lambda: other_frames(day))
        day.task("captures of Linux's any", lambda: captures_of_any(day))
        day.task("a capture with a short snapshot length", lambda: short_snapshots(day))
        day.task("all connections", lambda: all_connections(day))
        day.task("a port in two files", lambda: rotated_files(day))
        day.task("ends that were tapped apart", lambda: ends_tapped_apart(day))
        day.task("a loop", lambda: loop(day))
        day.task("mistakes", lambda: mistakes(day))
    return day.wrong > 0


if __name__ == "__main__":
    sys.exit(main())

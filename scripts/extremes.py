#!/usr/bin/env python3
"""Runs the program on inputs at the limits, and compares each answer with the one that docs/FORMATS.md requires.

    extremes.py [--program PATH] [--unlimited] [PART..]

The parts (all of them, if none is named):

    pdus           1,000,000 PDUs of the client, explained in full, and one more
    records        a foreign record of 262,144 bytes, and of one more
    options        headers of IPv4 with options of 0 to 40 bytes
    tags           frames with 0, 1, 2 and 255 tags of IEEE 802.1Q
    outputs        a full device, a closed pipe and a closed descriptor as standard output
    files          directories and missing files in place of each file
    toml           texts of a megabyte, 10,000 nested tables and arrays, doubled keys
    certificates   4,000,000 entries, and one more
    payload        a data PDU of the greatest payload, with one message and with as many as it holds
    burst          65535 as N_sendmax, and a burst of 60,000 units

Each call has a minute, and an address space of 64 MiB and 50 times the size of its files (unbounded with `--unlimited`,
for builds with a sanitizer). The expected texts are made here, from packets and scripts, without the program. Prints a
line for each part. `rt run` in crates/rasta_audit leaves the program.
Plain Python 3, no other packages.
"""

import argparse
import collections
import functools
import os
import pathlib
import resource
import struct
import sys
import tempfile

import answers
import rows

OPENING = b"0303" + struct.pack("<H", 20) + bytes(8)
HANDSHAKE = [
    ("client", 7, 6200, 100, 0, 1000, 0, OPENING),
    ("server", 40, 6201, 500, 100, 9000, 1000, OPENING),
    ("client", 8, 6220, 101, 500, 1010, 9000),
]
CLIENT = ["make 0 1000 open", "take 2 40", "make 2 1010 reply"]
SERVER = ["take 1 7", "make 1 9000 reply"]
FILES = ("capture.pcap", "parameters.toml", "certificate.cert")


def frames_of(packets):
    return [rows.frame_of(packet[0], rows.datagram_of(*packet)) for packet in packets]


def certificate_of(client, server):
    return "\n".join(["rasta-certificate 1", "client", *client, "server", *server, "end", ""]).encode()


def shown(packets):
    """What `show` writes of packets in a file of their own."""
    lines = []
    for place, (side, number, kind, sn, cs, ts, cts, *payload) in enumerate(packets):
        body = "-"
        if kind in (6200, 6201):
            body = "open 0303 20 0000000000000000"
        elif payload:
            body = "data " + ",".join(message.hex() or "." for message in messages_in(payload[0]))
        lines.append(f"{place} {place + 1} 1 {side} {number} 0 {kind} {sn} {cs} {ts} {cts} {body} - -\n")
    return ("".join(lines) + f"packets {len(lines)}\n").encode()


def messages_in(payload):
    found, at = [], 0
    while at < len(payload):
        size = int.from_bytes(payload[at : at + 2], "little")
        found.append(payload[at + 2 : at + 2 + size])
        at += 2 + size
    return found


def explained(packets, client, server, server_took=()):
    """What `check` writes of packets, all of them first copies, that these scripts explain."""
    takes, makes = collections.defaultdict(list), {}
    for side, script in (("client", client), ("server", server)):
        for entry in script:
            first, at, rest = entry.split(" ", 2)
            if first == "take":
                takes[int(at)].append(f"{at} {side} take {rest}\n")
            else:
                makes[int(at)] = rest
    out = [f"explained {len(packets)}\n"]
    for place, packet in enumerate(packets):
        out += takes[place]
        out.append(f"{place} {packet[0]} make {packet[1]} {makes[place]}\n")
    out += takes[len(packets)]
    out += ["taken by client 0\n", f"taken by server {len(server_took)}\n"]
    out += [f"{i} {data} {proof} {message.hex() or '.'}\n" for i, (data, proof, message) in enumerate(server_took)]
    return "".join(out).encode()


def refused(number, place, end="-"):
    return f"refused {number} {answers.FAULTS[number]} {place} {end}\n".encode()


def limit_memory(size):
    resource.setrlimit(resource.RLIMIT_AS, (size, size))


class Part:
    """Calls of a part, and how many were answered wrongly."""

    def __init__(self, program, folder, is_limited):
        self.program, self.folder, self.is_limited = program, folder, is_limited
        self.calls, self.wrong, self.seconds = 0, 0, 0.0

    def write(self, capture=None, parameters=None, certificate=None):
        """Writes files, and those of the handshake for what is not told."""
        given = (capture, parameters, certificate)
        standing = rows.capture_of(frames_of(HANDSHAKE)), rows.parameters_of(), certificate_of(CLIENT, SERVER)
        for name, data, usual in zip(FILES, given, standing):
            (self.folder / name).write_bytes(usual if data is None else data)

    def call(self, command, paths=FILES, **options):
        paths = [self.folder / path for path in paths[: 3 if command == "check" else 2]]
        if self.is_limited and "preexec_fn" not in options:
            size = sum(path.stat().st_size for path in paths if path.is_file())
            options["preexec_fn"] = functools.partial(limit_memory, 64 * 2**20 + 50 * size)
        answer = answers.call([self.program, command, *paths], 60, **options)
        self.calls += 1
        self.seconds = max(self.seconds, answer.seconds)
        return answer

    def judge(self, what, is_right, answer):
        if not is_right:
            self.wrong += 1
            told = [text[:200] for text in (answer.out, answer.error)]
            print(f"  {what}: status {answer.status}, {told}")

    def expect(self, what, command, out, **options):
        """A command that writes this text, with its status."""
        answer = self.call(command, **options)
        status = 1 if out.split(b"\n")[-2].startswith(b"refused") else 0
        self.judge(f"{command}, {what}", answer.told() == (status, out, b""), answer)

    def expect_error(self, what, command, status, error, **options):
        """A command that writes nothing but this line on standard error."""
        answer = self.call(command, **options)
        self.judge(f"{command}, {what}", answer.told() == (status, b"", error), answer)


# ---- the parts


def heartbeats_of(count):
    """Heartbeats of the client after the handshake, until it has sent so many PDUs."""
    return [("client", 7 + i, 6220, 100 + i, 500, 1010, 9000) for i in range(2, count)]


def beats_of(count):
    """The script by which the client makes them."""
    return CLIENT + [f"make {place} 1010 beat" for place in range(3, count + 1)]


def records_of(heartbeats):
    """The records of heartbeats, which differ in their redundancy numbers and SNs alone."""
    record = bytearray(rows.record_of(*frames_of(heartbeats[:1])))
    out = bytearray()
    for it in heartbeats:
        struct.pack_into("<I", record, 62, it[1])
        struct.pack_into("<I", record, 78, it[3])
        out += record
    assert out.endswith(rows.record_of(*frames_of(heartbeats[-1:])))
    return bytes(out)


def pdus(part):
    heartbeats = heartbeats_of(1_000_001)
    records = records_of(heartbeats)
    capture = rows.capture_of(frames_of(HANDSHAKE))
    client, packets = beats_of(1_000_000), HANDSHAKE + heartbeats[:-1]
    part.write(capture + records[:-94], None, certificate_of(client, SERVER))
    part.expect("1,000,000 PDUs", "check", explained(packets, client, SERVER))
    part.expect("1,000,000 PDUs", "show", shown(packets))
    answer = part.call("audit")
    right = answer.status == 0 and answer.out.startswith(b"explained 1000001\n")
    right = right and answers.taken_lists(answer.out) == b"taken by client 0\ntaken by server 0\n"
    part.judge("audit, 1,000,000 PDUs", right, answer)
    part.write(capture + records, None, certificate_of(client, SERVER))
    for command in ("check", "build", "audit"):
        part.expect("one PDU more", command, refused(17, 1_000_002))
    part.expect("one PDU more", "show", shown(packets + heartbeats[-1:]))


def records(part):
    first, *rest = map(rows.record_of, frames_of(HANDSHAKE))
    for size in (262_144, 262_145):
        part.write(rows.header_of() + first + rows.record_of(bytes(size)) + b"".join(rest))
        if size == 262_144:
            part.expect(f"{size} bytes", "check", explained(HANDSHAKE, CLIENT, SERVER))
            continue
        part.expect(f"{size} bytes", "show", shown(HANDSHAKE[:1]).replace(b"packets 1\n", refused(18, 2)))
        for command in ("check", "build", "audit"):
            part.expect(f"{size} bytes", command, refused(18, 2))


def options(part):
    for size in range(0, 41, 4):
        frames = [rows.frame_of(it[0], rows.datagram_of(*it), options=bytes([1] * size)) for it in HANDSHAKE]
        part.write(rows.capture_of(frames))
        part.expect(f"options of {size} bytes", "show", shown(HANDSHAKE))
        part.expect(f"options of {size} bytes", "check", explained(HANDSHAKE, CLIENT, SERVER))


def tags(part):
    for count in (0, 1, 2, 255):
        tag = bytes.fromhex("81000005") * count
        part.write(rows.capture_of([rows.frame_of(it[0], rows.datagram_of(*it), tag) for it in HANDSHAKE]))
        seen = HANDSHAKE if count < 2 else []
        part.expect(f"{count} tags", "show", shown(seen))
        text = explained(HANDSHAKE, CLIENT, SERVER) if seen else refused(32, 1, "client")
        part.expect(f"{count} tags", "check", text)


def with_closed_pipe(part, command):
    reader, writer = os.pipe()
    os.close(reader)
    with os.fdopen(writer, "wb") as pipe:
        return part.call(command, stdout=pipe)


def with_no_output(part, command):
    return part.call(command, preexec_fn=functools.partial(os.close, 1))


def outputs(part):
    packets = HANDSHAKE + heartbeats_of(2000)
    whole = rows.capture_of(frames_of(packets)), None, certificate_of(beats_of(2000), SERVER)
    for what, files in (("a short text", ()), ("a long text", whole), ("a refusal", (b"",))):
        part.write(*files)
        for command in ("show", "build", "check", "audit"):
            with open("/dev/full", "wb") as full:
                part.expect_error(f"{what} to a full device", command, 3, refused(3, 0), stdout=full)
            for how, run in (("a closed pipe", with_closed_pipe), ("no output", with_no_output)):
                answer = run(part, command)
                part.judge(f"{command}, {what} to {how}", answer.told() == (3, b"", refused(3, 0)), answer)
    part.write(parameters=b"")
    with open("/dev/full", "wb") as full:
        answer = part.call("show", stderr=full)
        part.judge("show, a refusal to a full device as standard error", answer.told() == (2, b"", b""), answer)


def files(part):
    part.write()
    (part.folder / "directory").mkdir(exist_ok=True)
    for other in ("directory", "missing"):
        for command in ("show", "build", "check", "audit"):
            for i in range(3 if command == "check" else 2):
                paths = FILES[:i] + (other,) + FILES[i + 1 :]
                part.expect_error(f"{other} as {FILES[i]}", command, 3, refused(2, 0), paths=paths)
    part.expect("the null device as capture", "check", refused(13, 0), paths=("/dev/null", *FILES[1:]))
    part.expect("the null device as certificate", "check", refused(30, 1), paths=(*FILES[:2], "/dev/null"))
    paths = (FILES[0], "/dev/null", FILES[2])
    part.expect_error("the null device as parameters", "check", 2, refused(51, 1), paths=paths)


DEEP = 10_000
# Texts before the keys, and the places of a refusal by 52 that each may have; nothing where it is explained.
TEXTS = {
    "a comment of a megabyte": ("#" + "x" * 2**20 + "\n", None),
    "a megabyte of empty lines": ("\n" * 2**20, None),
    "a text of a megabyte": ('md4_start = "' + "0" * 2**20 + '"\n', {4}),
    "a number of a megabyte": ("a = " + "1" * 2**20 + "\n", {12}),
    "a key of a megabyte": ("a" * 2**20 + " = 1\n", {12}),
    "many unknown keys": ("".join(f"key_{i} = {i}\n" for i in range(70_000)), {12}),
    "an array of a megabyte": ("a = [" + "1, " * 350_000 + "]\n", {12}),
    "arrays in arrays": ("a = " + "[" * DEEP + "]" * DEEP + "\n", {12}),
    "arrays in arrays, not ended": ("a = " + "[" * DEEP + "\n", {12}),
    "a megabyte of arrays in arrays": ("a = " + "[" * 2**19 + "]" * 2**19 + "\n", {12}),
    "a megabyte of arrays, not ended": ("a = " + "[" * 2**20 + "\n", {12}),
    "tables in tables": ("a = " + "{a = " * DEEP + "1" + "}" * DEEP + "\n", {12}),
    "tables in tables, not ended": ("a = " + "{a = " * DEEP + "\n", {12}),
    "tables and arrays by turns": ("a = " + "[{a = " * DEEP + "1" + "}]" * DEEP + "\n", {12}),
    "a key of many parts": ("a." * DEEP + "a = 1\n", {12}),
    "arrays in place of a number": ("first_record = " + "[" * DEEP + "]" * DEEP + "\n", {9}),
    "a key that stands twice": ("client_id = 96\n", set()),
    "a part that stands twice": ("a.b = 1\na.b = 2\n", set()),
    "a number and a table": ("a = 1\na.b = 2\n", set()),
    "an inline table that goes on": ("quiet = {}\nquiet.client = {}\n", set()),
}
# The same after the keys.
TABLES = {
    "a table of many parts": ("[" + "a." * DEEP + "a]\n", {12}),
    "a table that stands twice": ("[a]\n[a]\n", set()),
    "an array and a table": ("[channel]\n", set()),
    "many channels": ("[[channel]]\nclient = '10.0.2.1:1'\nserver = '10.0.2.2:1'\n" * 20_000, {11}),
    "many tables": ("".join(f"[a{i}]\n" for i in range(100_000)), {12}),
    "many parts of a channel": ("".join(f"k{i} = 1\n" for i in range(70_000)), {11}),
}


def expect_parameters(part, what, text, places):
    """A parameter text that changes nothing, or is refused by 50 or at one of these places by 52."""
    part.write(parameters=text)
    if places is None:
        part.expect(what, "check", explained(HANDSHAKE, CLIENT, SERVER))
        return
    answer = part.call("show")
    allowed = [refused(50, 0)] + [refused(52, place) for place in places]
    part.judge(what, answer.status == 2 and not answer.out and answer.error in allowed, answer)


def toml(part):
    keys = rows.parameters_of()
    for what, (text, places) in TEXTS.items():
        expect_parameters(part, what, text.encode() + keys, places)
    for what, (text, places) in TABLES.items():
        expect_parameters(part, what, keys + text.encode(), places)


def certificates(part):
    entry, head = b"make 0 1000 open\n", b"rasta-certificate 1\nclient\n"
    part.write(certificate=head + entry * 4_000_000 + b"server\nend\n")
    part.expect("4,000,000 entries", "check", refused(31, 2, "client"))
    part.write(certificate=head + entry * 4_000_001 + b"server\nend\n")
    part.expect("one entry more", "check", refused(45, 4_000_003))
    half = entry * 2_000_000
    part.write(certificate=head + half + b"server\n" + half + b"end\n")
    part.expect("4,000,000 entries of both", "check", refused(31, 2, "client"))
    part.write(certificate=head + half + b"server\n" + half + entry + b"end\n")
    part.expect("one entry more of both", "check", refused(45, 4_000_004))


def payload(part):
    one = [bytes(i % 251 for i in range(65_469))]
    for messages in (one, [b""] * 32_734 + [b"\x2a"]):
        content = b"".join(struct.pack("<H", len(it)) + it for it in messages)
        data = ("client", 9, 6240, 102, 500, 1020, 9000, content)
        assert len(rows.datagram_of(*data)) == 65_507
        packets = HANDSHAKE + [data, ("server", 41, 6220, 501, 102, 9050, 1020)]
        client, server = CLIENT + ["make 3 1020 fresh"], SERVER + ["take 4 8", "take 4 9", "make 4 9050 beat"]
        part.write(rows.capture_of(frames_of(packets)), None, certificate_of(client, server))
        what, took = f"{len(messages)} messages", [(3, 4, it) for it in messages]
        part.expect(what, "show", shown(packets))
        for command in ("check", "audit"):
            part.expect(what, command, explained(packets, client, server, took))


def burst_of(n):
    """A capture whose client sends n units, of which the server takes none but asks, and sends them again: packets,
    both scripts, and what the server took."""
    units = [struct.pack("<HI", 4, k) for k in range(n)]
    packets = HANDSHAKE + [("client", 9 + k, 6240, 102 + k, 500, 1020, 9000, unit) for k, unit in enumerate(units)]
    packets.append(("server", 41, 6212, 501, 101, 9060, 1010))
    packets.append(("client", 9 + n, 6213, 102 + n, 501, 1070, 9060))
    packets += [("client", 10 + n + k, 6241, 103 + n + k, 501, 1071, 9060, unit) for k, unit in enumerate(units)]
    packets.append(("client", 10 + 2 * n, 6220, 103 + 2 * n, 501, 1080, 9060))
    packets.append(("server", 42, 6220, 502, 103 + 2 * n, 9090, 1080))
    client = CLIENT + [f"make {3 + k} 1020 fresh" for k in range(n)]
    client += [f"take {4 + n} 41", f"make {4 + n} 1070 reply"]
    client += [f"make {5 + n + k} 1071 again {k}" for k in range(n)] + [f"make {5 + 2 * n} 1080 beat"]
    server = SERVER + [f"take {3 + n} 8", f"take {3 + n} {8 + n}", f"make {3 + n} 9060 ask"]
    server += [f"take {6 + 2 * n} {number}" for number in range(9 + n, 11 + 2 * n)] + [f"make {6 + 2 * n} 9090 beat"]
    return packets, client, server, [(3 + k, 6 + 2 * n, unit[2:]) for k, unit in enumerate(units)]


def burst(part):
    packets, client, server, took = burst_of(60_000)
    parameters = rows.parameters_of(n_sendmax=65535)
    part.write(rows.capture_of(frames_of(packets)), parameters, certificate_of(client, server))
    text = explained(packets, client, server, took)
    part.expect("60,000 units", "check", text)
    answer = part.call("audit")
    right = answer.status == 0 and answers.taken_lists(answer.out) == answers.taken_lists(text)
    part.judge("audit, 60,000 units", right and answer.out.startswith(f"explained {len(packets)}\n".encode()), answer)
    # The PDU that shows the loss is 59,999 ahead. Where that is too far it changes nothing, so nothing is asked for.
    part.write(rows.capture_of(frames_of(packets)), rows.parameters_of(n_sendmax=5999), certificate_of(client, server))
    part.expect("60,000 units and a smaller N_sendmax", "check", refused(41, 5, "server"))


PARTS = [pdus, records, options, tags, outputs, files, toml, certificates, payload, burst]


def try_part(run, program, is_limited):
    with tempfile.TemporaryDirectory(prefix="extremes-") as folder:
        part = Part(program, pathlib.Path(folder), is_limited)
        try:
            run(part)
        except answers.TooLong:
            part.wrong += 1
            print("  a call has not ended after a minute")
    print(f"{run.__name__}: {part.calls} calls, the longest {part.seconds:.2f} s, {part.wrong} wrong", flush=True)
    return part


def main():
    asked = argparse.ArgumentParser(description="Runs the program on inputs at the limits.")
    asked.add_argument("--program", type=pathlib.Path, default=rows.PROGRAM, help="rasta_audit")
    asked.add_argument("--unlimited", action="store_true", help="without a bound on memory")
    asked.add_argument("parts", nargs="*", metavar="PART", help=" ".join(run.__name__ for run in PARTS))
    words = asked.parse_args()
    named = [run for run in PARTS if run.__name__ in words.parts] if words.parts else PARTS
    done = [try_part(run, words.program.resolve(), not words.unlimited) for run in named]
    print(f"{sum(part.calls for part in done)} calls, {sum(part.wrong for part in done)} wrong")
    return any(part.wrong for part in done)


if __name__ == "__main__":
    sys.exit(main())

#!/usr/bin/env python3
"""Changes samples at random, and runs every command on them.

    fuzz.py [--program PATH] [--first NUMBER] COUNT SEED

The samples are those of examples/ and the rows that are explained. In each input one file is changed: headers of the
file and of records, whole records, bytes of frames, PDUs (with correct lengths and safety code, so that what is judged
after them is reached), the parameters, or the certificate. For each command it tests that

- it ends within 10 seconds, and within 64 MiB and 50 times the size of its files;
- its status, standard output and standard error are of the forms of docs/FORMATS.md, with known refusals;
- the commands agree: all of them refuse a capture in the same way; `audit` explains it if `build` writes a
  certificate; the run of an explanation is that of its certificate, and its messages are those of the packets that
  `show` writes, the same for `check` and `audit`;
- for one input in twenty, the answer is the same when the capture comes through a FIFO in small pieces.

Input NUMBER of a seed is always the same, whatever the count. An input with a wrong answer is left in a folder, which
is printed. Prints counts by kind of change and by answer. `rt run` in crates/rasta_audit leaves the program.
Plain Python 3, no other packages.
"""

import argparse
import collections
import dataclasses
import os
import pathlib
import random
import re
import shutil
import struct
import sys
import tempfile
import threading

import answers
import rows

TOP = pathlib.Path(__file__).resolve().parent.parent
sys.path.insert(0, str(TOP / "examples"))
from make_examples import RFC_1320, md4  # noqa: E402

NO_CERTIFICATE = b"rasta-certificate 1\nclient\nserver\nend\n"
KINDS = (6200, 6201, 6212, 6213, 6216, 6220, 6240, 6241)
COMMANDS = ("show", "build", "check", "audit")
EXTREMES = (0, 1, 2, 7, 8, 27, 28, 35, 36, 255, 256, 65507, 65535, 65536, 262144, 262145, 2**31 - 1, 2**31, 2**32 - 1)


@dataclasses.dataclass
class Input:
    name: str
    capture: bytes
    parameters: bytes
    certificate: bytes

    def size(self):
        return len(self.capture) + len(self.parameters) + len(self.certificate)


def samples():
    found = []
    for path in sorted((TOP / "examples").glob("*.pcap")):
        certificate = path.with_suffix(".cert")
        text = certificate.read_bytes() if certificate.exists() else NO_CERTIFICATE
        found.append(Input(path.stem, path.read_bytes(), path.with_suffix(".toml").read_bytes(), text))
    for row in rows.rows().values():
        if row.text.startswith(b"explained"):
            found.append(Input(row.name, row.capture, row.parameters, row.certificate))
    return found


# ---- bytes


def with_byte_changed(chance, data, low=0, high=None):
    """One byte of a range set, or one of its bits turned."""
    high = min(len(data), high or len(data))
    if low >= high:
        return data
    at = chance.randrange(low, high)
    value = chance.choice((data[at] ^ 1 << chance.randrange(8), 0, 255, chance.randrange(256)))
    return data[:at] + bytes([value]) + data[at + 1 :]


def with_bytes_changed(chance, data):
    """Bytes set, put in, left out, copied, or cut off."""
    for _ in range(chance.choice((1, 1, 2, 4))):
        one, other = sorted(chance.randrange(len(data) + 1) for _ in range(2))
        act = chance.randrange(6)
        if act < 2:
            data = with_byte_changed(chance, data)
        elif act == 2:
            data = data[:one] + chance.randbytes(chance.choice((1, 2, 16))) + data[one:]
        elif act == 3:
            data = data[:one] + data[min(other, one + chance.choice((1, 2, 16))) :]
        elif act == 4:
            data = data[:other] + data[one:]
        else:
            data = data[:other]
    return data


# ---- captures


def records_of(capture):
    """The header of a sound file, its byte order, and its records: header and frame."""
    order = ">" if capture[0] == 0xA1 else "<"
    found, at = [], 24
    while at + 16 <= len(capture):
        size = struct.unpack_from(order + "I", capture, at + 8)[0]
        found.append((capture[at : at + 16], capture[at + 16 : at + 16 + size]))
        at += 16 + size
    return capture[:24], order, found


def joined(header, records):
    return header + b"".join(head + frame for head, frame in records)


def change_file_header(chance, it):
    if chance.random() < 0.1:
        return dataclasses.replace(it, capture=it.capture[: chance.randrange(24)])
    return dataclasses.replace(it, capture=with_byte_changed(chance, it.capture, 0, 24))


def with_record_header_changed(chance, order, record):
    head, frame = record
    if chance.random() < 0.3:
        return with_byte_changed(chance, head), frame
    near = (len(frame) - 1, len(frame) + 1, 14, 33, 34, 41, 42)
    size = chance.choice(near + EXTREMES) % 2**32
    field = chance.choice((8, 8, 12))
    return head[:field] + struct.pack(order + "I", size) + head[field + 4 :], frame


def change_record_header(chance, it):
    header, order, records = records_of(it.capture)
    if records:
        i = chance.randrange(len(records))
        records[i] = with_record_header_changed(chance, order, records[i])
    return dataclasses.replace(it, capture=joined(header, records))


def change_records(chance, it):
    """Records left out, repeated, or moved."""
    header, _, records = records_of(it.capture)
    for _ in range(chance.choice((1, 1, 2, 5)) if records else 0):
        i, j = chance.randrange(len(records)), chance.randrange(len(records))
        act = chance.randrange(3)
        if act == 0 and len(records) > 1:
            del records[i]
        elif act == 1:
            records.insert(j, records[i])
        else:
            records[i], records[j] = records[j], records[i]
    return dataclasses.replace(it, capture=joined(header, records))


def with_frame(order, record, frame):
    """A record with another frame, its lengths made right."""
    return record[0][:8] + struct.pack(order + "II", len(frame), len(frame)), frame


def change_frame(chance, it):
    """A frame by bytes, mostly of its headers, or cut."""
    header, order, records = records_of(it.capture)
    if records:
        i = chance.randrange(len(records))
        frame = records[i][1]
        for _ in range(chance.choice((1, 1, 2, 3))):
            frame = with_byte_changed(chance, frame, *chance.choice(((12, 24), (14, 42), (42, 50), (0, None))))
        if chance.random() < 0.2:
            frame = frame[: chance.randrange(len(frame) + 1)]
        records[i] = with_frame(order, records[i], frame)
    return dataclasses.replace(it, capture=joined(header, records))


def change_capture_bytes(chance, it):
    return dataclasses.replace(it, capture=with_bytes_changed(chance, it.capture))


# ---- PDUs


def lengths_in(parameters):
    """Lengths of the codes, and the start words, that a sound parameter file spells."""
    text = parameters.decode()
    number = lambda key: int(re.search(rf"^{key} = (\d+)", text, re.M)[1])
    start = re.search(r"^md4_start = .([0-9a-f]{32})", text, re.M)
    return number("code_length"), number("check_length"), start[1] if start else RFC_1320


def some_number(chance, number, bits=32):
    """A number near another one, or any."""
    near = (number - 1, number + 1, number + 10, number ^ 1 << chance.randrange(bits), 0, chance.randrange(2**bits))
    return chance.choice(near) % 2**bits


def some_payload(chance, kind):
    """A payload, mostly of the layout of this type."""
    if chance.random() < 0.15:
        return chance.randbytes(chance.choice((1, 2, 3, 4, 13, 14, 15, 40)))
    if kind in (6200, 6201):
        return chance.choice((b"0303", b"0404", b"99:9")) + chance.randbytes(10)
    if kind == 6216:
        return struct.pack("<HH", chance.randrange(65536), chance.choice((0, 1, 4, 4, 5)))
    if kind in (6240, 6241):
        sizes = [chance.choice((0, 1, 2, 300)) for _ in range(chance.choice((1, 1, 2, 5)))]
        return b"".join(struct.pack("<H", size) + chance.randbytes(size) for size in sizes)
    return b""


def with_pdu_changed(chance, datagram, code_length, check_length, start):
    """A datagram with fields changed, its lengths and its safety code made right again; now and then a length is
    wrong, or the datagram too short."""
    size, reserve, number = struct.unpack_from("<HHI", datagram)
    fields = list(struct.unpack_from("<HH6I", datagram, 8))
    end = len(datagram) - check_length - code_length
    payload, check = datagram[36:end], datagram[len(datagram) - check_length :]
    for _ in range(chance.choice((1, 1, 1, 2, 3))):
        act = chance.randrange(12)
        if act == 0:
            number = some_number(chance, number)
        elif act == 1:
            reserve = some_number(chance, reserve, 16)
        elif act <= 3:
            fields[1] = chance.choice(KINDS + (some_number(chance, fields[1], 16),))
            payload = some_payload(chance, fields[1])
        elif act == 4:
            payload = some_payload(chance, fields[1])
        elif act == 5:
            payload = with_bytes_changed(chance, payload)
        else:
            i = chance.choice((2, 3, 4, 4, 5, 5, 6, 6, 7, 7))
            fields[i] = some_number(chance, fields[i])
    size = 36 + len(payload) + code_length + check_length
    fields[0] = size - 8 - check_length
    if chance.random() < 0.1:
        size = chance.choice((size - 1, size + 1, 0, 65535)) % 65536
    elif chance.random() < 0.1:
        fields[0] = chance.choice((fields[0] - 1, fields[0] + 1, 0, 65535)) % 65536
    elif chance.random() < 0.05:
        size = chance.randrange(36 + code_length + check_length)
        return struct.pack("<H", size) + datagram[2:size]
    safety = struct.pack("<HH6I", *fields) + payload
    return struct.pack("<HHI", size, reserve, number) + safety + md4(start, safety)[:code_length] + check


def with_datagram(frame, datagram):
    """A frame without tags, with another datagram, its lengths made right."""
    header = 4 * (frame[14] & 15)
    total = struct.pack(">H", header + 8 + len(datagram))
    front = frame[:16] + total + frame[18 : 14 + header + 4]
    return front + struct.pack(">HH", 8 + len(datagram), 0) + datagram


def payload_in(frame):
    """The datagram of a frame of UDP without a tag, at least as long as a PDU without codes, or nothing."""
    if frame[12:15] not in (b"\x08\x00\x45", b"\x08\x00\x46") or frame[23] != 17:
        return None
    header = 4 * (frame[14] & 15)
    size = int.from_bytes(frame[18 + header : 20 + header], "big")
    datagram = frame[22 + header : 14 + header + size]
    return datagram if len(datagram) >= 36 else None


def change_pdu(chance, it):
    header, order, records = records_of(it.capture)
    lengths = lengths_in(it.parameters)
    for _ in range(chance.choice((1, 1, 2))):
        found = [(i, payload_in(frame)) for i, (_, frame) in enumerate(records)]
        found = [(i, datagram) for i, datagram in found if datagram and len(datagram) >= 36 + sum(lengths[:2])]
        if found:
            i, datagram = chance.choice(found)
            frame = with_datagram(records[i][1], with_pdu_changed(chance, datagram, *lengths))
            records[i] = with_frame(order, records[i], frame)
    return dataclasses.replace(it, capture=joined(header, records))


# ---- parameters and certificates

ODD_LINES = """\
last_record = 2
first_record = 2
first_record = 4000000000
last_record = 4000000001
md4_start = "67452301EFCDAB8998badcfe10325476"
md4_start = "67452301efcdab8998badcfe1032547"
slack = 1001
t_max = 60001
n_sendmax = 65536
client_id = 97
client_id = 4294967296
client_id = -1
client_id = 0x60
client_id = 96.0
client_id = inf
client_id = 1979-05-27T07:32:00Z
client_id = [[[[1]]], {a = {b = {}}}]
"code\\u005flength" = 8
[quiet]
[quiet.client]
quiet.client = { next_sn = 102, clock = 9223372036854775807 }
quiet.server = { next_sn = 4294967295, clock = 10801, deadline = 10800 }
[[channel]]
[channel]
[[channel]]
client = "10.0.0.01:5000"
server = "256.0.0.1:0"
a.b.c.d.e.f = '''
'''
= 1
[
\0
\ufeff
""".splitlines()
WORDS = "take make open reply beat fresh again ask bye expired client server end".split() + ["again 0"]


def with_number_changed(chance, line):
    """A line with one of its numbers replaced."""
    found = list(re.finditer(r"\d+", line))
    if not found:
        return line
    it = chance.choice(found)
    number = int(it[0])
    near = (number - 1, number + 1, f"0{number}", f"+{number}")
    others = EXTREMES + near + (2**32, 2**63 - 1, 2**63, 2**64 - 1, 2**64, 10**40)
    return line[: it.start()] + str(chance.choice(others)) + line[it.end() :]


def with_lines_changed(chance, text, others):
    """Lines left out, doubled, moved, put in, or with another number or word."""
    lines = text.split("\n")
    for _ in range(chance.choice((1, 1, 1, 2, 4))):
        i, j = chance.randrange(len(lines)), chance.randrange(len(lines))
        act = chance.randrange(8)
        if act == 0 and len(lines) > 1:
            del lines[i]
        elif act == 1:
            lines.insert(j, lines[i])
        elif act == 2:
            lines[i], lines[j] = lines[j], lines[i]
        elif act == 3:
            lines.insert(i, chance.choice(others))
        elif act == 4:
            words = lines[i].split(" ")
            words[chance.randrange(len(words))] = chance.choice(others)
            lines[i] = " ".join(words)
        else:
            lines[i] = with_number_changed(chance, lines[i])
    return "\n".join(lines)


def change_text(chance, data, others):
    if chance.random() < 0.3:
        return with_bytes_changed(chance, data)
    return with_lines_changed(chance, data.decode(), others).encode()


def change_parameters(chance, it):
    return dataclasses.replace(it, parameters=change_text(chance, it.parameters, ODD_LINES))


def change_certificate(chance, it):
    return dataclasses.replace(it, certificate=change_text(chance, it.certificate, WORDS))


CHANGES = (
    [change_file_header, change_record_header, change_records, change_frame, change_capture_bytes]
    + 3 * [change_pdu]
    + [change_parameters, change_certificate]
)


# ---- what is tested


class Wrong(Exception):
    """What is wrong with an answer."""


def write_slowly(chance, path, data, is_over):
    """Hands data to whoever opens a FIFO, in small pieces, until it is closed."""
    descriptor = None
    while descriptor is None and not is_over.wait(0.001):
        try:
            descriptor = os.open(path, os.O_WRONLY | os.O_NONBLOCK)
        except OSError:  # nobody reads yet
            pass
    if descriptor is None:
        return
    os.set_blocking(descriptor, True)
    try:
        at = 0
        while at < len(data):
            at += os.write(descriptor, data[at : at + chance.choice((1, 7, 50, 4096))])
    except BrokenPipeError:
        pass
    finally:
        os.close(descriptor)


def call_through_fifo(chance, words, capture, folder):
    path, is_over = folder / "capture.fifo", threading.Event()
    os.mkfifo(path)
    writer = threading.Thread(target=write_slowly, args=(chance, path, capture, is_over))
    writer.start()
    try:
        return answers.call([path if word == folder / "capture.pcap" else word for word in words])
    finally:
        is_over.set()
        writer.join()
        path.unlink()


def call_of(program, command, folder):
    files = [folder / "capture.pcap", folder / "parameters.toml"]
    return [program, command, *files] + ([folder / "certificate.cert"] if command == "check" else [])


def judged(it, program, command, folder):
    """The answer of a command, if it is one of the stated ones."""
    try:
        answer = answers.call(call_of(program, command, folder))
    except answers.TooLong:
        raise Wrong(f"{command} has not ended after 10 seconds") from None
    found = answers.wrong(command, answer)
    if found:
        raise Wrong(f"{command}: {found}: {answer}")
    if answer.peak > 64 * 2**20 + 50 * it.size():
        raise Wrong(f"{command} took {answer.peak} bytes for {it.size()}")
    return answer


def refusal_of(answer):
    """The refusal that an answer ends in, or nothing."""
    lines = (answer.out if answer.status == 1 else answer.error).decode().splitlines()
    return answers.refusal_in(lines[-1]) if answer.status else None


def test_agreement(told):
    """Whether the four commands agree about a capture."""
    refusals = {command: refusal_of(answer) for command, answer in told.items()}
    judges = [refusals[command] for command in ("build", "check", "audit")]
    if any(it and it[0] in answers.PACKETS | {50, 51, 52} for it in judges) and len(set(judges)) > 1:
        raise Wrong(f"the commands refuse differently: {refusals}")
    shown, audited = refusals["show"], refusals["audit"]
    if audited and audited[0] in answers.CAPTURE - {17} | {50, 51, 52} and shown != audited:
        raise Wrong(f"show and audit refuse differently: {refusals}")
    if shown and shown[0] >= 50 and shown != audited or shown and shown[0] < 50 and not audited:
        raise Wrong(f"show refuses alone: {refusals}")
    if (told["build"].status, refusals["build"]) != (told["audit"].status, audited):
        raise Wrong(f"build and audit differ: {refusals}")


def test_explanations(it, told):
    """Whether explanations fit the packets and their certificates."""
    shown = told["show"].out
    for command, certificate in (("check", it.certificate), ("audit", told["build"].out)):
        if told[command].status == 0:
            found = answers.misfit(told[command].out, shown, certificate)
            if found:
                raise Wrong(f"{command} tells {found}")
    if told["check"].status == told["audit"].status == 0:
        if answers.taken_lists(told["check"].out) != answers.taken_lists(told["audit"].out):
            raise Wrong("check and audit list other messages")


def test_input(it, program, folder, commands):
    """The answers of the commands to an input; Wrong where one isn't as it has to be."""
    (folder / "capture.pcap").write_bytes(it.capture)
    (folder / "parameters.toml").write_bytes(it.parameters)
    (folder / "certificate.cert").write_bytes(it.certificate)
    told = {command: judged(it, program, command, folder) for command in commands}
    if len(told) == len(COMMANDS):
        test_agreement(told)
        test_explanations(it, told)
    return told


def test_fifo(chance, it, program, folder, told):
    for command, answer in told.items():
        try:
            other = call_through_fifo(chance, call_of(program, command, folder), it.capture, folder)
        except answers.TooLong:
            raise Wrong(f"{command} has not ended after 10 seconds of a FIFO") from None
        if other.told() != answer.told():
            raise Wrong(f"{command} answers otherwise through a FIFO: {other}")


def input_of(seed, number, all_samples):
    """An input, how it was changed, and what is to chance in its tests."""
    chance = random.Random(f"{seed} {number}")
    change = chance.choice(CHANGES)
    return change(chance, chance.choice(all_samples)), change.__name__.removeprefix("change_"), chance


def answer_name(answer):
    found = refusal_of(answer)
    return f"{found[0]} {found[1]}" if found else "no refusal"


class Counts:
    def __init__(self):
        self.kinds, self.told = collections.Counter(), collections.Counter()
        self.calls = self.fifos = self.wrong = self.peak = 0
        self.seconds = 0.0

    def add(self, kind, told):
        self.kinds[kind] += 1
        self.calls += len(told)
        self.told.update(answer_name(answer) for answer in told.values())
        self.peak = max([self.peak] + [answer.peak for answer in told.values()])
        self.seconds = max([self.seconds] + [answer.seconds for answer in told.values()])

    def write(self):
        print(", ".join(f"{count} {kind}" for kind, count in sorted(self.kinds.items())))
        by_number = sorted(self.told.items(), key=lambda it: int(it[0].split()[0].replace("no", "0")))
        print(", ".join(f"{name}: {count}" for name, count in by_number))
        print(f"longest {self.seconds:.2f} s, most memory {self.peak / 2**20:.1f} MiB")
        print(f"{self.kinds.total()} inputs, {self.calls} calls and {self.fifos} through a FIFO, {self.wrong} wrong")


def main():
    asked = argparse.ArgumentParser(description="Changes samples at random, and tests the answers.")
    asked.add_argument("--program", type=pathlib.Path, default=rows.PROGRAM, help="rasta_audit")
    asked.add_argument("--first", type=int, default=0, metavar="NUMBER", help="the input to begin with")
    asked.add_argument("count", type=int)
    asked.add_argument("seed", type=int)
    words = asked.parse_args()
    program, all_samples, counts = words.program.resolve(), samples(), Counts()
    folder = pathlib.Path(tempfile.mkdtemp(prefix="fuzz-"))
    for number in range(words.first, words.first + words.count):
        it, kind, chance = input_of(words.seed, number, all_samples)
        commands = ["check"] if kind == "certificate" else COMMANDS
        told = {}
        try:
            told = test_input(it, program, folder, commands)
            if number % 20 == 0:
                test_fifo(chance, it, program, folder, told)
                counts.fifos += len(told)
        except Wrong as wrong:
            counts.wrong += 1
            print(f"input {number} of seed {words.seed} ({it.name}, {kind}): {wrong}; see {folder}", flush=True)
            folder = pathlib.Path(tempfile.mkdtemp(prefix="fuzz-"))
        counts.add(kind, told)
    shutil.rmtree(folder)
    counts.write()
    return counts.wrong != 0


if __name__ == "__main__":
    sys.exit(main())

#!/usr/bin/env python3
"""What the program may answer, according to docs/FORMATS.md: a module for other scripts.

    call(words)               runs a command, and measures its time and memory
    wrong(command, answer)    says what an answer has that no answer may have, or nothing
    taken_lists(text)         the lists of messages of an explanation
    misfit(text, shown, certificate)
                              says what of an explanation doesn't fit what `show` writes of the packets and the
                              certificate, or nothing

Plain Python 3, no other packages.
"""

import dataclasses
import os
import re
import signal
import subprocess
import tempfile

NAMES = """1 NoMemory 2 ReadFailed 3 WriteFailed 10 NotPcap 11 Version 12 LinkType 13 CutHeader 14 CutRecord
15 CutPacket 16 Fragment 17 TooMany 18 RecordTooLong 19 BadUdp 20 RedundancyLength 21 TooShort 22 SafetyLength
23 Type 24 Payload 25 Code 26 Ids 27 CopyDiffers 28 NumberGap 30 Syntax 31 SlotOrder 32 NotFirstCopy
33 MakeMissing 34 NotYetCrossed 35 NotRising 36 ClockDiffers 37 ClockFalls 38 PastDeadline 39 ConfirmedNumber
40 ConfirmedTime 41 NotAllowed 42 ReplyOwed 43 ResendDiffers 44 Closed 45 TooMany 46 TooEarlyTimeout
47 SequenceNumber 50 Toml 51 MissingKey 52 BadValue 60 NotFound""".split()
FAULTS = {int(number): name for number, name in zip(NAMES[::2], NAMES[1::2])}
# Which refusals a command writes to standard output, and which of them name an end.
CAPTURE, PACKETS, SCRIPTS = set(range(10, 27)), set(range(10, 29)), set(range(31, 48)) - {45}
WRITTEN = {
    "show": CAPTURE,
    "build": PACKETS | SCRIPTS | {60},
    "check": PACKETS | SCRIPTS | {30, 45},
    "audit": PACKETS | SCRIPTS | {60},
}
OF_AN_END = set(range(20, 29)) | SCRIPTS

NUMBER = "(?:0|[1-9][0-9]*)"
BYTES = r"(?:\.|(?:[0-9a-f]{2})+)"
HEXADECIMAL = "(?:-|(?:[0-9a-f]{2})+)"
WHY = f"(?:open|reply|beat|fresh|again {NUMBER}|ask|bye|expired)"
OPENING = f"620[01] {NUMBER} {NUMBER} {NUMBER} {NUMBER} open [0-9]{{4}} {NUMBER} [0-9a-f]{{16}}"
BYE = f"6216 {NUMBER} {NUMBER} {NUMBER} {NUMBER} bye {NUMBER} {NUMBER}"
DATA = f"624[01] {NUMBER} {NUMBER} {NUMBER} {NUMBER} data {BYTES}(?:,{BYTES})*"
EMPTY = f"62(?:12|13|20) {NUMBER} {NUMBER} {NUMBER} {NUMBER} -"
PACKET = re.compile(
    f"({NUMBER}) ({NUMBER}) [1-4] (?:client|server) {NUMBER} {NUMBER} (?:{OPENING}|{BYE}|{DATA}|{EMPTY})"
    f" {HEXADECIMAL} {HEXADECIMAL}"
)
REFUSAL = re.compile(f"refused ({NUMBER}) ([A-Za-z0-9]+) ({NUMBER}) (client|server|-)")
TAKE, MAKE = re.compile(f"take {NUMBER} {NUMBER}"), re.compile(f"make {NUMBER} {NUMBER} {WHY}")
RUN_TAKE = re.compile(f"({NUMBER}) (client|server) take {NUMBER}")
RUN_PACKET = re.compile(f"({NUMBER}) (?:client|server) (?:make {NUMBER} {NUMBER} {WHY}|copy {NUMBER})")
TAKEN = re.compile(f"({NUMBER}) ({NUMBER}) ({NUMBER}) {BYTES}")


@dataclasses.dataclass
class Answer:
    status: int
    out: bytes
    error: bytes
    seconds: float
    peak: int  # most memory, in bytes; at least what the calling script has

    def told(self):
        return self.status, self.out, self.error


class TooLong(Exception):
    """A command that has not ended in its time."""


def on_alarm(_number, _frame):
    raise TooLong


def call(words, seconds=10, **options):
    """Runs a command, and ends it with TooLong after so many seconds."""
    signal.signal(signal.SIGALRM, on_alarm)
    with tempfile.TemporaryFile() as out, tempfile.TemporaryFile() as error:
        options = {"stdin": subprocess.DEVNULL, "stdout": out, "stderr": error} | options
        begun = os.times().elapsed
        process = subprocess.Popen([str(word) for word in words], **options)
        signal.setitimer(signal.ITIMER_REAL, seconds)
        try:
            _, state, usage = os.wait4(process.pid, 0)
        except TooLong:
            process.kill()
            process.wait()
            raise
        finally:
            signal.setitimer(signal.ITIMER_REAL, 0)
        process.returncode = os.waitstatus_to_exitcode(state)
        out.seek(0)
        error.seek(0)
        took = os.times().elapsed - begun
        return Answer(process.returncode, out.read(), error.read(), took, 1024 * usage.ru_maxrss)


# ---- the forms


def refusal_in(line):
    """Number, name, place and end of a refusal with a known number and its name, or nothing."""
    found = REFUSAL.fullmatch(line)
    if found is None or FAULTS.get(int(found[1])) != found[2]:
        return None
    return int(found[1]), found[2], int(found[3]), found[4]


def is_refusal(line, numbers):
    found = refusal_in(line)
    return found is not None and found[0] in numbers and (found[3] != "-") == (found[0] in OF_AN_END)


def are_packets(lines):
    """Whether lines of `show` count their places from 0, with rising records."""
    found = [PACKET.fullmatch(line) for line in lines]
    if None in found or [int(line[1]) for line in found] != list(range(len(found))):
        return False
    records = [0] + [int(line[2]) for line in found]
    return all(one < other for one, other in zip(records, records[1:]))


def is_shown(lines):
    return lines[-1] == f"packets {len(lines) - 1}" and are_packets(lines[:-1])


def is_certificate(lines):
    if lines[:2] != ["rasta-certificate 1", "client"] or lines[-1] != "end" or lines.count("server") != 1:
        return False
    entries = [line for line in lines[2:-1] if line != "server"]
    return all(TAKE.fullmatch(line) or MAKE.fullmatch(line) for line in entries)


def is_run(lines, packets):
    """Whether lines go through the levels: the client's takes, the server's takes, and the packet."""
    level, sides = 0, []
    for line in lines:
        take, packet = RUN_TAKE.fullmatch(line), RUN_PACKET.fullmatch(line)
        if not (take or packet) or int((take or packet)[1]) != level:
            return False
        sides.append(take[2] if take else None)
        if packet:
            if sides[:-1] != sorted(sides[:-1]):
                return False
            level, sides = level + 1, []
    return level == packets and sides == sorted(sides)


def is_list(lines, name):
    found = [TAKEN.fullmatch(line) for line in lines[1:]]
    counted = lines[0] == f"taken by {name} {len(found)}" and None not in found
    return counted and [int(line[1]) for line in found] == list(range(len(found)))


def is_explanation(lines):
    at = [place for place, line in enumerate(lines) if line.startswith("taken by ")]
    if not re.fullmatch(f"explained {NUMBER}", lines[0]) or len(at) != 2:
        return False
    packets = int(lines[0].split(" ")[1])
    run, client, server = lines[1 : at[0]], lines[at[0] : at[1]], lines[at[1] :]
    return is_run(run, packets) and is_list(client, "client") and is_list(server, "server")


FORMS = {"show": is_shown, "build": is_certificate, "check": is_explanation, "audit": is_explanation}


def lines_of(data):
    """The lines of a text, or nothing where the last doesn't end or a byte is none of a text."""
    if not data.endswith(b"\n") or not data.isascii() or b"\r" in data:
        return None
    return data.decode()[:-1].split("\n")


def is_answer(command, status, lines):
    """Whether lines on standard output are those of a text with this status."""
    if lines is None:
        return False
    if status == 0:
        return FORMS[command](lines)
    begun = are_packets(lines[:-1]) if command == "show" else len(lines) == 1
    return begun and is_refusal(lines[-1], WRITTEN[command])


def wrong(command, answer, statuses=(0, 1, 2)):
    """What is wrong with an answer to right words; nothing where it is one of the stated ones."""
    if answer.status not in statuses:
        return f"status {answer.status}"
    if answer.status in (0, 1):
        if answer.error:
            return "something on standard error"
        return None if is_answer(command, answer.status, lines_of(answer.out)) else "none of the stated texts"
    lines = lines_of(answer.error)
    numbers = {50, 51, 52} if answer.status == 2 else {1, 2, 3}
    if lines is None or len(lines) != 1 or not is_refusal(lines[0], numbers):
        return "none of the stated lines on standard error"
    return "something on standard output" if answer.status == 2 and answer.out else None


def taken_lists(text):
    """The lines from the list of the client on."""
    return text[text.index(b"taken by client ") :]


# ---- an explanation against its packets and its certificate


def run_of(packets, certificate):
    """The run that the entries of a certificate tell of packets, each a line of `show` in words."""
    lines = lines_of(certificate)
    middle = lines.index("server")
    takes, makes = {}, {}
    for side, script in (("client", lines[2:middle]), ("server", lines[middle + 1 : -1])):
        for entry in script:
            first, at, rest = entry.split(" ", 2)
            if first == "take":
                takes.setdefault(int(at), []).append(f"{at} {side} take {rest}")
            else:
                makes[side, int(at)] = rest
    run = []
    for place, (_, _, _, side, number, *_) in enumerate(packets):
        made = makes.get((side, place))
        run += takes.get(place, [])
        run.append(f"{place} {side} make {number} {made}" if made else f"{place} {side} copy {number}")
    return run + takes.get(len(packets), [])


def are_messages(lines, packets, side):
    """Whether a list has all messages of data PDUs of the peer, each PDU once, and before the packet that proves it."""
    data, proofs = {}, []
    for line in lines[1:]:
        _, place, proof, message = line.split(" ")
        data.setdefault(int(place), []).append(message)
        proofs.append((int(place), int(proof)))
    if not all(place < proof < len(packets) for place, proof in proofs):
        return False
    of_data = [packets[place][3] != side and packets[place][6:7] == ["6240"] for place in data]
    whole = [packets[place][12].split(",") == messages for place, messages in data.items()]
    proved = [packets[proof][3] == side for _, proof in proofs]
    last = [proof for _, proof in proofs]
    return all(of_data + whole + proved) and proofs == sorted(proofs) and last == sorted(last)


def misfit(text, shown, certificate):
    lines, packets = lines_of(text), [line.split(" ") for line in lines_of(shown)[:-1]]
    client, server = (place for place, line in enumerate(lines) if line.startswith("taken by "))
    if lines[0] != f"explained {len(packets)}":
        return "another count of packets"
    if lines[1:client] != run_of(packets, certificate):
        return "another run than the certificate's"
    if not are_messages(lines[client:server], packets, "client") or not are_messages(lines[server:], packets, "server"):
        return "messages that are not those of the packets"
    return None

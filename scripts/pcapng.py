#!/usr/bin/env python3
"""Makes captures in the pcapng format with Wireshark's tools, and compares what `seatmelon` says of them.

    pcapng.py make FOLDER
    pcapng.py judge [--program PATH] [PART..]

`make` writes the samples of examples/pcapng: `excerpt` by editcap, `merged` by mergecap, `live` by dumpcap on a pair of
virtual interfaces, if it may make one, and `sections` by hand. The parts of `judge` (all of them, if none is named):

    records    what `convert` writes has the records that tshark reads: their numbers, times, lengths and bytes
    texts      survey, draft, show, explain and audit of each sample say what they say of its classic capture
    tools      the same of files that tshark, text2pcap, editcap, mergecap and tcpdump make now
    pipes      the same through a pipe and from standard input
    odd        each byte of a small file changed, and each cut of it: an answer or a refusal, within seconds
    refused    what is wrong with a file is told with the offset of its block

`rt run` in crates/seatmelon leaves the program. Needs tshark; plain Python 3, no other packages.
"""

import argparse
import json
import pathlib
import re
import shutil
import socket
import struct
import subprocess
import sys
import tempfile
import time

from explanations import PROGRAM, SAMPLES, Part, through_a_pipe, try_part

STORED = SAMPLES / "pcapng"

# ---- blocks

SECTION, INTERFACE, OBSOLETE, SIMPLE, STATISTICS, ENHANCED, SECRETS, CUSTOM = 0x0A0D0D0A, 1, 2, 3, 5, 6, 10, 2989
ETHERNET, RAW = 1, 101
END_OF_OPTIONS = (0, b"")


def padded(data):
    return data + bytes(-len(data) % 4)


def block(order, kind, body):
    length = struct.pack(order + "I", 12 + len(body))
    return struct.pack(order + "I", kind) + length + body + length


def options(order, *pairs):
    return b"".join(struct.pack(order + "HH", code, len(value)) + padded(value) for code, value in pairs)


def section(order, length=-1):
    return block(order, SECTION, struct.pack(order + "IHHq", 0x1A2B3C4D, 1, 0, length))


def interface(order, link_type=ETHERNET, snap=0, *pairs):
    return block(order, INTERFACE, struct.pack(order + "HHI", link_type, 0, snap) + options(order, *pairs))


def enhanced(order, number, stamp, frame, *pairs):
    body = struct.pack(order + "IIIII", number, stamp >> 32, stamp & 0xFFFFFFFF, len(frame), len(frame))
    return block(order, ENHANCED, body + padded(frame) + options(order, *pairs))


def obsolete(order, number, stamp, frame):
    body = struct.pack(order + "HHIIII", number, 0xFFFF, stamp >> 32, stamp & 0xFFFFFFFF, len(frame), len(frame))
    return block(order, OBSOLETE, body + padded(frame))


def simple(order, frame):
    return block(order, SIMPLE, struct.pack(order + "I", len(frame)) + padded(frame))


# ---- classic captures


def classic(data):
    """The seconds, nanoseconds, captured and original lengths and frame of each record."""
    order = "<" if data[:4] in (b"\xd4\xc3\xb2\xa1", b"\x4d\x3c\xb2\xa1") else ">"
    unit = 1 if data[:4] in (b"\x4d\x3c\xb2\xa1", b"\xa1\xb2\x3c\x4d") else 1000
    at, records = 24, []
    while at < len(data):
        seconds, fraction, length, original = struct.unpack_from(order + "IIII", data, at)
        records.append((seconds, fraction * unit, length, original, data[at + 16 : at + 16 + length]))
        at += 16 + length
    return records


# ---- the samples


def sections_of(records):
    """The packets in two sections of both byte orders, some of them without a time, between blocks of other types."""
    order, parts = ">", []
    parts.append(section(order))
    parts.append(interface(order, RAW, 0, (2, b"tunnel"), END_OF_OPTIONS))
    parts.append(interface(order, ETHERNET, 65535, (9, b"\x09"), (14, struct.pack(">q", 3600)), END_OF_OPTIONS))
    parts.append(block(order, CUSTOM, struct.pack(">I", 32473) + b"not to be copied"))
    for seconds, nanoseconds, _, _, frame in records[:12]:
        stamp = (seconds - 3600) * 1_000_000_000 + nanoseconds
        parts.append(enhanced(order, 1, stamp, frame, (1, b"a comment"), END_OF_OPTIONS))
    parts.append(block(order, STATISTICS, struct.pack(">III", 1, 0, 0)))
    order = "<"
    parts.append(section(order))
    parts.append(interface(order, ETHERNET, 0, (9, b"\x94"), END_OF_OPTIONS))
    parts.append(block(order, SECRETS, struct.pack("<II", 0x544C534B, 4) + b"keys"))
    for place, (seconds, nanoseconds, _, _, frame) in enumerate(records[12:]):
        stamp = (seconds << 20) + (nanoseconds << 20) // 1_000_000_000
        kinds = (lambda: simple(order, frame), lambda: obsolete(order, 0, stamp, frame), lambda: enhanced(order, 0, stamp, frame))
        parts.append(kinds[place % 3]())
    return b"".join(parts)


def tool(*words):
    subprocess.run([str(word) for word in words], check=True, capture_output=True)


def send(name, frames):
    """Sends frames on an interface, one after the other."""
    with socket.socket(socket.AF_PACKET, socket.SOCK_RAW) as line:
        line.bind((name, 0))
        for frame in frames:
            line.send(frame)
            time.sleep(0.002)


def capture_live(path, frames):
    """What dumpcap captures of these frames on a virtual interface, if one can be made."""
    if subprocess.run(["ip", "link", "add", "tap0", "type", "veth", "peer", "name", "tap1"], capture_output=True).returncode:
        return print("no virtual interface can be made: there is no file of dumpcap")
    try:
        for name in ("tap0", "tap1"):
            subprocess.run(["sysctl", "-w", f"net.ipv6.conf.{name}.disable_ipv6=1"], capture_output=True)
            tool("ip", "link", "set", name, "up")
        words = ["dumpcap", "-q", "-i", "tap1", "-w", str(path), "-a", f"packets:{len(frames)}", "-a", "duration:20"]
        running = subprocess.Popen(words, stderr=subprocess.PIPE, text=True)
        for line in running.stderr:
            if "Capturing on" in line:
                break
        time.sleep(1)
        send("tap0", frames)
        running.wait()
    finally:
        tool("ip", "link", "delete", "tap0")


def make(folder):
    folder.mkdir(parents=True, exist_ok=True)
    excerpt = SAMPLES / "excerpt.pcap"
    records = classic(excerpt.read_bytes())
    tool("editcap", "-F", "pcapng", excerpt, folder / "excerpt.pcapng")
    with tempfile.TemporaryDirectory() as room:
        raw = pathlib.Path(room) / "raw.pcap"
        tool("editcap", "-F", "pcap", "-T", "rawip4", SAMPLES / "handshake.pcap", raw)
        tool("mergecap", "-a", "-F", "pcapng", "-w", folder / "merged.pcapng", excerpt, raw)
    capture_live(folder / "live.pcapng", [frame for *_, frame in records])
    (folder / "sections.pcapng").write_bytes(sections_of(records))
    for path in folder.iterdir():
        path.chmod(0o644)


# ---- what other programs read


def told_by_tshark(path):
    """The time in nanoseconds, both lengths and the encapsulation of each packet, in the order in which tshark numbers
    them. It numbers some blocks that hold no packet, custom ones for example, which have no encapsulation."""
    fields = ("frame.time_epoch", "frame.cap_len", "frame.len", "frame.encap_type")
    words = ["tshark", "-n", "-r", str(path), "-T", "fields", *(word for field in fields for word in ("-e", field))]
    text = subprocess.run(words, check=True, capture_output=True, text=True).stdout
    for line in text.splitlines():
        moment, captured, original, kind = line.split("\t")
        seconds, _, fraction = (moment or "0.0").partition(".")
        if kind:
            yield int(seconds) * 1_000_000_000 + int(f"{fraction:0<9}"[:9]), int(captured), int(original), int(kind)


def frames_by_tshark(path):
    """The bytes of each packet that has an encapsulation, as tshark reads them."""
    words = ["tshark", "-n", "-r", str(path), "-T", "json", "-x", "-J", "frame"]
    told = json.loads(subprocess.run(words, check=True, capture_output=True, text=True).stdout)
    layers = [packet["_source"]["layers"] for packet in told]
    return [bytes.fromhex(layer["frame_raw"][0]) for layer in layers if "frame.encap_type" in layer["frame"]]


def same_records(part, path):
    """Compares the records of a file, as `convert` writes them, with those of tshark."""
    ran = subprocess.run([part.program, "convert", path], capture_output=True)
    part.calls += 1
    found, told = classic(ran.stdout), list(told_by_tshark(path))
    right = ran.returncode == 0 and ran.stderr == b"" and len(found) == len(told)
    for (seconds, nanoseconds, length, full, _), (moment, captured, original, kind) in zip(found, told):
        right = right and full == original and seconds * 1_000_000_000 + nanoseconds == moment
        right = right and length == (captured if kind == 1 else 0)
    if right and all(kind == 1 for *_, kind in told):
        right = [frame for *_, frame in found] == frames_by_tshark(path)
    part.judge(f"records of {path.name}", right, (ran.returncode, ran.stderr, len(found), len(told)))
    return ran.stdout


def records(part):
    for path in sorted(STORED.glob("*.pcapng")):
        same_records(part, path)


# ---- what is said


def plain(text, path, copy):
    """A text without what may differ: names and sums, that the file was read as pcapng, and the link type of an interface."""
    text = text.replace(str(path), "FILE").replace(str(copy), "FILE")
    text = re.sub(r"(capture: FILE\n    SHA-256: )[0-9a-f]{64}\n(    read as pcapng.*\n)?", r"\1SUM\n", text)
    text = re.sub(r'("name":"FILE","sha256":")[0-9a-f]{64}"(,"format":"pcapng")?', r'\1SUM"', text)
    return re.sub(r',"(other|cooked)_link_type":\d+', "", re.sub(r"(?m)^an interface of this file has link type .*\n", "", text))


def untimed(text):
    """A text without times, where packets have none."""
    if text.startswith("{"):
        told = json.loads(text)
        for name in ("times", "packets_without_time"):
            told.pop(name, None)
        text = json.dumps(told, separators=(",", ":"))
    text = re.sub(r"(, )?(1970-01-01 )?00:00:00\.0{9}( UTC)?|, no time|\"1970-01-01 00:00:00.0{9} UTC\"|null", "", text)
    return re.sub(r"Times of capture, which no verdict reads:\n(  .*\n)*", "", text)


def lacks_times(path):
    return any(moment == 0 for moment, *_ in told_by_tshark(path))


def has_others(path):
    """Whether a packet isn't one of Ethernet."""
    return any(kind != 1 for *_, kind in told_by_tshark(path))


def tells_others(text):
    """Whether a text names a link type other than that of Ethernet."""
    return bool(re.search(r'interface of (this file|it) has link type \d|"(other|cooked)_link_type":\d', text))


def same_texts(part, path, copy, parameters):
    """Compares what is said of a file with what is said of its classic capture."""
    lacking, others = lacks_times(path), has_others(path)
    for words in (
        ("survey",), ("draft", "1"), ("show", parameters), ("explain", parameters), ("explain", "--whole", parameters),
        ("explain", "--json", parameters), ("audit", parameters), ("audit", "--json", parameters),
    ):
        command, *more = words
        flags, rest = [it for it in more if str(it).startswith("--")], [it for it in more if not str(it).startswith("--")]
        newer = part.call(command, *flags, path, *rest)
        older = part.call(command, *flags, copy, *rest)
        one, other = plain(newer[1], path, copy), plain(older[1], path, copy)
        if lacking:
            one, other = untimed(one), untimed(other)
        right = (newer[0], one, newer[2]) == (older[0], other, older[2])
        right = right and (command != "explain" or "pcapng" in newer[1])
        right = right and (command in ("draft", "show") or tells_others(newer[1]) == others) and not tells_others(older[1])
        part.judge(f"{command} {path.name}", right, newer + older)


def texts(part):
    for path in sorted(STORED.glob("*.pcapng")):
        copy = part.folder / "classic.pcap"
        copy.write_bytes(subprocess.run([part.program, "convert", path], capture_output=True).stdout)
        same_texts(part, path, copy, SAMPLES / "excerpt.toml")
        stored = SAMPLES / "expected" / f"{path.stem}.pcapng.explain.txt"
        if stored.exists():
            answer = part.call("explain", f"pcapng/{path.name}", "excerpt.toml", cwd=SAMPLES)
            part.judge(f"text of {path.stem}", answer[1:] == (stored.read_text(), ""), answer)
    classic_file = SAMPLES / "excerpt.pcap"
    ran = subprocess.run([part.program, "convert", classic_file], capture_output=True)
    part.judge("a classic file", ran.stdout == classic_file.read_bytes() and ran.returncode == 0, (ran.stderr,))


def made_by_tools(room):
    """Files that tools make now."""
    excerpt, handshake = SAMPLES / "excerpt.pcap", SAMPLES / "handshake.pcap"
    tool("tshark", "-n", "-r", excerpt, "-w", room / "tshark.pcapng")
    tool("editcap", "-F", "pcapng", "-a", "4:a comment", excerpt, room / "editcap.pcapng")
    tool("editcap", "-F", "pcapng", "-t", "0.000000001", excerpt, room / "moved.pcapng")
    tool("mergecap", "-F", "pcapng", "-I", "none", "-w", room / "mergecap.pcapng", excerpt, handshake)
    tool("mergecap", "-F", "pcapng", "-a", "-w", room / "appended.pcapng", excerpt, room / "editcap.pcapng")
    dump = room / "dump.txt"
    dump.write_text("".join(hexadecimal(frame) for *_, frame in classic(excerpt.read_bytes())))
    tool("text2pcap", "-n", dump, room / "text2pcap.pcapng")
    tool("editcap", "-F", "nsecpcap", excerpt, room / "nanoseconds.pcap")
    if shutil.which("tcpdump"):
        tool("tcpdump", "-r", room / "tshark.pcapng", "-w", room / "tcpdump.pcap")
    return sorted(room.glob("*.pcap*"))


def hexadecimal(frame):
    """A frame as text2pcap reads it."""
    lines = [f"{at:06x} {frame[at : at + 16].hex(' ')}\n" for at in range(0, len(frame), 16)]
    return "".join(lines) + "\n"


def tools(part):
    for path in made_by_tools(part.folder):
        data = path.read_bytes()
        copy = part.folder / "copy_of_it"
        copy.write_bytes(same_records(part, path) if data[:4] == b"\x0a\x0d\x0d\x0a" else data)
        if path.suffix == ".pcapng":
            same_texts(part, path, copy, SAMPLES / "excerpt.toml")


def pipes(part):
    for path in sorted(STORED.glob("*.pcapng")):
        pipe = part.folder / "pipe"
        for words in (("survey",), ("draft", "1"), ("show", SAMPLES / "excerpt.toml"), ("audit", SAMPLES / "excerpt.toml"), ("convert",)):
            command, *more = words
            whole = part.call(command, path, *more) if command != "convert" else None
            if whole:
                piped = through_a_pipe(part, command, path, *more)
                told = part.call(command, "-", *more, input=path.read_bytes())
                part.judge(f"{command} {path.name}, a pipe", piped == told == whole, piped + whole)
            else:
                one = subprocess.run([part.program, "convert", path], capture_output=True).stdout
                other = subprocess.run([part.program, "convert", "-"], capture_output=True, input=path.read_bytes()).stdout
                part.judge(f"convert {path.name}, standard input", one == other and len(one) > 24, (len(one), len(other)))


# ---- odd files


def answers_on(part, data, what):
    path = part.folder / "odd.pcapng"
    path.write_bytes(data)
    for words in (("survey", path), ("explain", path, SAMPLES / "excerpt.toml")):
        try:
            ran = subprocess.run([part.program, *words], capture_output=True, timeout=20)
            right, told = ran.returncode in (0, 1), (ran.returncode, ran.stderr)
        except subprocess.TimeoutExpired:
            right, told = False, ("it hangs",)
        part.calls += 1
        part.judge(f"{words[0]}, {what}", right, told)


def odd(part):
    frames = [frame for *_, frame in classic((SAMPLES / "excerpt.pcap").read_bytes())][5:8]
    order = "<"
    data = section(order) + interface(order, ETHERNET, 0, (9, b"\x09"), END_OF_OPTIONS)
    data += enhanced(order, 0, 1_700_000_000_000_000_000, frames[0], (1, b"note"), END_OF_OPTIONS)
    data += block(order, CUSTOM, struct.pack("<I", 32473)) + simple(order, frames[1]) + section(">") + interface(">") + simple(">", frames[2])
    for place in range(len(data)):
        for change in (0x01, 0x80, 0xFF):
            answers_on(part, data[:place] + bytes([data[place] ^ change]) + data[place + 1 :], f"byte {place}")
        answers_on(part, data[:place], f"cut after {place}")


def refused_files():
    """Files that are refused, the offset of their block, and words that tell why."""
    order = "<"
    begin = section(order) + interface(order)
    whole = simple(order, b"\0" * 60)
    at = len(begin + whole)
    yield "cut", (begin + whole + whole)[:-3], at, "the file ends inside a block"
    yield "length", begin + whole + struct.pack("<III", 9, 13, 0), at, "a block has a length that can't be"
    yield "too long", begin + whole + struct.pack("<III", 9, 1 << 25, 0), at, "a block has more than 16 MiB"
    yield "trailer", begin + whole + whole[:-4] + struct.pack("<I", 16), at, "the two lengths of a block differ"
    yield "interface", begin + whole + enhanced(order, 7, 0, b""), at, "a packet is of an interface that isn't described"
    yield "section's interface", begin + whole + section(order) + whole, at + 28, "a packet is of an interface that isn't described"
    beyond = struct.pack("<IIIII", 0, 0, 0, 99, 99)
    yield "captured", begin + whole + block(order, ENHANCED, beyond), at, "more of a packet was captured than its block has"
    long = b"\0" * 262_145
    yield "too long a packet", begin + whole + enhanced(order, 0, 0, long), at, "more than 262144 bytes of a packet were captured"
    version = block(order, SECTION, struct.pack("<IHHq", 0x1A2B3C4D, 2, 0, -1))
    yield "version", begin + whole + version, at, "a section has a version of the format that isn't known"
    no_order = block(order, SECTION, struct.pack("<IHHq", 0x01020304, 1, 0, -1))
    yield "byte order", begin + whole + no_order, at, "a section header tells no byte order"


def refused(part):
    parameters = SAMPLES / "excerpt.toml"
    everything = part.folder / "all.toml"
    everything.write_text(re.sub(r"(?m)^(first|last)_record.*\n", "", parameters.read_text()))
    for name, data, at, words in refused_files():
        path = part.folder / "refused.pcapng"
        path.write_bytes(data)
        place, told = f"after 1 record, at byte {at}: {words} (14 CutRecord)\n", f"{words}, at byte {at}\n"
        part.expect(f"survey, {name}", 1, place, "", "survey", path)
        part.expect(f"show, {name}", 1, place[:-1] + ": nothing from there on is listed\n", "", "show", path, everything)
        part.expect(f"explain, {name}", 1, told, "", "explain", path, everything)
        part.expect(f"audit, {name}", 1, place, "", "audit", path, everything)
        part.calls += 1
        ran = subprocess.run([part.program, "convert", path], capture_output=True, text=False)
        error = ran.stderr.decode()
        part.judge(f"convert, {name}", ran.returncode == 1 and f"at byte {at}: {words}" in error, (ran.returncode, error))
        answer = part.call("explain", "--json", path, everything)
        block_told = json.loads(answer[1])["fault"]["block"]
        part.judge(f"JSON, {name}", block_told == {"offset": at, "reason": words}, answer)


PARTS = (records, texts, tools, pipes, odd, refused)


def main():
    asked = argparse.ArgumentParser(description="Makes captures in the pcapng format, and compares what seatmelon says of them.")
    commands = asked.add_subparsers(dest="command", required=True)
    commands.add_parser("make").add_argument("folder", type=pathlib.Path)
    judged = commands.add_parser("judge")
    judged.add_argument("--program", type=pathlib.Path, default=PROGRAM, help="seatmelon")
    judged.add_argument("parts", nargs="*", metavar="PART", help=" ".join(run.__name__ for run in PARTS))
    words = asked.parse_args()
    if words.command == "make":
        return make(words.folder)
    named = [run for run in PARTS if run.__name__ in words.parts] if words.parts else PARTS
    return any([try_part(run, words.program.resolve()).wrong for run in named])


if __name__ == "__main__":
    sys.exit(main())

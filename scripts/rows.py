#!/usr/bin/env python3
"""The rows of verdicts of crates/trials_verdicts/src/verdict_rows.rt, as files.

    rows.py                             prints the names of the rows
    rows.py NAME FOLDER                 writes capture.pcap, parameters.toml, certificate.cert and text.txt of a row
    rows.py --check [--program PATH]    compares what `check` writes on the files of every row with the row's text

The rows are read from the text of the constant, whose doc comment says its form; nothing else of the repository is
used. Other scripts import this one: `rows` reads all rows; `datagram_of`, `frame_of` and `capture_of` make further
captures, and `parameters_of` parameters. `rt run` in crates/rasta_audit leaves the program at its default path.

Plain Python 3, no other packages.
"""

import argparse
import dataclasses
import pathlib
import re
import struct
import subprocess
import sys
import tempfile

TOP = pathlib.Path(__file__).resolve().parent.parent
SOURCE = TOP / "crates/trials_verdicts/src/verdict_rows.rt"
PROGRAM = TOP / "crates/rasta_audit/out/rasta_audit"

CLIENT_MAC, SERVER_MAC = bytes.fromhex("020000000001"), bytes.fromhex("020000000002")
# Source and destination, with ports 5000 on the first channel and 5001 on the second.
ROUTES = {
    "client": "0a0000010a00000213881388",
    "server": "0a0000020a00000113881388",
    "client@2": "0a0001010a00010213891389",
    "server@2": "0a0001020a00010113891389",
}
# The packets of a handshake.
OPENED = (
    "client 7 6200 100 0 1000 0 3033303314000000000000000000/"
    "server 40 6201 500 100 9000 1000 3033303314000000000000000000/client 8 6220 101 500 1010 9000"
)
NO_CODES = "code_length = 0/check_length = 0"
TWO_CHANNELS = """client_id = 96
server_id = 97
n_sendmax = {n_sendmax}
t_max = 1800
[[channel]]
client = '10.0.0.1:5000'
server = '10.0.0.2:5000'
[[channel]]
client = '10.0.1.1:5001'
server = '10.0.1.2:5001'
"""


@dataclasses.dataclass
class Row:
    name: str
    capture: bytes
    parameters: bytes
    certificate: bytes
    text: bytes

    def write(self, folder):
        """Writes the files, and answers the paths of capture, parameters and certificate."""
        folder = pathlib.Path(folder)
        paths = [folder / name for name in ("capture.pcap", "parameters.toml", "certificate.cert")]
        for path, data in zip(paths, (self.capture, self.parameters, self.certificate)):
            path.write_bytes(data)
        return paths


# ---- captures


def datagram_of(side, number, kind, sn, cs, ts, cts, payload=b""):
    """The datagram of a PDU without codes."""
    ids = (97, 96) if side.startswith("client") else (96, 97)
    size = 28 + len(payload)
    front = struct.pack("<HHI", 8 + size, 0, number)
    return front + struct.pack("<HH6I", size, kind, *ids, sn, cs, ts, cts) + payload


def frame_of(side, datagram, tag=b"", options=b""):
    """The frame in which a side sends a datagram; a tag stands before the type, options end the header of IPv4."""
    route = bytes.fromhex(ROUTES[side])
    macs = SERVER_MAC + CLIENT_MAC if side.startswith("client") else CLIENT_MAC + SERVER_MAC
    first, total = 0x45 + len(options) // 4, 28 + len(options) + len(datagram)
    header = struct.pack(">BBHHHBBH", first, 0, total, 0, 0, 64, 17, 0) + route[:8] + options
    return macs + tag + b"\x08\x00" + header + route[8:] + struct.pack(">HH", 8 + len(datagram), 0) + datagram


def header_of(magic="d4c3b2a1"):
    """The header of a file, in the byte order of its magic number."""
    order = ">" if magic.startswith("a1") else "<"
    return bytes.fromhex(magic) + struct.pack(order + "HHiIII", 2, 4, 0, 0, 0x40000, 1)


def record_of(frame, original=None, order="<"):
    """A record of a frame that had so many bytes; if none are told, of a whole one."""
    original = len(frame) if original is None else original
    return struct.pack(order + "IIII", 0, 0, len(frame), original) + frame


def capture_of(frames):
    """A little-endian file of whole frames."""
    return header_of() + b"".join(map(record_of, frames))


def packet_in(text):
    """The frame that the text of a packet spells."""
    if text.startswith("frame:"):
        return bytes.fromhex(text.removeprefix("frame:"))
    if ":" in text:
        side, digits = text.split(":")
        return frame_of(side, bytes.fromhex(digits))
    side, *words = text.split(" ")
    payload = bytes.fromhex(words[6]) if len(words) == 7 else b""
    return frame_of(side, datagram_of(side, *map(int, words[:6]), payload))


def file_in(text):
    """The file that the packets of a row spell."""
    packets, magic = text.replace("opened", OPENED).split("/"), "d4c3b2a1"
    if packets[0].startswith("magic:"):
        magic = packets.pop(0).removeprefix("magic:")
    order = ">" if magic.startswith("a1") else "<"
    out = header_of(magic)
    for packet in packets:
        if packet == "cut":
            out = out[:-1]
        elif packet.startswith("of "):
            _, original, rest = packet.split(" ", 2)
            out += record_of(packet_in(rest), int(original), order)
        elif packet != "-":
            out += record_of(packet_in(packet), order=order)
    return out


# ---- parameters, texts and rows


def parameters_of(keys="-", n_sendmax=20):
    """The parameter file with further keys; without codes if none of these keys is about them."""
    lines = NO_CODES if keys == "-" else keys if "check_length" in keys else f"{NO_CODES}/{keys}"
    slack = "" if "slack" in lines else "/slack = 0"
    return (lines + slack).replace("/", "\n").encode() + b"\n" + TWO_CHANNELS.format(n_sendmax=n_sendmax).encode()


def lines_in(part):
    """The lines that a part of a row stands for."""
    return b"" if part == "-" else (part.replace("/", "\n") + "\n").encode()


def constant(name):
    """The text of a constant of verdict_rows.rt."""
    source = SOURCE.read_text()
    text = re.search(rf'pub const {name}: &str = "(.*?)(?<!\\)";', source, re.S)[1]
    return re.sub(r"\\\n\s*", "", text).replace("\\n", "\n")


def row_in(line):
    name, keys, packets, certificate, text = line.split(" | ")
    return Row(name, file_in(packets), parameters_of(keys), lines_in(certificate), lines_in(text))


def rows():
    """All rows by their names, in order."""
    all_rows = [row_in(line) for line in constant("ROWS").splitlines()]
    assert len({row.name for row in all_rows}) == len(all_rows)
    return {row.name: row for row in all_rows}


# ---- the command


def is_written_so(program, row, folder):
    words = [program, "check", *row.write(folder)]
    answer = subprocess.run(words, capture_output=True)
    status = 1 if row.text.startswith(b"refused") else 0
    if (answer.returncode, answer.stdout, answer.stderr) == (status, row.text, b""):
        return True
    print(f"{row.name}: {answer}")
    return False


def check_all(program):
    """Compares the answers to all rows, and says whether one is wrong."""
    with tempfile.TemporaryDirectory() as folder:
        right = [is_written_so(program, row, folder) for row in rows().values()]
    print(f"{len(right)} rows, {right.count(False)} wrong")
    return not all(right)


def main():
    asked = argparse.ArgumentParser(description="Writes the files of a row, or checks those of all.")
    asked.add_argument("--check", action="store_true", help="compare the program's answers to all rows")
    asked.add_argument("--program", type=pathlib.Path, default=PROGRAM, help="rasta_audit")
    asked.add_argument("name", nargs="?")
    asked.add_argument("folder", nargs="?", type=pathlib.Path)
    words = asked.parse_args()
    if words.check:
        return check_all(words.program.resolve())
    if words.name is None:
        print("\n".join(rows()))
        return 0
    if words.folder is None or words.name not in rows():
        asked.error("give the name of a row and a folder")
    row = rows()[words.name]
    words.folder.mkdir(exist_ok=True)
    row.write(words.folder)
    (words.folder / "text.txt").write_bytes(row.text)
    return 0


if __name__ == "__main__":
    sys.exit(main())

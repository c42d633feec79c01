#!/usr/bin/env python3
"""Pipes a capture of many gigabytes through `show`, and looks at what it writes and at the memory that it takes.

    long_pipe.py PROGRAM [--gigabytes N] [--most-mebibytes M]

The capture is made on the way: the records of a sample, over and over, with foreign records of 262,144 bytes,
the longest, between them. The text has to be a line for each packet and then their count, the status 0, and the
peak of resident memory at most M MiB (3 unless told).
"""
import argparse
import pathlib
import struct
import subprocess
import sys
import threading

ROOT = pathlib.Path(__file__).resolve().parent.parent
SAMPLE = ROOT / "examples" / "retransmission.pcap"
PARAMS = ROOT / "examples" / "retransmission.toml"
HEADER = 24
LONGEST = 262_144
FOREIGN_RECORDS = 15


def block():
    """The records of the sample and foreign ones, and how many packets they hold."""
    records = SAMPLE.read_bytes()[HEADER:]
    packets, at = 0, 0
    while at < len(records):
        at += 16 + struct.unpack_from("<I", records, at + 8)[0]
        packets += 1
    foreign = struct.pack("<IIII", 0, 0, LONGEST, LONGEST) + bytes(LONGEST)
    return records + foreign * FOREIGN_RECORDS, packets


def count_lines(pipe, seen):
    """Counts the lines of a text and keeps its end."""
    while part := pipe.read(1 << 20):
        seen["lines"] += part.count(b"\n")
        seen["end"] = (seen["end"] + part)[-100:]


def peak_of(process):
    """The most memory that a process has had resident since it began its program, in MiB."""
    status = pathlib.Path(f"/proc/{process.pid}/status").read_text()
    line = next(line for line in status.splitlines() if line.startswith("VmHWM:"))
    return int(line.split()[1]) / 1024


def main():
    parser = argparse.ArgumentParser(description=__doc__.splitlines()[0])
    parser.add_argument("program")
    parser.add_argument("--gigabytes", type=float, default=10)
    parser.add_argument("--most-mebibytes", type=float, default=3)
    args = parser.parse_args()
    records, packets = block()
    times = int(args.gigabytes * 1e9 / len(records)) + 1
    command = [args.program, "show", "/dev/stdin", str(PARAMS)]
    program = subprocess.Popen(command, stdin=subprocess.PIPE, stdout=subprocess.PIPE)
    seen = {"lines": 0, "end": b""}
    reader = threading.Thread(target=count_lines, args=(program.stdout, seen))
    reader.start()
    program.stdin.write(SAMPLE.read_bytes()[:HEADER])
    for _ in range(times):
        program.stdin.write(records)
    program.stdin.flush()
    peak = peak_of(program)
    program.stdin.close()
    reader.join()
    status = program.wait()
    print(f"{HEADER + times * len(records)} bytes, {times * packets} packets, {peak:.1f} MiB")
    last = f"packets {times * packets}\n".encode()
    failed = []
    if status != 0:
        failed.append("the status isn't 0")
    if seen["lines"] != times * packets + 1 or not seen["end"].endswith(b"\n" + last):
        failed.append("the text isn't that of the packets")
    if peak > args.most_mebibytes:
        failed.append("too much memory")
    for line in failed:
        print(f"FAILED: {line}")
    sys.exit(bool(failed))


if __name__ == "__main__":
    main()

#!/usr/bin/env python3
"""Makes a capture of many connections out of that of one, each between hosts of its own, and their parameter files.

    many.py CAPTURE PARAMS COUNT FOLDER

CAPTURE is a classic libpcap file of Ethernet frames, its numbers with their lowest byte first, and PARAMS its parameter
file. FOLDER/many.pcap gets each packet between recorded hosts COUNT times, between other hosts each time, and every other
record once, in the order of CAPTURE: the connections take turns. FOLDER/params gets a parameter file for each of them.
No header of IPv4 has a checksum. Plain Python 3, no other packages.
"""

import argparse
import pathlib
import re
import struct
import sys

MOST = 65_536
ADDRESS = re.compile(r'"(\d+\.\d+\.\d+\.\d+):(\d+)"')


def records_of(data):
    """The header and the frame of each record."""
    if data[:4] not in (b"\xd4\xc3\xb2\xa1", b"\x4d\x3c\xb2\xa1"):
        sys.exit("this is no classic capture whose numbers have their lowest byte first")
    at = 24
    while at < len(data):
        (length,) = struct.unpack_from("<I", data, at + 8)
        yield data[at : at + 16], data[at + 16 : at + 16 + length]
        at += 16 + length


def host(place, number):
    """The address of the host at this place of the connection of this number."""
    return bytes((10, 128 + place, number >> 8, number & 255))


def dotted(address):
    return ".".join(str(byte) for byte in address)


def hosts_in(text):
    """The recorded addresses, each once, in the order in which they come."""
    return list(dict.fromkeys(match.group(1) for match in ADDRESS.finditer(text)))


def network_at(frame):
    """Where the header of IPv4 begins in a frame, if there is one."""
    at = 18 if frame[12:14] == b"\x81\x00" else 14
    return at if frame[at - 2 : at] == b"\x08\x00" and len(frame) >= at + 20 else None


def write_capture(path, data, places, count):
    with open(path, "wb") as out:
        out.write(data[:24])
        for header, frame in records_of(data):
            at = network_at(frame)
            ends = at and [places.get(frame[i : i + 4]) for i in (at + 12, at + 16)]
            if not ends or None in ends:
                out.write(header + frame)
                continue
            front, behind = frame[: at + 10] + b"\0\0", frame[at + 20 :]
            source, destination = ends
            out.writelines(
                header + front + host(source, number) + host(destination, number) + behind for number in range(count)
            )


def main():
    asked = argparse.ArgumentParser(description="makes a capture of many connections out of that of one")
    asked.add_argument("capture", type=pathlib.Path)
    asked.add_argument("params", type=pathlib.Path)
    asked.add_argument("count", type=int)
    asked.add_argument("folder", type=pathlib.Path)
    asked = asked.parse_args()
    if not 1 <= asked.count <= MOST:
        sys.exit(f"COUNT is from 1 to {MOST}")
    text = asked.params.read_text()
    hosts = hosts_in(text)
    places = {bytes(map(int, address.split("."))): place for place, address in enumerate(hosts)}
    folder = asked.folder / "params"
    folder.mkdir(parents=True, exist_ok=True)
    write_capture(asked.folder / "many.pcap", asked.capture.read_bytes(), places, asked.count)
    for number in range(asked.count):
        renamed = ADDRESS.sub(lambda match: f'"{dotted(host(hosts.index(match[1]), number))}:{match[2]}"', text)
        (folder / f"connection-{number + 1:04}.toml").write_text(renamed)


if __name__ == "__main__":
    main()

#!/usr/bin/env python3
"""Writes the example captures, their parameter files and certificates, and what the program prints.

Plain Python 3, no other packages. Run it anywhere: the files go beside it,

    one_heartbeat     a heartbeat
    two_channels      heartbeats on two channels, with foreign frames in between
    handshake         the opening of a connection
    copies            the same on two channels
    retransmission    a unit is lost and sent again
    both_ask          both ends miss a unit, and ask at the same time
    quiet_start       data after a recorded quiet point
    timeout           an end hears nothing until its deadline, and disconnects
    wrapped           every counter wraps around
    excerpt           one of three connections between the same ends
    missing_packet    a packet that isn't in the capture
    from_the_middle   a retransmission, and no opening before it
    foreign_sender    a PDU of a third party
    flipped_bit       a late copy with a changed bit
    repeated_request  a retransmission request that is sent twice
    late_copies       a whole connection, and all its packets once more behind its end

each as NAME.pcap, NAME.toml and expected/NAME.txt, what `show` prints. Those from handshake to excerpt, and late_copies,
have also NAME.cert and expected/NAME.check.txt, what `check` prints; the others expected/NAME.audit.txt, the refusal
that `audit` prints. station/station.pcap holds three connections, whose parameter files stand beside it, and
expected/station.audits.txt is what `seatmelon audit station/station.pcap station` prints. expected/excerpt.explain.txt is what `seatmelon explain excerpt.pcap excerpt.toml` prints, where the
files stand, expected/from_the_middle.explain.txt what it prints there of from_the_middle, expected/missing_packet.suppose.txt what `seatmelon explain --suppose 1` prints there of missing_packet, and
expected/late_copies.survey.txt what `seatmelon survey` prints. Every run writes the same bytes. All addresses, clocks
and numbers are made up.

The expected texts of `show` come about in two ways, which are compared: from the list of PDUs that the
captures were made of, and by a reader of this script's own, which takes the finished file apart. Those
of `check` are put together from the packets, the certificate's entries and the messages that each story
says were taken, and that of `explain` from the same; refusals are those that a story is about; that of `seatmelon
survey` is counted from the packets. None uses rasta_audit or seatmelon.
"""

import datetime
import hashlib
import pathlib
import struct
import typing
import zlib

HERE = pathlib.Path(__file__).resolve().parent

# ---- the connection

CLIENT_ID, SERVER_ID = 96, 97

# The types of PDUs.
CONNECTION_REQUEST, CONNECTION_RESPONSE = 6200, 6201
RETRANSMISSION_REQUEST, RETRANSMISSION_RESPONSE = 6212, 6213
DISCONNECTION_REQUEST, HEARTBEAT, DATA, RETRANSMITTED_DATA = 6216, 6220, 6240, 6241

# The channels: address and port of the client, address and port of the server.
CHANNELS = [
    (("10.0.0.1", 5000), ("10.0.0.2", 5000)),
    (("10.0.1.1", 5001), ("10.0.1.2", 5001)),
]

CLIENT_MAC = bytes.fromhex("020000000001")
SERVER_MAC = bytes.fromhex("020000000002")
OTHER_MAC = bytes.fromhex("020000000003")
BROADCAST = b"\xff" * 6

# Start words of the digest in RFC 1320, and those of the capture with safety codes.
RFC_1320 = "67452301efcdab8998badcfe10325476"
OWN_START = "0f1e2d3c4b5a69788796a5b4c3d2e1f0"


class Connection(typing.NamedTuple):
    """What is recorded of a connection; lengths in bytes."""

    channels: list
    code_length: int = 0
    check_length: int = 0
    md4_start: str = RFC_1320
    quiet: str = ""
    window: range = range(1, 4_000_000_001)
    window_keys: str = ""
    server_id: int = SERVER_ID


PARAMETERS = """\
client_id = 96
server_id = {server_id}

{lengths}
n_sendmax = 20

# Milliseconds.
t_max = 1800
slack = 0
"""

NO_LENGTHS = """\
# Lengths of the safety code and of the redundancy layer's check code, in bytes. Both are absent here.
code_length = 0
check_length = 0
"""

LENGTHS = """\
# Lengths of the safety code and of the redundancy layer's check code, in bytes, and the start words of
# the code's digest.
code_length = {0.code_length}
check_length = {0.check_length}
md4_start = "{0.md4_start}"
"""

CHANNEL = """
[[channel]]
client = "{}:{}"
server = "{}:{}"
"""


def parameters(comment, connection):
    """The text of a parameter file."""
    lengths = LENGTHS.format(connection) if connection.code_length else NO_LENGTHS
    tables = [CHANNEL.format(*client, *server) for client, server in connection.channels]
    keys = PARAMETERS.format(server_id=connection.server_id, lengths=lengths) + connection.window_keys
    return comment + keys + "".join(tables) + connection.quiet


# ---- the digest of RFC 1320, with start words of one's own


ROW = range(16)

# Of each round: function, constant, shifts, and the words in their order.
ROUNDS = (
    (lambda x, y, z: x & y | ~x & z, 0, (3, 7, 11, 19), ROW),
    (lambda x, y, z: x & y | x & z | y & z, 0x5A827999, (3, 5, 9, 13), [k % 4 * 4 + k // 4 for k in ROW]),
    (lambda x, y, z: x ^ y ^ z, 0x6ED9EBA1, (3, 9, 11, 15), [int(f"{k:04b}"[::-1], 2) for k in ROW]),
)


def md4(start, message):
    """The digest of a message from start words, which are 32 digits."""
    state = [int(start[i : i + 8], 16) for i in range(0, 32, 8)]
    padded = message + b"\x80" + bytes((55 - len(message)) % 64) + struct.pack("<Q", 8 * len(message))
    for at in range(0, len(padded), 64):
        words = struct.unpack_from("<16I", padded, at)
        a, b, c, d = state
        for function, constant, shifts, order in ROUNDS:
            for step, word in enumerate(order):
                total = (a + (function(b, c, d) & 0xFFFFFFFF) + words[word] + constant) & 0xFFFFFFFF
                shift = shifts[step % 4]
                a, b, c, d = d, (total << shift | total >> (32 - shift)) & 0xFFFFFFFF, b, c
        state = [(old + new) & 0xFFFFFFFF for old, new in zip(state, (a, b, c, d))]
    return struct.pack("<4I", *state)


assert md4(RFC_1320, b"abc").hex() == "a448017aaf21d8525fc10ae87aa6729d"


# ---- PDUs: all numbers little-endian


class Pdu(typing.NamedTuple):
    """A PDU of both layers. The body is None, a list of messages, or a tuple: version, N_sendmax and
    reserved bytes of an opening, detail and reason of a disconnection request."""

    side: str
    number: int
    kind: int
    sn: int
    cs: int
    ts: int
    cts: int
    body: object = None


def payload_of(body):
    if body is None:
        return b""
    if isinstance(body, list):
        return b"".join(struct.pack("<H", len(message)) + message for message in body)
    return struct.pack("<4sH8s", *body) if len(body) == 3 else struct.pack("<HH", *body)


def codes_of(connection, safety, front):
    """The safety code of a safety PDU up to its payload's end, and a check code for the datagram."""
    code = md4(connection.md4_start, safety)[: connection.code_length]
    check = struct.pack("<I", zlib.crc32(front + safety + code))
    return code, check[: connection.check_length]


def datagram(connection, pdu):
    """The redundancy PDU with the safety PDU in it."""
    server_id = connection.server_id
    ids = (server_id, CLIENT_ID) if pdu.side == "client" else (CLIENT_ID, server_id)
    payload = payload_of(pdu.body)
    size = 28 + len(payload) + connection.code_length
    safety = struct.pack("<HH6I", size, pdu.kind, *ids, pdu.sn, pdu.cs, pdu.ts, pdu.cts) + payload
    front = struct.pack("<HHI", 8 + size + connection.check_length, 0, pdu.number)
    code, check = codes_of(connection, safety, front)
    return front + safety + code + check


# ---- frames: all numbers big-endian


def address(text):
    return bytes(int(part) for part in text.split("."))


def checksum(data):
    """The checksum of the internet protocols over an even number of bytes."""
    total = sum(struct.unpack(f">{len(data) // 2}H", data))
    while total >> 16:
        total = (total & 0xFFFF) + (total >> 16)
    return ~total & 0xFFFF


def ipv4(source, destination, protocol, payload, options=b"", with_checksum=True):
    """A packet of IPv4, not fragmented."""
    words = 5 + len(options) // 4
    head = struct.pack(">BBHHHBB", 0x40 | words, 0, 4 * words + len(payload), 0, 0, 64, protocol)
    tail = address(source) + address(destination) + options
    value = checksum(head + b"\0\0" + tail) if with_checksum else 0
    return head + struct.pack(">H", value) + tail + payload


def udp(source_port, destination_port, payload):
    """A datagram of UDP with checksum 0, which means that there is none."""
    return struct.pack(">HHHH", source_port, destination_port, 8 + len(payload), 0) + payload


def ethernet(destination, source, kind, payload, tag=b""):
    return destination + source + tag + struct.pack(">H", kind) + payload


def frame_of(side, channel, payload, tag=b"", options=b"", padding=b"", with_checksum=True, channels=None):
    """The frame in which this side sends a datagram on a channel, numbered from 1."""
    client, server = (channels or CHANNELS)[channel - 1]
    source, destination = (client, server) if side == "client" else (server, client)
    macs = (SERVER_MAC, CLIENT_MAC) if side == "client" else (CLIENT_MAC, SERVER_MAC)
    datagram = udp(source[1], destination[1], payload)
    packet = ipv4(source[0], destination[0], 17, datagram, options, with_checksum)
    return ethernet(*macs, 0x0800, packet, tag) + padding


def arp(operation, sender_mac, sender, target_mac, target, to):
    body = struct.pack(">HHBBH", 1, 0x0800, 6, 4, operation)
    body += sender_mac + address(sender) + target_mac + address(target)
    return ethernet(to, sender_mac, 0x0806, body) + bytes(18)


def tcp_syn():
    """A TCP segment between the two hosts of the first channel."""
    ports = struct.pack(">HH", 40000, 22)
    rest = struct.pack(">IIBBH", 1, 0, 0x50, 0x02, 65535)
    pseudo = address("10.0.0.1") + address("10.0.0.2") + struct.pack(">HH", 6, 20)
    value = checksum(pseudo + ports + rest + bytes(4))
    segment = ports + rest + struct.pack(">HH", value, 0)
    packet = ipv4("10.0.0.1", "10.0.0.2", 6, segment)
    return ethernet(SERVER_MAC, CLIENT_MAC, 0x0800, packet) + bytes(6)


def ipv6_udp():
    """A datagram over IPv6, to the discard port."""
    ends = bytes.fromhex("fe80" + "00" * 13 + "01") + bytes.fromhex("fe80" + "00" * 13 + "02")
    datagram = struct.pack(">HHH", 5000, 9, 12)
    pseudo = ends + struct.pack(">II", 12, 17)
    value = checksum(pseudo + datagram + bytes(2) + b"ping")
    datagram += struct.pack(">H", value) + b"ping"
    head = struct.pack(">IHBB", 0x60000000, len(datagram), 17, 64)
    return ethernet(SERVER_MAC, CLIENT_MAC, 0x86DD, head + ends + datagram)


def other_udp(source, destination, payload, macs=(OTHER_MAC, CLIENT_MAC)):
    packet = ipv4(source[0], destination[0], 17, udp(source[1], destination[1], payload))
    return ethernet(*macs, 0x0800, packet)


# ---- captures: little-endian, version 2.4, microseconds, Ethernet


def capture(records):
    """A file of these records, each a time in microseconds and a frame."""
    out = struct.pack("<IHHiIII", 0xA1B2C3D4, 2, 4, 0, 0, 262144, 1)
    for time, frame in records:
        seconds, fraction = divmod(time, 1_000_000)
        out += struct.pack("<IIII", seconds, fraction, len(frame), len(frame)) + frame
    return out


# ---- what `show` prints, from the list of PDUs


def body_text(body):
    if body is None:
        return "-"
    if isinstance(body, list):
        return "data " + ",".join(message.hex() or "." for message in body)
    if len(body) == 3:
        return f"open {body[0].decode()} {body[1]} {body[2].hex()}"
    return f"bye {body[0]} {body[1]}"


def show_line(place, record, channel, pdu, code, check):
    fields = f"{pdu.side} {pdu.number} 0 {pdu.kind} {pdu.sn} {pdu.cs} {pdu.ts} {pdu.cts}"
    codes = f"{code.hex() or '-'} {check.hex() or '-'}"
    return f"{place} {record} {channel} {fields} {body_text(pdu.body)} {codes}\n"


def planned_lines(connection, packets):
    """The lines of packets, each a record's number, a channel and a PDU."""
    lines = []
    for place, (record, channel, pdu) in enumerate(packets):
        whole = datagram(connection, pdu)
        check_at = len(whole) - connection.check_length
        code = whole[check_at - connection.code_length : check_at]
        lines.append(show_line(place, record, channel, pdu, code, whole[check_at:]))
    return "".join(lines)


def planned_text(connection, packets):
    """The text of packets none of which is refused."""
    return planned_lines(connection, packets) + f"packets {len(packets)}\n"


# ---- certificates, and what `check` prints


class Refusal(typing.NamedTuple):
    """A fault's number and name, its record, and the end that it names."""

    number: int
    name: str
    record: int
    end: str = "-"

    def line(self):
        return f"refused {self.number} {self.name} {self.record} {self.end}\n"


class Story(typing.NamedTuple):
    """Both scripts, and what each end took: message number, place of the data, place of the proof, bytes."""

    client: list
    server: list
    client_took: list = []
    server_took: list = []


def certificate(story):
    """The text of a certificate with these scripts."""
    lines = ["rasta-certificate 1", "client", *story.client, "server", *story.server, "end"]
    return "".join(line + "\n" for line in lines)


def takes_at(level, side, script):
    """What a side takes when so many packets have crossed."""
    for entry in script:
        words = entry.split(" ")
        if words[0] == "take" and int(words[1]) == level:
            yield f"{level} {side} take {words[2]}\n"


def packet_line(place, pdu, story):
    """What is said of a packet: the make of a first copy, or that it is a copy."""
    for entry in story.client if pdu.side == "client" else story.server:
        words = entry.split(" ")
        if words[0] == "make" and int(words[1]) == place:
            return f"{place} {pdu.side} make {pdu.number} {' '.join(words[2:])}\n"
    return f"{place} {pdu.side} copy {pdu.number}\n"


def taken_lines(side, messages):
    lines = [f"{number} {data} {proof} {message.hex() or '.'}\n" for number, data, proof, message in messages]
    return f"taken by {side} {len(lines)}\n" + "".join(lines)


def verdict_text(pdus, story):
    """The text of a verdict on packets that these scripts explain."""
    out = f"explained {len(pdus)}\n"
    for level in range(len(pdus) + 1):
        out += "".join(takes_at(level, "client", story.client))
        out += "".join(takes_at(level, "server", story.server))
        if level < len(pdus):
            out += packet_line(level, pdus[level], story)
    return out + taken_lines("client", story.client_took) + taken_lines("server", story.server_took)


# ---- what `seatmelon survey` prints of a connection that it finds whole on the first channel, and nothing else

KINDS = {
    CONNECTION_REQUEST: "connection request",
    CONNECTION_RESPONSE: "connection response",
    RETRANSMISSION_REQUEST: "retransmission request",
    RETRANSMISSION_RESPONSE: "retransmission response",
    DISCONNECTION_REQUEST: "disconnection request",
    HEARTBEAT: "heartbeat",
    DATA: "data",
    RETRANSMITTED_DATA: "retransmitted data",
}


def time_text(time):
    """A time in microseconds since 1970."""
    day = datetime.datetime.fromtimestamp(time // 1_000_000, datetime.timezone.utc)
    return f"{day:%Y-%m-%d %H:%M:%S}.{time % 1_000_000:06}"


def are_messages(payload):
    """Whether a payload consists of messages."""
    while len(payload) >= 2 + int.from_bytes(payload[:2], "little"):
        payload = payload[2 + int.from_bytes(payload[:2], "little") :]
        if not payload:
            return True
    return False


def has_form(kind, payload):
    """Whether a payload has the form that its type asks for."""
    if kind in (CONNECTION_REQUEST, CONNECTION_RESPONSE):
        return len(payload) == 14 and payload[:4].isdigit()
    if kind in (DATA, RETRANSMITTED_DATA):
        return are_messages(payload)
    return len(payload) == (4 if kind == DISCONNECTION_REQUEST else 0)


def code_lines(connection, pdus):
    """How many packets each length of the safety code fits, and how often with the start words of RFC 1320."""
    for length in (0, 8, 16):
        forms = right = 0
        for pdu in pdus:
            whole = datagram(connection, pdu)
            check_at = len(whole) - connection.check_length
            if has_form(pdu.kind, whole[36 : check_at - length]):
                forms += 1
                code = md4(RFC_1320, whole[8 : check_at - length])[:length]
                right += code == whole[check_at - length : check_at]
        if forms:
            yield f"  a safety code of {length} bytes fits the length of {forms} of {len(pdus)} packets\n"
        if forms and length:
            yield f"    MD4's own start words fit {right} of these\n"


def sent_lines(side, pdus):
    """How many PDUs of each type a side sent, each of them once, and how many copies."""
    sent = [pdu for pdu in pdus if pdu.side == side]
    first = list(dict.fromkeys(pdu.number for pdu in sent))
    kinds = {pdu.number: pdu.kind for pdu in sent}
    assert first == sorted(first) and len(first) == first[-1] - first[0] + 1
    for kind, name in KINDS.items():
        count = sum(kinds[number] == kind for number in first)
        if count:
            yield f"  {side} sent {name}: {count}\n"
    if len(sent) > len(first):
        yield f"  {side}'s copies: {len(sent) - len(first)}\n"


def survey_text(connection, pdus, times):
    """The text of a survey, of a connection that an end ends and whose packets then cross once more from the first."""
    end = next(record for record, pdu in enumerate(pdus, 1) if pdu.kind == DISCONNECTION_REQUEST)
    assert pdus[end:] == pdus[:end]
    version, sendmax, _ = pdus[0].body
    offer = f"version {version.decode()}, N_sendmax {sendmax}"
    to_server = sum(pdu.side == "client" for pdu in pdus)
    (client, client_port), (server, server_port) = connection.channels[0]
    lines = [
        f"records: {len(pdus)}\npackets of RaSTA: {len(pdus)}\nother records, passed over: 0\n",
        "\nconnection 1\n",
        f"  client id {CLIENT_ID}, {offer}\n  server id {connection.server_id}, {offer}\n",
        f"  records 1 to {len(pdus)}\n",
        f"  captured from {time_text(times[0])} to {time_text(times[-1])} UTC\n",
        "  opened by the client at record 1\n",
        f"  ended by the {pdus[end - 1].side} at record {end}, reason {pdus[end - 1].body[1]}\n",
        f"  late copies of its opening and of what came behind it: {len(pdus) - end}, "
        f"the first in record {end + 1}, the last in record {len(pdus)}\n",
        f"  channel 1: {client}:{client_port} - {server}:{server_port}, "
        f"packets to the server: {to_server}, to the client: {len(pdus) - to_server}\n",
        *code_lines(connection, pdus),
        f"  a check code of {connection.check_length} bytes fits the length of {len(pdus)} of {len(pdus)} packets\n",
        *sent_lines("client", pdus),
        *sent_lines("server", pdus),
    ]
    return "".join(lines)


# ---- what `show` prints, read back from the finished file


def records_of(data):
    """The records' frames; the files made here are whole, so that anything else is an error."""
    assert data[:8] == bytes.fromhex("d4c3b2a102000400") and data[20:24] == b"\1\0\0\0"
    at = 24
    while at < len(data):
        size = int.from_bytes(data[at + 8 : at + 12], "little")
        assert at + 16 + size <= len(data)
        yield data[at + 16 : at + 16 + size]
        at += 16 + size


def endpoint(raw_address, raw_port):
    return ".".join(str(byte) for byte in raw_address), int.from_bytes(raw_port, "big")


def sender_in(frame, channels):
    """Channel, side and payload of a frame, or None where it is of no channel."""
    if frame[12:14] == b"\x81\x00":
        frame = frame[:12] + frame[16:]
    if frame[12:14] != b"\x08\x00" or frame[14] >> 4 != 4 or frame[23] != 17:
        return None
    header = 14 + 4 * (frame[14] & 15)
    source = endpoint(frame[26:30], frame[header : header + 2])
    destination = endpoint(frame[30:34], frame[header + 2 : header + 4])
    size = int.from_bytes(frame[header + 4 : header + 6], "big")
    payload = frame[header + 8 : header + size]
    for number, (client, server) in enumerate(channels, 1):
        if (source, destination) == (client, server):
            return number, "client", payload
        if (source, destination) == (server, client):
            return number, "server", payload
    return None


def messages_in(payload):
    messages = []
    while payload:
        size = int.from_bytes(payload[:2], "little")
        assert len(payload) >= 2 + size
        messages.append(payload[2 : 2 + size])
        payload = payload[2 + size :]
    assert messages
    return messages


def body_in(kind, payload):
    """The body of this type that a payload spells."""
    if kind in (CONNECTION_REQUEST, CONNECTION_RESPONSE):
        assert len(payload) == 14 and payload[:4].isdigit()
        return payload[:4], int.from_bytes(payload[4:6], "little"), payload[6:]
    if kind == DISCONNECTION_REQUEST:
        assert len(payload) == 4
        return int.from_bytes(payload[:2], "little"), int.from_bytes(payload[2:], "little")
    if kind in (DATA, RETRANSMITTED_DATA):
        return messages_in(payload)
    assert kind in (RETRANSMISSION_REQUEST, RETRANSMISSION_RESPONSE, HEARTBEAT) and not payload
    return None


def pdu_in(connection, side, whole):
    """The PDU of a datagram with its safety code and its check code."""
    check_at = len(whole) - connection.check_length
    code_at = check_at - connection.code_length
    fields = [int.from_bytes(whole[i : i + 4], "little") for i in range(4, 36, 4)]
    number, kinds, receiver, sender, sn, cs, ts, cts = fields
    assert int.from_bytes(whole[:4], "little") == len(whole) and kinds & 0xFFFF == check_at - 8
    server_id = connection.server_id
    ends = (CLIENT_ID, server_id) if side == "client" else (server_id, CLIENT_ID)
    assert (sender, receiver) == ends
    code = whole[code_at:check_at]
    assert code == md4(connection.md4_start, whole[8:code_at])[: len(code)]
    body = body_in(kinds >> 16, whole[36:code_at])
    return Pdu(side, number, kinds >> 16, sn, cs, ts, cts, body), code, whole[check_at:]


def read_text(data, connection, refusal=None):
    """The text of a file in which every datagram of the connection is a sound PDU, or those before a refusal are."""
    lines = []
    for record, frame in enumerate(records_of(data), 1):
        found = sender_in(frame, connection.channels)
        if refusal and refusal.record == record:
            return "".join(lines) + refusal.line()
        if found is not None and record in connection.window:
            channel, side, payload = found
            pdu, code, check = pdu_in(connection, side, payload)
            lines.append(show_line(len(lines), record, channel, pdu, code, check))
    return "".join(lines) + f"packets {len(lines)}\n"


# ---- the examples


def one_heartbeat(connection):
    """One heartbeat of the client, with six bytes of padding after its frame."""
    pdu = Pdu("client", 8, HEARTBEAT, 101, 500, 1010, 9000)
    frame = frame_of("client", 1, datagram(connection, pdu), padding=bytes(6), with_checksum=False)
    return capture([(0, frame)]), planned_text(connection, [(1, 1, pdu)])


# Midnight before 1 January 2026 (UTC), in microseconds.
START = 1_767_225_600_000_000

PERIOD = 300  # milliseconds between two heartbeats of an end


def exchange():
    """Five heartbeats of the client and four of the server, by turns, with their times."""
    for i in range(9):
        turn, is_server = divmod(i, 2)
        client_ts, server_ts = 1010 + PERIOD * turn, 9150 + PERIOD * turn
        if is_server:
            pdu = Pdu("server", 41 + turn, HEARTBEAT, 501 + turn, 101 + turn, server_ts, client_ts)
        else:
            last_server_ts = 9000 if turn == 0 else server_ts - PERIOD
            pdu = Pdu("client", 8 + turn, HEARTBEAT, 101 + turn, 500 + turn, client_ts, last_server_ts)
        yield START + 1000 * (PERIOD * i // 2), pdu


# How the frame of a heartbeat differs from the plain one: by PDU from 0 and channel.
VARIANTS = {
    (1, 2): {"tag": bytes.fromhex("81000005")},  # IEEE 802.1Q, VLAN 5
    (2, 1): {"padding": bytes(6)},
    (4, 2): {"options": bytes.fromhex("01010100")},  # three no-operations, end of options
}

LOST = (5, 1)  # the copy on channel 1 that never passes the tap


def foreign():
    """Frames that are not of the connection, each after the PDU of this number."""
    return [
        (0, arp(1, CLIENT_MAC, "10.0.0.1", bytes(6), "10.0.0.2", BROADCAST)),
        (0, arp(2, SERVER_MAC, "10.0.0.2", CLIENT_MAC, "10.0.0.1", CLIENT_MAC)),
        (1, tcp_syn()),
        (3, other_udp(("192.168.7.1", 5000), ("192.168.7.2", 5000), b"other hosts")),
        (4, other_udp(("10.0.0.1", 6000), ("10.0.0.2", 6000), b"other ports", (SERVER_MAC, CLIENT_MAC))),
        (6, ipv6_udp()),
        # From the client of one channel to the server of the other one.
        (7, other_udp(("10.0.0.1", 5000), ("10.0.1.2", 5001), b"no channel", (SERVER_MAC, CLIENT_MAC))),
    ]


def two_channels(connection):
    """Nine heartbeats and their copies, with seven foreign frames in between."""
    records, packets = [], []
    for i, (time, pdu) in enumerate(exchange()):
        for channel in (1, 2):
            if (i, channel) != LOST:
                variant = VARIANTS.get((i, channel), {})
                frame = frame_of(pdu.side, channel, datagram(connection, pdu), **variant)
                records.append((time + 1000 * (channel - 1), frame))
                packets.append((len(records), channel, pdu))
        for behind, frame in foreign():
            if behind == i:
                records.append((time + 40_000, frame))
    return capture(records), planned_text(connection, packets)


def in_turn(connection, pdus, times=None):
    """PDUs on the first channel, one every 5 milliseconds or at these times, in milliseconds."""
    frames = [frame_of(pdu.side, 1, datagram(connection, pdu)) for pdu in pdus]
    times = times or [5 * i for i in range(len(pdus))]
    records = [(START + 1000 * time, frame) for time, frame in zip(times, frames)]
    return capture(records), planned_text(connection, [(i, 1, pdu) for i, pdu in enumerate(pdus, 1)])


OPENING = (b"0303", 20, bytes(8))

# The client asks for a connection, the server answers, and the client's first heartbeat completes it.
HANDSHAKE = [
    Pdu("client", 7, CONNECTION_REQUEST, 100, 0, 1000, 0, OPENING),
    Pdu("server", 40, CONNECTION_RESPONSE, 500, 100, 9000, 1000, OPENING),
    Pdu("client", 8, HEARTBEAT, 101, 500, 1010, 9000),
]

FIRST, SECOND, THIRD = [bytes.fromhex("ab01"), b""], [bytes(range(100))], [b"", bytes.fromhex("02")]

# The server misses the data of the client's redundancy PDU 9, asks for it, and is sent all of it again.
# Then it takes its leave.
RETRANSMISSION = HANDSHAKE + [
    Pdu("client", 9, DATA, 102, 500, 1015, 9000, FIRST),
    Pdu("client", 10, DATA, 103, 500, 1020, 9000, SECOND),
    Pdu("server", 41, RETRANSMISSION_REQUEST, 501, 101, 9020, 1010),
    Pdu("client", 11, RETRANSMISSION_RESPONSE, 104, 501, 1030, 9020),
    Pdu("client", 12, RETRANSMITTED_DATA, 105, 501, 1035, 9020, FIRST),
    Pdu("client", 13, RETRANSMITTED_DATA, 106, 501, 1040, 9020, SECOND),
    Pdu("server", 42, HEARTBEAT, 502, 106, 9040, 1040),
    Pdu("client", 14, DATA, 107, 502, 1050, 9040, THIRD),
    Pdu("server", 43, DISCONNECTION_REQUEST, 503, 107, 9050, 1050, (3, 0)),
]

HANDSHAKE_STORY = Story(
    ["make 0 1000 open", "take 2 40", "make 2 1010 reply"],
    ["take 1 7", "make 1 9000 reply"],
)

RETRANSMISSION_STORY = Story(
    [
        "make 0 1000 open",
        "take 2 40",
        "make 2 1010 reply",
        "make 3 1015 fresh",
        "make 4 1020 fresh",
        "take 6 41",
        "make 6 1030 reply",
        "make 7 1035 again 0",
        "make 8 1040 again 1",
        "take 10 42",
        "make 10 1050 fresh",
    ],
    [
        "take 1 7",
        "make 1 9000 reply",
        "take 5 8",
        "take 5 10",
        "make 5 9020 ask",
        "take 9 11",
        "take 9 12",
        "take 9 13",
        "make 9 9040 beat",
        "take 11 14",
        "make 11 9050 bye",
    ],
    server_took=[
        (0, 3, 9, FIRST[0]),
        (1, 3, 9, FIRST[1]),
        (2, 4, 9, SECOND[0]),
        (3, 10, 11, THIRD[0]),
        (4, 10, 11, THIRD[1]),
    ],
)

# The handshake with copies on the second channel: each packet a channel and its PDU.
COPIES = [
    (1, HANDSHAKE[0]),
    (2, HANDSHAKE[0]),
    (1, HANDSHAKE[1]),
    (1, HANDSHAKE[2]),
    (2, HANDSHAKE[0]),
    (2, HANDSHAKE[2]),
    (2, HANDSHAKE[1]),
]

COPIES_STORY = Story(
    ["make 0 1000 open", "take 3 40", "make 3 1010 reply"],
    ["take 2 7", "make 2 9000 reply"],
)


def on_channels(connection, packets):
    """PDUs on these channels, one every 5 milliseconds."""
    frames = [frame_of(pdu.side, channel, datagram(connection, pdu)) for channel, pdu in packets]
    records = [(START + 5000 * i, frame) for i, frame in enumerate(frames)]
    return capture(records), planned_text(connection, [(i, *packet) for i, packet in enumerate(packets, 1)])


def byte(value):
    """A message of one byte."""
    return [bytes([value])]


# Both ends miss the other's first unit, and ask for it at the same time.
BOTH_ASK = HANDSHAKE + [
    Pdu("client", 9, DATA, 102, 500, 1020, 9000, byte(0x01)),
    Pdu("server", 41, DATA, 501, 101, 9020, 1010, byte(0x11)),
    Pdu("client", 10, DATA, 103, 500, 1030, 9000, byte(0x02)),
    Pdu("server", 42, DATA, 502, 101, 9030, 1010, byte(0x12)),
    Pdu("client", 11, RETRANSMISSION_REQUEST, 104, 500, 1040, 9000),
    Pdu("server", 43, RETRANSMISSION_REQUEST, 503, 101, 9040, 1010),
    Pdu("client", 12, RETRANSMISSION_RESPONSE, 105, 500, 1050, 9000),
    Pdu("client", 13, RETRANSMITTED_DATA, 106, 500, 1051, 9000, byte(0x01)),
    Pdu("client", 14, RETRANSMITTED_DATA, 107, 500, 1052, 9000, byte(0x02)),
    Pdu("server", 44, RETRANSMISSION_RESPONSE, 504, 101, 9050, 1010),
    Pdu("server", 45, RETRANSMITTED_DATA, 505, 101, 9051, 1010, byte(0x11)),
    Pdu("server", 46, RETRANSMITTED_DATA, 506, 101, 9052, 1010, byte(0x12)),
    Pdu("client", 15, HEARTBEAT, 108, 506, 1060, 9052),
    Pdu("server", 47, HEARTBEAT, 507, 108, 9060, 1060),
]

BOTH_ASK_STORY = Story(
    [
        "make 0 1000 open",
        "take 2 40",
        "make 2 1010 reply",
        "make 3 1020 fresh",
        "make 5 1030 fresh",
        "take 7 42",
        "make 7 1040 ask",
        "take 9 43",
        "make 9 1050 reply",
        "make 10 1051 again 0",
        "make 11 1052 again 1",
        "take 15 44",
        "take 15 45",
        "take 15 46",
        "make 15 1060 beat",
    ],
    [
        "take 1 7",
        "make 1 9000 reply",
        "take 4 8",
        "make 4 9020 fresh",
        "make 6 9030 fresh",
        "take 8 10",
        "make 8 9040 ask",
        "take 12 11",
        "make 12 9050 reply",
        "make 13 9051 again 0",
        "make 14 9052 again 1",
        "take 16 12",
        "take 16 13",
        "take 16 14",
        "take 16 15",
        "make 16 9060 beat",
    ],
    client_took=[(0, 4, 15, b"\x11"), (1, 6, 15, b"\x12")],
    server_took=[(0, 3, 16, b"\x01"), (1, 5, 16, b"\x02")],
)

QUIET = """
# The capture begins in mid-session, at a quiet point: both ends up, nothing owed, and everything made
# was taken and confirmed.
[quiet.client]
next_sn = 102
clock = 1010

[quiet.server]
next_sn = 501
clock = 9000
deadline = 10800
"""

# The first two PDUs behind the quiet point.
QUIET_START = [
    Pdu("client", 9, DATA, 102, 500, 1020, 9000, FIRST),
    Pdu("server", 41, HEARTBEAT, 501, 102, 9050, 1020),
]

QUIET_STORY = Story(
    ["make 0 1020 fresh"],
    ["take 1 9", "make 1 9050 beat"],
    server_took=[(0, 0, 1, FIRST[0]), (1, 0, 1, FIRST[1])],
)

# The client falls silent after the opening. The server's deadline is T_max after its own time 9000, which the client's
# heartbeat confirms; at the deadline it disconnects for a timeout.
TIMEOUT = HANDSHAKE + [
    Pdu("server", 41, HEARTBEAT, 501, 101, 9300, 1010),
    Pdu("server", 42, HEARTBEAT, 502, 101, 9600, 1010),
    Pdu("server", 43, HEARTBEAT, 503, 101, 9900, 1010),
    Pdu("server", 44, HEARTBEAT, 504, 101, 10200, 1010),
    Pdu("server", 45, HEARTBEAT, 505, 101, 10500, 1010),
    Pdu("server", 46, DISCONNECTION_REQUEST, 506, 101, 10800, 1010, (0, 4)),
]

TIMEOUT_TIMES = [0, 5, 10, 305, 605, 905, 1205, 1505, 1805]

TIMEOUT_STORY = Story(
    ["make 0 1000 open", "take 2 40", "make 2 1010 reply"],
    [
        "take 1 7",
        "make 1 9000 reply",
        "take 3 8",
        "make 3 9300 beat",
        "make 4 9600 beat",
        "make 5 9900 beat",
        "make 6 10200 beat",
        "make 7 10500 beat",
        "make 8 10800 expired",
    ],
)

LAST = 2**32 - 1  # after it comes 0

# The redundancy numbers, the sequence numbers and the time stamps of both ends wrap around.
WRAPPED = [
    Pdu("client", LAST, CONNECTION_REQUEST, LAST, 0, LAST - 5, 0, OPENING),
    Pdu("server", LAST, CONNECTION_RESPONSE, LAST, LAST, LAST - 15, LAST - 5, OPENING),
    Pdu("client", 0, HEARTBEAT, 0, LAST, 4, LAST - 15),
    Pdu("client", 1, DATA, 1, LAST, 14, LAST - 15, FIRST),
    Pdu("server", 0, HEARTBEAT, 0, 1, 10, 14),
    Pdu("client", 2, HEARTBEAT, 2, 0, 24, 10),
]

WRAPPED_STORY = Story(
    [
        "make 0 4294967290 open",
        "take 2 4294967295",
        "make 2 4294967300 reply",
        "make 3 4294967310 fresh",
        "take 5 0",
        "make 5 4294967320 beat",
    ],
    ["take 1 4294967295", "make 1 4294967280 reply", "take 4 0", "take 4 1", "make 4 4294967306 beat"],
    server_took=[(0, 3, 4, FIRST[0]), (1, 3, 4, FIRST[1])],
)

# The end of a connection on both channels, the copy of whose heartbeat crossed before the capture began, then a whole
# connection of the same ends, of which each PDU crosses twice, and the opening of a third.
EXCERPT_BEFORE = [
    (2, Pdu("server", 97, HEARTBEAT, 6420, 1733, 71950, 59900)),
    (1, Pdu("client", 88, DISCONNECTION_REQUEST, 1734, 6420, 60000, 71950, (0, 0))),
    (2, Pdu("client", 88, DISCONNECTION_REQUEST, 1734, 6420, 60000, 71950, (0, 0))),
]

EXCERPT = [
    Pdu("client", 3, CONNECTION_REQUEST, 2000, 0, 61000, 0, OPENING),
    Pdu("server", 5, CONNECTION_RESPONSE, 7000, 2000, 73000, 61000, OPENING),
    Pdu("client", 4, HEARTBEAT, 2001, 7000, 61010, 73000),
    Pdu("client", 5, DATA, 2002, 7000, 61020, 73000, [bytes.fromhex("ab01"), b"on"]),
    Pdu("server", 6, HEARTBEAT, 7001, 2002, 73050, 61020),
    Pdu("client", 6, DISCONNECTION_REQUEST, 2003, 7001, 61030, 73050, (0, 0)),
]

EXCERPT_BEHIND = [
    (channel, Pdu("client", 120, CONNECTION_REQUEST, 2650, 0, 62500, 0, OPENING)) for channel in (1, 2)
]

# After which PDU of the second connection the foreign frames stand.
EXCERPT_FOREIGN = (0, 0, 1, 2, 3, 3, 4)

EXCERPT_STORY = Story(
    ["make 0 61000 open", "take 4 5", "make 4 61010 reply", "make 6 61020 fresh", "take 10 6", "make 10 61030 bye"],
    ["take 2 3", "make 2 73000 reply", "take 8 4", "take 8 5", "make 8 73050 beat"],
    server_took=[(0, 6, 8, b"\xab\x01"), (1, 6, 8, b"on")],
)

EXCERPT_WINDOW = range(4, 23)

EXCERPT_KEYS = """
# The records of the second connection.
first_record = 4
last_record = 22
"""


def excerpt_records():
    """What each record has: a channel and a PDU, or a foreign frame."""
    yield from EXCERPT_BEFORE
    foreign_frames = [frame for _, frame in foreign()]
    for i, pdu in enumerate(EXCERPT):
        yield from ((1, pdu), (2, pdu))
        yield from (frame for behind, frame in zip(EXCERPT_FOREIGN, foreign_frames) if behind == i)
    yield from EXCERPT_BEHIND


def excerpt_packets():
    """The packets of all three connections, each its record, a channel and a PDU."""
    return [(i, *held) for i, held in enumerate(excerpt_records(), 1) if isinstance(held, tuple)]


def excerpt(connection):
    """A record every 5 milliseconds, and what `show` prints of those in the window."""
    frames = []
    for held in excerpt_records():
        if isinstance(held, tuple):
            channel, pdu = held
            held = frame_of(pdu.side, channel, datagram(connection, pdu))
        frames.append(held)
    records = [(START + 5000 * i, frame) for i, frame in enumerate(frames)]
    packets = [packet for packet in excerpt_packets() if packet[0] in connection.window]
    return capture(records), planned_text(connection, packets)


# The retransmission without the client's redundancy PDU 11, which the tap missed.
MISSING_PACKET = [pdu for pdu in RETRANSMISSION if (pdu.side, pdu.number) != ("client", 11)]
MISSING_REFUSAL = Refusal(28, "NumberGap", 7, "client")

# A PDU with another sender's id comes from the client's address.
FOREIGN_ID = 98
FOREIGN_SENDER = HANDSHAKE + [
    Pdu("client", 9, DATA, 102, 500, 1015, 9000, FIRST),
    Pdu("server", 41, HEARTBEAT, 501, 102, 9020, 1015),
]
FOREIGN_REFUSAL = Refusal(26, "Ids", 4, "client")


def foreign_sender(connection):
    """The packets, of which the fourth has another id in the sender's place."""
    data, _ = in_turn(connection, FOREIGN_SENDER)
    own, other = struct.pack("<I", CLIENT_ID), struct.pack("<I", FOREIGN_ID)
    datagrams = [datagram(connection, pdu) for pdu in FOREIGN_SENDER]
    changed = datagrams[3][:16] + other + datagrams[3][20:]
    assert datagrams[3][16:20] == own and data.count(datagrams[3]) == 1
    before = [(i, 1, pdu) for i, pdu in enumerate(FOREIGN_SENDER[:3], 1)]
    return data.replace(datagrams[3], changed), planned_lines(connection, before) + FOREIGN_REFUSAL.line()


# The opening and a unit with safety codes, and then the unit's copy on the second channel, with a changed bit.
FLIPPED_BIT = [(channel, pdu) for pdu in HANDSHAKE for channel in (1, 2)] + [
    (1, Pdu("client", 9, DATA, 102, 500, 1015, 9000, FIRST)),
    (2, Pdu("client", 9, DATA, 102, 500, 1015, 9000, FIRST)),
]
FLIPPED_REFUSAL = Refusal(25, "Code", 8, "client")


def flipped_bit(connection):
    """The packets, with the last bit of the first message's last byte changed in the last one."""
    data, _ = on_channels(connection, FLIPPED_BIT)
    whole = datagram(connection, FLIPPED_BIT[-1][1])
    at = 36 + 2 + len(FIRST[0]) - 1
    changed = whole[:at] + bytes([whole[at] ^ 1]) + whole[at + 1 :]
    front, _, end = data.rpartition(whole)
    before = [(i, *packet) for i, packet in enumerate(FLIPPED_BIT[:-1], 1)]
    return front + changed + end, planned_lines(connection, before) + FLIPPED_REFUSAL.line()


# As in the retransmission the server misses a unit. It repeats its request before the answer comes.
REPEATED_REQUEST = RETRANSMISSION[:6] + [
    Pdu("server", 42, RETRANSMISSION_REQUEST, 502, 101, 9025, 1010),
    Pdu("client", 11, RETRANSMISSION_RESPONSE, 104, 502, 1030, 9025),
    Pdu("client", 12, RETRANSMITTED_DATA, 105, 502, 1035, 9025, FIRST),
    Pdu("client", 13, RETRANSMITTED_DATA, 106, 502, 1040, 9025, SECOND),
    Pdu("server", 43, HEARTBEAT, 503, 106, 9040, 1040),
]
# The place of a 60 is that of the packet in the list of all, counted from 1.
REPEATED_REFUSAL = Refusal(60, "NotFound", 7)

# The retransmission, and two seconds after its beginning all its packets once more.
LATE_COPIES = RETRANSMISSION + RETRANSMISSION
LATE_TIMES = [5 * i for i in range(12)] + [2000 + 5 * i for i in range(12)]
WHOLE_WINDOW = """
first_record = 1
last_record = 24
"""

# A capture that begins with a heartbeat, where no quiet point is recorded.
NO_OPENING = Refusal(60, "NotFound", 1)

ONE_COMMENT = """\
# Parameters of one_heartbeat.pcap: a connection with one redundancy channel.
# All keys that have to be there are here; the window is the whole file, since first_record and
# last_record are missing.

"""

TWO_COMMENT = """\
# Parameters of two_channels.pcap: a connection with two redundancy channels.

"""

HANDSHAKE_COMMENT = """\
# Parameters of handshake.pcap: a connection with one redundancy channel.

"""

RETRANSMISSION_COMMENT = """\
# Parameters of retransmission.pcap: a connection with safety codes and check codes.

"""

COPIES_COMMENT = """\
# Parameters of copies.pcap: a connection with two redundancy channels.

"""

BOTH_ASK_COMMENT = """\
# Parameters of both_ask.pcap: a connection with one redundancy channel.

"""

QUIET_COMMENT = """\
# Parameters of quiet_start.pcap: a connection with one redundancy channel, recorded from a quiet point on.

"""


TIMEOUT_COMMENT = """\
# Parameters of timeout.pcap: a connection with one redundancy channel.

"""

WRAPPED_COMMENT = """\
# Parameters of wrapped.pcap: a connection with one redundancy channel.

"""

EXCERPT_COMMENT = """\
# Parameters of excerpt.pcap: a connection with two redundancy channels, the second of three in the file.

"""

MISSING_COMMENT = """\
# Parameters of missing_packet.pcap: a connection with safety codes and check codes.

"""

MIDDLE_COMMENT = """\
# Parameters of from_the_middle.pcap: a connection with safety codes and check codes, without its opening.

"""

FOREIGN_COMMENT = """\
# Parameters of foreign_sender.pcap: a connection with one redundancy channel.

"""

FLIPPED_COMMENT = """\
# Parameters of flipped_bit.pcap: a connection with two redundancy channels and safety codes.

"""

REPEATED_COMMENT = """\
# Parameters of repeated_request.pcap: a connection with one redundancy channel.

"""

LATE_COMMENT = """\
# Parameters of late_copies.pcap: a connection with safety codes and check codes, and the window of its draft.

"""


# ---- three connections of an interlocking with its field elements, and what `seatmelon audit` prints of them


class Element(typing.NamedTuple):
    """A field element: its connection, the PDUs and when the first one crosses, in milliseconds, and what becomes of it."""

    name: str
    connection: Connection
    pdus: list
    begin: int
    story: Story | None
    refusal: Refusal | None = None


def element(name, server_id, row, pdus, begin, story, refusal=None):
    """An element with this id, at an address of its own. Of one that is refused the packets alone show all its messages."""
    channel = (("10.1.0.1", 5000), (f"10.1.{row}.2", 5000))
    return Element(name, Connection([channel], 16, 4, OWN_START, server_id=server_id), pdus, begin, story, refusal)


STATION_COMMENT = """\
# Parameters of the connection with {} in station.pcap.

"""


def station_elements():
    return [
        element("points-7", 107, 7, BOTH_ASK, 2, BOTH_ASK_STORY),
        element("signal-12", 112, 12, RETRANSMISSION, 0, RETRANSMISSION_STORY),
        element("signal-13", 113, 13, MISSING_PACKET, 1, None, MISSING_REFUSAL),
    ]


def station_records(elements):
    """The time, the frame and the element's name of each record, in their order; a frame of others is among them."""
    records = [(START + 12_500, arp(1, CLIENT_MAC, "10.1.0.1", bytes(6), "10.1.7.2", BROADCAST), "")]
    for each in elements:
        for i, pdu in enumerate(each.pdus):
            frame = frame_of(pdu.side, 1, datagram(each.connection, pdu), channels=each.connection.channels)
            records.append((START + 1000 * (each.begin + 5 * i), frame, each.name))
    return sorted(records)


def sent_by(side, pdus):
    """How many messages this side sent."""
    return sum(len(pdu.body) for pdu in pdus if (pdu.side, pdu.kind) == (side, DATA))


def audit_line(each, records):
    """What is printed of an element's connection, if the records hold these packets."""
    if each.refusal:
        own = [number for number, (_, _, name) in enumerate(records, 1) if name == each.name]
        record = own[each.refusal.record - 1]
        time = time_text(records[record - 1][0])
        told = f"refused by {each.refusal.number} {each.refusal.name}, record {record}, {time} UTC, {each.refusal.end}"
        client, server = (sent_by(side, each.pdus) for side in ("client", "server"))
        shown = f"{client} of {client} captured messages surely taken"
        before = each.refusal.record - 1
        told += f"; the {before} packets before it are explained; client to server: {shown}"
        told += f"; server to client: {server} of {server}, by {len(each.pdus)} packets, whatever was missed"
    else:
        client = f"{len(each.story.server_took)} of {sent_by('client', each.pdus)} messages surely taken"
        server = f"{len(each.story.client_took)} of {sent_by('server', each.pdus)}"
        told = f"explained, {len(each.pdus)} packets; client to server: {client}; server to client: {server}"
    return f"station/{each.name}.toml: {told}\n"


def write_station():
    """The capture, its parameter files, and what `seatmelon audit` prints of them."""
    elements = station_elements()
    records = station_records(elements)
    data = capture([(time, frame) for time, frame, _ in records])
    (HERE / "station").mkdir(exist_ok=True)
    (HERE / "station" / "station.pcap").write_bytes(data)
    for each in elements:
        own = [number for number, (_, _, name) in enumerate(records, 1) if name == each.name]
        planned = planned_text(each.connection, [(number, 1, pdu) for number, pdu in zip(own, each.pdus)])
        assert read_text(data, each.connection) == planned, each.name
        text = parameters(STATION_COMMENT.format(each.name), each.connection)
        (HERE / "station" / f"{each.name}.toml").write_bytes(text.encode())
    packets = sum(len(each.pdus) for each in elements)
    refused = sum(each.refusal is not None for each in elements)
    lines = [audit_line(each, records) for each in elements]
    counts = f"{len(elements) - refused} explained, {refused} refused; {packets} packets"
    others = len(records) - packets
    lines.append(f"{len(elements)} connections: {counts}; {others} record{'s' * (others != 1)} of none of these connections\n")
    (HERE / "expected" / "station.audits.txt").write_bytes("".join(lines).encode())


# ---- what `explain` prints of the excerpt

EXPLAINED = """\
explained: two ends that keep the rules can have sent these {packets} packets, the packets in records 4 to 22
client to server: 2 of 2 messages surely taken
server to client: 0 of 0 messages surely taken

What was judged:
{capture}{parameters}  certificate: none was given, so one is built
  program: seatmelon 0.1.0, proved with Rattle, logic dac8208d650f15bf
  records read: {records}
  window: records 4 to 22
  packets of the connection: {packets}
{channels}{ending}  packets of the recorded channels before the window: {before}, behind it: {behind}
  records passed over: {foreign}
    not IPv4 or UDP: {not_udp}
    other addresses or ports: {elsewhere}
  ids: client 96, server 97
  lengths: safety code 0, check code 0
  limits: N_sendmax 20, T_max 1800, slack 0
  quiet point: none
Times of capture, which no verdict reads:
{silences}
What this says:
  Some run of two ends that keep the rules, over a network that loses, repeats, delays and
  reorders packets, sends exactly these packets past the tap, in this order.
  In every such run the far end handed up each message that is listed as surely taken, once and in
  order, before the packet that is its proof crossed the tap.
What it doesn't say:
  that the ends kept the rules, or which of these runs took place.
  A message that is listed as not shown may have been taken all the same.
What it rests on:
  Whatever an end sent reached the tap, in the order in which it was sent, and the capture has all
  of it, in that order.
  Nobody else sent a packet between the recorded addresses.
  The parameters are right.
  For 'surely taken': both ends kept the rules.
  What is judged begins before the opening of the connection, and no copy of an earlier packet comes after it.

Messages (times are UTC; those without a date are of 2026-01-01):
{taken}"""


def sum_lines(what, name):
    """A file's name and its SHA-256."""
    digest = hashlib.sha256((HERE / name).read_bytes()).hexdigest()
    return f"  {what}: {name}\n    SHA-256: {digest}\n"


def channel_line(packets, channel):
    sides = [pdu.side for _, other, pdu in packets if other == channel]
    counts = sides.count("client"), sides.count("server")
    ends = "{}:{} - {}:{}".format(*CHANNELS[channel - 1][0], *CHANNELS[channel - 1][1])
    return "    on channel {}, {}: from the client {}, from the server {}\n".format(channel, ends, *counts)


def first_copies(packets):
    """The packets that repeat no earlier one on another channel."""
    seen, found = set(), []
    for packet in packets:
        pdu = packet[2]
        if (pdu.side, pdu.number) not in seen:
            seen.add((pdu.side, pdu.number))
            found.append(packet)
    return found


def ending_lines(packets):
    """The disconnection request that crossed first, and what crossed behind it."""
    place, packet = next((place, each) for place, each in enumerate(packets) if each[2].kind == DISCONNECTION_REQUEST)
    detail, reason = packet[2].body
    line = f"  end of the connection: disconnection request of the {packet[2].side}, reason {reason}, detail {detail}, "
    behind = packets[place + 1 :]
    further = len(first_copies(packets)) - len(first_copies(packets[: place + 1]))
    told = f"    behind it: new PDUs {further}, late copies of earlier ones, by their numbers, {len(behind) - further}\n"
    return line + sighting(packet) + "\n" + (told if behind else "")


def silence_line(packets, side):
    """The longest time between two new PDUs of a side, where a record comes every 5 milliseconds."""
    records = [record for record, _, pdu in first_copies(packets) if pdu.side == side]
    pairs = list(zip(records, records[1:]))
    first, second = max(pairs, key=lambda pair: pair[1] - pair[0])
    return f"  longest silence of the {side}: {5 * (second - first)}.000000 ms, between records {first} and {second}\n"


def sighting(packet):
    """Record, time and channel of a packet, where a record comes every 5 milliseconds."""
    record, channel, _ = packet
    time = datetime.datetime(2026, 1, 1) + datetime.timedelta(milliseconds=5 * (record - 1))
    return f"record {record}, {time:%Y-%m-%d %H:%M:%S.%f} UTC, channel {channel}"


def spelled(message):
    """Bytes as text; those of this example have no backslash."""
    return "".join(chr(byte) if 32 <= byte < 127 else f"\\x{byte:02x}" for byte in message)


def taken_text(packets, taken):
    """What is told of a message of the client that was surely taken."""
    number, data, proof, message = taken
    head = f"client to server {number}: {sighting(packets[data])}\n  proof: {sighting(packets[proof])}\n"
    return head + f"  hex: {message.hex()}\n  text: {spelled(message)}\n"


def is_udp(frame):
    """Whether a frame has a packet of IPv4 with a datagram, if it has no tag."""
    return frame[12:14] == b"\x08\x00" and frame[23] == 17


def write_excerpt_text():
    """What `explain` prints of the excerpt and its parameters, which have been written."""
    every, window = excerpt_packets(), EXCERPT_WINDOW
    packets = [packet for packet in every if packet[0] in window]
    records = list(excerpt_records())
    others = [held for held in records if not isinstance(held, tuple)]
    text = EXPLAINED.format(
        capture=sum_lines("capture", "excerpt.pcap"),
        parameters=sum_lines("parameters", "excerpt.toml"),
        records=len(records),
        packets=len(packets),
        channels="".join(channel_line(packets, channel) for channel in (1, 2)),
        ending=ending_lines(packets),
        before=sum(record < window.start for record, _, _ in every),
        behind=sum(record >= window.stop for record, _, _ in every),
        foreign=len(others),
        not_udp=sum(not is_udp(frame) for frame in others),
        elsewhere=sum(is_udp(frame) for frame in others),
        silences="".join(silence_line(packets, side) for side in ("client", "server")),
        taken="".join(taken_text(packets, taken) for taken in EXCERPT_STORY.server_took),
    )
    (HERE / "expected" / "excerpt.explain.txt").write_bytes(text.encode())


SUPPOSED = """\
refused by 28 NumberGap:
  this redundancy number has not crossed before, and isn't the next

record 7, 2026-01-01 00:00:00.030000 UTC, channel 1, from the client
  bytes of the datagram: 62
  type: 6241, retransmitted data
  length field: 62
  redundancy number: 12
  length field of the safety layer: 50
  receiver: 97
  sender: 96
  SN: 105
  CS: 501
  TS: 1035
  CTS: 9020
  payload and codes: 0200ab010000adcb411a801e6db734b7fd72d13330595aee7ead
what is wrong with it:
  redundancy number due: 11
  redundancy number found: 12
  SN due: 104
  SN found: 105
  the end's last number before it: 10, SN 103, first copy in record 5, 2026-01-01 00:00:00.020000 UTC, channel 1
  11 doesn't cross later in the window
  both numbers skip 1, as where so many whole PDUs never reached the tap or were cut from the file
  the capture has the opening of the connection

may be the cause:
  the tap missed whole PDUs, or they were cut from the file
look next at:
  the packets of this end around the missing number, with seatmelon show; if the tap may have missed
  PDUs, what --suppose N says; behind the gap the capture can be explained from a quiet point, of
  which seatmelon draft CAPTURE N --after RECORD PARAMS proposes some
up to there:
  the 6 packets before it are explained by themselves:
    client to server: 0 of 3 messages surely taken
    server to client: 0 of 0 messages surely taken
    with last_record = 6 in the parameters, that is told whole

{shown}
explained with 1 supposed PDU, as a hypothesis: if the tap missed what follows, the rules can explain all packets
  from the client, redundancy number 11, SN 104, just before record 7, 2026-01-01 00:00:00.030000 UTC, channel 1
    types that fit: 1 of 3 that were tried
    6213, retransmission response, for example CS 501, TS 1020, CTS 9020
client to server: 5 of 5 captured messages surely taken under this filling, and under this alone
server to client: 0 of 0 captured messages surely taken under this filling, and under this alone

What the supposition says:
  Under each of these fillings some run of two ends that keep the rules, over a network that loses,
  repeats, delays and reorders packets, sends exactly these packets and the supposed ones past the
  tap, in this order.
  In every such run the far end handed up each message that is listed as surely taken, once and in
  order, before the packet that is its proof crossed the tap.
What it doesn't say:
  that the tap missed a PDU: the capture as it is is refused, and others may fill the gap too.
  A message that is listed as not shown may have been taken all the same.
What it rests on:
  The tap missed exactly the supposed PDUs, as one of these fillings has them.
  Whatever else an end sent reached the tap, in the order in which it was sent, and the capture has
  all of it, in that order.
  Nobody else sent a packet with a valid safety code between the recorded addresses.
  The parameters are right.
  For 'surely taken': both ends kept the rules.
  What is judged begins before the opening of the connection.

What was judged:
{judged}  longest silence of the client: 10.000000 ms, between records 1 and 3
  longest silence of the server: 20.000000 ms, between records 2 and 6

Captured messages, whatever came before and was missed (times are UTC; those without a date are of 2026-01-01):
{messages}
Messages (times are UTC; those without a date are of 2026-01-01):
{messages}"""

FROM_THE_MIDDLE = """\
refused by 60 NotFound:
  no two ends that keep the rules send packets that begin with those up to this one

the client's PDU in record 1, 2026-01-01 00:00:00.000000 UTC, channel 1
  type: 6240, data
  redundancy number: 9
  SN: 102
  CS: 500
  TS: 1015
  CTS: 9000
  message: hex ab01, text \\xab\\x01
  message: empty
the rule that it breaks, found by a second pass, on which the verdict doesn't rest:
  CS 500 is the SN of no PDU of the server in the window

may be the cause:
  the capture begins in the middle of the connection, and the parameters record no quiet point;
  or the opening is there, but outside the window or on a channel that isn't recorded
look next at:
  the quiet points that seatmelon draft proposes, one of which the engineering data or a log
  has to confirm; or the window and the channels in the parameters

{shown}
What was judged:
{judged}  longest silence of the client: 10.000000 ms, between records 2 and 4
  longest silence of the server: 20.000000 ms, between records 3 and 7

Captured messages, whatever came before and was missed (times are UTC; those without a date are of 2026-01-01):
{messages}"""

# What was judged, of so many packets from each end.
JUDGED = """\
{capture}{parameters}  certificate: none was given, so one is built
  program: seatmelon 0.1.0, proved with Rattle, logic dac8208d650f15bf
  records read: {packets}
  packets of the connection: {packets}
    on channel 1, 10.0.0.1:5000 - 10.0.0.2:5000: from the client {client}, from the server {server}
{ending}  records passed over: 0
  ids: client 96, server 97
  lengths: safety code 16, check code 4
  start words: 0f1e2d3c4b5a69788796a5b4c3d2e1f0
  limits: N_sendmax 20, T_max 1800, slack 0
  quiet point: none
Times of capture, which no verdict reads:
"""

# What the packets alone show of the retransmission, with or without its opening.
SHOWN = """\
client to server: 5 of 5 captured messages surely taken, whatever came before and whatever the tap missed
server to client: 0 of 0 captured messages surely taken, whatever came before and whatever the tap missed

What these counts say:
  In every run of two ends that keep the rules in which these packets cross the tap, whatever else
  crosses before, between and behind them, the far end handed up each message that is listed as
  surely taken, once and in order, before the packet that is its proof crossed.
What they don't say:
  that there is such a run.
  A message that is listed as not shown may have been taken all the same.
What they rest on:
  These packets crossed the tap, and all are of one connection.
  Nobody else sent a packet with a valid safety code between the recorded addresses.
  The parameters are right.
  Both ends kept the rules, and neither made more than 2147483647 PDUs in this connection.
What they don't rest on:
  where in the connection the capture begins, and that the tap missed nothing.
"""


def message_lines(data, proof):
    """The lines of the client's five messages, whose three data and their proofs stand in these records."""
    (one, two, three), (one_proof, two_proof, three_proof) = data, proof
    time = lambda record: f"00:00:00.{5 * (record - 1):03}000"
    short = lambda number, record, shown, told: (
        f"client to server {number}: record {record}, {time(record)}; proof: record {shown}, {time(shown)}; {told}\n")  # fmt: skip
    front = SECOND[0][:32]
    return "".join([
        short(0, one, one_proof, "hex ab01"),
        short(1, one, one_proof, "empty"),
        f"client to server 2: record {two}, 2026-01-01 {time(two)} UTC, channel 1\n",
        f"  proof: record {two_proof}, 2026-01-01 {time(two_proof)} UTC, channel 1\n",
        f"  hex, the first 32 of 100: {front.hex()}\n",
        "  text, the first 32 of 100: " + "".join(f"\\x{byte:02x}" for byte in front) + "\n",
        short(3, three, three_proof, "empty"),
        short(4, three, three_proof, "hex 02"),
    ])  # fmt: skip


def write_text_of(name, kind, text, pdus, messages):
    """What a form of `explain` prints of a capture of these PDUs and its parameters, which have been written."""
    sums = {"capture": sum_lines("capture", f"{name}.pcap"), "parameters": sum_lines("parameters", f"{name}.toml")}
    counts = {side: sum(pdu.side == side for pdu in pdus) for side in ("client", "server")}
    ending = ending_lines([(record, 1, pdu) for record, pdu in enumerate(pdus, 1)])
    judged = JUDGED.format(packets=len(pdus), ending=ending, **counts, **sums)
    told = text.format(shown=SHOWN, judged=judged, messages=messages)
    (HERE / "expected" / f"{name}.{kind}.txt").write_bytes(told.encode())


def write(name, connection, made, comment, refusal=None):
    data, text = made
    assert read_text(data, connection, refusal) == text, name
    (HERE / "expected").mkdir(exist_ok=True)
    (HERE / f"{name}.pcap").write_bytes(data)
    (HERE / f"{name}.toml").write_bytes(parameters(comment, connection).encode())
    (HERE / "expected" / f"{name}.txt").write_bytes(text.encode())


def write_refusal(name, refusal):
    """What `audit` prints of a capture that nothing explains."""
    (HERE / "expected" / f"{name}.audit.txt").write_bytes(refusal.line().encode())


def write_verdict(name, pdus, story):
    """A certificate, and what `check` prints of it."""
    (HERE / f"{name}.cert").write_bytes(certificate(story).encode())
    (HERE / "expected" / f"{name}.check.txt").write_bytes(verdict_text(pdus, story).encode())


def write_survey(name, connection, pdus, times):
    """What `seatmelon survey` prints."""
    (HERE / "expected" / f"{name}.survey.txt").write_bytes(survey_text(connection, pdus, times).encode())


if __name__ == "__main__":
    one, two = Connection(CHANNELS[:1]), Connection(CHANNELS)
    coded = Connection(CHANNELS[:1], 16, 4, OWN_START)
    quiet = Connection(CHANNELS[:1], quiet=QUIET)
    write("one_heartbeat", one, one_heartbeat(one), ONE_COMMENT)
    write("two_channels", two, two_channels(two), TWO_COMMENT)
    write_refusal("one_heartbeat", NO_OPENING)
    write_refusal("two_channels", NO_OPENING)
    write("handshake", one, in_turn(one, HANDSHAKE), HANDSHAKE_COMMENT)
    write("copies", two, on_channels(two, COPIES), COPIES_COMMENT)
    write("retransmission", coded, in_turn(coded, RETRANSMISSION), RETRANSMISSION_COMMENT)
    write("both_ask", one, in_turn(one, BOTH_ASK), BOTH_ASK_COMMENT)
    write("quiet_start", quiet, in_turn(quiet, QUIET_START), QUIET_COMMENT)
    write_verdict("handshake", HANDSHAKE, HANDSHAKE_STORY)
    write_verdict("copies", [pdu for _, pdu in COPIES], COPIES_STORY)
    write_verdict("retransmission", RETRANSMISSION, RETRANSMISSION_STORY)
    write_verdict("both_ask", BOTH_ASK, BOTH_ASK_STORY)
    write_verdict("quiet_start", QUIET_START, QUIET_STORY)
    write("timeout", one, in_turn(one, TIMEOUT, TIMEOUT_TIMES), TIMEOUT_COMMENT)
    write_verdict("timeout", TIMEOUT, TIMEOUT_STORY)
    write("wrapped", one, in_turn(one, WRAPPED), WRAPPED_COMMENT)
    write_verdict("wrapped", WRAPPED, WRAPPED_STORY)
    excerpted = Connection(CHANNELS, window=EXCERPT_WINDOW, window_keys=EXCERPT_KEYS)
    write("excerpt", excerpted, excerpt(excerpted), EXCERPT_COMMENT)
    write_verdict("excerpt", [pdu for pdu in EXCERPT for _ in (1, 2)], EXCERPT_STORY)
    write_excerpt_text()
    write("missing_packet", coded, in_turn(coded, MISSING_PACKET), MISSING_COMMENT)
    write_refusal("missing_packet", MISSING_REFUSAL)
    write_text_of("missing_packet", "suppose", SUPPOSED, MISSING_PACKET, message_lines((4, 5, 10), (9, 9, 11)))
    write("from_the_middle", coded, in_turn(coded, RETRANSMISSION[3:]), MIDDLE_COMMENT)
    write_refusal("from_the_middle", NO_OPENING)
    write_text_of("from_the_middle", "explain", FROM_THE_MIDDLE, RETRANSMISSION[3:], message_lines((1, 2, 8), (7, 7, 9)))
    write("foreign_sender", one, foreign_sender(one), FOREIGN_COMMENT, FOREIGN_REFUSAL)
    write_refusal("foreign_sender", FOREIGN_REFUSAL)
    both_coded = Connection(CHANNELS, 16, 4, OWN_START)
    write("flipped_bit", both_coded, flipped_bit(both_coded), FLIPPED_COMMENT, FLIPPED_REFUSAL)
    write_refusal("flipped_bit", FLIPPED_REFUSAL)
    write("repeated_request", one, in_turn(one, REPEATED_REQUEST), REPEATED_COMMENT)
    write_refusal("repeated_request", REPEATED_REFUSAL)
    late = Connection(CHANNELS[:1], 16, 4, OWN_START, window_keys=WHOLE_WINDOW)
    write("late_copies", late, in_turn(late, LATE_COPIES, LATE_TIMES), LATE_COMMENT)
    write_verdict("late_copies", LATE_COPIES, RETRANSMISSION_STORY)
    write_station()
    write_survey("late_copies", late, LATE_COPIES, [START + 1000 * time for time in LATE_TIMES])

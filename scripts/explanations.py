#!/usr/bin/env python3
"""Runs `seatmelon` as its user would, and compares what it prints with what docs/SEATMELON.md says.

    explanations.py [--program PATH] [PART..]

The parts (all of them, if none is named):

    samples    surveys, drafts and explains each sample, as text and as JSON
    surveys    the JSON of the survey of each sample, and of the sample station, beside its text
    files      a pipe, standard input, a directory, a missing file, gzip, pcapng, a text, and swapped arguments
    many       audits of all connections, from files, folders and pipes, and drafts of all
    limits     one PDU more than can be judged, and one entry more

What an explanation has to say of a sample is read from the texts of examples/expected, which `rasta_audit` has to
print. Where NAME.survey.txt or NAME.explain.txt stands there, it is the whole text of `survey` or of `explain`, and
NAME.suppose.txt that of `explain --suppose 1`. Prints a line for each part. `rt run` in crates/seatmelon leaves the program. Plain Python 3, no other packages.
"""

import argparse
import gzip
import hashlib
import json
import os
import pathlib
import re
import subprocess
import sys
import tempfile
import threading

import extremes
import rows

TOP = pathlib.Path(__file__).resolve().parent.parent
PROGRAM = TOP / "crates/seatmelon/out/seatmelon"
SAMPLES = TOP / "examples"
WHOLE = "two ends that keep the rules can have sent these"


class Part:
    """Calls of a part, and how many were answered wrongly."""

    def __init__(self, program, folder):
        self.program, self.folder, self.calls, self.wrong = program, folder, 0, 0

    def call(self, *words, **options):
        self.calls += 1
        ran = subprocess.run([self.program, *words], capture_output=True, **options)
        return ran.returncode, ran.stdout.decode(), ran.stderr.decode()

    def judge(self, what, is_right, answer):
        if not is_right:
            self.wrong += 1
            print(f"  {what}: {[str(it)[-300:] for it in answer]}")

    def expect(self, what, status, written, error, *words, **options):
        """A call with this status, in whose outputs these words stand."""
        answer = self.call(*words, **options)
        self.judge(what, answer[0] == status and written in answer[1] and error in answer[2], answer)


# ---- samples


def taken_in(text):
    """The messages of each receiving end in the text of `check`, in hexadecimal."""
    lists, current = {}, None
    for line in text.splitlines():
        begun = re.fullmatch(r"taken by (client|server) \d+", line)
        if begun:
            current = lists.setdefault(begun.group(1), [])
        elif current is not None:
            current.append(line.split(" ")[3].replace(".", ""))
    return lists


def in_window(data):
    """What the verdict's sentence says of the records that are judged."""
    window = data["window"]
    return f", the packets in records {window['first_record']} to {window['last_record']}" if window else ""


def not_shown(taken, sent):
    """What a line says of the messages of a direction that weren't shown to be taken."""
    if taken == sent:
        return ""
    return f"; not shown: {taken}" if taken + 1 == sent else f"; not shown: {taken} to {sent - 1}"


def explains(text, data, told):
    """Whether text and data tell of an explained capture what `check` tells."""
    lists, packets = taken_in(told), told.split()[1]
    sentence = f"explained: {WHOLE} {packets} packets{in_window(data)}\n"
    right = sentence in text and data["packets_explained"] == int(packets)
    for direction in data["messages"]:
        messages = [it["hex"] for it in direction["messages"] if it["surely_taken"]]
        right = right and messages == lists[direction["to"]] and direction["surely_taken"] == len(messages)
        line = f"{direction['from']} to {direction['to']}: {len(messages)} of {direction['sent']} messages surely taken"
        right = right and f"{line}{not_shown(len(messages), direction['sent'])}\n" in text
    return right


def refuses(text, data, told):
    """Whether text and data tell the refusal that `audit` tells."""
    _, number, name, _, _ = told.split()
    fault = data["fault"]
    return f"refused by {number} {name}:" in text and (fault["number"], fault["name"]) == (int(number), name)


def whole_text(part, capture):
    """Compares the texts on a sample, by the names of its files alone, with the stored ones, if there are some."""
    for name, options in (("explain", []), ("suppose", ["--suppose", "1"])):
        stored = SAMPLES / "expected" / f"{capture.stem}.{name}.txt"
        if stored.exists():
            answer = part.call("explain", *options, capture.name, capture.with_suffix(".toml").name, cwd=SAMPLES)
            part.judge(f"{name} text of {capture.stem}", answer[1:] == (stored.read_text(), ""), answer)


def samples(part):
    for capture in sorted(SAMPLES.glob("*.pcap")):
        name, parameters = capture.stem, capture.with_suffix(".toml")
        stored = SAMPLES / "expected" / f"{name}.survey.txt"
        survey = part.call("survey", capture)
        right = survey[1] == stored.read_text() if stored.exists() else "connection 1" in survey[1]
        part.judge(f"survey {name}", right and survey[0] == 0 and survey[2] == "", survey)
        part.expect(f"draft {name}", 0, "client_id", "", "draft", capture, "1")
        checked = SAMPLES / "expected" / f"{name}.check.txt"
        refused = SAMPLES / "expected" / f"{name}.audit.txt"
        text = part.call("explain", capture, parameters)
        data = part.call("explain", "--json", capture, parameters)
        found = json.loads(data[1])
        if checked.exists():
            right = text[0] == data[0] == 0 and found["verdict"] == "explained"
            right = right and explains(text[1], found, checked.read_text())
        else:
            right = text[0] == data[0] == 1 and found["verdict"] == "refused"
            right = right and refuses(text[1], found, refused.read_text())
        right = right and all(found[it]["sha256"] in text[1] for it in ("capture", "parameters"))
        part.judge(f"explain {name}", right and text[2] == data[2] == "", text + data)
        whole_text(part, capture)


# ---- surveys


def numbers_told(data, name):
    """The lines that tell what the numbers of an end show."""
    if data["gaps"]:
        first = data["first_gap"]
        yield (f"{name}'s gaps: {data['gaps']}, numbers missing: {data['missing']}, "
               f"the first: {first['number']} at record {first['record']}")
    counts = {
        "numbers that came late": data["late"],
        "copies": data["copies"],
        "copies that differ": data["differing_copies"],
        "numbers too old to be compared": data["too_old"],
    }
    yield from (f"{name}'s {what}: {count}" for what, count in counts.items() if count)


def ends_told(ends):
    for end in ends:
        offer = f", version {end['version']}, N_sendmax {end['n_sendmax']}" if end["version"] else ""
        yield f"{end['name']} id {end['id']}{offer}"


def extent_told(data):
    yield f"records {data['first_record']} to {data['last_record']}"
    if data["first_time"] and data["last_time"]:
        yield f"captured from {data['first_time'].removesuffix(' UTC')} to {data['last_time']}"
    if data["opened_before"]:
        yield "opened before the capture began"
    elif data["opened_at"] is None:
        yield "no opening was captured"
    else:
        yield f"opened by the client at record {data['opened_at']}"
    for end in data["ends"]:
        if end["ended"]:
            yield f"ended by the {end['name']} at record {end['ended']['record']}, reason {end['ended']['reason']}"
    if not any(end["ended"] for end in data["ends"]):
        yield "no disconnection request was captured"
    late = data["late_copies"]
    if late:
        yield (f"late copies of its opening and of what came behind it: {late['count']}, "
               f"the first in record {late['first_record']}, the last in record {late['last_record']}")


def channels_told(data):
    first, second = (end["name"] for end in data["ends"])
    for channel in data["channels"]:
        yield (f"channel {channel['channel']}: {' - '.join(channel['ends'])}, packets to the {second}: "
               f"{channel['from_first']}, to the {first}: {channel['from_second']}")
    if data["packets_on_further_channels"]:
        yield f"packets on further channels: {data['packets_on_further_channels']}"


def lengths_told(data):
    for code in ("safety", "check"):
        for it in data[f"{code}_code"]:
            if it["fits"]:
                yield f"a {code} code of {it['length']} bytes fits the length of {it['fits']} of {data['packets']} packets"
                if "start_words_fit" in it:
                    yield f"  MD4's own start words fit {it['start_words_fit']} of these"


def connection_told(data):
    """The lines of a connection's block, from its object."""
    yield from ends_told(data["ends"])
    yield from extent_told(data)
    yield from channels_told(data)
    yield from lengths_told(data)
    for end in data["ends"]:
        yield from (f"{end['name']} sent {it['type']}: {it['count']}" for it in end["sent"])
        yield from numbers_told(end, end["name"])


def survey_told(data):
    """The text of a survey without cut datagrams and faults, from its object."""
    lines = [
        f"records: {data['records']}",
        f"packets of RaSTA: {data['packets']}",
        f"other records, passed over: {data['passed_over']}",
    ]
    for connection in data["connections"]:
        lines += ["", f"connection {connection['connection']}"]
        lines += [f"  {line}" for line in connection_told(connection)]
    return "".join(f"{line}\n" for line in lines)


def surveys(part):
    for capture in sorted(SAMPLES.glob("*.pcap")) + [STATION / "station.pcap"]:
        text = part.call("survey", capture)
        data = part.call("survey", "--json", capture)
        is_same = data[0] == text[0] and data[2] == "" and survey_told(json.loads(data[1])) == text[1]
        part.judge(f"survey as JSON, {capture.stem}", is_same, text + data)


# ---- files


def fill(pipe, data):
    try:
        pipe.write_bytes(data)
    except BrokenPipeError:
        pass


def through_a_pipe(part, command, capture, *more):
    pipe = part.folder / "pipe"
    os.mkfifo(pipe)
    writer = threading.Thread(target=fill, args=(pipe, capture.read_bytes()), daemon=True)
    writer.start()
    answer = part.call(command, pipe, *more)
    if writer.is_alive():
        os.close(os.open(pipe, os.O_RDONLY | os.O_NONBLOCK))
    pipe.unlink()
    return answer


def in_place_of(answer, name, capture):
    """The answer on a capture by its path, from that by another name of it."""
    return answer[0], answer[1].replace(f"capture: {name}\n", f"capture: {capture}\n"), answer[2]


def files(part):
    capture, parameters = SAMPLES / "handshake.pcap", SAMPLES / "handshake.toml"
    missing, packed, newer = part.folder / "missing", part.folder / "c.pcap.gz", part.folder / "c.pcapng"
    packed.write_bytes(gzip.compress(capture.read_bytes()))
    newer.write_bytes(b"\x0a\x0d\x0d\x0a" + bytes(60))
    answer = through_a_pipe(part, "survey", capture)
    part.judge("survey, a pipe", answer[0] == 0 and "connection 1" in answer[1], answer)
    whole = part.call("explain", capture, parameters)
    answer = through_a_pipe(part, "explain", capture, parameters)
    part.judge("explain, a pipe", in_place_of(answer, part.folder / "pipe", capture) == whole, answer)
    data = capture.read_bytes()
    for name in ("-", "/dev/stdin"):
        answer = part.call("explain", name, parameters, input=data)
        part.judge(f"explain, {name}", in_place_of(answer, name, capture) == whole, answer)
        part.expect(f"survey, {name}", 0, "connection 1", "", "survey", name, input=data)
        part.expect(f"draft, {name}", 0, "client_id", "", "draft", name, "1", input=data)
    for words in (("survey",), ("draft", "1"), ("explain", parameters)):
        command, *more = words
        part.expect(f"{command}, a directory", 3, "", "irectory", command, part.folder, *more)
        part.expect(f"{command}, a missing file", 3, "", str(missing), command, missing, *more)
        part.expect(f"{command}, gzip", 1, "", "gunzip", command, packed, *more)
        part.expect(f"{command}, pcapng", 1, "a section header tells no byte order", "", command, newer, *more)
    part.expect("explain, parameters missing", 3, "", str(missing), "explain", capture, missing)
    part.expect("explain, certificate missing", 3, "", str(missing), "explain", capture, parameters, missing)
    part.expect("explain, swapped", 2, "", "a parameter file is wanted", "explain", parameters, capture)
    part.expect("no command", 2, "", "Usage", )
    part.expect("unknown command", 2, "", "explain", "explian", capture, parameters)
    part.expect("no such record", 2, "", "there is no record 99", "explain", capture, parameters, "--without", "99")
    part.expect("a range that falls", 2, "", "--messages", "explain", capture, parameters, "--messages", "3-2")
    part.expect("some messages as JSON", 2, "", "--json", "explain", capture, parameters, "--not-shown", "--json")
    part.expect("help", 0, "--without", "", "explain", "--help")
    part.expect("version", 0, "seatmelon", "", "--version")


# ---- many connections

STATION = SAMPLES / "station"


def counted(count, one, many):
    return f"{count} {one if count == 1 else many}"


def before_told(connection):
    """What the line of a refused connection says of the packets before the refused one."""
    before = connection["before_fault"]
    if before is None:
        return ""
    told = counted(before["packets"], "packet before it is explained", "packets before it are explained")
    return f"; the {told}" if before["verdict"] == "explained" else None


def shown_told(connection):
    """What it says of what the packets show alone."""
    shown = connection["from_the_middle"]
    if shown is None:
        return ""
    client, server = shown["client"], shown["server"]
    first = "" if shown["all_fit"] else "the first "
    told = f"; client to server: {client['surely_taken']} of {client['captured']} captured messages surely taken"
    told += f"; server to client: {server['surely_taken']} of {server['captured']}"
    return told + f", by {first}{counted(shown['packets'], 'packet', 'packets')}, whatever was missed"


def same_told(text, data):
    """Whether data tell of each connection what its line tells."""
    lines = text.splitlines()
    right = len(lines) == len(data["connections"]) + 1
    for line, connection in zip(lines, data["connections"]):
        told = f"{connection['name']}: "
        if connection["verdict"] == "explained":
            client, server = connection["client"], connection["server"]
            told += f"explained, {connection['packets']} packets; client to server: {client['surely_taken']} of "
            told += f"{client['sent']} messages surely taken; server to client: {server['surely_taken']} of {server['sent']}"
        elif connection["verdict"] == "refused":
            fault = connection["fault"]
            told += f"refused by {fault['number']} {fault['name']}, record {connection['record']}, {connection['time']}"
            told += f", {connection['end']}" + before_told(connection) + shown_told(connection)
        else:
            told += connection["verdict"].replace("_", " ")
        right = right and line == told
    return right and f"; {data['packets']} packets; {data['others']} record" in lines[-1]


def file_told(name):
    """What JSON tells of a file of the samples."""
    return {"name": name, "sha256": hashlib.sha256((SAMPLES / name).read_bytes()).hexdigest()}


def sums_told(data, capture, names):
    """Whether data tell the sums of these files of the samples."""
    return data["capture"] == file_told(capture) and data["parameters"] == [file_told(name) for name in names]


def audits_of_the_sample(part):
    stored = (SAMPLES / "expected" / "station.audits.txt").read_text()
    whole = part.call("audit", "station/station.pcap", "station", cwd=SAMPLES)
    part.judge("audit, a folder", whole == (1, stored, ""), whole)
    names = [f"station/{path.name}" for path in sorted(STATION.glob("*.toml"))]
    answer = part.call("audit", "station/station.pcap", *names, cwd=SAMPLES)
    part.judge("audit, files", answer == whole, answer)
    answer = part.call("audit", "-", "station", cwd=SAMPLES, input=(STATION / "station.pcap").read_bytes())
    part.judge("audit, standard input", answer == whole, answer)
    answer = part.call("audit", "--json", "station/station.pcap", "station", cwd=SAMPLES)
    data = json.loads(answer[1])
    is_told = same_told(stored, data) and sums_told(data, "station/station.pcap", names)
    part.judge("audit, JSON", answer[0] == 1 and is_told, answer)
    # The window ends before the file does, which is summed up whole all the same.
    answer = part.call("audit", "--json", "excerpt.pcap", "excerpt.toml", cwd=SAMPLES)
    is_told = sums_told(json.loads(answer[1]), "excerpt.pcap", ["excerpt.toml"])
    part.judge("audit, sums", is_told and not answer[2], answer)
    lines = stored.splitlines(True)
    answer = part.call("audit", "station/station.pcap", names[1], names[0], names[1], cwd=SAMPLES)
    told = lines[1] + lines[0] + lines[1] + "3 connections: 3 explained; 29 packets; 12 records of none of these connections\n"
    part.judge("audit, a file twice", answer == (0, told, ""), answer)
    answer = part.call("audit", "handshake.pcap", names[0], cwd=SAMPLES)
    told = f"{names[0]}: no packets\n1 connection: 1 without packets; 0 packets; 3 records of none of these connections\n"
    part.judge("audit, no packets", answer == (1, told, ""), answer)


def audits_of_a_cut_capture(part):
    cut = part.folder / "cut.pcap"
    cut.write_bytes((STATION / "station.pcap").read_bytes()[:-1])
    answer = part.call("audit", cut, STATION)
    is_told = answer[1].count(": cut at 14 CutRecord, record 41; the ") == 2 and "the file ends inside record 41 (14 CutRecord)\n" in answer[1]
    part.judge("audit, cut", answer[0] == 1 and is_told and "refused by 28 NumberGap, record 21" in answer[1], answer)


def wrong_parameter_files(part):
    folder, capture = part.folder / "wrong", part.folder / "missing"
    folder.mkdir()
    part.expect("audit, an empty folder", 2, "", "has no parameter file", "audit", capture, folder)
    (folder / "a.toml").write_text("client_id = x\n")
    (folder / "b.toml").write_bytes((STATION / "signal-12.toml").read_bytes())
    (folder / "c.toml").write_bytes((STATION / "signal-12.toml").read_bytes().replace(b"t_max", b"tmax"))
    answer = part.call("audit", capture, folder)
    told = f"seatmelon: {folder}/a.toml: line 1: ", f"seatmelon: {folder}/c.toml: t_max is missing"
    is_told = all(words in answer[2] for words in told) and "b.toml" not in answer[2]
    part.judge("audit, two wrong files", answer[0] == 2 and not answer[1] and is_told and str(capture) not in answer[2], answer)
    (folder / "d.toml").symlink_to("nowhere")
    answer = part.call("audit", capture, folder)
    part.judge("audit, a link to nothing", answer[0] == 3 and "d.toml: No such file" in answer[2], answer)
    many = part.folder / "many"
    many.mkdir()
    for number in range(4097):
        (many / f"{number:04}.toml").write_text("")
    part.expect("audit, too many files", 2, "", "more than 4096 parameter files", "audit", capture, many)
    part.expect("audit, a missing capture", 3, "", str(capture), "audit", capture, STATION)
    part.expect("audit, no parameters", 2, "", "<PARAMS>...", "audit", capture)


def drafts_of_all(part):
    folder = part.folder / "above" / "drafts"
    answer = part.call("draft", STATION / "station.pcap", "--all", folder)
    names = [f"{folder}/connection-{number:03}.toml" for number in (1, 2, 3)]
    part.judge("draft --all", answer == (0, "".join(f"{name}\n" for name in names), ""), answer)
    for number, name in enumerate(names, 1):
        alone = part.call("draft", STATION / "station.pcap", str(number))
        part.judge(f"draft {number}", alone == (0, pathlib.Path(name).read_text(), ""), alone)
    pathlib.Path(names[0]).unlink()
    second = pathlib.Path(names[1])
    second.write_text("mine")
    answer = part.call("draft", STATION / "station.pcap", "--all", folder)
    part.judge("draft --all, a file is there", answer[:2] == (3, f"{names[0]}\n") and names[1] in answer[2], answer)
    part.judge("draft --all, it stays", second.read_text() == "mine", answer)
    empty = part.folder / "empty.pcap"
    empty.write_bytes((STATION / "station.pcap").read_bytes()[:24])
    answer = part.call("draft", empty, "--all", part.folder / "none")
    part.judge("draft --all, no connection", answer[0] == 1 and not (part.folder / "none").exists(), answer)
    part.expect("draft --all and a number", 2, "", "--all", "draft", empty, "1", "--all", part.folder)
    part.expect("draft, no number", 2, "", "<N>", "draft", empty)


def many(part):
    audits_of_the_sample(part)
    audits_of_a_cut_capture(part)
    wrong_parameter_files(part)
    drafts_of_all(part)


# ---- limits

ADVICE = """
may be the cause:
  the window is too large
look next at:
  a smaller window
"""
TOO_MANY_PDUS = """refused by 17 TooMany:
  this is one record, packet or PDU more than can be judged

record 1000002, 1970-01-01 00:00:00.000000 UTC, channel 1, from the client
  bytes of the datagram: 36
  type: 6220, heartbeat
  length field: 36
  redundancy number: 1000007
  length field of the safety layer: 28
  receiver: 97
  sender: 96
  SN: 1000100
  CS: 500
  TS: 1010
  CTS: 9000
what is wrong with it:
  this is one record, packet or PDU more than can be judged
"""
TOO_MANY_ENTRIES = """refused by 45 TooMany:
  this is one entry more than can be judged

line 4000003 of the certificate
"""


def limits(part):
    capture, parameters, certificate = (part.folder / name for name in extremes.FILES)
    parameters.write_bytes(rows.parameters_of())
    opening = rows.capture_of(extremes.frames_of(extremes.HANDSHAKE))
    capture.write_bytes(opening + extremes.records_of(extremes.heartbeats_of(1_000_001)))
    part.expect("one PDU more", 1, TOO_MANY_PDUS + ADVICE, "", "explain", capture, parameters)
    capture.write_bytes(opening)
    entries = b"make 0 1000 open\n" * 4_000_001
    certificate.write_bytes(b"rasta-certificate 1\nclient\n" + entries + b"server\nend\n")
    part.expect("one entry more", 1, TOO_MANY_ENTRIES + ADVICE, "", "explain", capture, parameters, certificate)


PARTS = (samples, surveys, files, many, limits)


def try_part(run, program):
    with tempfile.TemporaryDirectory() as folder:
        part = Part(program, pathlib.Path(folder))
        run(part)
    print(f"{run.__name__}: {part.calls} calls, {part.wrong} wrong", flush=True)
    return part


def main():
    asked = argparse.ArgumentParser(description="Runs seatmelon as its user would.")
    asked.add_argument("--program", type=pathlib.Path, default=PROGRAM, help="seatmelon")
    asked.add_argument("parts", nargs="*", metavar="PART", help=" ".join(run.__name__ for run in PARTS))
    words = asked.parse_args()
    named = [run for run in PARTS if run.__name__ in words.parts] if words.parts else PARTS
    return any([try_part(run, words.program.resolve()).wrong for run in named])


if __name__ == "__main__":
    sys.exit(main())

#!/usr/bin/env python3
"""Tests viewer/index.html and scripts/report.py in a real browser, and leaves a screenshot of each story.

    test_viewer.py [--program PATH] [--browser PATH] [--only WORD] FOLDER
    test_viewer.py --renew

It needs a Chromium (on Debian: apt-get install chromium), and the program, which `rt run` in crates/rasta_audit
leaves at its default path; and plain Python 3, no other packages. It installs nothing. Stories:

- a report of each sample, printed too, of random runs, and of 200,000 packets, which are made up here;
- a refusal of each number, and refusals of samples that were changed, with the packets around them;
- texts that are dropped, pasted, chosen, cut, or hostile, of other systems, and of seatmelon;
- several answers at once, an answer that is added, and each text that contradicts another;
- a phone, a zoom of 200 %, a tablet and a screen, in light and dark, contrasts, and what stands on each printed page;
- reports of pcapng files, and reports that were cut or changed;
- times of records, the numbers of a gap, supposed PDUs, chosen places, numbers of ten digits, and the statuses of report.py;
- filters, keys, both colour schemes, and the picture saved as SVG.

In each the page's counts are those of the texts, its console says nothing, and it asks for nothing. With --renew
the page's security policy gets the hashes of its style and its script, as each edit of either wants.
"""

import argparse
import base64
import hashlib
import json
import pathlib
import random
import re
import shutil
import struct
import subprocess
import sys
import tempfile
import time
import xml.etree.ElementTree

import random_runs
from headless import Browser, Refused
from pdf_pages import pages_of

TOP = pathlib.Path(__file__).resolve().parent.parent
PAGE = TOP / "viewer/index.html"
EXAMPLES = TOP / "examples"
PROGRAM = TOP / "crates/rasta_audit/out/rasta_audit"

FAULTS = {
    1: "NoMemory", 2: "ReadFailed", 3: "WriteFailed", 10: "NotPcap", 11: "Version", 12: "LinkType", 13: "CutHeader",
    14: "CutRecord", 15: "CutPacket", 16: "Fragment", 17: "TooMany", 18: "RecordTooLong", 19: "BadUdp",
    20: "RedundancyLength", 21: "TooShort", 22: "SafetyLength", 23: "Type", 24: "Payload", 25: "Code", 26: "Ids",
    27: "CopyDiffers", 28: "NumberGap", 29: "TooLong", 30: "Syntax", 31: "SlotOrder", 32: "NotFirstCopy",
    33: "MakeMissing", 34: "NotYetCrossed", 35: "NotRising", 36: "ClockDiffers", 37: "ClockFalls", 38: "PastDeadline",
    39: "ConfirmedNumber", 40: "ConfirmedTime", 41: "NotAllowed", 42: "ReplyOwed", 43: "ResendDiffers", 44: "Closed",
    45: "TooMany", 46: "TooEarlyTimeout", 47: "SequenceNumber", 50: "Toml", 51: "MissingKey", 52: "BadValue",
    60: "NotFound",
}  # fmt: skip

# What the page has to say of the ends, by the fault's number.
SPEAKS_OF_ENDS = "These packets can't be explained"
TITLES = [
    (range(1, 4), "No answer"),
    (range(10, 20), "The capture can't be read"),
    ((*range(20, 29), 60), SPEAKS_OF_ENDS),
    (range(29, 30), "No answer"),
    ((30, 45), "The certificate's text is wrong"),
    ((*range(31, 45), 46, 47), "Not explained by this certificate"),
    (range(50, 53), "The parameter file is wrong"),
]


class Wrong(Exception):
    """What a story finds wrong."""


def expect(is_so, words):
    if not is_so:
        raise Wrong(words)


def expect_equal(found, wanted, what):
    expect(found == wanted, f"{what}: {found!r}, and not {wanted!r}")


# ---- the security policy


def hash_of(text):
    return "sha256-" + base64.b64encode(hashlib.sha256(text.encode()).digest()).decode()


def with_hashes(page):
    """The page with the hashes of its style and its script in its policy."""
    for directive, tag in (("style-src", "style"), ("script-src", "script")):
        content = re.search(f"<{tag}>(.*?)</{tag}>", page, re.DOTALL).group(1)
        page = re.sub(f"{directive} 'sha256-[^']*'", f"{directive} '{hash_of(content)}'", page, count=1)
    return page


def policy_is_closed(_):
    page = PAGE.read_text(encoding="utf-8")
    expect(page == with_hashes(page), "the hashes of the policy are old; run test_viewer.py --renew")
    policy = re.search(r'Content-Security-Policy" content="([^"]*)"', page).group(1)
    expect("default-src 'none'" in policy and "unsafe" not in policy, "the policy is open")
    sources = re.findall(r"(\w+)-src", policy)
    expect_equal(sorted(sources), ["default", "script", "style"], "directives of sources")


# ---- what the texts say, read apart from the page


def counts_of_answer(text):
    lines = text.splitlines()
    words = [line.split(" ") for line in lines]
    taken = {line[2]: int(line[3]) for line in words if line[:2] == ["taken", "by"]}
    counts = {kind: sum(len(line) > 2 and line[2] == kind for line in words) for kind in ("make", "copy", "take")}
    return {
        "packets": int(words[0][1]),
        "makes": counts["make"],
        "copies": counts["copy"],
        "takes": counts["take"],
        "arrows": sum(counts.values()),
        "takenByClient": taken["client"],
        "takenByServer": taken["server"],
        "listed": sum(taken.values()),
    }


def packets_in(shown):
    return [line.split(" ") for line in shown.splitlines() if not line.startswith(("packets ", "refused "))]


def messages_in(shown):
    """How many messages the data PDUs of a text of `show` have, each counted where it crosses first."""
    seen, count = set(), 0
    for words in packets_in(shown):
        key = (words[3], words[4])
        if key not in seen and words[6] == "6240":
            count += words[12].count(",") + 1
        seen.add(key)
    return count


# ---- driving the page


class Stage:
    """The browser, the program, and where things go."""

    def __init__(self, browser, program, folder, scratch):
        self.browser, self.program, self.folder, self.scratch = browser, program, folder, scratch

    def call(self, *words):
        call = subprocess.run([self.program, *words], capture_output=True)
        return (call.stdout if call.returncode in (0, 1) else call.stderr).decode()

    def file(self, name, content):
        path = self.scratch / name
        path.write_bytes(content if isinstance(content, bytes) else content.encode())
        return path

    def report(self, capture, parameters, *options):
        """The page that report.py writes, opened."""
        path = self.scratch / f"{capture.stem}.html"
        script = TOP / "scripts/report.py"
        path.unlink(missing_ok=True)
        words = [sys.executable, script, "--program", self.program, *options, capture, parameters, path]
        subprocess.run(words)
        expect(path.is_file(), "no page was written")
        return Sight(self, path)

    def viewer(self, *paths):
        """The empty page, with these files chosen."""
        sight = Sight(self, PAGE)
        if paths:
            sight.choose(*paths)
        return sight

    def texts(self, **texts):
        return self.viewer(*(self.file(f"{name}.txt", text) for name, text in texts.items()))


class Sight:
    """A page in the browser, which has to be free of troubles when it is left."""

    def __init__(self, stage, path):
        self.stage = stage
        self.page = stage.browser.open(path.as_uri(), 1280, 1000)
        self.settle()

    def __enter__(self):
        return self

    def __exit__(self, kind, *_):
        troubles = self.page.troubles
        self.page.close()
        if kind is None:
            expect(not troubles, f"troubles: {troubles[:3]}")

    def choose(self, *paths):
        before = self.page.evaluate("document.documentElement.dataset.brought ?? ''")
        self.page.give_files("#files", paths)
        changed = "(document.documentElement.dataset.brought ?? '') !== " + json.dumps(before)
        self.page.wait_until(lambda: self.page.evaluate(changed), "the files to be read")
        self.settle()

    def settle(self):
        """Waits until what is due is drawn."""
        self.page.wait_until(lambda: self.page.evaluate("document.documentElement.dataset.state !== 'drawing'"), "the picture")
        self.page.evaluate("new Promise((done) => requestAnimationFrame(() => requestAnimationFrame(done)))")

    def act(self, script):
        value = self.page.evaluate(script)
        self.settle()
        return value

    def text(self, selector):
        return self.page.evaluate(f"document.querySelector({json.dumps(selector)}).innerText")

    def counts(self):
        found = self.page.evaluate("({...document.documentElement.dataset})")
        return {key: int(value) if value.isdigit() else value for key, value in found.items()}

    def expect_counts(self, **wanted):
        found = self.counts()
        for key, value in wanted.items():
            expect_equal(found.get(key), value, key)

    def fill(self, field, value):
        """Types into a field of the filter, and waits for what follows."""
        self.act(f"byId({json.dumps(field)}).value = {json.dumps(value)}; applyFilter()")

    def shot(self, name, whole=False):
        self.page.screenshot(self.stage.folder / f"{name}.png", whole)

    def printed(self, name):
        """The texts of the pages that are printed, without white space."""
        path = self.stage.folder / f"{name}.pdf"
        self.page.pdf(path)
        return pages_of(path.read_bytes())

    def expect_drawn(self, **wanted):
        """Arrows that are truly drawn, of a chart that is short enough to be printed whole."""
        kinds = self.act(
            "fillPrinted(); const kinds = Array.from(document.querySelectorAll('#printed g[data-kind]'), (g) => g.dataset.kind);"
            "const rows = document.querySelectorAll('#printed table:not(.lines) tbody tr').length; emptyPrinted(); ({kinds, rows})"
        )
        drawn = {"takes": kinds["kinds"].count("0"), "copies": kinds["kinds"].count("2")}
        drawn["makes"] = sum(kind in ("1", "3") for kind in kinds["kinds"])
        drawn["messages"] = kinds["rows"]
        for key, value in wanted.items():
            expect_equal(drawn[key], value, f"{key} drawn")


def title_of(sight):
    return sight.text("#verdict h2")


# ---- stories: samples


def samples(stage):
    for capture in sorted(EXAMPLES.glob("*.pcap")):
        yield f"sample_{capture.stem}", lambda capture=capture: sample(stage, capture)


def sample(stage, capture):
    """A report of a sample: its counts, its picture, its print, and what it says of the files."""
    parameters = capture.with_suffix(".toml")
    answer, shown = stage.call("audit", capture, parameters), stage.call("show", capture, parameters)
    with stage.report(capture, parameters) as sight:
        expect_report(sight, answer, shown)
        sight.page.resize(1280, 1900)
        sight.settle()
        sight.shot(f"sample_{capture.stem}")
        for path in (capture, parameters, stage.program):
            expect(hashlib.sha256(path.read_bytes()).hexdigest() in sight.text("#report"), f"no sum of {path.name}")
        sight.page.pdf(stage.folder / f"sample_{capture.stem}.pdf")
        expect_svg(sight)


def expect_report(sight, answer, shown):
    messages = messages_in(shown)
    if answer.startswith("explained "):
        wanted = counts_of_answer(answer)
        sight.expect_counts(verdict="explained", messages=messages, notices=0, **wanted)
        expect_equal(title_of(sight), "Explained", "title")
    else:
        number = int(answer.split(" ")[1])
        packets = packets_in(shown)
        copies = len(packets) - len({(words[3], words[4]) for words in packets})
        wanted = {"takes": 0, "copies": copies, "makes": len(packets) - copies}
        sight.expect_counts(verdict="refused", refused=number, packets=len(packets), messages=messages, **wanted)
        expect_equal(title_of(sight), title_for(number), "title")
    sight.expect_drawn(messages=messages, **{key: wanted[key] for key in ("takes", "copies", "makes")})
    expect_agreement(sight)


def expect_agreement(sight):
    """Texts of the same files contradict each other in nothing, where the page isn't told that they are."""
    said = sight.act(
        "(() => { const {report} = state; state.report = null; showAll(); const {aside} = state.model;"
        "state.report = report; showAll(); return [...aside.values()]; })()"
    )
    expect_equal(said, [], "what texts of the same files contradict")


def expect_svg(sight):
    """The picture that would be saved is a whole document, and stands alone."""
    text = sight.act("pictureText()")
    root = xml.etree.ElementTree.fromstring(text)
    expect(root.tag.endswith("svg") and "var(" not in text and "class=" not in text, "the SVG doesn't stand alone")
    shapes = [node for node in root.iter() if "data-kind" in node.attrib]
    expect(shapes, "the SVG has no arrow")
    return text


RANDOM_RUNS = 12


def random_runs_are_drawn(stage):
    """Runs of two ends over a bad network, which scripts/random_runs.py makes up."""
    for number in range(RANDOM_RUNS):
        chance = random.Random(f"viewer {number}")
        run = random_runs.Run(chance)
        for _ in range(chance.choice((40, 150, 400))):
            run.step()
        random_runs.write(run, stage.scratch)
        capture, parameters = stage.scratch / "run.pcap", stage.scratch / "run.toml"
        answer, shown = stage.call("audit", capture, parameters), stage.call("show", capture, parameters)
        with stage.report(capture, parameters) as sight:
            expect_report(sight, answer, shown)
            if run.crossed:
                sight.page.resize(1280, 1900)
                sight.act(f"goToPlace({len(run.crossed) // 2})")
                expect_svg(sight)
            sight.shot(f"random_{number:02}")


# ---- stories: refusals


def title_for(number):
    return next(title for numbers, title in TITLES if number in numbers)


def refusals(stage):
    for number in FAULTS:
        yield f"refused_{number:02}_{FAULTS[number]}", lambda number=number: refusal(stage, number)
    for name, story in CHANGED.items():
        yield f"changed_{name}", lambda name=name, story=story: changed(stage, name, story)


def refusal(stage, number):
    """The one line of a refusal, alone."""
    has_end = 20 <= number <= 28 or 31 <= number <= 44 or number in (46, 47)
    line = f"refused {number} {FAULTS[number]} 3 {'server' if has_end else '-'}\n"
    with stage.texts(answer=line) as sight:
        sight.expect_counts(verdict="refused", refused=number, packets=0, notices=0)
        expect_equal(title_of(sight), title_for(number), "title")
        says = sight.text("#verdict")
        speaks = "broke the rules, or" in says
        expect_equal(speaks, 20 <= number <= 28 or number == 60, "says that an end may have broken the rules")
        expect(speaks or "othing is said about" in says, "doesn't say that nothing is said about the ends")
        sight.shot(f"refused_{number:02}_{FAULTS[number]}")


def with_entry(certificate, old, new):
    expect(old in certificate, f"no entry {old}")
    return certificate.replace(old, new, 1)


def records_of(data):
    """The header of a capture and its records, each with its own header."""
    records, at = [], 24
    while at < len(data):
        size = 16 + struct.unpack_from("<I", data, at + 8)[0]
        records.append(data[at : at + size])
        at += size
    return data[:24], records


def without_record(data, index):
    head, records = records_of(data)
    return head + b"".join(records[:index] + records[index + 1 :])


def with_byte(data, index, at, change=1):
    """A capture with one byte of a record changed, counted from the record's end."""
    head, records = records_of(data)
    record = bytearray(records[index])
    record[at] ^= change
    return head + b"".join([*records[:index], bytes(record), *records[index + 1 :]])


# Samples that were changed: sample, what changes the capture or the certificate, and the line that is refused.
CHANGED = {
    "cut_record": ("retransmission", "pcap", lambda data: data[:-1], "refused 14 CutRecord 12 -\n"),
    "wrong_code": ("retransmission", "pcap", lambda data: with_byte(data, 4, -5), "refused 25 Code 5 client\n"),
    "copy_differs": ("copies", "pcap", lambda data: with_byte(data, 4, 16 + 44), "refused 27 CopyDiffers 5 client\n"),
    "missed_packet": ("both_ask", "pcap", lambda data: without_record(data, 3), "refused 28 NumberGap 5 client\n"),
    "no_certificate": ("both_ask", "cert", lambda text: text[:60], "refused 30 Syntax 5 -\n"),
    "taken_too_early": (
        "retransmission", "cert", lambda text: with_entry(text, "take 5 10", "take 4 10"), "refused 31 SlotOrder 4 server\n",
    ),
    "make_left_out": (
        "retransmission", "cert", lambda text: with_entry(text, "make 11 9050 bye\n", ""), "refused 33 MakeMissing 11 server\n",
    ),
    "wrong_reason": (
        "both_ask", "cert", lambda text: with_entry(text, "make 10 1051 again 0", "make 10 1051 fresh"),
        "refused 41 NotAllowed 10 client\n",
    ),
    "key_missing": ("handshake", "toml", lambda text: text.replace("t_max", "# t_max"), "refused 51 MissingKey 7 -\n"),
}  # fmt: skip


def changed(stage, name, story):
    """A sample in which something was changed: the refusal stands at its place in the chart."""
    example, suffix, change, line = story
    files = {}
    for kind in ("pcap", "toml", "cert"):
        data = (EXAMPLES / f"{example}.{kind}").read_bytes()
        if kind == suffix:
            data = change(data if kind == "pcap" else data.decode())
        files[kind] = stage.file(f"{name}.{kind}", data)
    options = ["--certificate", files["cert"]] if suffix == "cert" else []
    with stage.report(files["pcap"], files["toml"], *options) as sight:
        answer = stage.call("check", files["pcap"], files["toml"], files["cert"])
        expect_equal(answer, line, "the program's answer")
        sight.expect_counts(verdict="refused", refused=int(line.split(" ")[1]))
        expect(line.strip() in sight.text("#verdict"), "the line isn't shown")
        if suffix != "toml":
            sight.page.resize(1280, 1500)
            sight.settle()
            expect_agreement(sight)
            marks = sight.act("state.chart.story.mark ? 1 : 0")
            expect_equal(marks, 0 if name == "no_certificate" else 1, "marks in the chart")
        sight.shot(f"changed_{name}")


# ---- stories: 200,000 packets

BIG = 200_000


class Traffic:
    """Packets of two ends in turn, with losses, resends and copies, as records of a capture."""

    def __init__(self):
        self.out = bytearray(struct.pack("<IHHiIII", 0xA1B2C3D4, 2, 4, 0, 0, 0x40000, 1))
        self.number, self.sn = [4294960000, 40], [4294950000, 500]  # both wrap on the way
        self.clock = [4294000000, 9000]
        self.accepted = [(0, 0), (0, 0)]  # SN and TS of the peer's PDU
        self.packets = 0

    def send(self, side, kind, body=b"", taken=True, copied=False):
        self.clock[side] += 10
        (cs, cts), sn, ts = self.accepted[side], self.sn[side], self.clock[side] % 2**32
        receiver, sender = ((97, 96), (96, 97))[side]
        safety = struct.pack("<HHIIIIII", 28 + len(body), kind, receiver, sender, sn, cs, ts, cts) + body
        datagram = struct.pack("<HHI", 8 + len(safety), 0, self.number[side]) + safety
        for channel in (0, 1) if copied else (0,):
            self.record(side, channel, datagram)
        if taken:
            self.accepted[1 - side] = (sn, ts)
        self.sn[side] = (sn + 1) % 2**32
        self.number[side] = (self.number[side] + 1) % 2**32

    def record(self, side, channel, datagram):
        client, server = bytes((10, 0, channel, 1)), bytes((10, 0, channel, 2))
        addresses = client + server if side == 0 else server + client
        ip = struct.pack(">BBHHHBBH", 0x45, 0, 28 + len(datagram), 0, 0, 64, 17, 0) + addresses
        frame = bytes(12) + b"\x08\x00" + ip + struct.pack(">HHHH", 5000 + channel, 5000 + channel, 8 + len(datagram), 0) + datagram
        self.out += struct.pack("<IIII", self.packets // 100, 0, len(frame), len(frame)) + frame
        self.packets += 1

    def open(self):
        opening = b"0303" + struct.pack("<H", 20) + bytes(8)
        self.send(0, 6200, opening)
        self.send(1, 6201, opening)
        self.send(0, 6220)

    def turn(self, count):
        """A few packets of both: every 40th time two units are lost and sent again."""
        messages = [f"signal {count % 97} {('stop', 'proceed')[count % 2]}".encode(), struct.pack("<I", count)]
        body = b"".join(struct.pack("<H", len(message)) + message for message in messages)
        if count % 40 == 39:
            self.send(0, 6240, body, taken=False)
            self.send(0, 6240, body, taken=False)
            for side, kind in ((1, 6212), (0, 6213)):
                self.send(side, kind)
            for _ in range(2):
                self.send(0, 6241, body)
        else:
            self.send(0, 6240, body, copied=count % 7 == 0)
        self.send(1, 6240 if count % 5 == 0 else 6220, body if count % 5 == 0 else b"")


def big_capture(stage, packets):
    traffic = Traffic()
    traffic.open()
    count = 0
    while traffic.packets < packets - 8:
        traffic.turn(count)
        count += 1
    while traffic.packets < packets:
        traffic.send(traffic.packets % 2, 6220)
    toml = "client_id = 96\nserver_id = 97\ncode_length = 0\ncheck_length = 0\nn_sendmax = 20\nt_max = 60000\nslack = 0\n"
    toml += "".join(f'[[channel]]\nclient = "10.0.{i}.1:500{i}"\nserver = "10.0.{i}.2:500{i}"\n' for i in (0, 1))
    return stage.file("big.pcap", bytes(traffic.out)), stage.file("big.toml", toml)


def big(stage):
    """200,000 packets: counts, the first picture within 3 seconds, and every part of the page within reach."""
    capture, parameters = big_capture(stage, BIG)
    answer, shown = stage.call("audit", capture, parameters), stage.call("show", capture, parameters)
    wanted = counts_of_answer(answer)
    expect_equal(wanted["packets"], BIG, "packets")
    with stage.report(capture, parameters) as sight:
        sight.settle()
        found = sight.counts()
        print(f"      first picture after {found['pictureMs']} ms, the model of it {found['modelMs']} ms")
        sight.expect_counts(verdict="explained", messages=messages_in(shown), notices=0, **wanted)
        sight.shot("big_first")
        expect(found["pictureMs"] <= 3000, f"the first picture took {found['pictureMs']} ms")
        big_moves(sight, wanted)
        sight.page.pdf(stage.folder / "big.pdf")


def timed(sight, what, script):
    start = time.monotonic()
    sight.act(script)
    took = time.monotonic() - start
    print(f"      {what}: {1000 * took:.0f} ms")
    expect(took < 2, f"{what} took {took:.1f} s")


def big_moves(sight, wanted):
    sight.page.resize(1280, 1700)
    timed(sight, "going to the last place", f"goToPlace({BIG - 1})")
    drawn = sight.act("Array.from(document.querySelectorAll('#chart g[data-row]'), (g) => Number(g.dataset.row))")
    last = wanted["arrows"] - 1
    expect(last in drawn or last - 1 in drawn, "the last lines aren't drawn")
    expect(len(drawn) < 200, f"{len(drawn)} lines are drawn")
    timed(sight, "the middle, by the scroll bar", "byId('chart').scrollTop = byId('chart').scrollHeight / 2")
    timed(sight, "the last message", "pickMessage(state.chart.messages.length - 1)")
    sight.shot("big_last")
    timed(sight, "searching for bytes", "byId('bytes').value = '\"signal 42 stop\"'; applyFilter()")
    expect(0 < sight.counts()["shownMessages"] < wanted["listed"], "the search finds all or nothing")
    timed(sight, "only what was sent again", "clearFilter(); byId('type').value = '6241'; applyFilter()")
    sight.shot("big_resent")
    timed(sight, "all of it again", "clearFilter()")


# ---- stories: ways in, and texts that are wrong


def sample_texts(stage, name):
    capture, parameters = EXAMPLES / f"{name}.pcap", EXAMPLES / f"{name}.toml"
    return stage.call("audit", capture, parameters), stage.call("show", capture, parameters)


def ways_in(stage):
    """Texts are dropped, pasted and chosen; the page says the same each time."""
    answer, shown = sample_texts(stage, "retransmission")
    wanted = counts_of_answer(answer)
    drop = (
        "(texts) => { const data = new DataTransfer(); texts.forEach((text, i) => data.items.add(new File([text], `${i}.txt`)));"
        "document.body.dispatchEvent(new DragEvent('drop', {dataTransfer: data, bubbles: true, cancelable: true})); }"
    )
    paste = (
        "(text) => { const data = new DataTransfer(); data.setData('text/plain', text);"
        "document.body.dispatchEvent(new ClipboardEvent('paste', {clipboardData: data, bubbles: true, cancelable: true})); }"
    )
    with stage.viewer() as sight:
        sight.shot("empty")
        sight.act(f"({drop})({json.dumps([answer, shown])})")
        sight.page.wait_until(lambda: sight.counts().get("verdict") == "explained", "the dropped files")
        sight.expect_counts(messages=messages_in(shown), notices=0, **wanted)
    with stage.viewer() as sight:
        sight.act(f"({paste})({json.dumps(answer.replace(chr(10), chr(13) + chr(10)).strip())})")
        sight.expect_counts(notices=0, **wanted)
        sight.expect_drawn(messages=wanted["listed"], takes=wanted["takes"])
        sight.page.resize(1280, 1500)
        sight.settle()
        sight.shot("answer_alone")
    with stage.texts(shown=shown) as sight:
        sight.expect_counts(verdict="", packets=wanted["packets"], takes=0, messages=messages_in(shown))
        expect_equal(title_of(sight), "Nothing is judged here", "title")
        sight.shot("show_alone")


def other_capture(stage):
    """The text of show of another capture is told and left aside."""
    answer, _ = sample_texts(stage, "retransmission")
    _, shown = sample_texts(stage, "both_ask")
    with stage.texts(answer=answer, shown=shown) as sight:
        sight.expect_counts(verdict="explained", notices=1, **counts_of_answer(answer))
        expect("and the answer can't be taken together" in sight.text("#notices"), "the difference isn't told")
        sight.shot("other_capture")


def unknown_texts(stage):
    """What is no text of these programs is told so."""
    for name, content, words in (
        ("explain", '{"seatmelon": 1}\n', "is JSON"),
        ("capture", (EXAMPLES / "copies.pcap").read_bytes(), "is a capture"),
        ("words", "Dear Sir or Madam\n", "is none of the texts"),
        ("empty", "", "is empty"),
        ("usage", "usage\n", "other words than its four forms"),
    ):
        with stage.texts(**{name: content}) as sight:
            expect(words in sight.text("#notices"), f"{name}: {sight.text('#notices')}")
            sight.expect_counts(state="empty", notices=1)
            sight.shot(f"unknown_{name}")


def cut_texts(stage):
    """A text that is cut anywhere is never taken for a whole one, and breaks nothing."""
    answer, shown = sample_texts(stage, "both_ask")
    with stage.viewer() as sight:
        for at in range(1, len(answer), 7):
            sight.act(f"startOver(); bring([{{name: 'cut', text: {json.dumps(answer[:at])}}}])")
            found = sight.counts()
            expect(found.get("verdict") == "broken" or found["notices"] == 1, f"cut at {at} it passes for a whole text")
        for at in range(1, len(shown), 31):
            sight.act(f"startOver(); bring([{{name: 'cut', text: {json.dumps(shown[:at])}}}])")
            expect(sight.counts()["notices"] > 0, f"show, cut at {at}, passes for a whole text")
        sight.act(f"startOver(); bring([{{name: 'cut', text: {json.dumps(answer[: len(answer) // 2])}}}])")
        expect_equal(title_of(sight), "This text is not whole", "title")
        sight.shot("cut_text")


def bent_texts(stage):
    """Lines that can't stand where they stand."""
    answer, _ = sample_texts(stage, "retransmission")
    lines = answer.splitlines()
    bent = {
        "number": answer.replace("explained 12", "explained 13"),
        "order": answer.replace("5 server take 8", "6 server take 8"),
        "unknown": answer.replace("5 server take 10", "5 server take 77"),
        "unit": answer.replace("again 1", "again 7"),
        "place": answer.replace("0 3 9 ab01", "0 2 9 ab01"),
        "proof": answer.replace("0 3 9 ab01", "0 3 4 ab01"),
        "digit": answer.replace("0 3 9 ab01", "0 3 9 ab0"),
        "zero": answer.replace("0 3 9 ab01", "0 3 09 ab01"),
        "count": answer.replace("taken by server 5", "taken by server 6"),
        "after the answer": answer + "packets 12\n",
        "fault": "refused 25 Type 3 client\n",
        "end": "refused 25 Code 3 -\n",
        "no place": "refused 60 NotFound 0 -\n",
        "huge": "explained 99999999999999999999\n",
        "twice": "\n".join(lines[:3] + lines[1:]) + "\n",
    }
    with stage.viewer() as sight:
        for name, text in bent.items():
            sight.act(f"startOver(); bring([{{name: 'bent', text: {json.dumps(text)}}}])")
            expect_equal(sight.counts().get("verdict"), "broken", name)


SCRIPT = "<script>document.title = 'broken'</script><img src=x onerror=alert(1)>"


def hostile(stage):
    """Bytes and names that would be markup stand as text."""
    answer, shown = sample_texts(stage, "handshake")
    data = SCRIPT.encode().hex()
    answer = answer.replace("explained 3", "explained 5").replace("taken by client 0", "3 client make 9 1020 fresh\n4 server take 9\n4 server make 41 9020 beat\ntaken by client 0")
    answer = answer.replace("taken by server 0", f"taken by server 1\n0 3 4 {data}")
    shown = shown.replace("packets 3", f"3 4 1 client 9 0 6240 102 500 1020 9000 data {data} - -\n4 5 1 server 41 0 6220 501 102 9020 1020 - - -\npackets 5")
    with stage.texts(answer=answer, shown=shown) as sight:
        sight.expect_counts(verdict="explained", packets=5, messages=1, listed=1, notices=0)
        sight.act("pickMessage(0); byId('spelling').value = 'text'; byId('spelling').dispatchEvent(new Event('change'))")
        expect("<script>document" in sight.page.evaluate("document.querySelector('#list').textContent"), "the message isn't shown as text")
        expect_svg(sight)
        sight.fill("bytes", "<script>")
        sight.expect_counts(shownMessages=1)
        sight.page.resize(1280, 1500)
        sight.settle()
        sight.shot("hostile_message")
        sight.expect_drawn(messages=1)
        expect_tame(sight)


def hostile_parameters(stage):
    """A comment of the parameter file, and file names, that would end the element in which they are kept."""
    text = (EXAMPLES / "handshake.toml").read_text() + f"# </script>{SCRIPT}<!-- \u202e\u2028 -->\n"
    parameters = stage.file("<title>&amp;.toml", text)
    capture = stage.file("hand <b>shake.pcap", (EXAMPLES / "handshake.pcap").read_bytes())
    with stage.report(capture, parameters) as sight:
        sight.expect_counts(verdict="explained", packets=3, notices=0)
        kept = sight.act("state.texts.parameters.text")
        expect_equal(kept, text, "the parameter file in the report")
        sight.act("document.querySelectorAll('#sources details').forEach((entry) => { entry.open = true; })")
        time.sleep(0.2)
        expect("</script><script>" in sight.text("#sources"), "the comment isn't shown as text")
        expect("\\u{202e}" in sight.text("#sources"), "a turn of the direction of writing isn't spelled out")
        expect("<b>" in sight.text("#report"), "the file's name isn't shown as text")
        sight.page.resize(1280, 2600)
        sight.settle()
        sight.shot("hostile_parameters")
        expect_tame(sight)


def long_lines(stage):
    """Lines of 10,000 characters and more."""
    answer, shown = sample_texts(stage, "quiet_start")
    data = "5a" * 5000
    long_answer = answer.replace(" ab01\n", f" {data}\n")
    with stage.texts(answer=long_answer, shown=shown.replace("data ab01", f"data {data}")) as sight:
        sight.expect_counts(verdict="explained", messages=2, listed=2, notices=0)
        sight.act("pickMessage(0)")
        wide = sight.act("document.documentElement.scrollWidth - document.documentElement.clientWidth")
        expect(wide <= 0, f"the page is {wide} pixels too wide")
        sight.page.resize(1280, 1400)
        sight.settle()
        sight.shot("long_message")
        sight.page.pdf(stage.folder / "long_message.pdf")
    for name, text in (
        ("line", "explained 2\n" + "x" * 10000 + "\n"),
        ("digits", "explained " + "9" * 10000 + "\n"),
        ("word", "refused 25 " + "Code" * 2500 + " 3 client\n"),
        ("bytes", bytes(range(256)) * 40),
    ):
        with stage.texts(**{name: text if isinstance(text, bytes) else text}) as sight:
            found = sight.counts()
            expect(found.get("verdict") == "broken" or found["notices"] == 1, f"{name} passes")
            wide = sight.act("document.documentElement.scrollWidth - document.documentElement.clientWidth")
            expect(wide <= 0, f"{name}: the page is {wide} pixels too wide")
            sight.shot(f"long_{name}")


def expect_tame(sight):
    """Nothing that came with a text is an element of the page."""
    strange = sight.act("document.querySelectorAll('img, b, script:not([type]):not(:last-of-type), iframe, object').length")
    expect_equal(strange, 0, "elements out of texts")
    expect("broken" not in sight.page.evaluate("document.title"), "a script of a text ran")


# ---- stories: using it


def keys(stage):
    """Keys move through the chart and the list, and along the way of a packet."""
    answer, shown = sample_texts(stage, "retransmission")
    with stage.texts(answer=answer, shown=shown) as sight:
        def picked():
            return sight.act("state.picked ? state.picked.row : null")

        sight.act("byId('chart').focus()")
        for key, row in (("End", 21), ("Home", 0), ("ArrowDown", 1), ("ArrowUp", 0), ("ArrowRight", 1), ("ArrowLeft", 0)):
            sight.page.press(key)
            expect_equal(picked(), row, key)
        sight.page.press("Escape")
        expect_equal(picked(), None, "Escape")
        sight.act("byId('list').focus()")
        for key in ("ArrowDown", "ArrowDown", "ArrowDown", "p"):
            sight.page.press(key)
        expect_equal(sight.act("state.chart.story.level.at(state.picked.row)"), 9, "the proof of message 2")
        sight.page.press("Enter")
        expect_equal(sight.act("state.chart.story.level.at(state.picked.row)"), 4, "the data of message 2")
        sight.page.press("g")
        expect_equal(sight.act("document.activeElement.id"), "goto", "G")


def filters(stage):
    """Each filter shows what the texts say."""
    answer, shown = sample_texts(stage, "both_ask")
    packets = packets_in(shown)
    with stage.texts(answer=answer, shown=shown) as sight:
        sight.act("byId('takes').checked = false")
        for field, value, rows in (
            ("type", "6241", sum(words[6] == "6241" for words in packets)),
            ("end", "1", sum(words[3] == "server" for words in packets)),
            ("from", "10", len(packets) - 10),
            ("to", "4", 5),
            ("bytes", "11", sum(words[12:13] == ["11"] for words in packets)),
        ):
            sight.fill(field, value)
            sight.expect_counts(shown=rows)
            sight.act("clearFilter(); byId('takes').checked = false")
        sight.fill("type", "6241")
        sight.shot("filter_type")
        sight.act("goToPlace(0)")
        expect_equal(sight.counts()["shown"], 31, "lines after going to a place that was hidden")


def colours(stage):
    """Dark and light, by the system and by choice; the saved picture has the colours that are seen."""
    answer, shown = sample_texts(stage, "retransmission")
    pages = {}
    with stage.texts(answer=answer, shown=shown) as sight:
        sight.page.resize(1280, 1500)
        for name, dark, theme in (("light", False, ""), ("dark", True, ""), ("dark_chosen", False, "dark"), ("light_chosen", True, "light")):
            sight.page.is_dark(dark)
            sight.act(f"byId('theme').value = '{theme}'; byId('theme').dispatchEvent(new Event('change')); goToPlace(3)")
            pages[name] = sight.act("getComputedStyle(document.documentElement).backgroundColor")
            sight.shot(f"colours_{name}")
            (stage.folder / f"picture_{name}.svg").write_text(expect_svg(sight), encoding="utf-8")
    expect(pages["light"] == pages["light_chosen"] != pages["dark"] == pages["dark_chosen"], f"colours: {pages}")


def not_taken(stage):
    """Data whose messages are not shown to be taken look different."""
    answer, shown = sample_texts(stage, "both_ask")
    lines = answer.splitlines(keepends=True)
    cut = "".join(lines[: lines.index("taken by server 2\n")]) + "taken by server 1\n0 3 16 01\n"
    with stage.texts(answer=cut, shown=shown) as sight:
        sight.expect_counts(verdict="explained", messages=4, listed=3, takenByServer=1)
        hollow = sight.act("document.querySelectorAll('#chart .head.hollow').length")
        expect_equal(hollow, 1, "hollow heads")
        expect("those of 1 data PDU" in sight.text("#verdict"), "the verdict doesn't count it")
        sight.page.resize(1280, 1900)
        sight.act("goToPlace(5)")
        sight.shot("not_shown_to_be_taken")


def with_keys(name, **values):
    """The parameter file of a sample with these values of keys before its first table, each in place of its own."""
    head, table, rest = (EXAMPLES / f"{name}.toml").read_text().partition("[[channel]]")
    lines = [line for line in head.splitlines(keepends=True) if line.split(" = ")[0] not in values]
    return "".join(lines + [f"{key} = {value}\n" for key, value in values.items()]) + table + rest


def expect_no_packets(sight, where):
    """Nothing is green, and nothing is said of messages."""
    sight.expect_counts(verdict="none", packets=0, messages=0)
    expect_equal(title_of(sight), "No packet of the connection", "title")
    expect_equal(sight.act("document.querySelectorAll('#verdict .explained, #verdict .ends').length"), 0, "coloured panels")
    colour = "getComputedStyle(document.querySelector('#verdict .answer')).borderLeftColor"
    grey = "(() => { const at = document.createElement('p'); at.style.color = 'var(--soft)'; document.body.append(at);" \
        "const found = getComputedStyle(at).color; at.remove(); return found; })()"
    expect_equal(sight.act(colour), sight.act(grey), "the verdict's colour")
    said = sight.text("#verdict")
    expect(f"No packet of the connection is {where}, so nothing was judged." in said, f"where: {said[:200]}")
    expect("addresses and ports" in said and "first_record" in said, "what to check isn't said")
    expect("No message was sent" not in sight.text("body") and "surely taken" not in said.lower(), "messages are spoken of")


def no_packets(stage):
    """A mistyped port, and a window without a packet."""
    parameters = stage.file("mistyped.toml", (EXAMPLES / "handshake.toml").read_text().replace(":5000", ":5009"))
    with stage.report(EXAMPLES / "handshake.pcap", parameters) as sight:
        expect_no_packets(sight, "in the capture")
        sight.shot("no_packets")
    parameters = stage.file("behind.toml", with_keys("handshake", first_record=9))
    with stage.report(EXAMPLES / "handshake.pcap", parameters) as sight:
        expect_no_packets(sight, "in the records from 9 on of the capture")


def no_capture(stage):
    """A file that is none of libpcap, and one that is cut in its header: nothing is said of messages."""
    parameters = EXAMPLES / "handshake.toml"
    for name, content, number in (("text.pcap", b"This is a text of many words, and no capture.\n", 10), ("cut.pcap", (EXAMPLES / "handshake.pcap").read_bytes()[:20], 13)):
        with stage.report(stage.file(name, content), parameters) as sight:
            sight.expect_counts(verdict="refused", refused=number, packets=0, messages=0)
            expect("No message" not in sight.text("body"), "messages are spoken of")


def window_is_told(stage):
    """Which records were judged; how many packets lie outside, where seatmelon is built."""
    parameters = stage.file("window.toml", with_keys("retransmission", last_record=9))
    with stage.report(EXAMPLES / "retransmission.pcap", parameters) as sight:
        sight.expect_counts(verdict="explained", packets=9)
        said = sight.text("#verdict")
        expect("the packets in records 1 to 9," in said, "the sentence doesn't name the window")
        counted = "no packets lie before them, and 3 packets behind." in said
        expect(counted or "isn't told here" in said, f"what lies outside: {said[:400]}")
        sight.shot("window")
    answer, shown = sample_texts(stage, "retransmission")
    with stage.texts(answer=answer, shown=shown, parameters=with_keys("retransmission", first_record=1, last_record=12)) as sight:
        said = sight.text("#verdict")
        expect("which was brought beside it, records a window: records 1 to 12 of the capture." in said, "the window isn't told")
        expect("exactly these 12 packets," in said, "the sentence names a window that need not be the answer's")


# What stands in for seatmelon: the answer of `explain --json` to a gap, and the times of `show`.
STAND_IN = """#!/bin/sh
if [ "$1" = show ]; then
    echo 'packets of the recorded channels; nothing here is a verdict'
    for record in 01 02 03 04 05 06 07 08 09; do
        echo "      $record  2026-01-01 00:00:00.0${record}000        1  client"
    done
else
    echo '{"verdict":"refused","window":null,"fault":{"number":28,"name":"NumberGap"},
"record":{"record":7,"time":"2026-01-01 00:00:00.007000 UTC"},
"trouble":{"number_due":41,"number_found":4294967290,"crosses_later":{"record":12,"time":"2026-01-01 00:00:01.000000 UTC","channel":1}}}'
fi
"""


def times_and_numbers(stage):
    """Times of records, and the numbers of a gap, as seatmelon tells them."""
    program = stage.file("stand_in", STAND_IN)
    program.chmod(0o755)
    capture = EXAMPLES / "missing_packet.pcap"
    with stage.report(capture, capture.with_suffix(".toml"), "--seatmelon", program) as sight:
        said = sight.text("#verdict")
        record = re.search("Record ([0-9]+) of the file", said)
        expect(record, "the record isn't named")
        expect("41 was due, 4294967290 was found; the one that was due crosses later, at record 12" in said, f"the numbers: {said[:600]}")
        sight.act("goToPlace(1)")
        details = sight.text("#details")
        found = re.search(r"Record\s+([0-9]+)\s+Time \(UTC\)\s+(\S+ \S+)", details)
        expect(found, f"no time: {details[:300]}")
        expect_equal(found[2], f"2026-01-01 00:00:00.00{found[1]}000", "the time of the record")


def supposed(kind, name, record):
    place = {"record": record, "time": "2026-01-01 00:00:00.030000 UTC", "channel": 1}
    pdu = {"from": "client", "before": place, "redundancy_number": 11, "type": kind, "type_name": name}
    return {**pdu, "sn": 104, "cs": 501, "ts": 1020, "cts": 9020}


def stand_in_with(stage, supposition):
    """A program that says so of a gap before record 7."""
    answer = {"verdict": "explained_with_supposed_pdus" if supposition["fillings"] else "refused", "window": None, "record": None}
    answer["fault"] = {"number": 28, "name": "NumberGap"}
    program = stage.file("stand_in", f"#!/bin/sh\ncat <<'END'\n{json.dumps({**answer, 'trouble': None, 'supposed': supposition})}\nEND\n")
    program.chmod(0o755)
    return program


def supposed_pdus(stage):
    """PDUs that the tap is supposed to have missed stand behind the refusal, dashed and before its mark."""
    capture = EXAMPLES / "missing_packet.pcap"
    response, heartbeat = supposed(6213, "retransmission response", 7), supposed(6220, "heartbeat", 7)
    messages = [
        {"from": "client", "to": "server", "surely_taken": 4, "sent": 5, "not_shown": None, "messages": []},
        {"from": "server", "to": "client", "surely_taken": 0, "sent": 0, "not_shown": None, "messages": []},
    ]
    told = {"fillings": [[response], [heartbeat]], "gaps": [], "premises": ["The tap missed <them>."], "messages": messages}
    with stage.report(capture, capture.with_suffix(".toml"), "--seatmelon", stand_in_with(stage, told), "--suppose", "1") as sight:
        sight.expect_counts(verdict="refused", refused=28)
        said = sight.text("#verdict")
        for words in (
            "Explained with 1 supposed PDU, as a hypothesis",
            "The capture as it is stays refused.",
            "From the client, number 11, SN 104, just before record 7: retransmission response (CS 501, TS 1020, CTS 9020), filling 1; or heartbeat (CS 501, TS 1020, CTS 9020), filling 2.",
            "Under each of 2 fillings: client to server, 4 of 5 captured messages surely taken; server to client, 0 of 0 captured messages surely taken.",
            "The tap missed <them>.",
        ):
            expect(words in said, f"not told: {words}: {said[:1500]}")
        kinds = sight.act("Array.from(state.model.story.kind.values.subarray(0, state.model.story.rows))")
        expect_equal(kinds.count(5), 1, "lines of supposed PDUs")
        expect_equal(kinds.index(4), kinds.index(5) + 1, "the line of the mark")
        expect_equal(sight.act("document.querySelectorAll('#chart line.supposed').length"), 1, "dashed arrows")
        dashes = sight.act("getComputedStyle(document.querySelector('#chart line.supposed')).strokeDasharray")
        expect(dashes not in ("", "none"), f"not dashed: {dashes}")
        sight.act(f"pickRow({kinds.index(5)})")
        expect("This wasn't captured." in sight.text("#details"), "the details of a supposed PDU")
        sight.shot("supposed")
    gap = {"from": "client", "missing": 1, "before": response["before"], "ways": [
        {"type": 6220, "type_name": "heartbeat", "explained_before": {"record": 8, "time": None, "channel": 1}}]}
    with stage.report(capture, capture.with_suffix(".toml"), "--seatmelon", stand_in_with(stage, {"fillings": [], "gaps": [gap]}), "--suppose", "1") as sight:
        said = sight.text("#verdict")
        expect("1 PDU of the client before record 7, heartbeat: explains all packets before record 8." in said, f"in vain: {said[:1200]}")
        expect_equal(sight.act("document.querySelectorAll('#chart line.supposed').length"), 0, "dashed arrows")


def places_of_a_report(stage):
    """A report that is about some places alone."""
    capture = EXAMPLES / "retransmission.pcap"
    with stage.report(capture, capture.with_suffix(".toml"), "--places", "3-5") as sight:
        expect_equal((sight.act("byId('from').value"), sight.act("byId('to').value")), ("3", "5"), "places")
        drawn = sight.act("Array.from(document.querySelectorAll('#chart g[data-kind]:not([data-kind=\"0\"])'), (g) => placeOf(state.chart.story, Number(g.dataset.row)))")
        expect_equal(drawn, [3, 4, 5], "places drawn")


def statuses(stage):
    """The exit status is the answer's, and a folder that is missing is told."""
    def status_of(capture, parameters, *options, out="status.html"):
        words = [sys.executable, TOP / "scripts/report.py", "--program", stage.program, *options, capture, parameters, stage.scratch / out]
        call = subprocess.run(words, capture_output=True, text=True)
        expect("Traceback" not in call.stderr, "a traceback")
        return call.returncode

    handshake = EXAMPLES / "handshake.pcap", EXAMPLES / "handshake.toml"
    expect_equal(status_of(*handshake), 0, "explained")
    refused = EXAMPLES / "flipped_bit.pcap"
    expect_equal(status_of(refused, refused.with_suffix(".toml")), 1, "refused")
    expect_equal(status_of(*handshake, out="missing/status.html"), 2, "a missing folder")
    expect_equal(status_of(*handshake, "--places", "7-3"), 2, "places that fall")
    expect_equal(status_of(handshake[0], stage.scratch / "none.toml"), 2, "a missing file")
    expect_equal(status_of(*handshake, "--suppose", "17"), 2, "too many supposed PDUs")
    certificate = EXAMPLES / "handshake.cert"
    expect_equal(status_of(*handshake, "--suppose", "1", "--certificate", certificate), 2, "supposed PDUs and a certificate")


def carriage_returns(stage):
    """A parameter file with the line ends of another system is shown without them."""
    parameters = (EXAMPLES / "handshake.toml").read_text().replace("\n", "\r\n")
    with stage.texts(answer=sample_texts(stage, "handshake")[0], parameters=parameters) as sight:
        sight.act("document.querySelectorAll('#sources details').forEach((entry) => { entry.open = true; })")
        time.sleep(0.2)
        shown = sight.text("#sources details[data-kind=parameters] pre")
        expect("client_id = 96" in shown and "\\u{d}" not in shown, "carriage returns are shown")


def ten_digits(stage):
    """Numbers of ten digits are whole at the standard width."""
    most = 4294967295
    answer = (
        f"explained 3\n0 client make {most - 1} 4294966295 open\n1 server take {most - 1}\n1 server make {most} 4294966296 reply\n"
        f"2 client take {most}\n2 client make {most} 4294966297 reply\ntaken by client 0\ntaken by server 0\n"
    )
    shown = "".join(
        f"{place} {4000000000 + place} 1 {side} {number} 0 {kind} {most} {most} {most} {most} {body} - -\n"
        for place, side, number, kind, body in (
            (0, "client", most - 1, 6200, "open 0303 20 0000000000000000"),
            (1, "server", most, 6201, "open 0303 20 0000000000000000"),
            (2, "client", most, 6220, "-"),
        )
    ) + "packets 3\n"
    with stage.texts(answer=answer, shown=shown) as sight:
        sight.expect_counts(verdict="explained", packets=3, notices=0)
        words = sight.act("Array.from(document.querySelectorAll('#chart text'), (text) => text.textContent)")
        expect(any(f"no. {most} · SN {most} · CS {most}" in text for text in words), f"the numbers aren't whole: {words}")
        expect(not any(text.endswith("…") for text in words), f"cut: {[text for text in words if text.endswith('…')]}")
        place = "placeButton(0, 15999999, ' (4000000000)', null)"
        wide = "const cell = document.createElement('span'); cell.append(BUTTON); const row = document.querySelector('.list-row.head').cloneNode(true);" \
            "row.children[2].replaceWith(cell); document.querySelector('#listed').append(row); byId('listed').hidden = false;" \
            "const wide = cell.scrollWidth - cell.clientWidth; row.remove(); wide"
        expect(sight.act(f"(() => {{ {wide.replace('BUTTON', place).replace('; wide', '; return wide')}; }})()") <= 0, "a place with its record is cut in the list")
        sight.shot("ten_digits")


# ---- stories: what several files together are taken for


def expected(name):
    return (EXAMPLES / "expected" / name).read_text()


# What the page says of a text that contradicts the answer.
APART = "and the answer can't be taken together"


def told(sight, *words):
    """Each of these words is on the page."""
    said = sight.text("body")
    for part in words:
        expect(part in said, f"not told: {part}: {said[:400]}")


def expect_alone(sight):
    """Nothing is on the page of what was there before: no report, window or text."""
    expect(sight.act("byId('report').hidden"), "the files of the report are still listed")
    expect_equal(sight.act("state.report"), None, "the report")


def answer_beside_report(stage):
    """Another answer, added to a report, begins anew: title, files, window and texts of the report go."""
    capture = EXAMPLES / "missing_packet.pcap"
    answer = stage.file("other.answer.txt", expected("retransmission.check.txt"))
    with stage.report(capture, capture.with_suffix(".toml")) as sight:
        sight.choose(answer)
        sight.expect_counts(verdict="explained", packets=12, takenByServer=5)
        for what in ("document.title", "document.querySelector('h1').textContent"):
            title = sight.act(what)
            expect("missing_packet" not in title and "other.answer.txt" in title, f"the title: {title}")
        told(sight, "The report about missing_packet.pcap is put away", "other.answer.txt")
        expect_alone(sight)
        expect_equal(sight.act("state.brought.map(({kind}) => kind)"), ["verdict"], "texts")
        pages = sight.printed("answer_beside_report")
        expect("thereportaboutmissing_packet.pcapisputaway" in "".join(pages).lower(), "the print doesn't say it")
        sight.shot("answer_beside_report")


def three_answers(stage):
    """Of three answers none is drawn before one is chosen; a refusal among them is listed by name, on paper too."""
    files = [stage.file(f"{name}.answer.txt", expected(f"{name}.{kind}.txt")) for name, kind in (
        ("retransmission", "check"), ("missing_packet", "audit"), ("both_ask", "check"))]  # fmt: skip
    shown = [stage.file(f"{name}.show.txt", expected(f"{name}.txt")) for name in ("both_ask", "missing_packet")]
    gists = ("explained 12", "refused 28 NumberGap 7 client", "explained 17")
    with stage.viewer(*files, *shown) as sight:
        sight.expect_counts(verdict="", packets=0)
        told(sight, "3 answers", "nothing is drawn until one is chosen", *gists, *(path.name for path in files))
        sight.shot("three_answers")
        printed = "".join(sight.printed("three_answers"))
        for words in (*gists, *(path.name for path in files)):
            expect("".join(words.split()) in printed, f"not printed: {words}")
        for name, verdict in (("missing_packet", "refused"), ("both_ask", "explained"), ("retransmission", "explained")):
            row = f"find((row) => row.innerText.startsWith('{name}.answer'))"
            sight.act(f"Array.from(document.querySelectorAll('#brought tr')).{row}.querySelector('button').click()")
            sight.expect_counts(verdict=verdict, notices=0)
            told(sight, *gists, *(path.name for path in files))
            shows = sight.act("state.texts.show?.name ?? null")
            expect_equal(shows, None if name == "retransmission" else f"{name}.show.txt", "the listing beside it")
            expect(f"{name}.answer.txt" in sight.act("document.title"), "the title")


def foreign_parameters(stage):
    """A parameter file beside an answer isn't said to be its own; where it contradicts the answer, that is said."""
    answer, shown = expected("retransmission.check.txt"), expected("retransmission.txt")
    window = with_keys("retransmission", last_record=9)
    with stage.texts(answer=answer, window=window) as sight:
        told(sight, f"window.txt {APART}: its window has 9 records, and the answer speaks of 12 packets")
        expect("records 1 to 9" not in sight.text("#verdict"), "the window is told of the answer")
        sight.shot("foreign_parameters")
    with stage.texts(answer=answer, parameters=with_keys("retransmission", last_record=400)) as sight:
        sight.expect_counts(notices=0)
        told(sight, "which was brought beside it, records a window: records 1 to 400 of the capture.")
        sight.choose(stage.file("both_ask.answer.txt", expected("both_ask.check.txt")))
        expect("records a window" not in sight.text("body"), "the window of an earlier answer stays")
    for name, parameters, words in (
        ("late", with_keys("retransmission", first_record=4), "its window is the records from 4 on, and a packet is in record 1"),
        ("codes", with_keys("retransmission", code_length=8), "it records safety codes of 8 bytes, and those"),
        ("checks", with_keys("retransmission", check_length=0), "it records check codes of no bytes, and those"),
    ):
        with stage.texts(answer=answer, shown=shown, **{name: parameters}) as sight:
            told(sight, f"{name}.txt {APART}: {words}")
            sight.expect_counts(notices=1)
    refused = "refused 28 NumberGap 7 client\n"
    with stage.texts(answer=refused, early=with_keys("retransmission", last_record=6)) as sight:
        told(sight, "its window is records 1 to 6, and record 7 is refused")


# A refusal, the sample whose listing lies beside it, and why the two can't be of the same files.
FOREIGN = [
    ("refused 60 NotFound 99 -", "missing_packet", "it has 11 packets, and the answer refuses the one at place 98"),
    ("refused 28 NumberGap 99 client", "missing_packet", "it has no packet in record 99, which the answer refuses"),
    ("refused 28 NumberGap 6 client", "missing_packet",
     "its record 6 was sent by the server, and the answer refuses one of the client"),
    ("refused 28 NumberGap 7 client", "retransmission", "the number of its record 7 is the next one"),
    ("refused 27 CopyDiffers 7 client", "retransmission", "the number of its record 7 didn't cross before"),
    ("refused 25 Code 5 client", "retransmission", "it ends with packets 12, and the answer is refused 25 Code 5 client"),
    ("refused 25 Code 5 client", "flipped_bit",
     "it ends with refused 25 Code 8 client, and the answer is refused 25 Code 5 client"),
    ("refused 28 NumberGap 9 client", "flipped_bit",
     "it ends with refused 25 Code 8 client, which the answer would name first"),
    ("refused 51 MissingKey 7 -", "retransmission", "where the parameters are refused nothing is listed"),
    ("explained 0\ntaken by client 0\ntaken by server 0", "retransmission", "it has 12 packets and the answer 0"),
]  # fmt: skip


def foreign_listing(stage):
    """A refusal is drawn in no listing that contradicts it."""
    for line, sample_name, words in FOREIGN:
        with stage.texts(answer=f"{line}\n", shown=expected(f"{sample_name}.txt")) as sight:
            told(sight, f"shown.txt {APART}: {words}. It is left aside, and nothing is drawn from both.")
            sight.expect_counts(notices=1, packets=0)
    with stage.texts(answer="refused 28 NumberGap 7 client\n", shown=expected("missing_packet.txt")) as sight:
        sight.expect_counts(notices=0, packets=11)
        expect_equal(sight.act("state.chart.story.mark.packet"), 6, "the framed packet")
    answer, shown = expected("retransmission.check.txt"), expected("retransmission.txt")
    with stage.texts(answer=answer[: answer.index("5 server take 10")], shown=shown) as sight:
        sight.expect_counts(verdict="broken", notices=0)
    with stage.texts(answer=answer, shown=shown[:700]) as sight:
        told(sight, f"shown.txt {APART}: it isn't whole (line ")
        sight.expect_counts(verdict="explained", notices=1)


def several_listings(stage):
    """Of several texts of show, without an answer, none is drawn before one is chosen."""
    with stage.texts(one=expected("retransmission.txt"), other=expected("both_ask.txt")) as sight:
        sight.expect_counts(verdict="", packets=0)
        told(sight, "2 texts of show: one is drawn at a time", "one.txt", "12 packets", "other.txt", "17 packets")
        sight.act("document.querySelectorAll('#brought button')[1].click()")
        sight.expect_counts(packets=17)
        sight.choose(stage.file("again.txt", expected("both_ask.txt")))
        sight.expect_counts(packets=17)
        told(sight, "again.txt")


def foreign_certificate(stage):
    """A certificate of another run is told, and left aside."""
    certificates = {name: (EXAMPLES / f"{name}.cert").read_text() for name in ("retransmission", "both_ask")}
    answer, shown = expected("retransmission.check.txt"), expected("retransmission.txt")
    with stage.texts(answer=answer, own=certificates["retransmission"]) as sight:
        sight.expect_counts(notices=0)
    for line, name, words in (
        (answer, "both_ask", "script isn't in the run of the answer"),
        ("refused 41 NotAllowed 99 client\n", "retransmission", "entries, and the answer refuses entry 99"),
        ("refused 34 NotYetCrossed 1 client\n", "retransmission",
         "entry 1 of its client's script is a make, which is never refused by 34 NotYetCrossed"),
        ("refused 30 Syntax 5 -\n", "retransmission", "it can be read to its end, and the answer refuses its line 5"),
        ("refused 41 NotAllowed 9 server\n", "both_ask", "where no packet of that end is listed"),
        ("refused 60 NotFound 9 -\n", "both_ask", "where no packet of that end is listed"),
    ):
        with stage.texts(answer=line, shown=shown, foreign=certificates[name]) as sight:
            told(sight, f"foreign.txt {APART}: ", words)


def refused_explanation(stage):
    """The texts of seatmelon are said to be what they are, and never to be cut."""
    for name, text, words in (
        ("refused", expected("missing_packet.suppose.txt"), "is a text of seatmelon explain"),
        ("explained", expected("excerpt.explain.txt"), "is a text of seatmelon explain"),
        ("none", "no packet of the connection\n", "is a text of seatmelon explain"),
        ("survey", expected("late_copies.survey.txt"), "is a survey of seatmelon"),
        ("audits", expected("station.audits.txt"), "is a text of seatmelon audit"),
        ("listing", "packets of the recorded channels; nothing here is a verdict\n", "is a listing of seatmelon show"),
    ):
        with stage.texts(**{name: text}) as sight:
            told(sight, f"{name}.txt {words}")
            expect("cut or changed" not in sight.text("body"), "it is called cut")
            sight.expect_counts(verdict="", notices=1)


def parameters_alone(stage):
    """A parameter file or a certificate alone gets a word."""
    for name, path in (("parameters", EXAMPLES / "handshake.toml"), ("certificate", EXAMPLES / "handshake.cert")):
        with stage.texts(**{name: path.read_text()}) as sight:
            told(sight, "No answer is here", f"{name}.txt", "Drop the texts here")
            sight.expect_counts(verdict="", packets=0)


# ---- stories: files as other systems write them


def line_ends(stage):
    """Texts with CRLF or in UTF-16 are read as they are meant, and the page says what was mended."""
    answer, shown = expected("retransmission.check.txt"), expected("retransmission.txt")
    wanted = counts_of_answer(answer)
    ways = {
        "crlf": lambda text: text.replace("\n", "\r\n").encode(),
        "utf16": lambda text: b"\xff\xfe" + text.replace("\n", "\r\n").encode("utf-16-le"),
        "utf16_unmarked": lambda text: text.encode("utf-16-le"),
        "utf16_big": lambda text: b"\xfe\xff" + text.encode("utf-16-be"),
        "utf8_marked": lambda text: b"\xef\xbb\xbf" + text.encode(),
    }
    for name, way in ways.items():
        files = [stage.file(f"{name}.{kind}.txt", way(text)) for kind, text in (("answer", answer), ("show", shown))]
        with stage.viewer(*files) as sight:
            sight.expect_counts(verdict="explained", notices=0, **wanted)
            expect_equal(sight.act("state.model.show?.packets ?? 0"), 12, f"{name}: packets of show")
            expect(name == "utf8_marked" or "mended" in sight.text("#brought"), f"{name}: nothing is said of it")


def chosen_again(stage):
    """A file that was written anew and chosen again is read anew."""
    path = stage.file("answer.txt", expected("retransmission.check.txt"))
    with stage.viewer(path) as sight:
        sight.expect_counts(verdict="explained")
        expect_equal(sight.act("byId('files').value"), "", "the choice, which keeps the same file from being chosen again")
        stage.file("answer.txt", expected("missing_packet.audit.txt"))
        sight.choose(path)
        sight.expect_counts(verdict="refused", refused=28)


def newlines(stage):
    """200 kB of line ends, spaces or brackets don't hold the page up."""
    shapes = {"lines": "\n", "spaces": " ", "both": " \n", "brackets": "[", "quotes": '"\n', "keys": "a = [\n"}
    for name, text in shapes.items():
        with stage.viewer() as sight:
            start = time.monotonic()
            sight.choose(stage.file(f"{name}.txt", (text * 200_000)[:200_000]))
            sight.choose(stage.file(f"{name}.toml", "t_max = 9\n" + (text * 200_000)[:200_000]))
            took = time.monotonic() - start
            expect(took < 3, f"{name}: {took:.1f} s")


def spelled_numbers(stage):
    """A window is read as TOML spells it, and only where it stands."""
    shapes = [
        ('"last_record" = 9', 9), ("'last_record' = 9", 9), ("last_record = 0x1F", 31), ("last_record = 0o17", 15),
        ("last_record = 0b1001", 9), ("last_record = +9", 9), ("last_record = 4_000_000", 4000000), ("last_record=9 # 12", 9),
        ('text = """\nlast_record = 9\n"""', None), ("# last_record = 9", None), ("last_record = 4000000000", None),
        ("list = [\nlast_record 9 ]", "unread"), ("list = [ 1, # ]\n  2,\n]\nlast_record = 9", 9), ("last_record = 9.5", None),
    ]  # fmt: skip
    head, table, rest = (EXAMPLES / "retransmission.toml").read_text().partition("[[channel]]")
    with stage.viewer() as sight:
        for line, last in shapes:
            for text in (f"{line}\n{head}{table}{rest}", f"{head}{line}\r\n{table}{rest}"):
                sight.act(f"startOver(); bring([mendedText('a.toml', {json.dumps(text)})])")
                read = sight.act("state.texts.parameters.read")
                if last == "unread":
                    expect(read["fault"], f"{line}: it is read")
                else:
                    expect_equal((read["window"] or {}).get("last_record"), last, line)
                    expect_equal((read["fault"], read["channels"]), (None, 1), f"{line}: channels")
        sight.act(f"startOver(); bring([{{name: 'a.toml', text: {json.dumps(head)} + 'a = '}}])")
        told(sight, "a.toml can't be read by this page: line")


# ---- stories: phones, zoom and paper


SIZES = [(390, 800, 2), (640, 450, 2), (768, 1024, 1), (1280, 900, 1)]  # a phone, a zoom of 200 %, a tablet, a screen


def every_size(stage):
    """On a phone, at a zoom of 200 %, on a tablet and a screen all can be reached, in light and dark."""
    capture = EXAMPLES / "retransmission.pcap"
    with stage.report(capture, capture.with_suffix(".toml")) as sight:
        for width, height, scale in SIZES:
            sight.page.resize(width, height, scale)
            sight.settle()
            for dark in (False, True):
                sight.page.is_dark(dark)
                sight.settle()
                expect_reachable(sight, width)
                sight.act("window.scrollTo(0, 0)")
                sight.shot(f"size_{width}_{'dark' if dark else 'light'}", whole=True)
        sight.page.is_dark(False)


# What of a selector's elements is cut: wider inside than out, or beyond the right edge of the page.
CUT = """((selector) => Array.from(document.querySelectorAll(selector)).filter((one) => one.offsetParent !== null &&
    (one.scrollWidth > one.clientWidth + 1 && one.clientWidth > 0 || one.getBoundingClientRect().right > innerWidth + 1))
    .map((one) => one.textContent.slice(0, 60)))"""


def expect_reachable(sight, width):
    wide = sight.act("document.documentElement.scrollWidth - document.documentElement.clientWidth")
    expect(wide <= 0, f"{width}: the page is {wide} pixels too wide")
    cut = sight.act(f"{CUT}('#report td, #report pre, #verdict p, #verdict li, #brought td, .filters label, .tools')")
    expect_equal(cut, [], f"{width}: cut")
    for side, name in enumerate(("client", "server")):
        sight.act(f"revealSide({side})")
        inside = sight.act(
            "(() => { const box = byId('chart').getBoundingClientRect();"
            "const heads = Array.from(document.querySelectorAll('#heads .name'));"
            f"const names = heads.filter((one) => one.textContent === '{name.capitalize()}');"
            f"const lines = Array.from(document.querySelectorAll('#chart .life.{name}'));"
            "return [...names, ...lines].map((one) => one.getBoundingClientRect())"
            ".every(({left, right}) => left >= box.left - 1 && right <= box.right + 1); })()"
        )
        expect(inside, f"{width}: the {name} can't be reached")
    sight.act("pickMessage(0)")
    cells = sight.act(
        "(() => { const edge = byId('list').getBoundingClientRect().right + 1;"
        "return Array.from(document.querySelectorAll('#list .list-row.picked > *'), (cell) => {"
        "const {right, width} = cell.getBoundingClientRect();"
        "return [cell.dataset.head, cell.scrollWidth > cell.clientWidth, right <= edge, width]; }); })()"
    )
    expect_equal(len(cells), 7, f"{width}: cells of a message")
    for head, is_cut, is_inside, cell_width in cells:
        expect(not is_cut and is_inside and cell_width >= 20, f"{width}: {head} is cut off")


# The least contrast of the texts in view with the ground behind them, and the text that has it.
CONTRAST = """(() => {
    const ofPart = (part) => part <= 0.04045 ? part / 12.92 : ((part + 0.055) / 1.055) ** 2.4;
    const brightness = (colour) => {
        const [r, g, b] = colour.match(/[0-9.]+/g).map((part) => ofPart(Number(part) / 255));
        return 0.2126 * r + 0.7152 * g + 0.0722 * b;
    };
    const ground = (node) => {
        const colour = node ? getComputedStyle(node).backgroundColor : 'rgb(255, 255, 255)';
        return colour === 'transparent' || /, 0\\)$/.test(colour) ? ground(node.parentElement) : colour;
    };
    const walker = document.createTreeWalker(document.body, NodeFilter.SHOW_TEXT);
    let least = [99, ''];
    while (walker.nextNode()) {
        const [node, words] = [walker.currentNode.parentElement, walker.currentNode.data.trim()];
        if (words === '' || node.getClientRects().length === 0 || ['SCRIPT', 'OPTION'].includes(node.tagName)) {
            continue;
        }
        const style = getComputedStyle(node);
        const [one, other] = [node.ownerSVGElement ? style.fill : style.color, ground(node)].map(brightness);
        const contrast = (Math.max(one, other) + 0.05) / (Math.min(one, other) + 0.05);
        if (contrast < least[0]) {
            least = [contrast, words.slice(0, 60)];
        }
    }
    return least;
})()"""


def contrast(stage):
    """Each text differs enough from its ground, in light and dark, of an answer, a refusal and a choice."""
    shown = [expected("retransmission.txt"), expected("flipped_bit.txt")]
    scenes = [
        {"answer": expected("retransmission.check.txt"), "shown": shown[0],
         "window": with_keys("retransmission", last_record=9)},
        {"answer": expected("flipped_bit.audit.txt"), "shown": shown[1]},
        {"one": expected("retransmission.check.txt"), "other": expected("flipped_bit.audit.txt")},
    ]  # fmt: skip
    for texts in scenes:
        with stage.texts(**texts) as sight:
            if "shown" in texts:
                sight.act("goToPlace(3); byId('from').value = 'abc'; applyFilter()")
            for dark in (False, True):
                sight.page.is_dark(dark)
                sight.settle()
                least, words = sight.act(CONTRAST)
                expect(least >= 4.6, f"{'dark' if dark else 'light'}: a contrast of {least:.2f}: {words}")


def long_report(stage, pairs):
    """An answer and a listing of so many pairs of data and heartbeat, as seen between two ends."""
    answer = [f"explained {3 + 2 * pairs}", "0 client make 7 1000 open", "1 server take 7", "1 server make 40 9000 reply"]
    answer += ["2 client take 40", "2 client make 8 1010 reply"]
    opening = "open 0303 20 0000000000000000"
    shown = [f"0 1 1 client 7 0 6200 1 1 1 1 {opening} - -", f"1 2 1 server 40 0 6201 1 1 1 1 {opening} - -"]
    shown += ["2 3 1 client 8 0 6220 1 1 1 1 - - -"]
    for pair in range(pairs):
        place, clock = 3 + 2 * pair, 1020 + 10 * pair
        answer += [f"{place} client make {9 + pair} {clock} fresh", f"{place + 1} server take {9 + pair}"]
        answer += [f"{place + 1} server make {41 + pair} {clock + 8000} beat"]
        shown.append(f"{place} {place + 1} 1 client {9 + pair} 0 6240 1 1 1 1 data {pair:08x} - -")
        shown.append(f"{place + 1} {place + 2} 1 server {41 + pair} 0 6220 1 1 1 1 - - -")
    taken = [f"{pair} {3 + 2 * pair} {4 + 2 * pair} {pair:08x}" for pair in range(pairs)]
    answer += ["taken by client 0", f"taken by server {pairs}", *taken]
    return "\n".join(answer) + "\n", "\n".join([*shown, f"packets {3 + 2 * pairs}"]) + "\n"


def printing(stage):
    """On paper the verdict is on the first page, each page of the chart has its heads, and messages are those in view."""
    capture = EXAMPLES / "missing_packet.pcap"
    response = supposed(6213, "retransmission response", 7)
    messages = [{"from": one, "to": other, "surely_taken": 0, "sent": 0} for one, other in
                (("client", "server"), ("server", "client"))]  # fmt: skip
    premises = [f"A premise of many words that say what this rests on, told at length, number {one}." for one in range(12)]
    fillings = [[response], [supposed(6220, "heartbeat", 7)]]
    told_of = {"fillings": fillings, "gaps": [], "premises": premises, "messages": messages}
    options = ("--seatmelon", stand_in_with(stage, told_of), "--suppose", "1")
    with stage.report(capture, capture.with_suffix(".toml"), *options) as sight:
        pages = sight.printed("printed_suppose")
        expect("refused28NumberGap7client" in pages[0], f"the first page doesn't say the verdict: {pages[0][:200]}")
        expect(all(len(page) > 60 for page in pages), f"a page is empty: {[len(page) for page in pages]}")
    answer, shown = long_report(stage, 60)
    with stage.texts(answer=answer, shown=shown) as sight:
        pages = sight.printed("printed_chart")
        drawn = [page for page in pages if "no." in page and "SN1" in page]
        expect(len(drawn) > 3, f"{len(drawn)} pages of the chart")
        expect(all("Tapplace" in page for page in drawn), "a page of the chart has no heads")
        listed = [page for page in pages if page.count("client→server") > 4]
        expect(listed and all("Data(record)" in page for page in listed), "a page of messages has no heads")
    answer, shown = long_report(stage, 3000)
    with stage.texts(answer=answer, shown=shown) as sight:
        sight.act("goToPlace(4003)")
        pages = sight.printed("printed_long")
        text = "".join(pages)
        expect("place4003(4004)" in text, "the message in view isn't printed")
        expect("place3(4)" not in text, "the messages begin at the first one")
        expect("of3,000,aroundwhatisinview" in text, "it isn't said which messages are printed")
        expect(len(pages) < 20, f"{len(pages)} pages")
    with stage.texts(answer=expected("retransmission.check.txt")) as sight:
        sight.act("byId('theme').value = 'dark'; byId('theme').dispatchEvent(new Event('change'))")
        expect("explained12" in "".join(sight.printed("printed_dark")), "the print has no name of the answer's file")


# ---- stories: reports


def damaged_report(stage):
    """A report that was cut or changed says so, and draws nothing."""
    capture = EXAMPLES / "retransmission.pcap"
    with stage.report(capture, capture.with_suffix(".toml")) as sight:
        sight.page.wait_until(lambda: sight.counts().get("sums") == "agree", "the sums to be compared")
        told(sight, "The texts in this page have the sums that the report names.")
    whole = (stage.scratch / "retransmission.html").read_text(encoding="utf-8")
    data = whole.index('<div id="report-data"')
    for name, text in (
        ("cut", whole[: data + 2000]),
        ("changed", whole.replace('"files": [', '"files": {', 1)),
        ("emptied", whole[:data] + '<div id="report-data" hidden><!--{}--></div></body></html>'),
        ("gone", whole[:data]),
        ("no_answer", whole.replace('"kind": "verdict"', '"kind": "else"', 1)),
    ):
        with Sight(stage, stage.file(f"damaged_{name}.html", text)) as sight:
            told(sight, "The report in this page is damaged")
            sight.expect_counts(verdict="", packets=0)
    with Sight(stage, stage.file("damaged_script.html", whole[: whole.index("function readShow")])) as sight:
        told(sight, "This page’s script doesn’t run, so nothing is drawn")
    changed_text = whole.replace("0 3 9 ab01", "0 3 9 ab02", 1)
    expect(changed_text != whole, "nothing was changed")
    with Sight(stage, stage.file("damaged_text.html", changed_text)) as sight:
        sight.page.wait_until(lambda: sight.counts().get("sums") == "differ", "the sums to be compared")
        told(sight, "has another sum than the report names")
        sight.expect_counts(verdict="", packets=0)
        expect(sight.act("document.querySelectorAll('#verdict .explained').length") == 0 or sight.act("byId('verdict').hidden"), "a tick")
        sight.shot("damaged_text")


def explaining(stage, said, classic=None):
    """A program that explains any capture so, and converts it into this one."""
    convert = f"[ \"$1\" = convert ] && cat '{classic}'\n" if classic else ""
    program = stage.file("stand_in", f"#!/bin/sh\n[ \"$1\" = explain ] && echo '{json.dumps(said)}'\n{convert}exit 1\n")
    program.chmod(0o755)
    return program


def pcapng_report(stage):
    """A report of a pcapng file says that it isn't judged, or has the answer about the classic file made of it."""
    capture, parameters = EXAMPLES / "pcapng/excerpt.pcapng", EXAMPLES / "excerpt.toml"
    window = {"first_record": 4, "last_record": 22, "packets_before": 3, "packets_behind": 2}
    said = {"verdict": "explained", "packets_explained": 12, "window": window}
    with stage.report(capture, parameters, "--seatmelon", explaining(stage, said)) as sight:
        sight.expect_counts(verdict="refused", refused=10)
        text = sight.text("body")
        expect("Judged were only" not in text, "it is said what was judged of a file that wasn't")
        told(sight, "contradicts the answer of rasta_audit")
    classic = stage.file("excerpt.pcap", (EXAMPLES / "excerpt.pcap").read_bytes())
    with stage.report(capture, parameters, "--seatmelon", explaining(stage, said, classic)) as sight:
        sight.expect_counts(verdict="explained", packets=12, notices=0)
        told(sight, "rasta_audit read excerpt.pcap, which seatmelon convert made of excerpt.pcapng",
             "the packets in records 4 to 22,", "convert excerpt.pcapng > excerpt.pcap")  # fmt: skip
        for path in (capture, classic):
            expect(hashlib.sha256(path.read_bytes()).hexdigest() in sight.text("#report"), f"no sum of {path.name}")


def contradicted_report(stage):
    """What seatmelon says of other files, or other than the answer, isn't on the page, and that is said."""
    capture = EXAMPLES / "missing_packet.pcap"
    refused = {"verdict": "refused", "fault": {"number": 28, "name": "NumberGap"}, "record": {"record": 7, "time": "2026"}}
    right = {"sha256": hashlib.sha256(capture.read_bytes()).hexdigest()}
    for name, said in (
        ("nothing", {**refused, "capture": right}),
        ("sums", {**refused, "capture": {"sha256": "00" * 32}}),
        ("record", {**refused, "record": {"record": 8, "time": "2026"}}),
        ("number", {**refused, "fault": {"number": 25, "name": "Code"}}),
        ("verdict", {"verdict": "explained", "packets_explained": 11}),
        ("packets", {"verdict": "no_packets"}),
    ):
        with stage.report(capture, capture.with_suffix(".toml"), "--seatmelon", explaining(stage, said)) as sight:
            sight.expect_counts(verdict="refused", refused=28, notices=0 if name == "nothing" else 1)
            expect_equal("captured 2026" in sight.text("#verdict"), name == "nothing", f"{name}: what seatmelon says is there")
            expect_equal("contradicts the answer" in sight.text("#notices"), name != "nothing", f"{name}: it is said")


def refused_packet(stage):
    """A packet that is refused for its code (25) is drawn though show ends before it, a copy (27) with its own bytes."""
    with stage.texts(answer=expected("flipped_bit.audit.txt"), shown=expected("flipped_bit.txt")) as sight:
        sight.expect_counts(notices=0)
        drawn = sight.act("Array.from(document.querySelectorAll('#chart g[data-kind=\"6\"]'), (g) => g.textContent)")
        expect(len(drawn) == 1 and "Refused" in drawn[0] and "record 8" in drawn[0], f"the refused packet: {drawn}")
        expect_equal(sight.act("document.querySelectorAll('#chart line.refused.client').length"), 1, "its arrow")
        sight.act("pickRow(state.chart.story.rows - 1)")
        expect("The refused packet" in sight.text("#details"), "its details")
        sight.page.resize(1280, 1700)
        sight.settle()
        sight.shot("refused_code")
    fields = {"type": 6240, "type_name": "data", "redundancy_number": 9, "sn": 102, "cs": 500, "ts": 1020, "cts": 9000}
    said = {"verdict": "refused", "fault": {"number": 25, "name": "Code"}, "record": {"record": 8, "time": None}}
    said["packet"] = {"end": "client", "channel": 2, "bytes": 60, "fields": fields}
    said["trouble"] = {"code_found": "aa", "code_due": "bb"}
    capture = EXAMPLES / "flipped_bit.pcap"
    with stage.report(capture, capture.with_suffix(".toml"), "--seatmelon", explaining(stage, said)) as sight:
        drawn = sight.act("document.querySelector('#chart g[data-kind=\"6\"]').textContent")
        for words in ("Refused: data", "record 8 · no. 9 · SN 102 · CS 500"):
            expect(words in drawn, f"the refused packet: {drawn}")
        sight.act("pickRow(state.chart.story.rows - 1)")
        details = sight.text("#details")
        expect("Code due" in details and "bb" in details, f"its details: {details}")
    copy = expected("late_copies.txt").splitlines()
    packets = [line.split(" ") for line in copy[:-1]]
    copies = [place for place, one in enumerate(packets) if any(one[3:5] == other[3:5] for other in packets[:place])]
    at = next(place for place in copies if packets[place][6] == "6240")
    words = packets[at]
    first = next(one for one in packets if one[3:5] == words[3:5])
    words[12] = ("0" if words[12][0] != "0" else "1") + words[12][1:]
    shown = "\n".join([*copy[:at], " ".join(words), *copy[at + 1 :]]) + "\n"
    with stage.texts(answer=f"refused 27 CopyDiffers {words[1]} {words[3]}\n", shown=shown) as sight:
        sight.expect_counts(notices=0)
        drawn = sight.act(f"document.querySelector('#chart g[data-row=\"{at + 1}\"]').textContent")
        for own in (words[12][:8].split(",")[0], f"not as place {first[0]}"):
            expect(own in drawn, f"the copy's own bytes: {drawn}")
        sight.act(f"goToPlace({at})")
        details = sight.text("#details")
        expect(re.search(r"Differs in\s+body", details), f"what differs: {details[-300:]}")
        sight.page.resize(1280, 1700)
        sight.settle()
        sight.shot("refused_copy")


# ---- stories: small things


def long_clocks(stage):
    """Clocks of thirteen digits and of twenty are whole, at any width."""
    for clock in (1767225600123, 18446744073709551000):
        answer = (
            f"explained 3\n0 client make 7 {clock} open\n1 server take 7\n1 server make 40 {clock} reply\n2 client take 40\n"
            f"2 client make 8 {clock + 10} reply\ntaken by client 0\ntaken by server 0\n"
        )
        with stage.texts(answer=answer) as sight:
            for width in (390, 768, 1280):
                sight.page.resize(width, 900)
                sight.settle()
                found = sight.act(
                    "Array.from(document.querySelectorAll('#chart text'))"
                    f".filter((one) => one.textContent.startsWith('{str(clock)[:5]}'))"
                    ".map((one) => { const {x, width} = one.getBBox();"
                    "return [one.textContent, x >= 0 && x + width <= Number(one.ownerSVGElement.getAttribute('width'))]; })"
                )
                expect_equal([is_whole for _, is_whole in found], [True] * 3, f"clocks at {width}: {found}")
                expect({text for text, _ in found} == {str(clock), str(clock + 10)}, f"clocks: {found}")
            sight.shot(f"clocks_{len(str(clock))}")


def places_that_are_none(stage):
    """What is no place is told so."""
    with stage.texts(answer=expected("retransmission.check.txt"), shown=expected("retransmission.txt")) as sight:
        for field, value, words in (
            ("from", "abc", "“abc” is no place: places go from 0 to 11."),
            ("to", "-1", "“-1” is no place"),
            ("from", "12", "There is no place 12: places go from 0 to 11."),
        ):
            sight.fill(field, value)
            expect(words in sight.text("#problem"), f"{field} {value}: {sight.text('#problem')}")
            expect_equal(sight.act(f"byId('{field}').getAttribute('aria-invalid')"), "true", "the field is marked")
            sight.act("clearFilter()")
            expect_equal(sight.act("byId('problem').hidden"), True, "the word goes")
        sight.act("byId('from').value = '9'; byId('to').value = '3'; applyFilter()")
        expect("No place is from 9 on and not behind 3." in sight.text("#problem"), "places that fall")
        sight.act("clearFilter(); byId('goto').value = 'zwei'; byId('goto').dispatchEvent(new Event('change'))")
        expect("“zwei” is no place" in sight.text("#problem"), "going to no place")


def first_hit(stage):
    """A search goes to its first hit, and Enter to the next one."""
    answer, shown = long_report(stage, 400)
    with stage.texts(answer=answer, shown=shown) as sight:
        sight.act("goToPlace(5)")
        sight.fill("bytes", "00000141")
        expect_equal(sight.act("state.chart.messages.data.at(state.pickedMessage)"), 3 + 2 * 0x141, "the hit")
        seen = "document.querySelector('#chart .picked-row') !== null"
        expect(sight.act(seen), "the hit isn't in view")
        sight.fill("bytes", "0000")
        expect_equal(sight.act("state.chart.messages.data.at(state.pickedMessage)"), 3, "the first hit")
        sight.act("byId('bytes').dispatchEvent(new KeyboardEvent('keydown', {key: 'Enter'}))")
        expect_equal(sight.act("state.chart.messages.data.at(state.pickedMessage)"), 5, "the second hit")
        sight.fill("bytes", "ffff")
        expect("no message that passes has them" in sight.text("#found"), "nothing is found, and not told")


STORIES = [policy_is_closed, times_and_numbers, supposed_pdus, places_of_a_report, statuses, carriage_returns, ten_digits, ways_in, other_capture, unknown_texts, cut_texts, bent_texts, hostile, hostile_parameters,
           long_lines, keys, filters, colours, not_taken, no_packets, no_capture, window_is_told, random_runs_are_drawn,
           answer_beside_report, three_answers, foreign_parameters, foreign_listing, several_listings, foreign_certificate,
           refused_explanation,
           parameters_alone, line_ends, chosen_again, newlines, spelled_numbers, every_size, contrast, printing, damaged_report,
           pcapng_report, contradicted_report, refused_packet, long_clocks, places_that_are_none, first_hit]  # fmt: skip


def all_stories(stage):
    for story in STORIES:
        yield story.__name__, lambda story=story: story(stage)
    yield from samples(stage)
    yield from refusals(stage)
    yield "big", lambda: big(stage)


# ---- running


def run(stage, only):
    failed = count = 0
    for name, story in all_stories(stage):
        if only and not any(word in name for word in only):
            continue
        count += 1
        try:
            story()
            print(f"ok    {name}", flush=True)
        except (Wrong, Refused, TimeoutError, subprocess.CalledProcessError) as wrong:
            failed += 1
            print(f"WRONG {name}: {wrong}", flush=True)
    print(f"{count - failed} passed, {failed} failed; screenshots in {stage.folder}")
    return 1 if failed else 0


def main():
    asked = argparse.ArgumentParser(description="Tests the viewer in a browser.")
    asked.add_argument("--program", type=pathlib.Path, default=PROGRAM)
    asked.add_argument("--browser", help="the browser's program")
    asked.add_argument("--only", metavar="WORD", action="append", help="only stories whose name has one of these words")
    asked.add_argument("--renew", action="store_true", help="write the hashes of the page's policy anew")
    asked.add_argument("folder", type=pathlib.Path, nargs="?")
    words = asked.parse_args()
    if words.renew:
        PAGE.write_text(with_hashes(PAGE.read_text(encoding="utf-8")), encoding="utf-8")
        return 0
    if not words.folder or not words.program.is_file():
        asked.error("a folder is wanted, and the program: rt run in crates/rasta_audit leaves it")
    words.folder.mkdir(parents=True, exist_ok=True)
    scratch = pathlib.Path(tempfile.mkdtemp(prefix="viewer-"))
    try:
        with Browser(words.browser) as browser:
            return run(Stage(browser, words.program.resolve(), words.folder, scratch), words.only)
    finally:
        shutil.rmtree(scratch)


if __name__ == "__main__":
    sys.exit(main())

#!/usr/bin/env python3
"""Runs the programs on a capture, and writes one page with all that they said.

    report.py [--program PATH] [--seatmelon PATH] [--certificate FILE] [--suppose N] [--places A-B] [--without-show]
              CAPTURE PARAMS OUT.html

The page is viewer/index.html with the texts of `show`, of `build` (or the given certificate) and of `check`, or
where no certificate is found of `audit`, the parameter file, the SHA-256 of each file and of the program, the
kit's line (`rt version`), and the commands by which anyone checks it again. It needs no other file and no network.
The programs are those that `rt run` leaves in crates/rasta_audit and crates/seatmelon, or else those on the path.
Where there is a seatmelon, the page has the times of the records too, how many packets of the recorded channels lie
outside the window, if one is recorded, and of a gap (28) the numbers due and found; with --suppose also what explains
the packets if the tap missed at most N PDUs, which the page draws dashed. Where it contradicts the answer, the page says
so and has nothing of it. A pcapng file is converted by it first (`seatmelon convert`), and the page names both files.
With --places the page shows the packets at these places alone, until its filter is changed.

The exit status is that of the answer: 0 where the packets are explained, 1 where something is refused or no packet is
of the connection, 2 where the parameters are refused, 3 where memory, reading or writing failed. It is 2 too, with no
page, where the words or a file are wrong. Plain Python 3, no other packages.
"""

import argparse
import hashlib
import json
import pathlib
import re
import shlex
import shutil
import subprocess
import sys
import tempfile

try:
    import tomllib
except ImportError:  # before Python 3.11
    tomllib = None

HERE = pathlib.Path(__file__).resolve().parent
TOP = HERE.parent
NOTHING = '<div id="report-data" hidden><!--null--></div>'

CONTRADICTED = (
    "What seatmelon explain says of these files contradicts the answer of rasta_audit, so nothing of it is on this page."
)

# A line of `seatmelon show`: the number of the record and its time.
LISTED = re.compile(rb" *([0-9]+)  ([0-9-]{10} [0-9:]{8}[.][0-9]+) ")


def page_file():
    """The page: in a checkout, or beside this script where both are installed."""
    page = TOP / "viewer/index.html"
    return page if page.is_file() else HERE / "index.html"


def program_file(name):
    """A program as `rt run` leaves it in a checkout, or else the one on the path."""
    built = TOP / f"crates/{name}/out/{name}"
    found = None if built.is_file() else shutil.which(name)
    return pathlib.Path(found) if found else built


def places_in(text):
    found = re.fullmatch("([0-9]{1,10})-([0-9]{1,10})", text)
    if not found or int(found[1]) > int(found[2]):
        raise argparse.ArgumentTypeError("two places that don't fall are wanted, as in 40-60")
    return [int(found[1]), int(found[2])]


def count_in(text):
    if not re.fullmatch("[0-9]{1,2}", text) or not 1 <= int(text) <= 16:
        raise argparse.ArgumentTypeError("a number from 1 to 16 is wanted")
    return int(text)


def words_of_command_line():
    asked = argparse.ArgumentParser(description="Writes a page with the answer about a capture.")
    asked.add_argument("--program", type=pathlib.Path, default=program_file("rasta_audit"), help="rasta_audit")
    asked.add_argument("--seatmelon", type=pathlib.Path, default=program_file("seatmelon"), help="seatmelon, if there is one")
    asked.add_argument("--certificate", type=pathlib.Path, help="a certificate to check by, in place of one that is built")
    asked.add_argument("--suppose", type=count_in, metavar="N", help="look for up to N PDUs that the tap missed")
    asked.add_argument("--places", type=places_in, metavar="A-B", help="show the packets at these places alone")
    asked.add_argument("--without-show", action="store_true", help="leave out the text of show, which is long")
    asked.add_argument("capture", type=pathlib.Path)
    asked.add_argument("parameters", type=pathlib.Path)
    asked.add_argument("out", type=pathlib.Path)
    words = asked.parse_args()
    if words.suppose and words.certificate:
        asked.error("--suppose goes with no certificate")
    if words.suppose and not words.seatmelon.is_file():
        asked.error(f"--suppose wants seatmelon, and {words.seatmelon} is no file")
    return words


def is_pcapng(capture):
    with open(capture, "rb") as file:
        return file.read(4) == b"\x0a\x0d\x0d\x0a"


def classic_capture(asked, folder):
    """The capture as rasta_audit reads it: of a pcapng file what `seatmelon convert` makes of it, where that is there."""
    if not is_pcapng(asked.capture) or not asked.seatmelon.is_file():
        return asked.capture
    path = folder / f"{asked.capture.stem}.pcap"
    with open(path, "wb") as file:
        subprocess.run([asked.seatmelon.resolve(), "convert", "--", asked.capture], stdout=file, stderr=subprocess.DEVNULL)
    return path if path.stat().st_size > 0 else asked.capture


def sum_of(path):
    digest = hashlib.sha256()
    with open(path, "rb") as file:
        while piece := file.read(1 << 20):
            digest.update(piece)
    return digest.hexdigest()


def described(role, path):
    return {"role": role, "name": path.name, "bytes": path.stat().st_size, "sha256": sum_of(path)}


def decoded(data):
    """The text of some bytes; what is no UTF-8 in them is marked, and can't come from the program."""
    return data.decode("utf-8", "replace")


def answer_of(program, *words):
    """The status and the text of a call. Where the parameters, memory or a device stop it, its line of refusal
    is on standard error."""
    command, *files = words
    call = subprocess.run([program.resolve(), command, "--", *files], capture_output=True)
    if call.returncode not in (0, 1, 2, 3):
        sys.exit(f"{program} ended with status {call.returncode}")
    return call.returncode, call.stdout if call.returncode in (0, 1) else call.stderr


def built_certificate(program, capture, parameters, folder):
    """The file of a certificate that the program finds, or none."""
    status, text = answer_of(program, "build", capture, parameters)
    if status != 0:
        return None
    path = folder / f"{capture.stem}.cert"
    path.write_bytes(text)
    return path


def kit_line():
    rt = shutil.which("rt")
    if not rt:
        return "unknown (no rt on the path)"
    call = subprocess.run([rt, "version"], capture_output=True, text=True)
    return call.stdout.strip() if call.returncode == 0 and call.stdout.strip() else "unknown"


def connection_in(text):
    """Words on both ends for the heads of the chart, where the parameter file can be read."""
    try:
        keys = tomllib.loads(text) if tomllib else {}
        ends = {}
        for side in ("client", "server"):
            addresses = ", ".join(str(channel[side]) for channel in keys["channel"])
            ends[side] = f"id {keys[side + '_id']} · {addresses}"
        return ends
    except (ValueError, KeyError, TypeError):
        return None


def explanation_of(seatmelon, capture, parameters, certificate, suppose):
    """What `seatmelon explain` says as JSON; nothing where there is no such program or answer."""
    if not seatmelon.is_file():
        return {}
    files = [path for path in (capture, parameters, certificate) if path]
    options = ["--json", *(["--suppose", str(suppose)] if suppose else [])]
    call = subprocess.run([seatmelon.resolve(), "explain", *options, "--", *files], capture_output=True)
    try:
        return json.loads(call.stdout)
    except ValueError:
        return {}


REFUSED = ("refused", "explained_with_supposed_pdus")


def verdict_in(explanation):
    """What an explanation says, as the first words of the text of `audit` would say it."""
    if explanation.get("verdict") in REFUSED:
        fault = explanation.get("fault") or {}
        return f"refused {fault.get('number')} {fault.get('name')} "
    packets = explanation.get("packets_explained") if explanation.get("verdict") == "explained" else 0
    return f"explained {packets}\n"


def contradicts(explanation, verdict):
    """Whether an explanation tells another verdict than the answer: another kind, number, record, or other packets."""
    said = decoded(verdict)
    if not said.startswith(verdict_in(explanation)):
        return True
    record = (explanation.get("record") or {}).get("record")
    words = said.split()
    is_of_record = words[0] == "refused" and (14 <= int(words[1]) <= 28)
    return is_of_record and record is not None and int(words[3]) != record


def is_of_other_files(explanation, capture, parameters):
    """Whether an explanation names other sums than those of the files as they are now, as where one changed meanwhile."""
    told = [(explanation.get(key) or {}).get("sha256") for key in ("capture", "parameters")]
    return any(one and one != sum_of(path) for one, path in zip(told, (capture, parameters)))


def refusal_in(explanation):
    """The refused record, what it holds and what is wrong with it, where a capture is refused."""
    if explanation.get("verdict") not in REFUSED:
        return None
    return {key: explanation.get(key) for key in ("record", "packet", "trouble")}


def supposition_in(explanation):
    """What is supposed of a gap, without the messages, of which only the counts stay; nothing where nobody asked."""
    supposed = explanation.get("supposed")
    if not supposed:
        return None
    counts = ("from", "to", "surely_taken", "sent")
    taken = [{key: way[key] for key in counts} for way in supposed.get("messages", [])]
    kept = {key: supposed[key] for key in ("fillings", "gaps", "premises") if key in supposed}
    return {**kept, "taken": taken}


def times_of(seatmelon, capture, parameters):
    """The number and the time of each record that `seatmelon show` lists; nothing where there is no such program."""
    if not seatmelon.is_file():
        return []
    call = subprocess.run([seatmelon.resolve(), "show", "--", capture, parameters], capture_output=True)
    found = (LISTED.match(line) for line in call.stdout.splitlines())
    return [[int(one[1]), one[2].decode()] for one in found if one]


def commands_for(asked, capture, certificate):
    """What anyone runs to come to the same answer; a capture that was converted is converted first."""
    program, seatmelon = asked.program, asked.seatmelon
    is_converted = capture != asked.capture
    files = [path.name for path in (capture, asked.parameters, certificate) if path]
    programs = [program.name, *([seatmelon.name] if asked.suppose or is_converted else [])]
    command = "check" if certificate else "audit"
    sums = ["sha256sum", *programs, *([asked.capture.name] if is_converted else []), *files]
    commands = [shlex.join(sums), shlex.join([f"./{program.name}", command, *files])]
    if is_converted:
        convert = shlex.join([f"./{seatmelon.name}", "convert", asked.capture.name])
        commands.insert(0, f"{convert} > {shlex.quote(capture.name)}")
    if asked.suppose:
        commands.append(shlex.join([f"./{seatmelon.name}", "explain", "--suppose", str(asked.suppose), *files[:2]]))
    return commands


def files_of(asked, capture, certificate):
    """The files that the page names with their sums."""
    is_converted = capture != asked.capture
    programs = [asked.program, *([asked.seatmelon] if asked.suppose or is_converted else [])]
    roles = [*(("program", path) for path in programs), ("capture", asked.capture)]
    roles += [("converted", capture)] if is_converted else []
    roles += [("parameters", asked.parameters), *([("certificate", certificate)] if certificate else [])]
    return [described(role, path) for role, path in roles]


def report_of(asked, folder):
    program, parameters = asked.program, asked.parameters
    capture = classic_capture(asked, folder)
    certificate = asked.certificate or built_certificate(program, capture, parameters, folder)
    by_certificate = ("check", capture, parameters, certificate)
    status, verdict = answer_of(program, *(by_certificate if certificate else ("audit", capture, parameters)))
    explanation = explanation_of(asked.seatmelon, capture, parameters, asked.certificate, asked.suppose)
    is_contradicted = bool(explanation) and (
        contradicts(explanation, verdict) or is_of_other_files(explanation, capture, parameters)
    )
    if is_contradicted:
        explanation = {}
    texts = [
        ("verdict", f"{capture.stem}.answer.txt", verdict),
        ("parameters", parameters.name, parameters.read_bytes()),
    ]
    if certificate:
        texts.append(("certificate", certificate.name, certificate.read_bytes()))
    if not asked.without_show:
        texts.append(("show", f"{capture.stem}.show.txt", answer_of(program, "show", capture, parameters)[1]))
    report = {
        "title": asked.capture.name,
        "files": files_of(asked, capture, certificate),
        "converted": {"from": asked.capture.name, "to": capture.name} if capture != asked.capture else None,
        "notices": [CONTRADICTED] if is_contradicted else [],
        "kit": kit_line(),
        "commands": commands_for(asked, capture, certificate),
        "connection": connection_in(decoded(parameters.read_bytes())),
        "window": explanation.get("window"),
        "refusal": refusal_in(explanation),
        "supposed": supposition_in(explanation),
        "times": [] if is_contradicted else times_of(asked.seatmelon, capture, parameters),
        "places": asked.places,
        "texts": [text_of(kind, name, decoded(data)) for kind, name, data in texts],
    }
    return status_of(status, verdict), report


def text_of(kind, name, text):
    """A text with its sum, by which the page finds that it was changed."""
    return {"kind": kind, "name": name, "text": text, "sha256": hashlib.sha256(text.encode()).hexdigest()}


def status_of(status, verdict):
    """No packet of the connection is no answer, as for `seatmelon explain`."""
    return 1 if verdict.startswith(b"explained 0\n") else status


def embedded(report):
    """JSON without `<` and `>`, so that nothing in it can end the comment that holds it. A comment is what browsers
    read fastest, and they run nothing in it."""
    return json.dumps(report).replace("<", "\\u003c").replace(">", "\\u003e")


def main():
    asked = words_of_command_line()
    for path in (asked.program, asked.capture, asked.parameters, *filter(None, [asked.certificate])):
        if not path.is_file():
            print(f"no such file: {path}", file=sys.stderr)
            return 2
    if not asked.out.resolve().parent.is_dir():
        print(f"no such folder: {asked.out.parent}", file=sys.stderr)
        return 2
    page = page_file().read_text(encoding="utf-8")
    if page.count(NOTHING) != 1:
        print(f"{page_file()} has no place for a report", file=sys.stderr)
        return 2
    with tempfile.TemporaryDirectory() as folder:
        status, report = report_of(asked, pathlib.Path(folder))
    filled = NOTHING.replace("null", embedded(report))
    try:
        asked.out.write_text(page.replace(NOTHING, filled), encoding="utf-8")
    except OSError as error:
        print(f"{asked.out}: {error.strerror}", file=sys.stderr)
        return 2
    return status


if __name__ == "__main__":
    sys.exit(main())

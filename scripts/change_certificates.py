#!/usr/bin/env python3
"""Changes the certificates of seven rows in every small way, and runs `check` on them.

    change_certificates.py [--program PATH]

Each entry is dropped, doubled, and exchanged with the next one, and each of its numbers is raised and lowered by
one if its range allows that. A changed certificate must be refused, with a known number and name of a script's faults,
or explain the capture with the same lists of messages taken, since these don't depend on the certificate. Prints
counts by row and by refusal. `rt run` in crates/rasta_audit leaves the program at its default path.
Plain Python 3, no other packages.
"""

import argparse
import collections
import pathlib
import sys
import tempfile

import answers
import rows

NAMES = [
    "handed up once",
    "numbers wrap",
    "lost unit is resent",
    "both ask",
    "copies on two channels",
    "capture ends in a burst",
    "lost resend and second request",
]
# The greatest number of each word of an entry: a clock has 64 bits.
GREATEST = {"take": [2**32 - 1, 2**32 - 1], "make": [2**32 - 1, 2**64 - 1, None, 2**32 - 1]}


def with_numbers_changed(entry):
    """An entry with one of its numbers one higher or lower."""
    first, *words = entry.split(" ")
    for i, (word, greatest) in enumerate(zip(words, GREATEST[first])):
        if greatest is None:
            continue
        for number in (int(word) - 1, int(word) + 1):
            if 0 <= number <= greatest:
                yield " ".join([first, *words[:i], str(number), *words[i + 1 :]])


def changes(script):
    """A script with an entry changed: what was changed, and the entries."""
    for i, entry in enumerate(script):
        front, rest = script[:i], script[i + 1 :]
        yield "dropped", front + rest
        yield "doubled", front + [entry, entry] + rest
        if rest:
            yield "exchanged", front + [rest[0], entry] + rest[1:]
        for other in with_numbers_changed(entry):
            yield "number", front + [other] + rest


def scripts_of(certificate):
    lines = certificate.decode().splitlines()
    server = lines.index("server")
    return lines[2:server], lines[server + 1 : -1]


def certificate_of(client, server):
    lines = ["rasta-certificate 1", "client", *client, "server", *server, "end"]
    return "".join(line + "\n" for line in lines).encode()


def changed_certificates(certificate):
    client, server = scripts_of(certificate)
    assert certificate_of(client, server) == certificate
    for kind, script in changes(client):
        yield kind, certificate_of(script, server)
    for kind, script in changes(server):
        yield kind, certificate_of(client, script)


def verdict(answer, row):
    """The number of a refusal of a script, or `explained`; nothing for a wrong answer."""
    if answers.wrong("check", answer, (0, 1)):
        return None
    if answer.status == 1:
        number = answers.refusal_in(answer.out.decode().strip())[0]
        return number if number in answers.SCRIPTS else None
    is_same = answers.taken_lists(answer.out) == answers.taken_lists(row.text)
    return "explained" if is_same and answer.out.splitlines()[0] == row.text.splitlines()[0] else None


def try_row(program, row, folder, kinds, verdicts):
    """Judges the changed certificates of a row; answers how many are judged wrongly."""
    capture, parameters, path = row.write(folder)
    honest = answers.call([program, "check", capture, parameters, path])
    assert honest.told() == (0, row.text, b""), honest
    told, wrong = collections.Counter(), 0
    for kind, certificate in changed_certificates(row.certificate):
        path.write_bytes(certificate)
        answer = answers.call([program, "check", capture, parameters, path])
        found = verdict(answer, row)
        kinds[kind] += 1
        if found is None:
            wrong += 1
            print(f"wrong: {answer}\n{certificate.decode()}")
        told[found] += 1
    explained = told["explained"]
    refused = told.total() - explained - wrong
    print(f"{row.name}: {told.total()} changed, {explained} explained, {refused} refused, {wrong} wrong")
    verdicts.update(told)
    return wrong


def main():
    asked = argparse.ArgumentParser(description="Changes certificates in every small way.")
    asked.add_argument("--program", type=pathlib.Path, default=rows.PROGRAM, help="rasta_audit")
    program = asked.parse_args().program.resolve()
    kinds, verdicts, all_rows = collections.Counter(), collections.Counter(), rows.rows()
    with tempfile.TemporaryDirectory() as folder:
        wrong = sum(try_row(program, all_rows[name], folder, kinds, verdicts) for name in NAMES)
    print(", ".join(f"{count} {kind}" for kind, count in kinds.items()))
    told = [f"{verdicts[number]} by {number} {name}" for number, name in answers.FAULTS.items() if verdicts[number]]
    print(", ".join(told))
    print(f"{kinds.total()} certificates, {verdicts['explained']} explained, {wrong} wrong")
    return wrong != 0


if __name__ == "__main__":
    sys.exit(main())

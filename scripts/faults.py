#!/usr/bin/env python3
"""Compares the tables of faults: those of the code and of its definitions, the words of explanations, the page, its
tests, and what INVESTIGATORS.md says of each.

    faults.py

Each of them has to name the same faults, by the same names; the words have one row for each fault that refuses a
capture or a certificate. Prints what differs, and the status is 1 then. Plain Python 3, no other packages.
"""

import pathlib
import re
import sys

TOP = pathlib.Path(__file__).resolve().parent.parent
# Faults that no explanation tells: of devices, of a PDU that is written, and of parameter files.
NOT_TOLD = {1, 2, 3, 29, 50, 51, 52}


def text_of(path):
    return (TOP / path).read_text(encoding="utf-8")


def constants():
    """The numbers of the code's constants, by their names there."""
    found = re.findall(r"pub const ([A-Z_]+): u8 = ([0-9]+);", text_of("crates/rasta_pcap/src/fault.rt"))
    return {name: int(number) for name, number in found}


def names_in_code():
    found = re.findall(r'^ +([0-9]+) => "([A-Za-z]+)",$', text_of("crates/rasta_pcap/src/fault.rt"), re.MULTILINE)
    return {int(number): name for number, name in found}


def names_in_definitions():
    found = re.findall(r'\(([0-9]+), codes "([A-Za-z]+)"\)', text_of("crates/rasta_pcap/specs/Fault.antt"))
    return {int(number): name for number, name in found}


def numbers_in_definitions():
    return {int(number) for number in re.findall(r"^[a-z_]+ = (?:fault_at )?([0-9]+)(?: 0)?$", text_of("crates/rasta_pcap/specs/Fault.antt"), re.MULTILINE)}


def names_on_the_page():
    found = re.findall(r'^  \[([0-9]+), \["([A-Za-z]+)", "', text_of("viewer/index.html"), re.MULTILINE)
    return {int(number): name for number, name in found}


def names_in_tests_of_the_page():
    table = re.search(r"^FAULTS = \{(.*?)^\}", text_of("scripts/test_viewer.py"), re.MULTILINE | re.DOTALL)[1]
    return {int(number): name for number, name in re.findall(r'([0-9]+): "([A-Za-z]+)"', table)}


def names_for_investigators():
    found = re.findall(r"^\| ([0-9]+) `([A-Za-z]+)` \|", text_of("docs/INVESTIGATORS.md"), re.MULTILINE)
    return {int(number): name for number, name in found}


def words():
    """The numbers of the faults that have a row of words; what that of the link type says depends on the header."""
    text, numbers = text_of("crates/seatmelon_telling/src/fault_words.rt"), constants()
    return {numbers[name] for name in ["LINK_TYPE", *re.findall(r"Fault::([A-Z_]+) => (?:row|entry)\(", text)]}


def differences(names):
    """What each table has beside these names, or lacks of them."""
    tables = {
        "definitions": names_in_definitions(),
        "the page": names_on_the_page(),
        "tests of the page": names_in_tests_of_the_page(),
        "INVESTIGATORS.md": {**names_for_investigators(), 29: names.get(29)},
    }
    for table, found in tables.items():
        for number in sorted(names.keys() | found.keys()):
            if names.get(number) != found.get(number):
                yield f"{table}: {number} is {found.get(number)}, and in the code {names.get(number)}"
    sets = {"constants": set(constants().values()), "numbers of definitions": numbers_in_definitions()}
    sets["meanings"] = words() | NOT_TOLD
    for table, found in sets.items():
        if found != names.keys():
            yield f"{table}: {sorted(found ^ names.keys())} differ"


def main():
    told = list(differences(names_in_code()))
    print("\n".join(told) or f"{len(names_in_code())} faults, alike in all tables")
    return 1 if told else 0


if __name__ == "__main__":
    sys.exit(main())

#!/usr/bin/env python3
"""Prints what a program that checks AEDR files has to print: aedr.py aedr_cases, aedr_check or aedr_empty."""
import re
import sys

import science_packet
from rows import CRATES

# Section Packet layout of document 01: an AEDR record has 1,230 bytes, 150 of them before the packet.
RECORD_SIZE = 1_230
PACKET_AT = 150


def check(data):
    """Section Numbers to check by of document 01, the program: each piece's number and answer, then a total."""
    pieces = [data[at : at + RECORD_SIZE] for at in range(0, len(data), RECORD_SIZE)]
    answers = [science_packet.refusal(piece[PACKET_AT:], science_packet.PUBLISHED_SUM_WORD) for piece in pieces]
    return [f"{number} {answer}" for number, answer in enumerate(answers, start=1)] + [f"records {len(pieces)}"], len(pieces)


def case_lines():
    """The files that aedr_cases names, and last an input of which nothing can be read."""
    table = re.search(r"\bconst FILES: \[&str; \d+\] = \[(.*?)\];", (CRATES / "aedr_cases/src/main.rt").read_text(), re.S)[1]
    names = re.findall(r'"(\w+)"', table)
    for name in names:
        checked, records = check((CRATES / "aedr_cases/data" / name).read_bytes())
        yield from [name, *checked, f"complete {records}"]
    yield from ["no file", "incomplete 0"]


def lines(crate):
    if crate == "aedr_cases":
        return list(case_lines())
    if crate == "aedr_check":
        return check((CRATES / "aedr_check/stdin").read_bytes())[0]
    if crate == "aedr_empty":
        return check(b"")[0]
    raise ValueError(f"no program {crate}")


if __name__ == "__main__":
    print("\n".join(lines(sys.argv[1])))

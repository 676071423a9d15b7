#!/usr/bin/env python3
"""Prints what packet_vectors has to print, by science_packet.py."""
from typing import NamedTuple

import rows
import science_packet
from science_packet import PACKET_SIZE, PUBLISHED_SUM_WORD
from show import SHORT, but_due, digest, spaced

PARTS, TABLES = rows.read("packet_vectors/src/tables.rt")
ROOM = 2 * PACKET_SIZE

# A fill's rule for byte b, and whether the fixed fields are set.
FILLS = rows.meanings(PARTS, "FILL", {
    "BASE": (lambda b: 37 * b + 11, True),
    "ZEROS": (lambda b: 0, True),
    "ONES": (lambda b: 255, True),
    "COUNTING": (lambda b: b, True),
    "RAW_ZEROS": (lambda b: 0, False),
    "RAW_ONES": (lambda b: 255, False),
})
STALE = PARTS["STALE"] // PARTS["SUM"]
# The sum that is stored after the changes, by the total of the other words.
STORED_SUMS = {0: lambda total: total} | rows.meanings(PARTS, "SUM", {
    "UP": lambda total: total + 1,
    "DOWN": lambda total: total - 1,
    "FOLDED": lambda total: total % 65_536 + total // 65_536,
})
# The header's fields that a row changes, by their names here, and what else a row gives, by the names of its parts.
FIELDS = rows.meanings(PARTS, "FIELD", {
    "VERSION": "version",
    "SPARE": "spare",
    "FLAG": "flag",
    "INSTRUMENT": "instrument",
    "SEGMENTATION": "segmentation",
    "LENGTH": "length",
    "TYPE": "type",
    "STATUS": "error_status",
    "COUNT": "count",
} | {name: name for name in ("BIT", "AT", "WORD", "SIZE", "CARRIED", "OUTPUT", "IN_FULL")})
SHOWN = (
    "error_status", "count", "coarse_time", "fine_time", "status_register", "software_version", "ram_flag_word", "status_word_1", "status_word_2",
    "software_checksum", "commands_received", "command_errors", "transmitter_threshold", "tracking_status", "hstart",
)


class Row(NamedTuple):
    due: int
    fill: int
    stored_sum: int
    changes: list


def row_of(number):
    due, number = divmod(number, PARTS["DUE"])
    fill, number = divmod(number, PARTS["FILL"])
    stored_sum, number = divmod(number, PARTS["SUM"])
    second, first = divmod(number, PARTS["AND"])
    changes = [divmod(change, PARTS["FIELD"]) for change in (first, second) if change]
    return Row(due, fill, stored_sum, [(FIELDS[field], value) for field, value in changes])


def given(row, name, other):
    """The number that a row gives to a field, or another where the row does not name it."""
    return next((value for field, value in row.changes if field == name), other)


def change(packet, changes):
    for field, value in changes:
        if field == "BIT":
            packet[value] ^= 1 << value % 8
        elif field in science_packet.HEADER:
            science_packet.set_header(packet, {field: value})


def filled(row):
    """The bytes of a row's fill, with the fixed fields set."""
    rule, fixed = FILLS[row.fill]
    packet = bytearray(rule(b) % 256 for b in range(ROOM))
    if fixed:
        science_packet.set_header(packet, science_packet.FIXED)
    return packet


def packet_of(row, sum_word):
    """A row's packet with its sum at sum_word; past the packet the fill goes on."""
    packet = filled(row)
    if row.stored_sum == STALE:
        science_packet.set_word(packet, sum_word, science_packet.packet_sum(packet, sum_word))
        change(packet, row.changes)
    else:
        change(packet, row.changes)
        stored = STORED_SUMS[row.stored_sum](science_packet.total(packet, sum_word))
        science_packet.set_word(packet, sum_word, stored % 65_536)
    return packet


def shown_arrays(fields, row):
    arrays = fields["temperatures"] + fields["readings"] + fields["bins"]
    if not any(arrays):
        return ", arrays zero"
    in_full = spaced(arrays) if given(row, "IN_FULL", 0) else ""
    return f", arrays {digest(arrays, SHORT)}{in_full}"


def accepted(packet, sum_word, row):
    fields = science_packet.read(packet)
    carried = packet[science_packet.CARRIED_AT :]
    same = science_packet.written(fields, carried, sum_word) == packet
    return (
        f": accepted, sum {science_packet.word(packet, sum_word)}, fields{spaced(fields[name] for name in SHOWN)}"
        f", carried {digest(carried, SHORT)}{', rewritten the same' if same else ''}{shown_arrays(fields, row)}"
    )


def judged(packet, sum_word, row):
    """What the reader says of bytes; the arrays of a refused packet are zeros."""
    number = science_packet.refusal(packet, sum_word)
    said = f": refused {number}, arrays zero" if number else accepted(packet, sum_word, row)
    return said + but_due(number, row.due)


def bytes_of(i, row, sum_word):
    """As many bytes of a row's packet, and of the fill past it, as the row asks for."""
    size = given(row, "SIZE", PACKET_SIZE)
    if size > ROOM:
        raise ValueError(f"row {i} asks for {size} bytes")
    return packet_of(row, sum_word)[:size]


def read_line(i, row, stored, told):
    """A row with its sum stored at one word, where the reader is told that word or another."""
    packet = bytes_of(i, row, stored)
    return f"read {i} word {told} len {len(packet)}" + judged(packet, told, row)


def write_line(i, row, sum_word):
    """A row's fields and carried bytes, written into an output whose bytes are all 165."""
    source = filled(row)
    fields = science_packet.read(source)
    fields["count"] = given(row, "count", fields["count"])
    fields["error_status"] = given(row, "error_status", fields["error_status"])
    carried_size = given(row, "CARRIED", science_packet.CARRIED_SIZE)
    carried = source[science_packet.CARRIED_AT :][:carried_size]
    number = science_packet.write_refusal(fields, carried, sum_word, given(row, "OUTPUT", PACKET_SIZE))
    if number:
        return f"write {i} word {sum_word}: refused {number}{but_due(number, row.due)}, output the same"
    output = science_packet.written(fields, carried, sum_word)
    return f"write {i} word {sum_word}: written, digest {digest(output, SHORT)}, read back" + judged(output, sum_word, row)


def read_lines():
    yield "reads"
    for i, row in enumerate(map(row_of, TABLES["READS"])):
        stored = given(row, "AT", PUBLISHED_SUM_WORD)
        yield read_line(i, row, stored, given(row, "WORD", stored))
    yield "reads at words 53, 70 and 539"
    for i, row in enumerate(map(row_of, TABLES["CHECKS"])):
        for sum_word in (53, 70, 539):
            yield read_line(i, row, sum_word, sum_word)


def word_lines():
    yield "words outside 53 to 539"
    base = row_of(2 * PARTS["DUE"])
    for i, sum_word in enumerate(TABLES["WORDS"]):
        yield read_line(i, base, PUBLISHED_SUM_WORD, sum_word)
        yield write_line(i, base, sum_word)


def sum_lines():
    yield "sums of words: the whole, and its parts before and from a word on"
    for i, row in enumerate(map(row_of, TABLES["SUMS"])):
        word = given(row, "WORD", 0)
        summed = bytes_of(i, row, PUBLISHED_SUM_WORD)
        whole, before, after = map(science_packet.word_sum, (summed, summed[: 2 * word], summed[2 * word :]))
        yield f"sum {i} word {word} len {len(summed)}: sum {whole}, parts {before} {after}"


def lines():
    yield "fields: " + " ".join(SHOWN)
    yield from read_lines()
    yield from word_lines()
    yield "writes"
    for i, row in enumerate(map(row_of, TABLES["WRITES"])):
        yield write_line(i, row, given(row, "WORD", PUBLISHED_SUM_WORD))
    yield "HSTART, first bin, starts of bins 0, 1, 47"
    for hstart in TABLES["HSTARTS"]:
        yield f"hstart {hstart} {science_packet.first_bin(hstart)}" + spaced(science_packet.bin_start(hstart, j) for j in (0, 1, 47))
    yield from sum_lines()


if __name__ == "__main__":
    print("\n".join(lines()))

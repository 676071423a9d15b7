#!/usr/bin/env python3
"""Prints what pedr_writer_vectors has to print, by pedr_record.py."""
import pedr_record
import rows
from pedr_record import RECORD_SIZE
from show import LONG, but_due, digest, spaced

PARTS, TABLES = rows.read("pedr_writer_vectors/src/cases.rt")
ROOM = 800
LINE = 20

# Whether a record is written, and its bytes are shown too.
SHOWS = {0: (False, False)} | rows.meanings(PARTS, "SHOW", {"WRITE": (True, False), "FULL": (True, True)})
# A fill's rule for record byte b, and the bytes that make every fill accepted, but for byte 32, and for byte 492 where a row gives the frame.
FILLS = rows.meanings(PARTS, "FILL", {
    "ZEROS": lambda b: 0,
    "ONES": lambda b: 255,
    "SPREAD": lambda b: 37 * b + b // 4,
})
SET_BYTES = {5: 0, 6: 0, 13: 0, 491: 0, 492: 1}
FRAME = PARTS["FRAME"] // PARTS["FIELD"]
# What a row changes: a class, by the row's number; another field, by its name; or a size.
CLASSES = rows.meanings(PARTS, "FIELD", {"NO_TRIGGER": lambda n: (0, 0), "PROBABLE_GROUND": lambda n: (1, 1), "UNASSIGNED": lambda n: (2, n)})
NAMES = [name for name in pedr_record.to_write(bytes(RECORD_SIZE)) if name not in ("class", "block")]
FIELDS = rows.meanings(PARTS, "FIELD", {name.upper(): name for name in NAMES})
LENT = ("block_carried", "uninterpreted")
SIZES = rows.meanings(PARTS, "FIELD", {f"{name.upper()}_SIZE": name for name in (*LENT, "output")})
SIGNED_BITS = {name: 8 * width for _, name, sign, width, _ in pedr_record.COLUMNS if sign == "i"}
LEGEND = (
    "write: the answer; of a record that is written the counter as it is read, digests of the block's runs and carried bytes, "
    "and what was read is written again; digests of both outputs, each with the bytes after it"
)


def filled(rule, frame):
    """A record that is accepted."""
    record = bytearray(rule(b) % 256 for b in range(1, RECORD_SIZE + 1))
    for b, number in (SET_BYTES | {492: frame}).items():
        record[b - 1] = number
    record[32 - 1] = pedr_record.good_shots(pedr_record.columns(record)["quality"])
    if pedr_record.refusal(record):
        raise ValueError("a fill is refused")
    return record


def number_of(name, bits):
    """The number whose bits a row gives to a field."""
    width = SIGNED_BITS.get(name)
    return bits - (1 << width) if width and bits >> width - 1 else bits


def change(given, field, item, bits):
    """Puts a number into a field, or into an item of it, from 1."""
    if field in CLASSES:
        given["class"][item - 1] = CLASSES[field](bits)
    elif field not in FIELDS:
        raise ValueError(f"no field {field}")
    elif item:
        given[FIELDS[field]][item - 1] = number_of(FIELDS[field], bits)
    else:
        given[FIELDS[field]] = number_of(FIELDS[field], bits)


def room_with(record):
    """An output of the record's size at the start of a room whose bytes are all 165."""
    return record + bytes([165] * (ROOM - len(record)))


def own_carried(given):
    """As many carried bytes as the layout of the block leaves."""
    frame, _ = given["block"]
    return given["block_carried"][: len(pedr_record.spare_bytes(pedr_record.BLOCKS[frame]))]


def written_text(record, given):
    """What is said of a record that was written, and of what it reads as."""
    read = pedr_record.to_write(record)
    if pedr_record.refusal(record) or read != pedr_record.read_back(given):
        raise ValueError("what was written does not read as what was given")
    runs = digest(sum((read[name] for name in pedr_record.RUNS), []), LONG)
    carried = digest(read["block_carried"], LONG)
    again = room_with(pedr_record.written(read | {"block_carried": own_carried(read)}))
    return f"written, read back counter {read['counter']} runs {runs} carried {carried}, again {digest(again, LONG)}"


def byte_lines(room):
    return "".join(f"\n  byte {at + 1}:{spaced(room[at : at + LINE])}" for at in range(0, ROOM, LINE))


def write_text(given, output_size, due, full):
    """What the writer answers, and the room that it leaves."""
    number = pedr_record.write_refusal(given, output_size)
    record = b"" if number else pedr_record.written(given)
    said = f"refused {number}" if number else written_text(record, given)
    room = room_with(record)
    return f": {said}{but_due(number, due)}, room {digest(room, LONG)}{byte_lines(room) if full else ''}"


def new_given(fill, frame):
    """What is given by a fill's record of a frame, and how much of it and of the output is lent."""
    given = pedr_record.to_write(filled(FILLS[fill], frame))
    sizes = {"block_carried": len(own_carried(given)), "uninterpreted": len(given["uninterpreted"]), "output": RECORD_SIZE}
    return given, sizes


def lines():
    """Each row finds what is given as the last one left it, and may have it written."""
    yield LEGEND
    given, sizes = {}, {}
    for i, row in enumerate(TABLES["CASES"]):
        due, row = divmod(row, PARTS["DUE"])
        show, row = divmod(row, PARTS["SHOW"])
        fill, row = divmod(row, PARTS["FILL"])
        field, row = divmod(row, PARTS["FIELD"])
        item, bits = divmod(row, PARTS["ITEM"])
        if fill:
            given, sizes = new_given(fill, bits if field == FRAME else 1)
        if field in SIZES:
            sizes[SIZES[field]] = bits
        elif field and not (fill and field == FRAME):
            change(given, field, item, bits)
        shown, full = SHOWS[show]
        if shown:
            lent = {name: (given[name] + [0] * ROOM)[: sizes[name]] for name in LENT}
            yield f"write {i}" + write_text(given | lent, sizes["output"], due, full)


if __name__ == "__main__":
    print("\n".join(lines()))

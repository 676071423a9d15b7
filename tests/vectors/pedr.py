#!/usr/bin/env python3
"""Prints what pedr_vectors has to print, by pedr_record.py."""
import pedr_record
import rows
from show import SHORT, but_due, digest, spaced

PARTS, TABLES = rows.read("pedr_vectors/src/cases.rt")
ROOM = 800

# Whether a record is read, and its long columns are shown too.
SHOWS = {0: (False, False)} | rows.meanings(PARTS, "SHOW", {"READ": (True, False), "FULL": (True, True)})
# A fill's rule for record byte b, and the bytes that make every fill accepted, but for byte 32.
FILLS = rows.meanings(PARTS, "FILL", {
    "ZEROS": lambda b: 0,
    "ONES": lambda b: 255,
    "COUNTING": lambda b: 37 * b + 11,
    "STRIDING": lambda b: 100 * b % 251,
})
SET_BYTES = {5: 0, 6: 0, 13: 0, 491: 0, 492: 1}
# The steps; those that put a number have its width in bytes.
PUTS = rows.meanings(PARTS, "STEP", {"PUT1": 1, "PUT2": 2, "PUT4": 4})
FLIP, LENGTH, SHOT = (PARTS[name] // PARTS["STEP"] for name in ("FLIP", "LENGTH", "SHOT"))
# The groups of a record's line: their headings, and the fields by their names here.
GROUPS = {
    "time": ("whole", "micros", "in_micros"),
    "position": ("orbit", "latitude", "longitude", "radial_distance", "ground_latitude", "ground_longitude"),
    "quality": ("good", "quality_carried", "counter"),
    "descriptor": ("packet_sum", "software_sum", "mode", "ots", "descriptor_carried"),
    "pointing": ("right_ascension", "declination", "twist"),
    "ranges": ("mid_point_range", "frame_radius", "delay", "width"),
    "receiver": ("channel_mask", "minimum_hits", "hit_count", "frame_counter", "trigger", "frame_index"),
    "packet": ("seconds", "millis", "fine_time"),
}
# The runs of the block: their headings, and the names here.
RUNS = {"flags": "status_flags", "tracker": "range_gate_tracker_array", "dump": "memory_dump_segment", "echo": "command_echo", "carried": "block_carried"}
LEGEND = (
    "record: time whole micros in_micros, position orbit latitude longitude radial_distance ground_latitude ground_longitude, "
    "quality good carried counter, descriptor packet_sum software_sum mode ots carried, pointing right_ascension declination twist, "
    "ranges mid_point_range frame_radius delay width, receiver channel_mask minimum_hits hit_count frame_counter trigger frame_index, "
    "packet seconds millis fine_time, block frame and its single columns in the order of appendices C.3 to C.9, "
    "flags, tracker, dump and echo of the block, its carried bytes, xyz, header, digests of the 20 shots, of the 8 channels and of the uninterpreted bytes",
    "shot: radius energy reflectivity trigger_channel pulse_width optical_width laser_power, "
    "class_case (0 no trigger, 1 probable ground, 2 unassigned) class_number, encoder start carried_low stop carried_high, "
    "failures power energy range window comparison, good",
    "channel: noise threshold",
)


def filled(rule):
    """A new record that is accepted, and some bytes more."""
    room = bytearray(rule(b) % 256 for b in range(1, ROOM + 1))
    for b, number in SET_BYTES.items():
        room[b - 1] = number
    room[32 - 1] = pedr_record.good_shots(pedr_record.columns(room)["quality"])
    return room


def change(room, step, b, number):
    """Carries a step out on the record."""
    if step in PUTS:
        room[b - 1 : b - 1 + PUTS[step]] = number.to_bytes(PUTS[step], "big")
    elif step == FLIP:
        room[b - 1] ^= 1 << number
    elif step not in (0, LENGTH, SHOT):
        raise ValueError(f"no step {step}")


def long_columns(read, full):
    """The digests of the shots, the channels and the uninterpreted bytes, after the numbers of the first two where these are asked for."""
    shots = [pedr_record.shot_numbers(read, shot) for shot in range(1, 21)]
    channels = [pedr_record.channel_numbers(read, channel) for channel in range(1, 9)]
    digests = spaced(digest(numbers, SHORT) for numbers in (sum(shots, []), sum(channels, []), read["uninterpreted"]))
    if not full:
        return f", digests{digests}"
    in_full = [f"\n  shot {k}:{spaced(numbers)}" for k, numbers in enumerate(shots, start=1)]
    in_full += [f"\n  channel {k}:{spaced(numbers)}" for k, numbers in enumerate(channels, start=1)]
    return "".join(in_full) + f"\n  digests{digests}"


def accepted_text(fields):
    """The single columns of an accepted record, and of its block."""
    frame, of_block = fields["block"]
    groups = ", ".join(heading + spaced(fields[name] for name in names) for heading, names in GROUPS.items())
    return f"{groups}, block {frame}{spaced(of_block.values())}"


def record_text(record, due, full):
    """What the reader says of a record; the arrays, the runs and the carried bytes of a refused one are zeros."""
    number = pedr_record.refusal(record)
    fields = pedr_record.fields(bytes(pedr_record.RECORD_SIZE) if number else record)
    said = f"refused {number}" if number else accepted_text(fields)
    runs = ", ".join(heading + spaced(fields[name]) for heading, name in RUNS.items())
    return (
        f": {said}, {runs}, xyz{spaced(fields['xyz'])}, header{spaced(fields['source_header'])}"
        f"{long_columns(fields, full)}{but_due(number, due)}"
    )


def shot_text(record, due, shot):
    number = pedr_record.shot_refusal(record, shot)
    if number:
        return f" shot {shot}: refused {number}{but_due(number, due)}"
    read = pedr_record.columns(record)
    return f" shot {shot}:{spaced(pedr_record.shot_numbers(read, shot))}, good {pedr_record.is_good(read, shot)}{but_due(number, due)}"


def lines():
    """Each row finds the record as the last one left it, and may have it read."""
    yield from LEGEND
    room, size = bytearray(ROOM), pedr_record.RECORD_SIZE
    for i, row in enumerate(TABLES["CASES"]):
        due, row = divmod(row, PARTS["DUE"])
        show, row = divmod(row, PARTS["SHOW"])
        fill, row = divmod(row, PARTS["FILL"])
        step, row = divmod(row, PARTS["STEP"])
        b, number = divmod(row, PARTS["BYTE"])
        if fill:
            room, size = filled(FILLS[fill]), pedr_record.RECORD_SIZE
        change(room, step, b, number)
        if step == LENGTH:
            size = number
        if size > ROOM:
            raise ValueError(f"row {i} asks for {size} bytes")
        if step == SHOT:
            yield f"shot {i} len {size}" + shot_text(room[:size], due, number)
        shown, full = SHOWS[show]
        if shown:
            yield f"record {i} len {size}" + record_text(room[:size], due, full)


if __name__ == "__main__":
    print("\n".join(lines()))

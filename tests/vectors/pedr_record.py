"""The PEDR record by document 01: its columns, its bits and the refusals; its writer by request 1, and its engineering block by request 2.

Sections named here are document 01's, appendices document 000's.
"""
import re

RECORD_SIZE = 776

# Section PEDR record, in its notation: the record byte, the column, i signed or u unsigned, the width in bytes, and the number of items.
LAYOUT = """
1 whole i4; 5 micros i4; 9 orbit u4; 13 latitude i4; 17 longitude i4; 21 radial_distance u4; 25 mid_point_range u4; 29 quality u3; 32 counter u1;
33 descriptor u16; 49 radius u4×20; 129 frame_radius u4; 133 right_ascension i4; 137 declination i4; 141 twist i4; 145 energy u2×20;
185 reflectivity u2×20; 225 trigger_channel u1×20; 245 pulse_width u2×20; 285 optical_width u2×20; 325 xyz i4×3; 337 ground_latitude i4;
341 ground_longitude i4; 345 laser_power u2×20; 385 class u2×20; 425 noise u4×8; 457 delay u4; 461 width u4; 465 thresholds u2×8;
481 channel_mask u2; 483 minimum_hits u2; 485 hit_count u2; 487 frame_counter u2; 489 trigger u2; 491 frame_index u2; 493 source_header u4×2;
501 seconds i4; 505 millis i2; 507 fine_time u2; 621 encoder u1×20
"""
# Appendices C.3 to C.9 in the same notation: the engineering block by its frame.
BLOCK_LAYOUTS = {
    1: """
509 computer_memory_temperature i2; 511 computer_cpu_temperature i2; 513 power_supply_temperature i2; 515 computer_io_temperature i2;
517 laser_diode_array_temperature i2; 519 laser_diode_drive_elecs_temp i2; 521 optical_test_source_led_temp i2; 523 hundred_mhz_oscillator_temp i2;
525 start_detector_temperature i2; 527 outside_detector_housing_temp i2; 529 lasr_radiatr_opp_opt_port_temp i2;
531 lser_radiator_output_port_temp i2; 533 interface_plate_hot_foot_temp i2; 535 honeycomb_panel_temperature i2
""",
    2: """
509 electronics_box_top_sc_thrmstr i2; 511 laser_case_hot_foot_temp i2; 513 plus_28_volt_voltage_monitor u2; 515 reference_voltage_monitor u2;
517 plus_12_volt_voltage_monitor u2; 519 plus_24_volt_voltage_monitor u2; 521 plus_5_volt_voltage_monitor u2; 523 minus_12_volt_voltage_monitor u2;
525 laser_thermal_current_monitor u2; 527 minus_5_volt_voltage_monitor u2; 529 power_supply_current_monitor u2; 531 high_voltage_monitor u2;
533 minus_12_volt_current_monitor u2; 535 plus_12_volt_current_monitor u2
""",
    3: """
509 minus_5_volt_current_monitor u2; 511 plus_5_volt_current_monitor u2; 513 current_status_register_value u1; 514 software_version_number u1;
515 flag_word u2; 517 status_flags u2×2; 521 software_validity_checksum u2; 523 received_command_count u1; 524 command_error_count u1;
525 transmitter_threshold_setting u1; 526 range_tracking_status u1; 527 spare u2; 529 range_gate_tracker_array u2×4
""",
    4: "509 range_gate_tracker_array u2×14",
    5: """
509 range_gate_tracker_array u2×6; 521 hstart_value_histogram_dump u4; 525 spare u2×2; 529 valid_commands_received_count u2;
531 memory_dump_segment u2×3
""",
    6: "509 memory_dump_segment u2×5; 519 command_echo u2×8; 535 packet_validity_checksum u2",
    7: """
509 ots_range u4; 513 first_ch_received_energy u4; 517 spare u4; 521 ots_transmit_power u4; 525 ots_pulse_width u1; 526 ots_pulse_amplitude u1;
527 ots_qual_flag u1; 528 packet_type u1; 529 areocentric_longitude_of_sun u2; 531 spare u1×6
""",
}
# Request 2: the bytes of spare columns are carried, and the other columns with items stand beside the single numbers. Of both, the most that a frame has.
SPARE = "spare"
CARRIED = 10
RUNS = {"status_flags": 2, "range_gate_tracker_array": 14, "memory_dump_segment": 5, "command_echo": 8}

# Section PEDR record, the descriptor: the bit of each test of the packet and the frame, and the bit before the one of shot 1.
FRAME_TESTS = {"packet_sum": 0, "software_sum": 1, "mode": 2, "ots": 3}
SHOT_TESTS = {"power": 3, "energy": 23, "range": 43, "window": 63, "comparison": 83}
# Section PEDR record, the encoder bytes: the lowest bit of each part, two bits wide.
ENCODER_PARTS = {"start": 0, "carried_low": 2, "stop": 4, "carried_high": 6}
# Section PEDR record: the record bytes that are not interpreted; by request 2 they begin at the first column of appendix C.10.
UNINTERPRETED = [*range(537, 621), *range(641, 777)]
# Request 1: how many bits there are for a number that is given.
WIDTHS = {"good": 20, "quality_carried": 4, "descriptor_carried": 24}


def listed(layout):
    """The columns of a layout: the record byte, the name, the sign, the width and the number of items, None for a single number."""
    column = re.compile(r"(\d+) (\w+) ([iu])(\d+)(?:×(\d+))?")
    found = [column.fullmatch(text.strip()).groups() for text in layout.split(";")]
    return [(int(at), name, sign, int(width), int(items) if items else None) for at, name, sign, width, items in found]


COLUMNS = listed(LAYOUT)
BLOCKS = {frame: listed(layout) for frame, layout in BLOCK_LAYOUTS.items()}


def bits(number, low, width):
    return number >> low & (1 << width) - 1


def columns(record, layout=COLUMNS):
    """Every column by its name: a number, or a list of them where it has items."""
    read = {}
    for at, name, sign, width, items in layout:
        first = at - 1
        numbers = [
            int.from_bytes(record[start : start + width], "big", signed=sign == "i")
            for start in range(first, first + width * (items or 1), width)
        ]
        read[name] = numbers if items else numbers[0]
    return read


def spare_bytes(layout):
    """The record bytes of the spare columns."""
    return [b for at, name, _, width, items in layout if name == SPARE for b in range(at, at + width * (items or 1))]


def padded(numbers, size):
    """Zeros behind the numbers."""
    return numbers + [0] * (size - len(numbers))


def good_shots(quality):
    """Section PEDR record, the quality: how many ones stand in bits 0 to 19."""
    return bin(bits(quality, 0, 20)).count("1")


def refusal(record):
    """Section Refusal numbers, the record: 11 to 15 in this order. 0 where it is accepted."""
    if len(record) != RECORD_SIZE:
        return 11
    read = columns(record)
    if read["counter"] != good_shots(read["quality"]):
        return 12
    return value_refusal(read)


def value_refusal(read):
    """Section Refusal numbers: 13 to 15 in this order. 0 where none is due."""
    if abs(read["micros"]) > 999_999:
        return 13
    if abs(read["latitude"]) > 90_000_000:
        return 14
    if not 1 <= read["frame_index"] <= 7:
        return 15
    return 0


def shot_refusal(record, shot):
    """Section Refusal numbers, a shot entry: those of the record, then 16."""
    number = refusal(record)
    if number == 0 and not 1 <= shot <= 20:
        return 16
    return number


def block_fields(record):
    """Request 2: the frame of the engineering block with its single numbers, and beside it the runs and the carried bytes, zeros behind what the frame has.

    A frame index that is none of 1 to 7 has no columns.
    """
    frame = columns(record)["frame_index"]
    layout = BLOCKS.get(frame, [])
    named = columns(record, [column for column in layout if column[1] != SPARE])
    runs = {name: padded(named.pop(name, []), size) for name, size in RUNS.items()}
    carried = [record[b - 1] for b in spare_bytes(layout)]
    return {"block": (frame, named), **runs, "block_carried": padded(carried, CARRIED)}


def fields(record):
    """The columns of an accepted record, the parts of its time, quality and descriptor, its block, and the bytes that are not interpreted."""
    read = columns(record) | block_fields(record)
    read["in_micros"] = read["whole"] * 1_000_000 + read["micros"]
    read["good"] = bits(read["quality"], 0, 20)
    read["quality_carried"] = bits(read["quality"], 20, 4)
    for name, bit in FRAME_TESTS.items():
        read[name] = bits(read["descriptor"], bit, 1)
    read["descriptor_carried"] = bits(read["descriptor"], 104, 24)
    read["uninterpreted"] = [record[b - 1] for b in UNINTERPRETED]
    return read


def class_case(number):
    """Section PEDR record, the class: 0 no trigger, 1 probable ground, 2 unassigned."""
    return min(number, 2)


def shot_numbers(read, shot):
    """What the columns say of a shot from 1 to 20, but for whether it is good."""
    names = ("radius", "energy", "reflectivity", "trigger_channel", "pulse_width", "optical_width", "laser_power")
    number = read["class"][shot - 1]
    encoder = read["encoder"][shot - 1]
    return (
        [read[name][shot - 1] for name in names]
        + [class_case(number), number]
        + [bits(encoder, low, 2) for low in ENCODER_PARTS.values()]
        + [bits(read["descriptor"], before + shot, 1) for before in SHOT_TESTS.values()]
    )


def is_good(read, shot):
    """Section PEDR record, the quality: bit 20 - s is set for a good shot s."""
    return bits(read["quality"], 20 - shot, 1)


def channel_numbers(read, channel):
    """The noise and the threshold of a channel from 1 to 8."""
    return [read["noise"][channel - 1], read["thresholds"][channel - 1]]


def to_write(record):
    """What the writer is given for an accepted record: its fields, and for each shot a class (its case and its number), the encoder's parts and the tests."""
    read = fields(record)
    combined = ("quality", "in_micros", "descriptor", "encoder")
    given = {name: value for name, value in read.items() if name not in combined}
    given["class"] = [(class_case(number), number) for number in read["class"]]
    for part, low in ENCODER_PARTS.items():
        given[part] = [bits(byte, low, 2) for byte in read["encoder"]]
    for test, before in SHOT_TESTS.items():
        given[f"{test}_test"] = [bits(read["descriptor"], before + shot, 1) for shot in range(1, 21)]
    return given


def write_refusal(given, output_size):
    """Requests 1 and 2: 13 to 15, 40, 49, 41 and 42 in this order. 0 where the record is written."""
    frame, _ = given["block"]
    number = value_refusal(given)
    if number:
        return number
    if any(case == 2 and of_class in (0, 1) for case, of_class in given["class"]):
        return 40
    parts = [part for name in ENCODER_PARTS for part in given[name]]
    if any(given[name] >> width for name, width in WIDTHS.items()) or any(part >> 2 for part in parts):
        return 49
    if len(given["block_carried"]) != len(spare_bytes(BLOCKS[frame])) or len(given["uninterpreted"]) != len(UNINTERPRETED):
        return 49
    if output_size != RECORD_SIZE:
        return 41
    if frame != given["frame_index"]:
        return 42
    return 0


def descriptor(given):
    """Section PEDR record, the descriptor, as one number of 128 bits."""
    tests = [given[name] << bit for name, bit in FRAME_TESTS.items()]
    for test, before in SHOT_TESTS.items():
        tests += [bit << before + shot for shot, bit in enumerate(given[f"{test}_test"], start=1)]
    return sum(tests) + (given["descriptor_carried"] << 104)


def placed(layout, read):
    """The bytes of the named columns, each after its record byte; of a run the items that the layout has."""
    for at, name, sign, width, items in layout:
        if name != SPARE:
            numbers = read[name][:items] if items else [read[name]]
            octets = b"".join(number.to_bytes(width, "big", signed=sign == "i") for number in numbers)
            yield from enumerate(octets, start=at)


def written(given):
    """The record of what is given and not refused. Its columns, the carried and the uninterpreted bytes have each record byte once."""
    frame, of_block = given["block"]
    read = given | {
        "quality": given["good"] + (given["quality_carried"] << 20),
        "counter": good_shots(given["good"]),
        "descriptor": descriptor(given),
        "class": [number for _, number in given["class"]],
        "encoder": [sum(given[part][k] << low for part, low in ENCODER_PARTS.items()) for k in range(20)],
    }
    octets = [*placed(COLUMNS, read), *placed(BLOCKS[frame], read | of_block)]
    octets += zip(spare_bytes(BLOCKS[frame]), given["block_carried"], strict=True)
    octets += zip(UNINTERPRETED, given["uninterpreted"], strict=True)
    octets.sort()
    if [b for b, _ in octets] != list(range(1, RECORD_SIZE + 1)):
        raise ValueError("the columns do not cover the record, each byte once")
    return bytes(octet for _, octet in octets)


def read_back(given):
    """What the record that is written reads as: the counter is worked out, and the items that the frame lacks are zeros."""
    frame, _ = given["block"]
    sizes = {name: items for _, name, _, _, items in BLOCKS[frame] if name in RUNS}
    runs = {name: padded(given[name][: sizes.get(name, 0)], size) for name, size in RUNS.items()}
    return given | runs | {"counter": good_shots(given["good"]), "block_carried": padded(given["block_carried"], CARRIED)}

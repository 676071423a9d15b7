"""The science packet by document 01: its layout, its sum, the reader's refusals and the writer; the sum of words by request 3. Sections named here are
document 01's."""
import struct

PACKET_SIZE = 1_080

# Section Packet layout: document 004 has the column PACKET_VALIDITY_CHECKSUM at record byte 291, and packet byte b is record byte b + 151.
PUBLISHED_SUM_WORD = (291 - 151) // 2

# Section Packet layout, bytes 0 to 11 from the top bit: the fields' widths in bits.
HEADER = {
    "version": 3,
    "spare": 1,
    "flag": 1,
    "error_status": 3,
    "instrument": 8,
    "segmentation": 2,
    "count": 14,
    "length": 16,
    "coarse_time": 32,
    "fine_time": 8,
    "type": 8,
}
HEADER_SIZE = sum(HEADER.values()) // 8

# The header's fixed fields, in the order of section Refusal numbers, where the first has 3.
FIXED = {"version": 0, "spare": 0, "flag": 0, "instrument": 35, "segmentation": 3, "length": 1_073, "type": 0}

# Section Packet layout, bytes 12 to 105: the columns' widths in bytes.
COLUMNS = {
    "temperatures": 16,
    "readings": 14,
    "status_register": 1,
    "software_version": 1,
    "ram_flag_word": 2,
    "status_word_1": 2,
    "status_word_2": 2,
    "software_checksum": 2,
    "commands_received": 1,
    "command_errors": 1,
    "transmitter_threshold": 1,
    "tracking_status": 1,
    "bins": 48,
    "hstart": 2,
}
ARRAYS = ("temperatures", "readings", "bins")
CARRIED_AT = HEADER_SIZE + sum(COLUMNS.values())
CARRIED_SIZE = PACKET_SIZE - CARRIED_AT


def header(packet):
    """The header's fields, cut from its bits."""
    bits = format(int.from_bytes(packet[:HEADER_SIZE], "big"), f"0{8 * HEADER_SIZE}b")
    fields = {}
    for name, width in HEADER.items():
        fields[name], bits = int(bits[:width], 2), bits[width:]
    return fields


def header_bytes(fields):
    bits = "".join(format(fields[name], f"0{width}b") for name, width in HEADER.items())
    return int(bits, 2).to_bytes(HEADER_SIZE, "big")


def set_header(packet, changes):
    """Sets some of the header's fields."""
    packet[:HEADER_SIZE] = header_bytes({**header(packet), **changes})


def word(packet, w):
    return int.from_bytes(packet[2 * w : 2 * w + 2], "big")


def set_word(packet, w, number):
    struct.pack_into(">H", packet, 2 * w, number)


def word_sum(summed):
    """Request 3: the sum of the words of any bytes, modulo 65,536; a last odd byte is the upper half of a word."""
    words = [summed[at : at + 2].ljust(2, b"\0") for at in range(0, len(summed), 2)]
    return sum(int.from_bytes(word, "big") for word in words) % 65_536


def total(packet, sum_word):
    """All words but the sum's, added with every carry kept."""
    return sum(word(packet, w) for w in range(PACKET_SIZE // 2) if w != sum_word)


def packet_sum(packet, sum_word):
    """Section Packet layout, the packet sum: carries out of 16 bits are dropped."""
    return total(packet, sum_word) % 65_536


def is_sum_word(sum_word):
    return 53 <= sum_word <= 539


def refusal(packet, sum_word):
    """Section Refusal numbers, the reader: 1 to 10 in this order. 0 where the packet is accepted."""
    if len(packet) != PACKET_SIZE:
        return 1
    if not is_sum_word(sum_word):
        return 2
    fields = header(packet)
    for number, (name, fixed) in enumerate(FIXED.items(), start=3):
        if fields[name] != fixed:
            return number
    if word(packet, sum_word) != packet_sum(packet, sum_word):
        return 10
    return 0


def swapped(pairs):
    """Section Packet layout, the bins: bytes are swapped in pairs."""
    return bytes(byte for k in range(0, len(pairs), 2) for byte in (pairs[k + 1], pairs[k]))


def read(packet):
    """The free fields of an accepted packet, by name; the arrays are bytes, the bins in bin order."""
    fields = header(packet)
    at = HEADER_SIZE
    for name, width in COLUMNS.items():
        column, at = packet[at : at + width], at + width
        fields[name] = bytes(column) if name in ARRAYS else int.from_bytes(column, "big")
    fields["bins"] = swapped(fields["bins"])
    return fields


def write_refusal(fields, carried, sum_word, output_size):
    """Section Refusal numbers, the writer: 2, 17, 18. 0 where it writes."""
    if not is_sum_word(sum_word):
        return 2
    if fields["count"] > 16_383 or fields["error_status"] > 7 or len(carried) != CARRIED_SIZE:
        return 17
    if output_size != PACKET_SIZE:
        return 18
    return 0


def written(fields, carried, sum_word):
    """Section Packet layout, the writer: the packet where it does not refuse."""
    packet = bytearray(header_bytes({**fields, **FIXED}))
    columns = {**fields, "bins": swapped(fields["bins"])}
    for name, width in COLUMNS.items():
        packet += columns[name] if name in ARRAYS else columns[name].to_bytes(width, "big")
    packet += carried
    set_word(packet, sum_word, packet_sum(packet, sum_word))
    return packet


def first_bin(hstart):
    """Section Packet layout, the bins: the first one's number."""
    number = (hstart + 0xFFFE) % 65_536
    return number - number % 2


def bin_start(hstart, j):
    """Section Packet layout, the bins: where bin j starts, in metres."""
    return (first_bin(hstart) + j) * 1_536

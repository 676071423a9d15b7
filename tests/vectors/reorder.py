#!/usr/bin/env python3
"""Prints what reorder_vectors has to print, by reorder_buffer.py."""
import reorder_buffer
import rows
import science_packet
from reorder_buffer import STORE_SIZE
from science_packet import PACKET_SIZE
from show import LONG, digest, digest_by_pieces, spaced

PARTS, _ = rows.read("reorder_vectors/src/cases.rt")
FILES = ("arrivals", "clocks", "ends", "refusals", "mixed")

CALL, FIELD, POSITION, START, MORE, WRONG, AFTER, STORE, OUTPUT = (
    PARTS[name] for name in ("CALL", "FIELD", "P", "START", "MORE", "WRONG", "AFTER", "STORE", "OUTPUT")
)
# What a row does: a call, by the name that its line starts with, or a change.
ACTIONS = rows.meanings(PARTS, "CALL", {
    "OPEN": "open",
    "OPEN_OR": "open_or",
    "OFFER": "offer",
    "SERVE": "serve",
    "DRAIN": "drain",
    "PASS": "pass",
    "EACH": "each",
    "MAKE": "make",
    "HISTORY": "history",
    "SET": "set",
})
# The registers that a row sets: the session's numbers, by their index, and what else calls are told, by names.
REGISTERS = rows.meanings(PARTS, "FIELD", {
    "ANCHOR_COUNT": 0,
    "ANCHOR_TIME": 1,
    "SUM_WORD": 2,
    "THRESHOLD": 3,
    "NEXT": 4,
    "MARKS": 5,
    "BASE_COUNT": "count",
    "BASE_TIME": "time",
    "STORED": "stored",
    "TOLD_THRESHOLD": "threshold",
    "TOLD_WORD": "sum_word",
})
# A header's field whose lowest bit is turned before the sum is worked out.
WRONGS = {0: None} | rows.meanings(PARTS, "WRONG", {
    "VERSION": "version",
    "SPARE": "spare",
    "FLAG": "flag",
    "INSTRUMENT": "instrument",
    "SEGMENTATION": "segmentation",
    "LENGTH": "length",
    "TYPE": "type",
    "OTHER": None,
})
OTHER = PARTS["OTHER"] // WRONG
# How many bytes of a packet, the store and the output are given.
PACKET_SIZES = {0: 1_080} | rows.meanings(PARTS, "AFTER", {"SUM": 1_080, "BIT": 1_080, "SHORT": 1_079, "LONG": 1_081, "EMPTY": 0, "ONE": 1})
AFTER_SUM, AFTER_BIT = (PARTS[name] // AFTER for name in ("SUM", "BIT"))
STORE_SIZES = {0: STORE_SIZE} | rows.meanings(PARTS, "STORE", {"STORE_0": 0, "STORE_34559": 34_559, "STORE_34561": 34_561, "STORE_1080": 1_080})
OUTPUT_SIZES = {0: STORE_SIZE} | rows.meanings(PARTS, "OUTPUT", {
    "OUT_0": 0,
    "OUT_1079": 1_079,
    "OUT_1080": 1_080,
    "OUT_1081": 1_081,
    "OUT_34559": 34_559,
    "OUT_34561": 34_561,
    "OUT_2160": 2_160,
    "OUT_1": 1,
})

ROOM = STORE_SIZE + 1
FRESH = {"count": 16_380, "time": 1_000_000, "stored": 70, "threshold": 3, "sum_word": 70}
FIRST_STORE = bytes((31 * k + k // 256) % 256 for k in range(ROOM))
BLANK_OUTPUT = bytes([165]) * ROOM
CLEARED = [0, 0, 0, 0, 0, 0]
LEGEND = (
    "threshold and sum word; packet: count, coarse time, bytes, damage",
    "session: anchor count, anchor time, sum word, threshold, next, marks",
    "bytes: digests of the store and the output",
)


def digit(row, unit):
    return row // unit % 10


def calls_of(action, row):
    """The calls that a row makes: their names, and a row for each."""
    if action == "each":
        store = digit(row, STORE) * STORE
        return [("pass", store), ("drain", store + 32), ("serve", store), ("offer", row)]
    if action in ("open", "open_or"):
        return [(action, row)]
    further = POSITION if action == "offer" else 0
    return [(action, row + k * further) for k in range(digit(row, MORE) + 1)]


def count_and_time(row, told):
    """Of a row's packet: those of the base packet, moved on by a position, and seconds more."""
    moved, seconds = divmod(row % WRONG, POSITION)
    start, no_seconds = divmod(START, POSITION)
    position = moved - start
    return (told["count"] + position) % 16_384, (told["time"] + 14 * position + seconds - no_seconds) % 2**32


def packet_of(row, told):
    """A row's packet, as much of it as the call is given."""
    count, time = count_and_time(row, told)
    wrong, after = digit(row, WRONG), digit(row, AFTER)
    seed = (count + 3 * time + (101 if wrong == OTHER else 0)) % 251
    packet = bytearray((37 * b + 11 * seed + b // 100) % 251 for b in range(PACKET_SIZE + 1))
    science_packet.set_header(packet, {**science_packet.FIXED, "error_status": seed % 8, "count": count, "coarse_time": time})
    if WRONGS[wrong]:
        science_packet.set_header(packet, {WRONGS[wrong]: science_packet.header(packet)[WRONGS[wrong]] ^ 1})
    science_packet.set_word(packet, told["stored"], science_packet.packet_sum(packet, told["stored"]))
    if after == AFTER_SUM:
        packet[2 * told["stored"] + 1] ^= 1
    if after == AFTER_BIT:
        packet[1_079] ^= 1
    return packet[: PACKET_SIZES[after]]


def described(answers):
    """The descriptions of a drain's answers, a kind and a position each, and the digest of all 32."""
    pairs = [number for kind, position in answers for number in ({"packet": 1, "missing": 2}[kind], position)]
    return f"{spaced(pairs)}, all 32 {digest(pairs + [0] * (64 - len(pairs)), LONG)}"


class Program:
    """What rows change: the session, the store, and what calls are told."""

    def __init__(self):
        self.start()

    def start(self):
        """The start of a history."""
        self.store = bytearray(FIRST_STORE)
        self.told = dict(FRESH)
        self.session = reorder_buffer.session_of(CLEARED, self.store)

    def set_register(self, register, number):
        if register in self.told:
            self.told[register] = number % 2**32
            return
        numbers = reorder_buffer.numbers_of(self.session)
        numbers[register] = number % 2**32
        self.session = reorder_buffer.session_of(numbers, self.store)

    def make(self, next_position):
        """A session by hand: the base packet's, with what openings are told."""
        numbers = [self.told[name] for name in ("count", "time", "sum_word", "threshold")]
        self.session = reorder_buffer.session_of([*numbers, next_position, 0], self.store)

    def call_with_packet(self, name, row, store):
        """An opening by value or over the session, or an offer: what its line says, and the session afterwards."""
        told, packet = self.told, packet_of(row, self.told)
        said = f" packet{spaced(count_and_time(row, told))} {len(packet)} {digit(row, WRONG) + 10 * digit(row, AFTER)} store {len(store)}"
        if name == "offer":
            answer, after = reorder_buffer.offer(self.session, store, packet)
            return f"{said}: {answer[0]} {answer[1]}", after
        answer, after = reorder_buffer.open_with(store, packet, told["threshold"], told["sum_word"])
        if after is None:
            after = reorder_buffer.session_of(CLEARED, self.store) if name == "open" else self.session
        return f" threshold {told['threshold']} {told['sum_word']}{said}: {answer[0]} {answer[1]}", after

    def call_with_output(self, name, row, store, output):
        """The same of a serve or drain."""
        output = output[: OUTPUT_SIZES[digit(row, OUTPUT)]]
        said = f" store {len(store)} output {len(output)}: "
        if name == "serve":
            answer, after = reorder_buffer.serve(self.session, store, output)
            return said + " ".join(map(str, answer)), after
        budget = row % FIELD % 2**32
        answer, answers, after = reorder_buffer.drain(self.session, store, output, budget)
        return f" budget {budget}{said}{answer[0]} {answer[1]}{described(answers)}", after

    def call(self, name, row):
        """The line of a call, and the session afterwards."""
        output = bytearray(BLANK_OUTPUT)
        store = memoryview(self.store)[: STORE_SIZES[digit(row, STORE)]]
        if name == "pass":
            answer, after = reorder_buffer.pass_by_hand(self.session)
            said = f" store {len(store)}: {answer[0]} {answer[1]}"
        elif name in ("serve", "drain"):
            said, after = self.call_with_output(name, row, store, memoryview(output))
        else:
            said, after = self.call_with_packet(name, row, store)
        digests = spaced(digest_by_pieces(data) for data in (self.store, output))
        return f"{name}{said}, session{spaced(reorder_buffer.numbers_of(after))}, bytes{digests}", after

    def run(self, row):
        """The lines of a row. Each call of "each" is made from the same session."""
        action, number = ACTIONS[row // CALL], row % FIELD
        if action == "history":
            self.start()
            yield f"history {number}"
        elif action == "set":
            self.set_register(REGISTERS[row // FIELD], number)
        elif action == "make":
            self.make(number)
        else:
            for name, call_row in calls_of(action, row):
                line, after = self.call(name, call_row)
                self.session = self.session if action == "each" else after
                yield line


def lines():
    yield from LEGEND
    program = Program()
    for file in FILES:
        _, tables = rows.read(f"reorder_vectors/src/{file}.rt", PARTS)
        for row in tables["ROWS"]:
            yield from program.run(row)


if __name__ == "__main__":
    print("\n".join(lines()))

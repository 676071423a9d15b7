"""The reorder buffer by document 01. Sections named here are that document's.

What is held stands by its true position, so that marks are worked out only where a session is made of numbers or shown.
Store and output are lent as views of bytes that the calls write through.
"""
from typing import NamedTuple

import science_packet
from science_packet import PACKET_SIZE

WINDOW = 32
STORE_SIZE = WINDOW * PACKET_SIZE


class Session(NamedTuple):
    """The packets that are held stand by their positions."""

    count: int
    time: int
    sum_word: int
    threshold: int
    next: int
    held: dict


def slot(position):
    """Section The rack: position p uses the 1,080 bytes from 1,080 * (p mod 32) of the store."""
    start = PACKET_SIZE * (position % WINDOW)
    return slice(start, start + PACKET_SIZE)


def session_of(numbers, store):
    """Section The rack: mark m means the one position p from next to next + 31 for which p mod 32 is m."""
    *others, next_position, marks = numbers
    held = {p: bytes(store[slot(p)]) for p in range(next_position, next_position + WINDOW) if marks >> p % WINDOW & 1}
    return Session(*others, next_position, held)


def numbers_of(session):
    """The session's six numbers, the marks last."""
    return [*session[:5], sum(1 << p % WINDOW for p in session.held)]


def position(session, count, time):
    """Section The rack: the integer that fits count and time, or None. Every one near is tried."""
    elapsed = time - session.time
    near = elapsed // 14  # a position that fits is at most 3,600 / 14 < 258 from it
    fits = [
        p
        for p in range(near - 300, near + 301)
        if (p - (count - session.count)) % 16_384 == 0 and abs(14 * p - elapsed) <= 3_600
    ]
    if len(fits) > 1:
        raise AssertionError(f"more than one position: {fits}")
    return fits[0] if fits else None


def is_threshold(threshold):
    return 1 <= threshold <= 31


def is_broken(session):
    """Section Refusal numbers, 30."""
    return (
        session.count > 16_383
        or not is_threshold(session.threshold)
        or not science_packet.is_sum_word(session.sum_word)
        or session.next > 1_000_000
        or any(p > 999_999 for p in session.held)
    )


def open_refusal(store, packet, threshold, sum_word):
    """Section Refusal numbers, open: 20, 27, 1 to 10. 0 where it is accepted."""
    if not is_threshold(threshold):
        return 20
    if len(store) != STORE_SIZE:
        return 27
    return science_packet.refusal(packet, sum_word)


def open_with(store, packet, threshold, sum_word):
    """Section The rack, opening: the answer, and the session or None."""
    number = open_refusal(store, packet, threshold, sum_word)
    if number:
        return ("refused", number), None
    header = science_packet.header(packet)
    store[slot(0)] = packet
    return ("held", 0), Session(header["count"], header["coarse_time"], sum_word, threshold, 0, {0: bytes(packet)})


def packet_position(session, packet):
    header = science_packet.header(packet)
    return position(session, header["count"], header["coarse_time"])


def offer_refusal(session, store, packet):
    """Section Refusal numbers, offer: 30, 27, 1 to 10, 21 to 25. 0 where it is accepted."""
    if is_broken(session):
        return 30
    if len(store) != STORE_SIZE:
        return 27
    number = science_packet.refusal(packet, session.sum_word)
    if number:
        return number
    p = packet_position(session, packet)
    if p is None:
        return 21
    if p > 999_999:
        return 22
    if p < session.next:
        return 23
    if p in session.held:
        return 24
    return 25 if p > session.next + 31 else 0


def offer(session, store, packet):
    """Section The rack, offer: the answer, and the session afterwards."""
    number = offer_refusal(session, store, packet)
    if number:
        return ("refused", number), session
    p = packet_position(session, packet)
    store[slot(p)] = packet
    return ("held", p), session._replace(held={**session.held, p: bytes(packet)})


def next_answer(session):
    """Section The rack, serve: the answer, the packet or None, and the session afterwards."""
    p = session.next
    after = session._replace(next=p + 1, held={other: packet for other, packet in session.held.items() if other != p})
    if p in session.held:
        return ("packet", p), session.held[p], after
    if any(other >= p + session.threshold for other in session.held):
        return ("missing", p), None, after
    return ("waiting",), None, session


def serve_refusal(session, store, output):
    """Section Refusal numbers, serve: 30, 27, 29. 0 where it is accepted."""
    if is_broken(session):
        return 30
    if len(store) != STORE_SIZE:
        return 27
    return 29 if len(output) < PACKET_SIZE else 0


def serve(session, store, output):
    """Section The rack, serve: the answer, and the session afterwards."""
    number = serve_refusal(session, store, output)
    if number:
        return ("refused", number), session
    answer, packet, after = next_answer(session)
    if packet is not None:
        output[:PACKET_SIZE] = packet
    return answer, after


def drain_refusal(session, store, output, budget):
    """Section Refusal numbers, drain: 30, 27, 29, 31. 0 where it is accepted."""
    if is_broken(session):
        return 30
    if len(store) != STORE_SIZE:
        return 27
    if len(output) != STORE_SIZE:
        return 29
    return 31 if budget > 32 else 0


def drain(session, store, output, budget):
    """Section The rack, drain: the answer, the answers that it describes, and the session afterwards."""
    number = drain_refusal(session, store, output, budget)
    if number:
        return ("refused", number), [], session
    described = []
    while len(described) < budget:
        answer, packet, session = next_answer(session)
        if answer == ("waiting",):
            break
        if packet is not None:
            at = PACKET_SIZE * len(described)
            output[at : at + PACKET_SIZE] = packet
        described.append(answer)
    return ("count", len(described)), described, session


def pass_refusal(session):
    """Section Refusal numbers, pass: 30, 28, 26. 0 where it is accepted."""
    if is_broken(session):
        return 30
    if session.next == 1_000_000:
        return 28
    return 26 if session.next in session.held else 0


def pass_by_hand(session):
    """Section The rack, pass: the answer, and the session afterwards."""
    number = pass_refusal(session)
    if number:
        return ("refused", number), session
    return ("missing", session.next), session._replace(next=session.next + 1)

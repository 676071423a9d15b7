"""Numbers and digests as the vectors print them.

A digest starts at 1, and each number in turn makes (257 * digest + number) mod m of it.
"""
import functools

SHORT = 65_521  # m of the packets' and the records' digests
LONG = 4_294_967_291  # m of the reorder buffer's digests
PIECE = 1_080


def spaced(numbers):
    """A space before each number."""
    return "".join(f" {number}" for number in numbers)


def but_due(answer, due):
    """Says so where an answer is not the one that is due."""
    return "" if answer == due else f" BUT DUE IS {due}"


def digested(start, numbers, modulus):
    """A digest taken on by more numbers."""
    made = start
    for number in numbers:
        made = (257 * made + number) % modulus
    return made


def digest(numbers, modulus):
    return digested(1, numbers, modulus)


@functools.lru_cache(maxsize=None)
def piece_digested(piece):
    return digested(0, piece, LONG)


def digest_by_pieces(data):
    """The long digest of many bytes. Of a digest, n bytes make 257^n * digest + (their own from 0); most pieces come often."""
    made = 1
    for at in range(0, len(data), PIECE):
        piece = bytes(data[at : at + PIECE])
        made = (made * pow(257, len(piece), LONG) + piece_digested(piece)) % LONG
    return made

"""Small block files with what the reading of each comes to, by hand: number and place of the refusal, or the count of wires."""

from limits import MAX_GATES


def head(n, high, low, edition=1):
    """A block field of n gates, arrival and deadline 0, with the two bytes of the number for the input's switching."""
    return bytes([1, 0, 8, edition, n, 0, 0, 0, 0, high, low])


PLAIN = bytes([2, 0, 4, 0, 1, 0, 128])
ONE = head(1, 0, 128)
TWO = head(2, 0, 128) + PLAIN + PLAIN
TWO_OF_EDITION_2 = head(2, 0, 128, 2) + PLAIN + PLAIN
TWO_OF_EDITION_3 = head(2, 255, 255, 3) + PLAIN + PLAIN
EQUAL_DROPS = bytes([2, 0, 12, 0, 1, 0, 128, 0, 2, 0, 5, 0, 3, 0, 5])

SMALL_FILES = [
    # no byte; short header; tag before length; length before short body; short body before a number's range
    (b"", (1, 0)),
    (bytes([1, 0]), (1, 0)),
    (bytes([2, 0, 9]), (2, 0)),
    (bytes([1, 0, 9]), (3, 0)),
    (bytes([1, 0, 8, 2]), (1, 0)),
    # 201 gates, 255 and none; 200 without any field of one; p 257 and 256
    (head(MAX_GATES + 1, 0, 128), (4, 0)),
    (head(255, 0, 128), (4, 0)),
    (head(0, 0, 128), (4, 0)),
    (head(MAX_GATES, 0, 128), (1, 11)),
    (head(1, 1, 1), (4, 0)),
    (head(1, 1, 0) + PLAIN, 0),
    # a due gate is missing; a wire stands where a gate is due; 9 steps; drops that do not fall
    (ONE, (1, 11)),
    (ONE + bytes([3, 0, 2, 0, 0]), (2, 11)),
    (ONE + bytes([2, 0, 40]), (3, 11)),
    (ONE + EQUAL_DROPS, (5, 11)),
    # a wire to a gate that is not there, to its own gate, and twice; one byte behind the last wire
    (TWO + bytes([3, 0, 2, 0, 2]), (4, 25)),
    (TWO + bytes([3, 0, 2, 1, 1]), (6, 25)),
    (TWO + bytes([3, 0, 2, 0, 1, 3, 0, 2, 0, 1]), (6, 30)),
    (TWO + bytes([3, 0, 2, 0, 1, 3]), (1, 30)),
    # editions 0 and 4; edition 2 with one gate, and with a wire of 256 ticks and of 4,095
    (head(1, 0, 128, 0) + PLAIN, (4, 0)),
    (head(1, 0, 128, 4) + PLAIN, (4, 0)),
    (head(1, 0, 128, 2) + PLAIN, 0),
    (TWO_OF_EDITION_2 + bytes([3, 0, 4, 0, 1, 1, 0]), 1),
    (TWO_OF_EDITION_2 + bytes([3, 0, 4, 0, 1, 15, 255]), 1),
    # a delay of 4,096; a wire of 2 bytes in edition 2, and one of 4 in edition 1; a body of 3 bytes
    (TWO_OF_EDITION_2 + bytes([3, 0, 4, 0, 1, 16, 0]), (4, 25)),
    (TWO_OF_EDITION_2 + bytes([3, 0, 2, 0, 1]), (3, 25)),
    (TWO + bytes([3, 0, 4, 0, 1, 0, 0]), (3, 25)),
    (TWO_OF_EDITION_2 + bytes([3, 0, 4, 0, 1, 0]), (1, 25)),
    # a second wire with another delay, and with one that is out of range
    (TWO_OF_EDITION_2 + bytes([3, 0, 4, 0, 1, 0, 5, 3, 0, 4, 0, 1, 0, 6]), (6, 32)),
    (TWO_OF_EDITION_2 + bytes([3, 0, 4, 0, 1, 0, 5, 3, 0, 4, 0, 1, 16, 0]), (4, 32)),
    # edition 3: the number of the input 128, 257 and 65,535; in edition 2 257; 201 gates in editions 2 and 3
    (head(1, 0, 128, 3) + PLAIN, 0),
    (head(1, 1, 1, 3) + PLAIN, 0),
    (head(1, 255, 255, 3) + PLAIN, 0),
    (head(1, 1, 1, 2) + PLAIN, (4, 0)),
    (head(MAX_GATES + 1, 0, 128, 2), (4, 0)),
    (head(MAX_GATES + 1, 255, 255, 3), (4, 0)),
    # the number of a gate 257 and 65,535; in editions 1 and 2 257; 65,535 with equal drops, and with a delay of 4,096
    (head(1, 0, 128, 3) + bytes([2, 0, 4, 0, 1, 1, 1]), 0),
    (head(1, 0, 128, 3) + bytes([2, 0, 4, 0, 1, 255, 255]), 0),
    (ONE + bytes([2, 0, 4, 0, 1, 1, 1]), (4, 11)),
    (head(1, 0, 128, 2) + bytes([2, 0, 4, 0, 1, 1, 1]), (4, 11)),
    (head(1, 0, 128, 3) + bytes([2, 0, 12, 0, 1, 255, 255, 0, 2, 0, 5, 0, 3, 0, 5]), (5, 11)),
    (head(1, 0, 128, 3) + bytes([2, 0, 4, 16, 0, 255, 255]), (4, 11)),
    # wires of edition 3: of 4 bytes; of 2; with a delay of 4,096; a second one with another delay
    (TWO_OF_EDITION_3 + bytes([3, 0, 4, 0, 1, 15, 255]), 1),
    (TWO_OF_EDITION_3 + bytes([3, 0, 2, 0, 1]), (3, 25)),
    (TWO_OF_EDITION_3 + bytes([3, 0, 4, 0, 1, 16, 0]), (4, 25)),
    (TWO_OF_EDITION_3 + bytes([3, 0, 4, 0, 1, 0, 5, 3, 0, 4, 0, 1, 0, 6]), (6, 32)),
]

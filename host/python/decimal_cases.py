#!/usr/bin/env python3
"""decimal_cases.py DIR: writes DIR/stdin and DIR/stdout of the program decimal_cases.
decimal_cases.py --check DIR: says whether they still are what it would write.

stdin: cases of 12 bytes, high byte first: a number (8 bytes), the place to write at (2), and how many of 32 bytes are lent (2).
stdout: for each case how many digits the number has, the place behind them or, where they do not fit, the place itself, and the
32 bytes, dots but for the digits. Digits are Python's own: 64-bit numbers by repr, without a table or a power."""
from stored import store

MOST_BYTES = 8192
TEXT_BYTES = 32
LARGEST = 2**64 - 1


def numbers():
    """0, 9, 10, the powers of ten that 64 bits hold, each with one less and one more, and the largest with one less."""
    powers = [10**k for k in range(len(repr(LARGEST)))]
    assert powers[-1] <= LARGEST < 10 * powers[-1]
    around = {n for power in powers for n in (power - 1, power, power + 1)}
    return sorted(around | {0, 9, 10, LARGEST - 1, LARGEST})


def places(n):
    """The place to write at and how many bytes are lent: room to spare, exact room, and one byte too few, which is none for one
    digit; a place at the end of the bytes lent and behind it."""
    count = len(repr(n))
    return [(5, TEXT_BYTES), (0, count), (3, 3 + count), (0, count - 1), (3, 2 + count), (count, count), (count + 1, count)]


def line(n, at, lent):
    digits, text = repr(n), "." * TEXT_BYTES
    if lent < at + len(digits):
        return "%d %d %s\n" % (len(digits), at, text)
    behind = at + len(digits)
    return "%d %d %s\n" % (len(digits), behind, text[:at] + digits + text[behind:])


def check_by_hand():
    assert line(0, 5, 32) == "1 6 .....0..........................\n"
    assert line(10, 0, 2) == "2 2 10..............................\n"
    assert line(10, 0, 1) == "2 0 ................................\n"
    assert line(LARGEST, 0, 20) == "20 20 18446744073709551615............\n"


def main():
    check_by_hand()
    given, said, count = b"", "", 0
    for n in numbers():
        for at, lent in places(n):
            given += n.to_bytes(8, "big") + at.to_bytes(2, "big") + lent.to_bytes(2, "big")
            said += line(n, at, lent)
            count += 1
    store(given, said, MOST_BYTES)
    print("decimal_cases: %d cases of %d numbers" % (count, len(numbers())))


main()

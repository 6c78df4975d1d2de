#!/usr/bin/env python3
"""blockfile_cases.py DIR: writes DIR/stdin and DIR/stdout of the program blockfile_cases.
blockfile_cases.py --check DIR: says whether they still are what it would write.

stdin: groups, one for each edition: the length of a block file and the number of cases (2 bytes each, high byte first), the
file's bytes, then the cases of 8 bytes: how many bytes of the file are read (2), and two changes, each a place (2) and the byte
to put there (1); a place beyond the file changes nothing.
stdout: for each case what document 01, and K2, K3 and K10 in document 02, say of the changed file, by file_reader.py, which
shares nothing with the crate. Of a file that is read: gates, wires, arrival, deadline, activity of the input, and the delay of
the first wire if there is one."""
from itertools import chain, cycle, islice

from editions import WIRE_LENGTH
from file_reader import Refused, read
from limit_files import GATES_BEFORE, LIMIT_FILES
from limits import MAX_DELAY, MAX_DROP, MAX_GATES, MAX_STEPS, MAX_WIDTH, MAX_WIRES
from small_files import PLAIN, SMALL_FILES, head
from stored import store

# of the program's input
MOST_BYTES = 32_768
NOWHERE = 65535
# the delays of the wires from edition 2 on, one after another
DELAYS = [4095, 0, 256, 255, 1, 3840]
# the numbers for the switching of the input, of the first gate and of the others
SWITCHING = {1: (256, 256, 128), 2: (256, 256, 128), 3: (40001, 65535, 513)}


def two(number):
    return [number >> 8, number & 255]


def field(tag, body):
    return [tag] + two(len(body)) + body


def some_wires():
    """More wires than a file can have: from gate 0 to all others, from the last gate to all others, then to these two."""
    last = MAX_GATES - 1
    yield from ([0, b] for b in range(1, MAX_GATES))
    yield from ([last, b] for b in range(last))
    yield from ([a, b] for a in range(1, last) for b in (0, last))


class Whole:
    """A file of as many gates and wires as there can be, the first gate with 8 steps: its bytes, its size, and the offsets of
    some fields. One more wire stands behind it."""

    def __init__(self, edition):
        of_input, of_first, of_others = map(two, SWITCHING[edition])
        block = field(1, [edition, MAX_GATES] + two(0) + two(65535) + of_input)
        steps = [n for k in range(MAX_STEPS) for n in two(MAX_WIDTH) + two(MAX_DROP - k)]
        gates_at, wires_at = [], []
        for body in [two(MAX_DELAY) + of_first + steps] + [two(g) + of_others for g in range(MAX_GATES - 1)]:
            gates_at.append(len(block))
            block += field(2, body)
        for wire, delay in zip(islice(some_wires(), MAX_WIRES + 1), cycle(DELAYS)):
            wires_at.append(len(block))
            block += field(3, wire + two(delay)[: WIRE_LENGTH[edition] - 2])
        self.file = block
        self.first, self.second, self.third = gates_at[:3]
        self.last_gate = gates_at[-1]
        self.wire, self.wire_2, *_, self.last, self.size = wires_at
        # a wire from the same gate as the first, with the same delay
        self.wire_like_first = wires_at[len(DELAYS)]


# A case is how many bytes are read, and up to two changes.


def cut(*fields):
    """Cut at every byte of some fields, each from one offset to another."""
    for start, end in fields:
        for size in range(start, end + 1):
            yield size,


def sizes(whole):
    """Cut at every byte of the block field, of a gate, of two wires and of a 601st, and behind each."""
    yield whole.size,
    yield from cut((0, whole.first), (whole.second, whole.third), (whole.wire, whole.wire_2), (whole.last, len(whole.file)))


def tags_and_lengths(whole):
    for at in (0, whole.second, whole.wire):
        for tag in (0, 1, 2, 3, 4, 255):
            yield whole.size, (at, tag)
    for at in (0, whole.first, whole.second, whole.wire, whole.last):
        for size in (0, 1, 2, 3, 4, 7, 8, 9, 35, 36, 37, 40, 65535):
            yield whole.size, (at + 1, size >> 8), (at + 2, size & 255)


def gate_counts(whole):
    """Fewer gates than stand there, 65 among them, which were too many before K10, and more; more, and no gate there; a wire in
    place of the last gate; one byte of it missing."""
    for gates in (0, 1, GATES_BEFORE, GATES_BEFORE + 1, MAX_GATES - 1, MAX_GATES + 1, 255):
        yield whole.size, (4, gates)
    yield whole.first, (4, MAX_GATES + 1)
    yield whole.size, (whole.last_gate, 3)
    yield whole.wire - 1,


def ranges_and_drops(whole):
    # edition, p 257 of the input, arrival; p 128 of the input
    for edition in (0, 2, 3, 4, 255):
        yield whole.size, (3, edition)
    for change in ((10, 1), (5, 255)):
        yield whole.size, change
    yield whole.size, (9, 0), (10, 128)
    # of a gate: delay 4096, p 257, width 0 and 4096, drop 0 and 1001, drops equal, rising, and falling by more than 1
    body = whole.first + 3
    yield whole.size, (body, 16), (body + 1, 0)
    yield whole.size, (body + 3, 1)
    yield whole.size, (body + 4, 0), (body + 5, 0)
    yield whole.size, (body + 4, 16), (body + 5, 0)
    yield whole.size, (body + 6, 0), (body + 7, 0)
    yield whole.size, (body + 7, 1001 & 255)
    yield whole.size, (body + 11, 1000 & 255)
    yield whole.size, (body + 35, 999 & 255)
    yield whole.size, (body + 35, 768 & 255)


def wires(whole):
    """The first wire: to itself, twice, and beyond the gates."""
    wire, second, highest = whole.wire, whole.wire_2, MAX_GATES - 1
    yield whole.size, (wire + 4, 0)
    yield whole.size, (wire + 3, highest), (wire + 4, highest)
    # stood before: just behind, and far behind, between the first and the highest gate
    yield whole.size, (second + 4, 1)
    yield whole.size, (wire + 4, highest)
    yield whole.size, (wire + 3, highest), (wire + 4, 0)
    for gate in (highest + 1, 255):
        yield whole.size, (wire + 3, gate)
        yield whole.size, (wire + 4, gate)
        yield whole.size, (wire + 3, gate), (wire + 4, gate)


def last_wires(whole):
    """The 600th wire: between other gates, twice, to itself, beyond the gates; to itself before a 601st, whole and cut. Behind
    it any byte, and a 601st that stood before."""
    last, highest = whole.last, MAX_GATES - 1
    yield whole.size, (last + 3, 9), (last + 4, 8)
    for source, target in ((0, 1), (0, highest), (highest, 0), (1, 0), (0, 0), (highest, highest)):
        yield whole.size, (last + 3, source), (last + 4, target)
    for source, target in ((highest + 1, highest), (highest, highest + 1), (highest + 1, highest + 1), (255, 0)):
        yield whole.size, (last + 3, source), (last + 4, target)
    for size in (whole.size + 1, whole.size + 3, len(whole.file)):
        yield size, (last + 3, 0), (last + 4, 0)
    yield whole.size + 1, (whole.size, 0)
    yield len(whole.file), (whole.size + 3, 0), (whole.size + 4, 1)


def like_small_files(whole):
    """Faults of the small files that do not stand above, as near as two changes come to them."""
    first = whole.first
    # tag before length; length before short body; short body before a number's range
    yield 3, (0, 2), (2, 9)
    yield 3, (2, 9)
    yield 4, (3, 2)
    # no gate; p 257, one gate; one gate and no wire; one gate missing; a wire in its place; 9 steps without a body
    yield first, (4, 0)
    yield first, (4, 1), (10, 1)
    yield whole.second, (4, 1)
    yield first, (4, 1)
    yield first + 5, (first, 3), (first + 2, 2)
    yield first + 3, (first + 2, 40)
    # one byte behind a wire
    yield whole.wire_2 + 1,


def editions(whole):
    """The edition decides what length a wire has, and is judged before it."""
    wire = whole.wire
    for edition in (0, 1, 2, 3, 4, 255):
        yield whole.size, (3, edition)
    yield whole.size, (3, 4), (wire + 2, 9)
    # edition 1 with a first wire of 2 bytes, behind which no tag stands; a wire of 2 bytes in edition 2
    yield whole.size, (3, 1), (wire + 2, 2)
    yield whole.size, (wire + 2, 2)
    # no wire; one gate, in each edition
    yield wire,
    for edition in (1, 2, 3, 4):
        yield whole.second, (4, 1), (3, edition)


def wire_fields(whole):
    """Cut at every byte of two wires and of a 601st; tags and lengths."""
    yield whole.size,
    yield from cut((whole.wire, whole.wire_2 + 1), (whole.last, len(whole.file)))
    for tag in (0, 1, 2, 4, 255):
        yield whole.size, (whole.wire, tag)
    for at in (whole.wire, whole.last):
        for size in (0, 1, 2, 3, 4, 5, 6, 8, 260, 65535):
            yield whole.size, (at + 1, size >> 8), (at + 2, size & 255)
    # a wrong tag with a wrong length; a wrong length without a body; a body short of numbers out of range
    yield whole.size, (whole.wire, 2), (whole.wire + 2, 5)
    yield whole.wire + 3, (whole.wire + 2, 5)
    yield whole.wire + 6, (whole.wire + 4, 255), (whole.wire + 5, 255)


def wire_delays(whole):
    """In and out of range, in the first wire and the last; the two bytes one by one."""
    for delay in (0, 1, 255, 256, 257, 3840, 4094, 4095, 4096, 4097, 4351, 32768, 65535):
        yield whole.size, (whole.wire + 5, delay >> 8), (whole.wire + 6, delay & 255)
    for delay in (4095, 4096, 65535):
        yield whole.size, (whole.last + 5, delay >> 8), (whole.last + 6, delay & 255)
    # only the first wire is there
    for delay in (0, 256, 4095, 4096):
        yield whole.wire_2, (whole.wire + 5, delay >> 8), (whole.wire + 6, delay & 255)


def wires_with_delays(whole):
    """Ends and delays together: 4 before 6, and a second wire whatever its delay."""
    wire, second, like_first = whole.wire, whole.wire_2, whole.wire_like_first
    # the delay out of range: to itself; stood before; beyond the gates
    yield whole.size, (wire + 4, 0), (wire + 5, 16)
    yield whole.size, (second + 4, 1), (second + 5, 16)
    yield whole.size, (wire + 4, MAX_GATES), (wire + 5, 255)
    # stood before with the same delay, and with others
    yield whole.size, (like_first + 4, 1)
    yield whole.size, (like_first + 4, 1), (like_first + 6, 254)
    yield whole.size, (whole.last + 3, 0), (whole.last + 4, 2)
    # two faults: the delay of the first wire, and the tag or the length of the second
    yield whole.size, (wire + 5, 16), (second, 2)
    yield whole.size, (wire + 5, 16), (second + 2, 2)


def probabilities(whole):
    """p 257 and 512 of the input, and of a gate."""
    for high, low in ((9, 10), (whole.first + 5, whole.first + 6)):
        yield whole.size, (low, 1)
        yield whole.size, (high, 2)


def activities(whole):
    """Every number of the input and of gates is in range; high byte and low byte."""
    for number in (0, 1, 255, 256, 257, 511, 512, 32767, 32768, 32769, 65280, 65534, 65535):
        yield whole.size, (9, number >> 8), (10, number & 255)
        yield whole.size, (whole.first + 5, number >> 8), (whole.first + 6, number & 255)
    for number in (0, 256, 257, 65535):
        yield whole.size, (whole.third + 5, number >> 8), (whole.third + 6, number & 255)


def editions_of_activities(whole):
    """Another edition: the number of the input is out of range in 1 and 2, and where it is not, that of the first gate."""
    for edition in (0, 1, 2, 4, 5, 255):
        yield whole.size, (3, edition)
    for edition in (1, 2):
        yield whole.size, (3, edition), (9, 0)
    yield whole.size, (3, 4), (whole.wire + 2, 2)


def faults_beside_activities(whole):
    """Each field cut behind its number's high byte, a 601st wire cut and whole; a gate's delay, width, drop and falling drops;
    lengths and delays of a wire."""
    body, wire = whole.first + 3, whole.wire
    for size in (10, 11, body + 3, body + 4, wire, wire + 3, wire + 6, whole.wire_2):
        yield size,
    for size in (whole.size, whole.size + 1, whole.size + 3, len(whole.file)):
        yield size,
    yield whole.size, (body, 16), (body + 1, 0)
    yield whole.size, (body + 4, 0), (body + 5, 0)
    yield whole.size, (body + 6, 3), (body + 7, 233)
    yield whole.size, (body + 11, 1000 & 255)
    for size in (0, 2, 3, 5, 260):
        yield whole.size, (wire + 1, size >> 8), (wire + 2, size & 255)
    for delay in (0, 256, 4095, 4096, 65535):
        yield whole.size, (wire + 5, delay >> 8), (wire + 6, delay & 255)


CASES = {
    1: (sizes, tags_and_lengths, gate_counts, ranges_and_drops, wires, last_wires, like_small_files),
    2: (wire_fields, editions, gate_counts, wire_delays, wires, last_wires, wires_with_delays, probabilities),
    3: (activities, editions_of_activities, gate_counts, faults_beside_activities, wires, last_wires),
}


def outcome(file):
    """What the reading comes to: a refusal's number and place, or all that is told of the block."""
    try:
        return "read", read(file)
    except Refused as refused:
        return "refused", refused.args


def check_by_hand():
    """The reader agrees with what was found by hand, and says the activity of the input."""
    for file, right in SMALL_FILES + LIMIT_FILES:
        word, numbers = outcome(list(file))
        assert (numbers[1] if word == "read" else numbers) == right, file
    for edition, switching, right in ((1, 1, 510), (2, 128, 32768), (3, 1, 1), (3, 128, 128), (3, 257, 257), (3, 65535, 65535)):
        assert read(list(head(1, *two(switching), edition) + PLAIN))[4] == right, (edition, switching)


def group(edition):
    """The bytes of a group, and the lines that its cases come to."""
    whole = Whole(edition)
    cases, lines = [], []
    for size, *changes in chain.from_iterable(make(whole) for make in CASES[edition]):
        file = list(whole.file)
        cases += two(size)
        for place, byte in (changes + 2 * [(NOWHERE, 0)])[:2]:
            cases += two(place) + [byte]
            if place < len(file):
                file[place] = byte
        word, numbers = outcome(file[:size])
        lines.append(" ".join([word, *map(str, numbers)]) + "\n")
    return two(len(whole.file)) + two(len(lines)) + whole.file + cases, lines


def main():
    check_by_hand()
    groups = [group(edition) for edition in CASES]
    given = bytes(byte for some, _ in groups for byte in some)
    store(given, "".join(line for _, lines in groups for line in lines), MOST_BYTES)
    print("blockfile_cases: %s files" % " and ".join(str(len(lines)) for _, lines in groups))


main()

"""Block files at the limits of gates and wires (document 02, K10), with what the reading of each comes to, by hand: number and
place of the refusal, or the count of wires. The gates stand in the order of the wires, but where a loop is closed."""

from itertools import islice

from limits import MAX_GATES, MAX_WIRES
from small_files import PLAIN, head

EDITIONS = (1, 2, 3)
# the most that document 01 allowed
GATES_BEFORE, WIRES_BEFORE = 64, 256
# the bytes of a wire, and delays that it can have
WIRE_BYTES = {1: 5, 2: 7, 3: 7}
WIRE_DELAYS = {1: [0], 2: [0, 1], 3: [0, 1]}
# a gate with 8 steps
STEPPED = bytes([2, 0, 36, 0, 1, 0, 128]) + b"".join(bytes([15, 255, 0, drop]) for drop in range(8, 0, -1))
# the bytes of the longest file: 11, a gate 39, a wire 5 or 7
LONGEST = {1: 10_811, 2: 12_011, 3: 12_011}


def forward(gates):
    """Pairs of gates, the first of each below the second: the chain of all gates, then those further and further apart."""
    return ((a, a + far) for far in range(1, gates) for a in range(gates - far))


def wire(edition, ends, delay=0):
    """A wire, from edition 2 on with its delay."""
    return bytes([3, 0, WIRE_BYTES[edition] - 3, *ends] + [0, delay][: WIRE_BYTES[edition] - 5])


def network(edition, gates, wires, gate=PLAIN):
    return head(gates, 0, 128, edition) + gate * gates + b"".join(wire(edition, ends) for ends in islice(forward(gates), wires))


def full(edition):
    """As many gates and wires as there can be."""
    return network(edition, MAX_GATES, MAX_WIRES)


def with_last(edition, ends, delay=0):
    """The same with another last wire."""
    return network(edition, MAX_GATES, MAX_WIRES - 1) + wire(edition, ends, delay)


def refused_before(edition):
    """One gate and one wire more than document 01 allowed."""
    return network(edition, GATES_BEFORE + 1, WIRES_BEFORE + 1)


def files(edition):
    """The files that are read, or refused with 1 to 7."""
    last, last_wire = MAX_GATES - 1, 11 + 7 * MAX_GATES + WIRE_BYTES[edition] * (MAX_WIRES - 1)
    end = last_wire + WIRE_BYTES[edition]
    # gates: as many as there can be, one more, and 255; more than before, and one of them missing
    yield network(edition, MAX_GATES, MAX_GATES - 1), MAX_GATES - 1
    for gates in (MAX_GATES + 1, 255):
        yield network(edition, gates, gates - 1), (4, 0)
    yield network(edition, GATES_BEFORE + 1, GATES_BEFORE), GATES_BEFORE
    yield refused_before(edition), WIRES_BEFORE + 1
    yield head(GATES_BEFORE + 1, 0, 128, edition) + PLAIN * GATES_BEFORE + wire(edition, (0, 1)), (2, 11 + 7 * GATES_BEFORE)
    # wires: as many as there can be; the last one cut; a byte, a header and a wire behind it
    yield full(edition), MAX_WIRES
    yield full(edition)[:-1], (1, last_wire)
    for behind in (b"\3", b"\0", wire(edition, (0, last))[:3], wire(edition, (0, last)), wire(edition, (0, 1))):
        yield full(edition) + behind, (7, end)
    # the last wire: between the highest gates, beyond them, to itself, and twice, from edition 2 on with another delay
    yield with_last(edition, (last - 9, last)), MAX_WIRES
    for ends in ((last, last + 1), (last + 1, 0), (last + 1, last + 1), (0, 255)):
        yield with_last(edition, ends), (4, last_wire)
    for ends in ((last, last), (0, 1), (last - 1, last), (3, 6)):
        for delay in WIRE_DELAYS[edition]:
            yield with_last(edition, ends, delay), (6, last_wire)
    # the longest file; a byte less and a byte more
    longest = network(edition, MAX_GATES, MAX_WIRES, STEPPED)
    yield longest, MAX_WIRES
    yield longest[:-1], (1, LONGEST[edition] - WIRE_BYTES[edition])
    yield longest + b"\3", (7, LONGEST[edition])


LIMIT_FILES = [case for edition in EDITIONS for case in files(edition)]
# files that can be read, whose last wire closes a loop: the refusal of the network
LOOPED_FILES = [
    (with_last(edition, ends), (8, ends[1]))
    for edition in EDITIONS
    for ends in ((MAX_GATES - 1, 0), (MAX_GATES - 1, MAX_GATES - 2), (MAX_GATES - 2, MAX_GATES - 4))
]

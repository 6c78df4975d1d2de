#!/usr/bin/env python3
"""calls_cases.py DIR: writes DIR/stdin and DIR/stdout of the program calls_cases.
calls_cases.py --check DIR: says whether they still are what it would write.

stdin: records, each the length of a block file (2 bytes, high byte first), four increases of 4 bytes each, and the file's bytes.
stdout: for each record what document 01, and K2, K3 and K10 in document 02, say of the slacks, to six lent elements and to
three, and of the judging of the four increases and of the first three, by the reader of second_opinion.py, which shares nothing
with the crate. Lent elements that are not written stay 77777; a slack below 0 is printed as late."""
from pathlib import Path

from limit_files import EDITIONS, LIMIT_FILES, LOOPED_FILES, full, refused_before
from second_opinion import Block, Refused
from small_files import SMALL_FILES
from stored import store

# of the program's input
MOST_BYTES = 65_536
ROOT = Path(__file__).resolve().parents[2]
UNWRITTEN = 77777


def two(number):
    return bytes([number >> 8, number & 255])


def field(tag, body):
    return bytes([tag]) + two(len(body)) + body


def block_file(deadline, gates, wires, arrival=0, switching=128, delays=None, edition=None):
    """Gates are (delay, number for the switching of the output, steps). Where no edition is said, it is of edition 2 with
    delays of the wires, else of edition 1."""
    edition = edition or (1 if delays is None else 2)
    file = field(1, bytes([edition, len(gates)]) + two(arrival) + two(deadline) + two(switching))
    for delay, gate_switching, steps in gates:
        file += field(2, two(delay) + two(gate_switching) + b"".join(two(w) + two(d) for w, d in steps))
    behind = [b""] * len(wires) if delays is None else map(two, delays)
    return file + b"".join(field(3, bytes(wire) + delay) for wire, delay in zip(wires, behind))


def diamond(deadline, arrival=0, delays=None, edition=None, switching=(128,) * 5):
    """D, with these numbers for the switching of its input and of its gates' outputs."""
    steps = [[], [(2, 5), (3, 2)], [(4, 4)], [(5, 6)]]
    of_input, *of_gates = switching
    gates = list(zip([2, 3, 1, 2], of_gates, steps))
    return block_file(deadline, gates, [(0, 1), (0, 2), (1, 3), (2, 3)], arrival, of_input, delays, edition)


def measured_diamond(deadline, activities, delays=(0,) * 4):
    """D in edition 3, with these activities of its input and of its gates' outputs."""
    return diamond(deadline, delays=delays, edition=3, switching=activities)


def measured_gate(activity, edition=3):
    """One gate, delay 5, step (2,3), deadline 8, with this activity of its input."""
    return block_file(8, [(5, 65535, [(2, 3)])], [], switching=activity, edition=edition)


def plain(n, wires, deadline=100):
    return block_file(deadline, [(1, 128, [])] * n, wires)


def records():
    for increases in [(0, 0, 0, 3), (0, 0, 2, 4), (0, 6, 0, 0), (0, 0, 2, 3), (0, 2, 4, 5), (2**32 - 1,) * 4]:
        yield diamond(10), increases
    yield diamond(14), (0, 2, 4, 5)
    yield diamond(6), (0, 0, 0, 0)
    yield diamond(7, arrival=65535), (0, 0, 0, 0)
    yield b"", (0, 0, 0, 0)
    yield diamond(10)[:20], (0, 0, 0, 0)
    yield diamond(10) + b"\3", (0, 0, 0, 0)
    lone = [(5, 128, [(2, 3)])]
    yield block_file(8, lone, []), (2, 0, 0, 0)
    yield block_file(8, lone, []), (3, 0, 0, 0)
    yield block_file(8, lone, [], switching=0), (2, 0, 0, 0)
    yield plain(4, [(0, 1), (0, 2), (1, 2), (1, 3), (2, 3)]), (0, 0, 0, 0)
    yield plain(4, [(0, 1), (1, 2), (2, 1), (2, 3)]), (0, 0, 0, 0)
    yield plain(4, [(0, 1), (1, 3)]), (0, 0, 0, 0)
    yield plain(3, [(0, 1), (1, 2), (2, 0)]), (0, 0, 0, 0)
    yield plain(3, [(2, 1), (1, 0)]), (0, 0, 0, 0)
    yield plain(7, [(g, g + 1) for g in range(6)]), (0, 0, 0, 0)
    chain = [(4095, 128, [(4095, 1000), (4095, 999)])] * 3
    yield block_file(65535, chain, [(0, 1), (1, 2)]), (8190, 8190, 8190, 7)
    yield block_file(65535, chain, [(0, 1), (1, 2)]), (8190, 8191, 8190, 7)
    yield diamond(7), (0, 0, 2, 0)
    yield from delayed_records()
    for file, _ in SMALL_FILES:
        yield file, (0, 0, 0, 0)
    for file, increases, _ in measured_records():
        yield file, increases
    for file in limit_files():
        yield file, (0, 0, 0, 0)


def limit_files():
    """Files at the limits of gates and wires in every edition, and with more of both than document 01 allowed; files whose last
    wire closes a loop, and with a byte behind it."""
    for edition in EDITIONS:
        yield full(edition)
        yield refused_before(edition)
    yield LOOPED_FILES[0][0]
    yield LOOPED_FILES[-1][0]
    yield full(2) + b"\3"


def delayed_records():
    """Records of edition 2."""
    # the best list; late only by the delay of 0-1, and only by that of 2-3
    for increases in [(0, 0, 1, 4), (0, 1, 0, 4), (0, 0, 2, 4)]:
        yield diamond(12, delays=[1, 0, 0, 2]), increases
    yield diamond(12, delays=[0, 4, 0, 0]), (0, 2, 0, 3)
    yield diamond(65535, delays=[4095, 256, 255, 1]), (0, 2, 4, 5)
    # late by one tick, and with no tick to spare; late by far
    yield diamond(7, delays=[1, 0, 0, 2]), (0, 0, 0, 0)
    yield diamond(8, delays=[1, 0, 0, 2]), (0, 0, 1, 0)
    yield diamond(0, arrival=65535, delays=[4095, 0, 4095, 0]), (0, 0, 0, 0)
    # a wire beside a chain is the slower of the two; wires in series
    beside = [(1, 128, []), (1, 128, [(4, 3)]), (1, 128, [])]
    yield block_file(6, beside, [(0, 1), (1, 2), (0, 2)], delays=[0, 0, 4]), (0, 3, 0, 0)
    yield block_file(6, beside, [(0, 1), (1, 2), (0, 2)], delays=[0, 1, 4]), (0, 3, 0, 0)
    yield block_file(12300, beside, [(0, 1), (1, 2)], delays=[4095, 4095]), (0, 4, 0, 0)
    # a bridge
    across = [(0, 1), (0, 2), (1, 2), (1, 3), (2, 3)]
    yield block_file(20, [(1, 128, [(4, 3)])] * 4, across, delays=[3, 1, 4, 1, 5]), (1, 0, 0, 1)


def measured_records():
    """Records of edition 3, with what judging says of the four increases, by hand."""
    low, counter = (1, 3, 5, 7, 11), (32768, 16384, 8192, 4096, 2048)
    yield measured_diamond(10, low), (0, 0, 2, 3), 240
    yield measured_diamond(10, low), (0, 2, 4, 1), 150
    yield measured_diamond(10, low), (0, 0, 2, 4), (14, 0)
    yield measured_diamond(10, low), (0, 6, 0, 0), (13, 1)
    yield measured_diamond(14, (65535,) * 5), (0, 2, 4, 5), 5636010
    yield measured_diamond(10, counter), (0, 2, 4, 1), 499712
    yield measured_diamond(14, (0,) * 5), (0, 2, 4, 5), 0
    yield measured_diamond(14, (9, 0, 5, 7, 11)), (0, 2, 4, 5), 360
    # with wire delays; late only by that of 2-3; with no tick to spare
    yield measured_diamond(12, low, [1, 0, 0, 2]), (0, 0, 1, 4), 300
    yield measured_diamond(12, low, [1, 0, 0, 2]), (0, 0, 2, 4), (14, 0)
    yield measured_diamond(8, low, [1, 0, 0, 2]), (0, 0, 1, 0), 12
    # both bytes of an activity count; nothing comes of a formula
    for activity, saving in ((0, 0), (1, 6), (128, 768), (256, 1536), (257, 1542), (32769, 196614), (65535, 393210)):
        yield measured_gate(activity), (2, 0, 0, 0), saving
    # a number above 256 in editions 1 and 2; edition 4; wires of 2 bytes in edition 3
    yield measured_gate(257, edition=1), (2, 0, 0, 0), (4, 0)
    yield diamond(10, delays=[0] * 4, edition=2, switching=(1, 3, 257, 7, 11)), (0, 0, 2, 3), (4, 18)
    yield diamond(10, delays=[0] * 4, edition=4), (0, 0, 2, 3), (4, 0)
    yield diamond(10, edition=3), (0, 0, 2, 3), (3, 55)


def answered(call):
    try:
        return call()
    except Refused as refused:
        return refused


def refusal(refused):
    return " refused %d %d" % refused.args


def slacks_line(block, lent):
    elements = [UNWRITTEN] * lent
    if isinstance(block, Refused):
        said = refusal(block)
    elif lent < block.n:
        said = " refused 10 %d" % block.n
    else:
        said = " %d" % block.n
        elements[: block.n] = block.slacks()
    return "slacks" + said + " :" + "".join(" %d" % x if x >= 0 else " late" for x in elements)


def judge_line(block, increases):
    if isinstance(block, Refused):
        return "judge" + refusal(block)
    if len(increases) < block.n:
        return "judge refused 10 %d" % block.n
    saved = answered(lambda: block.judge(increases))
    return "judge" + (refusal(saved) if isinstance(saved, Refused) else " %d" % saved)


def check_by_hand():
    """The bytes of D, without and with wire delays and with measured activities, are those stored; the reader agrees with what
    was found by hand."""
    assert diamond(10) == (ROOT / "examples" / "diamond.block").read_bytes()
    delayed = diamond(12, delays=[1, 0, 0, 2])
    assert delayed == (ROOT / "examples" / "delays.block").read_bytes()
    assert Block(delayed).slacks() == [4, 4, 5, 4] and Block(delayed).judge([0, 0, 1, 4]) == 52 * 32768
    assert measured_diamond(10, (32768, 16384, 8192, 4096, 2048)) == (ROOT / "examples" / "measured.block").read_bytes()
    for file, increases, right in measured_records():
        judged = answered(lambda: Block(file).judge(increases))
        assert (judged.args if isinstance(judged, Refused) else judged) == right, file
    for file, right in SMALL_FILES + LIMIT_FILES + LOOPED_FILES:
        block = answered(lambda: Block(file))
        assert (block.args if isinstance(block, Refused) else len(block.wires)) == right, file


def main():
    check_by_hand()
    given, said, count = b"", "", 0
    for file, increases in records():
        given += two(len(file)) + b"".join(x.to_bytes(4, "big") for x in increases) + file
        block = answered(lambda: Block(file))
        lines = [slacks_line(block, 6), slacks_line(block, 3), judge_line(block, increases), judge_line(block, increases[:3])]
        said += "".join(line + "\n" for line in lines)
        count += 1
    store(given, said, MOST_BYTES)
    print("calls_cases: %d records" % count)


main()

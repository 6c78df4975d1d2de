"""Hand-made block files and the refusals that host/python finds for a file; what every refusal in words must hold."""

import importlib
import sys
import unittest
from dataclasses import replace
from itertools import permutations
from pathlib import Path

from netlist import MAX_DROP, MAX_GATES, MAX_STEPS, Gate, Netlist, Step, Wire, encode
from words import GENERAL, refusal_in_words

HOST_PYTHON = Path(__file__).resolve().parents[2] / "python"


def from_host_python(name):
    """A module of host/python; its own imports come from there too, and leave no module behind under their names."""
    theirs = {file.stem for file in HOST_PYTHON.glob("*.py")}
    ours = {module: sys.modules.pop(module) for module in theirs & set(sys.modules)}
    sys.path.insert(0, str(HOST_PYTHON))
    try:
        return importlib.import_module(name)
    finally:
        sys.path.remove(str(HOST_PYTHON))
        for module in theirs & set(sys.modules):
            del sys.modules[module]
        sys.modules.update(ours)


file_reader = from_host_python("file_reader")
second_opinion = from_host_python("second_opinion")


def two(*numbers):
    return b"".join(bytes([n >> 8, n & 255]) for n in numbers)


def a_field(tag, body):
    return bytes([tag]) + two(len(body)) + body


def head(gates, edition=1, deadline=100, switching=128):
    return a_field(1, bytes([edition, gates]) + two(0, deadline, switching))


def gate(*numbers):
    return a_field(2, two(*numbers))


def wire(source, target, delay=None):
    return a_field(3, bytes([source, target]) + (b"" if delay is None else two(delay)))


def network(gates, *wires, deadline=100):
    """A file of edition 1 whose gates last 1 tick and have no steps."""
    return head(gates, deadline=deadline) + gate(1, 128) * gates + b"".join(wire(a, b) for a, b in wires)


def diamond(deadline=10):
    """Block D of document 01. Its fields begin at 0, 11, 18, 33, 44, 55, 60, 65 and 70; it has 75 bytes."""
    gates = gate(2, 128) + gate(3, 128, 2, 5, 3, 2) + gate(1, 128, 4, 4) + gate(2, 128, 5, 6)
    return head(4, deadline=deadline) + gates + wire(0, 1) + wire(0, 2) + wire(1, 3) + wire(2, 3)


BRIDGE = [(0, 1), (0, 2), (1, 2), (1, 3), (2, 3)]
# gates with more wires between them than a file can have
MANY_GATES = 26
MANY_WIRES = list(permutations(range(MANY_GATES), 2))


def longest_curve():
    """A chain with as many pairs as there can be, and these: the ticks of each step of each gate gain something else."""
    activities = range(65_535, 65_535 - MAX_GATES, -1)
    steps = tuple(Step(1, MAX_DROP - 100 * k) for k in range(MAX_STEPS))
    gates = tuple(Gate(1, activity, steps) for activity in (*activities[1:], 0))
    wires = tuple(Wire(gate, gate + 1) for gate in range(MAX_GATES - 1))
    block = Netlist(3, 0, 65_535, activities[0], gates, wires)
    return encode(block), [(1, step.drop * activity) for step in steps for activity in activities]


def largest_gain():
    """As many wires into the last gate as there can be, which alone can be slowed."""
    last = MAX_GATES - 1
    between = [wire for gate in range(1, last) for wire in (Wire(0, gate), Wire(gate, last))]
    gates = (*[Gate(1, 65_535)] * last, Gate(1, 65_535, (Step(5, MAX_DROP),)))
    return encode(Netlist(3, 0, 6, 65_535, gates, (*between, Wire(0, last))))


def with_names(netlist, names):
    """The same netlist with these names of the gates."""
    return replace(netlist, gates=tuple(replace(gate, name=name) for gate, name in zip(netlist.gates, names)))


def refused_by_reader(file):
    """Number and place of 1 to 7."""
    try:
        file_reader.read(file)
    except file_reader.Refused as refused:
        return refused.args
    return None


def refused_by_block(file):
    """Number and place of 1 to 9, 11 and 12, or None."""
    try:
        block = second_opinion.Block(file)
    except second_opinion.Refused as refused:
        return refused.args
    place = second_opinion.lowest_left(block.n, tuple(block.wires))
    if place is not None:
        return 11, place
    return (12, 0) if block.spare() < 0 else None


class RefusalTest(unittest.TestCase):
    def holds(self, file, number, place, *lines, **known):
        self.assertEqual(refusal_in_words(file, number, place, **known), list(lines))

    def refused(self, file, number, place, *lines):
        """As holds, and the other readers refuse the file in the same way."""
        self.assertEqual(refused_by_block(file), (number, place))
        if number <= 7:
            self.assertEqual(refused_by_reader(file), (number, place))
        self.holds(file, number, place, *lines)

    def general(self, file, number, place, **known):
        self.holds(file, number, place, f"refused {number}, place {place}: {GENERAL[number]}", **known)

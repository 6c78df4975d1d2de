"""Modules of yosys' JSON for the tests of the import, and what every import must hold."""

import json
import unittest
from pathlib import Path

from cells import read_cells
from importing import import_json
from naming import CannotImport
from netlist import MAX_GATES, MAX_WIRES

EXAMPLES = Path(__file__).resolve().parents[3] / "examples" / "yosys"
TABLE = """
cell AND delay 3 steps (2,5) (3,2)   # two pins
cell NOT delay 1
cell MUX delay 4 steps (1,9)
p 128
"""


def cell(kind, reads, drives):
    """A cell of the JSON: its type and the nets on its input and output pins, one bit each or a list of bits."""
    directions = {**dict.fromkeys(reads, "input"), **dict.fromkeys(drives, "output")}
    pins = {pin: bits if isinstance(bits, list) else [bits] for pin, bits in {**reads, **drives}.items()}
    return {"hide_name": 0, "type": kind, "port_directions": directions, "connections": pins}


def both(a, b, y, kind="AND"):
    return cell(kind, {"A": a, "B": b}, {"Y": y})


def inverter(a, y):
    return cell("NOT", {"A": a}, {"Y": y})


def design(inputs, outputs, cells, nets=None):
    """The text of a JSON with one module: the bits of each port, the cells, and names of nets besides the ports'."""
    ports = {name: {"direction": "input", "bits": bits} for name, bits in inputs.items()}
    ports.update((name, {"direction": "output", "bits": bits}) for name, bits in outputs.items())
    named = {**inputs, **outputs, **(nets or {})}
    module = {"ports": ports, "cells": cells, "netnames": {name: {"bits": bits} for name, bits in named.items()}}
    return json.dumps({"creator": "Yosys", "modules": {"m": module}})


def one_and(cells=None, inputs=None, outputs=None):
    """The module y = a & b, with some part put in another's place."""
    cells = {"u1": both(2, 3, 4)} if cells is None else cells
    return design({"a": [2], "b": [3]} if inputs is None else inputs, {"y": [4]} if outputs is None else outputs, cells)


def imported(text, table=TABLE, **options):
    return import_json(text, read_cells(table), **options)


def value_at(tree, path):
    for key in path:
        tree = tree[key]
    return tree


def ends(netlist):
    return [(wire.source, wire.target) for wire in netlist.wires]


class Checks(unittest.TestCase):
    def assert_well_formed(self, netlist):
        """No refusal of 1 to 9, and names that the text form can say."""
        count, wires = len(netlist.gates), ends(netlist)
        self.assertLessEqual(count, MAX_GATES)
        self.assertLessEqual(len(wires), MAX_WIRES)
        self.assertTrue(all(0 <= a < b < count for a, b in wires), "a wire does not lead forward")
        self.assertEqual(len(set(wires)), len(wires), "a doubled wire")
        self.assertEqual({b for _, b in wires}, set(range(1, count)), "a gate without a wire in")
        self.assertEqual({a for a, _ in wires}, set(range(count - 1)), "a gate without a wire out")
        self.assertTrue(all(0 <= time <= 65535 for time in (netlist.arrival, netlist.deadline)))
        names = [gate.name for gate in netlist.gates]
        self.assertEqual(len(set(names)), count, "a name stands twice")
        for name in names:
            self.assertTrue(1 <= len(name) <= 64 and name.isprintable() and not set(name) & set(" #"), repr(name))

    def refused(self, text, table=TABLE, **options):
        """The reason for which there is no block: one line."""
        with self.assertRaises(CannotImport) as caught:
            imported(text, table, **options)
        reason = str(caught.exception)
        self.assertTrue(reason and reason.isprintable(), repr(reason))
        return reason

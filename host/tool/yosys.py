"""A module of a netlist that yosys wrote as JSON (`write_json`): its input bits, cells, output bits and nets.

What is no such JSON is refused in words, and so are a module without inputs, outputs or cells, and cells whose type is none of
a block's gates.
"""

import json
import re
from dataclasses import dataclass
from typing import Optional

from naming import CannotImport, clean, listed, short

NO_NETLIST = "this JSON is no netlist of yosys"
CONSTANTS = ("0", "1", "x", "z")
TO_GATES = "'synth -flatten' and 'abc -g AND,OR,XOR' in yosys"
# modules that only show the pins of a cell
CLOSED = ("blackbox", "whitebox")
# cells that only keep the names of a flattened module
WITHOUT_PINS = ("$scopeinfo",)
REGISTER = re.compile(r"\$_?(S|A|AL)?(DFF|DLATCH|FF|SR)(E|CE|SR|SRE)?(_[PN01]*_?)?", re.IGNORECASE)


@dataclass(frozen=True)
class Cell:
    """A cell of the module: the nets on its input pins and on its output pins, each as (pin, net), without pins on constants.
    An input bit of the module is a cell without a type that reads nothing and drives from a pin of its own name."""

    name: str
    type: Optional[str]
    reads: tuple
    drives: tuple

    @property
    def is_input(self):
        return self.type is None

    def called(self, pin):
        """A pin in a message."""
        return f"input {short(self.name)}" if self.is_input else f"pin {short(pin)} of cell {short(self.name)}"

    def pin_name(self, pin):
        return self.name if self.is_input else f"{self.name}.{pin}"


@dataclass(frozen=True)
class Module:
    """A module: its input bits and behind them its cells, its output bits as (name, bit), its nets as (name, bits, names of the
    bits). A bit is a net's number or a constant."""

    cells: tuple
    outputs: tuple
    nets: tuple


def is_net(bit):
    return not isinstance(bit, str)


def _keys_once(pairs):
    """A JSON object in which no key stands twice."""
    found = {}
    for key, value in pairs:
        if key in found:
            raise CannotImport(f"the JSON has '{short(key)}' twice in one object")
        found[key] = value
    return found


def _parsed(text):
    try:
        return json.loads(text, object_pairs_hook=_keys_once)
    except RecursionError:
        raise CannotImport(f"{NO_NETLIST}: it is nested too deeply") from None
    except json.JSONDecodeError as error:
        raise CannotImport(f"this is no JSON: line {error.lineno}, column {error.colno}: {error.msg}") from None
    except ValueError:
        raise CannotImport(f"{NO_NETLIST}: it has a number of too many digits") from None


def _object(holder, key, of):
    """An object within an object of the JSON; empty if it is not there."""
    found = holder.get(key, {})
    if not isinstance(found, dict):
        raise CannotImport(f"{NO_NETLIST}: '{key}' of {of} is no object")
    return found


def _entries(holder, key, of):
    """The objects within an object of the JSON, with their names."""
    entries = _object(holder, key, of)
    for name, entry in entries.items():
        if not isinstance(entry, dict):
            raise CannotImport(f"{NO_NETLIST}: {short(name)} in '{key}' of {of} is no object")
    return entries.items()


def _is_set(module, name, attribute):
    value = _object(module, "attributes", f"module {short(name)}").get(attribute, 0)
    return "1" in value if isinstance(value, str) else value == 1


def read_modules(text):
    """The modules of a JSON by name, as they stand there, without those that only show the pins of a cell."""
    parsed = _parsed(text)
    if not isinstance(parsed, dict) or not isinstance(parsed.get("modules"), dict):
        raise CannotImport(f"{NO_NETLIST}: it has no modules")
    modules = dict(_entries(parsed, "modules", "the JSON"))
    return {name: module for name, module in modules.items() if not any(_is_set(module, name, word) for word in CLOSED)}


def chosen_name(modules, wanted):
    """The name of the module that is meant: the one wanted, else the only one, else the one that yosys marked as top."""
    if not modules:
        raise CannotImport("the JSON has no module")
    if wanted is not None:
        if wanted not in modules:
            raise CannotImport(f"there is no module {short(wanted)}; there is {listed(map(short, modules))}")
        return wanted
    top = [name for name, module in modules.items() if _is_set(module, name, "top")]
    found = top if len(top) == 1 else list(modules)
    if len(found) > 1:
        raise CannotImport(f"there are several modules, of which one must be named: {listed(map(short, found))}")
    return found[0]


def _bits(bits, of):
    """The bits of a port, pin or net: numbers of nets, and constants."""
    if not isinstance(bits, list):
        raise CannotImport(f"{NO_NETLIST}: the bits of {of} are no list")
    for bit in bits:
        if type(bit) is not int and bit not in CONSTANTS:
            raise CannotImport(f"{NO_NETLIST}: a bit of {of} is neither a net's number nor one of 0, 1, x, z")
    return bits


def _bit_names(name, entry, width):
    """The names of the bits of a port or net: name[bit], or the name alone where one bit is all."""
    offset = entry.get("offset", 0)
    if type(offset) is not int:
        raise CannotImport(f"{NO_NETLIST}: the offset of {short(name)} is no number")
    if width == 1 and offset == 0:
        return [name]
    numbers = range(offset, offset + width)
    return [f"{name}[{number}]" for number in (reversed(numbers) if entry.get("upto") else numbers)]


def _ports(module, of):
    """The input bits and the output bits of a module, each as (name, bit)."""
    found = {"input": [], "output": []}
    for name, port in _entries(module, "ports", of):
        direction = port.get("direction")
        if direction == "inout":
            raise CannotImport(f"port {short(name)} is inout; a block has inputs and outputs alone")
        if direction not in ("input", "output"):
            raise CannotImport(f"{NO_NETLIST}: port {short(name)} is neither input nor output")
        bits = _bits(port.get("bits"), f"port {short(name)}")
        found[direction] += zip(_bit_names(name, port, len(bits)), bits)
    return found["input"], found["output"]


def _fault_of_type(type_name, modules):
    """Why a type of cell is none of a block's gates."""
    if REGISTER.fullmatch(type_name):
        return "registers, and a block lies between registers"
    if type_name in modules:
        return "submodules, which 'flatten' in yosys takes apart"
    if type_name.startswith("$") and not type_name.startswith("$_"):
        return f"word-level cells, which {TO_GATES} turn into gates"
    return "types that are not in the table"


def _check_types(cells, types, modules):
    """Refuses every type that the table lacks, and registers whatever the table says."""
    faults = {}
    for name, cell in cells:
        type_name = cell.get("type")
        if not isinstance(type_name, str):
            raise CannotImport(f"{NO_NETLIST}: cell {short(name)} has no type")
        if clean(type_name) not in types or REGISTER.fullmatch(type_name):
            faults.setdefault(_fault_of_type(type_name, modules), {}).setdefault(type_name, name)
    reasons = []
    for fault, first_cells in faults.items():
        said = (f"{short(type_name)} (cell {short(name)})" for type_name, name in first_cells.items())
        reasons.append(f"{fault}: {listed(said)}")
    if reasons:
        raise CannotImport("; ".join(reasons))


def _cell(name, cell):
    """A cell whose type is known, with its pins."""
    of = f"cell {short(name)}"
    directions = _object(cell, "port_directions", of)
    found = {"input": [], "output": []}
    for pin, bits in _object(cell, "connections", of).items():
        direction = directions.get(pin)
        if direction == "inout":
            raise CannotImport(f"pin {short(pin)} of {of} is inout; a gate has inputs and one output")
        if direction not in ("input", "output"):
            hint = "let yosys read the library of cells before, by 'read_liberty -lib' or 'read_verilog -lib'"
            raise CannotImport(f"the JSON has no direction of pin {short(pin)} of {of}, type {short(cell['type'])}; {hint}")
        bits = _bits(bits, f"pin {short(pin)} of {of}")
        found[direction] += ((label, bit) for label, bit in zip(_bit_names(pin, {}, len(bits)), bits) if is_net(bit))
    return Cell(name, cell["type"], tuple(found["input"]), tuple(found["output"]))


def _nets(module, of):
    nets = []
    for name, net in _entries(module, "netnames", of):
        bits = _bits(net.get("bits"), f"net {short(name)}")
        nets.append((name, bits, _bit_names(name, net, len(bits))))
    return nets


def read_module(modules, name, types):
    """A module of which all types of cells are among those of the table."""
    module, of = modules[name], f"module {short(name)}"
    inputs, outputs = _ports(module, of)
    cells = [(cell, entry) for cell, entry in _entries(module, "cells", of) if entry.get("type") not in WITHOUT_PINS]
    for what, found in (("input", inputs), ("output", outputs), ("cell", cells)):
        if not found:
            raise CannotImport(f"{of} has no {what}")
    _check_types(cells, types, modules)
    input_bits = [Cell(label, None, (), ((label, bit),) if is_net(bit) else ()) for label, bit in inputs]
    return Module(tuple(input_bits + [_cell(*cell) for cell in cells]), tuple(outputs), tuple(_nets(module, of)))

"""A block and its best increases in words."""

from math import inf

from text import counted
from timing import longest_path
from words import path_in_words

CYCLES = 65_536
PROVED = "every other list in time saves less, or as much and comes later in the order of ties"


def per_cycle(saving):
    """A saving in the unit of drops: what it is in a clock cycle."""
    return f"{saving:,} ({saving / CYCLES:,.2f} drop x transitions per clock cycle)"


def sized(netlist, increases):
    """A line for each gate that is slowed."""
    for number, (gate, increase) in enumerate(zip(netlist.gates, increases)):
        if increase:
            of = f"{increase} of {gate.widths} ticks"
            yield f"  {netlist.label(number)}: delay {gate.delay} + {increase} = {gate.delay + increase} ({of})"


def explained(block):
    """The lines; a refusal of the best increases is raised."""
    best = block.library.best_increases(block.file)
    curve = block.library.curve(block.file)
    netlist = block.netlist
    spare, none = block.spare(curve.start), [0] * len(netlist.gates)
    gates, wires = counted(len(netlist.gates), "gate"), counted(len(netlist.wires), "wire")
    path = longest_path(netlist, none)
    wires_of_path = {wire for wire in netlist.wires if (wire.source, wire.target) in zip(path, path[1:])}
    on_wires = sum(wire.delay for wire in wires_of_path)
    lasts = counted(curve.start, "tick") + (f", {on_wires} of them on wires" if on_wires else "")
    return [
        f"{gates}, {wires}; arrival {netlist.arrival}, deadline {netlist.deadline}",
        f"the longest path without increases lasts {lasts}: {path_in_words(netlist, path, inf)}",
        f"{counted(spare, 'tick')} to spare up to the deadline",
        f"the best increases save {per_cycle(best.saving)}; {PROVED}",
        *(sized(netlist, best.increases) if any(best.increases) else ["  no gate is slowed"]),
        f"with no spare tick {curve.at_start:,} can be saved, with {curve.ticks} or more {curve.most:,}",
    ]

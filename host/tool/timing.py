"""Paths of a netlist and the times along them. The slacks that people are told come from the proved call; what is found here
says along which path, and where on the time axis a gate stands."""

from dataclasses import dataclass


def wires_out(netlist):
    """The wires that leave each gate."""
    wires = [[] for _ in netlist.gates]
    for wire in netlist.wires:
        wires[wire.source].append(wire)
    return wires


def gates_in_order(netlist):
    """The gates, each behind all that have a wire to it; gates on a loop or behind one are left out."""
    waiting, out = [0] * len(netlist.gates), wires_out(netlist)
    for wire in netlist.wires:
        waiting[wire.target] += 1
    order = [gate for gate, count in enumerate(waiting) if count == 0]
    for gate in order:
        for wire in out[gate]:
            waiting[wire.target] -= 1
            if waiting[wire.target] == 0:
                order.append(wire.target)
    return order


@dataclass(frozen=True)
class Times:
    """Of each gate, under some increases: its source delay (the latest time at its output, arrival included) and its required
    time."""

    source: list
    required: list

    @property
    def slacks(self):
        return [required - source for source, required in zip(self.source, self.required)]


def times(netlist, increases):
    """The times of a netlist without loops whose gates all lie on paths from gate 0 to the last."""
    order, out = gates_in_order(netlist), wires_out(netlist)
    delays = [gate.delay + increase for gate, increase in zip(netlist.gates, increases)]
    source = [netlist.arrival + delay for delay in delays]
    for gate in order:
        for wire in out[gate]:
            arrives = source[gate] + wire.delay + delays[wire.target]
            source[wire.target] = max(source[wire.target], arrives)
    required = [netlist.deadline] * len(delays)
    for gate in reversed(order):
        leaves = [required[wire.target] - delays[wire.target] - wire.delay for wire in out[gate]]
        required[gate] = min(leaves, default=netlist.deadline)
    return Times(source, required)


def longest_path(netlist, increases):
    """The gates of a path from gate 0 to the last that lasts longest; of several, the lowest gate at each step back."""
    source = times(netlist, increases).source
    path = [len(netlist.gates) - 1]
    while path[0] != 0:
        gate = path[0]
        began = source[gate] - netlist.gates[gate].delay - increases[gate]
        path.insert(0, min(w.source for w in netlist.wires if w.target == gate and source[w.source] + w.delay == began))
    return path

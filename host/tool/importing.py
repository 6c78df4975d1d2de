"""A block from a netlist of yosys, by a table of cells.

Gate 0 (`source`) drives one gate for each input bit that is used. Every cell is a gate. The last gate (`join`) stands behind
the drivers of all output bits. Source, join and the gates of input bits have delay 0 and no steps, and wires take no time.
Source and join stand for no net, and their switching, which no gain counts, is 0.

What never switches and what reaches no output is left out with a note. All else that no block can say is refused in words.
"""

import heapq
from dataclasses import dataclass, replace

from cells import Cells, CellType
from description import MAX_NAME
from naming import CannotImport, clean, listed, short
from netlist import MAX_GATES, MAX_TIME, MAX_WIRES, Gate, Netlist, Wire
from text import shown
from timing import times
from yosys import TO_GATES, chosen_name, is_net, read_module, read_modules

# so much of a name that is longer than a gate's stands in a note
MAX_SHOWN = 200


@dataclass(frozen=True)
class Imported:
    """A block, and in one line each what was left out, added or named otherwise."""

    netlist: Netlist
    notes: list


# Which cells become gates


@dataclass(frozen=True)
class _Network:
    """What becomes of a module's cells and input bits: which are gates, in an order along the wires, and which are left out
    since they reach no output, or since they never switch."""

    gates: list
    dead: list
    still: list


def _net_names(module):
    """The name of each net for messages: the one in the source where it has one, else CELL.PIN."""
    names = {net: cell.pin_name(pin) for cell in module.cells for pin, net in cell.drives}
    for name, bits, bit_names in module.nets:
        if not name.startswith("$"):
            names.update(zip(bits, bit_names))
    return {bit: short(name) for bit, name in names.items()}


def _drivers(module):
    """The number of the cell or input bit that drives each net."""
    drivers, pins = {}, {}
    for number, cell in enumerate(module.cells):
        for pin, net in cell.drives:
            if net in drivers:
                both = f"{module.cells[drivers[net]].called(pins[net])} and {cell.called(pin)}"
                raise CannotImport(f"net {_net_names(module)[net]} has several drivers: {both}")
            drivers[net], pins[net] = number, pin
    return drivers


def _live(module, drivers):
    """The numbers of the cells and input bits from which an output is reached; their nets must have a driver."""
    live = set()
    to_follow = [(None, name, bit) for name, bit in module.outputs if is_net(bit)]
    while to_follow:
        reader, pin, net = to_follow.pop()
        if net not in drivers:
            name = _net_names(module).get(net, short(str(net)))
            who = reader.called(pin) if reader else f"output {short(pin)}"
            raise CannotImport(f"net {name} has no driver, and {who} is on it")
        number = drivers[net]
        if number not in live:
            live.add(number)
            driver = module.cells[number]
            to_follow += [(driver, pin, net) for pin, net in driver.reads]
    return live


def _check_outputs(cells):
    """Refuses cells with several output bits."""
    for cell in cells:
        if len(cell.drives) > 1:
            pins = listed(short(pin) for pin, _ in cell.drives)
            fault = f"{len(cell.drives)} output bits ({pins}), and a gate has one"
            raise CannotImport(f"cell {short(cell.name)}, type {short(cell.type)}, has {fault}; {TO_GATES} make gates of it")


def _loop(module, drivers, left):
    """The cells of a loop along the wires, among cells each of which one of them drives."""
    number, places = min(left), {}
    while number not in places:
        places[number] = len(places)
        number = next(drivers[net] for _, net in module.cells[number].reads if drivers[net] in left)
    loop = list(places)[places[number] :][::-1]
    first = loop.index(min(loop))
    return [module.cells[number] for number in loop[first:] + loop[:first]]


def _in_order(module, drivers, live):
    """The live cells in an order along the wires: each behind its drivers, and else as they stand in the JSON."""
    readers = {number: [] for number in live}
    waiting = {}
    for number in live:
        reads = module.cells[number].reads
        waiting[number] = len(reads)
        for _, net in reads:
            readers[drivers[net]].append(number)
    ready = sorted(number for number, count in waiting.items() if count == 0)
    order = []
    while ready:
        order.append(heapq.heappop(ready))
        for reader in readers[order[-1]]:
            waiting[reader] -= 1
            if waiting[reader] == 0:
                heapq.heappush(ready, reader)
    if len(order) < len(live):
        loop = _loop(module, drivers, live.difference(order))
        raise CannotImport(f"a loop without a register, through {listed(f'cell {short(cell.name)}' for cell in loop)}")
    return [module.cells[number] for number in order]


def _network(module):
    """Which cells and input bits become gates."""
    drivers = _drivers(module)
    live = _live(module, drivers)
    _check_outputs(module.cells[number] for number in sorted(live))
    gates, still, switching = [], [], set()
    for cell in _in_order(module, drivers, live):
        if cell.is_input or any(net in switching for _, net in cell.reads):
            gates.append(cell)
            switching.update(net for _, net in cell.drives)
        else:
            still.append(cell)
    if not any(bit in switching for _, bit in module.outputs):
        raise CannotImport("no output depends on an input")
    if all(cell.is_input for cell in gates):
        raise CannotImport("no cell lies on a path from an input to an output")
    dead = [cell for number, cell in enumerate(module.cells) if number not in live]
    return _Network(gates, dead, still)


# Switching


def _nets_by_name(module):
    """The nets by the names that a table can give them, CELL.PIN where nothing else has that name; the widths of vectors."""
    by_name, by_pin, widths = {}, {}, {}
    for name, bits, bit_names in module.nets:
        widths[clean(name)] = len(bits)
        for bit_name, bit in zip(bit_names, bits):
            by_name.setdefault(clean(bit_name), set()).add(bit)
    for cell in module.cells:
        for pin, net in cell.drives:
            by_pin.setdefault(clean(cell.pin_name(pin)), set()).add(net)
    return {**by_pin, **by_name}, widths


def _stated(module, table):
    """The switching of the nets that the table names."""
    nets, widths = _nets_by_name(module)
    stated, lines = {}, {}
    for name, given in table.nets.items():
        place = f"line {given.line} of the table"
        if name not in nets and widths.get(name, 0) > 1:
            raise CannotImport(f"{place}: net {short(name)} has {widths[name]} bits; each is named by itself, as in name[bit]")
        if name not in nets:
            raise CannotImport(f"{place}: the module has no net {short(name)}")
        if len(nets[name]) > 1:
            raise CannotImport(f"{place}: several nets are named {short(name)}; CELL.PIN names the one that is meant")
        (bit,) = nets[name]
        if is_net(bit) and bit in lines:
            raise CannotImport(f"{place}: net {short(name)} stood before, in line {lines[bit]}, by another name")
        stated[bit], lines[bit] = given.switching, given.line
    return stated


def _switching(module, table, network):
    """The switching of every net that a gate drives."""
    stated = _stated(module, table)
    nets = [net for cell in network.gates for _, net in cell.drives]
    if table.others is None and any(net not in stated for net in nets):
        names = _net_names(module)
        left = listed(names[net] for net in nets if net not in stated)
        raise CannotImport(f"the table names neither these nets nor one number for all others: {left}")
    return {net: stated.get(net, table.others) for net in nets}


# The block


class _Block:
    """The gates and wires so far, the names that the gates should have, and which gates stand for no cell or input bit: the
    ends, and those for doubled connections."""

    def __init__(self):
        self.gates, self.wires, self.wanted = [], [], []
        self.ends, self.doubled = [], []

    @property
    def added(self):
        return self.ends + self.doubled

    def add(self, name, sources, switching=0, cell_type=CellType(0, ())):
        number = len(self.gates)
        self.gates.append(Gate(cell_type.delay, switching, cell_type.steps))
        self.wires += [Wire(source, number) for source in sources]
        self.wanted.append(name)
        return number

    def sources(self, cell, gate_of, switching):
        """The gates that drive a cell. A second pin on one net gets a gate of its own: no wire may stand twice."""
        sources = {}
        for pin, net in cell.reads:
            source = gate_of.get(net)
            if source in sources:
                source = self.add(cell.pin_name(pin), [source], switching[net])
                self.doubled.append(source)
            if source is not None:
                sources[source] = True
        return sources

    def named(self):
        """The gates with their names, no two the same: those of the module first, then those of the gates that are added."""
        names, taken, added = {}, set(), self.added
        for number in sorted(range(len(self.gates)), key=lambda number: (number in added, number)):
            wanted = name = short(self.wanted[number])
            count = 1
            while name in taken:
                count += 1
                mark = f"~{count}"
                name = wanted[: MAX_NAME - len(mark)] + mark
            taken.add(name)
            names[number] = name
        return tuple(replace(gate, name=names[number]) for number, gate in enumerate(self.gates))


def _block(module, table, network):
    """The gates and wires of a network, within the limits of a block."""
    switching = _switching(module, table, network)
    block, gate_of = _Block(), {}
    source = block.add("source", [])
    for cell in network.gates:
        ((_, net),) = cell.drives
        if cell.is_input:
            gate_of[net] = block.add(cell.name, [source], switching[net])
        else:
            sources = block.sources(cell, gate_of, switching)
            gate_of[net] = block.add(cell.name, sources, switching[net], table.types[clean(cell.type)])
    join = block.add("join", dict.fromkeys(gate_of[bit] for _, bit in module.outputs if bit in gate_of))
    block.ends = [source, join]
    _check_size(block, network)
    return block


def _check_size(block, network):
    if len(block.gates) > MAX_GATES or len(block.wires) > MAX_WIRES:
        inputs = sum(cell.is_input for cell in network.gates)
        parts = f"{len(network.gates) - inputs} cells, {inputs} input bits, 2 ends, {len(block.doubled)} for pins on one net"
        size = f"{len(block.gates)} gates ({parts}) and {len(block.wires)} wires"
        raise CannotImport(f"the block would have {size}; it can have {MAX_GATES} gates and {MAX_WIRES} wires")


# Notes


def _outputs_left_out(module, network):
    """The names of output bits that never switch, and of those on the net of an output bit before them."""
    driven = {net for cell in network.gates for _, net in cell.drives}
    constant, again, seen = [], [], set()
    for name, bit in module.outputs:
        if bit not in driven:
            constant.append(short(name))
        elif bit in seen:
            again.append(short(name))
        seen.add(bit)
    return constant, again


def _notes(module, network, block, gates):
    """What was left out, added or named otherwise."""
    constant, again = _outputs_left_out(module, network)
    parts = (
        ("input bits left out, since they reach no output", [short(cell.name) for cell in network.dead if cell.is_input]),
        ("cells left out, since they reach no output", [short(cell.name) for cell in network.dead if not cell.is_input]),
        ("cells left out, since all their inputs are constant", [short(cell.name) for cell in network.still]),
        ("output bits left out, since they are constant", constant),
        ("output bits on the net of one before them, with one wire to the join for all", again),
        ("gates of delay 0 added for pins of a cell on one net", [gates[number].name for number in block.doubled]),
    )
    notes = [f"{what}: {listed(names)}" for what, names in parts if names]
    for number, (gate, wanted) in enumerate(zip(gates, block.wanted)):
        if gate.name != wanted and number not in block.added:
            notes.append(f"gate {number} is named {gate.name}, for {shown(wanted, MAX_SHOWN)}")
    return notes


def _check_time(word, time):
    if type(time) is not int or not 0 <= time <= MAX_TIME:
        raise CannotImport(f"the {word} must be 0 to {MAX_TIME}")


def _end(netlist):
    """When the longest path ends, for a deadline."""
    end = times(netlist, [0] * len(netlist.gates)).source[-1]
    if end > MAX_TIME:
        raise CannotImport(f"the longest path ends at {end}, and a deadline is 0 to {MAX_TIME}")
    return end


def import_json(text: str, cells: Cells, module=None, arrival=0, deadline=None) -> Imported:
    """The block of a module in yosys' JSON. Without a deadline it is the end of the longest path, so that no time is spare."""
    _check_time("arrival", arrival)
    if deadline is not None:
        _check_time("deadline", deadline)
    modules = read_modules(text)
    name = chosen_name(modules, module)
    found = read_module(modules, name, cells.types)
    network = _network(found)
    block = _block(found, cells, network)
    gates = block.named()
    notes = _notes(found, network, block, gates)
    if module is None and len(modules) > 1:
        notes.insert(0, f"module {short(name)} is taken, the one marked as top of {len(modules)}")
    netlist = Netlist(cells.edition, arrival, MAX_TIME, 0, gates, tuple(block.wires))
    if deadline is None:
        deadline = _end(netlist)
        notes.append(f"no deadline given: {deadline} is taken, the end of the longest path, which leaves no time to spare")
    return Imported(replace(netlist, deadline=deadline), notes)

"""A refusal in words for a designer. The proved library decides its number and place; here the details are found: along which
path, which gates, and in fields.py which number of which field.

`refusal_in_words` is for any bytes, number and place. Where the details do not fit them, it says the general sentence of the
table of refusals.
"""

from collections import Counter, deque
from dataclasses import dataclass

from fields import FIELD_FAULTS, spot_at
from netlist import MAX_PAIRS, MAX_WIRES, Netlist, decode, encode
from text import LINE, SHORT_LABEL, chain, counted, label, with_list
from timing import gates_in_order, longest_path

# the most characters of a path inside a line
PATH = 140
# so many gates inside a connection are told by number
INSIDE = 5

GENERAL = {
    1: "a due block or gate field is missing, or a header or body passes the end",
    2: "the tag is not the one due",
    3: "the length is not one of that tag's in the file's edition",
    4: "a number is out of its range",
    5: "drops do not fall strictly",
    6: "a wire joins a gate to itself, or stood before, whatever the delays",
    7: f"a byte follows the {MAX_WIRES}th wire",
    8: "a gate reaches itself",
    9: "gate 0 has a wire in, another gate has none, the last gate has a wire out, or another gate has none",
    10: f"a lent slice is shorter than the gates (for the curve than {MAX_PAIRS}, in bytes than 4 for each gate)",
    11: "the block is not series-parallel",
    12: "even without increases a path misses the deadline",
    13: "an increase exceeds its gate's widths",
    14: "a path is not in time under these increases",
    17: "no number of spare ticks reaches the wanted saving",
}


def refusal_in_words(file, number, place, netlist=None, increases=None, wanted=None, most=None) -> list[str]:
    """Lines that say what a refusal is about. The netlist gives the names of gates, if there are any; the increases are those
    judged (10, 13, 14), wanted is the saving asked for (17) and most what all ticks save, where known."""
    lines = []
    if number in FIELD_FAULTS:
        spot = spot_at(file, place, netlist)
        lines = FIELD_FAULTS[number](spot) if spot else []
    elif number in BLOCK_FAULTS:
        block = usable(netlist) or decoded(file)
        lines = BLOCK_FAULTS[number](Refusal(place, block, increases, wanted, most))
    return lines or [f"refused {number}, place {place}: {GENERAL.get(number, 'no refusal has this number')}"]


def path_in_words(netlist, path, room=PATH):
    """The gates of a path."""
    return chain([label(netlist, gate) for gate in path], room)


# 8 and above: the block


@dataclass(frozen=True)
class Refusal:
    """The place of a refusal, the block refused (None if the file cannot be read), and what was asked of it."""

    place: int
    netlist: Netlist
    increases: list = None
    wanted: int = None
    most: int = None

    def label(self, gate):
        return label(self.netlist, gate)

    def labels(self, gates):
        return [self.label(gate) for gate in gates]

    @property
    def is_gate(self):
        """Whether the place is a gate of the block."""
        return self.netlist is not None and 0 <= self.place < len(self.netlist.gates)


def usable(netlist):
    """A netlist with at least one gate, and wires between its gates alone; else None."""
    if netlist is None or not netlist.gates:
        return None
    gates = range(len(netlist.gates))
    return netlist if all(wire.source in gates and wire.target in gates for wire in netlist.wires) else None


def decoded(file):
    """The netlist of a file; None if it cannot be read."""
    try:
        netlist = decode(file)
        return usable(netlist) if encode(netlist) == file else None
    except (IndexError, OverflowError, ValueError):
        return None


def is_sound(netlist):
    """Whether there is no loop, gate 0 alone has no wire in and the last alone none out: then every gate is on a path."""
    if netlist is None:
        return False
    count = len(netlist.gates)
    entered, left = {wire.target for wire in netlist.wires}, {wire.source for wire in netlist.wires}
    return entered == set(range(1, count)) and left == set(range(count - 1)) and len(gates_in_order(netlist)) == count


def sources_of(netlist, gate):
    return sorted({wire.source for wire in netlist.wires if wire.target == gate})


def targets_of(netlist, gate):
    return sorted({wire.target for wire in netlist.wires if wire.source == gate})


def shortest_loop(netlist, gate):
    """The gates of a shortest loop through a gate, which stands first and last; of several, the lowest gate at each step. Empty
    if the gate does not reach itself."""
    came_from, waiting = {}, deque([gate])
    while waiting and gate not in came_from:
        source = waiting.popleft()
        for target in targets_of(netlist, source):
            if target not in came_from:
                came_from[target] = source
                waiting.append(target)
    if gate not in came_from:
        return []
    loop = [came_from[gate], gate]
    while loop[0] != gate:
        loop.insert(0, came_from[loop[0]])
    return loop


def looped(refusal):
    loop = shortest_loop(refusal.netlist, refusal.place) if refusal.is_gate else []
    front = "a loop: "
    return [front + path_in_words(refusal.netlist, loop, LINE - len(front))] if loop else []


def does(count):
    return "1 does" if count == 1 else f"{count} do"


def wrong_ends(refusal):
    if not refusal.is_gate:
        return []
    gate, last = refusal.place, len(refusal.netlist.gates) - 1
    into, out = sources_of(refusal.netlist, gate), targets_of(refusal.netlist, gate)
    name, lines = label(refusal.netlist, gate, SHORT_LABEL), []
    if gate == 0 and into:
        front = f"no wire may lead into {name}, the first, but {does(len(into))}, from "
        lines.append(with_list(front, refusal.labels(into)))
    if gate != 0 and not into:
        lines.append(f"{name} has no wire in; every gate but gate 0 needs one")
    if gate == last and out:
        front = f"no wire may lead out of {name}, the last, but {does(len(out))}, to "
        lines.append(with_list(front, refusal.labels(out)))
    if gate != last and not out:
        lines.append(f"{name} has no wire out; every gate but the last, {refusal.label(last)}, needs one")
    return lines


def list_too_short(increases, gates):
    """What a list that is judged lacks."""
    return [f"the list has {counted(increases, 'increase')}, the block {counted(gates, 'gate')}"] if increases < gates else []


def too_short(refusal):
    place, gates = refusal.place, len(refusal.netlist.gates) if refusal.netlist else 0
    if place < 1:
        return []
    if refusal.increases is not None:
        return list_too_short(len(refusal.increases), gates) if place == gates else []
    if place == 4 * gates:
        return [f"the lent memory is too short: {place} bytes are needed, 4 for each of {counted(gates, 'gate')}"]
    why = f", one for each of {counted(gates, 'gate')}" if place == gates else ""
    why = ", as many as a curve can have pairs" if place == MAX_PAIRS else why
    return [f"the lent memory is too short: {counted(place, 'element')} {'is' if place == 1 else 'are'} needed{why}"]


def reduced(connections):
    """What is left of connections between gates, each with the gates inside it, when gates with one connection in and one out
    are taken away, joining the two, and doubled connections are merged. There must be no loop."""
    connections = dict(connections)
    while True:
        into, out = Counter(b for _, b in connections), Counter(a for a, _ in connections)
        taken = next((gate for gate in sorted(into) if into[gate] == out[gate] == 1), None)
        if taken is None:
            return connections
        before = next(a for a, b in connections if b == taken)
        behind = next(b for a, b in connections if a == taken)
        inside = connections.pop((before, taken)) | connections.pop((taken, behind)) | {taken}
        connections[before, behind] = connections.get((before, behind), frozenset()) | inside


def gates_of(connections):
    return sorted({gate for connection in connections for gate in connection})


def remedies(connections, last):
    """The connections left, without any one of which the rest is series-parallel: it reduces to one connection from gate 0 to
    the last. A gate left has two connections in or two out, so none is lost with a connection."""
    for connection in sorted(connections):
        rest = {other: inside for other, inside in connections.items() if other != connection}
        if set(reduced(rest)) == {(0, last)}:
            yield connection


def through(inside):
    """The gates inside a connection, in words."""
    if not inside:
        return ""
    numbers = [str(gate) for gate in sorted(inside)]
    more = f" and {len(numbers) - INSIDE} more" if len(numbers) > INSIDE else ""
    return f" (through gate{'s' if len(numbers) > 1 else ''} {', '.join(numbers[:INSIDE])}{more})"


def not_series_parallel(refusal):
    if not is_sound(refusal.netlist):
        return []
    last, place = len(refusal.netlist.gates) - 1, refusal.place
    left = reduced({(wire.source, wire.target): frozenset() for wire in refusal.netlist.wires})
    if place != next((gate for gate in gates_of(left) if gate not in (0, last)), None):
        return []
    into = [refusal.label(a) + through(left[a, b]) for a, b in sorted(left) if b == place]
    out = [refusal.label(b) + through(left[a, b]) for a, b in sorted(left) if a == place]
    taken = "with gates in series taken away and doubled wires merged"
    return [
        f"not series-parallel at {refusal.label(place)}: {taken}, it is the lowest gate left between the ends",
        with_list(f"it then has {counted(len(into), 'wire')} in, from ", into),
        with_list(f"it then has {counted(len(out), 'wire')} out, to ", out),
        with_list(f"{counted(len(gates_of(left)), 'gate')} left: ", refusal.labels(gates_of(left))),
        advice(refusal, left, last),
    ]


def advice(refusal, left, last):
    """What to look at in a block that is not series-parallel."""
    found = [connection_in_words(refusal.netlist, connection, left[connection]) for connection in remedies(left, last)]
    if found:
        return with_list("look at: the block would be series-parallel without ", found, "or")
    joined = {gate for connection in left if refusal.place in connection for gate in connection} - {refusal.place}
    return with_list("look at what joins it to ", refusal.labels(sorted(joined)))


def connection_in_words(netlist, connection, inside):
    source, target = (label(netlist, gate, SHORT_LABEL) for gate in connection)
    return f"{source} -> {target}{through(inside)}"


def lateness(refusal, increases, under=""):
    """By how much and along which path the block is late under some increases; empty if it is not."""
    netlist = refusal.netlist
    path = longest_path(netlist, increases)
    delays = {(wire.source, wire.target): wire.delay for wire in netlist.wires}
    lasts = sum(netlist.gates[gate].delay + increases[gate] for gate in path) + sum(delays[w] for w in zip(path, path[1:]))
    ticks = netlist.arrival + lasts - netlist.deadline
    if ticks <= 0:
        return []
    length = f"the longest path lasts {counted(lasts, 'tick')} from arrival {netlist.arrival}"
    front = f"late by {counted(ticks, 'tick')}{under}: {length}, the deadline is {netlist.deadline}:"
    words = [refusal.label(gate) + (f" +{increases[gate]}" if increases[gate] else "") for gate in path]
    line = f"{front} {chain(words, LINE)}"
    return [line] if len(line) <= LINE else [front, chain(words, LINE)]


def late(refusal):
    return lateness(refusal, [0] * len(refusal.netlist.gates)) if is_sound(refusal.netlist) else []


def late_as_judged(refusal):
    known = is_sound(refusal.netlist) and refusal.increases is not None
    if not known or len(refusal.increases) < len(refusal.netlist.gates):
        return []
    return lateness(refusal, refusal.increases, " under these increases")


def too_much(refusal):
    if not refusal.is_gate or refusal.increases is None or refusal.place >= len(refusal.increases):
        return []
    increase, widths = refusal.increases[refusal.place], refusal.netlist.gates[refusal.place].widths
    if increase <= widths:
        return []
    return [f"the increase of {refusal.label(refusal.place)} is {increase}, but the sum of its widths is {widths}"]


def out_of_reach(refusal):
    if refusal.wanted is None:
        return []
    if refusal.most is None:
        return [f"a saving of {refusal.wanted} is wanted, but no number of spare ticks reaches it"]
    if refusal.most >= refusal.wanted:
        return []
    return [f"a saving of {refusal.wanted} is wanted, but all ticks together save {refusal.most}"]


# each finds the details of one refusal, and nothing if they do not fit
BLOCK_FAULTS = {
    8: looped,
    9: wrong_ends,
    10: too_short,
    11: not_series_parallel,
    12: late,
    13: too_much,
    14: late_as_judged,
    17: out_of_reach,
}

"""What a block file says, with the names that its description may give the gates; writing it as a file and reading it back.

The bytes are those of docs/FORMAT.md. Nothing here judges a file: the proved calls do, and `decode` is for files that they did
not refuse with 1 to 7.
"""

from dataclasses import dataclass, field

MAX_GATES = 200
MAX_WIRES = 600
MAX_STEPS = 8
# the pairs of a curve
MAX_PAIRS = MAX_GATES * MAX_STEPS
MAX_TIME = 65_535
MAX_DELAY = 4_095
MAX_WIDTH = 4_095
MAX_DROP = 1_000
MAX_EDITION = 3
# the program decides by so many bytes of its input; no file that can be read is longer
MAX_BYTES = 16_384

BLOCK_TAG, GATE_TAG, WIRE_TAG = 1, 2, 3
HEADER = 3
BLOCK_LENGTH = 8
GATE_LENGTHS = range(4, 4 + 4 * MAX_STEPS + 1, 4)


def has_wire_delays(edition):
    return edition >= 2


def is_measured(edition):
    """Whether the file gives the measured activities of nets; the editions before give the probabilities of a 1 in 256ths."""
    return edition >= 3


def wire_length(edition):
    """The length of a wire's body."""
    return 4 if has_wire_delays(edition) else 2


def max_switching(edition):
    """The greatest number that a file can give for the switching of a net."""
    return 65_535 if is_measured(edition) else 256


def switching_word(edition):
    return "activity" if is_measured(edition) else "p"


def activity(edition, switching):
    """The activity of a net, transitions in 65,536 clock cycles, by the number that the file gives for its switching."""
    return switching if is_measured(edition) else 2 * switching * (256 - switching)


@dataclass(frozen=True)
class Step:
    width: int
    drop: int


@dataclass(frozen=True)
class Gate:
    delay: int
    switching: int
    steps: tuple = ()
    # a description may name gates; a block file has no names
    name: str = ""

    @property
    def widths(self):
        """The most by which the delay can be increased."""
        return sum(step.width for step in self.steps)


@dataclass(frozen=True)
class Wire:
    source: int
    target: int
    delay: int = 0


@dataclass(frozen=True)
class Netlist:
    edition: int
    arrival: int
    deadline: int
    switching: int
    gates: tuple
    wires: tuple = field(default=())

    def label(self, gate):
        """A gate in words: its number, and its name where it has one."""
        name = self.gates[gate].name
        return f"gate {gate} ({name})" if name else f"gate {gate}"


def number(data, at):
    """The number of two bytes at an offset, high byte first."""
    return 256 * data[at] + data[at + 1]


def _field(tag, body):
    return bytes([tag]) + len(body).to_bytes(2, "big") + body


def _numbers(*numbers):
    return b"".join(n.to_bytes(2, "big") for n in numbers)


def encode(netlist):
    """The block file of a netlist."""
    head = bytes([netlist.edition, len(netlist.gates)]) + _numbers(netlist.arrival, netlist.deadline, netlist.switching)
    fields = [_field(BLOCK_TAG, head)]
    for gate in netlist.gates:
        steps = [n for step in gate.steps for n in (step.width, step.drop)]
        fields.append(_field(GATE_TAG, _numbers(gate.delay, gate.switching, *steps)))
    for wire in netlist.wires:
        delay = _numbers(wire.delay) if has_wire_delays(netlist.edition) else b""
        fields.append(_field(WIRE_TAG, bytes([wire.source, wire.target]) + delay))
    return b"".join(fields)


def bodies(file):
    """The offset of each field's tag and the field's body, in file order, as far as whole fields reach."""
    at = 0
    while at + HEADER <= len(file) and at + HEADER + number(file, at + 1) <= len(file):
        end = at + HEADER + number(file, at + 1)
        yield at, file[at + HEADER : end]
        at = end


def _gate(body):
    steps = tuple(Step(number(body, i), number(body, i + 2)) for i in range(4, len(body), 4))
    return Gate(number(body, 0), number(body, 2), steps)


def decode(file):
    """The netlist that a block file says; the file must be one that can be read."""
    (_, head), *rest = bodies(file)
    count = head[1]
    gates = tuple(_gate(body) for _, body in rest[:count])
    wires = tuple(Wire(body[0], body[1], int.from_bytes(body[2:], "big")) for _, body in rest[count:])
    return Netlist(head[0], number(head, 2), number(head, 4), number(head, 6), gates, wires)

"""The text form of a block file. docs/FORMAT.md describes its syntax."""

import codecs

from netlist import (
    MAX_DELAY,
    MAX_DROP,
    MAX_EDITION,
    MAX_GATES,
    MAX_STEPS,
    MAX_TIME,
    MAX_WIDTH,
    MAX_WIRES,
    Gate,
    Netlist,
    Step,
    Wire,
    max_switching,
    switching_word,
)
from text import is_number, shown, value_up_to

MAX_NAME = 64
# the longest block takes some 34 KB without names; comments are free
MAX_DESCRIPTION = 1 << 24
# the editions that a block line can leave unsaid, by the word that it has for the switching of a net
UNSAID_EDITIONS = {"p": 1, "activity": 3}
WIRES_A_LINE = 10
BLANKS = b" \t\r\n\f\v"


class Fault(Exception):
    """What is wrong with a description, and in which line, counted from 1; without a line where it is about the whole."""

    def __init__(self, line, message):
        super().__init__(message)
        self.line = line

    def at(self, name):
        """The fault with the name of its file in front."""
        place = name if self.line is None else f"{name}:{self.line}"
        return f"{place}: {self}"


def is_description(head):
    """Whether a file that begins with these bytes is taken for a description: text in UTF-8 without a byte 0, of which every
    block file has several, that does not begin with a control character, as every block file does."""
    if not head or b"\0" in head or (head[0] < 32 and head[0] not in BLANKS):
        return False
    try:
        codecs.getincrementaldecoder("utf-8")().decode(head)
    except UnicodeDecodeError:
        return False
    return True


class Words:
    """The words of one line, taken one after another."""

    def __init__(self, line, text):
        self.line = line
        self.words = text.split("#", 1)[0].split()[::-1]

    def fault(self, message):
        raise Fault(self.line, message)

    def next(self):
        return self.words.pop() if self.words else None

    def needed(self, what):
        word = self.next()
        if word is None:
            self.fault(f"{what} is missing at the end of the line")
        return word

    def number(self, name, word, least, most):
        if not is_number(word):
            self.fault(f"{name}: a number was expected, not '{shown(word)}'")
        value = value_up_to(word, most)
        if not least <= value <= most:
            self.fault(f"{name} {shown(word)} is not {least} to {most}")
        return value

    def number_after(self, name, most, least=0):
        return self.number(name, self.needed(f"the number after '{name}'"), least, most)

    def named(self, name, most):
        """The word `name` and the number behind it."""
        found = self.needed(f"'{name}'")
        if found != name:
            self.fault(f"'{name}' was expected, not '{shown(found)}'")
        return self.number_after(name, most)

    def switching(self):
        """The word for the switching of a net."""
        found = self.needed("'p' or 'activity'")
        if found not in UNSAID_EDITIONS:
            self.fault(f"'p' or 'activity' was expected, not '{shown(found)}'")
        return found

    def end(self):
        word = self.next()
        if word is not None:
            self.fault(f"'{shown(word)}' was not expected here")

    def edition(self):
        """The edition that a block line ends with, if it says one."""
        word = self.next()
        if word is None:
            return None
        if word != "edition":
            self.fault(f"'edition' or the end of the line was expected, not '{shown(word)}'")
        edition = self.number_after("edition", MAX_EDITION, least=1)
        self.end()
        return edition

    def step(self, word):
        width, comma, drop = word[1:-1].partition(",")
        if not (word.startswith("(") and word.endswith(")") and comma):
            self.fault(f"a step (width,drop) was expected, not '{shown(word)}'")
        return Step(self.number("width", width, 1, MAX_WIDTH), self.number("drop", drop, 1, MAX_DROP))

    def steps(self):
        """The steps to the end of the line, behind the word `steps`."""
        word = self.next()
        if word not in (None, "steps"):
            self.fault(f"'steps' or the end of the line was expected, not '{shown(word)}'")
        steps = []
        while self.words:
            step = self.step(self.next())
            if len(steps) == MAX_STEPS:
                self.fault(f"more than {MAX_STEPS} steps")
            if steps and steps[-1].drop <= step.drop:
                self.fault(f"drops must fall strictly: {step.drop} after {steps[-1].drop}")
            steps.append(step)
        return tuple(steps)

    def gate_of_wire(self, wire, word, gates):
        if not is_number(word):
            self.fault(f"wire {shown(wire)}: a gate's number was expected, not '{shown(word)}'")
        gate = value_up_to(word, gates - 1)
        if gate == gates:
            self.fault(f"wire {shown(wire)}: there is no gate {shown(word.lstrip('0') or '0')}")
        return gate

    def wire(self, word, gates):
        """A wire, as from-to or from-to:delay, and whether a delay stands there."""
        ends, colon, delay = word.partition(":")
        source, dash, target = ends.partition("-")
        if not dash:
            self.fault(f"a wire from-to was expected, not '{shown(ends)}'")
        source, target = self.gate_of_wire(ends, source, gates), self.gate_of_wire(ends, target, gates)
        if source == target:
            self.fault(f"wire {ends} joins a gate to itself")
        ticks = self.number(f"wire {ends}: delay", delay, 0, MAX_DELAY) if colon else 0
        return Wire(source, target, ticks), bool(colon)


class _Reading:
    """A description that is being read: what its block line says, and the gates and wires so far with the lines of each."""

    def __init__(self):
        self.block = None
        self.stated = None
        self.gates, self.gate_lines = [], {}
        self.wires, self.wire_lines = [], {}
        self.has_wires_line = False

    def line(self, words):
        keyword = words.next()
        if keyword is None:
            return
        if keyword == "block":
            self.block_line(words)
        elif keyword not in ("gate", "wires"):
            words.fault(f"'block', 'gate' or 'wires' was expected, not '{shown(keyword)}'")
        elif self.block is None:
            words.fault("the block line must come first")
        elif keyword == "gate":
            self.gate_line(words)
        else:
            self.wires_line(words)

    def block_line(self, words):
        if self.block is not None:
            words.fault("a second block line")
        arrival, deadline = words.named("arrival", MAX_TIME), words.named("deadline", MAX_TIME)
        word = words.switching()
        switching = words.number_after(word, max_switching(UNSAID_EDITIONS[word]))
        self.stated = words.edition()
        self.edition = self.stated or UNSAID_EDITIONS[word]
        if switching_word(self.edition) != word:
            words.fault(f"the block line has '{word}', but says edition {self.edition}")
        self.block = (arrival, deadline, switching)

    def name(self, words):
        """The gate's name, if the line gives one; no two gates have the same."""
        if words.words[-1:] != ["name"]:
            return ""
        words.next()
        name = words.needed("the name after 'name'")
        if len(name) > MAX_NAME or not name.isprintable():
            words.fault(f"a name has 1 to {MAX_NAME} printable characters, not '{shown(name)}'")
        if name in self.gate_lines:
            words.fault(f"name {name} stood before, in line {self.gate_lines[name]}")
        self.gate_lines[name] = words.line
        return name

    def gate_line(self, words):
        due = len(self.gates)
        if self.has_wires_line:
            words.fault("gates must come before wires")
        if due == MAX_GATES:
            words.fault(f"more than {MAX_GATES} gates")
        word = words.needed("the gate's number")
        if not is_number(word):
            words.fault(f"gate: a number was expected, not '{shown(word)}'")
        if value_up_to(word, due) != due:
            words.fault(f"gate {due} is due here, not gate {shown(word)}")
        name = self.name(words)
        delay = words.named("delay", MAX_DELAY)
        found, right = words.switching(), switching_word(self.edition)
        if found != right:
            words.fault(f"gate {due} has '{found}', but the block line has '{right}'")
        switching = words.number_after(right, max_switching(self.edition))
        self.gates.append(Gate(delay, switching, words.steps(), name))

    def wires_line(self, words):
        self.has_wires_line = True
        while words.words:
            word = words.next()
            wire, has_delay = words.wire(word, len(self.gates))
            ends = (wire.source, wire.target)
            if has_delay and self.stated == 1:
                words.fault(f"wire {shown(word)} has a delay, but the block line says edition 1")
            if has_delay and self.stated is None:
                self.edition = max(self.edition, 2)
            if ends in self.wire_lines:
                words.fault(f"wire {ends[0]}-{ends[1]} stood before, in line {self.wire_lines[ends]}")
            if len(self.wires) == MAX_WIRES:
                words.fault(f"more than {MAX_WIRES} wires")
            self.wire_lines[ends] = words.line
            self.wires.append(wire)

    def netlist(self):
        if self.block is None:
            raise Fault(None, "there is no block line")
        if not self.gates:
            raise Fault(None, "there is no gate")
        return Netlist(self.edition, *self.block, tuple(self.gates), tuple(self.wires))


def read(data):
    """The netlist that the bytes of a description say."""
    if len(data) > MAX_DESCRIPTION:
        raise Fault(None, f"a description has at most {MAX_DESCRIPTION} bytes")
    try:
        text = data.decode("utf-8-sig")
    except UnicodeDecodeError as error:
        raise Fault(None, f"this is no text: byte {error.start} is not UTF-8") from None
    if not text.strip():
        raise Fault(None, "the description is empty")
    reading = _Reading()
    for line, content in enumerate(text.split("\n"), 1):
        reading.line(Words(line, content))
    return reading.netlist()


def _gate_line(number, gate, word):
    name = f" name {gate.name}" if gate.name else ""
    steps = "".join(f" ({step.width},{step.drop})" for step in gate.steps)
    return f"gate {number}{name} delay {gate.delay} {word} {gate.switching}" + (f" steps{steps}" if steps else "")


def write(netlist):
    """The description of a netlist."""
    word = switching_word(netlist.edition)
    edition = "" if netlist.edition == UNSAID_EDITIONS[word] else f" edition {netlist.edition}"
    lines = [f"block arrival {netlist.arrival} deadline {netlist.deadline} {word} {netlist.switching}{edition}"]
    lines += [_gate_line(number, gate, word) for number, gate in enumerate(netlist.gates)]
    for i in range(0, len(netlist.wires), WIRES_A_LINE):
        wires = netlist.wires[i : i + WIRES_A_LINE]
        said = (f"{w.source}-{w.target}" + (f":{w.delay}" if w.delay else "") for w in wires)
        lines.append("wires " + " ".join(said))
    return "".join(line + "\n" for line in lines)

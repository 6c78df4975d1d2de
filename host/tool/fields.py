"""Refusals 1 to 7 in words: what is wrong with the field at an offset of a block file."""

from dataclasses import dataclass

from netlist import BLOCK_LENGTH, BLOCK_TAG, GATE_LENGTHS, GATE_TAG, HEADER, MAX_BYTES, MAX_DELAY, MAX_DROP, MAX_EDITION
from netlist import MAX_GATES, MAX_STEPS, MAX_WIDTH, MAX_WIRES, WIRE_TAG, Netlist, bodies, has_wire_delays, max_switching
from netlist import number, switching_word, wire_length
from text import LINE, SHORT_LABEL, counted, label, listed, ordinal

KINDS = {BLOCK_TAG: "block", GATE_TAG: "gate", WIRE_TAG: "wire"}


@dataclass(frozen=True)
class Spot:
    """A place in a file where a field is due, by the fields in front of it, each an offset and a body."""

    file: bytes
    at: int
    before: tuple
    netlist: Netlist

    @property
    def edition(self):
        return self.before[0][1][0]

    @property
    def gate_count(self):
        return self.before[0][1][1]

    @property
    def due(self):
        """The tag that is due."""
        if not self.before:
            return BLOCK_TAG
        return GATE_TAG if len(self.before) <= self.gate_count else WIRE_TAG

    @property
    def wires(self):
        """The wire fields in front."""
        return self.before[1 + self.gate_count :]

    @property
    def name(self):
        if self.due == BLOCK_TAG:
            return "the block field"
        if self.due == GATE_TAG:
            return f"the field of {label(self.netlist, len(self.before) - 1, SHORT_LABEL)}"
        return f"the {ordinal(len(self.wires) + 1)} wire"

    @property
    def lengths(self):
        if self.due == WIRE_TAG:
            return [wire_length(self.edition)]
        return list(GATE_LENGTHS) if self.due == GATE_TAG else [BLOCK_LENGTH]

    @property
    def left(self):
        """The bytes from here to the end of the file."""
        return len(self.file) - self.at

    @property
    def length(self):
        """The length that the header gives, None if no whole header is there."""
        return number(self.file, self.at + 1) if self.left >= HEADER else None

    @property
    def body(self):
        """The body, None if it is not whole or its length is not allowed."""
        if self.length not in self.lengths or self.left < HEADER + self.length:
            return None
        return self.file[self.at + HEADER : self.at + HEADER + self.length]

    def says(self, fault):
        return f"{self.name} at byte {self.at}: {fault}"

    def gates_so_far(self):
        """A line about the number of gate fields, which decides the tag that is due."""
        if self.due == BLOCK_TAG:
            return []
        gates = min(len(self.before) - 1, self.gate_count)
        return [f"the block field gives gate count {self.gate_count}; gate fields in front of byte {self.at}: {gates}"]


def spot_at(file, place, netlist):
    """The spot at an offset; None if no field can be due there."""
    before, end = [], 0
    for at, body in bodies(file):
        if at >= place:
            break
        before.append((at, body))
        end = at + HEADER + len(body)
    if end != place or (before and not is_head(before[0][1])):
        return None
    return Spot(file, place, tuple(before), netlist)


def is_head(body):
    """Whether a block field's body gives an edition and a gate count."""
    return len(body) == BLOCK_LENGTH and 1 <= body[0] <= MAX_EDITION and 1 <= body[1] <= MAX_GATES


def missing(spot):
    if spot.left == 0 and spot.due == BLOCK_TAG:
        return [f"the file is empty: {spot.name} is due at byte {spot.at}"]
    if spot.left == 0 and spot.due == GATE_TAG:
        return [f"{spot.name} is due at byte {spot.at}, but the file ends there", *spot.gates_so_far()]
    if 0 < spot.left < HEADER:
        return [spot.says(f"the header has {spot.left} of {HEADER} bytes, then the file ends")]
    if spot.left and spot.left < HEADER + spot.length:
        return [spot.says(f"the body has {spot.left - HEADER} of {counted(spot.length, 'byte')}, then the file ends")]
    return []


def wrong_tag(spot):
    found = spot.file[spot.at] if spot.left else spot.due
    if found == spot.due:
        return []
    kind = f" ({KINDS[found]})" if found in KINDS else ""
    fault = f"tag {found}{kind} stands there, but tag {spot.due} ({KINDS[spot.due]}) is due"
    # what a person wrote as text, but in another encoding than UTF-8
    written = spot.due == BLOCK_TAG and (chr(found).isalpha() or chr(found) in "# ")
    hint = ["a description must be text in UTF-8 without a byte 0, which this file is not"] if written else []
    return [spot.says(fault), *hint, *spot.gates_so_far()]


def wrong_length(spot):
    if spot.length is None or spot.length in spot.lengths:
        return []
    allowed = listed([str(length) for length in spot.lengths], LINE, "or")
    why = {
        BLOCK_TAG: f"a block field has {allowed}",
        GATE_TAG: f"a gate field has {allowed}, which is 4 and 4 for each of 0 to {MAX_STEPS} steps",
        WIRE_TAG: f"a wire field has {allowed} in edition {spot.edition}" if spot.before else "",
    }
    return [spot.says(f"the length is {spot.length}, but {why[spot.due]}")]


def numbers_in(spot):
    """The numbers of a field in the order of the file: name, value, what stands behind these in words, least and greatest."""
    body = spot.body
    if spot.due == BLOCK_TAG:
        edition = body[0]
        yield "edition", edition, "", 1, MAX_EDITION
        yield "gate count", body[1], "", 1, MAX_GATES
        yield switching_word(edition), number(body, 6), "", 0, max_switching(edition)
    elif spot.due == GATE_TAG:
        yield "drawn delay", number(body, 0), "", 0, MAX_DELAY
        yield switching_word(spot.edition), number(body, 2), "", 0, max_switching(spot.edition)
        for step, at in enumerate(range(4, len(body), 4), 1):
            yield "width", number(body, at), f" of step {step}", 1, MAX_WIDTH
            yield "drop", number(body, at + 2), f" of step {step}", 1, MAX_DROP
    else:
        yield "from-gate", body[0], "", 0, spot.gate_count - 1
        yield "to-gate", body[1], "", 0, spot.gate_count - 1
        if has_wire_delays(spot.edition):
            yield "wire delay", number(body, 2), "", 0, MAX_DELAY


def out_of_range(spot):
    if spot.body is None:
        return []
    for name, value, behind, least, greatest in numbers_in(spot):
        if not least <= value <= greatest:
            return [spot.says(f"{name} {value}{behind} is out of its range, {least} to {greatest}")]
    return []


def not_falling(spot):
    if spot.body is None or spot.due != GATE_TAG:
        return []
    drops = [number(spot.body, at) for at in range(6, len(spot.body), 4)]
    for step in range(1, len(drops)):
        if drops[step] >= drops[step - 1]:
            return [spot.says(f"drop {drops[step]} of step {step + 1} is not below drop {drops[step - 1]} of step {step}")]
    return []


def wrong_wire(spot):
    if spot.body is None or spot.due != WIRE_TAG:
        return []
    source, target = (label(spot.netlist, gate, SHORT_LABEL) for gate in spot.body[:2])
    if spot.body[0] == spot.body[1]:
        return [spot.says(f"it joins {source} to itself")]
    for count, (at, body) in enumerate(spot.wires, 1):
        if body[:2] == spot.body[:2]:
            delays = ", whatever their delays" if has_wire_delays(spot.edition) else ""
            fault = f"{source} -> {target} stood before{delays}, as the {ordinal(count)} wire at byte {at}"
            return [spot.says(fault)]
    return []


def too_long(spot):
    if not spot.left or spot.due != WIRE_TAG or len(spot.wires) != MAX_WIRES:
        return []
    # of a longer file no more is read
    more = " or more" if len(spot.file) >= MAX_BYTES else ""
    follows = "follows" if spot.left == 1 else "follow"
    what = f"{counted(spot.left, 'byte')}{more} {follows} the {MAX_WIRES}th wire, from byte {spot.at} on"
    return [f"{what}; a file has at most {MAX_WIRES} wires"]


# each finds the details of one refusal, and nothing if they do not fit
FIELD_FAULTS = {1: missing, 2: wrong_tag, 3: wrong_length, 4: out_of_range, 5: not_falling, 6: wrong_wire, 7: too_long}

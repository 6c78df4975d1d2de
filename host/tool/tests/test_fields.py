"""Tests of fields.py: hand-made files with the whole text."""

import unittest

from netlist import MAX_BYTES, MAX_GATES, MAX_WIRES, decode
from tests.blocks import MANY_GATES, MANY_WIRES, RefusalTest, a_field, diamond, gate, head, network, wire, with_names


class Missing(RefusalTest):
    def test_empty(self):
        self.refused(b"", 1, 0, "the file is empty: the block field is due at byte 0")

    def test_cut_in_every_field_of_the_diamond(self):
        fields = [(0, 8, "the block field")]
        fields += [(at, size, f"the field of gate {g}") for g, (at, size) in enumerate([(11, 4), (18, 12), (33, 8), (44, 8)])]
        fields += [(55, 2, "the 1st wire"), (60, 2, "the 2nd wire"), (65, 2, "the 3rd wire"), (70, 2, "the 4th wire")]
        for at, size, name in fields:
            for there in (1, 2):
                line = f"{name} at byte {at}: the header has {there} of 3 bytes, then the file ends"
                self.refused(diamond()[: at + there], 1, at, line)
            for there in range(size):
                line = f"{name} at byte {at}: the body has {there} of {size} bytes, then the file ends"
                self.refused(diamond()[: at + 3 + there], 1, at, line)

    def test_cut_behind_fields_of_the_diamond(self):
        for gates, at in enumerate([11, 18, 33, 44]):
            due = f"the field of gate {gates} is due at byte {at}, but the file ends there"
            count = f"the block field gives gate count 4; gate fields in front of byte {at}: {gates}"
            self.refused(diamond()[:at], 1, at, due, count)
        for at, gate_at_fault in [(55, 0), (60, 1), (65, 1), (70, 2)]:
            line = f"gate {gate_at_fault} has no wire out; every gate but the last, gate 3, needs one"
            self.refused(diamond()[:at], 9, gate_at_fault, line)
            self.general(diamond()[:at], 1, at)

    def test_nothing_missing(self):
        self.general(head(1), 1, 0)
        self.general(diamond(), 1, 70)

    def test_length_one(self):
        self.holds(b"\1\0\1", 1, 0, "the block field at byte 0: the body has 0 of 1 byte, then the file ends")


class TagsAndLengths(RefusalTest):
    def test_tags(self):
        file = diamond()
        self.refused(b"\2" + file[1:], 2, 0, "the block field at byte 0: tag 2 (gate) stands there, but tag 1 (block) is due")
        self.refused(
            file[:33] + file[55:],
            2,
            33,
            "the field of gate 2 at byte 33: tag 3 (wire) stands there, but tag 2 (gate) is due",
            "the block field gives gate count 4; gate fields in front of byte 33: 2",
        )
        self.refused(
            file[:65] + b"\xff\0\0",
            2,
            65,
            "the 3rd wire at byte 65: tag 255 stands there, but tag 3 (wire) is due",
            "the block field gives gate count 4; gate fields in front of byte 65: 4",
        )

    def test_block_length(self):
        self.refused(a_field(1, bytes(9)), 3, 0, "the block field at byte 0: the length is 9, but a block field has 8")
        self.refused(b"\1\0\0", 3, 0, "the block field at byte 0: the length is 0, but a block field has 8")

    def test_nine_steps(self):
        line = (
            "the field of gate 1 at byte 18: the length is 40, but a gate field has 4, 8, 12, 16, 20, 24, 28, 32 or 36, "
            "which is 4 and 4 for each of 0 to 8 steps"
        )
        self.refused(head(2) + gate(1, 128) + gate(1, 128, *[1] * 18), 3, 18, line)
        self.general(head(2) + gate(1, 128) + gate(1, 128, *[1] * 16), 3, 18)

    def test_wire_lengths(self):
        for edition, size, due in [(1, 4, 2), (2, 2, 4), (3, 0, 4)]:
            file = head(2, edition) + gate(1, 128) * 2 + a_field(3, bytes(size))
            line = f"the 1st wire at byte 25: the length is {size}, but a wire field has {due} in edition {edition}"
            self.refused(file, 3, 25, line)


class Ranges(RefusalTest):
    def test_block(self):
        front = "the block field at byte 0: "
        for edition in (0, 4, 255):
            self.refused(head(1, edition) + gate(1, 0), 4, 0, f"{front}edition {edition} is out of its range, 1 to 3")
        for gates in (0, MAX_GATES + 1, 255):
            self.refused(head(gates) + gate(1, 0) * gates, 4, 0, f"{front}gate count {gates} is out of its range, 1 to 200")
        for edition in (1, 2):
            file = head(1, edition, switching=257) + gate(1, 0)
            self.refused(file, 4, 0, f"{front}p 257 is out of its range, 0 to 256")

    def test_first_number_at_fault(self):
        front = "the block field at byte 0: "
        self.refused(head(201, 4, switching=257), 4, 0, f"{front}edition 4 is out of its range, 1 to 3")
        self.refused(head(201, 1, switching=257), 4, 0, f"{front}gate count 201 is out of its range, 1 to 200")

    def test_numbers_at_their_limits(self):
        self.general(head(MAX_GATES, switching=256), 4, 0)
        self.general(head(1, 3, switching=65535), 4, 0)
        self.general(head(1, 3) + gate(4095, 65535, 4095, 1000, 1, 1), 4, 11)
        self.general(head(2, 2) + gate(1, 1) * 2 + wire(0, 1, 4095), 4, 25)

    def test_gate(self):
        for numbers, fault in [
            ((4096, 257), "drawn delay 4096 is out of its range, 0 to 4095"),
            ((4095, 257, 0, 0), "p 257 is out of its range, 0 to 256"),
            ((1, 256, 0, 0), "width 0 of step 1 is out of its range, 1 to 4095"),
            ((1, 0, 4096, 1), "width 4096 of step 1 is out of its range, 1 to 4095"),
            ((1, 0, 4095, 0, 0, 0), "drop 0 of step 1 is out of its range, 1 to 1000"),
            ((1, 0, 1, 1000, 1, 1001), "drop 1001 of step 2 is out of its range, 1 to 1000"),
            ((1, 0, *[1, 5] * 7, 65535, 5), "width 65535 of step 8 is out of its range, 1 to 4095"),
        ]:
            line = f"the field of gate 1 at byte 18: {fault}"
            self.refused(head(2) + gate(1, 0) + gate(*numbers) + wire(0, 1), 4, 18, line)

    def test_wire(self):
        for ends, fault in [
            ((2, 2, 4096), "from-gate 2 is out of its range, 0 to 1"),
            ((1, 255, 4096), "to-gate 255 is out of its range, 0 to 1"),
            ((1, 1, 4096), "wire delay 4096 is out of its range, 0 to 4095"),
        ]:
            file = head(2, 2) + gate(1, 0) * 2 + wire(0, 1, 4095) + wire(*ends)
            self.refused(file, 4, 32, f"the 2nd wire at byte 32: {fault}")


class DropsAndWires(RefusalTest):
    def test_drops(self):
        for steps, fault in [
            ((2, 5, 3, 5), "drop 5 of step 2 is not below drop 5 of step 1"),
            ((2, 5, 3, 4, 1, 7, 1, 9), "drop 7 of step 3 is not below drop 4 of step 2"),
        ]:
            self.refused(head(1) + gate(1, 0, *steps), 5, 11, f"the field of gate 0 at byte 11: {fault}")

    def test_to_itself(self):
        self.refused(network(2, (0, 1), (1, 1)), 6, 30, "the 2nd wire at byte 30: it joins gate 1 to itself")

    def test_twice(self):
        line = "the 4th wire at byte 47: gate 0 -> gate 1 stood before, as the 2nd wire at byte 37"
        self.refused(network(3, (0, 2), (0, 1), (1, 2), (0, 1)), 6, 47, line)
        self.general(network(2, (0, 1), (1, 0)), 6, 30)

    def test_twice_with_other_delays(self):
        file = head(2, 2) + gate(1, 0) * 2 + wire(0, 1, 0) + wire(0, 1, 7)
        line = "the 2nd wire at byte 32: gate 0 -> gate 1 stood before, whatever their delays, as the 1st wire at byte 25"
        self.refused(file, 6, 32, line)

    def test_601st_wire(self):
        file = network(MANY_GATES, *MANY_WIRES[:MAX_WIRES])
        at = 11 + 26 * 7 + 600 * 5
        one = f"1 byte follows the 600th wire, from byte {at} on; a file has at most 600 wires"
        self.refused(file + b"\3", 7, at, one)
        self.refused(file + wire(0, 1), 7, at, one.replace("1 byte follows", "5 bytes follow"))
        read = file.ljust(MAX_BYTES, b"\3")
        self.refused(read, 7, at, one.replace("1 byte follows", f"{16_384 - at} bytes or more follow"))
        self.general(file, 7, at)
        self.general(file[:-5] + wire(0, 1), 7, at - 5)

    def test_ordinals(self):
        for count, said in [(2, "2nd"), (3, "3rd"), (11, "11th"), (12, "12th"), (13, "13th"), (21, "21st"), (22, "22nd")]:
            file = network(MANY_GATES, *MANY_WIRES[: count - 1], (0, 0))
            at = 11 + 26 * 7 + 5 * (count - 1)
            self.refused(file, 6, at, f"the {said} wire at byte {at}: it joins gate 0 to itself")


class Names(RefusalTest):
    def test_names_in_field_faults(self):
        netlist = with_names(decode(diamond()), ["in", "or", "and", "sum"])
        line = "the field of gate 2 (and) at byte 33: the body has 5 of 8 bytes, then the file ends"
        self.holds(diamond()[:41], 1, 33, line, netlist=netlist)
        short = with_names(decode(head(1) + gate(1, 1)), ["in"])
        self.holds(diamond()[:41], 1, 33, line.replace(" (and)", ""), netlist=short)
        line = "the 5th wire at byte 75: it joins gate 1 (or) to itself"
        self.holds(diamond() + wire(1, 1), 6, 75, line, netlist=netlist)


class General(RefusalTest):
    def test_places_at_no_field(self):
        for number in range(1, 8):
            for place in (-1, 1, 12, 74, 76, 10**20):
                self.general(diamond(), number, place)

    def test_behind_a_block_field_that_says_nothing(self):
        for body in (b"", b"\1", b"\1\1" + bytes(5), bytes([4, 1]) + bytes(6), bytes([1, 201]) + bytes(6), bytes(9)):
            file = a_field(1, body)
            for number in range(1, 8):
                for behind in (b"", b"\1", gate(9999, 1), wire(9, 9)):
                    self.general(file + behind, number, len(file))

    def test_bodies_that_are_not_whole(self):
        for number in (3, 4, 5, 6):
            for size, place in [(10, 0), (32, 18), (74, 70), (72, 70)]:
                self.general(diamond()[:size], number, place)

    def test_no_fault_there(self):
        for number in range(1, 8):
            for place in (0, 11, 18, 55, 75):
                self.general(diamond(), number, place)


if __name__ == "__main__":
    unittest.main()

"""Tests of the text form."""

import random
import unittest

from description import MAX_NAME, Fault, is_description, read, write
from netlist import MAX_EDITION, MAX_GATES, MAX_WIRES, Gate, Netlist, Step, Wire, decode, encode, has_wire_delays, max_switching
from tests.blocks import MANY_GATES, MANY_WIRES, with_names

BLOCK = "block arrival 0 deadline 9 p 128"
TWO = f"{BLOCK}\ngate 0 delay 1 p 0\ngate 1 delay 1 p 0\n"


def message(text):
    """The fault of a description, with its line in front where it has one."""
    try:
        read(text if isinstance(text, bytes) else text.encode())
    except Fault as fault:
        return str(fault) if fault.line is None else f"{fault.line}: {fault}"
    raise AssertionError(f"no fault in {text!r}")


def said(text):
    return read(text.encode())


def with_gates(count):
    """A block line and so many gates."""
    return BLOCK + "".join(f"\ngate {gate} delay 1 p 0" for gate in range(count))


def any_netlist(draw):
    """A netlist within the limits of its edition, its network of any kind."""
    edition, count = draw.randint(1, MAX_EDITION), draw.choice([1, 2, 5, 65, MAX_GATES])
    gates = []
    for number in range(count):
        drops = sorted(draw.sample(range(1, 1_001), draw.randint(0, 8)), reverse=True)
        steps = tuple(Step(draw.randint(1, 4_095), drop) for drop in drops)
        name = draw.choice(["", f"u{number}", f"$and${number}[3]", f"été{number}"])
        gates.append(Gate(draw.randint(0, 4_095), draw.randint(0, max_switching(edition)), steps, name))
    pairs = [(a, b) for a in range(count) for b in range(count) if a != b]
    delays = range(4_096) if has_wire_delays(edition) else [0]
    wanted = min(len(pairs), draw.choice([0, 3, 257, MAX_WIRES]))
    wires = tuple(Wire(*pair, draw.choice(delays)) for pair in draw.sample(pairs, wanted))
    times = draw.randint(0, 65_535), draw.randint(0, 65_535)
    return Netlist(edition, *times, draw.randint(0, max_switching(edition)), tuple(gates), wires)


class Reading(unittest.TestCase):
    def test_a_description_says_the_netlist_it_was_written_from(self):
        draw, editions = random.Random(11), set()
        for _ in range(300):
            netlist = any_netlist(draw)
            self.assertEqual(said(write(netlist)), netlist)
            self.assertEqual(decode(encode(netlist)), with_names(netlist, [""] * len(netlist.gates)))
            editions.add(netlist.edition)
        self.assertEqual(editions, {1, 2, 3})

    def test_a_delay_or_the_block_line_says_the_edition(self):
        def found(end, wires):
            netlist = said(f"{BLOCK}{end}\n" + "".join(f"gate {g} delay 1 p 0\n" for g in range(3)) + wires)
            return netlist.edition, [wire.delay for wire in netlist.wires]

        self.assertEqual(found("", "wires 0-1 1-2"), (1, [0, 0]))
        self.assertEqual(found(" edition 1", "wires 0-1 1-2"), (1, [0, 0]))
        self.assertEqual(found(" edition 2", "wires 0-1 1-2"), (2, [0, 0]))
        self.assertEqual(found("", "wires 0-1 1-2:0"), (2, [0, 0]))
        self.assertEqual(found("", "wires 0-1:4095\nwires 1-2:7"), (2, [4_095, 7]))
        self.assertEqual(found(" edition 2 # long wires", "wires 0-1 1-2:256"), (2, [0, 256]))
        self.assertEqual(found(" edition 2", ""), (2, []))

    def test_the_word_activity_says_edition_3(self):
        for end in ("", " edition 3", " # counted"):
            for wire, delay in (("0-1", 0), ("0-1:0", 0), ("0-1:4095", 4_095)):
                gates = "gate 0 delay 1 activity 257\ngate 1 delay 1 activity 3\n"
                netlist = said(f"block arrival 0 deadline 9 activity 65535{end}\n{gates}wires {wire}")
                self.assertEqual((netlist.edition, netlist.switching, netlist.gates[0].switching), (3, 65_535, 257))
                self.assertEqual(netlist.wires, (Wire(0, 1, delay),))

    def test_names_comments_blanks_and_line_ends(self):
        netlist = said(
            "\ufeff# one gate\r\n\r\nblock arrival 0 deadline 8 p 128 # input\r\n"
            " gate 0 name $a[0] delay 5 p 128 steps (2,3)\r\n"
        )
        self.assertEqual(netlist.gates, (Gate(5, 128, (Step(2, 3),), "$a[0]"),))
        self.assertEqual(netlist.label(0), "gate 0 ($a[0])")
        self.assertEqual(said(f"{BLOCK}\ngate 00 delay 007 p 0").gates, (Gate(7, 0),))
        self.assertEqual(said(f"{BLOCK}\ngate 0 name name delay 1 p 0").gates[0].name, "name")
        self.assertEqual(said(f"{BLOCK}\ngate 0 name {'x' * MAX_NAME} delay 1 p 0").gates[0].name, "x" * MAX_NAME)

    def test_a_written_description_says_edition_2_and_delays_above_0(self):
        text = TWO.replace("p 128", "p 128 edition 2") + "wires 0-1"
        self.assertEqual(write(said(f"{text}:0")), f"{text}\n")
        self.assertEqual(write(said(f"{text}:5")), f"{text}:5\n")
        self.assertEqual(write(said(TWO.replace("p 128", "p 128 edition 1"))), TWO)


class Faults(unittest.TestCase):
    def held(self, cases):
        for text, right in cases:
            with self.subTest(text=text[:80]):
                self.assertEqual(message(text), right)

    def test_of_the_whole(self):
        self.held(
            [
                ("", "the description is empty"),
                (" \n\t\n", "the description is empty"),
                ("# nothing\n", "there is no block line"),
                (BLOCK, "there is no gate"),
                (b"block \xff", "this is no text: byte 6 is not UTF-8"),
                (b" " * ((1 << 24) + 1), "a description has at most 16777216 bytes"),
            ]
        )

    def test_of_lines(self):
        self.held(
            [
                ("gate 0 delay 1 p 0", "1: the block line must come first"),
                ("wires 0-1", "1: the block line must come first"),
                ("circuit", "1: 'block', 'gate' or 'wires' was expected, not 'circuit'"),
                (f"{BLOCK}\n{BLOCK}", "2: a second block line"),
                ("block arrival 0 deadline 65536 p 1", "1: deadline 65536 is not 0 to 65535"),
                ("block arrival 0 p 1", "1: 'deadline' was expected, not 'p'"),
                ("block arrival 0 deadline", "1: the number after 'deadline' is missing at the end of the line"),
                ("block arrival 0 deadline +5 p 1", "1: deadline: a number was expected, not '+5'"),
                ("block arrival 0 deadline ² p 1", "1: deadline: a number was expected, not '²'"),
                (f"{BLOCK}\ngate 1 delay 1 p 0", "2: gate 0 is due here, not gate 1"),
                (f"{BLOCK}\ngate x delay 1 p 0", "2: gate: a number was expected, not 'x'"),
                (f"{BLOCK}\ngate", "2: the gate's number is missing at the end of the line"),
                (f"{BLOCK}\ngate 0 delay 4096 p 0", "2: delay 4096 is not 0 to 4095"),
                (f"{BLOCK}\ngate 0 delay 1 p 257", "2: p 257 is not 0 to 256"),
                (f"{TWO}wires 0-1\ngate 2 delay 1 p 0", "5: gates must come before wires"),
                (f"{TWO}wires # none yet\ngate 2 delay 1 p 0", "5: gates must come before wires"),
                (with_gates(MAX_GATES + 1), "202: more than 200 gates"),
            ]
        )

    def test_of_steps(self):
        gate = f"{BLOCK}\ngate 0 delay 1 p 0"
        self.held(
            [
                (f"{gate} (1,1)", "2: 'steps' or the end of the line was expected, not '(1,1)'"),
                (f"{gate} steps (0,1)", "2: width 0 is not 1 to 4095"),
                (f"{gate} steps (1,1001)", "2: drop 1001 is not 1 to 1000"),
                (f"{gate} steps (1,5) (2,5)", "2: drops must fall strictly: 5 after 5"),
                (f"{gate} steps 1,5", "2: a step (width,drop) was expected, not '1,5'"),
                (f"{gate} steps (", "2: a step (width,drop) was expected, not '('"),
                (f"{gate} steps (1,x)", "2: drop: a number was expected, not 'x'"),
                (f"{gate} steps " + " ".join(f"(1,{9 - k})" for k in range(9)), "2: more than 8 steps"),
            ]
        )

    def test_of_names(self):
        gate = f"{BLOCK}\ngate 0 name"
        self.held(
            [
                (gate, "2: the name after 'name' is missing at the end of the line"),
                (f"{gate} {'x' * 65} delay 1 p 0", f"2: a name has 1 to 64 printable characters, not '{'x' * 57}...'"),
                (f"{gate} a\x07b delay 1 p 0", "2: a name has 1 to 64 printable characters, not 'a\\x07b'"),
                (f"{gate} a delay 1 p 0\ngate 1 name a delay 1 p 0", "3: name a stood before, in line 2"),
                (f"{gate} a b delay 1 p 0", "2: 'delay' was expected, not 'b'"),
            ]
        )

    def test_of_wires(self):
        def wires(words):
            return f"{TWO}wires {words}"

        self.held(
            [
                (wires("0-1 1-2"), "4: wire 1-2: there is no gate 2"),
                (wires("0-99999999999"), "4: wire 0-99999999999: there is no gate 99999999999"),
                (wires("1-1"), "4: wire 1-1 joins a gate to itself"),
                (wires("0-1\nwires 0-1"), "5: wire 0-1 stood before, in line 4"),
                (wires("01"), "4: a wire from-to was expected, not '01'"),
                (wires("0-x"), "4: wire 0-x: a gate's number was expected, not 'x'"),
                (wires("0-1:4096"), "4: wire 0-1: delay 4096 is not 0 to 4095"),
                (wires("0-1:"), "4: wire 0-1: delay: a number was expected, not ''"),
                (wires("0-1:-5"), "4: wire 0-1: delay: a number was expected, not '-5'"),
                (wires("0-1:5:6"), "4: wire 0-1: delay: a number was expected, not '5:6'"),
                (wires("0:5-1"), "4: a wire from-to was expected, not '0'"),
                (wires("0-1:5 0-1"), "4: wire 0-1 stood before, in line 4"),
                (
                    TWO.replace("128", "128 edition 1") + "wires 0-1:5",
                    "4: wire 0-1:5 has a delay, but the block line says edition 1",
                ),
            ]
        )
        pairs = [f"{a}-{b}" for a, b in MANY_WIRES]
        self.assertEqual(len(said(f"{with_gates(MANY_GATES)}\nwires {' '.join(pairs[:MAX_WIRES])}").wires), 600)
        self.held([(f"{with_gates(MANY_GATES)}\nwires {' '.join(pairs[: MAX_WIRES + 1])}", "28: more than 600 wires")])

    def test_of_editions_and_activities(self):
        block = "block arrival 0 deadline 9"
        self.held(
            [
                (f"{block} p 1 edition 4", "1: edition 4 is not 1 to 3"),
                (f"{block} p 1 edition 0", "1: edition 0 is not 1 to 3"),
                (f"{block} p 1 edition two", "1: edition: a number was expected, not 'two'"),
                (f"{block} p 1 edition", "1: the number after 'edition' is missing at the end of the line"),
                (f"{block} p 1 edition 2 2", "1: '2' was not expected here"),
                (f"{block} p 1 2", "1: 'edition' or the end of the line was expected, not '2'"),
                (f"{block} activity 1 edition 2", "1: the block line has 'activity', but says edition 2"),
                (f"{block} p 1 edition 3", "1: the block line has 'p', but says edition 3"),
                (f"{block} activity 65536", "1: activity 65536 is not 0 to 65535"),
                (f"{block} q 1", "1: 'p' or 'activity' was expected, not 'q'"),
                (block, "1: 'p' or 'activity' is missing at the end of the line"),
                (f"{block} activity 1\ngate 0 delay 1 p 1", "2: gate 0 has 'p', but the block line has 'activity'"),
                (f"{block} p 1\ngate 0 delay 1 activity 1", "2: gate 0 has 'activity', but the block line has 'p'"),
            ]
        )

    def test_long_words_and_control_characters_are_not_echoed(self):
        for word in ("x" * 2_000_000, "9" * 2_000_000, "\x1b[31mred\x07"):
            for text in (word, f"block arrival {word}", f"{TWO}wires {word}", f"{TWO}wires 0-{word}", f"{TWO}wires 0-1:{word}"):
                found = message(text)
                self.assertLess(len(found), 250)
                self.assertTrue(found.isprintable(), found)


class Taken(unittest.TestCase):
    def test_what_is_taken_for_a_description(self):
        for head in (
            b"block arrival",
            b"# comment",
            b"\n\nblock",
            b"circuit",
            "\ufeffblock".encode(),
            b"block \x1b",
            "é".encode() * 5,
        ):
            self.assertTrue(is_description(head), head)
        for head in (b"", b"\x01\x00\x08", b"\x01", b"\x02ab", b"\xff\xff", b"block\0", b"\x07bc"):
            self.assertFalse(is_description(head), head)

    def test_a_character_cut_at_the_end_of_what_was_read(self):
        self.assertTrue(is_description("blocké".encode()[:-1]))


if __name__ == "__main__":
    unittest.main()

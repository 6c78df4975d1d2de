"""Tests of words.py: hand-made files with the whole text, and damaged files with the refusals that host/python finds."""

import random
import re
import unittest
from collections import Counter

from description import MAX_NAME
from netlist import MAX_GATES, MAX_PAIRS, Gate, Netlist, Step, Wire, decode, encode
from tests.blocks import BRIDGE, RefusalTest, a_field, diamond, gate, head, network, refused_by_block, second_opinion, two
from tests.blocks import wire, with_names
from text import LINE
from words import path_in_words, refusal_in_words


LAST = MAX_GATES - 1
# as many gates as there can be, one behind the other
CHAIN = [(g, g + 1) for g in range(LAST)]


def named(file, *names):
    return with_names(decode(file), names)


class LoopsAndEnds(RefusalTest):
    def test_loop_of_two(self):
        self.refused(network(7, (0, 2), (2, 5), (5, 2), (5, 6)), 8, 2, "a loop: gate 2 -> gate 5 -> gate 2")

    def test_shortest_loop(self):
        wires = [(0, 1), (1, 2), (2, 3), (3, 1), (1, 4), (4, 5), (5, 6), (6, 1), (1, 7), (7, 3)]
        self.refused(network(8, *wires), 8, 1, "a loop: gate 1 -> gate 2 -> gate 3 -> gate 1")

    def test_long_loop(self):
        said = refusal_in_words(network(MAX_GATES, *CHAIN, (LAST, 0)), 8, 0)
        self.assertEqual(said[0][:41], "a loop: gate 0 -> gate 1 -> gate 2 -> gat")
        self.assertRegex(said[0], r"gate 14 -> gate 15 -> 184 more -> gate 0$")

    def test_no_loop(self):
        self.general(diamond(), 8, 1)
        self.general(network(7, (0, 2), (2, 5), (5, 2), (5, 6)), 8, 0)

    def test_first_gate(self):
        self.refused(
            network(4, (1, 0), (2, 0), (3, 1), (3, 2)),
            9,
            0,
            "no wire may lead into gate 0, the first, but 2 do, from gate 1 and gate 2",
            "gate 0 has no wire out; every gate but the last, gate 3, needs one",
        )
        self.refused(network(3, (1, 0), (0, 2)), 9, 0, "no wire may lead into gate 0, the first, but 1 does, from gate 1")

    def test_last_gate(self):
        backwards = network(2, (1, 0))
        self.refused(
            backwards,
            9,
            0,
            "no wire may lead into gate 0, the first, but 1 does, from gate 1",
            "gate 0 has no wire out; every gate but the last, gate 1, needs one",
        )
        self.holds(
            backwards,
            9,
            1,
            "gate 1 has no wire in; every gate but gate 0 needs one",
            "no wire may lead out of gate 1, the last, but 1 does, to gate 0",
        )
        file = network(4, (0, 1), (0, 2), (0, 3), (3, 1), (3, 2))
        self.holds(file, 9, 3, "no wire may lead out of gate 3, the last, but 2 do, to gate 1 and gate 2")

    def test_gate_between(self):
        both = [
            "gate 1 has no wire in; every gate but gate 0 needs one",
            "gate 1 has no wire out; every gate but the last, gate 2, needs one",
        ]
        self.refused(network(3, (0, 2)), 9, 1, *both)
        self.refused(network(3, (0, 2), (1, 2)), 9, 1, both[0])
        self.refused(network(3, (0, 2), (0, 1)), 9, 1, both[1])
        self.general(network(3, (0, 1), (1, 2)), 9, 1)

    def test_last_gate_alone(self):
        self.holds(network(2), 9, 1, "gate 1 has no wire in; every gate but gate 0 needs one")
        self.refused(network(2), 9, 0, "gate 0 has no wire out; every gate but the last, gate 1, needs one")

    def test_many_wires_in(self):
        said = refusal_in_words(network(MAX_GATES, *[(g, 0) for g in range(1, MAX_GATES)]), 9, 0)[0]
        self.assertTrue(said.startswith("no wire may lead into gate 0, the first, but 199 do, from gate 1, gate 2, "))
        self.assertTrue(said.endswith(", gate 15 and 184 more"), said)


class Lent(RefusalTest):
    def test_elements(self):
        front = "the lent memory is too short: "
        self.holds(diamond(), 10, 4, f"{front}4 elements are needed, one for each of 4 gates")
        self.holds(diamond(), 10, 16, f"{front}16 bytes are needed, 4 for each of 4 gates")
        self.holds(diamond(), 10, MAX_PAIRS, f"{front}1600 elements are needed, as many as a curve can have pairs")
        widest = network(MAX_GATES, *CHAIN)
        self.holds(widest, 10, 200, f"{front}200 elements are needed, one for each of 200 gates")
        self.holds(widest, 10, 800, f"{front}800 bytes are needed, 4 for each of 200 gates")
        self.holds(head(1) + gate(1, 1), 10, 1, f"{front}1 element is needed, one for each of 1 gate")
        self.holds(b"", 10, 7, f"{front}7 elements are needed")
        self.general(diamond(), 10, 0)

    def test_a_list_that_is_judged(self):
        self.holds(diamond(), 10, 4, "the list has 3 increases, the block 4 gates", increases=[0, 0, 0])
        self.holds(diamond(), 10, 4, "the list has 1 increase, the block 4 gates", increases=[9])
        self.holds(head(1) + gate(1, 1), 10, 1, "the list has 0 increases, the block 1 gate", increases=[])
        for file, place, count in [(diamond(), 4, 4), (diamond(), 5, 3), (diamond(), 16, 3), (b"", 7, 3)]:
            self.general(file, 10, place, increases=[0] * count)


class NotSeriesParallel(RefusalTest):
    TAKEN = "with gates in series taken away and doubled wires merged, it is the lowest gate left between the ends"

    def test_bridge(self):
        self.refused(
            network(4, *BRIDGE),
            11,
            1,
            f"not series-parallel at gate 1: {self.TAKEN}",
            "it then has 1 wire in, from gate 0",
            "it then has 2 wires out, to gate 2 and gate 3",
            "4 gates left: gate 0, gate 1, gate 2 and gate 3",
            "look at: the block would be series-parallel without gate 0 -> gate 2, gate 1 -> gate 2 or gate 1 -> gate 3",
        )
        self.general(network(4, *BRIDGE), 11, 2)
        self.general(diamond(), 11, 1)

    def test_bridge_behind_a_gate(self):
        self.refused(
            network(6, (0, 1), (1, 2), (2, 3), (2, 4), (3, 4), (3, 5), (4, 5)),
            11,
            2,
            f"not series-parallel at gate 2: {self.TAKEN}",
            "it then has 1 wire in, from gate 0 (through gate 1)",
            "it then has 2 wires out, to gate 3 and gate 4",
            "5 gates left: gate 0, gate 2, gate 3, gate 4 and gate 5",
            "look at: the block would be series-parallel without gate 2 -> gate 4, gate 3 -> gate 4 or gate 3 -> gate 5",
        )

    def test_connection_through_many_gates(self):
        between = [wire for g in range(3, 10) for wire in [(1, g), (g, 2)]]
        lines = refusal_in_words(network(11, (0, 1), (0, 2), (1, 10), (2, 10), *between), 11, 1)
        self.assertEqual(lines[2], "it then has 2 wires out, to gate 2 (through gates 3, 4, 5, 6, 7 and 2 more) and gate 10")
        self.assertIn("gate 1 -> gate 2 (through gates 3, 4, 5, 6, 7 and 2 more) or ", lines[4])

    def test_no_single_connection(self):
        two_bridges = BRIDGE + [(a + 3, b + 3) for a, b in BRIDGE]
        lines = refusal_in_words(network(7, *two_bridges), 11, 1)
        self.assertEqual(lines[3], "7 gates left: gate 0, gate 1, gate 2, gate 3, gate 4, gate 5 and gate 6")
        self.assertEqual(lines[4], "look at what joins it to gate 0, gate 2 and gate 3")

    def test_with_loops_and_wrong_ends(self):
        self.general(network(4, *BRIDGE, (3, 1)), 11, 1)
        self.general(network(5, *BRIDGE, (0, 4), (1, 4), (2, 4)), 11, 1)


class Late(RefusalTest):
    def test_late(self):
        line = "late by 1 tick: the longest path lasts 7 ticks from arrival 0, the deadline is 6: gate 0 -> gate 1 -> gate 3"
        self.refused(diamond(deadline=6), 12, 0, line)
        self.general(diamond(deadline=7), 12, 0)

    def test_one_gate_and_arrival(self):
        file = a_field(1, bytes([1, 1]) + two(9, 8, 128)) + gate(1, 128)
        line = "late by 2 ticks: the longest path lasts 1 tick from arrival 9, the deadline is 8: gate 0"
        self.refused(file, 12, 0, line)

    def test_wire_delays_count(self):
        file = head(2, 2, deadline=10) + gate(1, 1) * 2 + wire(0, 1, 4095)
        line = "late by 4087 ticks: the longest path lasts 4097 ticks from arrival 0, the deadline is 10: gate 0 -> gate 1"
        self.refused(file, 12, 0, line)

    def test_long_path(self):
        first, second = refusal_in_words(network(MAX_GATES, *CHAIN, deadline=0), 12, 0)
        self.assertEqual(first, "late by 200 ticks: the longest path lasts 200 ticks from arrival 0, the deadline is 0:")
        self.assertTrue(second.startswith("gate 0 -> gate 1 -> "))
        self.assertTrue(second.endswith(" -> gate 16 -> 182 more -> gate 199"), second)

    def test_loops_and_ends(self):
        self.general(network(3, (0, 1), (1, 2), (2, 1), deadline=0), 12, 0)
        self.general(network(3, (0, 2), deadline=0), 12, 0)
        self.general(network(3, (0, 2), (1, 2), deadline=0), 12, 0)
        self.general(network(3, (0, 2), (0, 1), deadline=0), 12, 0)
        self.general(b"", 12, 0)


class Judged(RefusalTest):
    def test_beyond_widths(self):
        line = "the increase of gate 1 is 6, but the sum of its widths is 5"
        self.holds(diamond(), 13, 1, line, increases=[0, 6, 0, 0])
        line = "the increase of gate 0 is 1, but the sum of its widths is 0"
        self.holds(diamond(), 13, 0, line, increases=[1, 6, 0, 0])
        for known in ({}, {"increases": [0, 5, 0, 0]}, {"increases": [9]}):
            self.general(diamond(), 13, 1, **known)

    def test_late(self):
        front = "late by 1 tick under these increases: the longest path lasts 11 ticks from arrival 0, the deadline is 10: "
        self.holds(diamond(), 14, 0, front + "gate 0 -> gate 1 -> gate 3 +4", increases=[0, 0, 2, 4])
        self.holds(diamond(), 14, 0, front + "gate 0 -> gate 2 +3 -> gate 3 +3", increases=[0, 0, 3, 3, 99])
        for known in ({}, {"increases": [0, 0, 2, 3]}, {"increases": [0, 0, 2]}):
            self.general(diamond(), 14, 0, **known)


class Wanted(RefusalTest):
    def test_wanted(self):
        line = "a saving of 3014657 is wanted, but all ticks together save 3014656"
        self.holds(diamond(), 17, 0, line, wanted=3014657, most=3014656)
        line = "a saving of 3014657 is wanted, but no number of spare ticks reaches it"
        self.holds(diamond(), 17, 0, line, wanted=3014657)
        self.general(diamond(), 17, 0)
        self.general(diamond(), 17, 0, wanted=5, most=5)


class Names(RefusalTest):
    def test_names(self):
        file = diamond(deadline=6)
        front = "late by 1 tick: the longest path lasts 7 ticks from arrival 0, the deadline is 6: "
        line = front + "gate 0 (in) -> gate 1 -> gate 3 (sum)"
        self.holds(file, 12, 0, line, netlist=named(file, "in", "", "or", "sum"))
        line = "the increase of gate 1 (or) is 6, but the sum of its widths is 5"
        self.holds(file, 13, 1, line, netlist=named(file, "", "or", "", ""), increases=[0, 6])

    def test_names_in_every_line_of_a_bridge(self):
        file = network(4, *BRIDGE)
        lines = refusal_in_words(file, 11, 1, netlist=named(file, "a", "b", "c", "d"))
        plain = refusal_in_words(file, 11, 1)
        names = "abcd"
        self.assertEqual(lines, [re.sub(r"gate (\d)", lambda m: f"{m[0]} ({names[int(m[1])]})", line) for line in plain])

    def test_control_characters(self):
        file = network(2, (0, 1), (1, 0))
        netlist = named(file, "a\x1b[31m", "b\n\u202e")
        line = r"a loop: gate 0 (a\x1b[31m) -> gate 1 (b\x0a\u202e) -> gate 0 (a\x1b[31m)"
        self.holds(file, 8, 0, line, netlist=netlist)

    def test_long_names_fit_the_line(self):
        names = ["n" * MAX_NAME] * MAX_GATES
        chained = network(MAX_GATES, *CHAIN, deadline=0)
        around = network(MAX_GATES, *CHAIN, (LAST, 0))
        bridges = network(MAX_GATES, (0, 1), *[(3 * k + a + 1, 3 * k + b + 1) for k in range(66) for a, b in BRIDGE])
        into_first = network(MAX_GATES, *[(g, 0) for g in range(1, MAX_GATES)])
        no_way_out = chained[:-5]
        for file, number, place in [
            (chained, 12, 0),
            (around, 8, 0),
            (bridges, 11, 1),
            (into_first, 9, 0),
            (no_way_out, 9, LAST - 1),
        ]:
            lines = refusal_in_words(file, number, place, netlist=named(file, *names))
            self.assertNotEqual(lines[0][:7], "refused")
            for line in lines:
                self.assertLessEqual(len(line), LINE, line)

    def test_path_in_words(self):
        netlist = named(diamond(), "in", "", "or", "sum")
        self.assertEqual(path_in_words(netlist, [0, 2, 3]), "gate 0 (in) -> gate 2 (or) -> gate 3 (sum)")
        self.assertEqual(path_in_words(netlist, [0, 1, 2, 3], room=30), "gate 0 (in) -> 2 more -> gate 3 (sum)")


class General(RefusalTest):
    def test_gates_that_are_not_there(self):
        for number in (8, 9, 11, 13):
            for place in (-1, 4, 300):
                self.general(diamond(), number, place, increases=[9] * 500)

    def test_numbers_that_are_not_there(self):
        for number in (-1, 0, 15, 16, 18, 1 << 64):
            self.holds(diamond(), number, 3, f"refused {number}, place 3: no refusal has this number")

    def test_netlists_that_are_none(self):
        gates = (Gate(1, 1, (Step(1, 1),)),) * 2
        for netlist in (Netlist(1, 0, 0, 0, ()), Netlist(1, 0, 0, 0, gates, (Wire(0, 2),))):
            for number in (8, 9, 11, 12, 13, 14):
                self.general(b"\1\2", number, 0, netlist=netlist, increases=[9, 9])

    def test_files_that_cannot_be_read(self):
        long_wire = head(2) + gate(1, 1) * 2 + a_field(3, b"\0\1" + b"\xff" * 9000)
        for file in (b"", b"\1", head(0), head(4), diamond()[:-1], long_wire, head(1) + a_field(2, b"\0")):
            for number in (8, 9, 11, 12, 13, 14):
                self.general(file, number, 1 if number == 9 else 0, increases=[9] * 9)


def a_network(rng):
    """A file of up to 9 gates with some wires; mostly without loops, every gate between the ends with wires in and out."""
    gates, edition = rng.randint(2, 9), rng.randint(1, 3)
    wires = {(rng.randrange(g), g) for g in range(1, gates)} | {(g, rng.randrange(g + 1, gates)) for g in range(gates - 1)}
    for _ in range(rng.choice([0, 0, 1, 3])):
        wires.add(tuple(sorted(rng.sample(range(gates), 2))))
    if rng.random() < 0.3:
        wires.add(tuple(rng.sample(range(gates), 2)))
    if rng.random() < 0.2:
        wires.discard(rng.choice(sorted(wires)))
    times = [rng.choice([0, rng.randint(0, 9), 40]) for _ in wires]
    said = [wire(*ends, time if edition > 1 else None) for ends, time in zip(rng.sample(sorted(wires), len(wires)), times)]
    delays = [gate(rng.randint(0, 9), rng.randint(0, 256), *rng.choice([(), (2, 5), (3, 4, 1, 2)])) for _ in range(gates)]
    return head(gates, edition, deadline=rng.choice([0, 10, 1000])) + b"".join(delays) + b"".join(said)


def damaged(rng, file):
    """A file with a byte or two changed, cut, bytes left out, doubled or added."""
    file = bytearray(file)
    for _ in range(rng.randint(1, 2)):
        at, how = rng.randrange(len(file) + 1), rng.randrange(6)
        if how < 3 and at < len(file):
            file[at] = rng.choice([0, 1, 2, 3, 4, 5, 8, 16, 255, rng.randrange(256)])
        elif how == 3:
            del file[at:]
        elif how == 4:
            del file[at : at + rng.randint(1, 8)]
        else:
            file[at:at] = rng.choice([bytes(file[at : at + rng.randint(1, 8)]), rng.randbytes(2)])
        if not file:
            break
    return bytes(file)


class Found(unittest.TestCase):
    """The details against what host/python finds by other means."""

    def said(self, file, number, place):
        lines = refusal_in_words(file, number, place)
        for line in lines:
            self.assertTrue(line.isprintable() and len(line) <= LINE, line)
        self.assertFalse(lines[0].startswith("refused"), (file, lines))
        return lines

    def field(self, file, place, lines):
        self.assertRegex(lines[0], rf"\bbyte {place}\b")

    def loop(self, file, place, lines):
        wires = set((w.source, w.target) for w in decode(file).wires)
        loop = [int(word) for word in re.findall(r"gate (\d+)", lines[0])]
        self.assertTrue(loop[0] == loop[-1] == place and set(zip(loop, loop[1:])) <= wires, lines)
        # no gate reached from the place in fewer wires is the place
        reached = {place}
        for _ in range(len(loop) - 2):
            reached = {b for a, b in wires if a in reached}
            self.assertNotIn(place, reached)

    def ends(self, file, place, lines):
        for line in lines:
            self.assertRegex(line, rf"^(no wire may lead (into|out of) )?gate {place}\b")

    def bridge(self, file, place, lines):
        block = second_opinion.Block(file)
        left, wires = second_opinion.reduced(block.n, block.wires, random.Random(1))
        self.assertTrue(lines[0].startswith(f"not series-parallel at gate {place}:"))
        self.assertEqual({int(g) for g in re.findall(r"gate (\d+)", lines[3])}, left)
        for line, ends in [(lines[1], {a for a, b in wires if b == place}), (lines[2], {b for a, b in wires if a == place})]:
            self.assertEqual({int(g) for g in re.findall(r"gate (\d+)", re.sub(r"\(.*?\)", "", line))}, ends)
        self.advice(block, lines[4])

    def advice(self, block, line):
        """A wire that is to go can go; where none is named, none can."""
        able = set()
        for ends in block.wires:
            rest = [other for other in block.wires if other != ends]
            block.into = [[a for a, b in rest if b == g] for g in range(block.n)]
            block.out = [[b for a, b in rest if a == g] for g in range(block.n)]
            if all(block.into[1:]) and all(block.out[:-1]) and block.reduces():
                able.add(ends)
        named = {(int(a), int(b)) for a, b in re.findall(r"gate (\d+) -> gate (\d+)(?! \()", line)}
        self.assertLessEqual(named, able)
        if line.startswith("look at what joins it"):
            self.assertEqual(able, set())

    def late(self, file, place, lines):
        block = second_opinion.Block(file)
        late, lasts, arrival, deadline = map(int, re.findall(r"\d+", lines[0])[:4])
        self.assertEqual((late, lasts), (-block.spare(), block.longest([0] * block.n)))
        self.assertEqual((arrival, deadline), (block.arrival, block.deadline))
        path = [int(word) for word in re.findall(r"gate (\d+)", lines[-1])]
        self.assertEqual((path[0], path[-1]), (0, block.n - 1))
        wires = sum(block.wire_delay[ends] for ends in zip(path, path[1:]))
        self.assertEqual(sum(block.delay[g] for g in path) + wires, lasts)

    def test_random_files(self):
        rng, seen = random.Random(7), Counter()
        held = {8: self.loop, 9: self.ends, 11: self.bridge, 12: self.late}
        for count in range(6000):
            file = a_network(rng)
            if count % 2:
                file = damaged(rng, file)
            refused = refused_by_block(file)
            if refused is not None:
                number, place = refused
                seen[number] += 1
                held.get(number, self.field)(file, place, self.said(file, number, place))
        for number in (1, 2, 3, 4, 5, 6, 8, 9, 11, 12):
            self.assertGreater(seen[number], 20, (number, seen))

    def test_any_bytes_number_and_place(self):
        rng = random.Random(11)
        for _ in range(4000):
            file = damaged(rng, a_network(rng)) if rng.random() < 0.7 else rng.randbytes(rng.randrange(60))
            number, place = rng.randrange(-1, 19), rng.choice([0, 1, 2, 11, 18, rng.randrange(80), 1 << 40])
            increases = rng.choice([None, [], [rng.randrange(9) for _ in range(rng.randrange(20))]])
            wanted, most = rng.choice([None, 5]), rng.choice([None, 4, 6])
            lines = refusal_in_words(file, number, place, increases=increases, wanted=wanted, most=most)
            self.assertTrue(lines and all(line.isprintable() and len(line) <= LINE for line in lines), lines)
            if number not in (12, 14, 17):
                self.assertRegex(lines[0], rf"\b{place}\b")

    def test_files_are_those_of_the_encoding(self):
        """The hand-made files are what they are meant to be."""
        for file in (diamond(), network(4, *BRIDGE)):
            self.assertEqual(encode(decode(file)), file)


if __name__ == "__main__":
    unittest.main()

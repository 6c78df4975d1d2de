"""Blocks from netlists of yosys: the stored examples by facts counted in their files, faults in words, and random modules."""

import random
import unittest
from collections import Counter

import description
from cells import read_cells
from importing import import_json
from netlist import Step, Wire
from tests.designs import EXAMPLES, TABLE, Checks, both, cell, design, ends, imported, inverter, one_and


def stored(name, **options):
    table = read_cells((EXAMPLES / f"{name}.cells").read_text())
    return import_json((EXAMPLES / f"{name}.json").read_text(), table, **options)


def named_wires(netlist):
    return {(netlist.gates[a].name, netlist.gates[b].name) for a, b in ends(netlist)}


def gates_by_name(netlist):
    return {gate.name: gate for gate in netlist.gates}


def gates_left(netlist):
    """The gates besides the ends that taking away gates in series and merging doubled wires leaves."""
    wires, last = set(ends(netlist)), len(netlist.gates) - 1
    while True:
        into, out = Counter(b for _, b in wires), Counter(a for a, _ in wires)
        taken = next((g for g in range(1, last) if into[g] == out[g] == 1), None)
        if taken is None:
            return sorted({g for wire in wires for g in wire} - {0, last})
        before, behind = next(a for a, b in wires if b == taken), next(b for a, b in wires if a == taken)
        wires = wires - {(before, taken), (taken, behind)} | {(before, behind)}


def longest(netlist):
    """How long the longest path lasts, by wires that all lead to a higher gate."""
    lasts = [0] * len(netlist.gates)
    for number, gate in enumerate(netlist.gates):
        lasts[number] = gate.delay + max((lasts[a] for a, b in ends(netlist) if b == number), default=0)
    return lasts[-1]


class StoredExamples(Checks):
    def test_match_has_the_gates_of_its_json(self):
        netlist = stored("match", deadline=25).netlist
        self.assert_well_formed(netlist)
        self.assertEqual((netlist.edition, netlist.arrival, netlist.deadline), (1, 0, 25))
        # 17 input bits, 17 cells and two ends; 17 wires to input bits, 16 cells of two pins and one of one, one output
        self.assertEqual(len(netlist.gates), 36)
        self.assertEqual(len(netlist.wires), 17 + 33 + 1)
        names = [gate.name for gate in netlist.gates]
        self.assertEqual(names[:3] + names[8:10], ["source", "addr[0]", "addr[1]", "addr[7]", "tag[0]"])
        self.assertEqual(names[17:19] + names[34:], ["valid", "u0", "u16", "join"])
        self.assertEqual(Counter(g.delay for g in netlist.gates), {0: 19, 5: 8, 3: 5, 4: 3, 1: 1})

    def test_match_has_the_wires_of_its_json(self):
        netlist = stored("match", deadline=25).netlist
        wires = named_wires(netlist)
        some = {("source", "valid"), ("tag[7]", "u0"), ("addr[7]", "u0"), ("u0", "u2"), ("u1", "u2"), ("u6", "u14")}
        self.assertLessEqual(some | {("u14", "u16"), ("u15", "u16"), ("valid", "u15"), ("u16", "join")}, wires)
        self.assertEqual({b for a, b in wires if a == "u16"}, {"join"})

    def test_match_has_the_numbers_of_its_table(self):
        gates = gates_by_name(stored("match", deadline=25).netlist)
        self.assertEqual(gates["u0"].steps, (Step(2, 9), Step(3, 4)))
        self.assertEqual(gates["u15"].steps, (Step(4, 3), Step(8, 1)))
        self.assertEqual([gates[name].steps for name in ("source", "valid", "addr[7]", "join")], [()] * 4)
        switching = [gates[name].switching for name in ("addr[0]", "addr[7]", "valid", "u0", "u3", "u14", "u16")]
        self.assertEqual(switching, [128, 16, 232, 226, 128, 254, 2])

    def test_match_is_series_parallel_and_has_time_to_spare(self):
        netlist = stored("match", deadline=25).netlist
        self.assertEqual(gates_left(netlist), [])
        # XNOR, NAND, NOR, NAND, NOR
        self.assertEqual(longest(netlist), 5 + 3 + 4 + 3 + 4)
        self.assertEqual(stored("match", deadline=25).notes, [])

    def test_adder_is_not_series_parallel(self):
        found = stored("adder")
        self.assert_well_formed(found.netlist)
        self.assertEqual(found.netlist.edition, 3)
        self.assertEqual((len(found.netlist.gates), len(found.netlist.wires)), (13, 4 + 14 + 3))
        self.assertEqual(gates_left(found.netlist)[0], 1)
        self.assertEqual(gates_by_name(found.netlist)["u4"].switching, 12000)
        self.assertEqual(found.netlist.deadline, 4 + 3 + 3)
        self.assertIn("10 is taken", found.notes[0])

    def test_descriptions_say_the_same(self):
        for netlist in (stored("match", deadline=25).netlist, stored("adder").netlist):
            self.assertEqual(description.read(description.write(netlist).encode()), netlist)

    def test_source_says_how_each_was_made(self):
        for name in ("match", "adder"):
            source = (EXAMPLES / f"{name}.v").read_text()
            self.assertIn(f"write_json {name}.json", source)
            self.assertLess((EXAMPLES / f"{name}.json").stat().st_size, 60_000)


class Blocks(Checks):
    def test_one_cell(self):
        netlist = imported(one_and(), arrival=4, deadline=9).netlist
        self.assertEqual([g.name for g in netlist.gates], ["source", "a", "b", "u1", "join"])
        self.assertEqual(netlist.wires, (Wire(0, 1), Wire(0, 2), Wire(1, 3), Wire(2, 3), Wire(3, 4)))
        self.assertEqual((netlist.arrival, netlist.deadline, netlist.switching), (4, 9, 0))
        self.assertEqual([g.delay for g in netlist.gates], [0, 0, 0, 3, 0])
        self.assertEqual([g.switching for g in netlist.gates], [0, 128, 128, 128, 0])

    def test_deadline_is_the_end_of_the_longest_path(self):
        chain = design({"a": [2]}, {"y": [4]}, {"u1": inverter(2, 3), "u2": both(2, 3, 4)})
        found = imported(chain, arrival=10)
        self.assertEqual(found.netlist.deadline, 14)
        self.assertEqual(len(found.notes), 1)
        self.assertIn("14", found.notes[0])
        self.assertEqual(imported(chain, deadline=3).notes, [])

    def test_cells_stand_in_an_order_along_the_wires(self):
        text = design({"a": [2]}, {"y": [5]}, {"z": inverter(4, 5), "k": inverter(3, 4), "b": inverter(2, 3)})
        self.assertEqual([g.name for g in imported(text).netlist.gates], ["source", "a", "b", "k", "z", "join"])

    def test_cells_stand_else_as_in_the_json(self):
        cells = {"p": inverter(6, 7), "q": inverter(2, 6), "r": inverter(2, 8), "y": both(7, 8, 4)}
        names = [g.name for g in imported(one_and(cells, inputs={"a": [2]})).netlist.gates]
        self.assertEqual(names, ["source", "a", "q", "p", "r", "y", "join"])

    def test_doubled_connection_of_a_cell_gets_a_gate(self):
        text = one_and({"u1": both(2, 2, 3), "u2": both(3, 3, 4)}, inputs={"a": [2]})
        found = imported(text, TABLE + "net a p 7\nnet u1.Y p 9\n")
        self.assert_well_formed(found.netlist)
        self.assertEqual([g.name for g in found.netlist.gates], ["source", "a", "u1.B", "u1", "u2.B", "u2", "join"])
        added = found.netlist.gates[2]
        self.assertEqual((added.delay, added.switching, added.steps), (0, 7, ()))
        self.assertEqual(found.netlist.gates[4].switching, 9)
        self.assertEqual(ends(found.netlist), [(0, 1), (1, 2), (1, 3), (2, 3), (3, 4), (3, 5), (4, 5), (5, 6)])
        self.assertEqual(gates_left(found.netlist), [])
        self.assertTrue(any("u1.B, u2.B" in note for note in found.notes), found.notes)

    def test_three_pins_on_one_net_get_two_gates(self):
        text = one_and({"u1": cell("MUX", {"A": 2, "B": 2, "S": 2}, {"Y": 4})}, inputs={"a": [2]})
        netlist = imported(text).netlist
        self.assert_well_formed(netlist)
        self.assertEqual([g.name for g in netlist.gates], ["source", "a", "u1.B", "u1.S", "u1", "join"])

    def test_doubled_connection_of_the_join_is_left_out(self):
        found = imported(one_and(outputs={"y": [4, 4], "z": [4]}))
        self.assertEqual(ends(found.netlist)[-1], (3, 4))
        self.assertEqual(len(found.netlist.wires), 5)
        self.assertTrue(any("y[1], z" in note for note in found.notes), found.notes)

    def test_constant_pins_have_no_wire(self):
        for constant in "01xz":
            netlist = imported(one_and({"u1": both(2, constant, 4)}, inputs={"a": [2]})).netlist
            self.assertEqual(ends(netlist), [(0, 1), (1, 2), (2, 3)])

    def test_what_never_switches_is_left_out(self):
        cells = {"k": both("0", "1", 5), "l": both(5, 5, 6), "u1": both(2, 6, 4)}
        found = imported(one_and(cells, inputs={"a": [2]}, outputs={"y": [4], "c": ["1"], "d": [6]}))
        self.assert_well_formed(found.netlist)
        self.assertEqual([g.name for g in found.netlist.gates], ["source", "a", "u1", "join"])
        self.assertTrue(any(note.startswith("cells") and note.endswith(": k, l") for note in found.notes), found.notes)
        self.assertTrue(any(note.startswith("output bits") and note.endswith(": c, d") for note in found.notes), found.notes)

    def test_what_reaches_no_output_is_left_out(self):
        cells = {"u1": both(2, 3, 4), "d1": inverter(6, 7), "d2": both(7, 7, 8), "ring": inverter(9, 9)}
        found = imported(one_and(cells, inputs={"a": [2], "b": [3], "v": [5, 6]}))
        self.assertEqual([g.name for g in found.netlist.gates], ["source", "a", "b", "u1", "join"])
        self.assertTrue(any(note.endswith(": v[0], v[1]") for note in found.notes), found.notes)
        self.assertTrue(any(note.endswith(": d1, d2, ring") for note in found.notes), found.notes)

    def test_input_that_is_an_output(self):
        netlist = imported(one_and(outputs={"y": [4], "thru": [2]})).netlist
        self.assert_well_formed(netlist)
        self.assertIn(("a", "join"), named_wires(netlist))


class Names(Checks):
    def names(self, cells, **ports):
        netlist = imported(one_and(cells, **ports)).netlist
        self.assert_well_formed(netlist)
        self.assertEqual(description.read(description.write(netlist).encode()), netlist)
        return [g.name for g in netlist.gates]

    def test_names_are_one_word(self):
        self.assertEqual(self.names({"a b#c\n\u202ed": both(2, 3, 4)})[3], "a_b_c__d")
        self.assertEqual(self.names({"": both(2, 3, 4)})[3], "_")

    def test_long_names_keep_their_end(self):
        name = self.names({"x" * 200 + ".last": both(2, 3, 4)})[3]
        self.assertEqual((len(name), name[:3], name[-6:]), (64, "...", "x.last"))
        self.assertEqual(self.names({"x" * 64: both(2, 3, 4)})[3], "x" * 64)

    def test_names_that_become_the_same(self):
        cells = {"k k": inverter(2, 5), "k#k": both(5, 3, 4)}
        self.assertEqual(self.names(cells)[3:5], ["k_k", "k_k~2"])
        long = {"a" + "x" * 80: inverter(2, 5), "b" + "x" * 80: both(5, 3, 4)}
        names = self.names(long)[3:5]
        self.assertEqual(names[1], names[0][:62] + "~2")

    def test_cell_named_like_an_input_or_like_an_added_gate(self):
        self.assertEqual(self.names({"a": both(2, 3, 4)})[3], "a~2")
        names = self.names({"source": inverter(2, 5), "join": both(5, 3, 4)})
        self.assertEqual((names[0], names[3], names[4], names[5]), ("source~2", "source", "join", "join~2"))
        self.assertEqual(self.names({"u.B": inverter(2, 5), "u": both(5, 5, 4)}, inputs={"a": [2]})[2:5], ["u.B", "u.B~2", "u"])

    def test_other_names_are_told(self):
        notes = imported(one_and({"a b": both(2, 3, 4)})).notes
        self.assertTrue(any(note == "gate 3 is named a_b, for a b" for note in notes), notes)


class Switching(Checks):
    def test_nets_by_name_bit_and_pin(self):
        text = design({"a": [2, 3]}, {"y": [5]}, {"u1": both(2, 3, 4), "u2": inverter(4, 5)}, {"mid": [4]})
        table = TABLE + "net a[1] p 5\nnet mid p 6\nnet u2.Y p 7\n"
        gates = gates_by_name(imported(text, table).netlist)
        self.assertEqual([gates[name].switching for name in ("a[0]", "a[1]", "u1", "u2")], [128, 5, 6, 7])

    def test_name_of_a_net_goes_before_a_pin(self):
        text = design({"a": [2]}, {"y": [5]}, {"u1": inverter(2, 4), "u2": inverter(4, 5)}, {"u1.Y": [2]})
        gates = gates_by_name(imported(text, TABLE + "net u1.Y p 5").netlist)
        self.assertEqual((gates["a"].switching, gates["u1"].switching), (5, 128))

    def test_measured_activities(self):
        table = TABLE.replace("p 128", "activity 40000") + "net a activity 65535\n"
        netlist = imported(one_and(), table).netlist
        self.assertEqual((netlist.edition, netlist.gates[1].switching, netlist.gates[2].switching), (3, 65535, 40000))

    def test_every_net_named(self):
        table = TABLE.replace("p 128", "net a p 1\nnet b p 2\nnet y p 3")
        self.assertEqual([g.switching for g in imported(one_and(), table).netlist.gates], [0, 1, 2, 3, 0])
        self.assertIn(": a, y", self.refused(one_and(), TABLE.replace("p 128", "net b p 2")))

    def test_net_that_is_not_there(self):
        self.assertEqual(self.refused(one_and(), TABLE + "net q p 3"), "line 6 of the table: the module has no net q")

    def test_net_of_several_bits(self):
        self.assertIn("net a has 2 bits", self.refused(one_and(inputs={"a": [2, 3]}), TABLE + "net a p 3"))

    def test_one_net_by_two_names(self):
        self.assertIn(
            "line 7 of the table: net u1.Y stood before, in line 6", self.refused(one_and(), TABLE + "net y p 3\nnet u1.Y p 3")
        )

    def test_name_of_several_nets(self):
        text = design({"a": [2], "b": [3]}, {"y": [4]}, {"u1": both(2, 3, 4)}, {"k#k": [2], "k_k": [3]})
        self.assertIn("several nets are named k_k", self.refused(text, TABLE + "net k_k p 3"))


class Faults(Checks):
    def test_several_output_bits(self):
        for drives, pins in (({"C": 5, "S": 4}, r"\(C, S\)"), ({"Y": [4, 5]}, r"\(Y\[0\], Y\[1\]\)")):
            reason = self.refused(one_and({"fa": cell("AND", {"A": 2, "B": 3}, drives)}))
            self.assertRegex(reason, "^cell fa, type AND, has 2 output bits " + pins)

    def test_several_drivers(self):
        reason = self.refused(one_and({"u1": both(2, 3, 4), "u2": both(2, 3, 4)}))
        self.assertEqual(reason, "net y has several drivers: pin Y of cell u1 and pin Y of cell u2")
        reason = self.refused(one_and({"u1": both(2, 3, 4), "u2": both(2, 4, 3)}))
        self.assertEqual(reason, "net b has several drivers: input b and pin Y of cell u2")
        self.assertIn("input a and input b", self.refused(one_and(inputs={"a": [2], "b": [2]})))

    def test_no_driver(self):
        self.assertEqual(self.refused(one_and({"u1": both(2, 9, 4)})), "net 9 has no driver, and pin B of cell u1 is on it")
        self.assertEqual(self.refused(one_and(outputs={"y": [4], "z": [8]})), "net z has no driver, and output z is on it")

    def test_loops(self):
        cells = {"u1": both(2, 6, 5), "u2": inverter(5, 6), "u3": both(6, 3, 4)}
        self.assertEqual(self.refused(one_and(cells)), "a loop without a register, through cell u1, cell u2")
        self.assertEqual(self.refused(one_and({"u1": both(2, 4, 4)})), "a loop without a register, through cell u1")
        cells = {"k": inverter(7, 5), "l": inverter(5, 6), "m": inverter(6, 7), "u1": both(6, 3, 4)}
        self.assertRegex(self.refused(one_and(cells)), "through cell k, cell l, cell m$")

    def test_nothing_to_size(self):
        self.assertEqual(self.refused(one_and(inputs={})), "module m has no input")
        self.assertEqual(self.refused(one_and(outputs={})), "module m has no output")
        self.assertEqual(self.refused(one_and({})), "module m has no cell")
        self.assertEqual(self.refused(one_and({"u1": both("0", "1", 4)})), "no output depends on an input")
        self.assertEqual(self.refused(one_and(outputs={"y": ["0"]})), "no output depends on an input")
        self.assertEqual(self.refused(one_and(outputs={"y": [2]})), "no cell lies on a path from an input to an output")

    def test_at_most_200_gates(self):
        def chain(count):
            cells = {f"u{i}": inverter(i, i + 1) for i in range(count)}
            return design({"a": [0]}, {"y": [count]}, cells)

        self.assertEqual(len(imported(chain(197)).netlist.gates), 200)
        size = r"201 gates \(198 cells, 1 input bits, 2 ends"
        self.assertRegex(self.refused(chain(198)), rf"^the block would have {size}.* 200 gates and 600 wires$")

    def test_at_most_600_wires(self):
        def dense(pins):
            """24 input bits, 24 cells that read 23 of them each, and the last so many."""
            bits = list(range(24))
            reads = [(bits[i:] + bits[:i])[: 23 if i < 23 else pins] for i in range(24)]
            cells = {f"u{i}": cell("AND", {"A": reads[i]}, {"Y": 100 + i}) for i in range(24)}
            return design({"a": bits}, {"y": list(range(100, 124))}, cells)

        # 24 to the input bits, 23 times 23, the last cell's, 24 to the join
        self.assertEqual(len(imported(dense(23)).netlist.wires), 600)
        self.assertRegex(self.refused(dense(24)), "50 gates .* and 601 wires; it can have 200 gates and 600 wires")

    def test_times(self):
        for options in ({"arrival": -1}, {"arrival": 65536}, {"deadline": 65536}, {"deadline": -1}, {"deadline": 1.5}):
            self.assertIn("must be 0 to 65535", self.refused(one_and(), **options))
        self.assertIn("ends at 65536", self.refused(one_and(), arrival=65533))
        self.assertEqual(imported(one_and(), arrival=65532).netlist.deadline, 65535)
        self.assertEqual(imported(one_and(), deadline=0).netlist.deadline, 0)


class RandomModule:
    """A small module without loops: cells of 0 to 3 pins on constants and nets in front of them, outputs on any nets."""

    def __init__(self, choose):
        self.inputs = list(range(choose.randint(1, 4)))
        self.pins, bits = {}, list(self.inputs)
        for i in range(choose.randint(1, 9)):
            self.pins[f"u{i}"] = [choose.choice(bits + ["0", "x"]) for _ in range(choose.randint(0, 3))]
            bits.append(100 + i)
        self.outputs = [choose.choice(bits + ["1"]) for _ in range(choose.randint(1, 3))]
        self.order = choose.sample(list(self.pins), len(self.pins))

    def net(self, name):
        return 100 + int(name[1:])

    def text(self):
        """The JSON, with the cells in any order."""
        cells = {
            name: cell(
                f"T{len(self.pins[name])}", {"ABC"[i]: bit for i, bit in enumerate(self.pins[name])}, {"Y": self.net(name)}
            )
            for name in self.order
        }
        return design({"a": self.inputs}, {"y": self.outputs}, cells)

    def switches(self, bit):
        """Whether a net depends on an input."""
        if isinstance(bit, str) or bit in self.inputs:
            return not isinstance(bit, str)
        return any(self.switches(source) for source in self.pins[f"u{bit - 100}"])

    def is_live(self, bit):
        """Whether an output depends on a net."""
        return bit in self.outputs or any(bit in pins and self.is_live(self.net(name)) for name, pins in self.pins.items())

    def lasts(self, bit):
        """How long the longest path from an input to a net lasts."""
        if bit in self.inputs:
            return 0
        pins = self.pins[f"u{bit - 100}"]
        return len(pins) + max(self.lasts(source) for source in pins if self.switches(source))


class RandomModules(Checks):
    TABLE = "".join(f"cell T{pins} delay {pins} steps (1,2)\n" for pins in range(4)) + "p 11\n"

    def table(self, wanted, choose):
        """A table with a p of its own for the net of each cell."""
        self.given = {name: choose.randint(0, 256) for name in wanted.pins}
        return self.TABLE + "".join(f"net {name}.Y p {p}\n" for name, p in self.given.items())

    def compare(self, wanted, netlist):
        self.assert_well_formed(netlist)
        gates = gates_by_name(netlist)
        used = [name for name in wanted.pins if wanted.is_live(wanted.net(name)) and wanted.switches(wanted.net(name))]
        self.assertEqual({name for name in gates if name in wanted.pins}, set(used))
        inputs = [bit for bit in wanted.inputs if wanted.is_live(bit)]
        self.assertEqual(sum(name.startswith("a") for name in gates), len(inputs))
        pins = [Counter(bit for bit in wanted.pins[name] if wanted.switches(bit)) for name in used]
        doubled = sum(count - 1 for nets in pins for count in nets.values())
        self.assertEqual(len(gates), 2 + len(inputs) + len(used) + doubled)
        ends_here = {bit for bit in wanted.outputs if wanted.switches(bit)}
        self.assertEqual(len(netlist.wires), len(inputs) + sum(map(sum, (n.values() for n in pins))) + doubled + len(ends_here))
        self.assertEqual(netlist.deadline, max(wanted.lasts(bit) for bit in ends_here))
        for name in used:
            self.compare_pins(wanted, netlist, name)

    def compare_pins(self, wanted, netlist, name):
        """The gates that drive a cell switch as the nets on its pins do, each pin counted."""
        number = [gate.name for gate in netlist.gates].index(name)
        gate = netlist.gates[number]
        self.assertEqual((gate.delay, gate.switching), (len(wanted.pins[name]), self.given[name]))
        found = sorted(netlist.gates[a].switching for a, b in ends(netlist) if b == number)
        nets = [bit for bit in wanted.pins[name] if wanted.switches(bit)]
        self.assertEqual(found, sorted(11 if bit in wanted.inputs else self.given[f"u{bit - 100}"] for bit in nets))

    def test_random_modules(self):
        taken = 0
        for seed in range(1500):
            choose = random.Random(seed)
            wanted = RandomModule(choose)
            some_cell = any(wanted.is_live(wanted.net(n)) and wanted.switches(wanted.net(n)) for n in wanted.pins)
            with self.subTest(seed=seed):
                table = self.table(wanted, choose)
                if some_cell:
                    self.compare(wanted, imported(wanted.text(), table).netlist)
                    taken += 1
                else:
                    self.assertRegex(self.refused(wanted.text(), table), "^no (output depends|cell lies)")
        self.assertGreater(taken, 500)


if __name__ == "__main__":
    unittest.main()

"""Reading a module of yosys' JSON: modules, types, pins and bits, faults in words, and damaged JSON."""

import json
import random
import unittest
from collections import Counter

from cells import read_cells
from importing import import_json
from naming import CannotImport
from tests.designs import EXAMPLES, TABLE, Checks, both, cell, imported, one_and, value_at


def places(tree, path=()):
    """The path of every value in a JSON."""
    yield path
    keys = tree if isinstance(tree, dict) else range(len(tree)) if isinstance(tree, list) else ()
    for key in keys:
        yield from places(tree[key], path + (key,))


class Faults(Checks):
    def test_no_json(self):
        for text in ("", "{", "module m; endmodule", '{"modules": {}} x', '{"modules": \x00}'):
            self.assertRegex(self.refused(text), "^this is no JSON: line 1, column")

    def test_another_json(self):
        for text in ("3", "null", "[]", "{}", '{"modules": 3}', '{"modules": {"m": 3}}', '{"modules": {"m": {"ports": []}}}'):
            self.assertRegex(self.refused(text), "^this JSON is no netlist of yosys")
        self.assertEqual(self.refused('{"modules": {}}'), "the JSON has no module")

    def test_nested_too_deeply(self):
        inside = '{"modules": {"m": {"ports": ' + "[" * 90_000 + "]" * 90_000 + "}}}"
        for text in ("[" * 200_000, '{"modules": ' * 100_000, inside):
            self.assertIn("nested too deeply", self.refused(text))

    def test_number_of_too_many_digits(self):
        self.assertTrue(self.refused('{"modules": {"m": ' + "9" * 10_000 + "}}"))

    def test_key_twice(self):
        text = one_and().replace('"cells": {', '"cells": {"u1": {}, ')
        self.assertEqual(self.refused(text), "the JSON has 'u1' twice in one object")

    def test_parts_of_another_kind(self):
        whole = json.loads(one_and())
        paths = "ports cells netnames attributes ports/a ports/a/bits ports/a/direction ports/a/offset netnames/a/bits"
        of_cell = "cells/u1 cells/u1/type cells/u1/connections cells/u1/connections/A cells/u1/port_directions"
        for path in f"{paths} {of_cell}".split():
            for junk in (3.5, [[7]], True, "input?", ["2"], None):
                text = json.loads(json.dumps(whole))
                *front, last = path.split("/")
                value_at(text["modules"]["m"], front)[last] = junk
                with self.subTest(path=path, junk=junk):
                    self.refused(json.dumps(text), TABLE)


class Modules(Checks):
    def test_several_modules(self):
        two = {"m": json.loads(one_and())["modules"]["m"], "n": json.loads(one_and({"v": both(2, 3, 4)}))["modules"]["m"]}
        text = json.dumps({"modules": two})
        self.assertRegex(self.refused(text), "several modules.*: m, n$")
        self.assertEqual(imported(text, module="n").netlist.gates[3].name, "v")
        self.assertEqual(self.refused(text, module="q"), "there is no module q; there is m, n")
        for value in ("00000000000000000000000000000001", 1):
            two["n"]["attributes"] = {"top": value}
            found = imported(json.dumps({"modules": two}))
            self.assertEqual(found.netlist.gates[3].name, "v")
            self.assertIn("module n is taken", found.notes[0])
            self.assertEqual(imported(json.dumps({"modules": two}), module="m").netlist.gates[3].name, "u1")
        two["m"]["attributes"] = {"top": "1"}
        self.assertRegex(self.refused(json.dumps({"modules": two})), "several modules.*: m, n$")

    def test_modules_of_a_library_are_none(self):
        two = {"AND": {"attributes": {"blackbox": "1"}, "ports": {}}, "m": json.loads(one_and())["modules"]["m"]}
        self.assertEqual(imported(json.dumps({"modules": two})).netlist.gates[3].name, "u1")
        self.assertEqual(self.refused(json.dumps({"modules": {"AND": two["AND"]}})), "the JSON has no module")


class Types(Checks):
    def test_types_missing_in_the_table(self):
        cells = {"u1": both(2, 3, 4, "XOR"), "u2": both(2, 3, 5, "NOR"), "u3": both(2, 3, 6, "XOR"), "u4": both(2, 3, 7)}
        self.assertEqual(self.refused(one_and(cells)), "types that are not in the table: XOR (cell u1), NOR (cell u2)")
        cells = {f"u{i}": both(2, 3, 4 + i, f"T{i}") for i in range(40)}
        self.assertRegex(self.refused(one_and(cells)), r"T31 \(cell u31\) and 8 more$")

    def test_registers(self):
        of_bits = "$_DFF_P_ $_DFFE_PP0P_ $_SDFFCE_PP0P_ $_DLATCH_N_ $_ALDFFE_PNP_ $_SR_PN_ $_FF_"
        for kind in f"{of_bits} $dff $adffe $sdffce $dlatchsr $sr $ff".split():
            cells = {"q": cell(kind, {"D": 2, "C": 3}, {"Q": 4})}
            reason = f"registers, and a block lies between registers: {kind} (cell q)"
            self.assertEqual(self.refused(one_and(cells)), reason)
            self.assertEqual(self.refused(one_and(cells), TABLE + f"cell {kind} delay 3"), reason)

    def test_gates_whose_type_resembles_a_register(self):
        for kind in ("$_XNOR_", "$_MUX_", "$_OAI3_", "$shr", "$sub", "SR", "DFF2"):
            netlist = imported(one_and({"u": both(2, 3, 4, kind)}), TABLE + f"cell {kind} delay 7").netlist
            self.assertEqual(netlist.gates[3].delay, 7)

    def test_word_level_cells_and_submodules(self):
        reason = self.refused(one_and({"s": both(2, 3, 4, "$add")}))
        self.assertRegex(reason, r"^word-level cells.*synth -flatten.*abc -g.*: \$add \(cell s\)$")
        text = json.loads(one_and({"s": both(2, 3, 4, "sub")}))
        text["modules"]["sub"] = json.loads(one_and())["modules"]["m"]
        self.assertRegex(self.refused(json.dumps(text), module="m"), r"^submodules.*'flatten'.*: sub \(cell s\)$")
        self.assertEqual(imported(json.dumps(text), TABLE + "cell sub delay 9", module="m").netlist.gates[3].delay, 9)

    def test_scopeinfo_is_no_cell(self):
        cells = {"u1": both(2, 3, 4), "scope": cell("$scopeinfo", {}, {})}
        self.assertEqual(len(imported(one_and(cells)).netlist.gates), 5)


class PortsAndPins(Checks):
    def test_inout_port(self):
        text = json.loads(one_and())
        text["modules"]["m"]["ports"]["b"]["direction"] = "inout"
        self.assertRegex(self.refused(json.dumps(text)), "^port b is inout")

    def test_pin_without_direction(self):
        bare = both(2, 3, 4)
        del bare["port_directions"]
        self.assertRegex(self.refused(one_and({"u1": bare})), "no direction of pin A of cell u1, type AND; .*read_liberty -lib")
        bare["port_directions"] = {"A": "input", "B": "inout", "Y": "output"}
        self.assertRegex(self.refused(one_and({"u1": bare})), "^pin B of cell u1 is inout")

    def test_bits_are_numbered_as_in_the_source(self):
        text = json.loads(one_and(inputs={"a": [2, 3]}))
        port = text["modules"]["m"]["ports"]["a"]
        port["offset"] = 4
        self.assertEqual([g.name for g in imported(json.dumps(text)).netlist.gates][1:3], ["a[4]", "a[5]"])
        port["upto"] = 1
        self.assertEqual([g.name for g in imported(json.dumps(text)).netlist.gates][1:3], ["a[5]", "a[4]"])

    def test_pin_of_several_bits(self):
        text = one_and({"u1": cell("AND", {"A": [2, 3, 2]}, {"Y": 4})})
        self.assertEqual([g.name for g in imported(text).netlist.gates], ["source", "a", "b", "u1.A[2]", "u1", "join"])

    def test_output_pin_on_a_constant_drives_nothing(self):
        text = one_and({"u1": cell("AND", {"A": 2, "B": 3}, {"N": "x", "Y": 4})})
        self.assertEqual(len(imported(text).netlist.gates), 5)


class Damage(Checks):
    """Whatever stands in a file, there is a well-formed block or a reason in one line."""

    JUNK = (3, "x", [], {}, None, True, -1, 1e9, "input", "output", "inout", "", [2, 3], "\ud800", 19, [["2"]])

    def damaged(self, choose):
        """The JSON of an example in which a few values, or keys, are others."""
        tree = json.loads((EXAMPLES / choose.choice(("match.json", "adder.json"))).read_text())
        for _ in range(choose.randint(1, 3)):
            paths = list(places(tree))
            path = choose.choice(paths[1:])
            value = choose.choice([choose.choice(self.JUNK), value_at(tree, choose.choice(paths))])
            holder, key = value_at(tree, path[:-1]), path[-1]
            if isinstance(holder, dict) and choose.random() < 0.3:
                holder[choose.choice(["", "a b", "x" * 70, "addr", "u0"])] = holder.pop(key)
            else:
                holder[key] = json.loads(json.dumps(value))
        return json.dumps(tree)

    def outcome(self, text, table):
        try:
            self.assert_well_formed(import_json(text, table).netlist)
            return "block"
        except CannotImport as reason:
            self.assertTrue(str(reason) and str(reason).isprintable(), repr(str(reason)))
            return "reason"

    def test_values_of_the_json(self):
        kinds = "NOT NAND NOR XNOR AND OR XOR".split()
        table = read_cells("".join(f"cell $_{kind}_ delay 3 steps (2,5)\n" for kind in kinds) + "p 128")
        outcomes = Counter()
        for seed in range(1500):
            with self.subTest(seed=seed):
                outcomes[self.outcome(self.damaged(random.Random(seed)), table)] += 1
        self.assertGreater(min(outcomes["block"], outcomes["reason"]), 100)

    def test_characters_of_the_json(self):
        whole, table = (EXAMPLES / "adder.json").read_text(), read_cells((EXAMPLES / "adder.cells").read_text())
        for seed in range(300):
            choose = random.Random(seed)
            at = choose.randrange(len(whole))
            with self.subTest(seed=seed):
                self.outcome(whole[:at] + choose.choice('{}[],:"0x\\\n') + whole[at + choose.randint(0, 2) :], table)


if __name__ == "__main__":
    unittest.main()

"""Tests of scripts/honduvi: every command's answers by hand, its forms, statuses and words. Needs target/host/libhonduvi.so."""

import csv
import ctypes.util
import io
import json
import os
import re
import subprocess
import unittest
import xml.etree.ElementTree as ElementTree
from pathlib import Path

from building import ROOT
from netlist import MAX_GATES
from tests.blocks import largest_gain
from tests.scripts import BRIDGE, DIAMOND, LATE, ScriptTest

U = 32_768
SLACKS = [3, 3, 5, 3]
NAMES = ["source", "slow", "fast", "join"]
DELAYS = [2, 3, 1, 2]


class CommandTest(ScriptTest):
    def honduvi(self, *arguments, **settings):
        return self.run_script("honduvi", *arguments, **settings)

    def json_of(self, *arguments):
        status, output, errors = self.honduvi(*arguments, "--json")
        self.assertEqual((status, errors), (0, ""))
        return json.loads(output)

    def refused(self, found, number, place, *words):
        status, output, errors = found
        self.assertEqual((status, output), (1, f"refused {number} {place}\n"))
        for word in words:
            self.assertIn(word, errors)


class Best(CommandTest):
    def test_for_people(self):
        table = """gates 4
wires 4
start 7
spare 3
saving 1441792
gate  name    delay  increase  slack
   0  source      2         0      3
   1  slow        3         0      3
   2  fast        1         2      5
   3  join        2         3      3
"""
        self.held(self.honduvi("best", "d.text"), 0, table)

    def test_without_names_there_is_no_column_for_them(self):
        _, output, _ = self.honduvi("best", "d.block")
        self.assertIn("gate  delay  increase  slack\n   0      2         0      3\n", output)

    def test_as_json_and_csv(self):
        rows = list(zip(range(4), NAMES, DELAYS, [0, 0, 2, 3], SLACKS))
        columns = ["gate", "name", "delay", "increase", "slack"]
        listed = [dict(zip(columns, row)) for row in rows]
        counts = {"gates": 4, "wires": 4, "start": 7, "spare": 3, "saving": 44 * U}
        self.assertEqual(self.json_of("best", "d.text"), {**counts, "list": listed})
        status, output, _ = self.honduvi("best", "d.text", "--csv")
        self.assertEqual(status, 0)
        self.assertEqual(list(csv.reader(io.StringIO(output))), [columns, *([str(word) for word in row] for row in rows)])

    def test_refused(self):
        self.refused(self.honduvi("best", self.write("b", BRIDGE)), 11, 1, "b: ", "gate 1 (slow)", "series-parallel")
        self.refused(self.honduvi("best", self.write("l", LATE)), 12, 0, "late by 1 tick")
        self.refused(self.honduvi("best", self.write("e", b"")), 1, 0, "empty")
        status, output, errors = self.honduvi("best", "l", "--json")
        found = json.loads(output)
        self.assertEqual((status, found["refused"], found["place"], len(found)), (1, 12, 0, 3))
        self.assertIn("late by 1 tick", found["words"][0])
        status, output, _ = self.honduvi("best", "l", "--csv")
        self.assertEqual((status, output), (1, "refused,place\n12,0\n"))


class Slacks(CommandTest):
    def test_of_each_gate(self):
        rows = [dict(gate=g, name=n, delay=d, slack=s) for g, n, d, s in zip(range(4), NAMES, DELAYS, SLACKS)]
        self.assertEqual(self.json_of("slacks", "d.text"), {"slacks": rows})

    def test_of_a_late_block_and_of_a_bridge(self):
        late = self.json_of("slacks", self.write("l", LATE))["slacks"]
        self.assertEqual([row["slack"] for row in late], [-1, -1, 1, -1])
        self.assertEqual(len(self.json_of("slacks", self.write("b", BRIDGE))["slacks"]), 4)

    def test_refused(self):
        loop = self.write("x", DIAMOND.replace("1-3", "1-2 2-1 1-3"))
        self.refused(self.honduvi("slacks", loop), 8, 1, "gate 1 (slow) -> gate 2 (fast) -> gate 1 (slow)")


class Curve(CommandTest):
    PAIRS = [(5, 12, 5, 68), (2, 9, 7, 86), (3, 2, 10, 92)]

    def test_pairs_and_what_they_come_to(self):
        rows = [dict(width=w, gain=g * U, ticks=t, saving=s * U) for w, g, t, s in self.PAIRS]
        right = {"start": 7, "saving_at_start": 8 * U, "spare": 3, "pairs": rows}
        self.assertEqual(self.json_of("curve", "d.text"), right)
        status, output, _ = self.honduvi("curve", "d.block", "--csv")
        self.assertEqual(output.splitlines()[:2], ["width,gain,ticks,saving", f"5,{12 * U},5,{68 * U}"])

    def test_of_a_late_block(self):
        self.assertEqual(self.json_of("curve", self.write("l", LATE))["spare"], -1)

    def test_a_gain_that_32_bits_do_not_hold(self):
        pair = {"width": 5, "gain": 13_041_465_000, "ticks": 5, "saving": 65_207_325_000}
        self.assertEqual(self.json_of("curve", self.write("wide", largest_gain()))["pairs"], [pair])

    def test_of_a_block_that_cannot_be_slowed(self):
        lone = self.write("x", "block arrival 0 deadline 8 p 128\ngate 0 delay 5 p 128\n")
        self.held(self.honduvi("curve", lone), 0, "start 5\nsaving at start 0\nspare 3\n")

    def test_refused(self):
        self.refused(self.honduvi("curve", self.write("b", BRIDGE)), 11, 1, "series-parallel")


class Judge(CommandTest):
    def test_verdicts(self):
        self.held(self.honduvi("judge", "d.text", "0", "0", "0", "3"), 0, f"saving {36 * U}\n")
        self.assertEqual(self.json_of("judge", "d.block", "0", "0", "2", "3"), {"saving": 44 * U})
        late = self.honduvi("judge", "d.text", "0", "0", "2", "4")
        self.refused(late, 14, 0, "by 1 tick", "gate 0 (source) -> gate 1 (slow) -> gate 3 (join)")
        self.refused(self.honduvi("judge", "d.text", "0", "6", "0", "0"), 13, 1, "gate 1 (slow)", "6", "5")
        self.refused(self.honduvi("judge", "d.text", "0"), 10, 4, "the list has 1 increase, the block 4 gates")

    def test_lists_from_files(self):
        for name, text in [("numbers", "0 0\n2, 3\n"), ("json", self.honduvi("best", "d.text", "--json")[1])]:
            self.held(self.honduvi("judge", "d.text", "--list", self.write(name, text)), 0, f"saving {44 * U}\n")
        commas = self.write("c.text", DIAMOND.replace("fast", 'a,"b"'))
        table = self.honduvi("best", commas, "--csv")[1].encode()
        self.held(self.honduvi("judge", commas, "--list", "-", given=table), 0, f"saving {44 * U}\n")

    def test_a_table_in_any_order_of_the_gates(self):
        table = "increase,gate\n3,3\n0,0\n2,2\n0,1\n"
        self.held(self.honduvi("judge", "d.text", "--list", self.write("t", table)), 0, f"saving {44 * U}\n")
        for wrong in (table.replace("2,2", "2,1"), table.replace("3,3", "3,4"), table.replace("0,1\n", "")):
            status, output, errors = self.honduvi("judge", "d.text", "--list", self.write("t", wrong))
            self.assertEqual((status, output), (2, ""))
            self.assertIn("its gates are not 0 to", errors)

    def test_a_list_longer_than_the_gates_is_no_answer(self):
        found = self.honduvi("judge", "d.text", "0", "0", "2", "3", "9", "9")
        self.held(found, 2, "", "scripts/honduvi: the list has 6 increases, the block 4 gates\n")
        without_head = "".join(self.honduvi("best", "d.block", "--csv")[1].splitlines(True)[1:]).replace(",,", ",")
        self.assertEqual(self.honduvi("judge", "d.block", "--list", self.write("t", without_head))[:2], (2, ""))
        self.refused(self.honduvi("judge", self.write("e", b""), "0"), 1, 0, "empty")

    def test_tables_as_spreadsheets_write_them(self):
        for table in (
            '"gate","increase"\n"3","3"\n"0","0"\n"1","0"\n"2","2"\n',
            "\ufeffgate;increase\r\n0;0\r\n1;0\r\n2;2\r\n3;3\r\n",
        ):
            self.held(self.honduvi("judge", "d.text", "--list", self.write("t", table)), 0, f"saving {44 * U}\n")

    def test_a_table_for_another_block_is_no_answer(self):
        table = self.honduvi("best", "d.text", "--csv")[1]
        for other, fault in (
            (DIAMOND.replace("name slow", "name other"), "gate 1 has the name slow, in the block other"),
            (DIAMOND.replace("delay 1", "delay 7"), "gate 2 has the delay 1, in the block 7"),
        ):
            status, output, errors = self.honduvi("judge", self.write("o", other), "--list", "-", given=table.encode())
            self.assertEqual((status, output), (2, ""))
            self.assertIn(fault, errors)
        self.held(self.honduvi("judge", "d.block", "--list", "-", given=table.encode()), 0, f"saving {44 * U}\n")

    def test_a_list_in_brackets(self):
        self.held(self.honduvi("judge", "d.text", "--list", self.write("t", "[0, 0, 2, 3]")), 0, f"saving {44 * U}\n")

    def test_options_between_file_and_increases(self):
        self.held(self.honduvi("judge", "d.text", "--json", "0", "0", "0", "3"), 0, '{\n "saving": 1179648\n}\n')
        for arguments in (["judge", "d.text", "--json", "0", "x"], ["judge", "d.text", "--frob", "0"], ["best", "d.text", "0"]):
            status, output, errors = self.honduvi(*arguments)
            self.assertEqual((status, output), (2, ""))
            self.assertIn("usage: scripts/honduvi", errors)

    def test_lists_that_are_none(self):
        for text in (
            "0 0 x 3",
            "{",
            '{"list": [{}]}',
            '{"list": 3}',
            "0 0 2 4294967296",
            "0 0 2 -3",
            "[" * 100_000,
            "{" + '"a":{' * 100_000,
        ):
            status, output, errors = self.honduvi("judge", "d.text", "--list", self.write("list", text))
            self.assertEqual((status, output), (2, ""), text[:20])
            self.assertIn("list: no list of increases", errors)
        self.assertIn("'list' is missing", self.honduvi("judge", "d.text", "--list", self.write("list", "{}"))[2])
        status, _, errors = self.honduvi("judge", "d.text", "0", "--list", "list")
        self.assertEqual(status, 2)


class Ticks(CommandTest):
    def test_the_fewest(self):
        for wanted, ticks in [(0, 0), (8 * U, 0), (8 * U + 1, 1), (44 * U, 3), (44 * U + 1, 4), (92 * U, 10)]:
            self.held(self.honduvi("ticks", "d.text", str(wanted)), 0, f"ticks {ticks}\n")

    def test_out_of_reach(self):
        self.refused(self.honduvi("ticks", "d.text", str(92 * U + 1)), 17, 0, "3014657", "3014656")
        self.refused(self.honduvi("ticks", "d.text", str(2**64 - 1)), 17, 0)
        self.assertEqual(self.honduvi("ticks", "d.text", str(2**64))[0], 2)


class Forms(CommandTest):
    def test_docs_name_every_value_and_column(self):
        lines = (ROOT / "docs" / "FORMAT.md").read_text().splitlines()
        for command, *arguments in (["best"], ["slacks"], ["curve"], ["judge", "0", "0", "0", "0"], ["ticks", "1"]):
            found = self.json_of(command, "d.text", *arguments)
            tables = [rows for rows in found.values() if isinstance(rows, list)]
            row = next(line for line in lines if line.startswith(f"| `{command}` |"))
            named = re.findall(r"`(\w+)`", row)[1:]
            self.assertEqual(named, [*found, *(column for rows in tables for column in rows[0])])


class Explain(CommandTest):
    def test_a_block(self):
        status, output, errors = self.honduvi("explain", "d.text")
        self.assertEqual((status, errors), (0, ""))
        for words in (
            "4 gates, 4 wires; arrival 0, deadline 10",
            "lasts 7 ticks: gate 0 (source) -> gate 1 (slow) -> gate 3 (join)",
            "save 1,441,792 (22.00 drop x transitions per clock cycle)",
            "gate 2 (fast): delay 1 + 2 = 3 (2 of 4 ticks)",
            "gate 3 (join): delay 2 + 3 = 5 (3 of 5 ticks)",
            "with no spare tick 262,144 can be saved, with 10 or more 3,014,656",
        ):
            self.assertIn(words, output)
        self.assertNotIn("gate 1 (slow): delay", output)

    def test_wires_and_long_names_of_the_longest_path(self):
        names = [f"{'n' * 60}{gate}" for gate in range(4)]
        text = (ROOT / "examples" / "delays.text").read_text()
        for gate, name in enumerate(names):
            text = text.replace(f"gate {gate} ", f"gate {gate} name {name} ")
        output = self.honduvi("explain", self.write("x", text))[1]
        path = " -> ".join(f"gate {gate} ({names[gate]})" for gate in (0, 1, 3))
        self.assertIn(f"lasts 8 ticks, 1 of them on wires: {path}\n", output)

    def test_a_refusal(self):
        status, output, errors = self.honduvi("explain", self.write("l", LATE))
        self.assertEqual((status, errors), (1, ""))
        self.assertTrue(output.startswith("refused 12 0\nlate by 1 tick"), output)


class Draw(CommandTest):
    def drawn(self, *arguments):
        status, output, errors = self.honduvi("draw", *arguments)
        self.assertEqual(status, 0, errors)
        return "".join(ElementTree.fromstring(output).itertext()), errors

    def test_pictures(self):
        words, errors = self.drawn("curve", "d.text")
        self.assertIn("1,441,792", words)
        self.assertEqual(errors, "")
        words, errors = self.drawn("block", "d.text")
        self.assertIn("slow", words)
        self.assertEqual(errors, "")

    def test_to_a_file(self):
        self.held(self.honduvi("draw", "block", "d.block", "-o", "d.svg"), 0, "")
        ElementTree.fromstring((self.folder / "d.svg").read_text())

    def test_blocks_without_best_increases(self):
        words, errors = self.drawn("block", self.write("l", LATE))
        self.assertIn("l: without increases, since refused 12 0", words)
        self.assertTrue(errors.startswith("l: drawn without increases, since refused 12 0\nl: late by 1 tick"), errors)
        self.assertIn("series-parallel", self.drawn("block", self.write("b", BRIDGE))[1])
        status, output, errors = self.honduvi("draw", "curve", "b")
        self.assertEqual((status, output), (1, ""))
        self.assertTrue(errors.startswith("b: refused 11 1\n"), errors)
        self.assertEqual(self.honduvi("draw", "block", self.write("e", b""))[:2], (1, ""))


class Conversion(CommandTest):
    def test_both_ways(self):
        self.held(self.honduvi("to-block", "d.text", "-o", "x.block"), 0, "")
        self.assertEqual((self.folder / "x.block").read_bytes(), (self.folder / "d.block").read_bytes())
        plain = "".join(line + "\n" for line in DIAMOND.splitlines())
        for name in NAMES:
            plain = plain.replace(f" name {name}", "")
        self.held(self.honduvi("to-text", "d.block"), 0, plain)
        self.held(self.honduvi("to-text", "d.text"), 0, DIAMOND)

    def test_examples_stand_in_both_forms(self):
        texts = sorted((ROOT / "examples").glob("*.text"))
        self.assertGreaterEqual(len(texts), 6)
        for text in texts:
            block = text.with_suffix(".block")
            self.honduvi("to-block", text, "-o", "x.block")
            self.assertEqual((self.folder / "x.block").read_bytes(), block.read_bytes(), text.name)
            lines = [re.sub(r" *#.*| name \S+", "", line) for line in text.read_text().splitlines()]
            self.held(self.honduvi("to-text", block), 0, "".join(line + "\n" for line in lines if line))

    def test_generated_descriptions_are_written_as_they_were_read(self):
        for words in ("1 64 8", f"1 {MAX_GATES} 8", "2 9 3 50", f"2 {MAX_GATES} 3 50", "3 30 1 4095 65535"):
            command = [ROOT / "target/host/generate-block", *words.split()]
            generated = subprocess.run(command, capture_output=True, check=True).stdout
            self.write("g.text", generated)
            self.honduvi("to-block", "g.text", "-o", "g.block")
            self.held(self.honduvi("to-text", "g.block"), 0, generated.decode())
            self.assertEqual(self.honduvi("best", "g.text")[0], 0)

    def test_what_a_call_of_1_to_7_refuses_has_no_description(self):
        self.write("cut", (self.folder / "d.block").read_bytes()[:40])
        status, output, errors = self.honduvi("to-text", "cut")
        self.assertEqual((status, output, errors.splitlines()[0]), (1, "", "cut: refused 1 33"))
        loop = self.block("loop.block", DIAMOND.replace("1-3", "1-2 2-1 1-3"))
        self.assertEqual(self.honduvi("to-text", loop)[0], 0)

    def test_faults_of_a_description(self):
        for text, right in [
            ("", "x.text: the description is empty"),
            (f"{DIAMOND}wires 0-99999999999\n", "x.text:7: wire 0-99999999999: there is no gate 99999999999"),
            ("x" * 20_000_000, f"x.text: more than 16,777,216 bytes"),
            ("x" * 10_000_000, f"x.text:1: 'block', 'gate' or 'wires' was expected, not '{'x' * 57}...'"),
            ("\x1b[31m", "x.text:1: 'block', 'gate' or 'wires' was expected, not '\\x1b[31m'"),
            (b"\x02\x00\xff", "x.text: this is no text: byte 2 is not UTF-8"),
            (b"\x01\x00\x08", "x.text: this is a block file and no description"),
        ]:
            self.write("x.text", text)
            self.held(self.honduvi("to-block", "x.text"), 2, "", f"scripts/honduvi: {right}\n")


class Import(CommandTest):
    MATCH, ADDER = ROOT / "examples/yosys/match.json", ROOT / "examples/yosys/adder.json"
    CELLS = (ROOT / "examples/yosys/match.cells").read_text()

    def imported(self, cells, *arguments, file=MATCH):
        return self.honduvi("import", file, "--cells", self.write("t.cells", cells), *arguments)

    def test_a_netlist_becomes_a_description(self):
        status, output, errors = self.imported(self.CELLS, "--deadline", "25", "--arrival", "1")
        self.assertEqual((status, errors), (0, ""))
        lines = output.splitlines()
        self.assertEqual(lines[0], "block arrival 1 deadline 25 p 0")
        self.assertEqual(lines[8], "gate 7 name addr[6] delay 0 p 64")
        self.assertEqual(lines[36], "gate 35 name join delay 0 p 0")
        self.held(
            self.honduvi("best", "-", "--csv", given=output.encode()),
            0,
            self.honduvi("best", self.write("m", output), "--csv")[1],
        )

    def test_notes(self):
        status, _, errors = self.imported(self.CELLS)
        self.assertEqual(status, 0)
        self.assertIn("match.json: no deadline given: 19 is taken", errors)

    def test_what_cannot_be_imported(self):
        self.write("bytes", b"{\xff")
        for cells, file, right in [
            (
                self.CELLS.replace("cell $_NOT_ ", "cell X "),
                self.MATCH,
                "match.json: types that are not in the table: $_NOT_ (cell u15)",
            ),
            (self.CELLS + "cell $_NOT_ delay 1\n", self.MATCH, "t.cells: line 27: cell $_NOT_ stood before, in line 2"),
            (self.CELLS, "bytes", "scripts/honduvi: bytes: this is no text: byte 1 is not UTF-8"),
            (self.CELLS, "d.text", "d.text: this is no JSON: line 1, column 1"),
            (self.CELLS, "missing", "scripts/honduvi: missing: No such file or directory"),
        ]:
            status, output, errors = self.imported(cells, file=file)
            self.assertEqual((status, output), (2, ""))
            self.assertIn(right, errors)

    def test_an_adder_is_not_series_parallel(self):
        self.honduvi("import", self.ADDER, "--cells", ROOT / "examples/yosys/adder.cells", "-o", "a.text")
        self.refused(self.honduvi("best", "a.text"), 11, 1, "not series-parallel at gate 1 (a[0])")


class NoAnswer(CommandTest):
    def test_usage(self):
        for arguments in (
            [],
            ["frobnicate"],
            ["best"],
            ["best", "d.text", "--json", "--csv"],
            ["judge", "d.text", "-1"],
            ["ticks", "d.text"],
            ["ticks", "d.text", "x"],
            ["draw", "d.text"],
            ["draw", "cat", "d.text"],
            ["slacks", "\x1b"],
        ):
            status, output, errors = self.honduvi(*arguments)
            self.assertEqual((status, output), (2, ""), arguments)
            self.assertTrue(errors, arguments)
            self.assertTrue(errors.replace("\n", "").isprintable(), errors)

    def test_output_to_the_input(self):
        for command in ("to-block", "to-text"):
            found = self.honduvi(command, "d.text", "-o", "./d.text")
            self.held(found, 2, "", "scripts/honduvi: ./d.text: input and output are one file\n")
        self.assertEqual((self.folder / "d.text").read_text(), DIAMOND)

    def test_standard_input_for_two_files(self):
        for arguments in (["judge", "-", "--list", "-"], ["import", "-", "--cells", "-"]):
            found = self.honduvi(*arguments, given=DIAMOND.encode())
            self.held(found, 2, "", "scripts/honduvi: standard input (-) can stand for one file alone\n")

    def test_help_of_every_command(self):
        for command in ("best", "slacks", "curve", "judge", "ticks", "explain", "draw", "to-block", "to-text", "import"):
            self.assertIn(command, self.honduvi("--help")[1])
            status, output, _ = self.honduvi(command, "--help")
            self.assertEqual(status, 0)
            self.assertIn(f"usage: scripts/honduvi {command}", output)

    def test_output_that_cannot_be_written(self):
        for arguments in (
            ["best", "d.text"],
            ["explain", "d.text"],
            ["draw", "curve", "d.text"],
            ["to-block", "d.text"],
            ["to-text", "d.block"],
            ["--help"],
        ):
            with open("/dev/full", "wb") as full:
                status, _, errors = self.honduvi(*arguments, stdout=full)
            self.assertEqual((status, errors), (2, "scripts/honduvi: standard output: No space left on device\n"))
        for target, reason in (("/dev/full", "No space left on device"), ("no/such/folder", "No such file or directory")):
            found = self.honduvi("to-block", "d.text", "-o", target)
            self.held(found, 2, "", f"scripts/honduvi: {target}: {reason}\n")

    def test_a_library_that_cannot_be_used(self):
        status, output, errors = self.honduvi("best", "d.text", env={**os.environ, "HONDUVI_LIBRARY": "no/such.so"})
        self.assertEqual((status, output), (2, ""))
        self.assertIn("scripts/honduvi: the library cannot be used: no/such.so", errors)
        other = ctypes.util.find_library("c")
        path = next(path for path in Path("/").glob(f"lib*/**/{other}"))
        status, output, errors = self.honduvi("best", "d.text", env={**os.environ, "HONDUVI_LIBRARY": str(path)})
        self.assertEqual((status, output, errors.count("\n")), (2, "", 1))
        self.assertIn("has no honduvi_best_increases", errors)

    def test_files_that_cannot_be_read(self):
        for command in ("best", "explain", "to-block", "to-text"):
            self.held(self.honduvi(command, "missing"), 2, "", "scripts/honduvi: missing: No such file or directory\n")
            self.held(self.honduvi(command, "."), 2, "", "scripts/honduvi: .: Is a directory\n")


if __name__ == "__main__":
    unittest.main()

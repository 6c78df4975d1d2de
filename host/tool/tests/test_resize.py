"""Tests of scripts/resize: statuses, standard output to the letter, and words on standard error. Needs target/bin/resize."""

import subprocess
import unittest

from building import ROOT
from netlist import MAX_GATES
from tests.scripts import BRIDGE, DIAMOND, LATE, ScriptTest

PRINTOUT = "gates 4 wires 4\nstart 7 spare 3\nsaving 1441792\n0 2 0 3\n1 3 0 3\n2 1 2 5\n3 2 3 3\n"
D = (ROOT / "examples" / "diamond.block").read_bytes()


def changed(at, *values):
    """D's file with these bytes from an offset on."""
    return D[:at] + bytes(values) + D[at + len(values) :]


class Accepted(ScriptTest):
    def test_a_block_file_and_its_description(self):
        self.held(self.run_script("resize", "d.block"), 0, PRINTOUT)
        self.held(self.run_script("resize", "d.text"), 0, PRINTOUT)

    def test_standard_input(self):
        self.held(self.run_script("resize", "-", given=D), 0, PRINTOUT)
        self.held(self.run_script("resize", "-", given=DIAMOND.encode()), 0, PRINTOUT)

    def test_several_files_have_a_name_in_front_of_each(self):
        found = self.run_script("resize", "d.block", "d.text", "d.block")
        self.held(found, 0, f"d.block:\n{PRINTOUT}d.text:\n{PRINTOUT}d.block:\n{PRINTOUT}")

    def test_as_many_gates_as_there_can_be(self):
        for form in ("block", "text"):
            status, output, errors = self.run_script("resize", ROOT / f"examples/front-end.{form}")
            lines = output.splitlines()
            self.assertEqual((status, errors, lines[0], len(lines)), (0, "", "gates 200 wires 294", 3 + MAX_GATES))
            self.assertEqual([line.split()[0] for line in lines[3:]], [str(gate) for gate in range(MAX_GATES)])

    def test_only_what_the_program_reads_decides(self):
        self.write("long.block", D + bytes([3]) * 100_000)
        status, output, _ = self.run_script("resize", "long.block")
        self.assertEqual((status, output), (1, "refused 3 75\n"))

    def test_help(self):
        status, output, errors = self.run_script("resize", "--help")
        self.assertEqual((status, errors), (0, ""))
        for word in ("status 0", "docs/FORMAT.md", "start 7 spare 3", "usage: scripts/resize"):
            self.assertIn(word, output)


class Refused(ScriptTest):
    def refused(self, file, number, place, *words):
        """A file that is refused, with words that the reason has."""
        status, output, errors = self.run_script("resize", self.write("x", file))
        self.assertEqual((status, output), (1, f"refused {number} {place}\n"))
        self.assertTrue(errors.startswith("x: "), errors)
        for word in words:
            self.assertIn(word, errors)

    def test_fields(self):
        self.refused(b"", 1, 0, "empty")
        self.refused(D[:40], 1, 33, "gate 2", "byte 33")
        self.refused(changed(11, 3), 2, 11, "tag 3", "tag 2", "gate 0")
        self.refused(changed(12, 0, 6), 3, 11, "6", "gate 0")
        self.refused(changed(23, 1, 1), 4, 18, "p 257", "0 to 256", "gate 1")
        self.refused(changed(31, 0, 5), 5, 18, "gate 1", "drop 5")
        self.refused(changed(63, 0, 1), 6, 60, "gate 0", "gate 1", "byte 55")
        self.refused(changed(3, 4), 4, 0, "edition 4", "1 to 3")

    def test_networks(self):
        self.refused(DIAMOND.replace("1-3", "1-2 2-1 1-3"), 8, 1, "gate 1 (slow) -> gate 2 (fast) -> gate 1 (slow)")
        self.refused(DIAMOND.replace(" 1-3", ""), 9, 1, "gate 1 (slow)", "no wire out")
        self.refused(BRIDGE, 11, 1, "series-parallel", "gate 1 (slow)")
        self.refused(LATE, 12, 0, "late by 1 tick", "gate 0 (source) -> gate 1 (slow) -> gate 3 (join)")

    def test_text_in_another_encoding(self):
        for encoding in ("latin-1", "utf-16"):
            self.refused(f"{DIAMOND}# größer\n".encode(encoding), 2, 0, "a description must be text in UTF-8 without a byte 0")
        self.assertNotIn("description", self.run_script("resize", self.write("y", b"\x02" + D[1:]))[2])

    def test_gates_without_names(self):
        self.block("late.block", LATE)
        status, _, errors = self.run_script("resize", "late.block")
        self.assertEqual(status, 1)
        self.assertIn("gate 0 -> gate 1 -> gate 3", errors)

    def test_the_highest_status_of_several_files(self):
        self.write("late.text", LATE)
        status, output, errors = self.run_script("resize", "late.text", "d.text")
        self.assertEqual((status, output), (1, f"late.text:\nrefused 12 0\nd.text:\n{PRINTOUT}"))
        status, output, errors = self.run_script("resize", "missing", "late.text", "d.text")
        self.assertEqual((status, output), (2, f"late.text:\nrefused 12 0\nd.text:\n{PRINTOUT}"))
        self.assertEqual(errors.splitlines()[0], "scripts/resize: missing: No such file or directory")


class NoAnswer(ScriptTest):
    def test_usage(self):
        for arguments in ([], ["--frobnicate", "d.block"], ["-x"]):
            status, output, errors = self.run_script("resize", *arguments)
            self.assertEqual((status, output), (2, ""))
            self.assertIn("usage: scripts/resize", errors)

    def test_standard_input_twice(self):
        found = self.run_script("resize", "-", "-", given=D)
        self.held(found, 2, "", "scripts/resize: standard input (-) can stand for one file alone\n")

    def test_files_that_cannot_be_read(self):
        self.held(self.run_script("resize", "missing"), 2, "", "scripts/resize: missing: No such file or directory\n")
        self.held(self.run_script("resize", "."), 2, "", "scripts/resize: .: Is a directory\n")
        found = self.run_script("resize", "a\x1b[31m\nb")
        self.held(found, 2, "", "scripts/resize: a\\x1b[31m\\x0ab: No such file or directory\n")

    def test_a_description_at_fault(self):
        self.write("x.text", DIAMOND.replace("(3,2)", "(3,5)"))
        self.held(self.run_script("resize", "x.text"), 2, "", "scripts/resize: x.text:3: drops must fall strictly: 5 after 5\n")

    def test_output_that_cannot_be_written(self):
        for arguments in (["d.block"], ["--help"]):
            with open("/dev/full", "wb") as full:
                found = self.run_script("resize", *arguments, stdout=full)
            self.held(found, 2, "", "scripts/resize: standard output: No space left on device\n")
        closed = ["bash", "-c", f"'{ROOT}/scripts/resize' d.block >&-"]
        run = subprocess.run(closed, cwd=self.folder, capture_output=True, text=True)
        self.assertEqual((run.returncode, run.stderr), (2, "scripts/resize: standard output is closed\n"))

    def test_output_that_nobody_reads(self):
        piped = ["bash", "-c", f"set -o pipefail; '{ROOT}/scripts/resize' d.block | true; echo ${{PIPESTATUS[0]}}"]
        run = subprocess.run(piped, cwd=self.folder, capture_output=True, text=True)
        self.assertIn(run.stdout, ("0\n", "2\n"))
        self.assertEqual(run.stderr, "")

    def test_input_that_is_closed(self):
        run = subprocess.run(["bash", "-c", f"'{ROOT}/scripts/resize' - <&-"], capture_output=True, text=True)
        self.assertEqual((run.returncode, run.stdout, run.stderr), (2, "", "scripts/resize: standard input is closed\n"))


if __name__ == "__main__":
    unittest.main()

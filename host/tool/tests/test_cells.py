"""The table of cells: what it says, its faults in words, and damaged tables."""

import random
import tempfile
import unittest
from collections import Counter

from cells import read_cells
from inputs import read_text
from naming import CannotImport
from netlist import Step
from tests.designs import EXAMPLES


class Tables(unittest.TestCase):
    def fault(self, text):
        with self.assertRaises(CannotImport) as caught:
            read_cells(text)
        reason = str(caught.exception)
        self.assertTrue(reason and reason.isprintable(), repr(reason))
        return reason

    def test_what_a_table_says(self):
        lines = ("cell A delay 4095 steps (4095,1000) (1,1)\r", "# text", "", "cell B delay 0#", "net a[0] p 256", "p 0")
        cells = read_cells("\n".join(lines))
        self.assertEqual((cells.edition, cells.others, sorted(cells.types)), (1, 0, ["A", "B"]))
        self.assertEqual((cells.types["A"].delay, cells.types["A"].steps), (4095, (Step(4095, 1000), Step(1, 1))))
        self.assertEqual((cells.nets["a[0]"].line, cells.nets["a[0]"].switching), (5, 256))

    def test_a_mark_of_the_encoding_in_front(self):
        with tempfile.NamedTemporaryFile() as file:
            file.write("\ufeffcell A delay 1\np 128".encode())
            file.flush()
            self.assertEqual(list(read_cells(read_text(file.name, 100)).types), ["A"])

    def test_faults_of_lines(self):
        for line, reason in (
            ("cells A delay 1", "'cell', 'net', 'p' or 'activity' was expected, not 'cells'"),
            ("cell", "the type of cell is missing at the end of the line"),
            ("cell B", "'delay' is missing at the end of the line"),
            ("cell B p 3", "'delay' was expected, not 'p'"),
            ("cell B delay", "the number after 'delay' is missing at the end of the line"),
            ("cell B delay x", "delay: a number was expected, not 'x'"),
            ("cell B delay -1", "delay: a number was expected, not '-1'"),
            ("cell B delay 4096", "delay 4096 is not 0 to 4095"),
            ("cell B delay 3 p 128", "'steps' or the end of the line was expected, not 'p'"),
            ("cell B delay 3 steps 2,5", "a step (width,drop) was expected, not '2,5'"),
            ("cell B delay 3 steps (0,5)", "width 0 is not 1 to 4095"),
            ("cell B delay 3 steps (4096,5)", "width 4096 is not 1 to 4095"),
            ("cell B delay 3 steps (2,1001)", "drop 1001 is not 1 to 1000"),
            ("cell B delay 3 steps (2,5) (3,5)", "drops must fall strictly: 5 after 5"),
            ("cell B delay 3 steps" + "".join(f" (1,{9 - i})" for i in range(9)), "more than 8 steps"),
            ("cell A delay 3", "cell A stood before, in line 1"),
            ("net", "the net's name is missing at the end of the line"),
            ("net a 128", "'p' or 'activity' was expected, not '128'"),
            ("net a p 257", "p 257 is not 0 to 256"),
            ("net a p 3 4", "'4' was not expected here"),
            ("net b p 3", "net b stood before, in line 3"),
            ("net a activity 3", "'activity' here, but 'p' in line 2"),
            ("p 3", "a second line with 'p' for the nets that are not named"),
            ("activity 3", "a second line with 'activity' for the nets that are not named"),
        ):
            with self.subTest(line=line):
                self.assertEqual(self.fault(f"cell A delay 1\np 128\nnet b p 1\n{line}\n"), f"line 4: {reason}")

    def test_faults_of_activities(self):
        self.assertEqual(self.fault("cell A delay 1\nactivity 65536"), "line 2: activity 65536 is not 0 to 65535")
        self.assertEqual(self.fault("cell A delay 1\nnet a activity 1\np 128"), "line 3: 'p' here, but 'activity' in line 2")

    def test_what_is_missing(self):
        self.assertEqual(self.fault(""), "the table has no line 'cell'")
        self.assertEqual(self.fault("p 128"), "the table has no line 'cell'")
        self.assertIn("says nothing of the nets", self.fault("cell A delay 1"))

    def test_damaged_words(self):
        whole = (EXAMPLES / "match.cells").read_text().split(" ")
        junk = ("p", "net", "(1,2)", "(,)", "#", "\n", "\x00", "9" * 5000, "\u0663")
        outcomes = Counter()
        for seed in range(500):
            choose = random.Random(seed)
            words = list(whole)
            words[choose.randrange(len(words))] = choose.choice(junk)
            with self.subTest(seed=seed):
                try:
                    read_cells(" ".join(words))
                    outcomes["table"] += 1
                except CannotImport as reason:
                    self.assertRegex(str(reason), "^(line [0-9]+: |the table )")
                    self.assertTrue(str(reason).isprintable(), repr(str(reason)))
                    outcomes["reason"] += 1
        self.assertGreater(min(outcomes["table"], outcomes["reason"]), 50)


if __name__ == "__main__":
    unittest.main()

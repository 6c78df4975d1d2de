"""docs/FORMAT.md says of D's file what its bytes are, and the limits that the tool has."""

import re
import unittest

from building import ROOT
from description import read
from netlist import BLOCK_LENGTH, GATE_LENGTHS, HEADER, MAX_BYTES, MAX_EDITION, MAX_GATES, MAX_WIRES, encode, wire_length

PAGE = (ROOT / "docs" / "FORMAT.md").read_text()
D = (ROOT / "examples" / "diamond.block").read_bytes()


class Diamond(unittest.TestCase):
    def test_every_byte_stands_there_at_its_offset(self):
        rows = re.findall(r"^\| (\d+) \| `([0-9a-f ]+)` \| \S", PAGE, re.MULTILINE)
        at = 0
        for offset, digits in rows:
            self.assertEqual(int(offset), at)
            at += len(bytes.fromhex(digits))
        self.assertEqual(bytes.fromhex(" ".join(digits for _, digits in rows)), D)

    def test_the_description_there_is_that_of_the_file(self):
        text = re.search(r"^```\n(# two branches.*?)```$", PAGE, re.MULTILINE | re.DOTALL).group(1)
        self.assertEqual(encode(read(text.encode())), D)


def longest(edition):
    """The bytes of the longest file that can be read."""
    return HEADER + BLOCK_LENGTH + MAX_GATES * (HEADER + GATE_LENGTHS[-1]) + MAX_WIRES * (HEADER + wire_length(edition))


class Limits(unittest.TestCase):
    def test_of_gates_and_wires(self):
        for words in (
            f"| gate count n | 1 to {MAX_GATES} |",
            f"There are at most {MAX_WIRES} wires,",
            f"- Then the `gate` lines, 1 to {MAX_GATES}, numbered",
            f"wires from-to, at most {MAX_WIRES} in all;",
            f"more than {MAX_GATES} gates or {MAX_WIRES} wires.",
        ):
            self.assertIn(words, PAGE)

    def test_of_bytes(self):
        self.assertLess(longest(MAX_EDITION), MAX_BYTES)
        self.assertIn(f"has at most {longest(MAX_EDITION):,} bytes, one of edition 1 at most {longest(1):,}.", PAGE)
        self.assertIn(f"if its first {MAX_BYTES:,} bytes are text", PAGE)


if __name__ == "__main__":
    unittest.main()

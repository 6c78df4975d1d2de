"""Tests of text.py."""

import unittest

from netlist import Gate, Netlist
from text import chain, counted, is_number, label, listed, ordinal, shown, value_up_to


class Shown(unittest.TestCase):
    def test_text_as_it_is(self):
        for text in ("", "a b", "größe → x", "n" * 60):
            self.assertEqual(shown(text), text)

    def test_escapes(self):
        self.assertEqual(shown("a\tb\r\n\0\x7f\x85\x1b[0m"), r"a\x09b\x0d\x0a\x00\x7f\x85\x1b[0m")
        self.assertEqual(shown("\u2028\u200b\ud800\U000e0001"), r"\u2028\u200b\ud800\U000e0001")
        self.assertEqual(shown(b"\xff\x80x".decode("utf-8", "surrogateescape")), r"\xff\x80x")

    def test_shortened(self):
        self.assertEqual(shown("n" * 61), "n" * 57 + "...")
        self.assertEqual(shown("abcdef", 5), "ab...")
        self.assertEqual(shown("ab\x1bdef", 6), "ab...")
        self.assertEqual(shown("\x1b" * 1000, 10), r"\x1b...")
        self.assertEqual(shown("abcd", 3), "...")

    def test_lines(self):
        self.assertEqual(shown("a\nb"), r"a\x0ab")


class CountsAndLists(unittest.TestCase):
    def test_counts(self):
        self.assertEqual([counted(count, "gate") for count in (0, 1, 2)], ["0 gates", "1 gate", "2 gates"])
        self.assertEqual(
            [ordinal(count) for count in (1, 2, 3, 4, 11, 12, 13)], ["1st", "2nd", "3rd", "4th", "11th", "12th", "13th"]
        )
        self.assertEqual([ordinal(count) for count in (21, 111, 122, 253)], ["21st", "111th", "122nd", "253rd"])

    def test_lists(self):
        self.assertEqual(listed(["a"], 0), "a")
        self.assertEqual(listed(["a", "b"], 9, "or"), "a or b")
        self.assertEqual(listed(["a", "b", "c"], 10), "a, b and c")
        self.assertEqual(listed(["a", "b", "c"], 9), "a and 2 more")

    def test_chains(self):
        self.assertEqual(chain(["a"], 0), "a")
        self.assertEqual(chain(["a", "b", "c"], 11), "a -> b -> c")
        self.assertEqual(chain(["a", "b", "c", "d"], 11), "a -> 2 more -> d")


class Numbers(unittest.TestCase):
    def test_digits_alone(self):
        for word in ("0", "007", "9" * 5000):
            self.assertTrue(is_number(word), word[:9])
        for word in ("", "-1", "+1", "1.0", "1_0", " 1", "x", "²", "٣"):
            self.assertFalse(is_number(word), word)

    def test_values(self):
        for most in (-1, 0, 1, 9, 10, 99, 4095):
            for value in (*range(120), 4094, 4095, 4096, 99999):
                for zeros in ("", "0", "0" * 5000):
                    self.assertEqual(value_up_to(f"{zeros}{value}", most), min(value, most + 1))
            self.assertEqual(value_up_to("9" * 5000, most), most + 1)


class Labels(unittest.TestCase):
    def test_long_names_are_cut_in_their_middle(self):
        names = [f"$abc$103$auto$blifparse.cc:386:parse_blif${number}" for number in (108, 109)]
        netlist = Netlist(1, 0, 9, 0, tuple(Gate(0, 0, (), name) for name in names))
        self.assertEqual(label(netlist, 0), f"gate 0 ({names[0]})")
        self.assertEqual(label(netlist, 0, 30), "gate 0 ($abc$1...rse_blif$108)")
        self.assertTrue(label(netlist, 1, 30).endswith("$109)"))
        self.assertEqual(listed(["one", "two", "three"], 14, "or"), "one or 2 more")


if __name__ == "__main__":
    unittest.main()

"""Tests of host/python/honduvi.py, and of what the tool finds itself against the proved calls. Needs
target/host/libhonduvi.so."""

import pickle
import random
import shutil
import subprocess
import sys
import tempfile
import unittest
from ctypes import c_int32, c_uint8, c_uint32, c_uint64

import netlist as tool_limits
from building import ROOT
from netlist import MAX_GATES, MAX_PAIRS, MAX_STEPS, Gate, Netlist, Step, Wire, decode, encode
from tests.blocks import from_host_python, largest_gain, longest_curve
from timing import longest_path, times

sys.path.append(str(ROOT / "host" / "python"))
import honduvi  # noqa: E402
from honduvi import Library, Refused, default_path  # noqa: E402

U = 32_768
D = (ROOT / "examples" / "diamond.block").read_bytes()
EXAMPLES = [path.read_bytes() for path in sorted((ROOT / "examples").glob("*.block"))]


def any_network(draw):
    """A netlist of edition 2 without loops and with right ends, of any shape."""
    count = draw.choice([1, 2, 3, 8, 20, 65, MAX_GATES])
    pairs = set()
    for gate in range(1, count):
        pairs.add((draw.randrange(gate), gate))
    for gate in range(count - 1):
        if all(source != gate for source, _ in pairs):
            pairs.add((gate, draw.randrange(gate + 1, count)))
    wires = tuple(Wire(*pair, draw.randint(0, 50)) for pair in sorted(pairs))
    gates = tuple(Gate(draw.randint(0, 100), draw.randint(0, 256), (Step(draw.randint(1, 40), 7),)) for _ in range(count))
    return Netlist(2, draw.randint(0, 99), draw.randint(0, 2_000), 128, gates, wires)


class Calls(unittest.TestCase):
    def setUp(self):
        self.library = Library()

    def refused(self, call, *arguments):
        with self.assertRaises(Refused) as found:
            call(*arguments)
        return found.exception.number, found.exception.place

    def test_diamond(self):
        self.assertEqual(self.library.best_increases(D), (44 * U, [0, 0, 2, 3]))
        self.assertEqual(self.library.slacks(D), [3, 3, 5, 3])
        self.assertEqual(self.library.curve(D), (7, 8 * U, [(5, 12 * U), (2, 9 * U), (3, 2 * U)]))
        self.assertEqual(self.library.judge(D, [0, 0, 0, 3]), 36 * U)
        self.assertEqual(self.library.judge(D, [0, 0, 0, 3, 2**32 - 1]), 36 * U)
        self.assertEqual([self.library.fewest_ticks(D, k * U) for k in (0, 8, 44, 92)], [0, 0, 3, 10])

    def test_refusals(self):
        late = D[:8] + b"\x06" + D[9:]
        for call in (self.library.best_increases, self.library.slacks, self.library.curve):
            self.assertEqual(self.refused(call, b""), (1, 0))
            self.assertEqual(self.refused(call, D[:40]), (1, 33))
        self.assertEqual(self.refused(self.library.best_increases, late), (12, 0))
        self.assertEqual(self.refused(self.library.judge, D, [0, 6, 0, 0]), (13, 1))
        self.assertEqual(self.refused(self.library.judge, D, [0, 0, 2, 4]), (14, 0))
        self.assertEqual(self.refused(self.library.judge, D, []), (10, 4))
        self.assertEqual(self.refused(self.library.judge, b"", []), (1, 0))
        self.assertEqual(self.refused(self.library.fewest_ticks, D, 92 * U + 1), (17, 0))
        self.assertEqual(self.refused(self.library.fewest_ticks, D, 2**64 - 1), (17, 0))

    def test_numbers_that_the_calls_cannot_take(self):
        for increase in (-1, 2**32):
            self.assertRaises(ValueError, self.library.judge, D, [0, 0, 0, increase])
        for wanted in (-1, 2**64):
            self.assertRaises(ValueError, self.library.fewest_ticks, D, wanted)


class Limits(unittest.TestCase):
    """Blocks of as many gates as there can be (document 02, K10)."""

    def setUp(self):
        self.library = Library()

    def test_the_modules_have_the_same(self):
        limits = from_host_python("limits")
        for name in ("MAX_GATES", "MAX_WIRES", "MAX_STEPS", "MAX_PAIRS", "MAX_DELAY", "MAX_WIDTH", "MAX_DROP"):
            self.assertEqual(getattr(limits, name), getattr(tool_limits, name), name)
        self.assertEqual((honduvi.MAX_GATES, honduvi.MAX_PAIRS), (MAX_GATES, MAX_PAIRS))

    def test_as_many_pairs_as_there_can_be(self):
        file, pairs = longest_curve()
        self.assertEqual(len(pairs), 1_600)
        self.assertEqual(self.library.curve(file), (MAX_GATES, 0, pairs))
        whole = sum(gain for _, gain in pairs)
        self.assertEqual(self.library.best_increases(file), (whole, [MAX_STEPS] * MAX_GATES))
        self.assertEqual(self.library.judge(file, [MAX_STEPS] * MAX_GATES), whole)
        self.assertEqual(self.library.slacks(file), [65_535 - MAX_GATES] * MAX_GATES)
        self.assertEqual([self.library.fewest_ticks(file, wanted) for wanted in (pairs[0][1] + 1, whole)], [2, 1_600])

    def test_the_largest_gain(self):
        file, gain = largest_gain(), 13_041_465_000
        self.assertEqual(self.library.curve(file), (3, 0, [(5, gain)]))
        self.assertEqual(self.library.best_increases(file), (3 * gain, [0] * (MAX_GATES - 1) + [3]))
        self.assertEqual([self.library.fewest_ticks(file, gain + more) for more in (0, 1)], [1, 2])

    def lent(self, name, file, *slices):
        """Number and place of a call with these slices lent."""
        arguments = [argument for lent in slices for argument in (lent, len(lent))]
        answer = getattr(self.library._library, f"honduvi_{name}")(file, len(file), *arguments)
        return answer.number, answer.place

    def test_slices_of_just_enough_elements_and_of_one_too_few(self):
        file, _ = longest_curve()
        for name, element, needed in (("best_increases", c_uint8, 800), ("slacks", c_int32, 200), ("judge", c_uint32, 200)):
            self.assertEqual(self.lent(name, file, (element * needed)())[0], 0)
            self.assertEqual(self.lent(name, file, (element * (needed - 1))()), (10, needed))
        for widths, gains in ((1_599, 1_600), (1_600, 1_599)):
            self.assertEqual(self.lent("curve", file, (c_uint32 * widths)(), (c_uint64 * gains)()), (10, 1_600))
        self.assertEqual(self.lent("curve", file, (c_uint32 * 1_600)(), (c_uint64 * 1_600)())[0], 0)


class Handling(unittest.TestCase):
    def test_any_bytes_and_no_other_type(self):
        library = Library()
        for file in (bytearray(D), memoryview(D)):
            self.assertEqual(library.slacks(file), [3, 3, 5, 3])
        for other in (5, "text", None):
            self.assertRaises(TypeError, library.slacks, other)

    def test_a_refusal_between_processes(self):
        refusal = pickle.loads(pickle.dumps(Refused(12, 0)))
        self.assertEqual((refusal.number, refusal.place, str(refusal)), (12, 0, "refused 12 0"))

    def test_module_and_library_in_one_folder(self):
        with tempfile.TemporaryDirectory() as folder:
            shutil.copy(ROOT / "host/python/honduvi.py", folder)
            shutil.copy(default_path(), folder)
            for words in ("honduvi.Library()", "honduvi.Library('libhonduvi.so')"):
                program = f"import honduvi; print({words}.fewest_ticks({D!r}, 1))"
                run = subprocess.run([sys.executable, "-c", program], cwd=folder, capture_output=True, text=True)
                self.assertEqual((run.stdout, run.stderr), ("0\n", ""))

    def test_all_that_a_curve_comes_to(self):
        found = Library().curve(D)
        self.assertEqual((found.ticks, found.most), (10, 92 * U))


class Missing(unittest.TestCase):
    def test_a_library_that_is_not_there_is_said_in_words(self):
        with self.assertRaisesRegex(OSError, "^no/such.so is not there; .* make it$"):
            Library("no/such.so")


class Found(unittest.TestCase):
    """The tool's own times and paths are those of the proved calls."""

    def setUp(self):
        self.library = Library()

    def test_slacks_and_start(self):
        draw, curves = random.Random(5), 0
        for file in EXAMPLES + [encode(any_network(draw)) for _ in range(400)]:
            netlist, none = decode(file), [0] * file[4]
            self.assertEqual(times(netlist, none).slacks, self.library.slacks(file))
            path = longest_path(netlist, none)
            wires = {(wire.source, wire.target): wire.delay for wire in netlist.wires}
            lasts = sum(netlist.gates[gate].delay for gate in path) + sum(wires[pair] for pair in zip(path, path[1:]))
            self.assertEqual((path[0], path[-1]), (0, len(netlist.gates) - 1))
            self.assertEqual(netlist.deadline - netlist.arrival - lasts, min(self.library.slacks(file)))
            try:
                self.assertEqual(lasts, self.library.curve(file).start)
                curves += 1
            except Refused as refusal:
                self.assertEqual(refusal.number, 11)
        self.assertGreater(curves, 50)

    def test_slacks_left_by_the_best_increases(self):
        draw, sized = random.Random(6), 0
        for file in EXAMPLES + [encode(any_network(draw)) for _ in range(400)]:
            try:
                increases = self.library.best_increases(file).increases
            except Refused:
                continue
            netlist = decode(file)
            slowed = tuple(Gate(g.delay + x, g.switching, g.steps) for g, x in zip(netlist.gates, increases))
            if max(gate.delay for gate in slowed) <= 4_095:
                slower = Netlist(netlist.edition, netlist.arrival, netlist.deadline, netlist.switching, slowed, netlist.wires)
                self.assertEqual(times(netlist, increases).slacks, self.library.slacks(encode(slower)))
                sized += 1
        self.assertGreater(sized, 50)


if __name__ == "__main__":
    unittest.main()

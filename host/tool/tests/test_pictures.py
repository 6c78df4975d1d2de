"""The pictures: they are XML, nothing overlaps or lies outside, and what they show stands where hand-worked numbers say."""

import random
import unittest
import xml.etree.ElementTree as ElementTree
from dataclasses import dataclass
from pathlib import Path

from block_picture import block_picture
from curve_picture import curve_picture
from netlist import MAX_DELAY, MAX_DROP, MAX_GATES, MAX_PAIRS, MAX_TIME, MAX_WIDTH, Gate, Netlist, Step, Wire, decode
from tests.blocks import with_names
from timing import times

SVG = "{http://www.w3.org/2000/svg}"
EXAMPLES = Path(__file__).resolve().parents[3] / "examples"
UNIT = 32_768
DIAMOND_PAIRS = [(5, 12 * UNIT), (2, 9 * UNIT), (3, 2 * UNIT)]
DIAMOND_SAVINGS = [8, 20, 32, 44, 56, 68, 77, 86, 88, 90, 92]


def example(name):
    return decode((EXAMPLES / f"{name}.block").read_bytes())


def of_class(root, tag, kind):
    """The elements of a tag whose class has all these words."""
    return [e for e in root.iter(SVG + tag) if set(kind.split()) <= set(e.get("class", "").split())]


def number(element, name):
    return float(element.get(name))


def axis_number(element):
    """The number that a label of an axis says."""
    return int(element.text.replace(",", "").replace("\u2212", "-"))


@dataclass(frozen=True)
class Box:
    left: float
    top: float
    right: float
    bottom: float
    what: str

    def meets(self, other):
        return self.left < other.right and other.left < self.right and self.top < other.bottom and other.top < self.bottom


def text_box(element):
    """The box of a text, at 0.6 em a character."""
    size, words = number(element, "font-size"), element.text or ""
    width = 0.6 * size * len(words)
    left = number(element, "x") - width * {"start": 0, "middle": 0.5, "end": 1}[element.get("text-anchor", "start")]
    base = number(element, "y")
    return Box(left, base - 0.8 * size, left + width, base + 0.2 * size, words)


def points_box(points, what):
    xs, ys = [x for x, _ in points], [y for _, y in points]
    return Box(min(xs), min(ys), max(xs), max(ys), what)


def shape_box(e):
    """The box of any other element that is drawn, or None."""
    tag = e.tag.replace(SVG, "")
    if tag == "rect":
        x, y = number(e, "x"), number(e, "y")
        return points_box([(x, y), (x + number(e, "width"), y + number(e, "height"))], tag)
    if tag == "line":
        return points_box([(number(e, f"x{i}"), number(e, f"y{i}")) for i in (1, 2)], tag)
    if tag == "circle":
        x, y, r = number(e, "cx"), number(e, "cy"), number(e, "r")
        return points_box([(x - r, y - r), (x + r, y + r)], tag)
    if tag in ("polyline", "polygon"):
        return points_box([tuple(map(float, pair.split(","))) for pair in e.get("points").split()], tag)
    return None


def texts(root):
    return [text_box(e) for e in root.iter(SVG + "text")]


def words(root):
    return [e.text for e in root.iter(SVG + "text")]


def late_diamond(arrival=5, deadline=9):
    block = example("diamond")
    return Netlist(1, arrival, deadline, block.switching, block.gates, block.wires)


def with_long_names(block):
    return with_names(block, [f"name_of_thirty_characters_{i:04}" for i in range(len(block.gates))])


def random_increases(block, seed):
    """Increases within the widths and in time."""
    draw, increases = random.Random(seed), [0] * len(block.gates)
    for _ in range(1000):
        tried = list(increases)
        gate = draw.randrange(len(tried))
        tried[gate] += draw.randrange(1, 6)
        if tried[gate] <= block.gates[gate].widths and min(times(block, tried).slacks) >= 0:
            increases = tried
    return increases


def uneven():
    """Delays and wires of 4,095 beside 1 and 0."""
    gates = (Gate(1, 1), Gate(4095, 1), Gate(1, 1, (Step(4095, 1),)), Gate(0, 1), Gate(4095, 1, (Step(9, 9),)), Gate(1, 1))
    wires = (Wire(0, 1, 1), Wire(0, 2), Wire(1, 3, 4095), Wire(2, 3), Wire(3, 4), Wire(4, 5))
    return Netlist(2, 0, 13_000, 128, gates, wires)


def longest():
    """The longest path that there can be, which arrives as late as can be and misses the earliest deadline."""
    wires = tuple(Wire(gate, gate + 1, MAX_DELAY) for gate in range(MAX_GATES - 1))
    return Netlist(2, MAX_TIME, 0, 128, (Gate(MAX_DELAY, 128),) * MAX_GATES, wires)


def block_pictures():
    """Pictures of blocks of every kind, with what they are."""
    large, one = example("large"), Netlist(1, 3, 12, 128, (Gate(4, 128, (Step(5, 6),), "only"),))
    far_late = Netlist(1, 60_000, 10, 128, large.gates, large.wires)
    near = Netlist(1, 0, 1, 128, large.gates, large.wires)
    most_gates = example("front-end")
    cases = [
        ("one gate", one, [5]),
        ("one gate without time", Netlist(1, 3, 3, 128, (Gate(0, 128),)), None),
        ("diamond", example("diamond"), [0, 0, 2, 3]),
        ("delays", example("delays"), [0, 0, 1, 4]),
        ("late", late_diamond(), None),
        ("late by far", late_diamond(60_000, 0), None),
        ("deadline far off", late_diamond(0, 65_535), [0, 5, 4, 5]),
        ("long names, long title " * 9, with_long_names(example("diamond")), [0, 0, 2, 3]),
        ("uneven", uneven(), [0, 0, 4000, 0, 9, 0]),
        ("large", large, None),
        ("large, increased", with_long_names(large), random_increases(large, 1)),
        ("large, late by far", far_late, None),
        ("large, deadline near arrival", near, None),
        ("as many gates as there can be", most_gates, None),
        ("as many gates as there can be, increased", with_long_names(most_gates), random_increases(most_gates, 2)),
        ("as late as can be", longest(), None),
        ("as late as can be, zeros given", with_long_names(longest()), [0] * MAX_GATES),
    ]
    return [(title, block_picture(title, block, increases)) for title, block, increases in cases]


def curve_pictures():
    draw = random.Random(2)
    gains = sorted((draw.randrange(1, (MAX_GATES - 1) * 65_535 * MAX_DROP) for _ in range(MAX_PAIRS)), reverse=True)
    cases = [(f"diamond {spare}", 7, 8 * UNIT, DIAMOND_PAIRS, spare) for spare in (-65_535, -1, 0, 1, 3, 10, 15, 41, 65_528)]
    cases += [
        ("no pairs", 7, 4 * UNIT, [], 3),
        ("no pairs, far", 7, 4 * UNIT, [], 65_535),
        ("nothing", 0, 0, [], 0),
        ("longest", 1_633_905, 4 * 10**14, [(MAX_WIDTH, gain) for gain in gains], 65_535),
        ("longest, as late as can be", 1_633_905, 4 * 10**14, [(MAX_WIDTH, gain) for gain in gains], -1_699_440),
        ("long", 65_535, 1, [(draw.randrange(1, MAX_WIDTH + 1), gain) for gain in gains], -3),
        ("a label at the right edge", 7, 0, [(1_818_182, 9)], 5),
        ("a few " * 40, 700, 123_456, [(3 + i % 4, (40 - 2 * i) * 1000) for i in range(20)], 30),
    ]
    return [(case[0], curve_picture(*case)) for case in cases]


class Layout(unittest.TestCase):
    """What holds of every picture."""

    @classmethod
    def setUpClass(cls):
        cls.pictures = [(title, ElementTree.fromstring(svg)) for title, svg in block_pictures() + curve_pictures()]

    def each(self, judge):
        """Judges every picture, and goes on behind one that fails."""
        for title, root in self.pictures:
            with self.subTest(title[:40]):
                judge(title, root)

    def test_head(self):
        def judge(title, root):
            self.assertEqual(root.tag, SVG + "svg")
            self.assertEqual(root.get("role"), "img")
            self.assertEqual(root.get("viewBox"), f"0 0 {root.get('width')} {root.get('height')}")
            self.assertEqual((root[0].tag, root[0].text), (SVG + "title", title))

        self.each(judge)

    def apart(self, box, others):
        self.assertEqual([other for other in others if box.meets(other)], [], f"{box} meets them")

    def test_texts_do_not_overlap(self):
        def judge(_, root):
            boxes = texts(root)
            for i, box in enumerate(boxes):
                self.apart(box, boxes[:i])

        self.each(judge)

    def test_bars_and_wires_meet_no_text(self):
        def judge(_, root):
            bars, boxes = [e for e in root.iter(SVG + "rect") if e.get("data-gate")], texts(root)
            for box in map(shape_box, bars + of_class(root, "line", "wire")):
                self.apart(box, boxes)

        self.each(judge)

    def test_nothing_lies_outside(self):
        def judge(_, root):
            width, height = number(root, "width"), number(root, "height")
            for box in texts(root) + [b for b in map(shape_box, root.iter()) if b]:
                self.assertTrue(0 <= box.left and box.right <= width and 0 <= box.top and box.bottom <= height, box)

        self.each(judge)

    def test_axis_numbers_stand_on_the_scale(self):
        def judge(_, root):
            for kind, axis in (("time-axis", "x"), ("ticks-axis", "x"), ("saving-axis", "y")):
                marks = [(axis_number(e), number(e, axis)) for e in of_class(root, "text", kind)]
                if marks:
                    (n0, p0), (n1, p1) = min(marks), max(marks)
                    for n, p in marks:
                        self.assertAlmostEqual((p - p0) * (n1 - n0), (n - n0) * (p1 - p0), delta=0.05 * max(n1 - n0, 1))

        self.each(judge)

    def test_lines_of_marks_cross_no_number_of_the_axis(self):
        def judge(_, root):
            for line in of_class(root, "line", "arrival") + of_class(root, "line", "deadline"):
                for element in of_class(root, "text", "time-axis"):
                    self.assertFalse(shape_box(line).meets(text_box(element)), element.text)

        self.each(judge)


class Axis:
    """The numbers of a picture's axis, by two of its labels; the middle of a text stands 4 above its base line."""

    def __init__(self, root, kind, axis):
        labels, rise = of_class(root, "text", kind), 4 if axis == "y" else 0
        ends = [(axis_number(e), number(e, axis) - rise) for e in (labels[0], labels[-1])]
        (self.n0, self.p0), (n1, p1) = ends
        self.unit = (p1 - self.p0) / (n1 - self.n0)

    def at(self, place):
        return self.n0 + (place - self.p0) / self.unit


class Bars(unittest.TestCase):
    """Where the bars of a block stand, by hand-worked times."""

    def bars(self, root, kind):
        """Of each gate with such a bar, the times from which and to which it goes."""
        axis = Axis(root, "time-axis", "x")
        found = {}
        for e in of_class(root, "rect", kind):
            x, width = number(e, "x"), number(e, "width")
            found[int(e.get("data-gate"))] = (round(axis.at(x), 2), round(axis.at(x + width), 2))
        return found

    def lines(self, root, kind):
        axis = Axis(root, "time-axis", "x")
        return [round(axis.at(number(e, "x1")), 2) for e in of_class(root, "line", kind)]

    def test_diamond(self):
        root = ElementTree.fromstring(block_picture("D", example("diamond"), [0, 0, 2, 3]))
        self.assertEqual(self.bars(root, "delay"), {0: (0, 2), 1: (2, 5), 2: (2, 3), 3: (5, 7)})
        self.assertEqual(self.bars(root, "increase"), {2: (3, 5), 3: (7, 10)})
        self.assertEqual(self.bars(root, "slack"), {})
        self.assertEqual(self.bars(root, "late"), {})
        self.assertEqual(set(self.bars(root, "longest")), {0, 1, 3})
        self.assertEqual(set(self.bars(root, "as-long")), {2})
        self.assertEqual((self.lines(root, "arrival"), self.lines(root, "deadline")), ([0], [10]))

    def test_diamond_without_increases(self):
        root = ElementTree.fromstring(block_picture("D", example("diamond"), None))
        self.assertEqual(self.bars(root, "delay"), {0: (0, 2), 1: (2, 5), 2: (2, 3), 3: (5, 7)})
        self.assertEqual(self.bars(root, "increase"), {})
        self.assertEqual(self.bars(root, "slack"), {0: (2, 5), 1: (5, 8), 2: (3, 8), 3: (7, 10)})
        self.assertEqual(set(self.bars(root, "longest")), {0, 1, 3})
        self.assertNotIn("increase", words(root))
        self.assertIn("increase", words(ElementTree.fromstring(block_picture("D", example("diamond"), [0, 0, 0, 0]))))

    def test_wires_that_take_time(self):
        root = ElementTree.fromstring(block_picture("delays", example("delays"), [0, 0, 0, 1]))
        self.assertEqual(self.bars(root, "delay"), {0: (0, 2), 1: (3, 6), 2: (2, 3), 3: (6, 8)})
        self.assertEqual(self.bars(root, "increase"), {3: (8, 9)})
        self.assertEqual(self.bars(root, "slack"), {0: (2, 5), 1: (6, 9), 2: (3, 7), 3: (9, 12)})

    def test_late(self):
        root = ElementTree.fromstring(block_picture("late", late_diamond(), None))
        self.assertEqual(self.bars(root, "delay"), {0: (5, 7), 1: (7, 10), 2: (7, 8), 3: (10, 12)})
        self.assertEqual(self.bars(root, "late"), {0: (4, 7), 1: (7, 10), 2: (7, 8), 3: (9, 12)})
        self.assertEqual(self.bars(root, "slack"), {})
        self.assertEqual((self.lines(root, "arrival"), self.lines(root, "deadline")), ([5], [9]))

    def test_deadline_outside(self):
        root = ElementTree.fromstring(block_picture("far", late_diamond(0, 65_535), None))
        self.assertEqual(self.lines(root, "deadline"), [])
        self.assertEqual([e.text for e in of_class(root, "text", "deadline")], ["deadline 65,535 \u2192"])
        root = ElementTree.fromstring(block_picture("late", late_diamond(60_000, 10), None))
        self.assertEqual([e.text for e in of_class(root, "text", "deadline")], ["\u2190 deadline 10"])

    def test_wires_join_the_bars_of_the_longest_path(self):
        root = ElementTree.fromstring(block_picture("delays", example("delays"), None))
        axis = Axis(root, "time-axis", "x")
        wires = of_class(root, "line", "wire")
        ends = [tuple(round(axis.at(number(e, name)), 2) for name in ("x1", "x2")) for e in wires]
        self.assertEqual(ends, [(2, 3), (6, 6)])

    def test_delay_zero_is_a_thin_mark(self):
        root = ElementTree.fromstring(block_picture("uneven", uneven(), None))
        mark = next(e for e in of_class(root, "rect", "delay") if e.get("data-gate") == "3")
        self.assertTrue(1 <= number(mark, "width") <= 3)
        self.assertEqual(round(Axis(root, "time-axis", "x").at(number(mark, "x"))), 8192)

    def test_rows(self):
        for name, count in (("diamond", 4), ("large", 64), ("front-end", MAX_GATES)):
            root = ElementTree.fromstring(block_picture(name, example(name), None))
            labels = of_class(root, "text", "gate")
            self.assertEqual([e.text for e in labels], [str(i) for i in range(count)])
            heights = [number(e, "y") for e in labels]
            self.assertEqual({b - a for a, b in zip(heights, heights[1:])}, {20})
            for label, bar in zip(labels, of_class(root, "rect", "delay")):
                middle = number(bar, "y") + number(bar, "height") / 2
                self.assertAlmostEqual(middle, number(label, "y") - 4)


class Names(unittest.TestCase):
    STRANGE = '<a&"b>'

    def test_escaped(self):
        block = with_names(example("diamond"), [self.STRANGE, "carry", "'", "]]>"])
        root = ElementTree.fromstring(block_picture(self.STRANGE, block, [0, 0, 2, 3]))
        self.assertEqual(root[0].text, self.STRANGE)
        self.assertEqual([e.text for e in of_class(root, "text", "heading")], [self.STRANGE])
        self.assertEqual([e.text for e in of_class(root, "text", "gate")], ["0 " + self.STRANGE, "1 carry", "2 '", "3 ]]>"])
        root = ElementTree.fromstring(curve_picture(self.STRANGE, 7, 0, DIAMOND_PAIRS, 3))
        self.assertEqual(root[0].text, self.STRANGE)

    def test_characters_that_xml_has_not(self):
        block = with_names(example("diamond"), ["a\0b", "\ud800", "\uffff", "\x1b[0m"])
        root = ElementTree.fromstring(block_picture("\0", block, None))
        self.assertEqual(of_class(root, "text", "gate")[0].text, "0 a\ufffdb")

    def test_long_names_are_shortened_and_given_whole_as_hints(self):
        block = with_long_names(example("diamond"))
        root = ElementTree.fromstring(block_picture("long", block, None))
        for gate, label in zip(block.gates, of_class(root, "text", "gate")):
            self.assertTrue(label.text.endswith(gate.name[-5:]) and "\u2026" in label.text and len(label.text) < 25, label.text)
        hints = [e.find(SVG + "title").text for e in root.iter(SVG + "g")]
        self.assertTrue(all(gate.name in hint for gate, hint in zip(block.gates, hints)) and len(hints) == 4)


class Spare(unittest.TestCase):
    """The mark of the spare ticks on the curve."""

    def picture(self, spare, pairs=DIAMOND_PAIRS, at_start=8 * UNIT):
        return ElementTree.fromstring(curve_picture("curve", 7, at_start, pairs, spare))

    def mark(self, root):
        """The ticks and the saving at which the dot stands, and the ticks of the line."""
        x, y = Axis(root, "ticks-axis", "x"), Axis(root, "saving-axis", "y")
        (dot,), (line,) = of_class(root, "circle", "spare"), of_class(root, "line", "spare")
        self.assertEqual(line.get("x1"), line.get("x2"))
        return x.at(number(dot, "cx")), y.at(number(dot, "cy")), x.at(number(line, "x1"))

    def label(self, root):
        return [e.text for e in of_class(root, "text", "spare")]

    def test_on_the_curve(self):
        for spare, savings in enumerate(DIAMOND_SAVINGS):
            ticks, saving, line = self.mark(self.picture(spare))
            self.assertAlmostEqual(ticks, spare, places=2)
            self.assertAlmostEqual(line, spare, places=2)
            self.assertAlmostEqual(saving / UNIT, savings, delta=0.05)

    def test_labels(self):
        self.assertEqual(self.label(self.picture(3)), ["spare 3 ticks: saving 1,441,792"])
        self.assertEqual(self.label(self.picture(1)), ["spare 1 tick: saving 655,360"])
        self.assertEqual(self.label(self.picture(0)), ["spare 0 ticks: saving 262,144"])
        self.assertEqual(self.label(self.picture(15)), ["spare 15 ticks: saving 3,014,656, the most possible"])

    def test_beyond_the_end_the_curve_is_flat(self):
        root = self.picture(15)
        ticks, saving, _ = self.mark(root)
        self.assertAlmostEqual(ticks, 15, places=2)
        self.assertAlmostEqual(saving / UNIT, 92, delta=0.05)
        self.assertAlmostEqual(self.curve(root)[-1][1] / UNIT, 92, delta=0.05)

    def test_far_beyond_the_end(self):
        root = self.picture(65_528)
        self.assertEqual(self.label(root), ["spare 65,528 ticks: saving 3,014,656, the most possible"])
        _, saving, line = self.mark(root)
        self.assertAlmostEqual(saving / UNIT, 92, delta=0.05)
        self.assertGreater(line, 15)
        self.assertIn("65,528", words(root))

    def test_late(self):
        root = self.picture(-4)
        self.assertEqual(of_class(root, "circle", "spare") + of_class(root, "line", "spare"), [])
        self.assertEqual(self.label(root), ["the block is late by 4 ticks: no increases are in time"])

    def curve(self, root):
        """The points of the curve as ticks and savings."""
        x, y = Axis(root, "ticks-axis", "x"), Axis(root, "saving-axis", "y")
        (line,) = of_class(root, "polyline", "curve")
        places = [tuple(map(float, pair.split(","))) for pair in line.get("points").split()]
        return [(x.at(px), y.at(py)) for px, py in places]

    def test_corners(self):
        root = self.picture(3)
        points = [(round(ticks, 1), round(saving / UNIT, 1)) for ticks, saving in self.curve(root)]
        self.assertEqual(points[:-1], [(0, 8), (5, 68), (7, 86), (10, 92)])
        self.assertEqual(len(of_class(root, "circle", "corner")), 3)
        halves = self.picture(3, [(2, 12 * UNIT), (3, 12 * UNIT), (0, 10 * UNIT), *DIAMOND_PAIRS[1:]])
        self.assertEqual(self.curve(halves), self.curve(root))

    def test_many_corners_are_not_marked(self):
        root = self.picture(3, [(2, MAX_PAIRS - i) for i in range(MAX_PAIRS)])
        self.assertEqual(of_class(root, "circle", "corner"), [])

    def test_no_pairs(self):
        root = self.picture(3, [], 5)
        self.assertEqual(self.label(root), ["spare 3 ticks: saving 5, the most possible"])
        self.assertEqual([round(saving, 2) for _, saving in self.curve(root)], [5, 5])
        ticks, saving, _ = self.mark(root)
        self.assertEqual((round(ticks, 2), round(saving, 2)), (3, 5))

    def test_units(self):
        self.assertIn("spare ticks", words(self.picture(3)))
        self.assertIn("saving (drop \u00d7 transitions in 65,536 cycles)", words(self.picture(3)))


if __name__ == "__main__":
    unittest.main()

"""The picture of a curve as SVG text: the saving over the spare ticks, with the block's own spare ticks marked."""

from dataclasses import dataclass

from svg import BLUE, DARK_RED, GREY, GRID, INK, MARGIN, RISE, VERMILLION, WHITE, WIDTH, Scale, element, grouped, label_place
from svg import line, numbers_across, picture, svg_value, text, text_width

HEIGHT = 500
# the edges of the frame
TOP, BOTTOM, RIGHT = 112, 440, WIDTH - MARGIN - 20
# the base lines below the frame: of the numbers, and of what is said
NUMBERS, WORDS = BOTTOM + 20, BOTTOM + 44
# the numbers beside the frame stand at least so far apart
APART = 50
# with more corners than this, they are not marked
FEW_CORNERS = 24
# a spare of more than so many times the curve's length is drawn behind a break of the axis
FAR = 4
BREAK_ROOM = 110


def _ticks(number):
    return f"{grouped(number)} tick" if number == 1 else f"{grouped(number)} ticks"


@dataclass(frozen=True)
class Curve:
    """The corners of a saving curve, as (ticks, saving), from 0 ticks to its end."""

    corners: tuple

    @property
    def end(self):
        return self.corners[-1][0]

    @property
    def most(self):
        return self.corners[-1][1]

    def saving(self, ticks):
        """The saving with so many spare ticks."""
        for (t0, s0), (t1, s1) in zip(self.corners, self.corners[1:]):
            if ticks <= t1:
                return s0 + (s1 - s0) // (t1 - t0) * (ticks - t0)
        return self.most


def _curve(at_start, pairs):
    """The curve of these pairs; neighbours of equal gain make no corner."""
    corners, before = [(0, at_start)], None
    for width, gain in pairs:
        if width == 0:
            continue
        ticks, saving = corners[-1]
        if gain == before:
            corners.pop()
        corners.append((ticks + width, saving + width * gain))
        before = gain
    return Curve(tuple(corners))


@dataclass(frozen=True)
class Frame:
    """Where the curve is drawn: its scales, the place of the spare ticks' mark, and whether the axis is broken before it."""

    x: Scale
    y: Scale
    mark: float
    broken: bool

    @property
    def left(self):
        return self.x.first


def _frame(curve, spare):
    y = Scale(0, max(curve.most, 1), BOTTOM, TOP + 16)
    left = MARGIN + 12 + max(text_width(grouped(number)) for number in y.round_numbers(APART))
    if 0 < FAR * curve.end < spare:
        return Frame(Scale(0, 1.5 * curve.end, left, RIGHT - BREAK_ROOM), y, RIGHT - 40, True)
    x = Scale(0, max(1.1 * curve.end or 10, 1.05 * spare), left, RIGHT)
    return Frame(x, y, x.at(spare), False)


def _axes(frame):
    left, parts = frame.left, []
    for number in frame.y.round_numbers(APART):
        y = frame.y.at(number)
        parts.append(line(left, y, RIGHT, y, GRID))
        parts.append(text(left - 8, y + RISE, grouped(number), anchor="end", class_="saving-axis"))
    for number in numbers_across(frame.x):
        x = frame.x.at(number)
        parts.append(line(x, TOP, x, BOTTOM + 5, GRID))
        parts.append(text(x, NUMBERS, grouped(number), anchor="middle", class_="ticks-axis"))
    parts.append(line(left, TOP, left, BOTTOM, GREY))
    parts.append(line(left, BOTTOM, RIGHT, BOTTOM, GREY))
    parts.append(text((left + RIGHT) / 2, WORDS, "spare ticks", anchor="middle"))
    parts.append(text(MARGIN, TOP - 32, "saving (drop \u00d7 transitions in 65,536 cycles)"))
    return parts


def _curve_line(curve, frame):
    """The curve, flat behind its end, and its corners where they are few."""
    corners = [(frame.x.at(ticks), frame.y.at(saving)) for ticks, saving in curve.corners]
    points = " ".join(f"{svg_value(x)},{svg_value(y)}" for x, y in [*corners, (RIGHT, corners[-1][1])])
    pen = {"fill": "none", "stroke": BLUE, "stroke_width": 2.5, "stroke_linejoin": "round"}
    parts = [element("polyline", class_="curve", points=points, **pen)]
    marked = corners[1:]
    if 0 < len(marked) <= FEW_CORNERS:
        look = {"r": 3.5, "fill": WHITE, "stroke": BLUE, "stroke_width": 1.5}
        parts += [element("circle", class_="corner", cx=x, cy=y, **look) for x, y in marked]
        words = "the gain of a tick changes"
        left = RIGHT - text_width(words)
        parts.append(element("circle", cx=left - 10, cy=WORDS - RISE, **look))
        parts.append(text(left, WORDS, words))
    return parts


def _break(frame, y):
    """The sign that a horizontal line is broken: two slanted strokes with white between."""
    x = frame.x.last + 24
    gap = element("polygon", points=f"{x - 6},{y + 6} {x - 1},{y - 6} {x + 6},{y - 6} {x + 1},{y + 6}", fill=WHITE)
    return [gap, line(x - 6, y + 6, x - 1, y - 6, GREY), line(x + 1, y + 6, x + 6, y - 6, GREY)]


def _spare_words(curve, spare):
    """What is said of the block's own spare ticks."""
    if spare < 0:
        return f"the block is late by {_ticks(-spare)}: no increases are in time"
    most = ", the most possible" if spare >= curve.end else ""
    return f"spare {_ticks(spare)}: saving {grouped(curve.saving(spare))}{most}"


def _spare_label(curve, frame, spare):
    words = _spare_words(curve, spare)
    x, anchor = label_place(frame.mark, words, frame.left, RIGHT)
    parts = [text(x, TOP - 10, words, anchor=anchor, fill=DARK_RED if spare < 0 else INK, class_="spare")]
    if frame.broken:
        parts.append(text(frame.mark, NUMBERS, grouped(spare), anchor="middle"))
    return parts


def _spare_mark(curve, frame, spare):
    """What marks the block's own spare ticks and their saving: lines, which lie behind the curve, and a dot before it."""
    x, y = frame.mark, frame.y.at(curve.saving(spare))
    behind = [
        line(x, TOP - 4, x, BOTTOM, VERMILLION, 1.5, class_="spare"),
        line(frame.left, y, x, y, VERMILLION, stroke_dasharray="2 4"),
    ]
    breaks = [*_break(frame, y), *_break(frame, BOTTOM)] if frame.broken else []
    return behind, [*breaks, element("circle", class_="spare", cx=x, cy=y, r=5.5, fill=VERMILLION)]


def curve_picture(title, start, at_start, pairs, spare):
    """The saving over the spare ticks, with the block's own spare ticks marked.

    `pairs` are (width, gain): so many ticks each add that gain to the saving, which is `at_start` with no spare ticks, when the
    longest path lasts `start` ticks. A negative `spare` says that the block is late.
    """
    curve = _curve(at_start, pairs)
    frame = _frame(curve, spare)
    words = f"start {_ticks(start)}, saving at start {grouped(at_start)}"
    if curve.end:
        words += f"; end of the curve {_ticks(curve.end)}, saving {grouped(curve.most)}"
    behind, before = _spare_mark(curve, frame, spare) if spare >= 0 else ([], [])
    parts = [text(MARGIN, 52, words, fill=GREY), *_axes(frame), *_spare_label(curve, frame, spare)]
    return picture(title, HEIGHT, [*parts, *behind, *_curve_line(curve, frame), *before])

"""The picture of a block as SVG text: its gates on the time axis, one row each."""

from dataclasses import dataclass

from svg import BAND, BLUE, DARK_RED, GREEN, GREY, GRID, HATCH, HATCH_EDGE, INK, LIGHT_ORANGE, MARGIN, NARROW, ORANGE, RISE
from svg import TEXT_SIZE, WHITE, WIDTH, Scale, clean, element, grouped, hint, label_place, line, numbers_across, picture, rect
from svg import shorten, text, text_width
from timing import longest_path, times

# the heights of a row and of a bar in it
ROW, BAR = 20, 12
# a bar narrower than this is drawn so wide and, if it is a delay, higher than others
THIN = 1.5
LEGEND_TOP, LEGEND_ROW = 52, 20
# the width of a swatch of the legend, and from its left edge to its words
SWATCH, SWATCH_ROOM = 22, 28
# the width of a character of the legend, in ems: small letters and spaces are narrower than figures
LEGEND_CHARACTER = 0.54
# the room for the label of a gate, in narrow characters
GATE_LABEL = 22
# the height of a line of labels above the rows
LABEL_LINE = 18
# with more gates than this, the numbers of the axis stand above the rows too
TALL = 16
# times further off than so many times the block's length are left outside
BEYOND = 4

# what is drawn of a gate: its delay, of one of three kinds, and more
ORDINARY, LONGEST, AS_LONG = "delay", "delay longest", "delay as-long"
INCREASE, SLACK, LATE, WIRE = "increase", "slack", "late", "wire"
HATCHING = "honduvi-slack"
LOOKS = {
    ORDINARY: {"fill": BLUE},
    LONGEST: {"fill": ORANGE},
    AS_LONG: {"fill": LIGHT_ORANGE, "stroke": ORANGE},
    INCREASE: {"fill": GREEN},
    SLACK: {"fill": f"url(#{HATCHING})", "stroke": HATCH_EDGE, "stroke_width": 0.5},
    LATE: {"fill": DARK_RED},
}


@dataclass(frozen=True)
class Row:
    """A gate on the time axis: when its latest input arrives, its drawn delay, its increase and the slack left."""

    gate: int
    name: str
    begin: int
    delay: int
    increase: int
    slack: int
    kind: str

    @property
    def label(self):
        return f"{self.gate} {self.name}".rstrip()

    @property
    def short_label(self):
        return shorten(self.label, GATE_LABEL * NARROW * TEXT_SIZE)

    @property
    def source(self):
        """Its source delay, the latest time at its output."""
        return self.begin + self.delay + self.increase


def _rows(netlist, increases):
    """The rows of all gates, and a longest path. A gate whose slack is the least lies on that path or on another as long."""
    found, path = times(netlist, increases), longest_path(netlist, increases)
    slacks, rows = found.slacks, []
    least = min(slacks)
    for number, (gate, increase) in enumerate(zip(netlist.gates, increases)):
        kind = LONGEST if number in path else AS_LONG if slacks[number] == least else ORDINARY
        begin = found.source[number] - gate.delay - increase
        rows.append(Row(number, clean(gate.name), begin, gate.delay, increase, slacks[number], kind))
    return rows, path


def _slack_words(given):
    """What the slack is called; where increases are given, it is what they leave."""
    return "slack left" if given else "slack"


@dataclass(frozen=True)
class Column:
    """Numbers beside the rows: their heading, which attribute of a row they are, and their right edge."""

    heading: str
    attribute: str
    right: float

    def words(self, row):
        return grouped(getattr(row, self.attribute))


def _columns(rows, given):
    """The columns, and the right edge of what stands left of them."""
    increase = [("increase", "increase")] if given else []
    columns, right = [], WIDTH - MARGIN
    for heading, attribute in [(_slack_words(given), "slack"), *increase, ("delay", "delay")]:
        columns.insert(0, Column(heading, attribute, right))
        right -= 10 + text_width(max(heading, "-65,535", *map(columns[0].words, rows), key=len))
    return columns, right - 10


@dataclass(frozen=True)
class Mark:
    """A vertical line on the time axis and its label; a time outside the axis has no line."""

    name: str
    words: str
    x: float
    inside: bool
    label_x: float
    anchor: str

    @property
    def extent(self):
        """The left and right edge of the label."""
        width = text_width(self.words)
        left = self.label_x - width * {"start": 0, "middle": 0.5, "end": 1}[self.anchor]
        return left, left + width

    def touches(self, other):
        """Whether the labels would touch in one line."""
        (left, right), (other_left, other_right) = self.extent, other.extent
        return left < other_right + TEXT_SIZE and other_left < right + TEXT_SIZE


def _mark(name, time, scale, left, right):
    x, inside, words = scale.at(time), scale.has(time), f"{name} {grouped(time)}"
    if not inside:
        words = f"{words} \u2192" if time > scale.high else f"\u2190 {words}"
    return Mark(name, words, x, inside, *label_place(x, words, left, right))


@dataclass(frozen=True)
class Chart:
    """Where the rows are drawn."""

    rows: list
    scale: Scale
    left: float
    right: float
    top: float
    columns: list
    # of the arrival and the deadline
    marks: tuple
    # whether numbers of the axis stand above the rows, and whether the labels of the marks stand one above the other
    tall: bool
    stacked: bool

    @property
    def bottom(self):
        return self.top + ROW * len(self.rows)

    def at(self, time):
        """The place of a time; of one outside the axis, the nearer edge of the frame."""
        return self.scale.at(time) if self.scale.has(time) else self.left if time < self.scale.low else self.right

    def middle(self, gate):
        """The height of the middle of a gate's row."""
        return self.top + ROW * gate + ROW / 2

    def above(self, count):
        """The base line of labels above the rows, with so many lines of labels between."""
        return self.top - 6 - LABEL_LINE * count


def _time_scale(netlist, rows, first, last):
    """The times drawn: all of the block, and the deadline and the slacks unless they are far off."""
    end = max(row.source for row in rows)
    room = BEYOND * max(end - netlist.arrival, 1)
    required = min(row.source + row.slack for row in rows)
    low = max(min(required, netlist.arrival), netlist.arrival - room)
    high = min(max(end, netlist.deadline), end + room)
    return Scale(low, max(high, low + 1), first, last)


def _chart(netlist, rows, given, legend_end):
    """The chart below the legend."""
    columns, right = _columns(rows, given)
    left = MARGIN + 10 + max(text_width(row.short_label) for row in rows)
    scale = _time_scale(netlist, rows, left + 6, right - 8)
    arrival = _mark("arrival", netlist.arrival, scale, left, right)
    deadline = _mark("deadline", netlist.deadline, scale, left, right)
    tall, stacked = len(rows) > TALL, arrival.touches(deadline)
    top = legend_end + LABEL_LINE * (2 + tall + stacked)
    return Chart(rows, scale, left, right, top, columns, (arrival, deadline), tall, stacked)


def _bar(kind, chart, row, begin, end, y, height):
    """A bar from one time to another; one too narrow to be seen is drawn as a thin mark."""
    x = chart.at(begin)
    width = chart.at(end) - x
    if width < THIN and kind == row.kind:
        y, height = y - 3, height + 6
    return rect(x, y, max(width, THIN), height, class_=kind, data_gate=row.gate, **LOOKS[kind])


def _bars(chart, row):
    y = chart.middle(row.gate) - BAR / 2
    delayed, source = row.begin + row.delay, row.source
    parts = []
    if row.slack > 0:
        parts.append(_bar(SLACK, chart, row, source, source + row.slack, y + 2, BAR - 4))
    if row.increase > 0:
        parts.append(_bar(INCREASE, chart, row, delayed, source, y, BAR))
    parts.append(_bar(row.kind, chart, row, row.begin, delayed, y, BAR))
    if row.slack < 0:
        parts.append(_bar(LATE, chart, row, source + row.slack, source, y + BAR, 3))
    return parts


def _row_element(chart, row):
    """A row: label, bars and numbers, with all of them in words as a hint."""
    y = chart.middle(row.gate) + RISE
    said = ", ".join(f"{column.heading} {column.words(row)}" for column in chart.columns)
    parts = [hint(f"{row.label}: {said}"), text(MARGIN, y, row.short_label, class_="gate"), *_bars(chart, row)]
    parts += [text(column.right, y, column.words(row), anchor="end") for column in chart.columns]
    return element("g", "".join(parts))


def _wires(chart, path):
    """The wires of a path, from the end of one gate's bar to the beginning of the next one's."""
    parts = []
    for gate, following in zip(path, path[1:]):
        down = 1 if following > gate else -1
        x1, x2 = chart.at(chart.rows[gate].source), chart.at(chart.rows[following].begin)
        y1, y2 = chart.middle(gate) + down * BAR / 2, chart.middle(following) - down * BAR / 2
        parts.append(line(x1, y1, x2, y2, GREY, class_=WIRE))
    return parts


def _time_axis(chart):
    """The lines and numbers of the axis. Above the rows, numbers that a mark's line would cross are left out."""
    parts = []
    for number in numbers_across(chart.scale):
        x, words = chart.scale.at(number), grouped(number)
        parts.append(line(x, chart.top, x, chart.bottom + 4, GRID))
        parts.append(text(x, chart.bottom + 18, words, anchor="middle", class_="time-axis"))
        if chart.tall and all(abs(mark.x - x) > text_width(words) / 2 + 3 for mark in chart.marks):
            parts.append(text(x, chart.above(0), words, anchor="middle", class_="time-axis"))
    parts.append(text((chart.left + chart.right) / 2, chart.bottom + 38, "time (ticks)", anchor="middle"))
    return parts


def _ground(chart):
    """What lies behind the bars: a band for every other row, the axis, the frame, the headings of the columns."""
    bands = range(0, len(chart.rows), 2)
    parts = [rect(MARGIN - 6, chart.top + ROW * row, WIDTH - 2 * MARGIN + 12, ROW, fill=BAND) for row in bands]
    parts += _time_axis(chart)
    parts.append(rect(chart.left, chart.top, chart.right - chart.left, chart.bottom - chart.top, fill="none", stroke=GREY))
    parts += [text(column.right, chart.above(0), column.heading, anchor="end", fill=GREY) for column in chart.columns]
    return parts


def _mark_elements(chart):
    """The lines of arrival and deadline with their labels; where these would touch, that of the arrival stands higher."""
    arrival, deadline = chart.marks
    low, high = chart.above(chart.tall), chart.above(chart.tall + chart.stacked)
    parts = []
    for mark, y, dash in ((arrival, high, "4 3"), (deadline, low, "none")):
        if mark.inside:
            parts.append(line(mark.x, low + 3, mark.x, chart.bottom, INK, 1.5, stroke_dasharray=dash, class_=mark.name))
        parts.append(text(mark.label_x, y, mark.words, anchor=mark.anchor, class_=mark.name))
    return parts


def _legend_entries(rows, path, given):
    """The looks that occur, with what they mean."""
    kinds = {row.kind for row in rows}
    entries = [
        (ORDINARY, "delay", ORDINARY in kinds),
        (LONGEST, f"delay, on the longest path{' with increases' if given else ''}", True),
        (AS_LONG, "delay, on another path as long", AS_LONG in kinds),
        (INCREASE, "increase", given),
        (SLACK, _slack_words(given), any(row.slack > 0 for row in rows)),
        (LATE, "late (negative slack)", any(row.slack < 0 for row in rows)),
        (WIRE, "wire of that path", len(path) > 1),
    ]
    return [(kind, words) for kind, words, occurs in entries if occurs]


def _swatch(kind, x, y):
    if kind == WIRE:
        return line(x, y, x + SWATCH, y, GREY)
    height = 3 if kind == LATE else 10
    return rect(x, y - height / 2, SWATCH, height, **LOOKS[kind])


def _legend(entries):
    """The legend, in as many lines as it needs, and the height at which it ends."""
    parts, x, y = [], MARGIN, LEGEND_TOP
    for kind, words in entries:
        width = SWATCH_ROOM + TEXT_SIZE * LEGEND_CHARACTER * len(words)
        if x + width > WIDTH - MARGIN:
            x, y = MARGIN, y + LEGEND_ROW
        parts.append(_swatch(kind, x, y - RISE))
        parts.append(text(x + SWATCH_ROOM, y, words, class_="legend"))
        x += width + 20
    return parts, y


def _hatching():
    size = {"width": 6, "height": 6, "patternUnits": "userSpaceOnUse", "patternTransform": "rotate(45)"}
    inner = rect(0, 0, 6, 6, fill=WHITE) + line(0, 0, 0, 6, HATCH, 1.5)
    return element("defs", element("pattern", inner, id=HATCHING, **size))


def block_picture(title, netlist, increases):
    """The gates on the time axis, one row each: drawn delay, increase and slack left, from when the latest input arrives.

    The gates of a longest path have another colour and their wires are drawn. `increases` may be None: all are 0 then, and
    nothing is said of them.
    """
    given = increases is not None
    rows, path = _rows(netlist, increases if given else [0] * len(netlist.gates))
    legend, legend_end = _legend(_legend_entries(rows, path, given))
    chart = _chart(netlist, rows, given, legend_end)
    parts = [_hatching(), *legend, *_ground(chart), *(_row_element(chart, row) for row in rows)]
    return picture(title, chart.bottom + 54, [*parts, *_wires(chart, path), *_mark_elements(chart)])

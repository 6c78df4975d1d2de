"""SVG text and what the pictures share: elements, text widths, colours, scales and the places of labels on an axis.

Every picture has a white background, colours that colour-blind people can tell apart (those of Okabe and Ito) and text of which
no two pieces overlap, as far as their widths can be estimated without knowing the font.
"""

import re
import unicodedata
from dataclasses import dataclass
from html import escape

WIDTH = 960
MARGIN = 20
TEXT_SIZE = 12
TITLE_SIZE = 16
# the middle of a text stands so far above its base line
RISE = 4
# the width reserved for a character, in ems: for most letters and figures, and for those of East Asian scripts
NARROW, WIDE = 0.62, 1.0

BLUE, ORANGE, GREEN, VERMILLION = "#0072B2", "#E69F00", "#009E73", "#D55E00"
LIGHT_ORANGE, DARK_RED = "#FBE3B0", "#A50026"
INK, GREY, HATCH, HATCH_EDGE, GRID, BAND, WHITE = "#222222", "#666666", "#999999", "#AAAAAA", "#DDDDDD", "#F5F5F5", "#FFFFFF"

# what is neither allowed in XML nor visible
NOT_XML = re.compile("[^\t\n\r\u0020-\ud7ff\ue000-\ufffd\U00010000-\U0010ffff]")


# words


def clean(words):
    """The words, with a sign instead of each character that XML has not."""
    return NOT_XML.sub("\ufffd", words)


def grouped(number):
    """A whole number with thousands separators."""
    return f"{number:,}".replace("-", "\u2212")


def text_width(words, size=TEXT_SIZE):
    """The room that a piece of text needs, estimated."""
    return size * sum(WIDE if unicodedata.east_asian_width(c) in "WF" else NARROW for c in words)


def shorten(words, room, size=TEXT_SIZE):
    """The words, or their two ends with an ellipsis between them where they need more room than there is: names that one tool
    made begin alike and differ at their ends."""
    short, kept = words, len(words)
    while kept and text_width(short, size) > room:
        kept -= 1
        short = words[: kept - kept // 2] + "\u2026" + words[len(words) - kept // 2 :]
    return short


# elements


def svg_value(value):
    """A value as SVG writes it: of a fraction two decimals."""
    return f"{value:.2f}".rstrip("0").rstrip(".") if isinstance(value, float) else str(value)


def element(tag, inner="", **attributes):
    """An element. In the names of attributes a low line stands for a hyphen, except at the end (class_)."""
    said = "".join(f' {name.rstrip("_").replace("_", "-")}="{escape(clean(svg_value(v)))}"' for name, v in attributes.items())
    return f"<{tag}{said}>{inner}</{tag}>" if inner else f"<{tag}{said}/>"


def text(x, y, words, size=TEXT_SIZE, anchor="start", fill=INK, **attributes):
    return element("text", escape(clean(words)), x=x, y=y, font_size=size, text_anchor=anchor, fill=fill, **attributes)


def hint(words):
    """What a viewer shows where the pointer rests on the element around it."""
    return element("title", escape(clean(words)) or " ")


def line(x1, y1, x2, y2, stroke=INK, width=1, **attributes):
    return element("line", x1=x1, y1=y1, x2=x2, y2=y2, stroke=stroke, stroke_width=width, **attributes)


def rect(x, y, width, height, **attributes):
    return element("rect", x=x, y=y, width=width, height=height, **attributes)


def picture(title, height, parts):
    """The whole picture, with its title as the first line."""
    shown = shorten(clean(title), WIDTH - 2 * MARGIN, TITLE_SIZE)
    heading = text(MARGIN, 30, shown, TITLE_SIZE, class_="heading")
    inner = [hint(title), rect(0, 0, WIDTH, height, fill=WHITE), heading, *parts]
    attributes = {"xmlns": "http://www.w3.org/2000/svg", "viewBox": f"0 0 {WIDTH} {svg_value(height)}", "role": "img"}
    return element("svg", "\n" + "\n".join(inner) + "\n", **attributes, width=WIDTH, height=height, font_family="sans-serif")


# axes


@dataclass(frozen=True)
class Scale:
    """A stretch of numbers and the stretch of the picture that it is drawn on."""

    low: float
    high: float
    first: float
    last: float

    def at(self, number):
        """The place of a number; of one outside, the nearer end."""
        number = min(max(number, self.low), self.high)
        return self.first + (number - self.low) / (self.high - self.low) * (self.last - self.first)

    def has(self, number):
        return self.low <= number <= self.high

    def round_numbers(self, room):
        """Round whole numbers of the stretch that stand at least so far apart in the picture."""
        step = _round_step(room * (self.high - self.low) / abs(self.last - self.first))
        return range(-int(-self.low // step) * step, int(self.high // step) * step + 1, step)


def _round_step(least):
    """The smallest of 1, 2, 5, 10, 20, 50 and so on that is not less."""
    power = 1
    while True:
        for step in (power, 2 * power, 5 * power):
            if step >= least:
                return step
        power *= 10


def numbers_across(scale):
    """The round numbers of a horizontal axis, so far apart that their labels do not touch."""
    widest = max(text_width(grouped(int(end))) for end in (scale.low, scale.high))
    return scale.round_numbers(widest + 2 * TEXT_SIZE)


def label_place(x, words, left, right):
    """The anchor's place and kind for a label at x that stays between two edges."""
    half = text_width(words) / 2
    if x - half < left:
        return left, "start"
    return (right, "end") if x + half > right else (x, "middle")

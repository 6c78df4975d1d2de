"""Mistakes that the second opinion must notice: each function yields the lines of a stored case once more for every mistake."""

from limits import MAX_PAIRS
from ticks import Asked, counted_off, ticks_word

WIRES_MISTAKEN = 4


def wrong_numbers(words):
    """The words of a line, each time with one number more by 1."""
    for i, word in enumerate(words):
        if word.isdigit():
            yield words[:i] + [str(int(word) + 1)] + words[i + 1 :]


def wrong_curves(start, at_start, count, *pairs):
    """A curve of two pairs or more, each time with one mistake that few checks notice."""
    w, g, *middle, x, y = pairs
    # begun a tick late; a pair in two; an empty pair; a pair that earns nothing
    if w > 1:
        yield start + 1, at_start + g, count, w - 1, *pairs[1:]
        yield start, at_start, count + 1, 1, g, w - 1, *pairs[1:]
    yield start, at_start, count + 1, 0, g + 1, *pairs
    yield start, at_start, count + 1, *pairs, 1, 0
    # what the last pair earns: earned by the first, for twice as long, or at start; no pair
    yield start, at_start, count, w, g + x, *middle, x, y - w
    if y % 2 == 0:
        yield start, at_start, count, w, g, *middle, 2 * x, y // 2
    yield start, at_start + x * y, count - 1, w, g, *middle
    yield start, at_start, 0


def wrong_lines(lines):
    """The lines of a case, each time with one mistake."""
    for at, line in enumerate(lines):
        words = line.split(" ")
        for wrong in wrong_numbers(words):
            yield lines[:at] + [" ".join(wrong)] + lines[at + 1 :]
        yield lines[:at] + [line.replace("kept", "changed") if "kept" in line else line + " "] + lines[at + 1 :]
        yield lines[:at] + lines[at + 1 :]
        yield lines[: at + 1] + lines[at:]


def wrong_answers(lines):
    """The lines of a case that has to choose, each time with one mistake in the curve or the best list."""
    curve, best = lines[2].split(" ")[1:-1], lines[3].split(" ")[1:-1]
    for wrong in (*wrong_curves(*map(int, curve)), ("refused", 11, 1)):
        yield lines[:2] + ["curve %s kept" % " ".join(map(str, wrong))] + lines[3:]
    for wrong in (best[:-1], best + ["0"], ["refused", "12", "0"]):
        yield lines[:3] + ["best %s kept" % " ".join(wrong)] + lines[4:]


def wrong_places(lines):
    """The lines of a case that got 11, each time with one place 0, and with 17, no tick or no answer for a wanted saving."""
    yield lines[:2] + ["curve refused 11 0 kept"] + lines[3:]
    yield lines[:3] + ["best refused 11 0 kept"] + lines[4:]
    words = lines[4].split(" ")
    for i, right in enumerate(words[1:], 1):
        for wrong in (["11:0"], ["17:0"], ["0"], [], ["10:%d" % MAX_PAIRS], [right, right]):
            yield lines[:4] + [" ".join(words[:i] + wrong + words[i + 1 :])] + lines[5:]


def mistaken_delays(block):
    """The block, each time with a mistake in the delays of all wires, or of one: left out, counted twice, one of the two bytes
    read, the bytes exchanged."""
    delayed = [wire for wire in block.wires if block.wire_delay[wire]]
    for wires in [delayed] + [[wire] for wire in delayed[:WIRES_MISTAKEN]]:
        for wrong in (lambda d: 0, lambda d: 2 * d, lambda d: d % 256, lambda d: d // 256, lambda d: d % 256 * 256 + d // 256):
            yield block.changed(wire_delay={**block.wire_delay, **{wire: wrong(block.wire_delay[wire]) for wire in wires}})


def wrong_slacks(block, other):
    """The slacks with the delays of another block only on the way to a gate, and only on the way behind it."""
    none = [0] * block.n
    yield block.slacks_between(other, block, none)
    yield block.slacks_between(block, other, none)


def all_or_one(lines, wrong):
    """The lines of a case, each time with all of them, or one of them, replaced by wrong ones."""
    yield wrong
    for at in range(len(lines)):
        yield lines[:at] + [wrong[at]] + lines[at + 1 :]


def different(lines, each):
    """Those that are not the lines themselves."""
    return (some for some in each if some != lines)


def wrong_delays(case, lines):
    """The lines of a case, each time with all of them, or one of them, as mistaken wire delays would give them, where that
    makes a difference."""
    for other in mistaken_delays(case.block):
        each = list(all_or_one(lines, case.lines_with(other)))
        for slacks in wrong_slacks(case.block, other):
            each.append(lines[:1] + ["slacks %s kept" % " ".join(map(str, slacks))] + lines[2:])
        yield from different(lines, each)


def as_it_is(number):
    return number


def by_formula(number):
    """2p(256 - p), as 32 bits hold it."""
    return 2 * number * (256 - number) % 2**32


# How the numbers of a file of edition 3 can be mistaken: the input's, and those of the gates' outputs.
ACTIVITY_MISTAKES = {
    "the formula": (by_formula, by_formula),
    "the formula at the input": (by_formula, as_it_is),
    "the formula at the gates": (as_it_is, by_formula),
    "the high byte alone": (lambda number: number // 256,) * 2,
    "the low byte alone": (lambda number: number % 256,) * 2,
    "bytes exchanged": (lambda number: number % 256 * 256 + number // 256,) * 2,
    "a cut at 256": (lambda number: min(number, 256),) * 2,
    "the gates' numbers alone": (lambda number: 0, as_it_is),
    "the input's number alone": (as_it_is, lambda number: 0),
}


def wrong_activities(case, lines, mistaken):
    """The lines of a case, each time with all of them, or one of them, as activities mistaken in one way would give them, where
    that makes a difference."""
    other = case.block.changed(activity=case.block.input_activities(*mistaken))
    yield from different(lines, all_or_one(lines, case.lines_with(other)))


def wrong_order(case, lines, best):
    """The lines of a case, each time with all of them, or one of them, as another best list would give them, where that makes a
    difference."""
    yield from different(lines, all_or_one(lines, case.lines_with(case.block, best)))


# How gains that 32 bits do not hold can be mistaken (document 02, K10).
GAIN_MISTAKES = {
    "their low 32 bits": lambda gain: gain % 2**32,
    "a cut at 32 bits": lambda gain: min(gain, 2**32 - 1),
}


def wrong_gains(case, lines, mistaken):
    """The lines of a case, each time with all of them, or one of them, as gains mistaken in one way would give them, where that
    makes a difference."""
    start, at_start, count, *pairs = case.numbers("curve", 3)
    pairs[1::2] = map(mistaken, pairs[1::2])
    _, *increases = case.numbers("best", 1)
    saving = counted_off(at_start, pairs, case.block.spare())
    wrong = list(lines)
    wrong[2] = " ".join(map(str, ["curve", start, at_start, count, *pairs, "kept"]))
    wrong[3] = " ".join(map(str, ["best", saving, *increases, "kept"]))
    wrong[5] = "judge %d" % saving
    yield from different(lines, all_or_one(lines, wrong))


# How the fewest ticks for a wanted saving can be mistaken (ticks.py says what is asked).
TICKS_MISTAKES = {
    "a tick too few": Asked.rounded_down,
    "more in place of at least": Asked.more_than_wanted,
    "the saving at start not counted": Asked.without_start,
    "the last pair left out": Asked.without_last_pair,
    "ends of pairs alone": Asked.end_of_pair,
    "one tick at least": lambda asked: 1 if asked.ticks == 0 else asked.ticks,
    "17 in place of an answer": lambda asked: None,
    "an answer in place of 17": lambda asked: sum(asked.pairs[0::2]) if asked.ticks is None else asked.ticks,
    "17 beyond the block's own spare": Asked.within_spare,
    "12 for a late block": lambda asked: "12:0" if asked.spare < 0 else asked.ticks,
}


def wrong_ticks(asked, lines, mistaken):
    """The lines of a case, each time with all numbers of ticks, or one of them, mistaken in one way, where that makes a
    difference."""
    right = [ticks_word(each.ticks) for each in asked]
    wrong = [ticks_word(mistaken(each)) for each in asked]
    for words in different(right, all_or_one(right, wrong)):
        yield lines[:4] + [" ".join(["ticks"] + words)] + lines[5:]

"""The fewest ticks for a wanted saving (document 02, K6), counted off a curve, and as words."""

from bisect import bisect_left
from itertools import accumulate
from operator import mul
from typing import NamedTuple

# no number of ticks reaches what is wanted
BEYOND = "17:0"


def counted_off(at_start, pairs, spare):
    """What a curve says is the best saving at a spare; its widths and gains stand in turn."""
    total = at_start
    for width, gain in zip(pairs[0::2], pairs[1::2]):
        total += min(width, spare) * gain
        spare -= min(width, spare)
    return total


def ends_of_pairs(pairs):
    """The ticks in front of a curve's pairs and at the end of each."""
    return list(accumulate(pairs[0::2], initial=0))


def fewest_on(at_start, pairs, wanted):
    """The first number of ticks at which a curve says the wanted saving or more, by bisection of its pairs and of the ticks of
    one of them; None if it says so nowhere."""
    gains = pairs[1::2]
    savings = list(accumulate(map(mul, pairs[0::2], gains), initial=at_start))
    pair = bisect_left(savings, wanted) - 1
    if pair < 0:
        return 0
    if pair == len(gains):
        return None
    inside = range(savings[pair], savings[pair + 1] + 1, gains[pair])
    return ends_of_pairs(pairs)[pair] + bisect_left(inside, wanted)


def ticks_word(ticks):
    """An answer in its line: the ticks, or 17 in place of None; a word stays."""
    return BEYOND if ticks is None else str(ticks)


class Asked(NamedTuple):
    """A wanted saving of a block that gets its curve: the curve's saving at start and pairs, the fewest ticks, None for 17, and
    the block's own spare, which plays no part. The methods but the first are mistakes."""

    at_start: int
    pairs: list
    wanted: int
    ticks: int
    spare: int

    def earned(self):
        """What the ticks earn, where they are given."""
        return counted_off(self.at_start, self.pairs, self.ticks)

    def without_start(self):
        return fewest_on(0, self.pairs, self.wanted)

    def without_last_pair(self):
        return fewest_on(self.at_start, self.pairs[:-2], self.wanted)

    def more_than_wanted(self):
        return fewest_on(self.at_start, self.pairs, self.wanted + 1)

    def rounded_down(self):
        """One less where the ticks earn more than what is wanted."""
        return self.ticks - 1 if self.ticks and self.earned() > self.wanted else self.ticks

    def end_of_pair(self):
        """The end of the pair in which the ticks end."""
        return None if self.ticks is None else min(end for end in ends_of_pairs(self.pairs) if end >= self.ticks)

    def within_spare(self):
        return None if self.ticks is None or self.ticks > self.spare else self.ticks

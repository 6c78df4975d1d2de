"""The limits of a block and its file (document 01; K10 in document 02). Those that differ by edition stand in editions.py."""

from editions import MOST_ACTIVITY

MAX_GATES = 200
MAX_WIRES = 600
MAX_STEPS = 8
MAX_DELAY = 4_095
MAX_WIDTH = 4_095
MAX_DROP = 1_000
# the pairs of a curve, and the elements that must be lent for them
MAX_PAIRS = MAX_GATES * MAX_STEPS


def largest_gain(edition):
    """No pair of a curve gains more: a wire from every other gate leads into one."""
    return (MAX_GATES - 1) * MOST_ACTIVITY[edition] * MAX_DROP

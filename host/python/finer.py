"""Blocks in finer ticks (document 02, K14): which block is another one in finer ticks, and what must be printed for it."""


def in_finer_ticks(block, m):
    """The block with every time m times as long."""
    return block.changed(
        arrival=m * block.arrival,
        deadline=m * block.deadline,
        delay=[m * delay for delay in block.delay],
        steps=[[(m * width, drop) for width, drop in steps] for steps in block.steps],
        wire_delay={wire: m * delay for wire, delay in block.wire_delay.items()},
    )


def all_times(block):
    """The sum of all times that a block states."""
    widths = sum(width for steps in block.steps for width, _ in steps)
    return block.arrival + block.deadline + sum(block.delay) + widths + sum(block.wire_delay.values())


def times_as_fine(block, other):
    """The m of 2 or more with which the other is the block in ticks m times as fine; None if there is none."""
    m = all_times(other) // max(all_times(block), 1)
    return m if m > 1 and in_finer_ticks(block, m) == other else None


def in_finer_words(name, words, m):
    """The words of a line of this name for the block in ticks m times as fine: all numbers times m, but for the count of a
    curve's pairs and their gains. A refusal stays."""
    if words.startswith("refused"):
        return words
    *numbers, kept = words.split(" ")
    once = {2, *range(4, len(numbers), 2)} if name == "curve" else set()
    return " ".join([str(int(number) * (1 if i in once else m)) for i, number in enumerate(numbers)] + [kept])

"""A second reader of document 01, and of K1, K2, K3, K6, K8, K10 and K14 in document 02, in another language: holds the stored
cases to them.

second_opinion.py DIR reads DIR/stdin and DIR/stdout as host/CASES.md describes them. Which lines there are, refusals, slacks
and judging are checked for every case, the place of 11 by taking gates away and merging wires in several orders; the best list
and the curve of small blocks by trying everything. Of a larger block's curve are checked start, count, widths, falling gains,
its length and what all of it earns, which no search is needed for; of its best list that it is in time, saves what is stated
and what the curve says, slows no gate that gains nothing, and comes before those as good with one tick moved to another gate.
The fewest ticks for a wanted saving are found by trying every list of a small block, and by counting off the curve of a larger
one; they are also held to what all ticks earn, to the least spare with which all are in time, and to the best list at the
block's own spare.
Where a block is the one before it in ticks m times as fine, its slacks, curve and best list are held to m times those before,
its gains to the same, and so are the fewest ticks for m times a saving that some number of ticks earns exactly.
At the end mistakes are put into the lines of some larger blocks, given an answer or refused with 11, and into those of some
blocks with wire delays or with measured activities the lines that mistaken delays or activities would give, and into those of
some blocks with ties the lines of a best list that comes later, and into those of some of all sizes, late ones among them,
mistaken numbers of ticks, and into those of some with gains that 32 bits do not hold the lines that gains cut to 32 bits would
give (mistakes.py); each must be noticed. The cases must reach the limits of gates, wires, pairs and gains (document 02, K10).
"""

import itertools
import sys
from collections import defaultdict
from copy import copy
from functools import lru_cache, partial, wraps
from pathlib import Path
from random import Random

from editions import MOST_SWITCHING, WIRE_LENGTH, activity, is_measured
from finer import in_finer_words, times_as_fine
from limits import MAX_DELAY, MAX_DROP, MAX_GATES, MAX_PAIRS, MAX_STEPS, MAX_WIDTH, MAX_WIRES, largest_gain
from mistakes import ACTIVITY_MISTAKES, GAIN_MISTAKES, TICKS_MISTAKES, wrong_activities, wrong_answers, wrong_delays
from mistakes import wrong_gains, wrong_lines, wrong_order, wrong_places, wrong_ticks
from ticks import BEYOND, Asked, counted_off, fewest_on, ticks_word

# a small block has at most so many lists and wires
SMALL_LISTS = 2_000
SMALL_WIRES = 8
ORDERS = 3
BLOCKS_MISTAKEN = 10
BLOCKS_APART = 5
# so many blocks given an answer must stand there in finer ticks too
LEAST_FINER = 100
# so many gates, wires and pairs must be reached, and a gain so large
REACHED = [MAX_GATES, MAX_WIRES, MAX_PAIRS, largest_gain(3)]
# bytes of a record in front of its wanted savings, and the most of these
HEAD = 13
MOST_WANTED = 8
ALWAYS = ["case", "slacks", "curve", "best", "ticks", "judge"]
WITH_SLACKS = ["more", "beyond", "largest"]


class Refused(Exception):
    pass


class Wrong(Exception):
    pass


def number(data, at):
    return 256 * data[at] + data[at + 1]


def take_field(data, at, tag, lengths):
    """The body of the field at an offset."""
    if at + 3 > len(data):
        raise Refused(1, at)
    if data[at] != tag:
        raise Refused(2, at)
    length = number(data, at + 1)
    if length not in lengths:
        raise Refused(3, at)
    if at + 3 + length > len(data):
        raise Refused(1, at)
    return data[at + 3 : at + 3 + length]


def remembered(function):
    """The function of a block and of arguments, which finds each answer once."""

    @wraps(function)
    def found(block, *arguments):
        key = function.__name__, *arguments
        if key not in block.found:
            block.found[key] = function(block, *arguments)
        return block.found[key]

    return found


class Block:
    def __init__(self, data):
        head = take_field(data, 0, 1, {8})
        self.edition, self.n = head[0], head[1]
        # the number that the file gives for the switching of a net: the probability of a 1 in 256ths up to edition 2, its
        # measured activity from edition 3 on
        self.arrival, self.deadline, self.switching = number(head, 2), number(head, 4), number(head, 6)
        if self.edition not in MOST_SWITCHING or not 1 <= self.n <= MAX_GATES or self.switching > MOST_SWITCHING[self.edition]:
            raise Refused(4, 0)
        self.found = {}
        self.delay, self.gate_switching, self.steps, self.wires, self.wire_delay = [], [], [], [], {}
        at = 11
        for _ in range(self.n):
            at = self.read_gate(data, at)
        while at < len(data):
            at = self.read_wire(data, at)
        self.into, self.out = [[] for _ in range(self.n)], [[] for _ in range(self.n)]
        for a, b in self.wires:
            self.into[b].append(a)
            self.out[a].append(b)
        self.check_network()
        self.order = self.sorted_gates()
        by_edition = partial(activity, self.edition)
        self.activity = self.input_activities(by_edition, by_edition)

    def read_gate(self, data, at):
        body = take_field(data, at, 2, {4 + 4 * k for k in range(MAX_STEPS + 1)})
        steps = [(number(body, i), number(body, i + 2)) for i in range(4, len(body), 4)]
        ranges = number(body, 0) <= MAX_DELAY and number(body, 2) <= MOST_SWITCHING[self.edition]
        if not ranges or not all(1 <= w <= MAX_WIDTH and 1 <= d <= MAX_DROP for w, d in steps):
            raise Refused(4, at)
        drops = [d for _, d in steps]
        if drops != sorted(set(drops), reverse=True):
            raise Refused(5, at)
        self.delay.append(number(body, 0))
        self.gate_switching.append(number(body, 2))
        self.steps.append(steps)
        return at + 3 + len(body)

    def read_wire(self, data, at):
        if len(self.wires) == MAX_WIRES:
            raise Refused(7, at)
        body = take_field(data, at, 3, {WIRE_LENGTH[self.edition]})
        a, b, delay = body[0], body[1], int.from_bytes(body[2:], "big")
        if max(a, b) >= self.n or delay > MAX_DELAY:
            raise Refused(4, at)
        if a == b or (a, b) in self.wire_delay:
            raise Refused(6, at)
        self.wires.append((a, b))
        self.wire_delay[a, b] = delay
        return at + 3 + len(body)

    def changed(self, **attributes):
        """The block with other attributes in place of these."""
        other = copy(self)
        vars(other).update(attributes, found={})
        return other

    def input_activities(self, of_input, of_output):
        """The input activity of each gate, where these functions give the activities of the nets by the file's numbers."""
        outputs = [of_output(switching) for switching in self.gate_switching]
        return [of_input(self.switching)] + [sum(outputs[a] for a in into) for into in self.into[1:]]

    def check_network(self):
        for g in range(self.n):
            seen, open_gates = set(), list(self.out[g])
            while open_gates:
                h = open_gates.pop()
                if h not in seen:
                    seen.add(h)
                    open_gates.extend(self.out[h])
            if g in seen:
                raise Refused(8, g)
        for g in range(self.n):
            if bool(self.into[g]) == (g == 0) or bool(self.out[g]) == (g == self.n - 1):
                raise Refused(9, g)

    def sorted_gates(self):
        order = []

        def visit(g):
            if g not in order:
                for a in self.into[g]:
                    visit(a)
                order.append(g)

        for g in range(self.n):
            visit(g)
        return order

    def lasts(self, increases):
        """The longest path to each gate's output."""
        time = [0] * self.n
        for g in self.order:
            before = max([time[a] + self.wire_delay[a, g] for a in self.into[g]], default=0)
            time[g] = before + self.delay[g] + increases[g]
        return time

    def longest(self, increases):
        return self.lasts(increases)[self.n - 1]

    def required(self, increases):
        """The deadline, carried backwards to each gate's output."""
        time = [self.deadline] * self.n
        for g in reversed(self.order):
            behind = [time[b] - self.delay[b] - increases[b] - self.wire_delay[g, b] for b in self.out[g]]
            time[g] = min(behind, default=self.deadline)
        return time

    @remembered
    def slacks(self):
        return self.slacks_between(self, self, [0] * self.n)

    def slacks_between(self, before, behind, increases):
        """Required time minus source delay, for each gate: as one block has it before a gate, and another behind it."""
        lasts, required = before.lasts(increases), behind.required(increases)
        return [latest - (self.arrival + longest) for longest, latest in zip(lasts, required)]

    def widths(self, g):
        return sum(w for w, _ in self.steps[g])

    def gain(self, g, ticks):
        """The gain of the tick that comes after so many at a gate; None beyond its widths."""
        for width, drop in self.steps[g]:
            if ticks < width:
                return drop * self.activity[g]
            ticks -= width
        return None

    def moves(self, increases, targets):
        """The lists in time that save as much with one tick moved from a gate g to one of the gates targets(g)."""
        free = [self.gain(g, increases[g]) for g in range(self.n)]
        for g in range(self.n):
            taken = self.gain(g, increases[g] - 1) if increases[g] else None
            others = [other for other in targets(g) if taken is not None and free[other] == taken]
            if not others:
                continue
            less = list(increases)
            less[g] -= 1
            slacks = self.slacks_between(self, self, less)
            for other in others:
                if min(slacks) >= 0 and slacks[other] >= 1:
                    yield less[:other] + [less[other] + 1] + less[other + 1 :]

    @remembered
    def comes_later(self, increases):
        """Whether a list in time that saves as much comes before this one: with a tick moved from a gate g to one of range(g),
        those below it."""
        return any(self.moves(increases, range))

    def saving(self, increases):
        total = 0
        for g in range(self.n):
            ticks = increases[g]
            for width, drop in self.steps[g]:
                total += min(ticks, width) * drop * self.activity[g]
                ticks -= min(ticks, width)
        return total

    def judge(self, increases):
        for g in range(self.n):
            if increases[g] > self.widths(g):
                raise Refused(13, g)
        if self.arrival + self.longest(increases) > self.deadline:
            raise Refused(14, 0)
        return self.saving(increases)

    def judged(self, increases, g, increase):
        """What judging says of a list with this increase at a gate, as a word."""
        changed = list(increases)
        changed[g] = increase
        return answer(lambda: [self.judge(changed)]).replace("refused ", "").replace(" ", ":")

    @remembered
    def judged_with_more(self, increases):
        """What judging says of each list with one tick more at a gate, by the slacks that the increases leave, as words."""
        beyond = [g for g in range(self.n) if increases[g] > self.widths(g)]
        slacks, saving = self.slacks_between(self, self, increases), self.saving(increases)
        late, words = min(slacks) < 0, []
        for g in range(self.n):
            faults = beyond + [g] * (increases[g] == self.widths(g))
            if faults:
                words.append("13:%d" % min(faults))
            else:
                words.append("14:0" if late or slacks[g] == 0 else str(saving + self.gain(g, increases[g])))
        if self.is_small() and words != [self.judged(increases, g, increases[g] + 1) for g in range(self.n)]:
            raise Wrong("judging by slacks and by paths disagree: %s" % (increases,))
        return " ".join(words)

    @remembered
    def is_small(self):
        count = 1
        for g in range(self.n):
            count *= self.widths(g) + 1
        return count <= SMALL_LISTS and len(self.wires) <= SMALL_WIRES

    def series_parallel(self):
        """By splitting the wires in every way, from the whole down to single wires."""
        if self.n == 1:
            return True

        def gates(wires):
            return {g for wire in wires for g in wire}

        @lru_cache(maxsize=None)
        def part(wires, a, b):
            if wires == frozenset([(a, b)]):
                return True
            for size in range(1, len(wires)):
                for some in map(frozenset, itertools.combinations(sorted(wires), size)):
                    rest = wires - some
                    shared = gates(some) & gates(rest)
                    if shared == {a, b} and part(some, a, b) and part(rest, a, b):
                        return True
                    if len(shared) == 1:
                        (middle,) = shared
                        if middle not in (a, b) and part(some, a, middle) and part(rest, middle, b):
                            return True
            return False

        whole = frozenset(self.wires)
        return gates(whole) == set(range(self.n)) and part(whole, 0, self.n - 1)

    def reduces(self):
        """Whether the block is series-parallel, by taking away gates with one wire in and one wire out. For any size."""
        into, out = list(map(set, self.into)), list(map(set, self.out))
        left = set(range(1, self.n - 1))
        waiting = sorted(left)
        while waiting:
            gate = waiting.pop()
            if gate not in left or not len(into[gate]) == len(out[gate]) == 1:
                continue
            left.remove(gate)
            (a,), (b,) = into[gate], out[gate]
            out[a].remove(gate)
            out[a].add(b)
            into[b].remove(gate)
            into[b].add(a)
            waiting += [a, b]
        return not left

    def earning(self):
        """Every tick that earns something."""
        return [self.widths(g) if self.activity[g] else 0 for g in range(self.n)]

    @remembered
    def whole(self):
        """What every tick earns, and how long the longest path lasts with all that earn something."""
        return self.saving(self.earning()), self.longest(self.earning())

    @remembered
    def start(self):
        return self.longest([0] * self.n)

    def spare(self):
        return self.deadline - self.arrival - self.start()

    def says(self):
        """All that the answers depend on."""
        return repr((self.arrival, self.deadline, self.activity, self.delay, self.steps, self.wires, self.wire_delay))

    def __eq__(self, other):
        return self.says() == other.says()

    def __hash__(self):
        return hash(self.says())

    def every_list(self):
        """Every list in some order, with its longest path and its saving."""
        for increases in itertools.product(*[range(self.widths(g) + 1) for g in range(self.n)]):
            yield increases, self.longest(increases), self.saving(increases)


def reduced(n, wires, random):
    """The gates and the wires left when gates with one wire in and one wire out are taken away, joining the two wires, and the
    two wires of a doubled one are merged, one step after another, each chosen at random among all that apply."""
    # how often a wire stands: from each gate to each, and backwards
    out, into = [{} for _ in range(n)], [{} for _ in range(n)]

    def join(a, b, times):
        out[a][b] = into[b][a] = out[a].get(b, 0) + times

    for a, b in wires:
        join(a, b, 1)
    # gates and wires, all those among them that a step applies to
    left, steps = set(range(n)), list(range(n))
    while steps:
        at = random.randrange(len(steps))
        steps[at], steps[-1] = steps[-1], steps[at]
        step = steps.pop()
        if isinstance(step, tuple):
            a, b = step
            if out[a].get(b, 0) > 1:
                join(a, b, -1)
                steps += [a, b, step]
        elif step in left and list(into[step].values()) == list(out[step].values()) == [1]:
            (a,), (b,) = into[step], out[step]
            del out[a][step], into[b][step]
            left.remove(step)
            join(a, b, 1)
            steps.append((a, b))
    return frozenset(left), {(a, b) for a in left for b in out[a]}


@lru_cache(maxsize=None)
def lowest_left(n, wires):
    """The place of 11 (document 02, K1), or None where no gate is left but the first and the last. Several orders of taking
    gates away and merging wires must leave the same gates."""
    ends = {reduced(n, wires, Random(seed))[0] for seed in range(ORDERS)}
    if len(ends) != 1:
        raise Wrong("the gates left depend on the order: %s" % (wires,))
    return min(ends.pop() - {0, n - 1}, default=None)


def in_words(numbers):
    return " ".join(map(str, numbers))


def answer(call):
    try:
        return in_words(call())
    except Refused as refused:
        return "refused %d %d" % refused.args


def from_far_end(increases):
    """What the order of ties compares: the increases from gate n - 1 downwards (document 02, K8)."""
    return increases[::-1]


def from_gate_0(increases):
    """The same in document 01's order, before K8."""
    return increases


@lru_cache(maxsize=None)
def tied_and_curve(block):
    """The greatest saving in time, every list that has it, the curve as words, and the greatest saving of the lists that make
    the longest path longer by so many ticks, from every list."""
    start = block.start()
    most, tied, savings = 0, [], {}
    for increases, longest, saving in block.every_list():
        savings[longest - start] = max(savings.get(longest - start, 0), saving)
        if block.arrival + longest <= block.deadline and saving >= most:
            tied = tied if saving == most else []
            tied.append(increases)
            most = saving
    gains, reached = [], savings[0]
    for k in range(1, max(savings) + 1):
        gains.append(max(savings.get(k, 0) - reached, 0))
        reached += gains[-1]
    pairs = [(len(list(run)), gain) for gain, run in itertools.groupby(gains) if gain]
    curve = [start, savings[0], len(pairs)] + [value for pair in pairs for value in pair]
    return most, tied, in_words(curve), savings


def fewest_ticks(block, wanted):
    """The fewest spare ticks with which some list saves at least the wanted (document 02, K6), from every list; None if none
    does."""
    savings = tied_and_curve(block)[3]
    return min((ticks for ticks, saving in savings.items() if saving >= wanted), default=None)


def best_list(block, order):
    """Of all lists in time the one that saves most and, of those, comes first in this order, its saving in front, as words."""
    saving, tied, *_ = tied_and_curve(block)
    return in_words((saving, *min(tied, key=order))) if tied else "refused 12 0"


@remembered
def settled(block):
    """Best list and curve as words; None for an answer that is given and needs more than a few lists to find."""
    place = lowest_left(block.n, tuple(block.wires))
    if (place is None) != block.reduces():
        raise Wrong("merging wires one at a time and at once disagree: %s" % block.wires)
    if block.is_small() and (place is None) != block.series_parallel():
        raise Wrong("splitting the wires and taking gates away disagree: %s" % block.wires)
    if place is not None:
        return ("refused 11 %d" % place,) * 2
    if block.is_small():
        return best_list(block, from_far_end), tied_and_curve(block)[2]
    return "refused 12 0" if block.spare() < 0 else None, None


@lru_cache(maxsize=1)
def read(data):
    """The block, or its refusal in words."""
    try:
        return Block(data), None
    except Refused as refused:
        return None, "refused %d %d" % refused.args


class Case:
    def __init__(self, count, record, lines):
        self.count = count
        self.lent, self.lent_widths, self.lent_gains = record[2], number(record, 3), number(record, 5)
        self.gate, self.beyond = record[7], int.from_bytes(record[8:12], "big")
        behind = HEAD + 8 * record[12]
        self.wanted = [int.from_bytes(record[at : at + 8], "big") for at in range(HEAD, behind, 8)]
        self.ends_in_blank = any(line.endswith(" ") for line in lines)
        self.read_numbers = {}
        self.names = [line.split(" ")[0] for line in lines]
        self.lines = {name: line[len(name) + 1 :] for name, line in zip(self.names, lines)}
        self.block, self.refused = read(record[behind:])

    def hold(self, right, name, what):
        if not right:
            raise Wrong("case %d: %s %s: %s" % (self.count, name, self.lines.get(name), what))

    def expect(self, name, words):
        self.hold(self.lines.get(name) == words, name, "it should be %s" % words)

    def numbers(self, name, least):
        """The numbers of an answer, at least so many; behind them stands that nothing else was written."""
        if name not in self.read_numbers:
            words = self.lines[name].split(" ")[:-1]
            self.hold(len(words) >= least and all(word.isdigit() for word in words), name, "numbers should stand here")
            self.read_numbers[name] = list(map(int, words))
            self.expect(name, in_words(self.read_numbers[name]) + " kept")
        return self.read_numbers[name]

    def check(self):
        """Whether the best list and the curve were found by trying everything."""
        given = not self.refused and self.lent >= self.block.n
        self.hold(self.names == ALWAYS + (WITH_SLACKS if given else []), "case", "other lines belong to it")
        self.hold(not self.ends_in_blank, "case", "a line ends in a blank")
        self.expect("case", str(self.count))
        if self.refused:
            for name in ("slacks", "curve", "best"):
                self.expect(name, self.refused + " kept")
            self.expect("ticks", self.refused_ticks(self.refused))
            self.expect("judge", self.refused)
            return False
        short = "refused 10 %d" % self.block.n
        best, curve = settled(self.block)
        if not given:
            best = short
        if min(self.lent_widths, self.lent_gains) < MAX_PAIRS:
            curve = "refused 10 %d" % MAX_PAIRS
        self.expect("slacks", (in_words(self.block.slacks()) if given else short) + " kept")
        self.expect("curve", curve + " kept") if curve else self.check_curve()
        self.expect("best", best + " kept") if best else self.check_best()
        self.check_ticks()
        self.check_judging() if given else self.expect("judge", short)
        return self.block.is_small()

    def check_finer(self, before):
        """Holds the lines to those of the case before, where the block is the same in finer ticks. Whether it is, and given an
        answer."""
        m = times_as_fine(before.block, self.block) if before.block and self.block else None
        if m is None:
            return False
        for name in ("slacks", "curve", "best"):
            self.expect(name, in_finer_words(name, before.lines[name], m))
        for i, ticks in before.exact_ticks():
            self.hold(self.wanted[i] == m * before.wanted[i], "ticks", "%d should be wanted" % (m * before.wanted[i]))
            self.hold(self.lines["ticks"].split(" ")[i] == str(m * ticks), "ticks", "%d should be needed" % (m * ticks))
        return self.is_given()

    def check_curve(self):
        """What is settled of a curve without trying lists."""
        block = self.block
        start, at_start, count, *pairs = self.numbers("curve", 3)
        widths, gains = pairs[0::2], pairs[1::2]
        self.hold(start == block.start(), "curve", "start")
        self.hold(len(widths) == len(gains) == count <= MAX_PAIRS, "curve", "count of pairs")
        self.hold(all(width >= 1 for width in widths), "curve", "widths of at least 1")
        between = [largest_gain(block.edition) + 1] + gains + [0]
        self.hold(between == sorted(set(between), reverse=True), "curve", "gains that fall strictly and stay above 0")
        whole, end = block.whole()
        self.hold(start + sum(widths) == end, "curve", "ends where every tick that earns is in time")
        earned = at_start + sum(width * gain for width, gain in zip(widths, gains))
        self.hold(earned == whole, "curve", "what every tick earns")

    def check_best(self):
        """What is settled of a best list without trying lists, but for what judging says of it."""
        saving, *increases = self.numbers("best", 1)
        self.hold(len(increases) == self.block.n, "best", "an increase for each gate")
        still = [x for x, activity in zip(increases, self.block.activity) if activity == 0]
        self.hold(not any(still), "best", "a gate is slowed that gains nothing")
        if not self.lines["curve"].startswith("refused"):
            _, at_start, _, *pairs = self.numbers("curve", 3)
            counted = counted_off(at_start, pairs, self.block.spare())
            self.hold(counted == saving, "best", "the curve says %d" % counted)
        self.hold(not self.block.comes_later(tuple(increases)), "best", "a tick belongs to a lower gate")

    def refused_ticks(self, refused):
        """The words of the fewest ticks, where all of them are refused."""
        _, number, place = refused.split(" ")
        return " ".join(["%s:%s" % (number, place)] * len(self.wanted))

    def ticks_with(self, block):
        """The words of the fewest ticks of a block, by trying every list, or by counting off the stored curve."""
        _, curve = settled(block)
        if curve and curve.startswith("refused"):
            return self.refused_ticks(curve)
        if block.is_small():
            return in_words(ticks_word(fewest_ticks(block, wanted)) for wanted in self.wanted)
        _, at_start, _, *pairs = self.numbers("curve", 3)
        return in_words(ticks_word(fewest_on(at_start, pairs, wanted)) for wanted in self.wanted)

    def check_ticks(self):
        """The fewest ticks for each wanted saving. The block's own arrival and deadline play no part, and nothing is lent."""
        self.expect("ticks", self.ticks_with(self.block))
        block, (whole, end) = self.block, self.block.whole()
        best = None if self.lines["best"].startswith("refused") else int(self.lines["best"].split(" ")[0])
        for wanted, word in zip(self.wanted, self.lines["ticks"].split()):
            if word.startswith("11:"):
                continue
            ticks = float("inf") if word == BEYOND else int(word)
            self.hold((word == BEYOND) == (wanted > whole), "ticks", "all ticks earn %d" % whole)
            most = end - block.start()
            self.hold(wanted != whole or ticks == most, "ticks", "%d let every tick that earns be in time" % most)
            as_best = best is None or (ticks <= block.spare()) == (wanted <= best)
            self.hold(as_best, "ticks", "the best list saves %s with %d" % (best, block.spare()))

    def asked(self):
        """What was wanted of a block that gets its curve, and the ticks that are stored."""
        _, at_start, _, *pairs = self.numbers("curve", 3)
        ticks = [None if word == BEYOND else int(word) for word in self.lines["ticks"].split()]
        return [Asked(at_start, pairs, *each, self.block.spare()) for each in zip(self.wanted, ticks)]

    def exact_ticks(self):
        """The wanted savings that some number of ticks earns exactly: where each stands, and the ticks."""
        if self.lines["curve"].startswith("refused"):
            return []
        given = [(i, each) for i, each in enumerate(self.asked()) if each.ticks is not None]
        return [(i, each.ticks) for i, each in given if each.earned() == each.wanted]

    def reaches(self):
        """The gates and wires of the block, the pairs of its curve and their largest gain; 0 for what is refused."""
        if self.refused:
            return 0, 0, 0, 0
        gains = [] if self.lines["curve"].startswith("refused") else self.numbers("curve", 3)[4::2]
        return self.block.n, len(self.block.wires), len(gains), max(gains, default=0)

    def has_wide_gains(self):
        """Whether curve and best list are given, and 32 bits do not hold every gain."""
        return self.is_given() and self.reaches()[3] >= 2**32

    def got_11(self):
        return all(self.lines[name].startswith("refused 11 ") for name in ("curve", "best"))

    def is_given(self):
        """Whether curve and best list are given."""
        return "refused" not in self.lines["curve"] + self.lines["best"]

    def is_late(self):
        """Whether the curve is given, and no list is in time."""
        return "refused" not in self.lines["curve"] and self.lines["best"] == "refused 12 0 kept"

    def has_to_choose(self):
        """Whether curve and best list are given, and spare lies within a curve of two pairs or more."""
        if not self.is_given():
            return False
        widths = self.numbers("curve", 3)[3::2]
        return len(widths) > 1 and 0 < self.block.spare() < sum(widths)

    def later_list(self, small):
        """A list as good as the best that comes later, as words, or None: the first in the order from gate 0, or, where not
        everything was tried, one with a tick moved to a higher gate."""
        if small:
            words = best_list(self.block, from_gate_0)
            return None if words + " kept" == self.lines["best"] else words
        saving, *increases = self.numbers("best", 1)
        later = next(self.block.moves(increases, lambda g: range(g + 1, self.block.n)), None)
        return later and in_words([saving] + later)

    def kinds(self, small):
        """The kinds of cases that it is one of, for the mistakes; small are those that were found by trying everything. Those with
        ties are for mistakes in their order alone, and those that are late, with two pairs or more, for mistaken ticks."""
        if not small and self.got_11():
            return ["11"]
        size = "small" if small else "large"
        if self.is_late() and self.numbers("curve", 3)[2] > 1:
            return [size + ", late"]
        if not (self.is_given() if small else self.has_to_choose()):
            return []
        if self.later_list(small):
            return [size + ", tied"]
        has_delays, measured = any(self.block.wire_delay.values()), is_measured(self.block.edition)
        return [size] + has_delays * [size + ", delayed"] + measured * [size + ", measured"]

    def check_judging(self):
        increases = [0] * self.block.n
        if not self.lines["best"].startswith("refused"):
            saving, *increases = self.numbers("best", 1)
            self.expect("judge", str(saving))
        for name, words in self.judging(self.block, increases):
            self.expect(name, words)
        self.hold(self.beyond == self.block.widths(self.gate) + 1, "beyond", "one tick beyond the width was meant")

    def judging(self, block, increases):
        """The four lines that judging gives, one after another, where the list in hand is this."""
        yield "judge", answer(lambda: [block.judge(increases)])
        yield "more", block.judged_with_more(tuple(increases))
        yield "beyond", block.judged(increases, self.gate, self.beyond)
        yield "largest", block.judged(increases, self.gate, 2**32 - 1)

    def lines_with(self, block, best=None):
        """The lines that another block of the same gates and wires would have, with this best list if one is given. Of a larger
        block stay the best list, and of the curve all but start."""
        right, curve = settled(block)
        best = best or right or self.lines["best"][: -len(" kept")]
        curve = curve or " ".join([str(block.start())] + self.lines["curve"].split(" ")[1:-1])
        increases = [0] * block.n if best.startswith("refused") else list(map(int, best.split(" ")[1:]))
        slacks = in_words(block.slacks())
        lines = {"case": self.lines["case"], "slacks": slacks + " kept", "curve": curve + " kept", "best": best + " kept"}
        lines["ticks"] = self.ticks_with(block)
        lines.update(self.judging(block, increases))
        return ["%s %s" % line for line in lines.items()]


def mistakes_noticed(stored, mistakes):
    """How many mistakes were put into a case. Each must be noticed."""
    count, record, lines = stored
    noticed = 0
    for wrong in mistakes:
        try:
            Case(count, record, wrong).check()
        except Wrong:
            noticed += 1
            continue
        raise Wrong("a mistake in case %d is not noticed: %s" % (count, "; ".join(wrong)))
    return noticed


def stored_cases(data, text):
    """Number, record and lines of each case."""
    *lines, end = text.split("\n")
    starts = [i for i, line in enumerate(lines) if line.startswith("case ")] + [len(lines)]
    if end != "" or starts[0] != 0:
        raise Wrong("the output does not begin or end as it should")
    at = count = 0
    while at < len(data) and count + 1 < len(starts):
        if at + HEAD > len(data) or data[at + 12] > MOST_WANTED:
            raise Wrong("record %d has no whole head" % count)
        length = HEAD + 8 * data[at + 12] + number(data, at)
        yield count, data[at : at + length], lines[starts[count] : starts[count + 1]]
        at, count = at + length, count + 1
    if at != len(data) or count + 1 != len(starts):
        raise Wrong("%d records are answered of %d bytes, and %d answers given" % (count, len(data), len(starts) - 1))


def put_into_lines(last):
    """Puts mistakes into the lines of larger blocks; returns how many were noticed."""
    choosing, elevens = last("large"), last("11")
    noticed = sum(mistakes_noticed(stored, wrong_lines(stored[2])) for stored in choosing + elevens)
    noticed += sum(mistakes_noticed(stored, wrong_answers(stored[2])) for stored in choosing)
    return noticed + sum(mistakes_noticed(stored, wrong_places(stored[2])) for stored in elevens)


def put_into_delays(last):
    """The same with mistaken wire delays; each block has some that change its lines."""
    delayed = last("small, delayed") + last("large, delayed")
    noticed = [mistakes_noticed(stored, wrong_delays(Case(*stored), stored[2])) for stored in delayed]
    if not all(noticed):
        raise Wrong("no mistake of a wire's delay changes the lines of a block")
    return sum(noticed)


def put_into_activities(last):
    """The same with mistaken activities; each kind of mistake changes the lines of some blocks, smaller and larger ones."""
    total = 0
    for size in ("small", "large"):
        for name, mistaken in ACTIVITY_MISTAKES.items():
            measured = last(size + ", measured")
            noticed = [mistakes_noticed(stored, wrong_activities(Case(*stored), stored[2], mistaken)) for stored in measured]
            if not any(noticed):
                raise Wrong("activities mistaken by %s change the lines of no %s block" % (name, size))
            total += sum(noticed)
    return total


def put_into_order(last):
    """The same with best lists that come later in the order of ties, of smaller and larger blocks."""
    total = 0
    for small, kind in ((True, "small, tied"), (False, "large, tied")):
        for stored in last(kind):
            case = Case(*stored)
            total += mistakes_noticed(stored, wrong_order(case, stored[2], case.later_list(small)))
    return total


def put_into_ticks(last):
    """The same with mistaken numbers of ticks; each kind of mistake changes the lines of some blocks, smaller and larger ones,
    in time and late, but for 12, which blocks in time do not get by mistake."""
    total = 0
    for kind in ("small", "large", "small, late", "large, late"):
        for name, mistaken in TICKS_MISTAKES.items():
            mistakes = [wrong_ticks(Case(*stored).asked(), stored[2], mistaken) for stored in last(kind)]
            noticed = [mistakes_noticed(*each) for each in zip(last(kind), mistakes)]
            if not any(noticed) and ("late" in kind or "late" not in name):
                raise Wrong("ticks mistaken by %s change the lines of no block: %s" % (name, kind))
            total += sum(noticed)
    return total


def put_into_gains(last):
    """The same with mistaken gains, where 32 bits do not hold them; each kind of mistake changes the lines of each block."""
    total = 0
    for stored in last("wide gains", apart=1):
        for name, mistaken in GAIN_MISTAKES.items():
            noticed = mistakes_noticed(stored, wrong_gains(Case(*stored), stored[2], mistaken))
            if not noticed:
                raise Wrong("gains mistaken by %s do not change the lines of case %d" % (name, stored[0]))
            total += noticed
    return total


class Checked:
    """The cases that were held to their lines: how many, those of each kind, and how far they go."""

    def __init__(self):
        self.count = self.tried = self.finer = 0
        self.kinds, self.reached = defaultdict(list), [0] * len(REACHED)

    def check(self, stored, before):
        """Holds a case to its lines, and to those of the case before where its block is the same in finer ticks; the case."""
        case = Case(*stored)
        small = case.check()
        self.count += 1
        self.tried += small
        self.finer += before is not None and case.check_finer(before)
        self.reached = list(map(max, self.reached, case.reaches()))
        for kind in case.kinds(small) + case.has_wide_gains() * ["wide gains"]:
            self.kinds[kind].append(stored)
        return case

    def check_enough(self):
        if self.finer < LEAST_FINER:
            raise Wrong("there are too few blocks in finer ticks: %d" % self.finer)
        if self.reached != REACHED:
            raise Wrong("gates, wires, pairs and gains reach %s in place of %s" % (self.reached, REACHED))

    def last(self, kind, apart=BLOCKS_APART):
        """Some of the last cases of a kind."""
        if len(self.kinds[kind]) < BLOCKS_MISTAKEN * apart:
            raise Wrong("there are too few blocks to put mistakes into: %s" % kind)
        return self.kinds[kind][-BLOCKS_MISTAKEN * apart :: apart]


def check_all(data, text):
    """Holds every record to the lines printed for it; then puts mistakes into some of the last cases of each kind."""
    checked, before = Checked(), None
    for stored in stored_cases(data, text):
        before = checked.check(stored, before)
    checked.check_enough()
    said = "%d cases, %d of them by trying every list, %d given m times the answers of the case before; "
    said += "%d mistakes put in were noticed, and %d of wire delays, %d of activities, %d of the order of ties, "
    said += "%d of the fewest ticks, %d of wide gains"
    putting = put_into_lines, put_into_delays, put_into_activities, put_into_order, put_into_ticks, put_into_gains
    return said % (checked.count, checked.tried, checked.finer, *[put_into(checked.last) for put_into in putting])


def main():
    folder = Path(sys.argv[1])
    try:
        print("second opinion: " + check_all((folder / "stdin").read_bytes(), (folder / "stdout").read_text()))
    except Wrong as wrong:
        sys.exit("second opinion: %s" % wrong)


if __name__ == "__main__":
    main()

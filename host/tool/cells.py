"""The table of cells, by which a netlist of yosys becomes a block.

It says of each type of cell its drawn delay and its steps, and of the nets p or, throughout in its place, the activity:

    cell $_AND_ delay 3 steps (2,5) (3,2)
    p 128                                   # every net that is not named
    net a[0] p 64                           # one net, by its name, name[bit] or CELL.PIN
"""

from dataclasses import dataclass
from typing import Optional

from description import UNSAID_EDITIONS, Fault, Words
from naming import CannotImport, clean, short
from netlist import MAX_DELAY, max_switching


@dataclass(frozen=True)
class CellType:
    """What the table says of a type of cell."""

    delay: int
    steps: tuple


@dataclass(frozen=True)
class NetLine:
    """What the table says of one net, and in which line."""

    line: int
    switching: int


@dataclass(frozen=True)
class Cells:
    """The table: the block's edition, the types of cells by name, the switching of nets not named and of those that are."""

    edition: int
    types: dict
    others: Optional[int]
    nets: dict


class _Table:
    """A table that is being read: its types and nets so far, with the line of each."""

    def __init__(self):
        self.types, self.nets, self.others = {}, {}, None
        self.type_lines, self.word, self.word_line = {}, None, None

    def line(self, words):
        keyword = words.next()
        if keyword is None:
            return
        if keyword == "cell":
            self.cell_line(words)
        elif keyword == "net":
            self.net_line(words)
        elif keyword in UNSAID_EDITIONS:
            self.others_line(words, keyword)
        else:
            words.fault(f"'cell', 'net', 'p' or 'activity' was expected, not '{short(keyword)}'")

    def cell_line(self, words):
        name = clean(words.needed("the type of cell"))
        if name in self.types:
            words.fault(f"cell {short(name)} stood before, in line {self.type_lines[name]}")
        self.types[name] = CellType(words.named("delay", MAX_DELAY), words.steps())
        self.type_lines[name] = words.line

    def net_line(self, words):
        name = clean(words.needed("the net's name"))
        if name in self.nets:
            words.fault(f"net {short(name)} stood before, in line {self.nets[name].line}")
        self.nets[name] = NetLine(words.line, self.switching(words, words.switching()))
        words.end()

    def others_line(self, words, word):
        if self.others is not None:
            words.fault(f"a second line with '{word}' for the nets that are not named")
        self.others = self.switching(words, word)
        words.end()

    def switching(self, words, word):
        """The number behind the word for the switching of a net, which is the same word in the whole table."""
        if self.word not in (None, word):
            words.fault(f"'{word}' here, but '{self.word}' in line {self.word_line}")
        if self.word is None:
            self.word, self.word_line = word, words.line
        return words.number_after(word, max_switching(UNSAID_EDITIONS[word]))

    def cells(self):
        if not self.types:
            raise CannotImport("the table has no line 'cell'")
        if self.word is None:
            raise CannotImport("the table says nothing of the nets: a line such as 'p 128' is missing")
        return Cells(UNSAID_EDITIONS[self.word], self.types, self.others, self.nets)


def read_cells(text: str) -> Cells:
    """The table that a text says."""
    table = _Table()
    try:
        for line, content in enumerate(text.split("\n"), 1):
            table.line(Words(line, content))
    except Fault as fault:
        raise CannotImport(f"line {fault.line}: {fault}") from None
    return table.cells()

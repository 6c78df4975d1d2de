"""Lists of increases that a person proposes: numbers, or the table that `best` writes as CSV or JSON."""

import csv
import json
from argparse import ArgumentTypeError
from dataclasses import dataclass

import inputs
from arguments import number_below
from inputs import NoAnswer
from text import counted, shown

MAX_LIST = 1 << 20

increase = number_below(1 << 32)


@dataclass(frozen=True)
class Proposal:
    """A list of increases, in the order of the gates; and, of a table, what its rows say of each gate besides."""

    increases: list
    rows: tuple = ()

    def check(self, netlist):
        """That the list is one for this netlist: not longer, and for gates of the same names and delays."""
        found, gates = len(self.increases), len(netlist.gates)
        if found > gates:
            raise NoAnswer(f"the list has {found} increases, the block {counted(gates, 'gate')}")
        for number, (row, gate) in enumerate(zip(self.rows, netlist.gates)):
            for word, right in (("name", gate.name), ("delay", gate.delay)):
                said = str(row.get(word) or "")
                if said and str(right) and said != str(right):
                    fault = f"in the list gate {number} has the {word} {shown(said)}, in the block {shown(str(right))}"
                    raise NoAnswer(f"{fault}: the list is for another block")


def read_proposal(name):
    """The list in a file; `-` is standard input."""
    text = inputs.read_text(name, MAX_LIST)
    try:
        return proposal_of(text)
    except KeyError as missing:
        raise NoAnswer(f"{shown(name)}: no list of increases: {missing} is missing") from None
    except (ValueError, TypeError, AttributeError, RecursionError, csv.Error, ArgumentTypeError) as reason:
        raise NoAnswer(f"{shown(name)}: no list of increases: {shown(str(reason))}") from None


def proposal_of(text):
    """The list that a text says."""
    if text.lstrip().startswith("{"):
        return by_gate(json.loads(text)["list"])
    if text.lstrip().startswith("["):
        return Proposal([increase(str(number)) for number in json.loads(text)])
    lines = text.splitlines()
    # spreadsheets write semicolons in some countries
    rows = csv.DictReader(lines, delimiter=";" if lines and ";" in lines[0] else ",")
    if "increase" in (rows.fieldnames or ()):
        return by_gate(list(rows))
    return Proposal([increase(word) for word in text.replace(",", " ").split()])


def by_gate(rows):
    """The list of a table's rows, which may stand in any order of the gates."""
    found = {str(row["gate"]): row for row in rows}
    gates = [str(gate) for gate in range(len(rows))]
    if sorted(found) != sorted(gates):
        raise ValueError(f"its gates are not 0 to {len(rows) - 1}, each once")
    ordered = tuple(found[gate] for gate in gates)
    return Proposal([increase(str(row["increase"])) for row in ordered], ordered)

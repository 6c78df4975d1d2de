"""The command scripts/honduvi: tables, words and pictures of a block, every answer from the proved calls."""

import os
import sys
from argparse import ArgumentTypeError
from contextlib import contextmanager
from pathlib import Path

import building
import description
import inputs
from arguments import Parser, number_below
from block_picture import block_picture
from cells import read_cells
from curve_picture import curve_picture
from explaining import explained
from importing import import_json
from inputs import ACCEPTED, REFUSED, NoAnswer
from naming import CannotImport
from netlist import BLOCK_TAG, MAX_TIME, decode
from proposals import Proposal, increase, read_proposal
from tables import Answer, Table, refused
from text import shown
from words import refusal_in_words

sys.path.append(str(Path(__file__).resolve().parents[1] / "python"))
from honduvi import Library, Refused  # noqa: E402

HELP = """Tables, words and pictures of a block, every saving, slack, increase and tick from the proved calls. FILE is a block
file or its description in text form (docs/FORMAT.md); - is standard input. 'scripts/honduvi COMMAND --help' says what a command
takes.

status 0: accepted; 1: refused, with 'refused NUMBER PLACE' on standard output and the reason in words on standard error (all of
it on standard output for explain, and on standard error where a picture or a description was asked for); 2: no answer (usage, a
file that cannot be read, a description at fault, output that could not be written).

The calls are proved and built first where they are missing or older than their sources (needs the Rattle kit's command rt, and
gcc); the environment variable HONDUVI_LIBRARY names a shared library that is used as it is."""

# a JSON of yosys for a block of as many gates as there can be has some 300 KB
MAX_JSON = 1 << 26


def library():
    """The proved calls: of the library that HONDUVI_LIBRARY names, else of this repository, built first where needed."""
    try:
        return Library(os.environ.get("HONDUVI_LIBRARY") or str(building.library()))
    except building.NotBuilt as reason:
        raise NoAnswer(str(reason)) from None
    except OSError as reason:
        raise NoAnswer(f"the library cannot be used: {shown(str(reason), 200)}") from None


class Block:
    """A block that a person handed over, and the proved calls on it."""

    def __init__(self, name):
        self.name = name
        self.given = inputs.read(name)
        self.library = library()
        self.file = self.given.file

    @property
    def netlist(self):
        """What the file says; only after a call that did not refuse it with 1 to 7."""
        return self.given.netlist or decode(self.file)

    def spare(self, start):
        return self.netlist.deadline - self.netlist.arrival - start

    def words(self, refusal, **known):
        """A refusal of this block in words."""
        if refusal.number == 17:
            known["most"] = self.library.curve(self.file).most
        return refusal_in_words(self.file, refusal.number, refusal.place, netlist=self.given.netlist, **known)


def gate_rows(netlist, *columns):
    """A row for each gate: number, name, drawn delay, and its element of each column."""
    return [(number, gate.name, gate.delay, *others) for (number, gate), *others in zip(enumerate(netlist.gates), *columns)]


def best(block, options):
    found = block.library.best_increases(block.file)
    start = block.library.curve(block.file).start
    netlist = block.netlist
    rows = gate_rows(netlist, found.increases, block.library.slacks(block.file))
    counts = {"gates": len(netlist.gates), "wires": len(netlist.wires)}
    values = {**counts, "start": start, "spare": block.spare(start), "saving": found.saving}
    return Answer(values, Table("list", ("gate", "name", "delay", "increase", "slack"), rows))


def slacks(block, options):
    rows = gate_rows(block.netlist, block.library.slacks(block.file))
    return Answer({}, Table("slacks", ("gate", "name", "delay", "slack"), rows))


def curve(block, options):
    found = block.library.curve(block.file)
    rows, ticks, saving = [], 0, found.at_start
    for width, gain in found.pairs:
        ticks, saving = ticks + width, saving + width * gain
        rows.append((width, gain, ticks, saving))
    values = {"start": found.start, "saving_at_start": found.at_start, "spare": block.spare(found.start)}
    return Answer(values, Table("pairs", ("width", "gain", "ticks", "saving"), rows))


def judge(block, options):
    """The call reads as many increases as there are gates, so that a list for another block could get a verdict."""
    block.library.slacks(block.file)
    options.proposal.check(block.netlist)
    return Answer({"saving": block.library.judge(block.file, options.increases)})


def ticks(block, options):
    return Answer({"ticks": block.library.fewest_ticks(block.file, options.wanted)})


def told(name, words):
    """Says on standard error why a file is refused; the status."""
    for line in words:
        inputs.say(f"{shown(name)}: {line}")
    return REFUSED


def form_of(options):
    return "json" if options.json else "csv" if getattr(options, "csv", False) else "text"


def answer(options):
    """A command that answers with values and a table."""
    form = form_of(options)
    if options.command == "judge":
        options.proposal = proposed(options)
        options.increases = options.proposal.increases
    block = Block(options.file)
    known = {name: getattr(options, name) for name in ("increases", "wanted") if hasattr(options, name)}
    try:
        inputs.write("-", options.find(block, options).rendered(form).encode())
        return ACCEPTED
    except Refused as refusal:
        words = block.words(refusal, **known)
        inputs.write("-", refused(refusal.number, refusal.place, words, form).encode())
        return told(options.file, words)


def proposed(options):
    """The list of increases to be judged, of the command line or of a file."""
    if options.list is None:
        return Proposal(options.increase)
    if options.increase:
        raise NoAnswer("increases are given on the command line and with --list")
    return read_proposal(options.list)


def explain(options):
    block = Block(options.file)
    try:
        lines, status = explained(block), ACCEPTED
    except Refused as refusal:
        lines, status = [str(refusal), *block.words(refusal)], REFUSED
    inputs.write("-", "".join(line + "\n" for line in lines).encode())
    return status


def draw_curve(block, title):
    found = block.library.curve(block.file)
    return curve_picture(title, found.start, found.at_start, found.pairs, block.spare(found.start))


def draw_block(block, title):
    """The block with its best increases; without, where it has none, and then standard error says why."""
    block.library.slacks(block.file)
    try:
        increases = block.library.best_increases(block.file).increases
    except Refused as refusal:
        increases = None
        title = f"{title}: without increases, since refused {refusal.number} {refusal.place}"
        told(block.name, [f"drawn without increases, since {refusal}", *block.words(refusal)])
    return block_picture(title, block.netlist, increases)


def draw(options):
    block = Block(options.file)
    picture = {"curve": draw_curve, "block": draw_block}[options.what]
    title = "standard input" if options.file == "-" else Path(options.file).name
    try:
        drawn = picture(block, title)
    except Refused as refusal:
        return told(options.file, [str(refusal), *block.words(refusal)])
    inputs.write(options.output, drawn.encode())
    return ACCEPTED


def to_block(options):
    data = inputs.read_bytes(options.file, description.MAX_DESCRIPTION)
    if data[:1] == bytes([BLOCK_TAG]):
        raise NoAnswer(f"{shown(options.file)}: this is a block file and no description")
    inputs.write(options.output, inputs.of_description(options.file, data).file)
    return ACCEPTED


def to_text(options):
    block = Block(options.file)
    try:
        block.library.slacks(block.file)
    except Refused as refusal:
        if refusal.number <= 7:
            return told(options.file, [str(refusal), *block.words(refusal)])
    inputs.write(options.output, description.write(block.netlist).encode())
    return ACCEPTED


@contextmanager
def reasons_of(name):
    """Why there is no block is told with the name of the file in front."""
    try:
        yield
    except CannotImport as reason:
        raise NoAnswer(f"{shown(name)}: {reason}") from None


def import_netlist(options):
    with reasons_of(options.cells):
        cells = read_cells(inputs.read_text(options.cells, description.MAX_DESCRIPTION))
    with reasons_of(options.file):
        text = inputs.read_text(options.file, MAX_JSON)
        found = import_json(text, cells, options.module, options.arrival, options.deadline)
    for note in found.notes:
        inputs.say(f"{shown(options.file)}: {note}")
    inputs.write(options.output, description.write(found.netlist).encode())
    return ACCEPTED


def parser():
    top = Parser(prog="scripts/honduvi", description=HELP)
    commands = top.add_subparsers(dest="command", metavar="COMMAND", required=True, parser_class=Parser)

    def command(name, text, **settings):
        added = commands.add_parser(name, help=text, description=text)
        added.set_defaults(**settings)
        return added

    add_answers(command)
    add_pictures_and_forms(command)
    return top


def add_answers(command):
    """The commands that answer with values and tables, and with words."""

    def answering(name, find, text, is_table=False):
        added = command(name, text, run=answer, find=find)
        added.add_argument("file", metavar="FILE")
        forms = added.add_mutually_exclusive_group()
        forms.add_argument("--json", action="store_true", help="the answer as JSON")
        if is_table:
            forms.add_argument("--csv", action="store_true", help="the table as CSV")
        return added

    answering("best", best, "the best increases, with drawn delays and slacks before increases", is_table=True)
    answering("slacks", slacks, "the slack of each gate before increases", is_table=True)
    answering("curve", curve, "the saving for every number of spare ticks, as pairs of width and gain", is_table=True)
    judging = answering("judge", judge, "the verdict on a list of increases, one for each gate")
    judging.add_argument("increase", metavar="INCREASE", nargs="*", type=increase, help="ticks, one for each gate in order")
    judging.add_argument("--list", metavar="FILE", help="the list from a file: numbers, or what best --csv or --json wrote")
    reaching = answering("ticks", ticks, "the fewest spare ticks with which some list saves at least WANTED")
    unit = "a saving, in drop x transitions in 65,536 clock cycles"
    reaching.add_argument("wanted", metavar="WANTED", type=number_below(1 << 64), help=unit)
    explaining = command("explain", "the block and its best increases in words, or why it is refused", run=explain)
    explaining.add_argument("file", metavar="FILE")


def add_pictures_and_forms(command):
    """The commands that write a picture, a block file or a description."""

    def writing(name, text, run, *words):
        added = command(name, text, run=run)
        for word, settings in words:
            added.add_argument(word, **settings)
        added.add_argument("file", metavar="FILE")
        added.add_argument("-o", "--output", metavar="FILE", default="-", help="where to (standard output)")
        return added

    pictured = {
        "choices": ("curve", "block"),
        "metavar": "curve|block",
        "help": "the saving over spare ticks, or the gates on the time axis",
    }
    writing(
        "draw", "a picture (SVG) of the curve, or of the block with its best increases if it has any", draw, ("what", pictured)
    )
    writing("to-block", "a description to a block file", to_block)
    writing("to-text", "a block file to its description", to_text)
    importing = writing("import", "a netlist that yosys wrote (write_json) to a description", import_netlist)
    importing.add_argument("--cells", metavar="TABLE", required=True, help="delays and steps of cell types, probabilities")
    importing.add_argument("--module", metavar="NAME", help="the module, where the netlist has several")
    importing.add_argument("--arrival", metavar="TICKS", type=number_below(MAX_TIME + 1), default=0, help="0 if not given")
    importing.add_argument(
        "--deadline", metavar="TICKS", type=number_below(MAX_TIME + 1), help="the end of the longest path if not given"
    )


def parsed(arguments):
    """The options; increases may stand in front of other options and behind them."""
    top = parser()
    options, rest = top.parse_known_args(arguments)
    try:
        if rest and options.command != "judge":
            raise ArgumentTypeError(f"{' '.join(rest)} was not expected")
        if rest:
            options.increase += [increase(word) for word in rest]
    except ArgumentTypeError as reason:
        top.error(str(reason))
    return options


def run(arguments):
    options = parsed(arguments)
    inputs.check_names([getattr(options, name, None) for name in ("file", "list", "cells")], getattr(options, "output", "-"))
    return options.run(options)


def main(arguments):
    return inputs.ended("scripts/honduvi", lambda: run(arguments))

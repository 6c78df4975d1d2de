"""The command scripts/resize: the printout of document 01 for block files and descriptions, and on standard error why a file is
refused."""

import subprocess

import building
import inputs
from arguments import Parser
from inputs import ACCEPTED, REFUSED, NoAnswer
from text import shown
from words import refusal_in_words

HELP = """The best increases of block files. FILE is a block file or its description in text form (docs/FORMAT.md); - is standard
input. With several files the name of each stands in front of its lines.

For each file standard output gets

    gates 4 wires 4          the counts of gates and wires
    start 7 spare 3          the longest path without increases, and the ticks left to the deadline
    saving 1441792           what the increases save, in drop x transitions in 65,536 clock cycles
    0 2 0 3                  for each gate: number, drawn delay, increase, slack before increases

or, where the file is refused, one line 'refused NUMBER PLACE'; what is wrong is then said in words on standard error.

status 0: every file was accepted; 1: a file was refused; 2: a file got no answer (usage, it cannot be read, a description that
is at fault, output that could not be written).

The answer comes from the proved program target/bin/resize, which is proved and built first where it is missing or older than
its sources (needs the Rattle kit's command rt). scripts/honduvi has tables, pictures and the other calls.
"""


# no path is longer
MAX_PATH = 4_096


def printout(program, file):
    """What the proved program prints for a file."""
    run = subprocess.run([program], input=file, capture_output=True)
    if run.returncode != 0 or not run.stdout:
        raise NoAnswer(f"{program} ended with status {run.returncode}")
    return run.stdout


def refusal_of(printed):
    """Number and place, if a printout is a refusal's."""
    word, *numbers = printed.split()
    return tuple(int(number) for number in numbers) if word == b"refused" else None


def answer(program, name, several):
    """Prints the answer for one file; its status."""
    given = inputs.read(name)
    printed = printout(program, given.file)
    inputs.write("-", (f"{shown(name, MAX_PATH)}:\n".encode() if several else b"") + printed)
    refusal = refusal_of(printed)
    if refusal is None:
        return ACCEPTED
    for line in refusal_in_words(given.file, *refusal, netlist=given.netlist):
        inputs.say(f"{shown(name)}: {line}")
    return REFUSED


def run(arguments):
    parser = Parser(prog="scripts/resize", description=HELP)
    parser.add_argument("files", metavar="FILE", nargs="+")
    names = parser.parse_args(arguments).files
    inputs.check_names(names)
    try:
        program = building.program()
    except building.NotBuilt as reason:
        raise NoAnswer(str(reason)) from None
    return max([inputs.ended("scripts/resize", lambda: answer(program, name, len(names) > 1)) for name in names])


def main(arguments):
    return inputs.ended("scripts/resize", lambda: run(arguments))

"""Arguments of the commands: what cannot be understood gets status 2 and the usage; help that cannot be written does too."""

import argparse
import sys

import inputs
from text import is_number, shown, value_up_to


class Parser(argparse.ArgumentParser):
    def __init__(self, **settings):
        super().__init__(formatter_class=argparse.RawDescriptionHelpFormatter, allow_abbrev=False, **settings)

    # help that cannot be written must give status 2, and no message may have control characters
    def _print_message(self, message, file=None):
        if file is sys.stdout:
            inputs.write("-", message.encode())
        else:
            inputs.say("\n".join(shown(line, 400) for line in message.rstrip("\n").split("\n")))


def number_below(limit):
    """A reader of decimal numbers from 0 up to below a limit."""

    def number(word):
        value = value_up_to(word, limit - 1) if is_number(word) else limit
        if value == limit:
            raise argparse.ArgumentTypeError(f"'{shown(word)}' is not a number from 0 to {limit - 1}")
        return value

    return number

"""What a person hands over, a block file or its description, and output that must arrive."""

import contextlib
import os
import sys
import traceback
from dataclasses import dataclass

import description
from netlist import MAX_BYTES, encode
from text import shown

ACCEPTED, REFUSED, NO_ANSWER = 0, 1, 2


class NoAnswer(Exception):
    """Why there is no answer, in one line; without words where nobody would read them."""


@dataclass(frozen=True)
class Input:
    """A block file; and, where it came from a description, the netlist with the names of gates."""

    file: bytes
    netlist: object = None


@contextlib.contextmanager
def _faults_of(name):
    try:
        yield
    except BrokenPipeError:
        raise NoAnswer("") from None
    except OSError as error:
        raise NoAnswer(f"{shown(name)}: {error.strerror}") from None


def _standard(stream, name):
    """A standard stream of bytes, which the caller may have closed."""
    if stream is None:
        raise NoAnswer(f"{name} is closed")
    return stream.buffer


def check_names(names, output="-"):
    """Standard input can be read once only, and no file that is read is written."""
    if names.count("-") > 1:
        raise NoAnswer("standard input (-) can stand for one file alone")
    for name in filter(None, names):
        if os.path.exists(name) and os.path.exists(output) and os.path.samefile(name, output):
            raise NoAnswer(f"{shown(output)}: input and output are one file")


def _opened(name):
    if name == "-":
        return contextlib.nullcontext(_standard(sys.stdin, "standard input"))
    return open(name, "rb")


def read_bytes(name, most):
    """A file of at most so many bytes; `-` is standard input."""
    with _faults_of(name), _opened(name) as stream:
        data = stream.read(most + 1)
    if len(data) > most:
        raise NoAnswer(f"{shown(name)}: more than {most:,} bytes")
    return data


def read_text(name, most):
    """The same of a file that is text."""
    try:
        return read_bytes(name, most).decode("utf-8-sig")
    except UnicodeDecodeError as error:
        raise NoAnswer(f"{shown(name)}: this is no text: byte {error.start} is not UTF-8") from None


def of_description(name, data):
    """The input that a description says."""
    try:
        netlist = description.read(data)
    except description.Fault as fault:
        raise NoAnswer(fault.at(shown(name))) from None
    return Input(encode(netlist), netlist)


def read(name):
    """A block file, of which the first MAX_BYTES decide, or a description, turned into one; `-` is standard input."""
    with _faults_of(name), _opened(name) as stream:
        data = stream.read(MAX_BYTES)
        is_text = description.is_description(data)
        if is_text:
            data += stream.read(description.MAX_DESCRIPTION)
    return of_description(name, data) if is_text else Input(data)


def write(name, data):
    """Bytes to a file, or to standard output for `-`; that they arrived is made sure of."""
    if name != "-":
        with _faults_of(name), open(name, "wb") as stream:
            stream.write(data)
        return
    out = _standard(sys.stdout, "standard output")
    try:
        with _faults_of("standard output"):
            out.write(data)
            out.flush()
    except NoAnswer:
        # what is left in the buffer is not tried again at the end of the run
        os.dup2(os.open(os.devnull, os.O_WRONLY), sys.stdout.fileno())
        raise


def say(line):
    """A line to standard error, as far as somebody reads it."""
    with contextlib.suppress(OSError):
        print(line, file=sys.stderr, flush=True)


def ended(name, run):
    """The status of a run; why it has no answer is said with the name of the command in front."""
    try:
        return run()
    except NoAnswer as reason:
        if str(reason):
            say(f"{name}: {reason}")
        return NO_ANSWER
    except KeyboardInterrupt:
        return NO_ANSWER
    except OSError as error:
        say(f"{name}: {shown(str(error), 200)}")
        return NO_ANSWER
    except Exception:
        # a fault of the tool itself must not look like a refusal
        say(f"{name}: this should not happen:\n{traceback.format_exc()}")
        return NO_ANSWER

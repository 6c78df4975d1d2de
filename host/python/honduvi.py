"""Honduvi's proved calls from Python, over the shared library that `host/run shared` makes (target/host/libhonduvi.so).

    import honduvi
    library = honduvi.Library()
    with open("adder.block", "rb") as stream:
        best = library.best_increases(stream.read())
    print(best.saving, best.increases)

A refusal is raised as `Refused`, with its number and place. host/include/honduvi.h says what each number means, docs/FORMAT.md
what bytes a block file has. This file needs nothing but the library: both can be copied to one folder. Elsewhere
`Library(path)` or the environment variable HONDUVI_LIBRARY says where the library is.
"""

import ctypes
import os
from collections import namedtuple
from ctypes import POINTER, c_char_p, c_int32, c_size_t, c_uint8, c_uint32, c_uint64

NAME = "libhonduvi.so"
MAX_GATES = 200
# a curve has at most 8 pairs for each gate
MAX_PAIRS = 8 * MAX_GATES

Best = namedtuple("Best", "saving increases")


class Curve(namedtuple("Curve", "start at_start pairs")):
    """Start, the saving at start, and the pairs (width, gain)."""

    @property
    def ticks(self):
        """The spare ticks beyond which nothing more is saved."""
        return sum(width for width, _ in self.pairs)

    @property
    def most(self):
        """The saving with so many ticks."""
        return self.at_start + sum(width * gain for width, gain in self.pairs)


class Refused(Exception):
    """The file, the list or the wanted saving was refused."""

    def __init__(self, number, place):
        super().__init__(number, place)
        self.number = number
        self.place = place

    def __str__(self):
        return f"refused {self.number} {self.place}"


class _Answer(ctypes.Structure):
    _fields_ = [("number", c_uint32), ("place", c_uint32), ("saving", c_uint64)]


class _CurveAnswer(ctypes.Structure):
    _fields_ = [("number", c_uint32), ("place", c_uint32), ("start", c_uint32), ("pairs", c_uint32), ("at_start", c_uint64)]


class _TicksAnswer(ctypes.Structure):
    _fields_ = [("number", c_uint32), ("place", c_uint32), ("ticks", c_uint64)]


_FILE = [c_char_p, c_size_t]
_NUMBERS = [POINTER(c_uint32), c_size_t]
_CALLS = {
    "honduvi_best_increases": (_Answer, _FILE + [POINTER(c_uint8), c_size_t]),
    "honduvi_slacks": (_Answer, _FILE + [POINTER(c_int32), c_size_t]),
    "honduvi_curve": (_CurveAnswer, _FILE + _NUMBERS + [POINTER(c_uint64), c_size_t]),
    "honduvi_judge": (_Answer, _FILE + _NUMBERS),
    "honduvi_fewest_ticks": (_TicksAnswer, _FILE + [c_uint64]),
}


def default_path():
    """The library that HONDUVI_LIBRARY names, else the one beside this file, else the one that `host/run shared` makes."""
    here = os.path.dirname(os.path.realpath(__file__))
    beside = os.path.join(here, NAME)
    built = os.path.normpath(os.path.join(here, "..", "..", "target", "host", NAME))
    return os.environ.get("HONDUVI_LIBRARY") or (beside if os.path.exists(beside) else built)


class Library:
    """The calls of one shared library. `file` is the bytes of a block file, as bytes, bytearray or memoryview; any bytes may be
    handed over."""

    def __init__(self, path=None):
        path = path or default_path()
        if not os.path.exists(path):
            raise OSError(f"{path} is not there; in Honduvi's repository 'scripts/build library' and 'host/run shared' make it")
        self._library = ctypes.CDLL(os.path.abspath(path))
        for name, (answer, arguments) in _CALLS.items():
            function = getattr(self._library, name, None)
            if function is None:
                raise OSError(f"{path} has no {name}")
            function.restype, function.argtypes = answer, arguments

    def _call(self, name, file, *arguments):
        file = bytes(memoryview(file))
        answer = getattr(self._library, f"honduvi_{name}")(file, len(file), *arguments)
        if answer.number != 0:
            raise Refused(answer.number, answer.place)
        return answer

    def best_increases(self, file):
        """The best list of delay increases, one for each gate, and its saving."""
        lent = (c_uint8 * (4 * MAX_GATES))()
        answer = self._call("best_increases", file, lent, len(lent))
        increases = [int.from_bytes(lent[4 * gate : 4 * gate + 4], "big") for gate in range(answer.place)]
        return Best(answer.saving, increases)

    def slacks(self, file):
        """The slack of each gate before increases."""
        lent = (c_int32 * MAX_GATES)()
        return lent[: self._call("slacks", file, lent, len(lent)).place]

    def curve(self, file):
        """The saving curve: start, saving at start, and the pairs (width, gain)."""
        widths, gains = (c_uint32 * MAX_PAIRS)(), (c_uint64 * MAX_PAIRS)()
        answer = self._call("curve", file, widths, MAX_PAIRS, gains, MAX_PAIRS)
        return Curve(answer.start, answer.at_start, list(zip(widths[: answer.pairs], gains[: answer.pairs])))

    def judge(self, file, increases):
        """The saving of a proposed list of increases; each is 0 to 2^32 - 1, and those beyond the gates are not read."""
        if any(not 0 <= increase < 1 << 32 for increase in increases):
            raise ValueError("an increase has 32 bits")
        lent = (c_uint32 * len(increases))(*increases)
        return self._call("judge", file, lent, len(lent)).saving

    def fewest_ticks(self, file, wanted):
        """The fewest spare ticks with which some list saves at least `wanted`, 0 to 2^64 - 1."""
        if not 0 <= wanted < 1 << 64:
            raise ValueError("a wanted saving has 64 bits")
        return self._call("fewest_ticks", file, wanted).ticks

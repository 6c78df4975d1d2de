"""Runs the scripts as a person does, in a folder of their own with the block files that the tests speak of."""

import shutil
import subprocess
import tempfile
import unittest
from pathlib import Path

from building import ROOT
from description import read
from netlist import encode

# diamond D of document 01 with names; its bytes are those of examples/diamond.block
DIAMOND = """block arrival 0 deadline 10 p 128
gate 0 name source delay 2 p 128
gate 1 name slow delay 3 p 128 steps (2,5) (3,2)
gate 2 name fast delay 1 p 128 steps (4,4)
gate 3 name join delay 2 p 128 steps (5,6)
wires 0-1 0-2 1-3 2-3
"""
BRIDGE = DIAMOND.replace("0-1 0-2", "0-1 0-2 1-2")
LATE = DIAMOND.replace("deadline 10", "deadline 6")


class ScriptTest(unittest.TestCase):
    maxDiff = None

    def setUp(self):
        folder = tempfile.TemporaryDirectory()
        self.addCleanup(folder.cleanup)
        self.folder = Path(folder.name)
        shutil.copy(ROOT / "examples" / "diamond.block", self.folder / "d.block")
        self.write("d.text", DIAMOND)

    def write(self, name, content):
        (self.folder / name).write_bytes(content if isinstance(content, bytes) else content.encode())
        return name

    def block(self, name, text):
        """A block file of a description, without names."""
        return self.write(name, encode(read(text.encode())))

    def run_script(self, script, *arguments, given=b"", **settings):
        """Status, standard output and standard error of a run; none of them ever holds a traceback."""
        settings = {"stdout": subprocess.PIPE, "stderr": subprocess.PIPE, "cwd": self.folder, **settings}
        run = subprocess.run([ROOT / "scripts" / script, *arguments], input=given, **settings)
        errors = run.stderr.decode()
        self.assertNotIn("Traceback", errors)
        return run.returncode, (run.stdout or b"").decode(), errors

    def held(self, found, status, output, errors=""):
        self.assertEqual(found, (status, output, errors))

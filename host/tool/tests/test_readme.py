"""README's commands print what README says, and its pictures are those that they draw. Needs target/bin/resize and
target/host/libhonduvi.so."""

import subprocess
import tempfile
import unittest
from pathlib import Path

from building import ROOT

INDENT = "    "


def sessions():
    """The commands of README with what they are to print: lines that begin with `$ `, and the lines up to the next."""
    found = []
    for line in (ROOT / "README.md").read_text().splitlines():
        if line.startswith(f"{INDENT}$ "):
            found.append([line[len(INDENT) + 2 :], []])
        elif found and found[-1] and line.startswith(INDENT):
            found[-1][1].append(line[len(INDENT) :])
        else:
            found.append([])
    return [(command, "".join(line + "\n" for line in lines)) for command, lines in filter(None, found)]


class Readme(unittest.TestCase):
    maxDiff = None

    def test_commands(self):
        with tempfile.TemporaryDirectory() as name:
            folder = Path(name)
            for part in ("scripts", "examples", "host", "target"):
                (folder / part).symlink_to(ROOT / part)
            commands = sessions()
            self.assertGreater(len(commands), 10)
            for command, output in commands:
                # a file of the reader's own is the one that README shows
                word, _, shown = command.partition(" ")
                if word == "cat" and not (folder / shown).exists():
                    (folder / shown).write_text(output)
                run = subprocess.run(
                    ["bash", "-c", command], cwd=folder, stdout=subprocess.PIPE, stderr=subprocess.STDOUT, text=True
                )
                with self.subTest(command=command):
                    self.assertEqual(run.stdout, output)
            for picture in ("block.svg", "curve.svg"):
                self.assertEqual((folder / picture).read_text(), (ROOT / "docs" / "pictures" / picture).read_text(), picture)


if __name__ == "__main__":
    unittest.main()

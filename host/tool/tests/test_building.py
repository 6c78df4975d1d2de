"""Tests of the first run of scripts/resize, and of when it builds again, with a stand-in for the toolchain in a copy of the
scripts."""

import re
import shutil
import subprocess
import tempfile
import time
import unittest
from pathlib import Path

from building import ROOT, needs, proved_in

# proves two of three crates, as if the other were unchanged, writes a program that refuses everything and runs it; where
# `fails` stands, it fails
TOOLCHAIN = """#!/bin/sh
echo "${PWD##*/}: $*" >> "$0.calls"
exec 3>&1 >&2
echo "note: details of the proof"
echo "rt: chose --jobs 2 for lists"
[ -e "$0.fails" ] && { echo "logic=not-proved functions=1"; exit 1; }
echo "logic=proved functions=1"
echo "rt: chose --jobs 2 for resize"
echo "logic=proved functions=1"
mkdir -p out
[ -e "$0.keeps" ] || printf '#!/bin/sh\\ncat > /dev/null\\necho refused 1 0\\n' > out/resize
chmod +x out/resize
out/resize >&3
"""

CRATES = "# crates\nlists:\nmodel: lists\nother: model\nresize_c staticlib: resize\nresize: model io\n"


class FirstRun(unittest.TestCase):
    def setUp(self):
        folder = tempfile.TemporaryDirectory()
        self.addCleanup(folder.cleanup)
        self.root, self.tools = Path(folder.name) / "copy", Path(folder.name) / "tools"
        self.tools.mkdir()
        for part in ("scripts", "host/tool", "host/python"):
            shutil.copytree(ROOT / part, self.root / part, ignore=shutil.ignore_patterns("tests", "__pycache__"))
        (self.root / "crates.txt").write_text(CRATES)
        for crate in ("lists", "model", "other", "resize"):
            (self.root / "crates" / crate / "src").mkdir(parents=True)
            (self.root / "crates" / crate / "src" / "lib.rt").write_text("//\n")
        (self.root / "empty.block").write_bytes(b"")
        self.toolchain = self.tools / "rt"
        self.toolchain.write_text(TOOLCHAIN)
        self.toolchain.chmod(0o755)
        for name in ("bash", "sh", "python3", "readlink", "dirname", "cat", "mkdir", "chmod", "cp", "mv"):
            (self.tools / name).symlink_to(shutil.which(name))

    def resize(self, script="scripts/resize"):
        return subprocess.run(
            [self.root / script, self.root / "empty.block"],
            capture_output=True,
            text=True,
            env={"PATH": str(self.tools)},
            cwd=self.tools,
        )

    def calls(self):
        calls = Path(f"{self.toolchain}.calls")
        return calls.read_text().splitlines() if calls.exists() else []

    def touch(self, crate):
        time.sleep(0.02)
        (self.root / "crates" / crate / "src" / "lib.rt").write_text("// written again\n")

    def test_a_line_a_crate_with_count_and_time_and_the_rest_to_a_log(self):
        run = self.resize()
        self.assertEqual((run.returncode, run.stdout), (1, "refused 1 0\n"))
        lines = re.sub(r"\d+:\d\d so far", "TIME", run.stderr).splitlines()
        self.assertIn("3 crates", lines[0])
        self.assertIn("target/tool/resize.log", lines[0])
        self.assertEqual(
            lines[1:3],
            ["[ 1/3] lists proved, 0 s; TIME", "[ 2/3] resize proved, 0 s; TIME"],
        )
        self.assertEqual(len(lines), 4)
        self.assertIn("the file is empty", lines[3])
        self.assertIn("note: details of the proof", (self.root / "target/tool/resize.log").read_text())

    def test_the_second_run_proves_nothing(self):
        self.resize()
        run = self.resize()
        self.assertEqual(self.calls(), ["resize: run"])
        self.assertEqual(len(run.stderr.splitlines()), 1)

    def test_a_newer_source_is_proved_again_and_once(self):
        self.resize()
        Path(f"{self.toolchain}.keeps").touch()
        self.touch("model")
        self.resize()
        self.resize()
        self.assertEqual(self.calls(), ["resize: run"] * 2)

    def test_a_source_that_is_gone_counts_as_a_change(self):
        (self.root / "crates/model/src/more.rt").write_text("//\n")
        self.resize()
        time.sleep(0.02)
        (self.root / "crates/model/src/more.rt").unlink()
        self.resize()
        self.assertEqual(self.calls(), ["resize: run"] * 2)

    def test_a_crate_that_it_does_not_need_plays_no_part(self):
        self.resize()
        self.touch("other")
        self.resize()
        self.assertEqual(self.calls(), ["resize: run"])

    def test_a_failing_proof_is_no_answer(self):
        Path(f"{self.toolchain}.fails").touch()
        run = self.resize()
        self.assertEqual((run.returncode, run.stdout), (2, ""))
        self.assertEqual(
            run.stderr.splitlines()[-1],
            f"scripts/resize: 'scripts/build program' failed; {self.root.resolve()}/target/tool/resize.log says why",
        )

    def test_what_cannot_be_read_or_run_is_no_answer(self):
        (self.root / "crates.txt").rename(self.root / "crates.text")
        run = self.resize()
        self.assertEqual((run.returncode, run.stdout, len(run.stderr.splitlines())), (2, "", 1))
        self.assertIn("crates.txt", run.stderr)
        (self.root / "crates.text").rename(self.root / "crates.txt")
        self.resize()
        (self.root / "target/bin/resize").chmod(0o644)
        run = self.resize()
        self.assertEqual((run.returncode, run.stdout, len(run.stderr.splitlines())), (2, "", 1))
        self.assertIn("target/bin/resize", run.stderr)

    def test_a_missing_toolchain_or_python_is_said_in_one_line(self):
        self.toolchain.unlink()
        run = self.resize()
        self.assertEqual((run.returncode, run.stderr), (2, "scripts/resize: rt, the Rattle kit's command, is not installed\n"))
        (self.tools / "python3").unlink()
        (self.tools / "python3").write_text("#!/bin/sh\nexit 1\n")
        (self.tools / "python3").chmod(0o755)
        run = self.resize()
        self.assertEqual((run.returncode, run.stderr), (2, "scripts/resize: python3 is too old; 3.9 or newer is needed\n"))
        (self.tools / "python3").unlink()
        run = self.resize()
        self.assertEqual((run.returncode, run.stderr), (2, "scripts/resize: python3 is not installed\n"))

    def test_through_a_link(self):
        (self.root / "link").symlink_to(self.root / "scripts" / "resize")
        (self.root / "second").symlink_to("link")
        self.assertEqual(self.resize("second").stdout, "refused 1 0\n")


class Lines(unittest.TestCase):
    def test_which_lines_of_the_toolchain_are_about_a_crate(self):
        begun, proved = "rt: chose --jobs 2 for {}", "logic=proved functions=1 sum=dac8208d650f15bf"
        model, lists = begun.format("model"), begun.format("lists")
        self.assertEqual(list(proved_in(["only=0 proved=0", lists, "fn lists::at: proved", proved, model, proved])), ["lists", "model"])
        self.assertEqual(list(proved_in([lists, "logic=not-proved functions=1", model, proved])), ["model"])
        for lines in ([lists], [proved], [lists, f"note: {proved}"], [f"note: {lists}", proved], [proved, lists, ""]):
            self.assertEqual(list(proved_in(lines)), [])
        self.assertEqual(list(proved_in([lists, proved, proved])), ["lists"])


class Needs(unittest.TestCase):
    def test_of_the_repository(self):
        self.assertLessEqual({"resize", "printing", "model", "lists", "heads"}, needs(ROOT, "resize"))
        self.assertLessEqual({"layout_c", "layout", "resizing"}, needs(ROOT, "layout_c"))
        self.assertNotIn("cases", needs(ROOT, "resize"))
        self.assertNotIn("io", needs(ROOT, "resize"))


if __name__ == "__main__":
    unittest.main()

"""Proves and builds the printing program and the shared library where they are missing or a source is newer. A line a crate
goes to standard error, with count and time; what the toolchain says goes to a log."""

import fcntl
import os
import re
import shutil
import subprocess
import time
from contextlib import contextmanager
from pathlib import Path

from inputs import say

ROOT = Path(__file__).resolve().parents[2]
TARGET = ROOT / "target"
PROGRAM = TARGET / "bin" / "resize"
ARCHIVE = TARGET / "staticlib" / "liblayout.a"
LIBRARY = TARGET / "host" / "libhonduvi.so"
# what `rt` says as it begins with a crate, and the prover's last line of a crate that is proved
BEGUN = re.compile(r"rt: chose --jobs \d+ for (\S+)$")
PROVED = re.compile(r"logic=proved\b")


class NotBuilt(Exception):
    """Why there is nothing to run, in one line."""


def needs(root, name):
    """The crates of the repository that a crate needs, itself included."""
    listed = {}
    for line in (root / "crates.txt").read_text().splitlines():
        crate, colon, needed = line.partition("#")[0].partition(":")
        if colon:
            listed[crate.split()[0]] = needed.split()
    found, open_crates = set(), [name]
    while open_crates:
        crate = open_crates.pop()
        if crate in listed and crate not in found:
            found.add(crate)
            open_crates.extend(listed[crate])
    return found


def sources(root, crates):
    """The files that the proofs and the code of these crates are in, and their folders, which change where a file goes."""
    yield root / "crates.txt"
    for crate in crates:
        for part in ("src", "specs", "proofs"):
            yield root / "crates" / crate / part
            yield from (root / "crates" / crate / part).rglob("*")


def changed(path):
    """When a file was last written, 0 if it is not there."""
    return path.stat().st_mtime_ns if path.exists() else 0


def is_stale(product, stamp, files):
    """Whether a product is missing, or some file is newer than it and than the last time it was found to be up to date."""
    return not product.exists() or any(changed(file) > max(changed(product), changed(stamp)) for file in files)


def proved_in(lines):
    """The crates that the toolchain's lines say are proved, in turn; one that is unchanged has no lines."""
    crate = None
    for line in lines:
        begun = BEGUN.match(line)
        if begun:
            crate = begun.group(1)
        elif crate and PROVED.match(line):
            yield crate
            crate = None


def told(crate, took, count, total, so_far):
    """What the person is told of a crate; times in seconds."""
    took, so_far = int(took), int(so_far)
    return f"[{count:2}/{total}] {crate} proved, {took} s; {so_far // 60}:{so_far % 60:02} so far"


def written(lines, stream):
    """The lines, each written to a stream and without its end."""
    for line in lines:
        stream.write(line)
        yield line.rstrip()


def follow(command, log, total):
    """Runs a command, its output to the log; says a line for each crate that it proves. Its status."""
    began = last = time.monotonic()
    with open(log, "w") as stream:
        streams = {"stdin": subprocess.DEVNULL, "stdout": subprocess.PIPE, "stderr": subprocess.STDOUT}
        run = subprocess.Popen(command, cwd=ROOT, text=True, errors="replace", **streams)
        for count, crate in enumerate(proved_in(written(run.stdout, stream)), 1):
            now = time.monotonic()
            say(told(crate, now - last, count, total, now - began))
            last = now
        return run.wait()


@contextmanager
def alone():
    """Where several commands run at once, one builds and the others wait for it."""
    (TARGET / "tool").mkdir(parents=True, exist_ok=True)
    with open(TARGET / "tool" / "lock", "w") as lock:
        fcntl.flock(lock, fcntl.LOCK_EX)
        yield


def prove(crate, part, product):
    """Proves a crate and what it needs and makes the product, a part of scripts/build, unless that is up to date."""
    crates = needs(ROOT, crate)
    stamp = TARGET / "tool" / f"{crate}.stamp"
    if not is_stale(product, stamp, sources(ROOT, crates)):
        return
    if shutil.which("rt") is None:
        raise NotBuilt("rt, the Rattle kit's command, is not installed")
    if not (ROOT / "crates" / crate).is_dir():
        raise NotBuilt(f"crates/{crate} is not there")
    with alone():
        if not is_stale(product, stamp, sources(ROOT, crates)):
            return
        log = TARGET / "tool" / f"{crate}.log"
        say(f"proving and building {crate}, once: {len(crates)} crates, some minutes; {log.relative_to(ROOT)} has the details")
        began = time.time_ns()
        if follow([ROOT / "scripts" / "build", part], log, len(crates)) != 0 or not product.exists():
            raise NotBuilt(f"'scripts/build {part}' failed; {log} says why")
        stamp.touch()
        os.utime(stamp, ns=(began, began))


def program():
    """The printing program, up to date."""
    prove("resize", "program", PROGRAM)
    return PROGRAM


def library():
    """The shared library, up to date."""
    prove("layout_c", "library", ARCHIVE)
    if is_stale(LIBRARY, LIBRARY, [ARCHIVE]):
        with alone():
            made = subprocess.run(
                [ROOT / "host" / "run", "shared"], stdout=subprocess.PIPE, stderr=subprocess.STDOUT, text=True
            )
        if made.returncode != 0:
            raise NotBuilt("; ".join(made.stdout.split("\n")[-4:]).strip("; ") or "host/run shared failed")
    return LIBRARY

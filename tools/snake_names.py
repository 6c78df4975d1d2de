#!/usr/bin/env python3
"""Spells the repository's own definitions and lemmas in snake case: gate-count becomes gate_count.

usage: python3 tools/snake_names.py                 at the top of the repository
       python3 tools/snake_names.py --docs COMMIT   the same of README.md, docs/ and host/, by the names that stood in COMMIT

Reads crates/*/specs and crates/*/proofs, and rewrites them, the contracts in crates/*/src and the must-fail edits in place.
With --docs it rewrites what stands between backticks, in pages alone.
Names that come from the kit's libraries keep their dashes, as do those that Rattle makes in proofs/F/ (returns-2, loop-i-preserved).
Comments keep their words, but for what stands between backticks.
"""
import os
import re
import subprocess
import sys
import tempfile

TOKEN = re.compile(r"[^\s(){}\[\];,.\"`«»@]+")
PROOF = ("Proof.antt", "Answers.antt", "Invariants.antt")
# Names of the kit's that are reached through their module, as Memᴰ.not-nil.
KITS = {"not-nil"}


def files(root, *endings):
    for folder, dirs, names in os.walk(os.path.join(root, "crates")):
        dirs[:] = sorted(d for d in dirs if d != "out")
        for name in sorted(names):
            if name.endswith(endings):
                yield os.path.join(folder, name)


def of_function(path):
    return os.path.basename(path) in PROOF


def code_of(line, mark):
    """The line's code and its comment."""
    at = re.search(r"(^|\s)" + mark + r"( |$)", line)
    return (line[: at.start()], line[at.start() :]) if at else (line, "")


def is_name(token):
    return "-" in token and re.search(r"[^\W\d_]", token) and not token.startswith(("-", "◌"))


def gather(root):
    kits, own = set(KITS), set()
    for path in files(root, ".antt"):
        if of_function(path):
            continue
        with open(path, encoding="utf-8") as f:
            for line in f:
                found = re.match(r"use ([\w.\-+']+)\.\{(.*)\}", line)
                if found and not found.group(1).startswith("Rattle."):
                    kits.update(TOKEN.findall(found.group(2)))
                elif found and found.group(1).startswith(("Rattle.std.", "Rattle.core.")):
                    kits.update(TOKEN.findall(found.group(2)))
                elif not found:
                    own.update(t for t in TOKEN.findall(code_of(line, "--")[0]) if is_name(t))
    return own - kits


def snake(own, text):
    """The kit's getD is get_or today, in own names too."""
    return TOKEN.sub(lambda m: m.group(0).replace("-", "_").replace("getD_", "get_or_") if m.group(0) in own else m.group(0), text)


def in_ticks(own, text):
    return re.sub(r"`[^`]*`", lambda m: snake(own, m.group(0)), text)


def turned(own, text, mark):
    lines = []
    for line in text.split("\n"):
        code, comment = code_of(line, mark)
        lines.append(snake(own, code) + in_ticks(own, comment))
    return "\n".join(lines)


def pages(root):
    yield os.path.join(root, "README.md")
    for top in ("docs", "host"):
        for folder, _, names in os.walk(os.path.join(root, top)):
            yield from (os.path.join(folder, n) for n in sorted(names) if n.endswith(".md"))


def rewrite(path, turn):
    with open(path, encoding="utf-8") as f:
        text = f.read()
    new = turn(text)
    if new != text:
        with open(path, "w", encoding="utf-8") as f:
            f.write(new)


def names_of(commit):
    with tempfile.TemporaryDirectory() as folder:
        archive = subprocess.run(["git", "archive", commit, "crates"], stdout=subprocess.PIPE, check=True).stdout
        subprocess.run(["tar", "-x", "-C", folder], input=archive, check=True)
        return gather(folder)


def main(argv):
    root = os.getcwd()
    if argv[:1] == ["--docs"]:
        own = names_of(argv[1])
        for path in pages(root):
            rewrite(path, lambda text: in_ticks(own, text))
        return 0
    own = gather(root)
    for path in files(root, ".antt", ".rt"):
        rewrite(path, lambda text: turned(own, text, "--" if path.endswith(".antt") else "//"))
    for path in files(root, ".edit"):
        rewrite(path, lambda text: "\n".join(snake(own, l) if l.startswith(("old:", "new:")) else in_ticks(own, l) for l in text.split("\n")))
    return 0


if __name__ == "__main__":
    raise SystemExit(main(sys.argv[1:]))

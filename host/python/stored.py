"""The two files of a program of stored cases: DIR/stdin, which it reads, and DIR/stdout, which it must print."""
import sys
from pathlib import Path


def store(given, said, most_bytes):
    """With the argument DIR: writes the two files. With --check DIR: ends with a line if they are not what would be written.
    The program reads its input into a buffer of so many bytes."""
    assert len(given) <= most_bytes
    script, *words = sys.argv
    check = words[:1] == ["--check"]
    if len(words) != 1 + check:
        sys.exit("usage: %s [--check] DIR" % script)
    for name, content in (("stdin", given), ("stdout", said.encode())):
        path = Path(words[-1]) / name
        if not check:
            path.write_bytes(content)
        elif not path.exists() or path.read_bytes() != content:
            sys.exit("%s is not what %s writes" % (path, script))

"""Runs the program mktree (document 01, "mktree reads a table from standard input") and gives back what it prints."""

import sys
from pathlib import Path

import running

DEFAULT_PATH = Path(__file__).resolve().parent.parent / "target" / "bin" / "mktree"
MOST_BYTES = 65536


def path_from_arguments(position=1):
    """The binary named on the command line, else the usual one."""
    path = Path(sys.argv[position]) if len(sys.argv) > position else DEFAULT_PATH
    if not path.is_file():
        sys.exit(f"no program at {path}")
    return path


def text_of(path, data):
    """What mktree prints for these bytes on its standard input; nothing may be printed elsewhere."""
    return running.output_of(path, data).decode("ascii", errors="replace")


def shortened(text):
    lines = text.split("\n")
    return text if len(lines) <= 12 else "\n".join(lines[:6] + [f"... {len(lines) - 12} lines ..."] + lines[-6:])


def stop_at_difference(name, data, expected, seen):
    """Ends the test with exit status 1 if the two texts differ."""
    if seen == expected:
        return
    print(f"difference: {name}, {len(data)} bytes, beginning with {data[:256].hex(' ', 4)}")
    for number, (one, other) in enumerate(zip(expected.split("\n"), seen.split("\n"))):
        if one != other:
            print(f"line {number}: expected {one!r}, seen {other!r}")
            break
    print(f"expected:\n{shortened(expected)}\nseen:\n{shortened(seen)}")
    sys.exit(1)

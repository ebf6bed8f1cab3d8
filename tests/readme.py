"""Runs the lines of README.md, in order, and compares what they print with what the page shows below them.

The lines run in the repository itself, as a newcomer's do, so they build what they say; in tests/run that is done already.

Usage: readme.py. Exits with status 1 at the first difference.
"""

import subprocess
import sys

from doc_commands import ROOT, commands

PAGE = "../README.md"       # from docs/
LEAST = 8


def run(command):
    """What a line prints; its status must be 0."""
    done = subprocess.run(["bash", "-c", "set -o pipefail\n" + command.text], stdin=subprocess.DEVNULL, cwd=ROOT, capture_output=True, text=True)
    if done.returncode != 0 or done.stderr:
        sys.exit(f"README.md:{command.line}: {command.text}\nstatus {done.returncode}\n{done.stdout[-2000:]}{done.stderr[-2000:]}")
    return done.stdout.split("\n")[:-1]


def main():
    listed = commands(PAGE)
    if len(listed) < LEAST:
        sys.exit(f"README.md has {len(listed)} commands only")
    for command in listed:
        seen = run(command)
        if seen != command.printed:
            sys.exit("\n".join([f"README.md:{command.line}: {command.text}", "the page shows:", *command.printed, "it prints:", *seen]))
    print(f"readme good: {len(listed)} commands")


main()

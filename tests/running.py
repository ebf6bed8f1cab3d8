"""Runs a program on bytes and gives back what it prints. Anything but a plain end is a failed test: a status that is not 0, a word on
standard error, or more time of the processor than a program that ends needs (the clock is not looked at: the machine may be busy).

Usage: running.py. Shows that each bad end is noticed.
"""

import resource
import subprocess
import sys
import tempfile
from pathlib import Path

PROCESSOR_SECONDS = 120


def limited_to(seconds):
    return lambda: resource.setrlimit(resource.RLIMIT_CPU, (seconds, seconds))


def output_of(path, data, seconds=PROCESSOR_SECONDS):
    """What the program prints for these bytes on its standard input."""
    # An input over the limit may be left unread, so the program may end before it has taken all of it.
    done = subprocess.run([str(path)], input=data, stdout=subprocess.PIPE, stderr=subprocess.PIPE, preexec_fn=limited_to(seconds))
    if done.returncode != 0 or done.stderr:
        sys.exit(f"{path} ended with status {done.returncode}; on standard error: {done.stderr.decode(errors='replace')!r}")
    return done.stdout


BAD_ENDS = {"a status": "cat; exit 3", "standard error": "cat; echo no >&2", "a signal": "cat; kill -TERM $$", "no end": "while :; do :; done"}


def is_stopped(path, text):
    path.write_text(f"#!/bin/sh\n{text}\n")
    path.chmod(0o755)
    try:
        return output_of(path, b"some bytes", seconds=1) != b"some bytes"
    except SystemExit:
        return True


def main():
    with tempfile.TemporaryDirectory() as folder:
        if is_stopped(Path(folder) / "good", "cat"):
            sys.exit("a good end is taken for a bad one")
        for number, (what, text) in enumerate(BAD_ENDS.items()):
            if not is_stopped(Path(folder) / str(number), text):
                sys.exit(f"not noticed: {what}")
    print(f"running good: {len(BAD_ENDS)} of {len(BAD_ENDS)} bad ends noticed")


if __name__ == "__main__":
    main()

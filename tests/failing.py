"""Each program ends with status 1 and a word on standard error, and prints nothing, if its input can't be read; the same if what it prints
can't be written.

Usage: failing.py [path of mktree, probe, upper and compare]. Exits with status 1 if a program does otherwise.
"""

import subprocess
import sys
from pathlib import Path

ROOT = Path(__file__).resolve().parent.parent
READERS = ["mktree", "probe", "upper"]
WRITERS = {"mktree": "examples/worked.table", "probe": "examples/worked.requests", "upper": "/dev/null", "compare": "/dev/null"}
# Cases: the program, how its input and its output are opened.
UNREAD = [(name, "< .") for name in READERS] + [(name, "<&-") for name in READERS]
UNWRITTEN = [(name, f"< {data} {to}") for name, data in WRITERS.items() for to in ("> /dev/full", ">&-")]


def run(path, files):
    return subprocess.run(["bash", "-c", f'"$1" {files}', "bash", str(path)], cwd=ROOT, capture_output=True, text=True, timeout=120)


def main():
    paths = dict(zip(WRITERS, sys.argv[1:] or [ROOT / "target" / "bin" / name for name in WRITERS], strict=True))
    for name, files in UNREAD + UNWRITTEN:
        done = run(paths[name], files)
        if done.returncode != 1 or done.stdout or not done.stderr:
            sys.exit(f"{name} {files}: status {done.returncode}, prints {done.stdout[:200]!r}, on standard error {done.stderr[:200]!r}")
    for name, data in WRITERS.items():
        done = run(paths[name], f"< {data}")
        if done.returncode != 0 or done.stderr or not done.stdout:
            sys.exit(f"{name} < {data}: status {done.returncode}, on standard error {done.stderr[:200]!r}")
    print(f"failing good: {len(UNREAD)} inputs that can't be read, {len(UNWRITTEN)} outputs that can't be written")


main()

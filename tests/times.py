"""Prints how long each part of the gate took, from what rt ci printed and from the times that tests/run wrote.

Usage: times.py file_of_rt_ci file_of_times. The first has what rt ci printed, each line after the seconds until it came. rt proves crates and
tries edits side by side, and says no times; so of a proof it is told how long after those of the crates below it ended, and of the edits
how many there are, and how long all that came after the last proof took. The second file has a line for each test: milliseconds, and its name.
Exits with status 1 if there is nothing of some sort.
"""

import re
import sys
from collections import Counter
from pathlib import Path

NOTED = re.compile(r"^(\d+) (.*)$")
PROVED = re.compile(r"^rt: (\w+) (proved$|is kept: )")
TRIED = re.compile(r"^rt: must-fail (\w+)/[\w.-]+: refused")
EARLIER = re.compile(r"^rt: (\w+): (\d+) of its \d+ must-fail edits were tried by an earlier run")
TESTED = re.compile(r"^(\d+) (?:tests/)?(.*)$")
CRATES = Path(__file__).resolve().parent.parent / "crates.txt"


def stop_without(what, found):
    if not found:
        sys.exit(f"times.py: nothing of {what}")


def listed(counts, name_of=str):
    return ", ".join(f"{name_of(name)} {count:.0f}" for name, count in counts.most_common())


def depends():
    """What each crate depends on, by crates.txt."""
    rows = [line.partition("#")[0].partition(":") for line in CRATES.read_text(encoding="utf-8").split("\n")]
    return {name.split()[0]: rest.split() for name, _, rest in rows if name.strip()}


def proof_times(lines):
    """When each crate was proved, and the crates that an earlier run proved."""
    ended, kept = {}, set()
    for seconds, line in lines:
        found = PROVED.match(line)
        if found:
            ended[found[1]] = seconds
            if found[2] != "proved":
                kept.add(found[1])
    return ended, kept


def show_proofs(lines):
    """Gives back when the last proof ended."""
    ended, kept = proof_times(lines)
    stop_without("proofs", ended)
    below = depends()
    took = Counter({name: end - max([ended.get(other, 0) for other in below.get(name, [])], default=0) for name, end in ended.items() if name not in kept})
    print(f"{len(ended)} crates proved after {max(ended.values())} s, {len(kept)} of them by an earlier run; seconds after the crates below, with the wait "
          f"for a processor: {listed(took) or 'none'}")
    return max(ended.values())


def show_edits(lines, proved):
    tried = Counter(found[1] for _, line in lines if (found := TRIED.match(line)))
    earlier = sum(int(found[2]) for _, line in lines if (found := EARLIER.match(line)))
    stop_without("edits", tried)
    print(f"{tried.total()} edits refused, {earlier} of them in an earlier run; {lines[-1][0] - proved} s from the last proof to the end of rt ci: {listed(tried)}")


def show_tests(lines):
    seconds = Counter({found[2]: int(found[1]) / 1000 for found in filter(None, map(TESTED.match, lines))})
    stop_without("tests", seconds)
    print(f"{len(seconds)} tests: {seconds.total():.0f} s: {listed(seconds)}")


def main():
    said, tested = (Path(name).read_text(encoding="utf-8", errors="replace").split("\n") for name in sys.argv[1:])
    lines = [(int(found[1]), found[2]) for found in filter(None, map(NOTED.match, said))]
    show_edits(lines, show_proofs(lines))
    show_tests(tested)


if __name__ == "__main__":
    main()

"""Times mktree and the same algorithm in C (generate.c) as processes, on the tables of tests/hardest.py and some more. On the same tables
sizing against generating into 16,384 words, both as requests of probe; and mktree on a table of kind 6 against the same without cycles.

Usage: generate.py mktree program probe directory [compare | instructions]. First the two must print the same bytes for each table and for its
twin with cycles, and the size must be that of the tree, or the same refusal; with `compare` that is all. From each time that of a table
without entries is subtracted: starting a process, and printing what it prints anyway. With `instructions` valgrind counts them instead, which
no load of the machine changes.

With MKTREE_BEFORE=path in the environment an older mktree is run too, on the tables of kind 1, in the same turns. It must print the same,
but of a table that is refused because an entry is not reached (19): there it may print a tree, as before there was that number.
"""

import functools
import os
import random
import re
import subprocess
import sys
from dataclasses import dataclass
from pathlib import Path
from statistics import median

sys.path.insert(0, str(Path(__file__).resolve().parent.parent / "tests"))

import hardest
import mktree
import running
from probe import pack, request_bytes
from programs import load, take_turns
from second import examples, tables, twins

REPEATS = 15
LEAST_MS = 0.4              # what takes C less is compared but gives no ratio: the start of a process varies too much
NO_ENTRIES = [0x10000020]


def eight_bits():
    """256 entries without fields or conditions, one for each word of eight bits: 511 nodes."""
    return [0x11000008] + [word for value in range(256) for word in (0x20000800, 0xFF, value)]


def cases():
    """(name, words of the table)"""
    yield "worked", examples.WORKED
    yield "256 words of 8 bits", eight_bits()
    yield "a deep tie", tables.lay_out(tables.full_tree_plan(random.Random(1), 32, 13)).words
    # Neither entry is reached, but each leaf is a conflict: ambiguity is decided before that.
    yield "a deep tie twice, ambiguous", tables.lay_out(tables.full_tree_plan(random.Random(1), 32, 13, twice=True)).words
    yield "0-- and -00, ambiguous", examples.MORE_MASK_BITS
    yield "printed", examples.PRINTED + []
    yield "every kind", examples.EVERY_KIND
    for name, plan, _, _ in hardest.cases(random.Random(hardest.SEED), tables.PLAIN):
        yield name, tables.lay_out(plan).words


def with_room(words):
    """The table; without its first entries where that much must go to make room for the cycles of the others."""
    heads = [*(head for head, _ in twins.spans(words)), len(words)]
    entries, gone = len(heads) - 1, 0
    while 1 + len(words) - heads[gone] + entries - gone > tables.MOST_WORDS:
        gone += 1
    return [words[0] - (gone << 16), *words[heads[gone]:]]


@dataclass(frozen=True)
class Case:
    """A table's name and its files: the table, of kind 1; the requests to size its tree and to make it; the table with room for cycles,
    mostly the same one; and that one's twin with cycles."""
    name: str
    table: Path
    sizing: Path
    making: Path
    roomy: Path
    twin: Path


def write_case(directory, number, name, words):
    def written(suffix, data):
        file = directory / f"{number}.{suffix}"
        file.write_bytes(data)
        return file

    table, roomy = written("table", pack(words)), with_room(words)
    return Case(name, table, written("sizing", request_bytes(("measure", words))),
                written("making", request_bytes(("generate", words, [0] * 16384))),
                table if roomy == words else written("roomy", pack(roomy)),
                written("twin", pack(twins.twin_of(random.Random(number), roomy))))


def write_cases(directory):
    """The case of the table without entries, then the others."""
    return [write_case(directory, number, name, words) for number, (name, words) in enumerate([("no entries", NO_ENTRIES), *cases()])]


@dataclass(frozen=True)
class Programs:
    mktree: str
    in_c: str
    probe: str
    before: str     # an older mktree, or None


def comparisons(programs, case):
    """What is set against what: the two names, and a run for each, which is a program and its file."""
    pairs = {("mktree", "C"): ((programs.mktree, case.table), (programs.in_c, case.table)),
             ("sized", "made"): ((programs.probe, case.sizing), (programs.probe, case.making)),
             ("kind 6", "kind 1"): ((programs.mktree, case.twin), (programs.mktree, case.roomy))}
    if programs.before:
        pairs["now", "before"] = (programs.mktree, case.table), (programs.before, case.table)
    return pairs


def sized_as(text):
    """How probe's line begins for the size of the tree that mktree printed, or for what it refused."""
    words = text.split("\n")[0].split()
    if words[0] == "refused":
        return f"12 {' '.join(words[1:])}\n"
    return f"12 0 0 00000000 {int(words[1], 16) & 0xFFFF} "


def require_same_lines(case, file, programs):
    """All of them print the same for the file; that text."""
    data = file.read_bytes()
    text = mktree.text_of(programs[0], data)
    for other in programs[1:]:
        mktree.stop_at_difference(f"{case.name}, {file.suffix[1:]}, {other}", data, text, mktree.text_of(other, data))
    return text


def require_older_lines(case, older, text):
    """The older mktree prints the same; or a tree, where the table is refused with 19 now."""
    data = case.table.read_bytes()
    seen = mktree.text_of(older, data)
    if not text.startswith("refused 19 ") or seen.startswith("refused "):
        mktree.stop_at_difference(f"{case.name}, {older}", data, text, seen)


def compare(programs, made):
    for case in made:
        text = require_same_lines(case, case.table, [programs.mktree, programs.in_c])
        if programs.before:
            require_older_lines(case, programs.before, text)
        roomy, twin = (require_same_lines(case, file, [programs.mktree, programs.in_c]) for file in (case.roomy, case.twin))
        mktree.stop_at_difference(f"{case.name}, with cycles and without", case.twin.read_bytes(), roomy, twin)
        size = running.output_of(programs.probe, case.sizing.read_bytes()).decode()
        if not size.startswith(sized_as(text)):
            sys.exit(f"{case.name}: probe sizes it {size!r}, and mktree's lines begin {text[:40]!r}")
    print(f"generate: the same lines for {len(made)} tables and their twins with cycles, and the same sizes")


def ratio_text(proved, in_c, starts):
    """The ratio of the best runs, and the least, middle and largest of the turns; None where C takes too short a time."""
    if in_c.less(starts[1]) < LEAST_MS:
        return None, "too short for a ratio"
    start, start_c = min(starts[0].processor), min(starts[1].processor)
    turns = sorted((a - start) / (b - start_c) for a, b in zip(proved.processor, in_c.processor))
    ratio = proved.less(starts[0]) / in_c.less(starts[1])
    return ratio, f"ratio {ratio:5.2f}; of turns {turns[0]:5.2f} {median(turns):5.2f} {turns[-1]:5.2f}"


def measure(programs, made):
    print(f"load before: {load()}; {REPEATS} turns; ms by the clock: best, median, worst; ratios are of processor time, less the start")
    runs = list(dict.fromkeys(run for case in made for pair in comparisons(programs, case).values() for run in pair))
    times = dict(zip(runs, take_turns(runs, REPEATS), strict=True))
    for names in comparisons(programs, made[0]):
        tell(names, made, [[times[run] for run in comparisons(programs, case)[names]] for case in made])
    print(f"load after: {load()}")


def tell(names, made, pairs):
    """A line for each table, the largest ratio, and that of all tables together; the first table is the one without entries."""
    print(f"\n{names[0]} and {names[1]}")
    starts, worst = pairs[0], 0
    for case, (one, two) in zip(made, pairs, strict=True):
        ratio, said = ratio_text(one, two, starts) if case is not made[0] else (None, "")
        worst = max(worst, ratio or 0)
        print(f"{case.name:52} {names[0]:6} {one.text()}   {names[1]:6} {two.text()}   {said}")
    together = [sum(pair[side].less(starts[side]) for pair in pairs) for side in (0, 1)]
    print(f"largest ratio, {names[0]} to {names[1]}: {worst:.2f}; of all tables together: {together[0] / together[1]:.3f}")


@functools.cache
def instructions_of(program, file):
    command = ["valgrind", "--tool=cachegrind", "--cache-sim=no", "--cachegrind-out-file=/dev/null", program]
    with open(file, "rb") as source:
        done = subprocess.run(command, stdin=source, stdout=subprocess.DEVNULL, stderr=subprocess.PIPE, text=True, check=True)
    return int(re.search(r"I +refs: +([0-9,]+)", done.stderr).group(1).replace(",", ""))


def count_instructions(programs, made):
    """As `measure`, with a count in place of times."""
    print("millions of instructions, less those for the table without entries")
    for names in comparisons(programs, made[0]):
        print(f"\n{names[0]} and {names[1]}")
        starts, together = [instructions_of(*run) for run in comparisons(programs, made[0])[names]], [0, 0]
        for case in made[1:]:
            one, two = (instructions_of(*run) - start for run, start in zip(comparisons(programs, case)[names], starts))
            together = [together[0] + one, together[1] + two]
            print(f"{case.name:52} {names[0]:6} {one / 1e6:9.3f}   {names[1]:6} {two / 1e6:9.3f}   ratio {one / two:7.4f}", flush=True)
        print(f"all tables together, {names[0]} to {names[1]}: {together[0] / together[1]:.4f}")


def main():
    programs, directory = Programs(*sys.argv[1:4], os.environ.get("MKTREE_BEFORE")), Path(sys.argv[4])
    directory.mkdir(parents=True, exist_ok=True)
    made = write_cases(directory)
    compare(programs, made)
    if sys.argv[5:] == ["instructions"]:
        count_instructions(programs, made)
    elif sys.argv[5:] != ["compare"]:
        measure(programs, made)


if __name__ == "__main__":
    main()

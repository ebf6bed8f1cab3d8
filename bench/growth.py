"""How the time of generating and of lookup grows with a table's entries, conditions and tree nodes.

Usage: growth.py mktree probe directory. mktree and probe run as processes; from each time that of a run with nothing to do is
subtracted. One of the three sizes grows at a time and the others stay. The number of nodes is read from what mktree prints; it
must be the one that the table is made for. Each entry of these tables is selected by some word, else there would be no tree.
"""

import random
import sys
from pathlib import Path

sys.path.insert(0, str(Path(__file__).resolve().parent.parent / "tests"))

import mktree
from hardest import corner_for, deciding_entry, kept_out, many_sure_reached, matching_all, never_decided, own_in_turn
from probe import MOST_BYTES, pack, request_of
from programs import load, take_turns
from second import tables
from second.tables import EntryPlan, TablePlan, span

SEED = 12
REPEATS = 15
LOOKUP_REPEATS = 60     # an input holds few requests for a large table, so a run is short
WIDTH = 32
NO_ENTRIES = [0x10000020]


def alike_plan(rng, entries, conditions, depth):
    """All but two entries match every word, none more specific than another. Each has a short condition, which keeps it out of what
    is another's in the corner where they are reached (tests/hardest.py); outside it fails. They share the other conditions, each with
    eight unmatching patterns and open in every cell outside. The last two entries decide after `depth` tests: 2^(depth+1) - 1 nodes."""
    corner = corner_for(depth, (entries - 1) // 2)
    plain = matching_all(entries - 2)
    for number, entry in enumerate(plain):
        entry.conditions.append(kept_out(corner, own_in_turn(corner, number)))
    for turn in range(conditions):
        number = turn % len(plain)
        plain[number].conditions.append(never_decided(rng, depth, own_in_turn(corner, number)))
    return TablePlan(WIDTH, plain + [deciding_entry(rng, high_bit, depth, corner) for high_bit in (0, 1)])


def nested_plan(rng, entries, depth):
    """tests/hardest.py's table of sure entries, with fewer of them: those of one half are more specific than those of the
    other, so that each is compared with many."""
    plan = many_sure_reached(rng, depth)
    plan.entries = plan.entries[:(entries - 4) // 2] + plan.entries[128:128 + (entries - 4) // 4] \
        + plan.entries[190:190 + (entries - 4) // 4] + plan.entries[-4:]
    return plan


def generating_series(rng):
    """(name of the series, size, tests on each path, plan)"""
    for entries in (4, 8, 16, 32, 64, 128, 256):
        yield "entries, alike", entries, 10, alike_plan(rng, entries, 0, 10)
    for entries in (20, 36, 68, 132, 252):
        yield "entries, nested", entries, 10, nested_plan(rng, entries, 10)
    # An entry has eight conditions at most, one of them the short one.
    for conditions in (0, 32, 64, 128, 256, 448):
        yield "conditions", conditions, 10, alike_plan(rng, 66, conditions, 10)
    # With fewer than seven tests there are too few leaves to name 66 entries.
    for depth in (7, 8, 9, 10, 11, 12, 13):
        yield "nodes", 2 ** (depth + 1) - 1, depth, alike_plan(rng, 66, 64, depth)


def nodes_printed(text, depth):
    """They must be those of a full tree."""
    words = text.split("\n")[0].split(" ")
    nodes = 0 if words[0] == "refused" else int(words[1], 16) & 0xFFFF
    if nodes != 2 ** (depth + 1) - 1:
        sys.exit(f"growth: {depth} tests on each path, but mktree's first line is {' '.join(words)!r}")
    return nodes


def measure_generating(program, directory, rng):
    series = list(generating_series(rng))
    empty = directory / "growth.empty"
    empty.write_bytes(pack(NO_ENTRIES))
    runs, laid = [(program, empty)], []
    for number, (_, _, _, plan) in enumerate(series):
        file = directory / f"growth.{number}"
        laid.append(tables.lay_out(plan).words)
        file.write_bytes(pack(laid[-1]))
        runs.append((program, file))
    print(f"mktree: load {load()}; {REPEATS} turns; ms by the clock: best, median, worst; then ms of the processor, best, less the start")
    start, *times = take_turns(runs, REPEATS)
    print(f"no entries: {start.text()}")
    for (name, size, depth, plan), words, taken, (_, file) in zip(series, laid, times, runs[1:], strict=True):
        nodes = nodes_printed(mktree.text_of(program, file.read_bytes()), depth)
        conditions = sum(len(entry.conditions) for entry in plan.entries)
        print(f"{name:14} {size:6}: {len(plan.entries):3} entries, {conditions:3} conditions, {nodes:5} nodes, {len(words):5} words: "
              f"{taken.text()}; {taken.less(start):8.2f}; {1e6 * taken.less(start) / nodes:8.0f} ns a node")


# ---------------------------------------------------------------------------- lookup

def many_entries(entries):
    """Entries that hold all of the highest eight bits, each another value."""
    return TablePlan(WIDTH, [EntryPlan(0, WIDTH, span(24, 8), value << 24, [(0, 24)]) for value in range(entries)])


def nested_entries(levels):
    """0-.., 00-.. and so on: word 0 is claimed by all of them."""
    return TablePlan(WIDTH, [EntryPlan(0, WIDTH, span(WIDTH - level, level), 0, [(0, WIDTH - level)] if level < WIDTH else [])
                             for level in range(1, levels + 1)])


def with_conditions(rng, conditions):
    """64 entries as above, and conditions in turn; only those of an entry whose opcode matches are looked at."""
    plan = many_entries(64)
    for turn in range(conditions):
        plan.entries[turn % 64].conditions.append(never_decided(rng, 8))
    return plan


def lookup_series(rng):
    for entries in (1, 4, 16, 64, 256):
        yield "entries", entries, many_entries(entries)
    for levels in (1, 2, 4, 8, 16, 32):
        yield "claiming", levels, nested_entries(levels)
    for conditions in (0, 64, 128, 256, 512):
        yield "conditions", conditions, with_conditions(rng, conditions)


def batch_of(kind, words, rng):
    """As many requests for one table as an input holds, at most 4,000; the bytes, and how many they are."""
    make = (lambda: ("read", words)) if kind == "read" else (lambda: ("lookup", words, rng.getrandbits(WIDTH) if rng.random() < 0.5 else 0))
    count = min(4000, MOST_BYTES // (4 * (len(words) + 5)))
    return b"".join(pack(request_of(make())) for _ in range(count)), count


def measure_lookup(program, directory, rng):
    series = list(lookup_series(rng))
    empty = directory / "growth.nothing"
    empty.write_bytes(b"")
    runs, counts = [(program, empty)], []
    for number, (_, _, plan) in enumerate(series):
        for kind in ("read", "lookup"):
            data, count = batch_of(kind, tables.lay_out(plan).words, rng)
            file = directory / f"growth.{kind}.{number}"
            file.write_bytes(data)
            runs.append((program, file))
        counts.append(count)
    print(f"probe: load {load()}; {LOOKUP_REPEATS} turns; us of the processor for a request, best, less the start; a lookup reads the table first")
    start, *times = take_turns(runs, LOOKUP_REPEATS)
    for (name, size, plan), count, read, lookup in zip(series, counts, times[::2], times[1::2], strict=True):
        words = len(tables.lay_out(plan).words)
        figures = [1000 * one.less(start) / count for one in (read, lookup)]
        print(f"{name:14} {size:6}: {len(plan.entries):3} entries, {words:5} words, {count:4} requests: "
              f"read {figures[0]:8.2f}   lookup {figures[1]:8.2f}   lookup less read {figures[1] - figures[0]:8.2f}")


def main():
    program, probe_program, directory = sys.argv[1], sys.argv[2], Path(sys.argv[3])
    directory.mkdir(parents=True, exist_ok=True)
    rng = random.Random(SEED)
    measure_generating(program, directory, rng)
    measure_lookup(probe_program, directory, rng)


if __name__ == "__main__":
    main()

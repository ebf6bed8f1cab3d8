"""Compares the program mktree with the second implementation, byte for byte of what it prints; for the twin of a good table it must
print the same.

Usage: compare_mktree.py [path of mktree]. Exits with status 1 at the first difference.
"""

import random
import sys
from collections import Counter

import mktree
import twinned
from probe import pack
from second import examples, reach, tables
from second.lines import mktree_text
from second.reader import read
from second.tree import nodes_of
from second.twins import Twins

SEED = 4
SECOND_EACH = 10        # every so many-th twin's text is the second implementation's too
UNREACHED_KEPT = 0.35   # so many of the drawn plans keep the entries that no word selects
USUAL_NODES = 1000      # plans with larger trees keep them too


def some_plan(rng, width):
    make = rng.choice([tables.nested_plan, tables.nested_plan, tables.divided_plan, tables.overlapping_plan])
    return make(rng, width)


def good_tables(rng):
    """Good tables of every width: trees, ambiguous tables, tables with entries that no word selects and a few trees that don't fit."""
    for width in list(range(1, 33)) * 5:
        plan = some_plan(rng, width)
        nodes = nodes_of(read(tables.lay_out(plan).words), USUAL_NODES) if rng.random() >= UNREACHED_KEPT else None
        yield "good table", pack(tables.lay_out(plan if nodes is None else reach.reachable(plan, nodes)).words)


def covered_tables(rng):
    """No word selects a certain entry, or a single word does."""
    for width in (1, 2, 5, 8, 16, 27, 32):
        for how in tables.COVERS:
            plan, number = tables.covered_plan(rng, width, how)
            yield how, pack(tables.lay_out(plan).words), f"refused 19 {number} 00000000\n"
            yield "a word spared", pack(tables.lay_out(tables.covered_plan(rng, width, how, spared=True)[0]).words)


def refused_tables(rng):
    for width in list(range(1, 33)) * 5:
        yield "refused table", pack(tables.some_damaged(rng, some_plan(rng, width)))


def hand_written():
    for words in (examples.PRINTED, examples.EVERY_KIND, examples.WORKED, examples.ZERO_HIGH_ZERO_LOW, examples.WITH_THIRD,
                  examples.MORE_MASK_BITS, examples.SHORT, examples.SHORT_AND_LONG, examples.EIGHT_UNMATCHING,
                  examples.EIGHT_CONDITIONS, examples.LONGEST_ENTRY, [0x10000001], [0x10000020], [0], [0x60000001], [0x60000020],
                  examples.CYCLES_77, examples.WORKED_CYCLES, examples.TWINS_CYCLES, examples.MANY_CYCLES, examples.CYCLES_77[:4],
                  examples.COVERED_BY_ONE, examples.COVERED_BY_TWO, examples.MIDDLE_COVERED, examples.LAST_COVERED, examples.OWN_CONDITION,
                  examples.NOT_COVERED, examples.TWO_UNREACHED, examples.TWINS_AND_EXCLUDED, examples.COVERED_CYCLES, examples.LAST_OF_256):
        yield "by hand", pack(words)
    yield "empty input", b""


def limits_of_the_tree(rng):
    """16,384 tree words, two words more, and far more; each also with all leaves in conflict."""
    for twice in (False, True):
        yield "tree at the limit", pack(tables.lay_out(tables.full_tree_plan(rng, 20, 13, twice=twice)).words)
        yield "tree one test over", pack(tables.lay_out(tables.full_tree_plan(rng, 20, 13, one_more=True, twice=twice)).words)
        yield "tree far over", pack(tables.lay_out(tables.full_tree_plan(rng, 32, 32, twice=twice)).words)
    # 19 at the limit, and 5 before it.
    plan, number = tables.with_excluded(rng, tables.full_tree_plan(rng, 20, 13))
    yield "excluded at the limit", pack(tables.lay_out(plan).words), f"refused 19 {number} 00000000\n"
    plan, _ = tables.with_excluded(rng, tables.full_tree_plan(rng, 20, 13, one_more=True))
    yield "excluded over the limit", pack(tables.lay_out(plan).words), "refused 5 0 00000000\n"


def lengths_of_the_input(rng):
    """Not a multiple of four, and around 65,536 bytes."""
    for words in (examples.PRINTED, examples.WORKED, [0x10000001]):
        data = pack(words)
        for extra in (1, 2, 3):
            yield "not a multiple of four", data + bytes(extra)
            yield "not a multiple of four", data[:-extra]
    for length in (1, 2, 3):
        yield "not a multiple of four", bytes([7] * length)
    longest = pack(examples.LONGEST)
    assert len(longest) == mktree.MOST_BYTES
    yield "65,536 bytes", longest
    yield "65,536 bytes", pack([0x10000001] + [0] * 16383)
    yield "65,536 bytes", pack(examples.LONGEST[:-1] + [0x1FF])
    yield "65,535 bytes", longest[:-1]
    yield "65,532 bytes", longest[:-4]
    for extra in (1, 2, 3, 4, 8, 4096, 65536, 1000000):
        yield "over 65,536 bytes", longest + bytes(rng.getrandbits(8) for _ in range(extra))
    yield "over 65,536 bytes", pack(examples.ONE_TOO_LONG)
    yield "65,536 bytes", pack(examples.LONGEST_CYCLES)
    yield "over 65,536 bytes", pack(examples.ONE_TOO_LONG_CYCLES)


def all_cases(rng):
    """(name, input), and where it follows from how the table is built, what is printed"""
    for source in (hand_written(), lengths_of_the_input(rng), limits_of_the_tree(rng), good_tables(rng), refused_tables(rng),
                   covered_tables(rng)):
        yield from source


def outcome_of(text):
    """The number of a refusal, or "tree"."""
    return text.split(" ")[1] if text.startswith("refused ") else "tree"


LEAST = {"tree": 100, "1": 25, "2": 50, "3": 5, "4": 20, "5": 4, "6": 20, "19": 50, "19, not entry 0": 25, "good table: 19": 20,
         "good table: tree": 70, **{f"{how}: 19": 7 for how in tables.COVERS}, "a word spared: tree": 21,
         "excluded at the limit: 19": 1, "excluded over the limit: 5": 1, "kind 1, faulty": 40, "kind 6, faulty": 40,
         "twins": 150, "twins by the second": 10,
         "not a multiple of four": 20, "over 65,536 bytes": 9, "65,536 bytes": 3, "good table": 160, "refused table": 160}


def main():
    path = mktree.path_from_arguments()
    tally, done, twins = Counter(), 0, Twins(SEED)
    for name, data, *known in all_cases(random.Random(SEED)):
        expected = mktree_text(data)
        seen = mktree.text_of(path, data)
        for text in (expected, *known):
            mktree.stop_at_difference(name, data, text, seen)
        twinned.compare_text(path, twins, name, data, expected, tally, second=done % SECOND_EACH == 0)
        tally[outcome_of(expected)] += 1
        tally[name] += 1
        tally[f"{name}: {outcome_of(expected)}"] += 1
        tally["19, not entry 0"] += expected.startswith("refused 19 ") and not expected.startswith("refused 19 0 ")
        if outcome_of(expected) in ("2", "3", "4"):
            tally[f"kind {data[3] >> 4}, faulty"] += 1
        done += 1
    for what, least in LEAST.items():
        if tally[what] < least:
            print(f"only {tally[what]} of: {what}; at least {least} are needed")
            sys.exit(1)
    outcomes = ", ".join(f"number {number}: {tally[number]}" for number in ("1", "2", "3", "4", "5", "6", "19"))
    print(f"compare_mktree good: {done} inputs; trees: {tally['tree']}, {outcomes}; {tally['twins']} twins")


if __name__ == "__main__":
    main()

"""Writes tables with what sizing must answer, for measure_test.c and the fuzz, made by the second implementation.

Usage: make_sizes.py file. 32-bit words, low byte first: how many cases, then for each the answer's 64 bits (lower half, upper half), nine
words that only wrong stand-ins look at (made_of has them), and the table as a run (how many words, then the words).
"""

import random
import struct
import sys
from collections import Counter
from pathlib import Path

ROOT = Path(__file__).resolve().parent.parent.parent
sys.path.insert(0, str(ROOT / "tests"))

from reached import reached
from second import examples, tables
from second.reader import Refusal, read
from second.tree import MOST_TREE_WORDS, Cell, Making, Test, TooLarge, conflict_word, unnamed_entries

SEED = 23
USUAL, USUAL_NODES = 620, 120       # larger trees are made on purpose only, because Python is slow
FAULTY = 640
CHANGED = 100
LARGE, LARGE_NODES = 3, 6000


# ---------------------------------------------------------------------------- answers

def nodes_within(table, most):
    """The nodes of a table's tree, at most so many, and whether these are all."""
    making = Making(table, most)
    try:
        making.make(Cell(), list(range(len(table.entries))))
    except TooLarge:
        return making.nodes, False
    return making.nodes, True


def made_of(table, nodes):
    """Of the nodes within the limit: how many, the most tests on a path to a leaf, the tests of the first leaf and of the last one, whether
    there is a conflict, and its word; how many entries no leaf names, the lowest and the highest of them."""
    tests = [len(node.cell.fixed) for node in nodes if not isinstance(node, Test)]
    word, unnamed = conflict_word(nodes), unnamed_entries(table, nodes)
    lowest, highest = (unnamed[0], unnamed[-1]) if unnamed else (0, 0)
    return [len(nodes), max(tests), tests[0], tests[-1], int(word is not None), word or 0, len(unnamed), lowest, highest]


def size(words, most=MOST_TREE_WORDS - 1):
    """The answer's 64 bits, and what wrong stand-ins look at. With another `most`: None if there are more nodes."""
    table = read(words)
    if isinstance(table, Refusal):
        return table.number << 32 | table.place, [0] * 9
    nodes, whole = nodes_within(table, most)
    if not whole and most < MOST_TREE_WORDS - 1:
        return None
    made = made_of(table, nodes)
    # "The tree limit applies: over it the answer is 5, then 6 as in generating."
    if not whole:
        return 5 << 32, made
    if made[4]:
        return 6 << 32 | made[5], made
    # No. 8: "19, with the lowest such entry as place, after 6"
    if made[6]:
        return 19 << 32 | made[7], made
    # "the number of nodes that generating writes and the greatest number of tests on a path to any leaf"
    return made[1] << 16 | made[0], made


# ---------------------------------------------------------------------------- tables

def data_tables():
    for data in (file.read_bytes() for file in sorted((ROOT / "data").glob("*.table"))):
        if len(data) <= 4 * 16384:
            yield list(struct.unpack(f"<{len(data) // 4}I", data[:len(data) // 4 * 4]))


def by_hand(rng):
    """The tables of document 01 and of examples.py, those without entries, and those of data/."""
    yield from (examples.PRINTED, examples.EVERY_KIND, examples.WORKED, examples.ZERO_HIGH_ZERO_LOW, examples.WITH_THIRD,
                examples.MORE_MASK_BITS, examples.SHORT, examples.SHORT_AND_LONG, examples.EIGHT_UNMATCHING, examples.EIGHT_CONDITIONS,
                examples.WORKED_CYCLES, examples.TWINS_CYCLES, examples.COVERED_BY_ONE, examples.COVERED_BY_TWO, examples.MIDDLE_COVERED,
                examples.LAST_COVERED, examples.TWINS_AND_EXCLUDED, examples.LAST_OF_256)
    yield []
    yield from ([tables.first_word(0, width, kind)] for kind in (tables.PLAIN, tables.WITH_CYCLES) for width in range(34))
    yield from data_tables()
    yield from (tables.lay_out(tables.small_entries_plan(rng, 32, count)).words for count in (256, 257))
    longest = tables.lay_out(tables.longest_plan(rng)).words
    yield from (longest, longest + [0])


def some_plan(rng, width):
    make = rng.choice([tables.nested_plan, tables.nested_plan, tables.divided_plan, tables.overlapping_plan, tables.good_plan])
    return make(rng, width)


def laid_out(rng, plan):
    """As a table of kind 1, or of kind 6."""
    return rng.choice(tables.lay_out_both(rng, plan))


def usual(rng):
    """Tables of every width; many are ambiguous. One with entries that no word selects comes again without them."""
    made = 0
    while made < USUAL:
        words = laid_out(rng, some_plan(rng, 1 + made % 32)).words
        its_size = size(words, USUAL_NODES)
        if its_size is not None:
            made += 1
            yield words, its_size
            if its_size[0] >> 32 == 19:
                yield reached(words), size(reached(words))


def faulty(rng):
    """Each way to be at fault, and careless changes, after which some are good."""
    for index in range(FAULTY):
        laid = laid_out(rng, some_plan(rng, 1 + index % 32))
        damage = tables.USUAL_DAMAGES[index % len(tables.USUAL_DAMAGES)](rng, laid) or tables.some_damage(rng, laid)
        yield tables.damaged(laid.words, damage)
    for index in range(CHANGED):
        yield tables.random_change(rng, laid_out(rng, some_plan(rng, 1 + index % 8)).words)
        yield tables.loose_words(rng)


def with_dead(rng, plan, at):
    """The plan with an entry more, at this place, that excludes every word: the tree's tests stay."""
    dead = tables.everywhere_entry(rng, plan.width, [((0, 0), [])])
    return tables.TablePlan(plan.width, [*plan.entries[:at], dead, *plan.entries[at:]])


def at_the_limit(rng):
    """Full trees; of 16,384 words, one test over, and far over; with one entry, and with two that make every leaf a conflict; and these
    with an entry that no word selects."""
    for depth in range(1, 13):
        yield tables.full_tree_plan(rng, rng.randint(depth, 32), depth)
    for width, twice in ((13, False), (20, False), (32, True)):
        yield tables.full_tree_plan(rng, width, 13, twice=twice)
    for width, twice in ((14, True), (20, False), (32, False), (32, True)):
        yield tables.full_tree_plan(rng, width, 13, one_more=True, twice=twice)
    yield tables.full_tree_plan(rng, 32, 32)
    for at in (0, 1):
        yield with_dead(rng, tables.full_tree_plan(rng, 13, 13), at)
        yield with_dead(rng, tables.full_tree_plan(rng, 32, 13, twice=True), at)
        yield with_dead(rng, tables.full_tree_plan(rng, 20, 13, one_more=True), at)


def large(rng):
    """Random tables with larger trees than usual; many of these don't fit."""
    made = 0
    while made < LARGE:
        plan = some_plan(rng, rng.randint(18, 32))
        if size(tables.lay_out(plan).words, LARGE_NODES) is None:
            made += 1
            yield plan


def all_cases(rng):
    """Every table with its size."""
    yield from usual(rng)
    for source in (by_hand, faulty):
        yield from ((words, size(words)) for words in source(rng))
    for source in (at_the_limit, large):
        yield from ((words, size(words)) for words in (laid_out(rng, plan).words for plan in source(rng)))


def main():
    rng, tally = random.Random(SEED), Counter()
    out = [0]
    for words, (answer, made) in all_cases(rng):
        out += [answer & 0xFFFFFFFF, answer >> 32, *made, len(words), *words]
        tally[answer >> 32] += 1
        out[0] += 1
    Path(sys.argv[1]).write_bytes(struct.pack(f"<{len(out)}I", *out))
    print(f"make_sizes: {out[0]} tables; by number {dict(sorted(tally.items()))}")


if __name__ == "__main__":
    main()

"""Writes tables with their trees and upper halves for halves_test.c and parts_test.c, made with the second implementation.

Usage: make_halves.py file. 32-bit words, low byte first: how many tables, then for each the table, its tree, its entries' lengths and the
upper halves as runs (how many words, then the words).
"""

import random
import struct
import sys
from pathlib import Path

sys.path.insert(0, str(Path(__file__).resolve().parent.parent))

from second import examples, images, tables
from second.reader import read
from second.tree import conflict_word, nodes_of, written

SEED = 33
TABLES = 200
UPPERS_EACH = 4
MOST_NODES = 200


def some_plan(rng):
    return images.lower_plan(rng, rng.randint(1, 9)) if rng.random() < 0.75 else images.image_plan(rng, rng.randint(1, 9))


def by_hand():
    """The table of the examples, with each of its upper halves; none, and one entry for all words."""
    yield examples.LAST_HALVES, [int(half, 16) for _, half, _, _ in examples.LAST_ITEMS]
    yield [0x10000020], [0, 0xFFFF]
    for length in (16, 32):
        entry = tables.EntryPlan(0, length, 0, 0, [(32 - length, length)])
        yield tables.lay_out(tables.TablePlan(32, [entry])).words, [0, 0xFFFF]


def drawn(rng):
    """Of kind 1, or of kind 6."""
    while True:
        plan = some_plan(rng)
        yield rng.choice(tables.lay_out_both(rng, plan)).words, images.some_uppers(rng, plan, UPPERS_EACH)


def cases(rng):
    for source in (by_hand(), drawn(rng)):
        for words, uppers in source:
            table = read(words)
            nodes = nodes_of(table, MOST_NODES)
            if nodes is not None and conflict_word(nodes) is None:
                yield words, written(32, nodes), [entry.length for entry in table.entries], uppers


def main():
    source = cases(random.Random(SEED))
    made = [next(source) for _ in range(TABLES)]
    out = [len(made)]
    for one in made:
        for run in one:
            out += [len(run), *run]
    Path(sys.argv[1]).write_bytes(struct.pack(f"<{len(out)}I", *out))
    print(f"make_halves: {len(made)} tables, {sum(len(uppers) for *_, uppers in made)} upper halves")


if __name__ == "__main__":
    main()

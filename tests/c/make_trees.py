"""Writes generated trees for walk_test.c, made by the second implementation.

Usage: make_trees.py file. The file is 32-bit words, low byte first: how many trees, then each tree as a run (how many
words, then the words).
"""

import random
import struct
import sys
from pathlib import Path

sys.path.insert(0, str(Path(__file__).resolve().parent.parent))

from reached import reached
from second import examples, tables
from second.reader import Refusal
from second.tree import generate

SEED = 5
TREES = 400


def tables_of(rng):
    for words in (examples.PRINTED, examples.WORKED, examples.WITH_THIRD, [0x10000001], [0x10000020]):
        yield words
    yield tables.lay_out(tables.full_tree_plan(rng, 32, 13)).words
    yield tables.lay_out(tables.full_tree_plan(rng, 9, 9)).words
    width = 0
    while True:
        width = width % 32 + 1
        make = rng.choice([tables.nested_plan, tables.divided_plan])
        yield tables.lay_out(make(rng, width)).words


def trees_of(rng):
    for words in tables_of(rng):
        outcome, after = generate(words, [0] * 16384)
        if isinstance(outcome, Refusal) and outcome.number == 19:
            outcome, after = generate(reached(words), [0] * 16384)
        if not isinstance(outcome, Refusal):
            yield after[:outcome]


def main():
    rng = random.Random(SEED)
    source = trees_of(rng)
    trees = [next(source) for _ in range(TREES)]
    words = [len(trees)]
    for tree in trees:
        words += [len(tree), *tree]
    Path(sys.argv[1]).write_bytes(struct.pack(f"<{len(words)}I", *words))
    print(f"make_trees: {len(trees)} trees, {sum(len(tree) for tree in trees)} words")


if __name__ == "__main__":
    main()

"""Writes tables and trees with what the checker must answer, for check_test.c, made by the second implementation.

Usage: make_checks.py file. 32-bit words, low byte first: how many cases, then for each the number and the place of the answer, the table
and the tree as runs (how many words, then the words).
"""

import random
import struct
import sys
from collections import Counter
from pathlib import Path

sys.path.insert(0, str(Path(__file__).resolve().parent.parent))

from second import examples, tables, trees
from second.checker import check
from second.reader import Refusal, read
from second.tree import conflict_word, nodes_of, written

SEED = 17
TABLES = 150
MOST_NODES = 60


def some_tables(rng):
    """Tables of every width with their trees."""
    yield from ((words, written(words[0] & 0xFF, nodes_of(read(words)))) for words in (examples.PRINTED, examples.WORKED, examples.WITH_THIRD))
    width = 0
    while True:
        width = width % 32 + 1
        plan = rng.choice([tables.nested_plan, tables.divided_plan])(rng, width)
        words = rng.choice(tables.lay_out_both(rng, plan)).words
        nodes = nodes_of(read(words), MOST_NODES)
        if nodes is not None and conflict_word(nodes) is None:
            yield words, written(width, nodes)


def cases_of(rng, words, tree):
    """The tree of a table, altered trees of it, and altered tables."""
    yield words, tree
    yield words, tree + [rng.getrandbits(32)]
    yield words, tree[:rng.randrange(len(tree))]
    for _ in range(4):
        index = rng.randrange(1, len(tree))
        yield words, trees.with_node(tree, index, rng.choice(list(trees.altered_nodes(rng, tree, index)))[1][index])
    for _ in range(4):
        altered = list(words)
        altered[rng.randrange(len(words))] ^= 1 << rng.randrange(32)
        yield altered, tree
    yield words[:rng.randrange(len(words))], tree
    yield [words[0] ^ 1 << rng.randrange(28, 32), *words[1:]], tree


def answer(words, tree):
    """(number, place)"""
    outcome = check(words, tree)
    return (outcome.number, outcome.place) if isinstance(outcome, Refusal) else (0, 0)


def main():
    rng, tally = random.Random(SEED), Counter()
    source = some_tables(rng)
    out = [0]
    for words, tree in (next(source) for _ in range(TABLES)):
        for table, lent in cases_of(rng, words, tree):
            number, place = answer(table, lent)
            out += [number, place, len(table), *table, len(lent), *lent]
            tally[number] += 1
            out[0] += 1
    Path(sys.argv[1]).write_bytes(struct.pack(f"<{len(out)}I", *out))
    print(f"make_checks: {out[0]} cases; by number {dict(sorted(tally.items()))}")


if __name__ == "__main__":
    main()

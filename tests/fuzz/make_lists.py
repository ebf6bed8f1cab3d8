"""Writes what fuzz.c begins with for listings: tables, their trees and images, made with the second implementation.

Usage: make_lists.py file. 32-bit words, low byte first: how many, then for each the table, the tree and the image (two bytes a
halfword, padded to a whole word) as runs: how many words, then the words.
"""

import random
import struct
import sys
from pathlib import Path

sys.path.insert(0, str(Path(__file__).resolve().parent.parent))

from second import images, tables
from second.reader import read
from second.tree import conflict_word, nodes_of, written

SEED = 14
LISTS = 120
MOST_NODES = 200


def some_plan(rng):
    """Mostly an image's table, often one in which the lower half decides; some are refused with 15, which altering a word alone hardly ever
    makes."""
    style = rng.random()
    if style < 0.1:
        # The width alone is wrong: no entries, or entries of 16 bits.
        width = rng.randint(16, 31)
        entries = [tables.entry_on_mask(rng, width, 16, 1 << width - 1, value << width - 1) for value in (0, 1)]
        return tables.TablePlan(width, entries[:rng.randrange(3)])
    if style < 0.15:
        return tables.nested_plan(rng, rng.randint(1, 31))
    if style < 0.35:
        return images.wrong_length_plan(rng)
    make = images.lower_plan if style < 0.6 else images.image_plan
    return make(rng, rng.choice([1, 2, 3, 5, 9]))


def some_list(rng):
    """A table, its tree and an image; None where the tree is large or ambiguous."""
    plan = some_plan(rng)
    words = rng.choice(tables.lay_out_both(rng, plan)).words
    nodes = nodes_of(read(words), MOST_NODES)
    if nodes is None or conflict_word(nodes) is not None:
        return None
    image = images.some_image(rng, plan) if plan.width == 32 else bytes(8)
    image += bytes(-len(image) % 4)
    return words, written(plan.width, nodes), list(struct.unpack(f"<{len(image) // 4}I", image))


def main():
    rng = random.Random(SEED)
    made = []
    while len(made) < LISTS:
        one = some_list(rng)
        if one is not None:
            made.append(one)
    out = [len(made)]
    for one in made:
        for run in one:
            out += [len(run), *run]
    Path(sys.argv[1]).write_bytes(struct.pack(f"<{len(out)}I", *out))
    print(f"make_lists: {len(made)} tables with trees and images")


if __name__ == "__main__":
    main()

"""Makes what listing.c reads. Usage: make_listing.py table              writes the table (bench/listing.table is made so)
                                    make_listing.py table tree image start  reads the table, writes the others

The table: width 32, entries of 16 and 32 bits, some with conditions, each selected by some word. The tree is the second
implementation's. The image: 2,097,152 bytes of instructions of all entries with random fields, and a few random halfwords.
`start`: how many bytes of the image, and the items that the second implementation lists in them. Image and start end in a halfword
that is cut off, though with zeros for the missing half it would be a whole instruction, or nothing.
"""

import random
import struct
import sys
from pathlib import Path

sys.path.insert(0, str(Path(__file__).resolve().parent.parent / "tests"))

from second import halves, images, selfcheck, tables
from second.image import list_items
from second.reader import read
from second.selection import NOTHING, select
from second.tree import NamesNothing, conflict_word, named_entries, nodes_of, written

SEED = 1
IMAGE_SEED = 2
ENTRIES = 32            # drawn; those that no word selects are left out
LEAST_EACH = 10         # entries of either length
MOST_NODES = 250
IMAGE_HALVES = 1048576
RANDOM_OFTEN = 0.03
START_BYTES = 20000


def pack(words):
    return struct.pack(f"<{len(words)}I", *words)


def unpack(data):
    return list(struct.unpack(f"<{len(data) // 4}I", data))


def mixed(plan):
    """Enough entries of either length, and not all of them plain."""
    short = sum(entry.length == 16 for entry in plan.entries)
    return short >= LEAST_EACH and len(plan.entries) - short >= LEAST_EACH and any(entry.conditions for entry in plan.entries)


def reached(plan, nodes):
    """The plan without the entries that no leaf names. No word selects them, so each word selects what it selected before."""
    named = named_entries(nodes)
    return tables.TablePlan(plan.width, [entry for number, entry in enumerate(plan.entries) if number in named])


def make_table(rng):
    while True:
        plan = images.image_plan(rng, ENTRIES, conditions_often=0.15)
        nodes = nodes_of(read(tables.lay_out(plan).words), MOST_NODES) if mixed(plan) else None
        if nodes is None or conflict_word(nodes) is not None:
            continue
        plan = reached(plan, nodes)
        # Some words must select nothing.
        if mixed(plan) and any(isinstance(node, NamesNothing) for node in nodes):
            return tables.lay_out(plan).words


def is_whole_with_zeros(table, upper):
    """Whether the halfword is cut off at the end, but with zeros below selects an entry of 16 bits, or nothing."""
    answer = select(table, upper << 16)
    return halves.kind_and_entry(table, upper)[0] == 14 and (answer == NOTHING or table.entries[answer].length == 16)


def drawn_until(rng, plan, is_right):
    """An upper half of an entry's word that is right."""
    while True:
        upper = images.upper_of(rng, rng.choice(plan.entries))
        if is_right(upper):
            return upper


def make_tail(rng, table, plan):
    """The last three halfwords. The first two are a 16-bit instruction, whatever follows: at one of them an item begins, also if one of 32
    bits lies over the first of them. So an item begins at the third."""
    short = drawn_until(rng, plan, lambda upper: halves.kind_and_entry(table, upper)[0] == 12)
    return [short, short, drawn_until(rng, plan, lambda upper: is_whole_with_zeros(table, upper))]


def make_image(rng, table, plan):
    image = []
    while len(image) < IMAGE_HALVES:
        image += [rng.getrandbits(16)] if rng.random() < RANDOM_OFTEN else images.instruction(rng, plan)
    for end in (START_BYTES // 2, IMAGE_HALVES):
        image[end - 3:end] = make_tail(rng, table, plan)
    return images.image_of(image[:IMAGE_HALVES])


def make_others(words, tree_file, image_file, start_file):
    table = read(words)
    tree = written(table.width, nodes_of(table))
    image = make_image(random.Random(IMAGE_SEED), table, selfcheck.as_plan(table))
    start = image[:START_BYTES]
    count, items = list_items(words, tree, start, [0] * (START_BYTES // 2))
    if items[count - 1] != 14 << 28 | START_BYTES // 2 - 1:
        sys.exit(f"the start ends in the item {items[count - 1]:08x}")
    Path(tree_file).write_bytes(pack(tree))
    Path(image_file).write_bytes(image)
    Path(start_file).write_bytes(pack([START_BYTES] + items[:count]))
    print(f"make_listing: {len(table.entries)} entries, {len(tree) - 1} nodes, {len(image)} bytes")


def main():
    if len(sys.argv) == 2:
        Path(sys.argv[1]).write_bytes(pack(make_table(random.Random(SEED))))
    elif len(sys.argv) == 5:
        make_others(unpack(Path(sys.argv[1]).read_bytes()), *sys.argv[2:])
    else:
        sys.exit(__doc__)


if __name__ == "__main__":
    main()

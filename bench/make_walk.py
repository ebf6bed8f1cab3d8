"""Makes what walk.c reads: trees, words to walk in each, and what the second implementation says of some of them.

Usage: make_walk.py file                  writes the file
       make_walk.py table tree image      reads a table's file, writes its tree and an image that has all entries equally often

The file is 32-bit words, low byte first: how many trees; for each tree its name (16 bytes), the tree as
a run (how many words, then the words), the words to walk as a run, and a run of answers: word, low half, high half of its 64 bits.
"""

import random
import struct
import sys
from pathlib import Path

sys.path.insert(0, str(Path(__file__).resolve().parent.parent / "tests"))

from second import examples, tables, trees
from second.reader import read
from second.tree import nodes_of, written
from second.walk import walk_bytes

SEED = 11
WALKS = 65536
ANSWERS = 400
NAME_BYTES = 16


def tree_of(words):
    table = read(words)
    return written(table.width, nodes_of(table))


def words_in(path):
    data = Path(path).read_bytes()
    return list(struct.unpack(f"<{len(data) // 4}I", data))


def comb(width):
    """Entries 1-.., 01-.., 001-.. and so on: one path tests every bit."""
    entries = []
    for bit in range(width):
        mask = tables.span(bit, width - bit)
        entries.append(tables.EntryPlan(0, width, mask, 1 << bit, [(0, bit)] if bit else []))
    return tables.TablePlan(width, entries)


def random_words(rng, width, count):
    return [rng.getrandbits(width) for _ in range(count)]


def deep_words(rng, width, count):
    """Words whose paths in the comb's tree are long: at most three of the lowest bits are 1."""
    return [rng.getrandbits(3) for _ in range(count)]


def cases(rng):
    """(name, tree, words to walk)"""
    worked = tree_of(examples.WORKED)
    yield "worked", worked, random_words(rng, 8, WALKS)
    yield "listing", tree_of(words_in(Path(__file__).resolve().parent / "listing.table")), random_words(rng, 32, WALKS)
    full = tree_of(tables.lay_out(tables.full_tree_plan(rng, 32, 13)).words)
    yield "16,384 words", full, random_words(rng, 32, WALKS)
    yield "same, one word", full, [rng.getrandbits(32)] * WALKS
    deep = tree_of(tables.lay_out(comb(32)).words)
    yield "32 tests deep", deep, deep_words(rng, 32, WALKS)
    yield "32 tests, word 0", deep, [0] * WALKS
    # No table has it, but the walk must take it: 16,381 tests on the path of word 0.
    yield "chain", trees.chain(16383), [0] * 32


def write_walks(file):
    rng = random.Random(SEED)
    made = list(cases(rng))
    out = struct.pack("<I", len(made))
    for name, tree, words in made:
        data = struct.pack(f"<{len(tree)}I", *tree)
        asked = words[:4] if name == "chain" else words[:ANSWERS] + random_words(rng, 32, 40)
        answers = []
        for word in asked:
            result = walk_bytes(data, word)
            answers += [word, result & 0xFFFFFFFF, result >> 32]
        out += name.encode().ljust(NAME_BYTES, b"\0")
        for run in (tree, words, answers):
            out += struct.pack(f"<{len(run) + 1}I", len(run), *run)
        print(f"make_walk: {name}: {len(tree)} tree words, {len(words)} walks")
    Path(file).write_bytes(out)


def entry_bytes(rng, entry):
    """An instruction of the entry with random operands, its upper half first, each low byte first."""
    opcode = sum(1 << bit for bit in entry.opcode.value)
    mask = sum(1 << bit for bit in entry.opcode.mask)
    word = opcode | rng.getrandbits(32) & ~mask
    halves = struct.pack("<HH", word >> 16, word & 0xFFFF)
    return halves[:entry.length // 8]


def write_tree_and_image(table, tree_file, image_file):
    rng = random.Random(SEED)
    words = words_in(table)
    tree, entries = tree_of(words), read(words).entries
    Path(tree_file).write_bytes(struct.pack(f"<{len(tree)}I", *tree))
    Path(image_file).write_bytes(b"".join(entry_bytes(rng, rng.choice(entries)) for _ in range(WALKS)))


def main():
    if len(sys.argv) == 2:
        write_walks(sys.argv[1])
    elif len(sys.argv) == 4:
        write_tree_and_image(*sys.argv[1:])
    else:
        sys.exit(__doc__)


if __name__ == "__main__":
    main()

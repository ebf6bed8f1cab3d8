"""Writes tables with what their entries' cycles are, for cycles_test.c, made by the second implementation.

Usage: make_cycles.py file. 32-bit words, low byte first: how many tables, then for each its refusal's number and place (0 without one), how
many entries it has (0 after a refusal), how many words; the cycles of each entry; the word after each entry's value, 0 where the table ends
(only a wrong stand-in looks at these); and the table's words.
"""

import random
import struct
import sys
from collections import Counter
from pathlib import Path

ROOT = Path(__file__).resolve().parent.parent.parent
sys.path.insert(0, str(ROOT / "tests"))

from make_sizes import data_tables, faulty, some_plan
from second import examples, tables
from second.reader import Refusal, read
from second.tables import PLAIN, WITH_CYCLES
from second.twins import heads_in

SEED = 31
USUAL = 300


def case(words):
    """The words of one case."""
    table = read(words)
    if isinstance(table, Refusal):
        return [table.number, table.place, 0, len(words), *words]
    after = [[*words, 0][head + 3] for head in heads_in(words)]
    return [0, 0, len(table.entries), len(words), *(entry.cycles for entry in table.entries), *after, *words]


def by_hand(rng):
    """The tables of document 01 and of data/; those without entries, with the most and with one more, and the longest, of either kind."""
    yield from (words for _, words, _ in examples.READ_EXAMPLES)
    yield from data_tables()
    for kind in (PLAIN, WITH_CYCLES):
        yield from ([tables.first_word(0, width, kind)] for width in range(34))
        for count in (256, 257):
            yield tables.lay_out(tables.with_cycles(rng, tables.small_entries_plan(rng, 32, count)), kind).words
        longest = tables.lay_out(tables.with_cycles(rng, tables.longest_plan(rng, kind)), kind).words
        yield from (longest, longest + [0])


def usual(rng):
    for index in range(USUAL):
        yield from (laid.words for laid in tables.lay_out_both(rng, some_plan(rng, 1 + index % 32)))


def main():
    rng, tally, out = random.Random(SEED), Counter(), [0]
    for source in (by_hand, usual, faulty):
        for words in source(rng):
            made = case(words)
            out += made
            out[0] += 1
            tally[made[0]] += 1
    Path(sys.argv[1]).write_bytes(struct.pack(f"<{len(out)}I", *out))
    print(f"make_cycles: {out[0]} tables; by number {dict(sorted(tally.items()))}")


if __name__ == "__main__":
    main()

"""Makes the list that changed.c reads: words of a table's entries, each entry equally often, their operands at random.

Usage: make_changed.py table list. The files hold 32-bit words, low byte first.
"""

import random
import struct
import sys
from pathlib import Path

from make_walk import words_in

from second.reader import read

SEED = 41
LISTED = 100000


def some_word(rng, table):
    opcode = rng.choice(table.entries).opcode
    mask, value = (sum(1 << bit for bit in bits) for bits in (opcode.mask, opcode.value))
    return value | rng.getrandbits(table.width) & ~mask


def main():
    rng, table = random.Random(SEED), read(words_in(sys.argv[1]))
    Path(sys.argv[2]).write_bytes(struct.pack(f"<{LISTED}I", *(some_word(rng, table) for _ in range(LISTED))))


if __name__ == "__main__":
    main()

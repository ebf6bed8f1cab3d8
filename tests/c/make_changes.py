"""Writes tables, entries and lists of words with how many words a withdrawal changes, for changed_test.c, made by the second implementation.

Usage: make_changes.py file. 32-bit words, low byte first: how many tables; for each the number that sizing refuses it with (0 without one;
its limit is 60 nodes here), the table as a run (how many words, then the words) and how many questions; for each of these the answer's 64
bits (lower half, upper half), the entry, the list as a run, and a mark for each of its words: what the word selects before the withdrawal
in bits 8-0, whether the entry claims it in bit 9, and what it selects afterwards, in the new numbers, in bits 24-16. That is an entry, or 256
for nothing, 257 for ambiguous, 258 for a word not of the width. Marks and what sizing says are for stand-ins and for counts.
"""

import random
import struct
import sys
from collections import Counter
from pathlib import Path

ROOT = Path(__file__).resolve().parent.parent.parent
sys.path.insert(0, str(ROOT / "tests"))

from make_sizes import by_hand, faulty, laid_out, size, some_plan
from second import examples, tables
from second.reader import Refusal, ones
from second.selection import AMBIGUOUS, NOTHING, claims, has_high_bit, read_once, select
from second.withdrawal import changed, without

SEED = 37
USUAL = 260
SIZED_NODES = 60                    # larger trees take long in Python
POOL, LISTED = 40, 12               # words tried for a table, and the most in a list
CODES = {NOTHING: 256, AMBIGUOUS: 257}
HIGH = 258


# ---------------------------------------------------------------------------- answers

def answer(words, entry, listed):
    """The 64 bits."""
    outcome = changed(words, entry, listed)
    if isinstance(outcome, Refusal):
        return outcome.number << 32 | outcome.place | outcome.word
    return outcome >> 32 << 40 | outcome & 0xFFFFFFFF


def mark(table, entry, word):
    if has_high_bit(table, word):
        return HIGH
    before = select(table, word)
    if entry >= len(table.entries):
        return CODES.get(before, before)
    after = select(without(table, entry), word)
    return CODES.get(before, before) | claims(ones(word), table.entries[entry]) << 9 | CODES.get(after, after) << 16


def marks(words, entry, listed):
    """They are zero in a table at fault."""
    table = read_once(tuple(words))
    if isinstance(table, Refusal):
        return [0] * len(listed)
    known = {word: mark(table, entry, word) for word in set(listed)}
    return [known[word] for word in listed]


# ---------------------------------------------------------------------------- words

def put_pattern(word, pattern):
    """The word with the pattern's value on its mask."""
    mask, value = (sum(1 << bit for bit in bits) for bits in (pattern.mask, pattern.value))
    return word & ~mask | value


def word_near(rng, table):
    """A word of the width, mostly one that some entries have an opinion on."""
    word = rng.getrandbits(table.width)
    for entry in rng.sample(table.entries, min(rng.choice([0, 1, 1, 2, 2]), len(table.entries))):
        word = put_pattern(word, entry.opcode)
        for condition in rng.sample(entry.conditions, min(rng.randrange(2), len(entry.conditions))):
            word = put_pattern(word, condition.matching)
    return word


def high_word(rng, table):
    """A word with a bit at or above the width, often exactly there. The width is under 32."""
    return word_near(rng, table) | 1 << rng.choice([table.width, table.width, 31, rng.randint(table.width, 31)])


class Pool:
    """Words for a table, by what they select."""

    def __init__(self, rng, table):
        self.rng, self.table, self.words = rng, table, {}
        for _ in range(POOL):
            word = word_near(rng, table)
            self.words.setdefault(select(table, word), []).append(word)
        self.ambiguous = self.words.pop(AMBIGUOUS, [])
        self.fit = [word for words in self.words.values() for word in words]

    def entry(self):
        """An entry that is there; mostly one that some word selects."""
        selected = [number for number in self.words if number != NOTHING]
        return self.rng.choice(selected) if selected and self.rng.random() < 0.8 else self.rng.randrange(len(self.table.entries))

    def fit_list(self, entry):
        """Fit words, some of them twice; or only words that select the entry, which may be none."""
        fit = self.words.get(entry, []) if self.rng.random() < 0.2 else self.fit
        return self.rng.choices(fit, k=self.rng.randint(1, LISTED)) if fit else []

    def unfit_words(self):
        """Up to three, of one sort or of both."""
        sorts = [self.ambiguous] if self.ambiguous else []
        if self.table.width < 32:
            sorts.append([high_word(self.rng, self.table)])
        return [self.rng.choice(self.rng.choice(sorts)) for _ in range(self.rng.randint(1, 3))] if sorts else []

    def unfit_list(self, entry):
        """Unfit words among fit ones, also as the first and as the last."""
        listed = self.fit_list(entry)
        for word in self.unfit_words():
            listed.insert(self.rng.choice([0, len(listed), self.rng.randint(0, len(listed))]), word)
        return listed

    def some_list(self, entry):
        unfit = self.rng.random() < (0.6 if self.ambiguous else 0.2)
        return self.unfit_list(entry) if unfit else self.fit_list(entry)


# ---------------------------------------------------------------------------- questions

def no_entries(rng, table):
    """Entries that are not there; some have an entry's number in their lower bits."""
    count = len(table.entries)
    low = rng.randrange(count) if count else 0
    return [count, count + 1, low | 256 << rng.randrange(24), low | 65536, 0x7FFFFFFF, 0xFFFFFFFF]


def questions(rng, words):
    """Pairs of an entry and a list."""
    table = read_once(tuple(words))
    if isinstance(table, Refusal):
        return [(rng.choice([0, 1, 255, 0xFFFFFFFF]), [rng.getrandbits(rng.choice([1, 32])) for _ in range(rng.randrange(4))])]
    pool = Pool(rng, table)
    asked = [(entry, pool.some_list(entry)) for entry in rng.sample(no_entries(rng, table), 2)] + [(len(table.entries), [])]
    if table.entries:
        there = [pool.entry() for _ in range(6)]
        asked += [(there[0], []), *((entry, pool.some_list(entry)) for entry in there)]
    return asked


def long_lists():
    """The printed table, whose entry is selected by the words 2 and 3: counts at the ends of 8 and 16 bits, and unfit words at a long
    list's end."""
    for count in (255, 256, 300, 65536, 65837):
        yield 0, [2 + at % 2 for at in range(count)]
    yield 0, [at % 4 for at in range(1000)]
    yield 0, [*(at % 4 for at in range(1000)), 4]
    yield 1, [at % 4 for at in range(1000)]


# ---------------------------------------------------------------------------- tables

def usual(rng):
    """Tables of every width; in some of them two entries cross and a third decides, whose withdrawal makes words ambiguous; in others words
    are ambiguous before it."""
    made = 0
    while made < USUAL:
        plan = (tables.joined_plan, tables.overlapping_plan, some_plan)[made % 3](rng, 1 + made % 32)
        if plan is not None:
            made += 1
            yield laid_out(rng, plan).words


def all_tables(rng):
    """Every table with its questions."""
    yield examples.PRINTED, [*questions(rng, examples.PRINTED), *long_lists()]
    for source in (by_hand, usual, faulty):
        yield from ((words, questions(rng, words)) for words in source(rng))


def sizing_number(words):
    its_size = size(words, SIZED_NODES)
    return 5 if its_size is None else its_size[0] >> 32


def main():
    rng, tally, out = random.Random(SEED), Counter(), [0]
    for words, asked in all_tables(rng):
        out[0] += 1
        out += [sizing_number(words), len(words), *words, len(asked)]
        for entry, listed in asked:
            bits = answer(words, entry, listed)
            out += [bits & 0xFFFFFFFF, bits >> 32, entry, len(listed), *listed, *marks(words, entry, listed)]
            tally[bits >> 32 & 0xFF] += 1
    Path(sys.argv[1]).write_bytes(struct.pack(f"<{len(out)}I", *out))
    print(f"make_changes: {out[0]} tables, {sum(tally.values())} lists; by number {dict(sorted(tally.items()))}")


if __name__ == "__main__":
    main()

"""Runs mktree on the hardest tables that are allowed: the largest tables, every condition open in every cell, trees at
the limit of 16,384 words, and trees that would have 2^32 leaves; probe sizes them. The outcomes follow from how the tables are
built, and are the same with cycles; the second implementation isn't used.

In most of them a few entries decide every word, and no word selects the others. Where such a tree fits it is refused for that, once
it is made. So a table with a tree at the limit has a twin that differs in one corner of the words, where each of the others is
selected.

Usage: hardest.py [path of probe [path of mktree]]. Exits with status 1 if an outcome is wrong, if sizing takes much more of the
processor's time than making the tree, or if running.py stops a run because of that time. The other times that it prints are no
test: bench/generate measures.
"""

import random
import resource
import sys
from dataclasses import dataclass

import mktree
import probe
from probe import pack
from second import tables
from second.tables import ALL_BITS, MOST_WORDS, PLAIN, WITH_CYCLES, EntryPlan, TablePlan, span

SEED = 6
MOST_ENTRIES = 256
WIDTH = 32
NOT_FITTING = "refused 5 0 00000000\n"
CONDITION_WORDS = 27        # a condition with eight unmatching patterns
DEPTH = 13                  # as many tests on every path make a tree at the limit
MATCHING_ALL = 254          # the entries of the largest tables that match every word
UNREACHED = 200             # one of them, where only one is not reached


# ---------------------------------------------------------------------------- where every entry is reached

@dataclass(frozen=True)
class Corner:
    """The words with zeros in the `zeros` bits below the highest one. Here the entries that decide claim no word, and each entry
    that they cover elsewhere claims those of its own cell alone, on one side of the highest bit. Its number stands in the `told`
    bits below the zeros."""
    zeros: int
    told: int

    def bits(self):
        return [1 << 30 - turn for turn in range(self.zeros)]

    def own(self, side, number):
        """The pattern of that cell."""
        lowest = 31 - self.zeros - self.told
        return span(lowest, 1 + self.zeros + self.told), side << 31 | number << lowest


def corner_for(depth, cells):
    """A corner with at least so many cells of the highest `depth` bits on either side of the highest one."""
    told = (cells - 1).bit_length()
    return Corner(min(5, depth - 1 - told), told)


def own_in_turn(corner, number):
    """The own cell of the entry with this number, where two neighbours lie on either side of the highest bit."""
    return corner.own(number % 2, number // 2)


def kept_out(corner, own):
    """A condition that holds in the corner but for the own cell. Outside it fails as soon as a bit says so."""
    return (sum(corner.bits()), 0), [own]


def kept_out_late(rng, depth, corner, own):
    """The same with eight unmatching patterns, but outside it stays open in every cell of the highest `depth` bits: one of the bits
    is 1 there, and its pattern, which holds bits below too, neither clashes nor is implied."""
    low = span(0, WIDTH - depth)
    outside = [(bit | low, bit | rng.getrandbits(32) & low) for bit in (corner.bits() * 7)[:7]]
    return (0, 0), [*outside, own]


def leaving(depth, corner):
    """Two conditions with which an entry that decides claims no word in the corner, one for either value of the last of the highest
    `depth` bits: so they are open until it is fixed. Outside they fail then."""
    last = span(WIDTH - depth, 1)
    return [((last, value), [(bit | last, bit | value) for bit in (corner.bits() * 8)[:8]]) for value in (0, last)]


# ---------------------------------------------------------------------------- tables

def never_decided(rng, depth, own=None):
    """A condition with eight unmatching patterns that stays open in every cell of the highest `depth` bits: its matching
    pattern lies below them. Half of the unmatching ones hold all bits but the highest (so that a bit can be tested because
    of them), but one bit below keeps each from being implied; the others lie below too. With an own cell it fails there."""
    low = span(0, WIDTH - depth)
    wide = [(ALL_BITS >> 1, rng.getrandbits(31)) for _ in range(4)]
    narrow = [(low, rng.getrandbits(32) & low) for _ in range(4)]
    return (low, rng.getrandbits(32) & low), ([own] * (own is not None) + wide + narrow)[:8]


def deciding_conditions(rng, depth, corner=None):
    """Eight conditions, all of them open until the last of the highest `depth` bits is fixed. Then they fail, but in the corner."""
    last = span(WIDTH - depth, 1)
    above = span(WIDTH - depth, depth - 1)
    conditions = []
    for _ in range(8):
        # The patterns hold the last bit, so none is implied before it is fixed. One of them is 0 there as the matching
        # one is: then the condition fails either way. The others are 1 there.
        more = [(above | last, rng.getrandbits(32) & above | last) for _ in range(7)]
        conditions.append(((last, 0), [*more, (last, 0)]))
    return conditions if corner is None else conditions[2:] + leaving(depth, corner)


def deciding_entry(rng, high_bit, depth, corner=None):
    """The entry 0--..- or 1--..-, more specific than every entry that matches all words. When the last of the highest `depth` bits
    is fixed it is sure, but in the corner dead."""
    mask = span(31, 1)
    conditions = deciding_conditions(rng, depth, corner)
    return EntryPlan(rng.randrange(4096), WIDTH, mask, mask if high_bit else 0, [(0, 31)], conditions)


def matching_all(count):
    return [EntryPlan(0, WIDTH, 0, 0, [(0, WIDTH)]) for _ in range(count)]


def fill(kind, entries, last, condition):
    """The table of 16,384 words that the entries make with the last ones: they get conditions in turn, each made for an entry's number."""
    room = MOST_WORDS - len(tables.lay_out(TablePlan(WIDTH, entries + last), kind).words)
    for turn in range(room // CONDITION_WORDS):
        entries[turn % len(entries)].conditions.append(condition(turn % len(entries)))
    # What is left is filled with words of patterns: three each, but the last one or two words.
    left, short = room % CONDITION_WORDS, len(entries) - 1
    if left >= 3:
        entries[short].conditions.append((condition(short)[0], condition(short)[1][:(left - 3) // 3]))
    for entry in entries[:left % 3]:
        entry.fields = [(16, 16), (0, 16)]
    return TablePlan(WIDTH, entries + last)


def everything_open(rng, kind, depth, deciding=True):
    """16,384 words, 256 entries: 254 that match every word, with as many conditions as there is room for, and the two that
    decide. Without these two no cell is ever decided before the lowest bit is tested."""
    last = [deciding_entry(rng, 0, depth), deciding_entry(rng, 1, depth)] if deciding else []
    return fill(kind, matching_all(MOST_ENTRIES - len(last)), last, lambda _: never_decided(rng, depth))


def everything_open_reached(rng, kind, but=None):
    """The same with a tree at the limit, but in the corner each of the 254 is reached. Outside the corner every condition is still
    open in every cell, but those of the entry that decides in the last. One of the 254 may be left out: its own cell lies outside
    the corner, where an entry that decides is selected."""
    corner = corner_for(DEPTH, MATCHING_ALL // 2)
    owns = [own_in_turn(corner, number) for number in range(MATCHING_ALL)]
    if but is not None:
        mask, value = owns[but]
        owns[but] = mask, value | corner.bits()[0]
    last = [deciding_entry(rng, high_bit, DEPTH, corner) for high_bit in (0, 1)]
    entries = matching_all(MATCHING_ALL)
    for entry, own in zip(entries, owns, strict=True):
        entry.conditions.append(kept_out_late(rng, DEPTH, corner, own))
    return fill(kind, entries, last, lambda number: never_decided(rng, DEPTH, owns[number]))


def many_sure(rng, depth):
    """Many sure entries in every cell, each of them more specific than half of the others: 128 that match every word, 62
    each for 0--..- and 1--..-, and the four that decide, 00-..- to 11-..-. No conditions but in these four."""
    top, top_two = span(31, 1), span(30, 2)
    entries = matching_all(128)
    for value in (0, top):
        entries += [EntryPlan(0, WIDTH, top, value, [(0, 31)]) for _ in range(62)]
    for value in range(4):
        conditions = deciding_entry(rng, 0, depth).conditions
        entries.append(EntryPlan(0, WIDTH, top_two, value << 30, [(0, 30)], conditions))
    return TablePlan(WIDTH, entries)


def many_sure_reached(rng, depth):
    """The same, but in the corner each entry is reached: of the cells on a side the first 64 are for entries that match every word,
    the next 62 for those that hold the highest bit. This takes a condition in each: of two entries with one opcode and without
    conditions no word selects either. Outside the corner they are sure again, from the first bit on that says so."""
    plan, corner = many_sure(rng, depth), corner_for(depth, 126)
    for number, entry in enumerate(plan.entries[:-4]):
        side, cell = divmod(number - 128, 62)
        own = own_in_turn(corner, number) if number < 128 else corner.own(side, 64 + cell)
        entry.conditions.append(kept_out(corner, own))
    for entry in plan.entries[-4:]:
        entry.conditions = deciding_conditions(rng, depth, corner)
    return plan


# ---------------------------------------------------------------------------- trees

def full_tree(leaves, bit, index):
    """The nodes that test `bit` and the bits below it on every path, down to these leaves in order."""
    if len(leaves) == 1:
        return leaves
    half = len(leaves) // 2
    one_side = index + len(leaves)
    return [0x80000000 | bit << 23 | one_side] + full_tree(leaves[:half], bit - 1, index + 1) + full_tree(leaves[half:], bit - 1, one_side)


def tree_at_the_limit(entry_of):
    """16,383 nodes: thirteen tests on each path, bit 31 first. Bit 31, the five bits that are zero in the corner and the seven bits
    below tell the entry that a leaf names; 256 is nothing."""
    entries = [entry_of(cell >> 12, cell >> 7 & 31, cell & 127) for cell in range(2 ** DEPTH)]
    leaves = [0xA0000000 if entry == MOST_ENTRIES else 0x90000000 | entry for entry in entries]
    words = [0x70203FFF] + full_tree(leaves, 31, 1)
    return "".join(f"{at} {word:08x}\n" for at, word in enumerate(words))


def open_entry(side, zeros, number):
    """Outside the corner the entry that decides, in it the one whose own cell it is; the last cell on either side is nobody's."""
    if zeros != 0:
        return MATCHING_ALL + side
    return 2 * number + side if 2 * number < MATCHING_ALL else MOST_ENTRIES


def sure_entry(side, zeros, number):
    """The same; of those that decide it is the one of bits 31 and 30, and the last two cells are nobody's."""
    if zeros != 0:
        return 252 + 2 * side + (zeros >> 4)
    if number < 64:
        return 2 * number + side
    return 128 + 62 * side + number - 64 if number < 126 else MOST_ENTRIES


def unreached(entry):
    """What mktree prints where no word selects this entry, and it is the lowest such one."""
    return f"refused 19 {entry} 00000000\n"


def cases(rng, kind):
    """(name, plan, what mktree must print, words if the table is of a certain length)"""
    yield "everything open, a tree at the limit", everything_open(rng, kind, DEPTH), unreached(0), MOST_WORDS
    if kind == PLAIN:
        # With cycles the next one stands for these: they take long.
        yield "everything open, twice the limit", everything_open(rng, kind, DEPTH + 1), NOT_FITTING, MOST_WORDS
        yield "everything open, 2^31 leaves", everything_open(rng, kind, 31), NOT_FITTING, MOST_WORDS
    yield "everything open, nothing decides", everything_open(rng, kind, 16, deciding=False), NOT_FITTING, MOST_WORDS
    yield "many sure, a tree at the limit", many_sure(rng, DEPTH), unreached(0), None
    yield "many sure, 2^32 leaves", many_sure(rng, 32), NOT_FITTING, None
    yield "one entry, 2^32 leaves", tables.full_tree_plan(rng, 32, 32), NOT_FITTING, None
    # Each leaf would be a conflict: fit is decided before ambiguity.
    yield "two entries, 2^32 conflict leaves", tables.full_tree_plan(rng, 32, 32, twice=True), NOT_FITTING, None
    both = tables.full_tree_plan(rng, 32, 32, twice=True)
    both.entries *= 28
    yield "56 entries, 2^32 conflict leaves", both, NOT_FITTING, None
    # The twins come last, so that those before them are the tables that older measurements are of.
    yield "everything open, a tree at the limit, all reached", everything_open_reached(rng, kind), tree_at_the_limit(open_entry), MOST_WORDS
    if kind == PLAIN:
        yield "everything open, a tree at the limit, one unreached", everything_open_reached(rng, kind, UNREACHED), unreached(UNREACHED), \
            MOST_WORDS
    yield "many sure, a tree at the limit, all reached", many_sure_reached(rng, DEPTH), tree_at_the_limit(sure_entry), None


def expected_size(expected):
    """The same refusal; each tree here that stands is at the limit."""
    refused = expected.removeprefix("refused ")
    return "12 0 0 00000000 16383 13" if refused == expected else f"12 {refused[:-1]}"


def spent(run):
    """What a run gives, and how many seconds of the processor it took; the clock is not looked at, as in running.py."""
    before = resource.getrusage(resource.RUSAGE_CHILDREN)
    given = run()
    after = resource.getrusage(resource.RUSAGE_CHILDREN)
    return given, after.ru_utime - before.ru_utime + after.ru_stime - before.ru_stime


def all_cases():
    """(name, words of the table, number of entries, what mktree must print)"""
    rng = random.Random(SEED)
    for kind in (PLAIN, WITH_CYCLES):
        for name, plan, expected, length in cases(rng, kind):
            words = tables.lay_out(tables.with_cycles(rng, plan), kind).words
            if len(plan.entries) > MOST_ENTRIES or len(words) > MOST_WORDS or length not in (None, len(words)):
                sys.exit(f"{name}: {len(plan.entries)} entries, {len(words)} words")
            yield name + (", with cycles" if kind == WITH_CYCLES else ""), words, len(plan.entries), expected


def main():
    probe_path, path = probe.path_from_arguments(), mktree.path_from_arguments(2)
    times, with_cycles = [], 0
    for name, words, entries, expected in all_cases():
        seen, taken = spent(lambda: mktree.text_of(path, pack(words)))
        mktree.stop_at_difference(name, pack(words), expected, seen)
        question = "measure", words
        (line,), sizing = spent(lambda: probe.ask(probe_path, [question]))
        probe.stop_at_difference(name, question, expected_size(expected), line)
        if sizing > 2 * taken + 0.2:
            sys.exit(f"{name}: sizing took {sizing:.2f} s, mktree {taken:.2f} s")
        print(f"{taken:6.2f} s, sizing {sizing:.2f} s  {name} ({len(words)} words, {entries} entries)", flush=True)
        times.append((taken, sizing))
        with_cycles += words[0] >> 28 == WITH_CYCLES
    if len(times) - with_cycles != 12 or with_cycles != 9:
        sys.exit(f"only {len(times)} tables, {with_cycles} of them with cycles")
    trees, sizes = zip(*times)
    print(f"hardest good: {len(times)} tables, {with_cycles} of them with cycles; the longest took {max(trees):.2f} s, the longest sizing "
          f"{max(sizes):.2f} s")


if __name__ == "__main__":
    main()

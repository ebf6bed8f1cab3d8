"""Tables for images and images for the tests of the lister. Nothing here uses the second implementation.

Everything is drawn from the random.Random that is handed in, so the same seed gives the same tables and images.
"""

import struct

from second import tables

WIDTH = 32


# ---------------------------------------------------------------------------- tables

def image_entry(rng, length):
    """An entry of 16 or 32 bits with most of its opcode at the top; now and then one that matches every word."""
    own = tables.own_bits(WIDTH, length)
    top = own & ~(own >> rng.choice([1, 2, 3, 4, 6]))
    mask = top | tables.some_bits(rng, own, rng.choice([0, 0, 1, 3]))
    if rng.random() < 0.04:
        mask = 0
    return tables.entry_on_mask(rng, WIDTH, length, mask, rng.getrandbits(32) & mask)


def refined_entry(rng, base):
    """More specific than `base`, of the same length or 32 bits long: what the lower half holds may decide the length."""
    length = base.length if rng.random() < 0.5 else 32
    free = tables.own_bits(WIDTH, length) & ~base.mask
    if free == 0:
        return base
    more = tables.some_bits(rng, free, rng.choice([1, 2])) or free & -free
    return tables.entry_on_mask(rng, WIDTH, length, base.mask | more, base.value | (rng.getrandbits(32) & more))


def image_plan(rng, most_entries=9, conditions_often=0.4, lengths=(16, 32)):
    """A table of width 32 that is never ambiguous, its entries 16 or 32 bits long."""
    entries = []
    for _ in range(2 * most_entries):
        if entries and rng.random() < 0.4:
            entry = refined_entry(rng, rng.choice(entries))
        else:
            entry = image_entry(rng, rng.choice(lengths))
        if len(entries) < most_entries and all(tables.apart(entry, other) for other in entries):
            entries.append(entry)
    rng.shuffle(entries)
    for entry in entries:
        tables.add_conditions(rng, WIDTH, entry, conditions_often)
    return tables.TablePlan(WIDTH, entries)


def wrong_length_plan(rng):
    """As an image's table, but one entry has another length; often 15, 17 or 31, or the last entry."""
    plan = image_plan(rng, most_entries=5, conditions_often=0.2)
    length = rng.choice([15, 17, 31, 8, 24, 1, rng.choice([one for one in range(1, 32) if one != 16])])
    entry = image_entry(rng, length)
    entry.mask = entry.mask or tables.own_bits(WIDTH, length)
    entry = tables.entry_on_mask(rng, WIDTH, length, entry.mask, entry.value & entry.mask)
    plan.entries.insert(rng.choice([0, len(plan.entries), len(plan.entries), rng.randint(0, len(plan.entries))]), entry)
    return plan


LABELS = 4      # so few that entries often share one


def lower_bits(rng):
    """Few bits of the lower half, often the highest or the lowest alone; now and then all of them."""
    some = rng.choice([[15], [0], [rng.randrange(16)], rng.sample(range(16), 2), rng.sample(range(16), 3), range(16)])
    return sum(1 << bit for bit in some)


def with_lower(rng, base, mask, value):
    """An entry of 32 bits with the base's opcode, and these bits of the lower half where the base leaves them free."""
    mask &= ~base.mask
    return tables.entry_on_mask(rng, WIDTH, 32, base.mask | mask, base.value | value & mask)


def lower_entries(rng, base):
    """Entries more specific than the base by bits of the lower half: one, or two that share all its words."""
    mask = lower_bits(rng)
    if rng.random() < 0.25:
        mask &= -mask
        return [with_lower(rng, base, mask, 0), with_lower(rng, base, mask, mask)]
    return [with_lower(rng, base, mask, rng.choice([0, mask, rng.getrandbits(16)]))]


def lower_pattern(rng, entry):
    """Bits of the lower half, now and then with one of the upper half in which the entry agrees, or doesn't."""
    mask = lower_bits(rng)
    value = rng.getrandbits(16) & mask
    if rng.random() < 0.3:
        bit = 1 << rng.randrange(16, 32)
        mask, value = mask | bit, value | rng.choice([0, bit, entry.value & bit])
    return mask, value


def add_lower_conditions(rng, entry):
    for _ in range(rng.choice([1, 1, 2])):
        matching, count = lower_pattern(rng, entry), rng.choice([0, 0, 1, 2])
        entry.conditions.append((matching, [lower_pattern(rng, entry) for _ in range(count)]))


def lower_plan(rng, most_entries=8):
    """A table of width 32 that is never ambiguous, in which the lower half often decides what is selected, and of which length it is."""
    entries = []
    for _ in range(2 * most_entries):
        refine = entries and rng.random() < 0.5
        some = lower_entries(rng, rng.choice(entries)) if refine else [image_entry(rng, rng.choice([16, 16, 32]))]
        for entry in some:
            if len(entries) < most_entries and all(tables.apart(entry, other) for other in entries):
                entries.append(entry)
    rng.shuffle(entries)
    for entry in entries:
        entry.label = rng.randrange(LABELS)
        if entry.length == 32 and rng.random() < 0.3:
            add_lower_conditions(rng, entry)
        else:
            tables.add_conditions(rng, WIDTH, entry, 0.15)
    return tables.TablePlan(WIDTH, entries)


def letters_plan():
    """256 entries, entry n for the words with n in their highest eight bits; every third is 32 bits long."""
    entries = []
    for number in range(256):
        length = 32 if number % 3 == 0 else 16
        entries.append(tables.EntryPlan(number, length, 0xFF << 24, number << 24, [(WIDTH - length, length - 8)]))
    return tables.TablePlan(WIDTH, entries)


# ---------------------------------------------------------------------------- images

def image_of(halves):
    return struct.pack(f"<{len(halves)}H", *halves)


def instruction(rng, plan):
    """The halfwords of some entry with random fields, upper half first."""
    entry = rng.choice(plan.entries)
    word = tables.word_on(rng, WIDTH, [(entry.mask, entry.value)])
    if entry.conditions and rng.random() < 0.3:
        matching, unmatching = rng.choice(entry.conditions)
        word = tables.word_on(rng, WIDTH, [(entry.mask, entry.value), matching])
    return [word >> 16] if entry.length == 16 else [word >> 16, word & 0xFFFF]


def some_halves(rng, plan, count):
    """About that many halfwords: instructions, random halfwords, zeros and ones."""
    encoded = rng.choice([0, 0.7, 0.9, 1]) if plan.entries else 0
    halves = []
    while len(halves) < count:
        if rng.random() < encoded:
            halves += instruction(rng, plan)
        else:
            halves.append(rng.choice([rng.getrandbits(16), rng.getrandbits(16), 0, 0xFFFF]))
    # An instruction that runs over the count is cut, or not.
    return halves[:count] if rng.random() < 0.5 else halves


def cut_in_instruction(rng, plan, count):
    """Halfwords whose last one begins an instruction of 32 bits; None if the table has none."""
    long_ones = [entry for entry in plan.entries if entry.length == 32]
    if not long_ones:
        return None
    entry = rng.choice(long_ones)
    # Its lower half is lost: with other lower halves the word may be another entry's, or nobody's.
    word = tables.word_on(rng, WIDTH, [(entry.mask, entry.value)])
    halves = []
    while len(halves) < count:
        halves += instruction(rng, plan)
    return halves + [word >> 16]


def upper_of(rng, entry):
    """The upper half of some word that the entry matches; of one that a condition matches too, if it has any."""
    patterns = [(entry.mask, entry.value)]
    if entry.conditions and rng.random() < 0.4:
        patterns.append(rng.choice(entry.conditions)[0])
    return tables.word_on(rng, WIDTH, patterns) >> 16


def some_uppers(rng, plan, count):
    """So many upper halves: of entries, their neighbours, and random ones."""
    uppers = []
    for _ in range(count):
        upper = upper_of(rng, rng.choice(plan.entries)) if plan.entries and rng.random() < 0.85 else rng.getrandbits(16)
        uppers.append(upper ^ (1 << rng.randrange(16) if rng.random() < 0.2 else 0))
    return uppers


def some_image(rng, plan):
    count = rng.choice([0, 1, 1, 2, 3, 4, 7, 12, 20, 33])
    halves = cut_in_instruction(rng, plan, count) if rng.random() < 0.3 else None
    return image_of(some_halves(rng, plan, count) if halves is None else halves)


def odd_image(rng, plan):
    image = some_image(rng, plan)
    return image[:-1] if image and rng.random() < 0.5 else image + bytes([rng.getrandbits(8)])


def long_image(rng, plan, count):
    """Many halfwords made of few different instructions, so that the second implementation knows most words already."""
    parts = [instruction(rng, plan) for _ in range(60)] + [[rng.getrandbits(16)] for _ in range(6)]
    halves = []
    while len(halves) < count:
        halves += rng.choice(parts)
    return image_of(halves[:count])

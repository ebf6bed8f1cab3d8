"""Compares request 1 of probe with the second reader, line for line; single damages also with what they say by themselves. Tables
are of kind 1 and of kind 6, and each good one is asked again as its twin of the other kind.

Usage: compare_read.py [path of probe]. Exits with status 1 at the first difference.
"""

import random
import sys
from collections import Counter

import probe
import twinned
from second import examples, tables
from second.lines import read_line
from second.tables import WITH_CYCLES
from second.twins import Twins

SEED = 1


def hand_written():
    """Tables with literal lines, which don't rest on the second reader."""
    for name, words, line in examples.READ_EXAMPLES:
        yield name, words, [line]


def good_tables(rng):
    for width in range(1, 33):
        for _ in range(15):
            yield "good", tables.good_plan(rng, width)
            yield "overlapping", tables.overlapping_plan(rng, width)
        yield "many entries", tables.small_entries_plan(rng, width, rng.randint(13, 255))
    for width in (1, 8, 32):
        yield "256 entries", tables.small_entries_plan(rng, width, 256)
    for width in (8, 17, 32):
        yield "longest entry", tables.TablePlan(width, [tables.full_entry(rng, width)])


def damages(rng):
    """(name, laid table, damage): every kind of damage, and every cut, on tables of every width, each as kind 1 and as kind 6."""
    for width in list(range(1, 33)) * 2:
        for laid in tables.lay_out_both(rng, tables.good_plan(rng, width, most_entries=5, conditions_often=0.6)):
            yield from ((kind.__name__, laid, kind(rng, laid)) for kind in tables.USUAL_DAMAGES)
    for width in range(17, 33):
        # fields that are wide enough are rare in other tables
        for laid in tables.lay_out_both(rng, tables.small_entries_plan(rng, width, 8)):
            yield "fraction_over", laid, tables.fraction_over(rng, laid)
    for width in range(1, 33):
        for laid in tables.lay_out_both(rng, tables.good_plan(rng, width, most_entries=3)):
            yield from (("cut", laid, damage) for damage in tables.every_cut(laid))


def damaged_tables(rng):
    """With the lines of the damages and of the second reader."""
    for name, laid, damage in damages(rng):
        if damage is not None:
            words = tables.damaged(laid.words, damage)
            yield name, words, [f"1 {damage.number} {damage.place} 00000000", read_line(words)]


def some_laid(rng, width):
    return rng.choice(tables.lay_out_both(rng, tables.good_plan(rng, width, most_entries=3)))


def doubly_damaged_tables(rng):
    """Two damages at once, in one entry or in two: which one is reported tests the order."""
    for width in list(range(1, 33)) * 40:
        laid = some_laid(rng, width)
        one, two = tables.some_damage(rng, laid), tables.some_damage(rng, laid)
        yield "two damages", tables.damaged(laid.words, one, two)


def changed_tables(rng):
    for width in list(range(1, 33)) * 30:
        words = some_laid(rng, width).words
        for _ in range(rng.randint(1, 2)):
            words = tables.random_change(rng, words) or [0]
        yield "changed", words


def random_tables(rng):
    for _ in range(800):
        yield "random words", tables.random_words(rng)
        yield "loose words", tables.loose_words(rng)


def long_tables(rng):
    """At the limit of 16,384 words, over it, and with one damage at the limit."""
    for first_kind in (tables.PLAIN, WITH_CYCLES):
        laid = tables.lay_longest(rng, first_kind)
        yield "longest", laid.words
        yield "one word over", laid.words + [0]
        for kind in (tables.cut_short, tables.entries_down, tables.cover_mask, tables.mask_outside, tables.head_kind):
            damage = kind(rng, laid)
            if damage is not None:
                yield kind.__name__, tables.damaged(laid.words, damage)
    for width in (1, 32):
        small = tables.lay_out(tables.good_plan(rng, width))
        yield "too_long", tables.damaged(small.words, tables.too_long(rng, small))


def compared_with_reader(rng):
    for name, plan in good_tables(rng):
        yield name, tables.lay_out(plan).words
    for source in (doubly_damaged_tables, changed_tables, random_tables, long_tables):
        yield from source(rng)


def all_cases():
    """(name, words, expected lines)"""
    rng = random.Random(SEED)
    yield from hand_written()
    yield from damaged_tables(rng)
    for name, words in compared_with_reader(rng):
        yield name, words, [read_line(words)]


def width_said(words):
    """The width in the first word, for the count of widths."""
    return words[0] & 0xFF if words else 0


def require(count, least, what):
    """A test whose cases went missing must not pass."""
    if count < least:
        print(f"only {count} of {what}, at least {least} are needed")
        sys.exit(1)


LEAST = {"kind 6, number 0": 60, "kind 6, number 1": 150, "kind 6, number 2": 2000, "kind 6, number 3": 200, "kind 6, number 4": 400,
         "twins": 1000, "twins by the second": 50,
         "cycles_over": 40, "cycles_missing": 40, "opcode_before_cycles": 40, "cycles_before_fields": 40,
         "field_spare": 60, "field_spare_no_form": 60, "form_over": 60, "fraction_over": 15, "fraction_wide": 60}


def require_enough(cases, by_number, good_widths, bad_widths, tally):
    require(len(cases), 3000, "all tables")
    require(len(examples.READ_EXAMPLES), 25, "hand-written tables")
    for number, least in ((0, 500), (1, 200), (2, 1000), (3, 200), (4, 500)):
        require(by_number[number], least, f"number {number}")
    for width in range(1, 33):
        require(good_widths[width], 20, f"good tables of width {width}")
        require(bad_widths[width], 20, f"tables of width {width} with number 2, 3 or 4")
    for what, least in LEAST.items():
        require(tally[what], least, what)


def main():
    path = probe.path_from_arguments()
    cases = list(all_cases())
    seen_lines = probe.ask(path, [("read", words) for _, words, _ in cases])
    by_number, good_widths, bad_widths, tally = Counter(), Counter(), Counter(), Counter()
    for (name, words, expected), seen in zip(cases, seen_lines, strict=True):
        for line in expected:
            probe.stop_at_difference(name, ("read", words), line, seen)
        # Counted from what probe said, which is what was expected.
        number = int(seen.split()[1])
        by_number[number] += 1
        tally[name] += 1
        tally[f"kind 6, number {number}"] += words[:1] != [] and words[0] >> 28 == WITH_CYCLES
        if number == 0:
            good_widths[int(seen.split()[4])] += 1
        elif number > 1:
            bad_widths[width_said(words)] += 1
    twinned.compare(path, Twins(SEED), [(name, ("read", words), seen) for (name, words, _), seen in zip(cases, seen_lines)], tally)
    require_enough(cases, by_number, good_widths, bad_widths, tally)
    counts = ", ".join(f"number {number}: {by_number[number]}" for number in (1, 2, 3, 4))
    with_cycles = ", ".join(f"{number}: {tally[f'kind 6, number {number}']}" for number in range(5))
    print(f"compare_read good: {len(cases)} tables, {len(examples.READ_EXAMPLES)} of them by hand; "
          f"good: {by_number[0]}, {counts}; of kind 6 by number {with_cycles}; {tally['twins']} twins")


if __name__ == "__main__":
    main()

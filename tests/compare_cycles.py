"""Compares request 13 of probe (the cycles of an entry) with the second implementation, line for line, and with what the plan of each
table or its damage says, without the second one. Narrow tables are sized too: an entry that no word selects has its cycles as others
have. At the end wrong calls stand in for probe's (second/wrong_cycles.py), and each must be noticed; and it is shown that twinned.py
notices lines that depend on cycles.

Usage: compare_cycles.py [path of probe]. Exits with status 1 at the first difference. Quotations are document 02's No. 3.
"""

import contextlib
import io
import random
import sys
from collections import Counter
from dataclasses import dataclass

import probe
import twinned
from second import examples, selection, tables, wrong_cycles
from second.lines import cost_line, line_of
from second.reader import Refusal
from second.tables import MOST_CYCLES, PLAIN, WITH_CYCLES
from second.twins import Twins

SEED = 14
TABLES_EACH = 12        # good tables of each width
MOST_ENTRIES = 256
LONGEST_ENTRIES = 20    # asked of a table of 16,384 words
MOST_CUT = 12           # tables are cut before each of their first words
NARROW = 10             # tables up to that width are sized


@dataclass
class Case:
    name: str
    question: tuple
    known: str          # the line, as the table is planned


def case_of(name, words, entry, outcome):
    return Case(name, ("cycles", words, entry), cost_line(outcome))


# ---------------------------------------------------------------------------- tables

def laid_tables(rng):
    """(name, laid): each table as kind 1 and as kind 6."""
    def both(name, plan):
        return ((name, laid) for laid in tables.lay_out_both(rng, plan))

    for width in range(1, 33):
        for _ in range(TABLES_EACH):
            yield from both("usual", tables.good_plan(rng, width, most_entries=6))
        yield from both("no entries", tables.TablePlan(width, []))
    for width in (1, 17, 32):
        yield from both("256 entries", tables.small_entries_plan(rng, width, MOST_ENTRIES))
        yield from both("255 entries", tables.small_entries_plan(rng, width, MOST_ENTRIES - 1))
    yield from (("longest", tables.lay_longest(rng, kind)) for kind in (PLAIN, WITH_CYCLES))


def entries_past(rng, count):
    """Numbers that no entry has; some of them would be one if only their low bits were looked at."""
    return {count, count + 1, 256, 257, 256 + count // 2, 0x10000, 0x80000000, 0xFFFFFFFF, rng.randint(count, 0xFFFFFFFF),
            *([255] if count <= 255 else [])}


def right_cases(rng, name, laid):
    """"A new call gives an entry's cycles"; "Kind 1 tables are still read, with cycles 0." """
    entries = laid.plan.entries
    numbers, past = list(range(len(entries))), entries_past(rng, len(entries))
    if name == "longest":
        numbers, past = [numbers[0], numbers[-1], *rng.sample(numbers, LONGEST_ENTRIES)], {len(entries), 0xFFFFFFFF}
    for number in numbers:
        yield case_of(name, laid.words, number, entries[number].cycles)
    for number in past:
        yield case_of(f"{name}, no such entry", laid.words, number, Refusal(11))


def faulty_cases(rng, name, laid, damage):
    """"after the table's faults 11": for an entry that is there, and for one that isn't."""
    words, count = tables.damaged(laid.words, damage), len(laid.plan.entries)
    for number in (rng.randrange(count + 1), rng.choice([count, 255, 256, 0xFFFFFFFF])):
        yield case_of(name, words, number, Refusal(damage.number, damage.place))


def damaged_tables(rng):
    for width in range(1, 33):
        for laid in tables.lay_out_both(rng, tables.good_plan(rng, width, most_entries=4, conditions_often=0.6)):
            for kind in tables.USUAL_DAMAGES:
                damage = kind(rng, laid)
                if damage is not None:
                    yield from faulty_cases(rng, kind.__name__, laid, damage)
            for damage in tables.every_cut(laid):
                if damage.cut <= MOST_CUT:
                    yield from faulty_cases(rng, "cut", laid, damage)
    laid = tables.lay_longest(rng, WITH_CYCLES)
    for kind in (tables.cycles_over, tables.cycles_missing, tables.opcode_before_cycles, tables.cycles_before_fields, tables.too_long):
        yield from faulty_cases(rng, f"longest, {kind.__name__}", laid, kind(rng, laid))


def all_cases(rng):
    cases = [Case("by hand", question, line) for _, question, line in examples.CYCLES_EXAMPLES if question[0] == "cycles"]
    for name, laid in laid_tables(rng):
        cases += right_cases(rng, name, laid)
    return cases + list(damaged_tables(rng))


# ---------------------------------------------------------------------------- comparing and counting

def check_examples(path):
    """All requests, by hand."""
    questions = [question for _, question, _ in examples.CYCLES_EXAMPLES]
    for (name, question, expected), seen in zip(examples.CYCLES_EXAMPLES, probe.ask(path, questions), strict=True):
        probe.stop_at_difference(name, question, expected, seen)


def count(case, line, tally):
    number = line.split(" ")[1]
    kind = case.question[1][0] >> 28 if case.question[1] else None
    tally[f"number {number}"] += 1
    tally[f"{case.name}, kind {kind}: {number}"] += 1
    if number == "0":
        tally[f"kind {kind}"] += 1
        tally[f"kind {kind}, cycles {line.split(' ')[4]}"] += 1


def compare(path, cases, tally):
    for case, seen in zip(cases, probe.ask(path, [case.question for case in cases]), strict=True):
        probe.stop_at_difference(f"{case.name}, as it is planned", case.question, case.known, seen)
        probe.stop_at_difference(case.name, case.question, line_of(case.question), seen)
        count(case, seen, tally)


def compare_sizes(path, cases, tally):
    """The sizes of the narrow tables. Of those that are refused with 19 the call gave the cycles of every entry, also of the one that is
    named."""
    asked = {(tuple(case.question[1]), case.question[2]) for case in cases if case.name == "usual"}
    questions = [("measure", list(words)) for words in dict.fromkeys(words for words, _ in sorted(asked)) if words[0] & 0xFF <= NARROW]
    for question, seen in zip(questions, probe.ask(path, questions), strict=True):
        probe.stop_at_difference("size", question, line_of(question), seen)
        _, number, place, *_ = seen.split(" ")
        tally[f"sized {number}"] += 1
        tally["cycles of an entry that no word selects"] += number == "19" and (tuple(question[1]), int(place)) in asked


# ---------------------------------------------------------------------------- what must be noticed

def notice_wrong(cases):
    """By now the lines are right. The examples by hand are tried in second/selfcheck.py."""
    left = set(wrong_cycles.WRONG)
    for case in cases:
        if case.name != "by hand":
            left -= {wrong for wrong in left if cost_line(wrong(*case.question[1:])) != case.known}
    if left:
        sys.exit(f"no table shows it: {left.pop().__doc__}")
    return len(wrong_cycles.WRONG)


def lines_with(name, wrong):
    """In the place of probe.ask: the second implementation, with another function in selection.py."""
    def ask(path, questions):
        right = getattr(selection, name)
        setattr(selection, name, wrong)
        lines = [line_of(question) for question in questions]
        setattr(selection, name, right)
        return lines
    return ask


def is_stopped(asked, ask):
    """Whether twinned.py stops at a difference if these are the lines about twins."""
    try:
        with contextlib.redirect_stdout(io.StringIO()):
            twinned.compare(None, Twins(SEED), asked, Counter(), ask=ask)
    except SystemExit:
        return True
    return False


def notice_in_twins(rng):
    """Lines that depend on cycles are noticed, right ones pass, and lines that are wrong of a table and of its twin are noticed too."""
    plans = [tables.overlapping_plan(rng, width, most_entries=5) for width in range(1, 33)]
    questions = [question for plan in plans for words, word in [(tables.lay_out(plan).words, tables.word_for(rng, plan))]
                 for question in (("lookup", words, word), ("decode", words, word, [0] * 8))]
    asked = [("a table", question, line_of(question)) for question in questions]
    if is_stopped(asked, lines_with("read_once", wrong_cycles.RIGHT_READ)):
        sys.exit("right lines about twins are taken for wrong ones")
    for name, wrong in wrong_cycles.WRONG_SELECTION.items():
        if not is_stopped(asked, lines_with(name, wrong)):
            sys.exit(f"no twin shows it: {wrong.__doc__}")
    both_wrong = "2 0 0 00000000 999"
    if not is_stopped([(name, question, both_wrong) for name, question, _ in asked], lambda path, some: [both_wrong] * len(some)):
        sys.exit("a line that is wrong of a table and of its twin is not noticed")
    return len(wrong_cycles.WRONG_SELECTION) + 1


LEAST = {
    "number 0": 4000, "number 1": 600, "number 2": 2500, "number 3": 200, "number 4": 500, "number 11": 6000,
    "kind 1": 2000, "kind 6": 2000, "kind 6, cycles 0": 200, "kind 6, cycles 1": 200, f"kind 6, cycles {MOST_CYCLES}": 200,
    **{f"256 entries, kind {kind}: 0": 3 * 256 for kind in (PLAIN, WITH_CYCLES)},
    **{f"256 entries, no such entry, kind {kind}: 11": 18 for kind in (PLAIN, WITH_CYCLES)},
    **{f"no entries, no such entry, kind {kind}: 11": 250 for kind in (PLAIN, WITH_CYCLES)},
    "longest, kind 1: 0": LONGEST_ENTRIES, "longest, kind 6: 0": LONGEST_ENTRIES,
    "longest, cycles_over, kind 6: 2": 2, "longest, cycles_missing, kind 6: 2": 2,
    "longest, opcode_before_cycles, kind 6: 3": 2, "longest, cycles_before_fields, kind 6: 2": 2, "longest, too_long, kind 6: 1": 2,
    "cycles_over, kind 6: 2": 40, "cycles_missing, kind 6: 2": 40, "opcode_before_cycles, kind 6: 3": 40,
    "cycles_before_fields, kind 6: 2": 40, "cut, kind 1: 2": 300, "cut, kind 6: 2": 300,
    "sized 0": 50, "sized 6": 70, "sized 19": 30, "cycles of an entry that no word selects": 30,
}


def main():
    path = probe.path_from_arguments()
    rng, tally = random.Random(SEED), Counter()
    check_examples(path)
    cases = all_cases(rng)
    compare(path, cases, tally)
    compare_sizes(path, cases, tally)
    probe.require_enough(tally, LEAST)
    noticed, in_twins = notice_wrong(cases), notice_in_twins(rng)
    numbers = ", ".join(f"{number}: {tally[f'number {number}']}" for number in (1, 2, 3, 4, 11))
    print(f"compare_cycles good: {len(cases)} questions; cycles of kind 1: {tally['kind 1']}, of kind 6: {tally['kind 6']}, {numbers}; "
          f"tables sized: {tally['sized 0']}, 6: {tally['sized 6']}, 19: {tally['sized 19']}; "
          f"{len(examples.CYCLES_EXAMPLES)} examples by hand; {noticed} of {len(wrong_cycles.WRONG)} wrong calls noticed, "
          f"{in_twins} wrong ways in twins")


if __name__ == "__main__":
    main()

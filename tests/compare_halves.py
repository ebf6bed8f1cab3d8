"""Compares steps and listings of probe (requests 8 and 9) that come to the last halfword of an image with the second implementation, line
for line: images of one halfword and longer ones, by tables in which the lower half often decides. Then each step's mask with probe's own
walk of the word with zeros below, and a part of the questions with those of the tables' twins. The second implementation tries all lower
halves side by side: what it finds is compared with what single words select. At the end mistakes are put into it one by one, and each
must give another line somewhere.

Usage: compare_halves.py [path of probe]. Exits with status 1 at the first difference. Quotations are document 02's No. 6.
"""

import random
import sys
from collections import Counter
from dataclasses import dataclass

import probe
import twinned
from compare_image import compare_masks, marks, ready_tables
from second import examples, halves, image, images, wrong_halves
from second.lines import line_of
from second.reader import read
from second.selection import NOTHING, select
from second.twins import Twins

SEED = 26
TABLES = 200
UPPERS_EACH = 8
LOWERS_EACH = 60        # lower halves of each table that are tried one by one, beside the EDGES
EDGES = (0, 1, 0x8000, 0xFFFF)
WHOLE_TABLES = 2        # tables of which all lower halves are tried one by one
FEW_ENTRIES = 4         # of these, because it takes long
TWIN_EACH = 4           # every so many-th question is asked of a twin too


@dataclass
class Last:
    """An upper half at the end of an image, by a table."""
    ready: object
    table: object
    upper: int

    @property
    def answers(self):
        return halves.selecting(self.table, self.upper)

    @property
    def zeros_below(self):
        return select(self.table, self.upper << 16)


# ---------------------------------------------------------------------------- tables and questions

def some_plan(rng):
    if rng.random() < 0.75:
        return images.lower_plan(rng, rng.randint(1, 9))
    return images.image_plan(rng, rng.randint(1, 9), rng.choice([0, 0.4, 0.8]))


def some_lasts(rng):
    for one in ready_tables(rng, some_plan, TABLES):
        table = read(one.words)
        yield from (Last(one, table, upper) for upper in images.some_uppers(rng, one.plan, UPPERS_EACH))


def listings(one, data, items):
    """Room for all items and one more, for all but the last, and for none."""
    for what, length in (("list", items + 1), ("list, no room for the last", items - 1), ("list, no room", 0)):
        yield what, ("list", one.words, one.tree, data, marks(length))


def questions_on(rng, last):
    """(what, question)"""
    one = last.ready
    alone = images.image_of([last.upper])
    yield "step, alone", ("step", one.words, one.tree, alone, 0)
    yield from listings(one, alone, 1)
    before = images.some_halves(rng, one.plan, rng.choice([1, 1, 2, 3, 9]))
    data, end = images.image_of([*before, last.upper]), len(before)
    items, _ = image.list_items(one.words, one.tree, data, [0] * (end + 1))
    yield from listings(one, data, items)
    for what, address in (("step, the last", end), ("step, the last but one", end - 1), ("step, the end", end + 1)):
        yield what, ("step", one.words, one.tree, data, address)


# ---------------------------------------------------------------------------- counting

def lengths_in(last):
    """The lengths of the entries that are selected with some lower half, "nothing" if nothing is with some."""
    return {NOTHING if answer == NOTHING else last.table.entries[answer].length for answer in last.answers}


def cases_of(last):
    """What kind of case it is, in words to count."""
    answers, zeros = last.answers, last.zeros_below
    kind, _ = halves.kind_and_entry(last.table, last.upper)
    entries, labels = set(answers) - {NOTHING}, {last.table.entries[one].label for one in set(answers) - {NOTHING}}
    before, _ = wrong_halves.zeros_below_decide(last.table, last.upper)
    yield f"kind {kind}"
    if wrong_halves.bits_from(last.ready.tree, 1, last.upper) & 0xFFFF:
        yield f"kind {kind}, the tree tests bits of the lower half"
    if before != kind:
        yield f"kind {kind}, with zeros below kind {before}"
    if kind == 14:
        yield f"kind 14, {' and '.join(sorted(map(str, lengths_in(last))))}"
        yield f"kind 14, {'an entry' if len(entries) == 1 else 'several entries'}{', or nothing' if NOTHING in answers else ''}"
    if len(entries) > 1 and len(labels) == 1 and NOTHING not in answers:
        yield "entries of one label"
    if answers[zeros] != halves.ALL:
        fewest = min(lowers.bit_count() for lowers in answers.values())
        yield "a single lower half is another" if fewest == 1 else "few lower halves are others" if fewest <= 256 else "many are"
        yield from (f"bit {bit} alone decides" for bit in (0, 15) if halves.WITH_BIT[bit] in answers.values())


def count(tally, name, question, seen):
    parts = seen.split(" |")[0].split(" ")
    tally[f"{name}: {parts[1]}"] += 1
    if name in ("step, alone", "step, the last"):
        tally[f"{name}, kind {int(parts[4][0], 16)}"] += 1
    if name == "list" and parts[1] == "0":
        item = seen.partition("| ")[2].split()[int(parts[4]) - 1]
        tally[f"list, the last item: kind {int(item[0], 16)}"] += int(item[3:], 16) == len(question[3]) // 2 - 1


# ---------------------------------------------------------------------------- comparing

def compare_by_hand(path):
    """Literal lines, which don't rest on the second implementation."""
    lines = probe.ask(path, [question for _, question, _ in examples.HALVES_EXAMPLES])
    for (name, question, expected), seen in zip(examples.HALVES_EXAMPLES, lines, strict=True):
        probe.stop_at_difference(name, question, expected, seen)


def compare(path, cases, tally):
    """cases: (name, question); probe's lines, which are the second implementation's"""
    lines = probe.ask(path, [question for _, question in cases])
    for (name, question), seen in zip(cases, lines, strict=True):
        probe.stop_at_difference(name, question, line_of(question), seen)
        count(tally, name, question, seen)
    return lines


def compare_walks(path, cases, lines, tally):
    """"The mask handed on for such an item is that of the word with zeros below": both by probe."""
    stepped = [(question, seen) for (_, question), seen in zip(cases, lines, strict=True)
               if seen.startswith("8 0 ") and not seen.endswith(" end")]
    compare_masks(path, stepped, tally)


# ---------------------------------------------------------------------------- lower halves one by one

def check_lowers(last, lowers):
    """The sets of lower halves against what the words select one by one."""
    answers = last.answers
    for lower in lowers:
        answer = select(last.table, last.upper << 16 | lower)
        holding = [one for one, found in answers.items() if found >> lower & 1]
        if holding != [answer]:
            sys.exit(f"{last.upper:04x}{lower:04x} selects {answer}, by sets {holding}: {probe.shown(last.ready.words)}")


def check_sets(rng, lasts, tally):
    for last in lasts[::UPPERS_EACH]:
        check_lowers(last, [*EDGES, *(rng.randrange(halves.LOWER_HALVES) for _ in range(LOWERS_EACH))])
        tally["tables, some lower halves"] += 1
    deciding = [last for last in lasts if len(last.answers) > 1 and len(last.table.entries) <= FEW_ENTRIES]
    for last in deciding[::len(deciding) // WHOLE_TABLES][:WHOLE_TABLES]:
        check_lowers(last, range(halves.LOWER_HALVES))
        tally["tables, all lower halves"] += 1


# ---------------------------------------------------------------------------- what must be noticed

WRONG = ((halves, "kind_and_entry", wrong_halves.WRONG), (image, "last_item", wrong_halves.WRONG_LAST),
         (image, "item_at", wrong_halves.WRONG_ITEMS), (image, "mask_at", wrong_halves.WRONG_MASKS))


def is_noticed(home, name, wrong, cases, lines):
    """Whether some line is another with the mistake made."""
    right = getattr(home, name)
    setattr(home, name, wrong)
    image.selecting_once.cache_clear()
    try:
        return any(line_of(question) != line for (_, question), line in zip(cases, lines, strict=True))
    finally:
        setattr(home, name, right)
        image.selecting_once.cache_clear()


def notice_wrong(cases, lines):
    """By now the lines are right. The examples by hand are tried in second/selfcheck.py."""
    noticed = 0
    for home, name, some in WRONG:
        for wrong in some:
            if not is_noticed(home, name, wrong, cases, lines):
                sys.exit(f"no image shows it: {wrong.__doc__}")
            noticed += 1
    return noticed


LEAST = {
    "kind 12": 400, "kind 13": 150, "kind 14": 750,
    "kind 14, with zeros below kind 12": 120, "kind 14, with zeros below kind 13": 45,
    "kind 14, 16 and 32": 280, "kind 14, 32": 380, "kind 14, 32 and nothing": 65,
    "kind 14, an entry": 200, "kind 14, an entry, or nothing": 50, "kind 14, several entries": 450,
    "kind 14, several entries, or nothing": 12,
    "kind 12, the tree tests bits of the lower half": 35, "kind 13, the tree tests bits of the lower half": 12,
    "kind 14, the tree tests bits of the lower half": 500,
    "entries of one label": 60, "a single lower half is another": 120, "few lower halves are others": 10, "many are": 400,
    "bit 0 alone decides": 90, "bit 15 alone decides": 50,
    "step, alone: 0": 1600, "step, the last: 0": 1600, "step, the last but one: 0": 1600, "step, the end: 0": 1600,
    **{f"step, {which}, kind {kind}": least for which in ("alone", "the last") for kind, least in ((12, 400), (13, 150), (14, 750))},
    "list: 0": 3200, "list, no room for the last: 17": 3200, "list, no room: 17": 3200,
    "list, the last item: kind 12": 700, "list, the last item: kind 13": 300, "list, the last item: kind 14": 1300,
    "mask, kind 12": 1500, "mask, kind 13": 500, "mask, kind 14": 1500, "mask, kind 12, the lower half tested": 350,
    "mask, kind 13, the lower half tested": 60, "mask, kind 14, the lower half tested": 900,
    "tables, some lower halves": TABLES, "tables, all lower halves": WHOLE_TABLES, "twins": 3500, "twins by the second": 150,
}


def main():
    path = probe.path_from_arguments()
    rng, tally = random.Random(SEED), Counter()
    compare_by_hand(path)
    lasts = list(some_lasts(rng))
    cases = [case for last in lasts for case in questions_on(rng, last)]
    tally.update(what for last in lasts for what in cases_of(last))
    lines = compare(path, cases, tally)
    compare_walks(path, cases, lines, tally)
    asked = [(name, question, seen) for (name, question), seen in zip(cases, lines)]
    twinned.compare(path, Twins(SEED), asked[::TWIN_EACH], tally)
    check_sets(rng, lasts, tally)
    probe.require_enough(tally, LEAST)
    noticed = notice_wrong(cases, lines)
    kinds = ", ".join(f"{kind}: {tally[f'kind {kind}']}" for kind in (12, 13, 14))
    print(f"compare_halves good: {len(cases)} questions on {len(lasts)} last halfwords of {TABLES} tables, by kind {kinds}; of these with "
          f"zeros below 12, but 14: {tally['kind 14, with zeros below kind 12']}, 13, but 14: {tally['kind 14, with zeros below kind 13']}; "
          f"{len(examples.HALVES_EXAMPLES)} examples by hand; {tally['twins']} questions to twins; lower halves one by one: some of "
          f"{tally['tables, some lower halves']} tables, all of {tally['tables, all lower halves']}; {noticed} mistakes noticed")


if __name__ == "__main__":
    main()

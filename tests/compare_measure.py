"""Compares request 12 of probe (sizing) with the second implementation, line for line. Then holds probe's sizes against probe's own
trees, without the second one: what generating takes, returns and refuses, and the counts of walks, of every word up to a width.
What the words of narrow tables select tells whether sizing must refuse. Twins of the other kind are sized and lent the same. At the
end wrong sizings stand in for probe's (second/wrong_sizes.py), and each must be noticed in both ways.

Usage: compare_measure.py [path of probe]. Exits with status 1 at the first difference. Quotations are document 02's No. 2.
"""

import random
import re
import sys
from collections import Counter
from dataclasses import dataclass, replace
from itertools import chain, islice

import compare_tree
import masks
import probe
import twinned
from second import examples, tables, trees
from second.lines import line_of, size_line
from second.reader import Refusal
from second.tree import MOST_TREE_WORDS
from second.twins import Twins, kind_of
from second.wrong_sizes import WRONG

SEED = 12
USUAL_TABLES = 1280
LARGE_CASES = 6         # two for each large tree
ALL_WORDS_WIDTH = 10    # up to that width every word is walked
SOME_LEAVES = 6         # of a wider table's tree, beside a deepest one
WHOLE_EACH = 4          # every so many-th of the usual and faulty tables gets the whole buffer
SOME_EACH = 10          # wrong sizings are tried on every so many-th usual table
MARKS = [0x5EED0000 + at for at in range(MOST_TREE_WORDS + 8)]
WHOLE = probe.pack(MARKS[:MOST_TREE_WORDS])
ENOUGH = probe.pack(MARKS[:compare_tree.USUAL_NODES + 1])       # no usual table needs more


@dataclass
class Case:
    name: str
    words: list
    known: str = None       # the line, where it follows from how the table is built
    buffer: bytes = WHOLE
    line: str = None        # of request 12
    made: str = None        # of request 3 with that buffer, without the words after it
    tree: list = None
    most: int = 0           # the greatest count of a walk of the tree

    @property
    def question(self):
        return "measure", self.words

    @property
    def size(self):
        """Nodes and tests; empty after a refusal."""
        return [int(number) for number in self.line.split(" ")[4:]]


# ---------------------------------------------------------------------------- tables

def usual_tables(rng):
    for index in range(USUAL_TABLES):
        yield "usual table", tables.lay_out(compare_tree.usual_plan(rng, 1 + index % 32)[0]).words


def named_tables(cases):
    return ((case.name, case.question[1]) for case in cases)


def known_plans(rng):
    """(name, plan, outcome): tables without entries, and tables whose trees test the same bits on every path."""
    for width in range(1, 33):
        yield "no entries", tables.TablePlan(width, []), (1, 0)
    for depth in range(1, 11):
        yield "full tree", tables.full_tree_plan(rng, rng.randint(depth, 32), depth), (2 ** (depth + 1) - 1, depth)
        yield "full tree and a test", tables.full_tree_plan(rng, rng.randint(depth + 1, 32), depth, one_more=True), \
            (2 ** (depth + 1) + 1, depth + 1)
        yield "full tree of conflicts", tables.full_tree_plan(rng, rng.randint(depth, 32), depth, twice=True), Refusal(6)
    for width in (13, 32):
        yield "at the limit", tables.full_tree_plan(rng, width, 13), (MOST_TREE_WORDS - 1, 13)
    yield "conflicts at the limit", tables.full_tree_plan(rng, 20, 13, twice=True), Refusal(6)
    for width, depth in ((14, 13), (32, 32)):
        # One test over the limit, and far over it: 5, also where every leaf is a conflict.
        yield "over the limit", tables.full_tree_plan(rng, width, depth, one_more=depth == 13), Refusal(5)
        yield "conflicts over the limit", tables.full_tree_plan(rng, width, depth, one_more=depth == 13, twice=True), Refusal(5)
    # An entry that no word selects: 19 at the limit, after 5 and after 6.
    plan, number = tables.with_excluded(rng, tables.full_tree_plan(rng, 20, 13))
    yield "excluded at the limit", plan, Refusal(19, place=number)
    yield "excluded over the limit", tables.with_excluded(rng, tables.full_tree_plan(rng, 20, 13, one_more=True))[0], Refusal(5)
    yield "excluded and conflicts", tables.with_excluded(rng, tables.full_tree_plan(rng, 20, 9, twice=True))[0], Refusal(6)


def covered_cases(rng):
    """Tables of every width in which no word selects a certain entry, or a single word does."""
    for width in range(1, 33):
        for how in tables.COVERS:
            plan, number = tables.covered_plan(rng, width, how)
            yield Case(how, tables.lay_out(plan).words, size_line(Refusal(19, place=number)), ENOUGH)
            plan, _ = tables.covered_plan(rng, width, how, spared=True)
            yield Case(f"{how}, a word spared", tables.lay_out(plan).words, buffer=ENOUGH)


def all_cases(rng):
    """The families of compare_tree.py, and those whose size is known."""
    many = [*usual_tables(rng), *named_tables(compare_tree.refused_tables(rng))]
    cases = [Case(*one, buffer=WHOLE if index % WHOLE_EACH == 0 else ENOUGH) for index, one in enumerate(many)]
    few = [*named_tables(islice(compare_tree.large_random_trees(rng), LARGE_CASES)), *named_tables(compare_tree.hand_written())]
    cases += [Case(name, list(words)) for name, words in dict.fromkeys((name, tuple(words)) for name, words in few)]
    cases += [Case("the longest", examples.LONGEST), Case("the last of 256", examples.LAST_OF_256, "12 19 255 00000000")]
    cases += covered_cases(rng)
    return cases + [Case(name, tables.lay_out(plan).words, size_line(outcome)) for name, plan, outcome in known_plans(rng)]


# ---------------------------------------------------------------------------- what probe says

def tests_before(tree):
    """How many tests there are before each node, which comes after the one that leads to it."""
    before = {1: 0}
    for index, node in enumerate(tree):
        if node >> 28 == trees.TEST:
            before[index + 1] = before[node & 0xFFFF] = before[index] + 1
    return before


def words_to_walk(rng, tree):
    """Every word of the width. Of a wide one a word of a deepest cell, words of some others, words beside these, and random ones."""
    width = tree[0] >> 16 & 0x3F
    if width <= ALL_WORDS_WIDTH:
        return range(1 << width)
    before = tests_before(tree)
    leaves = [index for index in before if tree[index] >> 28 != trees.TEST]
    words = [trees.word_to(rng, tree, index) for index in (max(before, key=before.get), *rng.choices(leaves, k=SOME_LEAVES))]
    return words + [word ^ 1 << rng.randrange(width) for word in words] + [rng.getrandbits(width) for _ in words]


def walk_trees(path, rng, cases, tally):
    asked = [(case, ("walk", tree, word)) for case in cases if case.tree
             for tree in [probe.pack(case.tree)] for word in words_to_walk(rng, case.tree)]
    for (case, question), line in zip(asked, probe.ask(path, [question for _, question in asked]), strict=True):
        if not line.startswith("10 0 "):
            probe.stop_at_difference(f"{case.name}, a walk of its tree", question, "no refusal", line)
        case.most = max(case.most, masks.tests_and_mask(line)[0])
    tally["walks"] = len(asked)


def check_examples(path):
    questions = [question for _, question, _ in examples.SIZE_EXAMPLES]
    for (name, question, expected), seen in zip(examples.SIZE_EXAMPLES, probe.ask(path, questions), strict=True):
        probe.stop_at_difference(name, question, expected, seen)


def check_conflicts(path, cases):
    """The tables of conflicts are ambiguous, also those over the limit."""
    questions = [("lookup", case.words, 0) for case in cases if "conflicts" in case.name]
    for question, line in zip(questions, probe.ask(path, questions), strict=True):
        probe.stop_at_difference("a table of conflicts", question, "2 6 0 00000000", line)


def ask_all(path, rng, cases, tally):
    """Each table's size, its tree, and the greatest count of the walks."""
    for case, line in zip(cases, probe.ask(path, [case.question for case in cases]), strict=True):
        if not re.fullmatch(r"12 (0 0 00000000 \d+ \d+|([1-6]|19) \d+ [0-9a-f]{8})", line):
            probe.stop_at_difference(case.name, case.question, "12 0 0 00000000 NODES TESTS or 12 NUMBER PLACE WORD", line)
        case.line = line
    for case, line in zip(cases, probe.ask(path, [("generate", case.words, case.buffer) for case in cases]), strict=True):
        case.made, _, after = line.partition(" | ")
        if case.made.startswith("3 0 "):
            case.tree = [int(word, 16) for word in after.split(" ")[:int(case.made.split(" ")[4])]]
    walk_trees(path, rng, cases, tally)
    check_conflicts(path, cases)


def lent_questions(case):
    """Generating into exactly as many words as sizing says, into one fewer and into two more."""
    return [("generate", case.words, MARKS[:case.size[0] + more]) for more in (1, 0, 3)] if case.size else []


def lend(path, cases):
    """For each case its (question, line) of these."""
    asked = [lent_questions(case) for case in cases]
    lines = iter(probe.ask(path, [question for questions in asked for question in questions]))
    return [[(question, next(lines)) for question in questions] for questions in asked]


# ---------------------------------------------------------------------------- differences, as (name, question, expected, seen)

def by_the_second(case, lent):
    """The size, and every word of the lent buffers."""
    yield case.name, case.question, line_of(case.question), case.line
    for question, line in lent:
        yield f"{case.name}, {len(question[2])} words lent", question, line_of(question), line


def by_words(case):
    """Whether 6 or 19 is said, and of which entry, against what all words of a narrow table select."""
    said = compare_tree.said_by_words(case.question, case.line)
    if said is not None:
        yield f"{case.name}, by all words", case.question, said, compare_tree.number_and_place(case.line)


def by_itself(case, lent):
    """The size against probe's other answers."""
    # "over it the answer is 5, then 6 as in generating", after 1 to 4; else "the number of nodes that generating writes"
    number, place, word, *words = case.made.split(" ")[1:]
    wanted = " ".join(["12", number, place, word, *(str(int(one) - 1) for one in words)])
    yield f"{case.name}, against generating", case.question, wanted, " ".join(case.line.split(" ")[:5])
    if case.size:
        nodes, tests = case.size
        # "lend exactly what is needed"
        for question, line in lent:
            wanted = f"3 0 0 00000000 {nodes + 1}" if len(question[2]) > nodes else "3 5 0 00000000"
            yield f"{case.name}, {len(question[2])} words lent", question, wanted, line.partition(" |")[0]
        # "No walk tests more than the greatest number, and some word of the width tests that many."
        yield f"{case.name}, against walks", case.question, f"{case.most} tests", f"{tests} tests"


def compare(path, cases, tally):
    asked = []
    for case, lent in zip(cases, lend(path, cases), strict=True):
        for difference in chain(by_the_second(case, lent), by_itself(case, lent), by_words(case)):
            probe.stop_at_difference(*difference)
        if case.known is not None:
            probe.stop_at_difference(f"{case.name}, as it is built", case.question, case.known, case.line)
        count(case, lent, tally)
        asked += [(case.name, case.question, case.line), *((case.name, *one) for one in lent)]
    twinned.compare(path, Twins(SEED), asked, tally, second_each=47)


# ---------------------------------------------------------------------------- wrong sizings

def some_cases(cases):
    """The first of each sort whose size is known, those by hand, and a part of the usual tables."""
    known = {case.name: case for case in reversed(cases) if case.known is not None}
    by_hand = [case for case in cases if case.name == "by hand"]
    return [*known.values(), *by_hand, *[case for case in cases if case.name == "usual table"][::SOME_EACH]]


def notice_wrong(path, cases):
    """By now the lines are right. Table by table, so that a tree is made once for all wrong sizings."""
    lines = [[size_line(wrong(case.words)) for wrong in WRONG] for case in cases]
    for wrong, its_lines in zip(WRONG, zip(*lines), strict=True):
        stand_ins = [replace(case, line=line) for case, line in zip(cases, its_lines)]
        if all(one.line == case.line for one, case in zip(stand_ins, cases)):
            sys.exit(f"no line shows it: {wrong.__doc__}")
        shown = [difference for one, lent in zip(stand_ins, lend(path, stand_ins)) for difference in by_itself(one, lent)]
        if all(expected == seen for _, _, expected, seen in shown):
            sys.exit(f"none of probe's other answers shows it: {wrong.__doc__}")
    return len(WRONG)


# ---------------------------------------------------------------------------- counting

def count(case, lent, tally):
    number = case.line.split(" ")[1]
    tally[f"by words {number}"] += len(list(by_words(case)))
    tally["tables"] += 1
    tally[case.name] += 1
    tally[f"number {number}"] += 1
    tally["6, not word 0"] += number == "6" and not case.line.endswith(" 00000000")
    tally["19, not entry 0"] += number == "19" and not case.line.startswith("12 19 0 ")
    tally[f"{case.name}: {number}"] += 1
    tally["into 16,384 words"] += case.buffer is WHOLE
    tally["lent buffers"] += len(lent)
    if number in ("2", "3", "4"):
        tally[f"kind {kind_of(case.words)}, faulty"] += 1
    if case.size:
        width = case.words[0] & 0xFF
        tally[f"sized, width {width}"] += 1
        tally[f"sized, {case.size[1]} tests"] += 1
        tally["every word"] += width <= ALL_WORDS_WIDTH
        tally["words of these"] += 1 << width if width <= ALL_WORDS_WIDTH else 0


LEAST = {
    "tables": 1700, "number 0": 900, "number 1": 40, "number 2": 100, "number 3": 10, "number 4": 40, "number 5": 4, "number 6": 200,
    "number 19": 220, "19, not entry 0": 120, "usual table: 0": 700, "usual table: 19": 120,
    **{f"{how}: 19": 32 for how in tables.COVERS}, **{f"{how}, a word spared: 0": 32 for how in tables.COVERS},
    "excluded at the limit: 19": 1, "excluded over the limit: 5": 1, "excluded and conflicts: 6": 1,
    "6, not word 0": 150, "no entries": 32, "at the limit": 2, "conflicts at the limit": 1, "over the limit": 2,
    "conflicts over the limit": 2, "large random tree": 3, "into 16,384 words": 400, "lent buffers": 2700,
    "by words 0": 250, "by words 6": 80, "by words 19": 90,
    **{f"sized, width {width}": 20 for width in range(1, 33)}, **{f"sized, {tests} tests": 5 for tests in range(25)},
    "every word": 250, "words of these": 50000, "walks": 60000,
    "kind 1, faulty": 80, "kind 6, faulty": 80, "twins": 3500, "twins by the second": 70,
}


def main():
    path = probe.path_from_arguments()
    rng = random.Random(SEED)
    tally = Counter()
    check_examples(path)
    cases = all_cases(rng)
    ask_all(path, rng, cases, tally)
    compare(path, cases, tally)
    probe.require_enough(tally, LEAST)
    noticed = notice_wrong(path, some_cases(cases))
    numbers = ", ".join(f"{number}: {tally[f'number {number}']}" for number in (*range(1, 7), 19))
    by_all = ", ".join(f"{what}: {tally[f'by words {number}']}" for what, number in (("sized", 0), ("6", 6), ("19", 19)))
    print(f"compare_measure good: {tally['tables']} tables; sized: {tally['number 0']}, {numbers}; of these by all words {by_all}; "
          f"{tally['lent buffers']} buffers by "
          f"their size, {tally['into 16,384 words']} of 16,384 words; {tally['every word']} tables with every word: "
          f"{tally['words of these']}, {tally['walks'] - tally['words of these']} other walks; {tally['twins']} questions to twins; "
          f"{noticed} of {len(WRONG)} wrong sizings noticed")


if __name__ == "__main__":
    main()

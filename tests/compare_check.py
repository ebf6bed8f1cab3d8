"""Compares request 7 of probe (check) with the second implementation, line for line. It checks a part of the trees again with twins of
the tables. It also walks the trees that are accepted, where a walk's count is the number of ones in its mask, and some that test a
bit twice. Each table is sized too: the checker judges the trees of those that are refused with 19 as it does others.

Usage: compare_check.py [path of probe]. Exits with status 1 at the first difference.
"""

import random
from collections import Counter
from dataclasses import dataclass
from itertools import islice

import masks
import probe
import sizing
import twinned
from second import checktrees, examples, tables, trees
from second.checker import PARTS, first_missing_once
from second.lines import line_of
from second.reader import read
from second.tree import conflict_word, nodes_of, written
from second.twins import Twins, kind_of

SEED = 7
WALK_SEED = 701         # words to walk; the other draws don't depend on them
TABLES = 900
USUAL_NODES = 80        # larger trees are made on purpose only, because Python is slow
SMALL_NODES = 9         # trees of at most that many nodes are altered in every way
SMALL_TREES = 60
MIDDLE_NODES = 30       # trees of at most that many nodes are altered in their shape
AT_ONCE = 4000
TWIN_EACH = 3           # every so many-th check is done with a twin too


@dataclass
class Accepted:
    """A good table with its tree."""
    plan: tables.TablePlan
    words: list
    tree: list

    @property
    def shape(self):
        return checktrees.shape_at(self.tree, 1)


# ---------------------------------------------------------------------------- tables and their trees

def some_plan(rng, width):
    style = rng.random()
    if style < 0.4:
        return tables.nested_plan(rng, width)
    if style < 0.5:
        return tables.joined_plan(rng, width) or tables.nested_plan(rng, width)
    if style < 0.7:
        return tables.divided_plan(rng, width)
    if style < 0.9:
        return tables.overlapping_plan(rng, width, most_entries=5)
    # Every walk is right long before the tree is the one that must be accepted.
    return tables.full_tree_plan(rng, width, rng.randint(1, min(width, 3)))


def tree_of(plan, most_nodes):
    """The table's words, its nodes as words, and whether a conflict is among them; no nodes if there are too many."""
    words = tables.lay_out(plan).words
    nodes = nodes_of(read(words), most_nodes)
    if nodes is None:
        return words, None, False
    return words, written(plan.width, nodes), conflict_word(nodes) is not None


def make_tables(rng):
    """Tables of every width with their trees: those to be accepted, and the ambiguous ones with conflicts as nothing."""
    accepted, ambiguous = [], []
    while len(accepted) < TABLES:
        plan = some_plan(rng, 1 + len(accepted) % 32)
        words, tree, conflict = tree_of(plan, USUAL_NODES)
        if tree is not None:
            (ambiguous if conflict else accepted).append(Accepted(plan, words, tree))
    return accepted, ambiguous


# ---------------------------------------------------------------------------- trees to be accepted

def generated_trees(rng, accepted):
    for one in accepted:
        yield "generated", one.words, one.tree
        lent = [rng.getrandbits(32) for _ in range(rng.randint(1, 9))]
        yield "words lent after it", one.words, one.tree + lent


def other_trees(rng, accepted):
    for one in accepted:
        for _ in range(3):
            shape = checktrees.other_shape(rng, read(one.words), USUAL_NODES)
            if shape is not None:
                yield "other tests first", one.words, checktrees.written(one.plan.width, shape)


def large_trees(rng):
    """Larger than generating may write: up to 65,535 nodes, the most that a header can say. 256 entries."""
    for width, depth, one_more in ((32, 12, True), (32, 13, True), (15, 15, False)):
        words, tree, _ = tree_of(tables.full_tree_plan(rng, width, depth, one_more=one_more), 65535)
        yield "large", words, tree
        yield "large, the last word cut", words, tree[:-1]
        yield "large, the last kind altered", words, tree[:-1] + [0]
        if depth == 12:
            yield "large, the last leaf altered", words, tree[:-1] + [trees.NOTHING_NODE]
    entries = [tables.EntryPlan(0, 32, 0xFF << 24, number << 24, [(0, 24)]) for number in range(256)]
    rng.shuffle(entries)
    words, tree, _ = tree_of(tables.TablePlan(32, entries), 65535)
    yield "256 entries", words, tree
    for index in rng.sample([at for at in range(1, len(tree)) if tree[at] >> 28 == trees.NAMES], 16):
        yield "256 entries, a name altered", words, trees.with_node(tree, index, tree[index] ^ 1 << rng.randrange(8))


# ---------------------------------------------------------------------------- altered trees

def altered_everywhere(rng, one):
    """Each node in each way."""
    for index in range(1, len(one.tree)):
        for what, changed in trees.altered_nodes(rng, one.tree, index):
            yield "altered " + what, changed
    for changed in checktrees.leaves_changed(one.shape, len(one.plan.entries)):
        yield "leaf changed", checktrees.written(one.plan.width, changed)
    for changed in checktrees.nodes_swapped(one.tree):
        yield "nodes swapped", changed
    for what, changed in trees.altered_headers(rng, one.tree):
        yield what, changed
    for cut in range(1, len(one.tree)):
        yield "cut", one.tree[:cut]


def altered_in_words(rng, tree):
    for what, changes in (("another width", checktrees.other_widths(tree)), ("a shared side", checktrees.shared_sides(tree)),
                          ("unused nodes", checktrees.with_unused(rng, tree)), ("a gap", checktrees.with_gap(rng, tree)),
                          ("one side moved", checktrees.one_sides_moved(tree))):
        for changed in changes:
            yield what, changed


def altered_shapes(rng, shape, entries):
    for what, changes in (("tested again", checktrees.tested_again(rng, shape)), ("collapsed", checktrees.collapsed(shape)),
                          ("leaf changed", checktrees.leaves_changed(shape, entries)),
                          ("sides swapped", checktrees.sides_swapped(shape))):
        for changed in changes:
            yield what, changed


def some_altered_shapes(rng, one, shape, most):
    changes = list(altered_shapes(rng, shape, len(one.plan.entries)))
    for what, changed in rng.sample(changes, min(len(changes), most)):
        yield what, one.words, checktrees.written(one.plan.width, changed)


def altered_trees(rng, accepted):
    small = [one for one in accepted if 3 <= len(one.tree) - 1 <= SMALL_NODES]
    for one in rng.sample(small, SMALL_TREES):
        for what, changed in altered_everywhere(rng, one):
            yield what, one.words, changed


def trees_missing_one_part(rng, accepted):
    """Trees that are good by themselves, but of no table or of another one; most of them miss one part only."""
    for one in [one for one in accepted if len(one.tree) - 1 <= MIDDLE_NODES]:
        changes = list(altered_in_words(rng, one.tree))
        for what, changed in rng.sample(changes, min(len(changes), 16)):
            yield what, one.words, changed
        yield from some_altered_shapes(rng, one, one.shape, 12)


def altered_large_trees(rng, accepted):
    for one in [one for one in accepted if len(one.tree) > 20]:
        for _ in range(4):
            changes = list(trees.altered_nodes(rng, one.tree, rng.randrange(1, len(one.tree))))
            what, changed = rng.choice(changes)
            yield "altered " + what, one.words, changed
        yield "flipped", one.words, trees.flipped(rng, one.tree)


def altered_other_trees(rng, accepted):
    """A tree that isn't the generated one, altered: who compares with the generated tree doesn't notice these."""
    for one in accepted[::2]:
        shape = checktrees.other_shape(rng, read(one.words), MIDDLE_NODES)
        if shape is not None:
            yield from some_altered_shapes(rng, one, shape, 8)


# ---------------------------------------------------------------------------- other tables

def foreign_trees(rng, accepted):
    """The tree of another table, mostly of the same width, and trees that no table has."""
    for one in accepted:
        other = rng.choice([other for other in accepted if other.plan.width == one.plan.width])
        yield "another table's tree", one.words, other.tree
        yield "foreign", one.words, trees.foreign(rng, one.plan.width, rng.choice([1, 2, 3, 5, 9]))


def ambiguous_tables(rng, ambiguous):
    for one in ambiguous:
        yield "ambiguous", one.words, one.tree
        number = rng.randrange(len(one.plan.entries))
        named = [trees.names_node(number) if node == trees.NOTHING_NODE else node for node in one.tree[1:]]
        yield "ambiguous, named", one.words, one.tree[:1] + named


def refused_tables(rng, accepted):
    """1 to 4 come before 14."""
    for one in accepted[::3]:
        words = tables.some_damaged(rng, one.plan)
        yield "refused table", words, rng.choice([one.tree, one.tree, one.tree[:-1], []])
    laid = tables.lay_out(accepted[0].plan)
    yield "refused table", tables.damaged(laid.words, tables.too_long(rng, laid)), accepted[0].tree


def all_cases(rng):
    """(name, table, tree)"""
    for name, (_, words, tree), _ in examples.CHECK_EXAMPLES:
        yield "by hand", words, tree
    accepted, ambiguous = make_tables(rng)
    for source in (generated_trees(rng, accepted), other_trees(rng, accepted), large_trees(rng), altered_trees(rng, accepted),
                   trees_missing_one_part(rng, accepted), altered_large_trees(rng, accepted), altered_other_trees(rng, accepted),
                   foreign_trees(rng, accepted), ambiguous_tables(rng, ambiguous), refused_tables(rng, accepted)):
        yield from source


# ---------------------------------------------------------------------------- comparing and counting

def compare_by_hand(path):
    """Literal lines, which don't rest on the second implementation."""
    lines = probe.ask(path, [question for _, question, _ in examples.CHECK_EXAMPLES])
    for (name, question, expected), seen in zip(examples.CHECK_EXAMPLES, lines, strict=True):
        probe.stop_at_difference(name, question, expected, seen)


def count(tally, name, words, tree, seen, refused):
    number = seen.split(" ")[1]
    outcome = "yes" if number == "0" else number
    if tuple(words) in refused:
        tally[f"of a table refused with 19: {outcome}"] += 1
        tally[f"of a table refused with 19, {name}: {outcome}"] += 1
    tally["checks"] += 1
    tally[outcome] += 1
    tally[f"{name}: {outcome}"] += 1
    if outcome == "yes":
        tally[f"yes, width {words[0] & 0xFF}"] += 1
    if outcome in ("2", "3", "4"):
        tally[f"kind {kind_of(words)}, faulty"] += 1
    if outcome == "14":
        tally[f"14, part {first_missing_once(tuple(words), tuple(tree))}"] += 1


def compare(path, rng, tally):
    cases, walk_rng, twins, refused = all_cases(rng), random.Random(WALK_SEED), Twins(SEED), set()
    while group := list(islice(cases, AT_ONCE)):
        refused |= sizing.refused_with_19(path, [words for name, words, _ in group if name in ("generated", "ambiguous")], tally)
        questions = [("check", words, tree) for _, words, tree in group]
        lines, to_walk = probe.ask(path, questions), []
        for (name, words, tree), question, seen in zip(group, questions, lines, strict=True):
            probe.stop_at_difference(name, question, line_of(question), seen)
            count(tally, name, words, tree, seen, refused)
            if seen == examples.ACCEPTED or name == "tested again":
                to_walk.append((seen == examples.ACCEPTED, tree))
        walk_some(path, walk_rng, to_walk, tally)
        asked = [(name, question, seen) for (name, _, _), question, seen in zip(group, questions, lines)]
        twinned.compare(path, twins, asked[::TWIN_EACH], tally)


def walk_some(path, rng, to_walk, tally):
    """Walks each tree with a word, and what is accepted with one more that agrees on the mask. to_walk: (accepted, tree)"""
    questions = [("walk", tree, rng.getrandbits(tree[0] >> 16 & 0x3F)) for _, tree in to_walk]
    walked = []
    for (accepted, tree), question, seen in zip(to_walk, questions, probe.ask(path, questions), strict=True):
        probe.stop_at_difference("walk", question, line_of(question), seen)
        tests, mask = masks.tests_and_mask(seen)
        if accepted:
            masks.check_ones("accepted", question, tests, mask)
            walked.append((tree, question[2], seen))
            tally["accepted, walked with tests"] += tests > 0
        else:
            tally["a bit tested twice"] += mask.bit_count() < tests
    masks.compare_agreeing(path, rng, walked, tally)


LEAST = {
    "checks": 40000, "yes": 3000, "14": 35000, "1": 20, "2": 80, "3": 5, "4": 25,
    # By the first part that is missed; each part has trees that miss it alone.
    "14, part 1": 3000, "14, part 2": 3000, "14, part 3": 15000, "14, part 4": 2000, "14, part 5": 500,
    "14, part 6": 1000, "14, part 7": 4000, "14, part 8": 500,
    "generated: yes": TABLES, "words lent after it: yes": TABLES, "other tests first: yes": 1000,
    **{f"yes, width {width}": 50 for width in range(1, 33)},
    "large: yes": 3, "large, the last word cut: 14": 3, "large, the last kind altered: 14": 3,
    "large, the last leaf altered: 14": 1, "256 entries: yes": 1, "256 entries, a name altered: 14": 16,
    "altered kind: 14": 5000, "altered spare bit: 14": 3000, "altered tested bit: 14": 2000, "altered index above: 14": 500,
    "altered index below: 14": 300, "altered index moved: 14": 200, "altered entry: 14": 80, "nodes swapped: 14": 500,
    "header kind: 14": 500, "header spare: 14": 200, "header width: 14": 2000, "header nodes: 14": 300, "cut: 14": 200,
    "another width: 14": 1000, "a shared side: 14": 300, "unused nodes: 14": 400, "a gap: 14": 300, "one side moved: 14": 1500,
    "tested again: 14": 1000, "collapsed: 14": 700, "leaf changed: 14": 2000, "sides swapped: 14": 200,
    "another table's tree: 14": 400, "foreign: 14": 500, "flipped: 14": 150, "ambiguous: 14": 50, "ambiguous, named: 14": 50,
    "accepted, walked with tests": 2500, "words that agree": 2500, "a bit tested twice": 300,
    "sized 0": 300, "sized 6": 50, "sized 19": 300, "of a table refused with 19: yes": 1000, "of a table refused with 19: 14": 10000,
    "of a table refused with 19, generated: yes": 300, "of a table refused with 19, other tests first: yes": 400,
    "kind 1, faulty": 70, "kind 6, faulty": 70, "twins": 15000, "twins by the second": 700,
}


def main():
    path = probe.path_from_arguments()
    tally = Counter()
    compare_by_hand(path)
    compare(path, random.Random(SEED), tally)
    probe.require_enough(tally, LEAST)
    refused = ", ".join(f"{number}: {tally[str(number)]}" for number in (1, 2, 3, 4, 14))
    parts = ", ".join(f"{tally[f'14, part {part}']}" for part in range(1, len(PARTS) + 1))
    print(f"compare_check good: {tally['checks']} checks, {len(examples.CHECK_EXAMPLES)} of them also by hand; "
          f"yes: {tally['yes']}, {refused} (by the first part missed, 1 to 8: {parts}); "
          f"walked: {tally['accepted, walked with tests']} accepted trees with tests, {tally['words that agree']} other words "
          f"that agree on a mask, {tally['a bit tested twice']} walks that test a bit twice; {tally['twins']} checks with twins; "
          f"tables sized: {tally['sized 0']}, 6: {tally['sized 6']}, 19: {tally['sized 19']}, whose trees are "
          f"accepted {tally['of a table refused with 19: yes']} times and not {tally['of a table refused with 19: 14']} times")


if __name__ == "__main__":
    main()

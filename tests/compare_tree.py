"""Compares requests 3, 4, 10 and 11 of probe (generate, the walk exported to C, walk on words, the mask exported to C) with the
second implementation, line for line; then generates from twins of the other kind, and checks probe's own trees against probe's own
lookups, and its masks against its counts and against each other, without the second one. Whether a table is refused with 19 or 6 is
also found by trying all words, up to a width; a table refused with 19 is given to the other calls, which take it. At the end wrong
judgements stand in for the right one (second/wrong_reach.py), and each must be noticed.

Usage: compare_tree.py [path of probe]. Exits with status 1 at the first difference.
"""

import random
import sys
from collections import Counter, defaultdict
from dataclasses import dataclass
from functools import lru_cache

import masks
import probe
import twinned
from second import examples, reach, selection, tables, trees, wrong_reach
from second import tree as second_tree
from second.lines import line_of
from second.reader import Refusal, read
from second.tree import MOST_TREE_WORDS, nodes_of
from second.twins import Twins, kind_of

SEED = 3
MASK_SEED = 301         # words that agree on a mask; the other draws don't depend on them
REACH_SEED = 302        # what is asked of tables that are refused with 19
TABLES = 1200
UNREACHED_KEPT = 0.3    # so many of the drawn plans keep the entries that no word selects
USUAL_NODES = 1000      # larger trees are made on purpose only, because Python is slow
SMALL_NODES = 9         # trees of at most that many nodes are damaged in every way
ALL_WORDS_WIDTH = 10    # up to that width every word is walked
LOOKED_UP_WIDTH = 8     # up to that width probe looks up every word of a table that is refused with 19
AT_ONCE = 60            # tables whose walks are asked in one go
AGREEING_EACH = 6       # every so many-th walk of a wider tree is asked again with a word that agrees on its mask


@dataclass
class Case:
    name: str
    plan: tables.TablePlan      # None where the table is damaged or written by hand
    question: tuple
    known: str = None           # how the line begins, where that follows from how the table is built


# ---------------------------------------------------------------------------- tables

def some_plan(rng, width):
    style = rng.random()
    if style < 0.34:
        return tables.nested_plan(rng, width)
    if style < 0.46:
        return tables.joined_plan(rng, width) or tables.nested_plan(rng, width)
    if style < 0.64:
        return tables.divided_plan(rng, width)
    if style < 0.82:
        return tables.overlapping_plan(rng, width)
    if style < 0.88:
        return tables.overlapping_plan(rng, width, most_entries=5, conditions_often=0)
    if style < 0.95:
        return tables.good_plan(rng, width, most_entries=8, conditions_often=0.6)
    return tables.small_entries_plan(rng, width, rng.choice([10, 30, 100]))


def nodes_in(plan):
    return nodes_of(read(tables.lay_out(plan).words), USUAL_NODES)


def usual_plan(rng, width):
    """A plan with a tree of a usual size, and that size. Many plans have entries that no word selects; most of these plans lose them, so
    that enough trees are generated. The second implementation only sorts out plans and entries here."""
    while True:
        plan = some_plan(rng, width)
        nodes = nodes_in(plan)
        if nodes is not None and rng.random() >= UNREACHED_KEPT:
            fewer = reach.reachable(plan, nodes)
            plan, nodes = fewer, nodes if fewer is plan else nodes_in(fewer)
        if nodes is not None:
            return plan, len(nodes)


def random_buffer(rng, length):
    return [rng.getrandbits(32) for _ in range(length)]


def usual_tables(rng):
    for index in range(TABLES):
        plan, nodes = usual_plan(rng, 1 + index % 32)
        words = tables.lay_out(plan).words
        # The last answer has a few words after the tree; that one is walked later.
        lengths = [0, 1, nodes + 1, nodes, rng.randint(0, nodes + 1), nodes + 2 + rng.randrange(12)]
        for length in lengths:
            yield Case("usual table", plan, ("generate", words, random_buffer(rng, length)))


def covered_tables(rng):
    """Tables of every width in which no word selects a certain entry, or a single word does."""
    for width in range(1, 33):
        for how in tables.COVERS:
            for spared in (False, True):
                plan, number = tables.covered_plan(rng, width, how, spared)
                words, nodes = tables.lay_out(plan).words, len(nodes_in(plan))
                name = f"{how}, a word spared" if spared else how
                answered = f"3 0 0 00000000 {nodes + 1} |" if spared else f"3 19 {number} 00000000 |"
                for length, known in ((nodes + 1, answered), (nodes, "3 5 0 00000000 |"), (nodes + 2 + rng.randrange(12), answered)):
                    yield Case(name, plan, ("generate", words, random_buffer(rng, length)), known)


def excluded_at_the_limit(rng):
    """An entry that no word selects, in trees of 16,384 words and one test over."""
    for one_more in (False, True):
        plan, number = tables.with_excluded(rng, tables.full_tree_plan(rng, 20, 13, one_more=one_more))
        for length in (MOST_TREE_WORDS - 1, MOST_TREE_WORDS, MOST_TREE_WORDS + 3):
            fits = length >= MOST_TREE_WORDS and not one_more
            yield Case("excluded, at the limit", plan, ("generate", tables.lay_out(plan).words, random_buffer(rng, length)),
                       f"3 19 {number} 00000000 |" if fits else "3 5 0 00000000 |")
    yield Case("256 entries", None, ("generate", examples.LAST_OF_256, random_buffer(rng, 512)), "3 19 255 00000000 |")
    yield Case("256 entries", None, ("generate", examples.LAST_OF_256, random_buffer(rng, 511)), "3 5 0 00000000 |")


def refused_tables(rng):
    """1 to 4 come before 5, 6 and 19, and leave the buffer as it was."""
    for index in range(300):
        words = tables.some_damaged(rng, some_plan(rng, 1 + index % 32))
        yield Case("refused table", None, ("generate", words, random_buffer(rng, rng.choice([0, 1, 2, 9, 40]))))
    laid = tables.lay_out(tables.nested_plan(rng, 8))
    words = tables.damaged(laid.words, tables.too_long(rng, laid))
    yield Case("too long a table", None, ("generate", words, random_buffer(rng, 100)))


def tables_at_the_limit(rng):
    """Trees of 16,384 words, the two words more that make them too large, and trees far too large."""
    for width, twice in ((13, True), (20, False), (32, False), (32, True)):
        plan = tables.full_tree_plan(rng, width, 13, twice=twice)
        for length in (MOST_TREE_WORDS - 1, MOST_TREE_WORDS, MOST_TREE_WORDS + 3, 0):
            yield Case("at the limit", plan, ("generate", tables.lay_out(plan).words, random_buffer(rng, length)))
    for width, twice in ((14, False), (32, True)):
        plan = tables.full_tree_plan(rng, width, 13, one_more=True, twice=twice)
        for length in (MOST_TREE_WORDS, MOST_TREE_WORDS + 1, MOST_TREE_WORDS + 2, 20000):
            yield Case("one test over", plan, ("generate", tables.lay_out(plan).words, random_buffer(rng, length)))
    for width, depth, twice in ((14, 14, False), (31, 31, True), (32, 32, False)):
        plan = tables.full_tree_plan(rng, width, depth, twice=twice)
        for length in (MOST_TREE_WORDS, 32768, 1):
            yield Case("far over", plan, ("generate", tables.lay_out(plan).words, random_buffer(rng, length)))
    for depth in range(1, 12):
        plan = tables.full_tree_plan(rng, rng.randint(depth, 32), depth)
        words = tables.lay_out(plan).words
        for length in (2 ** (depth + 1) - 1, 2 ** (depth + 1), 2 ** (depth + 1) + 1):
            yield Case("full tree", plan, ("generate", words, random_buffer(rng, length)))


def large_random_trees(rng):
    """Random tables whose trees are larger than usual; many of them don't fit anywhere."""
    done = 0
    while done < 8:
        plan = some_plan(rng, rng.randint(18, 32))
        words = tables.lay_out(plan).words
        if len(plan.entries) > 10 or nodes_of(read(words), USUAL_NODES) is not None:
            continue
        done += 1
        for length in (MOST_TREE_WORDS, USUAL_NODES):
            yield Case("large random tree", plan, ("generate", words, random_buffer(rng, length)))


def hand_written():
    """The tables of document 01 and of examples.py, with buffers of every small length."""
    for words in (examples.PRINTED, examples.EVERY_KIND, examples.WORKED, examples.ZERO_HIGH_ZERO_LOW, examples.WITH_THIRD,
                  examples.MORE_MASK_BITS, examples.SHORT, examples.SHORT_AND_LONG, examples.EIGHT_UNMATCHING,
                  examples.EIGHT_CONDITIONS, examples.NOTHING_DEEPEST, examples.COVERED_BY_ONE, examples.COVERED_BY_TWO,
                  examples.MIDDLE_COVERED, examples.LAST_COVERED, examples.OWN_CONDITION, examples.NOT_COVERED, examples.TWO_UNREACHED,
                  examples.TWINS_AND_EXCLUDED, examples.COVERED_CYCLES, [], [0x10000001], [0x10000020]):
        for length in range(34):
            yield Case("by hand", None, ("generate", words, [0x01010101 * (at % 256) for at in range(1, length + 1)]))


def all_cases(rng):
    cases = []
    for source in (hand_written(), usual_tables(rng), refused_tables(rng), tables_at_the_limit(rng), large_random_trees(rng),
                   covered_tables(rng), excluded_at_the_limit(rng)):
        cases += source
    return cases


def number_and_place(line):
    return " ".join(line.split(" ")[1:3])


@lru_cache(maxsize=4)
def judged_by_words(words):
    """Number and place, as all words of a narrow table say it."""
    judged = reach.judged_by_words(read(words))
    return f"{judged.number} {judged.place}" if judged else "0 0"


def said_by_words(question, line):
    """6, 19 with its place, or neither, as all words say it; None if there are too many, or if the table or the room comes before."""
    words = question[1]
    if line.split(" ")[1] not in ("0", "6", "19") or words[0] & 0xFF > reach.MOST_WIDTH:
        return None
    return judged_by_words(tuple(words))


def check_by_words(case, seen, tally):
    said = said_by_words(case.question, seen)
    if said is not None:
        probe.stop_at_difference(f"{case.name}, by all words", case.question, said, number_and_place(seen))
        tally[f"by words {said.split(' ')[0]}"] += 1


def check_cleared(case, number, back):
    """5, 6 and 19: the tree buffer is all zero."""
    if number in ("5", "6", "19"):
        probe.stop_at_difference(f"{case.name}, the buffer", case.question, " 00000000" * len(case.question[2]), back)


def compare_generating(path, cases, tally):
    """Every generated tree as (plan, table's words, tree, words after it), as probe wrote it; and the tables that are refused with 19, as
    (plan, words, place)."""
    generated, unreached = {}, {}
    lines = probe.ask(path, [case.question for case in cases])
    for case, seen in zip(cases, lines, strict=True):
        probe.stop_at_difference(case.name, case.question, line_of(case.question), seen)
        if case.known is not None:
            probe.stop_at_difference(f"{case.name}, as it is built", case.question, case.known, seen[:len(case.known)])
        _, words, buffer = case.question
        front, _, back = seen.partition(" |")
        parts = front.split(" ")
        check_cleared(case, parts[1], back)
        check_by_words(case, seen, tally)
        tally["generate " + (parts[1] if parts[1] != "0" else "answered")] += 1
        tally["generating, " + case.name] += 1
        tally[f"generating, {case.name}: {parts[1]}"] += 1
        if parts[1] in ("2", "3", "4"):
            tally[f"kind {kind_of(words)}, faulty"] += 1
        if case.plan is not None:
            tally[f"width {case.plan.width}"] += 1
        if parts[1] == "6" and parts[3] != "00000000":
            tally["ambiguous, not word 0"] += 1
        if parts[1] == "0" and case.plan is not None:
            after = [int(word, 16) for word in back.split()]
            length = int(parts[4])
            generated[tuple(words)] = (case.plan, words, after[:length], after[length:])
            tally["generated exactly" if length == len(buffer) else "generated with words left"] += 1
        if parts[1] == "19":
            tally["19, not entry 0"] += parts[2] != "0"
            if case.plan is not None and len(buffer) < MOST_TREE_WORDS:
                unreached[tuple(words)] = (case.plan, words, int(parts[2]))
    twinned.compare(path, Twins(SEED), [(case.name, case.question, seen) for case, seen in zip(cases, lines)], tally)
    return list(generated.values()), list(unreached.values())


# ---------------------------------------------------------------------------- tables that are refused with 19

def other_calls(rng, plan, words):
    """(what, question): the calls that don't judge whether some word selects an entry, and walks of the second implementation's tree."""
    made = second_tree.written(plan.width, second_tree.nodes_once(tuple(words)))
    some = [tables.word_for(rng, plan) for _ in range(12)]
    for word in range(1 << plan.width) if plan.width <= LOOKED_UP_WIDTH else some:
        yield "lookup", ("lookup", words, word)
    for word in some[:4]:
        yield "decode", ("decode", words, word, random_buffer(rng, 8))
        yield "walk", ("walk", made, word)
    for number, entry in enumerate(plan.entries):
        for word in some[:2]:
            yield f"encode {number}", ("encode", words, number, tables.values_in(entry, word))
    yield "check", ("check", words, made)
    yield "check altered", ("check", words, trees.flipped(rng, made))


def check_looked_up(unreached, found, tally):
    """The place is the first entry that none of probe's own lookups of all words selects. found: by the table, the entries' numbers"""
    for plan, words, place in unreached:
        if plan.width <= LOOKED_UP_WIDTH:
            first = next(number for number in range(256) if str(number) not in found[id(words)])
            probe.stop_at_difference("19 against probe's lookups", ("measure", words), f"entry {first}", f"entry {place}")
            tally["19 by probe's lookups"] += 1


def compare_unreached(path, rng, unreached, tally):
    """unreached: (plan, words, place)"""
    asked = [(one, *call) for one in unreached for call in other_calls(rng, *one[:2])]
    found = defaultdict(set)
    for ((_, words, place), what, question), seen in zip(asked, probe.ask(path, [question for *_, question in asked]), strict=True):
        probe.stop_at_difference(f"a table refused with 19, {what}", question, line_of(question), seen)
        if what == f"encode {place}":
            # Its values fit.
            probe.stop_at_difference("encoding what no word selects", question, "6 13 ", seen[:5])
        if what == "lookup":
            found[id(words)].add(seen.split(" ")[4])
        tally[f"of 19, {what.split(' ')[0]} {seen.split(' ')[1]}"] += 1
    check_looked_up(unreached, found, tally)
    tally["refused with 19"] += len(unreached)


# ---------------------------------------------------------------------------- wrong judgements

def line_with(name, wrong, question):
    """The second implementation's line, with another function in tree.py."""
    right = getattr(second_tree, name)
    setattr(second_tree, name, wrong)
    line = line_of(question)
    setattr(second_tree, name, right)
    return line


def is_another_line(question, line):
    return line != line_of(question)


def is_against_words(question, line):
    """Whether a line is not what all words of a narrow table say."""
    said = said_by_words(question, line_of(question))
    return said is not None and said != number_and_place(line)


def notice(wrong_ones, cases, shows):
    """Each must be shown by the line of some case."""
    left = set(wrong_ones)
    for case in cases:
        left -= {one for one in left if shows(case.question, line_with(*one, case.question))}
        if not left:
            return
    sys.exit(f"no table shows it: {left.pop()[1].__doc__}")


def notice_wrong(cases):
    """By now the lines are right. second/selfcheck.py tries the tables by hand; here are drawn ones, and one without entries. All words of a
    table don't tell what fits, or what is in a buffer."""
    judgements = [("refusal_of", wrong) for wrong in wrong_reach.WRONG]
    others = [("generate", wrong) for wrong in wrong_reach.WRONG_BUFFERS]
    drawn = [case for case in cases if case.name in ("usual table", *tables.COVERS) or case.question[1] == [0x10000001]]
    notice(judgements + others, drawn, is_another_line)
    notice([one for one in judgements if one[1] is not wrong_reach.before_fit], drawn, is_against_words)
    return len(judgements) + len(others)


# ---------------------------------------------------------------------------- walks of generated trees

def words_to_walk(rng, plan, tree):
    if plan.width <= ALL_WORDS_WIDTH:
        yield from range(1 << plan.width)
    else:
        for _ in range(20 if len(tree) <= USUAL_NODES + 1 else 4):
            yield tables.word_for(rng, plan)
            yield tables.word_on(rng, plan.width, [])
    for _ in range(4):
        high = tables.high_word(rng, plan)
        if high is not None:
            yield high
    yield from (0, (1 << plan.width) - 1, 1 << plan.width & 0xFFFFFFFF, 0xFFFFFFFF)


def walk_question(by_bytes, tree, word):
    return ("walk bytes", probe.pack(tree), word) if by_bytes else ("walk", tree, word)


def taken_apart(line):
    """Number, place, what is named (text) and the count of a walk's line, of either request."""
    parts = line.split(" ")
    if parts[0] == "10":
        named = parts[4:] or ["0", "0"]
        return int(parts[1]), int(parts[2]), named[0], int(named[1])
    result = int(parts[4], 16)
    named = "nothing" if result >> 8 & 1 else str(result & 0xFF)
    return result >> 32 & 0xFF, result >> 48, named, result >> 16 & 0xFFFF


def masks_of(path, asked, tally):
    """The mask of each walk. asked: (name, question, line). Request 10 has it in its line; after request 4 comes request 11."""
    questions = [("mask", *question[1:]) for _, question, _ in asked if question[0] == "walk bytes"]
    answers = zip(questions, probe.ask(path, questions), strict=True)
    for name, question, line in asked:
        if question[0] == "walk bytes":
            question, line = next(answers)
            probe.stop_at_difference(f"{name}, mask", question, line_of(question), line)
            tally["request 11"] += 1
        yield masks.mask_in(line)


def check_mask(name, question, seen, mask, tally):
    """A refused walk has mask 0. On any tree the ones are at most the tests, and fewer where a bit is tested twice."""
    number, _, _, count = taken_apart(seen)
    if number and mask != 0 or mask.bit_count() > count:
        probe.stop_at_difference(f"{name}, its mask", question, "0 if refused, else at most as many ones as tests",
                                 f"{seen}, mask {mask:08x}")
    request = seen.split(" ")[0]
    if number == 0:
        tally[f"request {request}, a bit tested twice"] += mask.bit_count() < count
    elif request == "4":
        tally[f"mask 0 for {number}"] += 1
        tally["mask 0 for an odd length"] += len(question[1]) % 4 != 0


def check_all_named(words, tree, answers):
    """Of a generated tree, the walks of all words name every entry of the table."""
    named = {int(named) for named, _, _ in answers.values() if named != selection.NOTHING}
    unreached = reach.unreached_in(words[0] >> 16 & 0xFFF, named)
    if len(answers) == 1 << (words[0] & 0xFF) and unreached:
        probe.stop_at_difference("entries that no walk names", ("generate", words, tree), "[]", str(unreached))


def check_pairs(tree, answers, tally):
    """Of the words of a tree, each two that agree on the mask of one of them have the same answer: named, count and mask."""
    known = {(mask, word & mask): (named, count, mask) for word, (named, count, mask) in answers.items()}
    tested = {mask for mask, _ in known}
    for word, answer in answers.items():
        for mask in tested:
            other = known.get((mask, word & mask), answer)
            if other != answer:
                probe.stop_at_difference(f"a word that agrees on the mask {mask:08x}", ("walk", tree, word),
                                         masks.walk_line(*other), masks.walk_line(*answer))
    width = tree[0] >> 16 & 0x3F
    if len(answers) == 1 << width:
        tally["trees with every word"] += 1
        tally[f"trees with every word, width {width}"] += 1
        tally["words of these trees"] += len(answers)


def check_against_lookup(words, tree, word, walked, looked_up):
    """probe's walk and probe's lookup, and the second lookup, say the same of a word; walks know no other refusal than 7."""
    number, _, named, count = taken_apart(walked)
    second = selection.lookup(words, word)
    wanted = f"2 {number} 0 00000000" + ("" if number else f" {named}")
    wanted_second = Refusal(7) if number else named
    if number not in (0, 7) or looked_up != wanted or str(second) != str(wanted_second):
        probe.stop_at_difference("walk against lookup", ("walk", tree, word), f"{looked_up}, second lookup {second}", walked)
    # No path of a generated tree tests a bit twice.
    if count > tree[0] >> 16 & 0x3F:
        probe.stop_at_difference("count over the width", ("walk", tree, word), "a smaller count", walked)


def count_walk(tally, what, seen):
    number, _, named, count = taken_apart(seen)
    outcome = str(number) if number else "nothing" if named == "nothing" else "entry"
    tally[f"{what} {outcome}"] += 1
    tally[f"walk {outcome}"] += 1
    tally["request " + seen.split(" ")[0]] += 1
    if number == 0 and count > 0:
        tally["walks with tests"] += 1


def walks_to_ask(rng, generated):
    """(table's words, tree, word, question)"""
    for plan, words, tree, left in generated:
        for word in words_to_walk(rng, plan, tree):
            # Words lent after the tree change nothing.
            lent = tree + left if rng.random() < 0.3 else tree
            yield words, tree, word, walk_question(rng.random() < 0.5, lent, word)


def compare_walks(path, rng, generated, tally):
    """The trees with what each of their words got: (tree, {word: (named, count, mask)})."""
    answered = defaultdict(dict)
    for start in range(0, len(generated), AT_ONCE):
        asked = list(walks_to_ask(rng, generated[start:start + AT_ONCE]))
        walked = probe.ask(path, [question for *_, question in asked])
        looked_up = probe.ask(path, [("lookup", words, word) for words, _, word, _ in asked])
        found_masks = masks_of(path, [("generated", question, seen) for (*_, question), seen in zip(asked, walked)], tally)
        for (words, tree, word, question), seen, found, mask in zip(asked, walked, looked_up, found_masks, strict=True):
            probe.stop_at_difference("walk of a generated tree", question, line_of(question), seen)
            check_against_lookup(words, tree, word, seen, found)
            check_mask("generated", question, seen, mask, tally)
            count_walk(tally, "generated", seen)
            number, _, named, count = taken_apart(seen)
            if number == 0:
                masks.check_ones("generated", question, count, mask)
                answered[id(tree)][word] = named, count, mask
    for _, words, tree, _ in generated:
        check_all_named(words, tree, answered[id(tree)])
    return [(tree, answered[id(tree)]) for _, _, tree, _ in generated]


def compare_pairs(path, answered, tally):
    """All pairs of the words that were walked; where these are few of the width, also other words that agree."""
    again = []
    for tree, answers in answered:
        check_pairs(tree, answers, tally)
        if tree[0] >> 16 & 0x3F > ALL_WORDS_WIDTH:
            again += [(tree, word, masks.walk_line(*answers[word])) for word in list(answers)[::AGREEING_EACH]]
    masks.compare_agreeing(path, random.Random(MASK_SEED), again, tally)


# ---------------------------------------------------------------------------- other trees

def damaged_trees(rng, generated):
    """Each node of small generated trees altered in each way; a word that comes by, one that needn't, and a high one."""
    small = [tree for _, _, tree, _ in generated if len(tree) <= SMALL_NODES + 1]
    for tree in rng.sample(small, 60):
        width = tree[0] >> 16 & 0x3F
        for index in range(1, len(tree)):
            for what, changed in trees.altered_nodes(rng, tree, index):
                yield "damaged " + what, changed, trees.word_to(rng, tree, index)
                yield "damaged " + what, changed, rng.getrandbits(width)
            high = trees.high_word(rng, width)
            if high is not None:
                # 7 comes before 9.
                yield "damaged and a high word", changed, high


def damaged_headers(rng, generated):
    for _, _, tree, _ in rng.sample(generated, 60):
        width = tree[0] >> 16 & 0x3F
        for what, changed in trees.altered_headers(rng, tree[:200]):
            yield what, changed, rng.getrandbits(width)
            high = trees.high_word(rng, width)
            if high is not None and rng.random() < 0.4:
                # 8 comes before 7.
                yield what + " and a high word", changed, high


def foreign_trees(rng):
    """Trees that no table has: nodes that are each good by themselves, and some with a few damages."""
    for index in range(600):
        width = 1 + index % 32
        tree = trees.foreign(rng, width, rng.choice([1, 2, 3, 4, 5, 9, 20, 60, 300]))
        for _ in range(5):
            lent = tree + random_buffer(rng, rng.choice([0, 0, 1, 7]))
            yield "foreign", lent, rng.getrandbits(width)
            yield "foreign, a bit flipped", trees.flipped(rng, tree), rng.getrandbits(width)
        high = trees.high_word(rng, width)
        if high is not None:
            yield "foreign and a high word", tree, high


def largest_trees(rng):
    """65,535 nodes, the most that a header can say: long paths, a count and a place that fill their sixteen bits."""
    chain = trees.chain(65535)
    yield "longest path", chain, 0
    yield "longest path left at once", chain, 1
    yield "longest path and words after it", chain + [0x70010001], 0
    yield "one node fewer than said", chain[:-1], 0
    yield "last node damaged", chain[:1] + [8 << 28 | 65535] + chain[2:-1] + [0], 1
    yield "last node tests", chain[:1] + [8 << 28 | 65535] + chain[2:-1] + [8 << 28 | 65535], 1
    for _ in range(4):
        yield "large foreign", trees.foreign(rng, 32, 65535), rng.getrandbits(32)


def cut_bytes(rng, generated):
    """Lengths in bytes: not a multiple of four is 8, whatever the whole words before it are."""
    for _, _, tree, left in rng.sample(generated, 120):
        data = probe.pack(tree[:300] + left)
        word = rng.getrandbits(tree[0] >> 16 & 0x3F)
        for length in {0, 1, 2, 3, 4, 5, 8, len(data) - 5, len(data) - 4, len(data) - 3, len(data) - 2, len(data) - 1,
                       rng.randint(0, len(data))}:
            if length >= 0:
                yield "cut bytes", data[:length], word
        for extra in (1, 2, 3):
            yield "bytes after it", data + bytes(rng.getrandbits(8) for _ in range(extra)), word


def other_questions(rng, generated):
    for source in (damaged_trees(rng, generated), damaged_headers(rng, generated), foreign_trees(rng)):
        for what, tree, word in source:
            yield what, walk_question(rng.random() < 0.5, tree, word)
    for what, tree, word in largest_trees(rng):
        yield what, walk_question(False, tree, word)
        yield what, walk_question(True, tree, word)
    for what, data, word in cut_bytes(rng, generated):
        yield what, ("walk bytes", data, word)


def compare_other_trees(path, rng, generated, tally):
    questions = list(other_questions(rng, generated))
    lines = probe.ask(path, [question for _, question in questions])
    asked = [(what, question, seen) for (what, question), seen in zip(questions, lines, strict=True)]
    for (what, question, seen), mask in zip(asked, masks_of(path, asked, tally), strict=True):
        probe.stop_at_difference(what, question, line_of(question), seen)
        check_mask(what, question, seen, mask, tally)
        count_walk(tally, what.split(",")[0].split(" and ")[0], seen)


# ---------------------------------------------------------------------------- counting

LEAST = {
    "generate answered": 1500, "generate 5": 1500, "generate 6": 400, "ambiguous, not word 0": 300, "generate 19": 650,
    "19, not entry 0": 350, "generating, usual table: 0": 1200, "generating, usual table: 6": 400, "generating, usual table: 19": 250,
    **{f"generating, {how}: 19": 64 for how in tables.COVERS}, **{f"generating, {how}, a word spared: 0": 64 for how in tables.COVERS},
    "generating, excluded, at the limit: 19": 2, "generating, excluded, at the limit: 5": 4, "generating, 256 entries: 19": 1,
    "by words 0": 600, "by words 6": 200, "by words 19": 300,
    "refused with 19": 200, "19 by probe's lookups": 50, "of 19, lookup 0": 4000, "of 19, decode 0": 800, "of 19, walk 0": 800,
    "of 19, encode 0": 900, "of 19, encode 13": 1000, "of 19, check 0": 200, "of 19, check 14": 200,
    "generate 1": 10, "generate 2": 80, "generate 3": 10, "generate 4": 50, "kind 1, faulty": 80, "kind 6, faulty": 80,
    "twins": 7000, "twins by the second": 350,
    "generated exactly": 600, "generated with words left": 600,
    "generating, at the limit": 16, "generating, one test over": 8, "generating, far over": 9,
    "generating, large random tree": 16, "generating, full tree": 33,
    **{f"width {width}": 150 for width in range(1, 33)},
    "generated entry": 20000, "generated nothing": 10000, "generated 7": 2000, "walks with tests": 20000,
    "walk entry": 20000, "walk nothing": 20000, "walk 7": 3000, "walk 8": 3000, "walk 9": 10000,
    "request 4": 30000, "request 10": 30000,
    "damaged kind 9": 1000, "damaged spare bit 9": 1000, "damaged tested bit 9": 500, "damaged index below 9": 300,
    "damaged index above 9": 200, "damaged tested bit entry": 100, "damaged kind entry": 100, "damaged 7": 100,
    "header kind 8": 500, "header spare 8": 200, "header width 8": 1000, "header nodes 8": 100,
    "header nodes entry": 20, "header nodes nothing": 20,
    "foreign entry": 500, "foreign nothing": 500, "foreign 7": 200, "foreign 9": 300,
    "longest path entry": 2, "cut bytes 8": 800, "bytes after it 8": 300,
    "request 11": 50000, "mask 0 for 7": 3000, "mask 0 for 8": 3000, "mask 0 for 9": 10000, "mask 0 for an odd length": 1000,
    "request 4, a bit tested twice": 300, "request 10, a bit tested twice": 300,
    "trees with every word": 250, **{f"trees with every word, width {width}": 15 for width in range(1, ALL_WORDS_WIDTH + 1)},
    "words of these trees": 50000, "words that agree": 3000,
}


def main():
    path = probe.path_from_arguments()
    rng = random.Random(SEED)
    tally = Counter()
    cases = all_cases(rng)
    generated, unreached = compare_generating(path, cases, tally)
    compare_pairs(path, compare_walks(path, rng, generated, tally), tally)
    compare_other_trees(path, rng, generated, tally)
    compare_unreached(path, random.Random(REACH_SEED), unreached, tally)
    probe.require_enough(tally, LEAST)
    noticed = notice_wrong(cases)
    generate = ", ".join(f"{one}: {tally[f'generate {one}']}" for one in ("answered", "1", "2", "3", "4", "5", "6", "19"))
    by_words = ", ".join(f"{what}: {tally[f'by words {number}']}" for what, number in (("tree", 0), ("6", 6), ("19", 19)))
    walk = ", ".join(f"{one}: {tally[f'walk {one}']}" for one in ("entry", "nothing", "7", "8", "9"))
    twice = tally["request 4, a bit tested twice"] + tally["request 10, a bit tested twice"]
    print(f"compare_tree good: {TABLES} random tables, {len(generated)} trees; generate {generate}; of these by all words {by_words}; "
          f"from twins: {tally['twins']}; {len(unreached)} tables refused with 19 given to other calls; walk {walk}; "
          f"masks by request 11: {tally['request 11']}, {twice} walks test a bit twice; {tally['trees with every word']} trees "
          f"with every word: {tally['words of these trees']}; {tally['words that agree']} other words that agree on a mask; "
          f"{noticed} wrong judgements noticed")


if __name__ == "__main__":
    main()

"""Every table of a small family, every word: probe's lookup, generate, check, walk, sizing and withdrawals against the second
implementation.

Usage: exhaustive.py [path of probe] [long]. Exits with status 1 at the first difference. All tables are of width 3 at most:

- without entries, widths 1 to 3
- one entry, and two entries in either order: every length, every mask and value; the fewest fields cover the rest
- one entry of every mask and value with one condition: every matching pattern, no unmatching pattern or one of at most one bit
- of width 1: two and three entries, each without conditions or with one, without unmatching patterns
- of width 2: three entries of every length, mask and value; one entry with two conditions without unmatching patterns
- long: one entry of every length with one condition, every matching pattern, no unmatching pattern or any one
- long: two entries, the first with every condition without unmatching patterns

Each table is looked up with all words and two that are too high, generated into 16 words (each tree of width 3 fits) and into as
many as its tree has and one fewer; its tree is checked and walked with all words, and each walk's count is the number of ones in
its mask. (If a table is refused with 19, the tree is the second implementation's.) Probe's own lookups of all words say whether
generating must give a tree, 6, or 19 and for which entry. It is sized: refused as it is generated into 16 words, else with one node
fewer than words, and with the greatest count of these walks. Each entry is withdrawn, and one that isn't there, with all words that
are not ambiguous, and the first with all words and two that are too high; probe's own lookups say how many words change, or which one is
unfit. Tables without conditions are also checked with all trees of one and three nodes (two entries: a part of them but for the long
form). The same is asked of a twin of each table, which has cycles. With its entries in any other order a table is one of the family too
(but for the long form's last ones); what probe says of it must follow from what it says of the table and from the order alone. At the end
mistakes are put into the second implementation one by one, and each must give another line somewhere.
"""

import itertools
import random
import sys
from collections import Counter, defaultdict

import masks
import probe
import twinned
from second import checker, measure, reach, selection, shuffles, tree, walk, withdrawal, wrong_cycles, wrong_masks, wrong_reach, \
    wrong_sizes, wrong_withdrawal
from second.lines import count_line, line_of
from second.reader import Refusal
from second.tables import EntryPlan, TablePlan, free_runs, lay_out, own_bits
from second.twins import Twins

WIDTH = 3
LENGTHS = (1, 2, 3)
ROOM = 16               # a tree of width 3 has at most 15 nodes
BUFFER = [0x5EED0000 + at for at in range(ROOM)]
HIGH_WORDS = (1 << WIDTH, 0x80000000)
AT_ONCE = 400           # tables asked in one go
SEED = 13
SOME_TABLES = 250       # for the mistakes
PART = 9                # every so many-th table of two entries is checked with all small trees in the short form


# ---------------------------------------------------------------------------- the family

def patterns(allowed):
    """Every mask in these bits with every value."""
    for mask in range(allowed + 1):
        if mask & ~allowed == 0:
            yield from ((mask, value) for value in range(mask + 1) if value & ~mask == 0)


def entry_of(length, mask, value, conditions=(), width=WIDTH):
    return EntryPlan(0, length, mask, value, free_runs(width, length, mask), list(conditions))


def plain_entries(width=WIDTH):
    for length in range(1, width + 1):
        yield from (entry_of(length, mask, value, width=width) for mask, value in patterns(own_bits(width, length)))


def entries_of_one_bit():
    """Without conditions, and with one: every opcode, every matching pattern."""
    for (mask, value), matching in itertools.product(patterns(1), [None, *patterns(1)]):
        yield entry_of(1, mask, value, [] if matching is None else [(matching, [])], width=1)


def entries_with_a_condition(lengths, unmatching_too, most_bits):
    for length in lengths:
        own = own_bits(WIDTH, length)
        others = [[one] for one in patterns(own) if one[0].bit_count() <= most_bits] if unmatching_too else []
        for (mask, value), matching, unmatching in itertools.product(patterns(own), patterns(own), [[], *others]):
            yield entry_of(length, mask, value, [(matching, unmatching)])


def words_of(entries, width=WIDTH):
    return lay_out(TablePlan(width, list(entries))).words


def family(long):
    """(name, words of the table)"""
    for width in range(1, WIDTH + 1):
        yield "no entries", words_of([], width)
    plain = list(plain_entries())
    for entry in plain:
        yield "one entry", words_of([entry])
    for pair in itertools.product(plain, plain):
        yield "two entries", words_of(pair)
    conditioned = entries_with_a_condition(LENGTHS, True, WIDTH) if long else entries_with_a_condition((WIDTH,), True, 1)
    for entry in conditioned:
        yield "one condition", words_of([entry])
    for count in (2, 3):
        for entries in itertools.product(entries_of_one_bit(), repeat=count):
            yield f"{count} of width 1", words_of(entries, 1)
    for entries in itertools.product(plain_entries(2), repeat=3):
        yield "3 of width 2", words_of(entries, 2)
    for (mask, value), *matching in itertools.product(patterns(3), repeat=3):
        yield "two conditions", words_of([entry_of(2, mask, value, [(one, []) for one in matching], width=2)], 2)
    if long:
        for first, second in itertools.product(entries_with_a_condition((WIDTH,), False, 0), plain):
            yield "two, one condition", words_of([first, second])


# ---------------------------------------------------------------------------- questions

def small_trees(entries):
    """All trees of one node and of one test."""
    leaves = [0xA0000000] + [0x90000000 | entry for entry in range(entries + 1)]    # one entry more than there are
    yield from ([0x70030001, leaf] for leaf in leaves)
    for bit, zero, one in itertools.product(range(WIDTH), leaves, leaves):
        yield [0x70030003, 0x80000003 | bit << 23, zero, one]


def withdrawals(words):
    width, table = words[0] & 0xFF, selection.read_once(tuple(words))
    every = range(1 << width)
    fit = [word for word in every if selection.select(table, word) != selection.AMBIGUOUS]
    for entry in range(len(table.entries) + 1):
        yield "changed", words, entry, fit
    yield "changed", words, 0, [*every, *HIGH_WORDS]


def questions_of(words, with_small_trees):
    width = words[0] & 0xFF
    for word in (*range(1 << width), *HIGH_WORDS):
        yield "lookup", words, word
    yield "generate", words, BUFFER
    nodes = tree.nodes_once(tuple(words))
    if tree.conflict_word(nodes) is None:
        made = tree.written(width, nodes)
        yield "generate", words, BUFFER[:len(made)]
        yield "generate", words, BUFFER[:len(made) - 1]
        yield "check", words, made
        for word in (*range(1 << width), *HIGH_WORDS):
            yield "walk", made, word
    yield from withdrawals(words)
    yield "measure", words
    if with_small_trees:
        yield from (("check", words, other) for other in small_trees(words[0] >> 16 & 0xFFF))


def all_questions(long):
    """(name of the table's group, question)"""
    for number, (name, words) in enumerate(family(long)):
        small = name in ("no entries", "one entry") or name == "two entries" and (long or number % PART == 0)
        yield [(name, question) for question in questions_of(words, small)]


def in_groups(questions):
    while group := list(itertools.islice(questions, AT_ONCE)):
        yield [asked for one_table in group for asked in one_table]


def check_reach(name, question, seen, found, tally):
    """Generating against what probe's own lookups of all words found."""
    judged, (_, number, place, *_) = reach.judged(question[1][0] >> 16 & 0xFFF, found), seen.split(" ")
    # The word of 6 is not judged by this.
    wanted = f"{judged.number} {judged.place}" if judged else "0 0"
    probe.stop_at_difference(f"{name}, by all words", question, wanted, f"{number} {place}")
    tally[f"by words {number}"] += 1
    tally[f"by words {number}, {name}"] += 1
    tally["by words 19, not entry 0"] += number == "19" and place != "0"


def found_in(line):
    """What a word of the width selects, by the line of its lookup."""
    number, named = line.split(" ")[1], line.split(" ")[-1]
    return selection.AMBIGUOUS if number == "6" else named if named == selection.NOTHING else int(named)


def changed_by_words(words, entry, listed, found):
    """How many words selected the entry, or the refusal, by what probe's own lookups found. A word that is not there is too high."""
    if entry >= words[0] >> 16 & 0xFFF:
        return Refusal(11)
    for word in listed:
        if word not in found:
            return Refusal(7)
        if found[word] == selection.AMBIGUOUS:
            return Refusal(6, word=word)
    return sum(found[word] == entry for word in listed)


def check_changed(name, question, seen, found, tally):
    outcome = changed_by_words(*question[1:], found)
    probe.stop_at_difference(f"{name}, by all words", question, count_line(outcome), seen)
    tally["changed 0, over 0"] += not isinstance(outcome, Refusal) and outcome > 0


def check_size(name, question, seen, made, most):
    """Sizing against the line of generating into enough words, and against the greatest count of all walks."""
    _, number, place, word, *words = made.split(" ")
    wanted = ["12", number, place, word, *(f"{int(one) - 1} {most}" for one in words)]
    probe.stop_at_difference(f"{name}, against generating and walks", question, " ".join(wanted), seen)


def is_kept(question):
    """Whether the line is compared with those of the reordered tables."""
    return question[0] in ("lookup", "measure") or question[0] == "generate" and question[2] == BUFFER


def compare_orders(kept, tally):
    """Document 02's No. 12; the place of 19 has been compared by all words. kept: by the words of a table, its questions and probe's lines,
    in the same order for each table"""
    for words, answered in kept.items():
        for to in itertools.permutations(range(words[0] >> 16 & 0xFFF)):
            other = tuple(shuffles.reordered(words, to))
            if other not in kept:
                continue
            for (_, line), (question, seen) in zip(answered, kept[other], strict=True):
                expected = shuffles.moved_line(line, to, BUFFER)
                probe.stop_at_difference(f"in the order {to}", question, expected, shuffles.place_left_open(seen))
                tally["in another order, another line"] += line != seen
            tally["orders"] += other != words


def compare(path, long):
    tally, twins, found, kept = Counter(), Twins(SEED), {}, defaultdict(list)
    for group in in_groups(all_questions(long)):
        lines = probe.ask(path, [question for _, question in group])
        twinned.compare(path, twins, [(*asked, seen) for asked, seen in zip(group, lines)], tally)
        for (name, question), seen in zip(group, lines, strict=True):
            expected = line_of(question)
            probe.stop_at_difference(name, question, expected, seen)
            parts = expected.split(" ")
            tally[f"{question[0]} {parts[1]}"] += 1
            tally[question[0]] += 1
            tally["questions"] += 1
            if is_kept(question):
                kept[tuple(question[1])].append((question, seen))
            if question[0] == "lookup" and question[2] not in HIGH_WORDS:
                found[question[2]] = found_in(seen)
            if question[0] == "generate" and question[2] == BUFFER:
                made, most = seen.partition(" |")[0], 0
                check_reach(name, question, made, set(found.values()), tally)
            if question[0] == "walk" and parts[1] == "0":
                count, mask = masks.tests_and_mask(seen)
                masks.check_ones(name, question, count, mask)
                most = max(most, count)
            if question[0] == "changed":
                check_changed(name, question, seen, found, tally)
            if question[0] == "measure":
                check_size(name, question, seen, made, most)
                found = {}
    compare_orders(kept, tally)
    return tally


# ---------------------------------------------------------------------------- mistakes

def more_mask_bits(e, f):
    return len(e.opcode.mask) > len(f.opcode.mask)


def matching_alone(word_bits, condition):
    return selection.matches(word_bits, condition.matching)


def never_excluded(word_bits, condition):
    return False


def open_taken_for_sure(cell, entry):
    status, conditions = RIGHT["tree", "entry_status"](cell, entry)
    return (tree.SURE, []) if status == tree.OPEN and tree.implies(cell, entry.opcode) else (status, conditions)


def clashing_only(cell, condition):
    return tree.FAILS if tree.clashes(cell, condition.matching) else tree.OPEN if not tree.implies(cell, condition.matching) \
        else tree.HOLDS if all(tree.clashes(cell, pattern) for pattern in condition.unmatching) else tree.OPEN


def lowest_of_all(cell, opcodes, conditions):
    masks = [pattern.mask for pattern in opcodes]
    masks += [pattern.mask for condition in conditions for pattern in (condition.matching, *condition.unmatching)]
    return min(bit for mask in masks for bit in mask - cell.fixed)


def conflict_of_ones(nodes):
    found = RIGHT["tree", "conflict_word"](nodes)
    return None if found is None else 0


def every_check_good(words, made):
    return None


MISTAKES = [
    ("more mask bits counted as more specific", "more_specific", more_mask_bits),
    ("unmatching patterns forgotten", "satisfied", matching_alone),
    ("conditions forgotten", "satisfied", never_excluded),
    ("a leaf for an entry still open", "entry_status", open_taken_for_sure),
    ("a condition doesn't fail by an unmatching pattern", "condition_status", clashing_only),
    ("lowest bit tested", "chosen_bit", lowest_of_all),
    ("word 0 for every ambiguous table", "conflict_word", conflict_of_ones),
    ("the checker says yes", "first_missing", every_check_good),
    ("bit 0 in every mask", "walk", wrong_masks.starts_at_one),
    ("a mask without the zero sides", "walk", wrong_masks.zero_sides_left_out),
    ("a mask without the last test", "walk", wrong_masks.last_test_left_out),
    ("as many ones from bit 0 on", "walk", wrong_masks.as_many_ones),
    ("tests of zero sides alone", "measure", wrong_sizes.zero_sides_alone),
    ("tests of one sides alone", "measure", wrong_sizes.one_sides_alone),
    ("a leaf counted as a test", "measure", wrong_sizes.leaf_counted),
    ("paths to nothing left out", "measure", wrong_sizes.nothing_left_out),
    ("bits of all paths", "measure", wrong_sizes.bits_of_all_paths),
    ("words for nodes", "measure", wrong_sizes.words_for_nodes),
    ("6 without its word", "measure", wrong_sizes.word_left_out),
    *((wrong.__doc__, "refusal_of", wrong) for wrong in wrong_reach.WRONG),
    *((wrong.__doc__, "generate", wrong) for wrong in wrong_reach.WRONG_BUFFERS),
    ("fewer cycles decide", "more_specific", wrong_cycles.fewer_cycles_win),
    *((wrong.__doc__, "changed", wrong) for wrong in wrong_withdrawal.WRONG_RULES),
]
MODULES = {"selection": selection, "tree": tree, "checker": checker, "walk": walk, "measure": measure, "withdrawal": withdrawal}
RIGHT = {(name, function): getattr(module, function) for name, module in MODULES.items() for _, function, _ in MISTAKES
         if hasattr(module, function)}
REMEMBERED = (tree.nodes_once, checker.steps_once, checker.first_missing_once, checker.check_once)


def put(function, mistake):
    """Into each module that has the function by this name; None puts the right ones back. Nothing remembered may stay."""
    for name, module in MODULES.items():
        if (name, function) in RIGHT:
            setattr(module, function, mistake or RIGHT[name, function])
    for remembering in REMEMBERED:
        remembering.cache_clear()


def line_with(question):
    try:
        return line_of(question)
    except (ValueError, RecursionError, AssertionError) as trouble:
        return f"no line: {trouble}"


def is_noticed(function, mistake, answered):
    put(function, mistake)
    noticed = any(line_with(question) != line for question, line in answered)
    put(function, None)
    return noticed


def notice_mistakes():
    """A few of the tables are enough to show each mistake. With them are those of which there are too few: without entries, and one
    whose longest paths lead to nothing, -- without 10 and 11."""
    everything = list(family(False))
    some = random.Random(SEED).sample(everything, SOME_TABLES) + [one for one in everything if one[0] == "no entries"]
    some.append(("two conditions", words_of([entry_of(2, 0, 0, [((3, 2), []), ((3, 3), [])], width=2)], 2)))
    questions = [question for _, words in some for question in questions_of(words, with_small_trees=False)]
    questions += [("check", words, other) for _, words in some[:3] for other in small_trees(1)]
    twins = Twins(SEED)
    questions += [question for _, words in some for question in questions_of(twins.of(words), with_small_trees=False)]
    answered = [(question, line_of(question)) for question in questions]
    for what, function, mistake in MISTAKES:
        if not is_noticed(function, mistake, answered):
            sys.exit(f"no question shows the mistake: {what}")
    return len(MISTAKES)


LEAST = {"lookup 0": 50000, "lookup 6": 500, "lookup 7": 10000, "generate 0": 10000, "generate 5": 5000, "generate 6": 300,
         "generate 19": 4000, "check 0": 8000, "check 14": 5000, "walk 0": 50000, "walk 7": 10000, "measure 0": 5000, "measure 6": 300,
         "measure 19": 2000, "by words 0": 7000, "by words 6": 1500, "by words 19": 2000, "by words 19, not entry 0": 600,
         "by words 19, one condition": 400, "by words 19, two conditions": 400, "by words 19, 2 of width 1": 100,
         "by words 19, 3 of width 1": 1200, "by words 19, 3 of width 2": 90, "changed 0": 15000, "changed 0, over 0": 10000,
         "changed 6": 1000, "changed 7": 6000, "changed 11": 8000, "twins": 150000, "twins by the second": 7000,
         "orders": 17900, "in another order, another line": 45000}


def main():
    long = "long" in sys.argv[1:]
    sys.argv = [argument for argument in sys.argv if argument != "long"]
    tally = compare(probe.path_from_arguments(), long)
    probe.require_enough(tally, LEAST)
    noticed = notice_mistakes()
    tables = sum(1 for _ in family(long))
    counts = ", ".join(f"{name}: {tally[name]}" for name in ("lookup", "generate", "check", "walk", "measure", "changed"))
    by_words = ", ".join(f"{what}: {tally[f'by words {number}']}" for what, number in (("tree", 0), ("6", 6), ("19", 19)))
    print(f"exhaustive good: {tables} tables, by all words {by_words}; {tally['questions']} questions ({counts}), {tally['twins']} to twins; "
          f"{tally['orders']} other orders, by which {tally['in another order, another line']} lines change; "
          f"{noticed} of {len(MISTAKES)} mistakes noticed")


if __name__ == "__main__":
    main()

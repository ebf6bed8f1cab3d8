"""Checks of the second implementation and of the generator that need no probe.

Prints one summary line; at the first failure it prints what failed and exits with status 1.
"""

import random
import re
import sys
from collections import Counter
from dataclasses import replace
from pathlib import Path

HERE = Path(__file__).resolve().parent
# Python puts this file's folder there, whose numbers.py would be taken for its own.
sys.path[:] = [str(HERE.parent), *(place for place in sys.path if Path(place).resolve() != HERE)]

from fractions import Fraction

from second import checker, checktrees, cost, examples, halves, image, images, measure, numbers, reach, reader, selection, tables, tree, \
    trees, twins, walk, withdrawal, wrong_cycles, wrong_halves, wrong_masks, wrong_numbers, wrong_reach, wrong_shuffles, wrong_sizes, \
    wrong_withdrawal
from second.lines import line_of, mktree_text
from second.reader import Refusal, Table, read


REACH_SEED = 801        # tables for entries that no word selects; the other draws don't depend on them


def fail(text):
    print(f"selfcheck failed: {text}")
    sys.exit(1)


def hexadecimal(words):
    return " ".join(f"{word:08x}" for word in words)


def line_or_fault(question):
    """With a mistake made on purpose, an example may also break off."""
    try:
        return line_of(question)
    except (IndexError, KeyError, TypeError, AssertionError) as fault:
        return f"broken off: {fault!r}"


# A table in which the bit of the most masks isn't the highest: 1-0, 0-0 and --1 (bit 0 is in three masks, bit 2 in two).
MOST_MASKS = examples.table("""10030003 20000310 00000005 00000004 30000101 20000310 00000005 00000000 30000101
    20000310 00000001 00000001 30000102""")
MOST_MASKS_LINE = "3 0 0 00000000 6 | 70030005 80000005 81000004 90000001 90000000 90000002"

# The hand-written examples: (name, question, line)
ASKED = [(name, ("read", words), line) for name, words, line in examples.READ_EXAMPLES] + examples.SELECTION_EXAMPLES \
    + examples.TREE_EXAMPLES + examples.CHECK_EXAMPLES + examples.IMAGE_EXAMPLES + examples.STEP_MASK_EXAMPLES + examples.HALVES_EXAMPLES \
    + examples.SIZE_EXAMPLES + examples.CYCLES_EXAMPLES + examples.REACH_EXAMPLES + examples.WITHDRAWAL_EXAMPLES \
    + examples.NUMBERS_EXAMPLES + examples.SHUFFLE_EXAMPLES \
    + [("the bit of the most masks", ("generate", MOST_MASKS, [0] * 6), MOST_MASKS_LINE)]


def is_met(question, line):
    return line_or_fault(question) == line


def check_examples():
    for name, question, line in ASKED:
        if not is_met(question, line):
            fail(f"example: {name}")
    printed = b"".join(word.to_bytes(4, "little") for word in examples.PRINTED)
    if mktree_text(printed) != examples.PRINTED_TEXT:
        fail("example: what mktree prints")
    return len(ASKED) + 1


# Document 01's "Mistakes to exclude", and a few neighbours: with each of them made, an example must fail.

def one_missed_is_enough(word_bits, condition):
    """Mistake: satisfied when only one unmatching pattern is missed."""
    if not selection.matches(word_bits, condition.matching):
        return False
    missed = [not selection.matches(word_bits, pattern) for pattern in condition.unmatching]
    return any(missed) or not missed


def unmatching_forgotten(word_bits, condition):
    """Mistake: the unmatching patterns are not looked at (the other reading of "excludes from its effect")."""
    return selection.matches(word_bits, condition.matching)


def more_bits(e, f):
    """Mistake: more mask bits counted as more specific."""
    return len(e.opcode.mask) > len(f.opcode.mask)


def no_bit_more(e, f):
    """Mistake: the same mask counts as more specific."""
    return f.opcode.mask <= e.opcode.mask


def lone_entry(table, word):
    """Mistake: a lone entry is the answer although its pattern isn't checked."""
    if len(table.entries) == 1:
        return 0
    return RIGHT["select"](table, word)


def first_claim(table, word):
    """Mistake: the first claiming entry is taken."""
    word_bits = selection.ones(word)
    for number, entry in enumerate(table.entries):
        if selection.claims(word_bits, entry):
            return number
    return selection.NOTHING


def lone_leaf(cell, entry):
    """Mistake: a leaf for a lone entry still open (every live entry counts as sure)."""
    status, conditions = RIGHT["entry_status"](cell, entry)
    return (status if status == tree.DEAD else tree.SURE), conditions


def one_clash_is_enough(cell, condition):
    """Mistake: a condition holds when one unmatching pattern is missed."""
    if tree.implies(cell, condition.matching) and any(tree.clashes(cell, one) for one in condition.unmatching):
        return tree.HOLDS
    return RIGHT["condition_status"](cell, condition)


def lowest_bit(cell, opcodes, conditions):
    """Mistake: the lowest bit on a tie."""
    how_many = Counter(bit for opcode in opcodes for bit in opcode.mask - cell.fixed)
    if not how_many:
        return RIGHT["chosen_bit"](cell, opcodes, conditions)
    return min(bit for bit in how_many if how_many[bit] == max(how_many.values()))


def highest_bit(cell, opcodes, conditions):
    """Mistake: the highest bit of any open entry's mask, however many have it."""
    bits = [bit for opcode in opcodes for bit in opcode.mask - cell.fixed]
    return max(bits) if bits else RIGHT["chosen_bit"](cell, opcodes, conditions)


def clashing_left_out(cell, opcodes, conditions):
    """Mistake: patterns that clash give no bit."""
    patterns = [one for condition in conditions for one in (condition.matching, *condition.unmatching)]
    bits = {bit for one in patterns if not tree.clashes(cell, one) for bit in one.mask - cell.fixed}
    return max(bits) if not any(opcode.mask - cell.fixed for opcode in opcodes) else RIGHT["chosen_bit"](cell, opcodes, conditions)


def no_conflict(nodes):
    """Mistake: a conflict leaf is taken for a good one."""
    return None


def all_ambiguous(nodes):
    """Mistake: every table is ambiguous."""
    return 0


def any_bit_tested(node, index, width, count):
    """Mistake: the tested bit may be at or above the width."""
    return RIGHT["damaged"](node, index, 32, count)


def no_header(words):
    """Mistake: any header will do."""
    return len(words) > 1


def leaf_counted(outcome):
    """Mistake: the leaf counts as a test."""
    if isinstance(outcome, Refusal):
        return RIGHT["packed"](outcome)
    return RIGHT["packed"](replace(outcome, count=outcome.count + 1))


def part_left_out(*parts):
    """Mistake: a part of the checker's rule isn't looked at."""
    return True


def walks_right(table, cell):
    """Mistake: a leaf is right when all words of its cell select what it says, whatever the steps are."""
    free = [bit for bit in range(table.width) if bit not in cell.fixed]
    if len(free) > 8:
        return RIGHT["first_step"](table, cell)
    words = [sum(1 << bit for bit in cell.ones) | sum(1 << bit for at, bit in enumerate(free) if choice >> at & 1)
             for choice in range(1 << len(free))]
    answers = {selection.select(table, word) for word in words}
    answer = answers.pop() if len(answers) == 1 else checker.NEITHER
    return checker.NO_LIVE if answer == selection.NOTHING else answer


def named_is_live(steps, placed):
    """Mistake: a named entry needn't be more specific than others that are live, and needn't be sure."""
    entries = steps.table.entries
    return all(checker.named(node) < len(entries) and tree.entry_status(cell, entries[checker.named(node)])[0] != tree.DEAD
               for node, cell in placed if checker.kind(node) == checker.NAMES)


def lower_half_first(halves, address):
    """Mistake: the next halfword is the word's upper half."""
    word = RIGHT["word_at"](halves, address)
    return (word & 0xFFFF) << 16 | word >> 16


def last_half_again(halves, address):
    """Mistake: a missing lower half reads as the upper one."""
    return RIGHT["word_at"](halves, address) | (halves[address] if address + 1 == len(halves) else 0)


def high_byte_first(data):
    """Mistake: a halfword's high byte comes first."""
    return [(half & 0xFF) << 8 | half >> 8 for half in RIGHT["halfwords"](data)]


def offsets_for_addresses(selecting, halves, address):
    """Mistake: the item holds the byte offset."""
    item, next_address = RIGHT["item_at"](selecting, halves, address)
    return item + address, next_address


def unknown_by_two(selecting, halves, address):
    """Mistake: after nothing the lister goes on by 32 bits."""
    item, next_address = RIGHT["item_at"](selecting, halves, address)
    return item, next_address + (item >> 28 == 13)


def width_alone(table):
    """Mistake: lengths are not looked at for 15."""
    return table.width != 32


def tree_first(words, lent, data):
    """Mistake: 14 comes before 15 and 16."""
    answer = checker.check(words, lent)
    return answer if isinstance(answer, Refusal) else RIGHT["refusal_before_items"](words, lent, data)


def any_cycles(reading):
    """Mistake: the cycles' upper bits are not looked at."""
    return reading.take()


def cycles_of_no_word(reading):
    """Mistake: the cycles word isn't there."""
    return 0


HOMES = {reader: ("read_cycles", "form_at_fault", "spare_bit_set", "read_field"),
         selection: ("satisfied", "more_specific", "select", "field_value", "encode", "decode"),
         tree: ("entry_status", "condition_status", "chosen_bit", "conflict_word", "refusal_by_leaves", "refusal_of", "generate"),
         walk: ("damaged", "header_good", "packed", "walk", "mask_bytes"),
         checker: ("widths_equal", "none_damaged", "one_sides_begin_right", "all_used", "no_bit_twice", "named_right",
                   "nothing_right", "first_step"),
         image: ("word_at", "halfwords", "item_at", "last_item", "no_image_table", "no_image", "refusal_before_items", "mask_at"),
         halves: ("kind_and_entry",),
         measure: ("measure",), cost: ("cycles",), withdrawal: ("changed",),
         numbers: ("judged", "has_sign", "number_of", "fits", "value_of", "text_of", "signed", "stored", "text")}
RIGHT = {name: getattr(home, name) for home, names in HOMES.items() for name in names}
MISTAKES = [("satisfied", one_missed_is_enough, "0x00 A"),
            ("satisfied", unmatching_forgotten, "0x00 A"),
            ("more_specific", more_bits, "more mask bits are not more specific: 0-- and -00, word 0"),
            ("more_specific", no_bit_more, "twins are ambiguous"),
            ("select", lone_entry, "the printed table, word 0"),
            ("select", first_claim, "0-0 added, word 0"),
            ("entry_status", lone_leaf, "the printed table, 4 words"),
            ("condition_status", one_clash_is_enough, "the worked table, 28 words"),
            ("chosen_bit", lowest_bit, "the worked table, 28 words"),
            ("chosen_bit", highest_bit, "the bit of the most masks"),
            ("chosen_bit", clashing_left_out, "a clashing pattern's bit"),
            ("conflict_word", no_conflict, "0-- and --0, 8 words give 6 with word 0"),
            ("conflict_word", all_ambiguous, "0-0 added, 8 words"),
            ("damaged", any_bit_tested, "the tested bit at the width"),
            ("header_good", no_header, "walk of a cut tree"),
            ("packed", leaf_counted, "the worked table, walk of 0x00 as bytes"),
            ("widths_equal", part_left_out, "width 3 for width 2"),
            ("none_damaged", part_left_out, "an entry with bit 8 set"),
            ("one_sides_begin_right", part_left_out, "01, one nothing for two sides"),
            ("all_used", part_left_out, "no entries, a nothing more said"),
            ("no_bit_twice", part_left_out, "bit 1 twice"),
            ("named_right", part_left_out, "entry 1 of one entry"),
            ("named_right", named_is_live, "a lone entry still open"),
            ("nothing_right", part_left_out, "two nothings"),
            ("first_step", walks_right, "eight unmatching patterns, named too soon"),
            ("first_step", walks_right, "eight conditions, nothing at once"),
            ("word_at", lower_half_first, "six halfwords, 5 words"),
            ("word_at", last_half_again, "last step, one lower half of all is a 32-bit entry"),
            ("halfwords", high_byte_first, "six halfwords, 5 words"),
            ("item_at", offsets_for_addresses, "a step at 1"),
            ("item_at", unknown_by_two, "six halfwords, 5 words"),
            ("no_image_table", width_alone, "a length of 24"),
            ("no_image", part_left_out, "no image, no word"),
            ("refusal_before_items", tree_first, "an odd image, no tree, no word"),
            ("walk", wrong_masks.starts_at_one, "the printed tree, walk of 0"),
            ("walk", wrong_masks.zero_sides_left_out, "the printed tree, walk of 1"),
            ("walk", wrong_masks.last_test_left_out, "the worked table, mask of 0x00"),
            ("walk", wrong_masks.twice_is_not_at_all, "bit 1 twice, walk of 0"),
            ("walk", wrong_masks.as_many_ones, "the printed tree, mask of 3"),
            ("mask_bytes", wrong_masks.kept_at_a_damaged_node, "mask, a damaged third node"),
            ("mask_bytes", wrong_masks.high_bits_left_out, "mask of a high word"),
            ("mask_bytes", wrong_masks.odd_bytes_left_out, "mask, a byte after it"),
            ("mask_bytes", wrong_masks.number_for_mask, "mask of a cut tree"),
            ("mask_at", wrong_masks.word_for_mask, "a step at 1"),
            ("mask_at", wrong_masks.nothing_has_none, "a step at 3"),
            ("mask_at", wrong_masks.missing_half_untested, "a step at a cut entry, bit 0 tested"),
            # each in a listing and in a step
            ("kind_and_entry", wrong_halves.zeros_below_decide, "last item, zeros below a 16-bit entry, others a 32-bit one"),
            ("kind_and_entry", wrong_halves.zeros_below_decide, "last step, zeros below nothing, others a 32-bit entry"),
            ("kind_and_entry", wrong_halves.ones_below_decide, "last item, zeros below a 32-bit entry, others nothing"),
            ("kind_and_entry", wrong_halves.ones_below_decide, "last step, zeros below a 32-bit entry, others a 16-bit one"),
            ("kind_and_entry", wrong_halves.ends_alone, "last item, one lower half of all is a 32-bit entry"),
            ("kind_and_entry", wrong_halves.ends_alone, "last step, one lower half of all is a 32-bit entry"),
            ("kind_and_entry", wrong_halves.one_bit_at_a_time, "last item, one lower half of all is a 32-bit entry"),
            ("kind_and_entry", wrong_halves.one_bit_at_a_time, "last step, one lower half of all is a 32-bit entry"),
            ("kind_and_entry", wrong_halves.bit_15_known, "last item, bit 15 decides: nothing or a 32-bit entry"),
            ("kind_and_entry", wrong_halves.bit_15_known, "second step, bit 15 decides: nothing or a 32-bit entry"),
            ("kind_and_entry", wrong_halves.bit_0_known, "last item, zeros below nothing, others a 32-bit entry"),
            ("kind_and_entry", wrong_halves.bit_0_known, "last step, zeros below a 16-bit entry, others a 32-bit one"),
            ("kind_and_entry", wrong_halves.bit_16_missing, "last item, bit 16 is there: a 16-bit entry"),
            ("kind_and_entry", wrong_halves.bit_16_missing, "last step, bit 16 is there: nothing"),
            ("kind_and_entry", wrong_halves.long_one_whole, "a 32-bit entry at the end, cut"),
            ("kind_and_entry", wrong_halves.long_one_whole, "last step, a 32-bit entry"),
            ("kind_and_entry", wrong_halves.long_one_nothing, "second item, a 32-bit entry"),
            ("kind_and_entry", wrong_halves.long_one_nothing, "words lent after the tree, a step"),
            ("kind_and_entry", wrong_halves.nothing_for_some, "last item, zeros below a 32-bit entry, others nothing"),
            ("kind_and_entry", wrong_halves.nothing_for_some, "last step, a condition excludes some lower halves"),
            ("kind_and_entry", wrong_halves.several_are_nothing, "second item, two 32-bit entries, bit 15 decides"),
            ("kind_and_entry", wrong_halves.several_are_nothing, "last step, two 32-bit entries cover a 16-bit one"),
            ("kind_and_entry", wrong_halves.short_one_for_some, "last item, zeros below a 32-bit entry, others a 16-bit one"),
            ("kind_and_entry", wrong_halves.short_one_for_some, "the last halfword after a full word"),
            ("kind_and_entry", wrong_halves.claiming_is_enough, "last item, a 16-bit entry more specific than another"),
            ("kind_and_entry", wrong_halves.same_label, "last item, two entries of the same label"),
            ("kind_and_entry", wrong_halves.same_label, "last step, two entries of the same label"),
            ("last_item", wrong_halves.past_the_end, "last step, a 32-bit entry"),
            ("last_item", wrong_halves.entry_kept, "last item, a 32-bit entry"),
            ("item_at", wrong_halves.last_but_one_too, "a full word before the last halfword"),
            ("item_at", wrong_halves.last_but_one_too, "a whole lower half of one"),
            ("item_at", wrong_halves.whole_one_cut, "a 32-bit entry to the end"),
            ("mask_at", wrong_halves.ones_below_masked, "last step, one lower half of all is a 32-bit entry"),
            ("mask_at", wrong_halves.ones_below_masked, "last step, a condition excludes some lower halves"),
            ("mask_at", wrong_halves.all_paths_masked, "last step, one lower half of all is a 32-bit entry"),
            ("mask_at", wrong_halves.all_paths_masked, "last step, a condition excludes some lower halves"),
            # compare_measure.py has those of the limit
            ("measure", wrong_sizes.zero_sides_alone, "size, every kind once"),
            ("measure", wrong_sizes.one_sides_alone, "size of the worked table"),
            ("measure", wrong_sizes.leaf_counted, "size of the printed table"),
            ("measure", wrong_sizes.nothing_left_out, "size, nothing is deepest"),
            ("measure", wrong_sizes.bits_of_all_paths, "size, other bits on the two sides"),
            ("measure", wrong_sizes.words_for_nodes, "size of the printed table"),
            ("measure", wrong_sizes.word_left_out, "size of twins 1-"),
            # each in generating and in sizing, where compare_measure.py has 19 before the limit
            ("refusal_of", wrong_reach.let_through, "its own condition, 2 words"),
            ("refusal_of", wrong_reach.let_through, "size, its own condition"),
            ("refusal_of", wrong_reach.claiming_is_enough, "covered by one, 4 words"),
            ("refusal_of", wrong_reach.claiming_is_enough, "size, covered by one"),
            ("refusal_of", wrong_reach.claiming_alone_judged, "its own condition, 2 words"),
            ("refusal_of", wrong_reach.claiming_alone_judged, "size, its own condition"),
            ("refusal_of", wrong_reach.one_cover_alone, "covered by two, 4 words"),
            ("refusal_of", wrong_reach.one_cover_alone, "size, covered by two"),
            ("refusal_of", wrong_reach.highest_for_lowest, "the lower of two, 4 words"),
            ("refusal_of", wrong_reach.highest_for_lowest, "size, the lower of two"),
            ("refusal_of", wrong_reach.first_not_judged, "covered by two, 4 words"),
            ("refusal_of", wrong_reach.first_not_judged, "size, covered by one"),
            ("refusal_of", wrong_reach.last_not_judged, "the last covered, 4 words"),
            ("refusal_of", wrong_reach.last_not_judged, "size, the last of 256"),
            ("refusal_of", wrong_reach.count_for_place, "the middle covered, 4 words"),
            ("refusal_of", wrong_reach.count_for_place, "size, the last of 256"),
            ("refusal_of", wrong_reach.label_for_place, "covered by one, 4 words"),
            ("refusal_of", wrong_reach.label_for_place, "size, the middle covered"),
            ("refusal_of", wrong_reach.entry_for_word, "the middle covered, 4 words"),
            ("refusal_of", wrong_reach.entry_for_word, "size, the last covered"),
            ("refusal_of", wrong_reach.taken_for_ambiguous, "covered by two, 4 words"),
            ("refusal_of", wrong_reach.taken_for_ambiguous, "size, covered by two"),
            ("refusal_of", wrong_reach.before_ambiguous, "6 before 19, 4 words"),
            ("refusal_of", wrong_reach.before_ambiguous, "size, 6 before 19"),
            ("refusal_of", wrong_reach.before_fit, "covered by one, 3 words"),
            ("refusal_of", wrong_reach.before_fit, "its own condition, no word"),
            ("refusal_of", wrong_reach.no_entries_refused, "no entries, kind 6"),
            ("refusal_of", wrong_reach.no_entries_refused, "size of no entries, width 1"),
            ("generate", wrong_reach.buffer_kept, "covered by one, 4 words"),
            ("generate", wrong_reach.tree_left, "covered by one, 6 words"),
            ("read_cycles", any_cycles, "65,536 cycles"),
            ("read_cycles", any_cycles, "65,536 cycles, no field"),
            ("read_cycles", cycles_of_no_word, "0 cycles, no field"),
            ("more_specific", wrong_cycles.fewer_cycles_win, "twins with cycles are ambiguous"),
            ("cycles", wrong_cycles.first_for_all, "cycles of B"),
            ("cycles", wrong_cycles.next_entry, "cycles of twins, the first"),
            ("cycles", wrong_cycles.word_after_value, "kind 1, cycles"),
            ("cycles", wrong_cycles.low_byte, "cycles of D"),
            ("cycles", wrong_cycles.one_entry_more, "77 cycles, entry 1"),
            ("cycles", wrong_cycles.no_entry_first, "65,536 cycles, no such entry"),
            ("cycles", wrong_cycles.seventeen_bits, "65,536 cycles asked"),
            ("cycles", wrong_cycles.place_of_missing, "cycles not there, nor the mask"),
            ("cycles", wrong_cycles.after_fields, "too many cycles and a field of width 0"),
            ("cycles", wrong_cycles.after_fields, "too many cycles and not covered"),
            ("cycles", wrong_cycles.before_opcode, "cycles, opcode value outside the mask"),
            # compare_withdrawal.py has the count of sixteen bits
            ("changed", wrong_withdrawal.others_counted, "0-0 added, word 1, entry 0 withdrawn"),
            ("changed", wrong_withdrawal.renumbering_counted, "0-0 added, word 0, entry 0 withdrawn"),
            ("changed", wrong_withdrawal.number_taken, "each behind, word 7, entry 0 withdrawn"),
            ("changed", wrong_withdrawal.number_taken, "not covered, word 0, entry 0 withdrawn"),
            ("changed", wrong_withdrawal.ambiguous_left_out, "0-0 added, word 0, entry 2 withdrawn"),
            ("changed", wrong_withdrawal.nothing_left_out, "0-0 added, word 1, entry 0 withdrawn"),
            ("changed", wrong_withdrawal.another_left_out, "one in another, word 7, entry 2 withdrawn"),
            ("changed", wrong_withdrawal.one_at_most, "the printed table, entry 0 withdrawn"),
            ("changed", wrong_withdrawal.low_byte, "256 times, entry 0 withdrawn"),
            ("changed", wrong_withdrawal.duplicates_once, "word 3 three times, entry 0 withdrawn"),
            ("changed", wrong_withdrawal.first_left_out, "word 3 at the start, entry 0 withdrawn"),
            ("changed", wrong_withdrawal.first_left_out, "ambiguous at the start"),
            ("changed", wrong_withdrawal.last_left_out, "word 3 at the end, entry 0 withdrawn"),
            ("changed", wrong_withdrawal.last_left_out, "a high word at the end"),
            ("changed", wrong_withdrawal.last_unfit, "ambiguous word 0 first"),
            ("changed", wrong_withdrawal.high_first, "an ambiguous word before a high one"),
            ("changed", wrong_withdrawal.ambiguous_first, "a high word before an ambiguous one"),
            ("changed", wrong_withdrawal.let_through, "the printed table, entry 0x2 withdrawn, no words"),
            ("changed", wrong_withdrawal.one_entry_more, "the printed table, entry 0x1 withdrawn, a word"),
            ("changed", wrong_withdrawal.low_byte_of_entry, "the printed table, entry 0x100 withdrawn, a word"),
            ("changed", wrong_withdrawal.no_entry_first, "withdrawn from a bad table, no such entry"),
            ("changed", wrong_withdrawal.no_entry_last, "the printed table, entry 0x1 withdrawn, a high word"),
            ("changed", wrong_withdrawal.no_entry_last, "an ambiguous word, no such entry withdrawn"),
            ("changed", wrong_withdrawal.refused_after, "0-0 added, word 0, entry 2 withdrawn"),
            ("changed", wrong_withdrawal.mended_taken, "ambiguous, entry 0 withdrawn"),
            ("changed", wrong_withdrawal.word_of_7, "the highest word"),
            ("changed", wrong_withdrawal.word_of_6_left_out, "ambiguous, entry 0 withdrawn"),
            ("changed", wrong_withdrawal.index_for_place, "ambiguous at the end"),
            ("changed", wrong_withdrawal.index_for_place, "a high word at the end"),
            ("changed", wrong_withdrawal.whole_table_unambiguous, "0-- and --0, the words that are not ambiguous, entry 0 withdrawn"),
            ("changed", wrong_withdrawal.reach_judged, "covered by two, entry 1 withdrawn"),
            # compare_shuffle.py has the others
            ("select", wrong_shuffles.first_of_equals, "twice 1, twice 0, word 1"),
            ("select", wrong_shuffles.last_of_equals, "twice 1, twice 0, word 0"),
            ("select", wrong_shuffles.first_claiming, "covered, rotated, word 0"),
            ("select", wrong_shuffles.earlier_not_compared, "twice 1, twice 0, word 1"),
            ("chosen_bit", wrong_shuffles.tie_by_first_entry, "0-0 added, the second first"),
            ("chosen_bit", wrong_shuffles.first_mask_alone, "0-0 added, the second first"),
            ("chosen_bit", wrong_shuffles.first_condition_alone, "conditions with other bits"),
            ("refusal_by_leaves", wrong_shuffles.word_of_lowest_entries, "twice 1, twice 0, 4 words"),
            ("refusal_by_leaves", wrong_shuffles.lowest_entry_at_fault, "6 before 19, 4 words"),
            ("refusal_of", wrong_shuffles.room_up_to_last_entry, "the worked table backwards, 27 words"),
            ("refusal_of", wrong_shuffles.two_entries_judged, "the last covered, 4 words"),
            ("generate", wrong_shuffles.first_of_same_opcode, "conditions with other bits"),
            ("generate", wrong_shuffles.numbered_by_opcode, "the worked table backwards, 28 words"),
            ("generate", wrong_shuffles.numbered_from_end, "the worked table backwards, 28 words"),
            ("generate", wrong_shuffles.first_leaves_sorted, "0-0 added, the second first"),
            ("measure", wrong_shuffles.tests_to_last_entry, "size of the worked table"),
            ("decode", wrong_shuffles.fields_of_first, "0x36 decodes to G, f 0, b 1, c 2"),
            ("encode", wrong_shuffles.later_not_compared, "covered, encoded"),
            # in tables
            ("form_at_fault", wrong_numbers.form_three_taken, "form 3"),
            ("form_at_fault", wrong_numbers.form_two_refused, "a field with a point, no fraction bits"),
            ("form_at_fault", wrong_numbers.wide_fraction_taken, "2 fraction bits of 1"),
            ("form_at_fault", wrong_numbers.wide_fraction_taken, "16 fraction bits of 15"),
            ("form_at_fault", wrong_numbers.fraction_17_taken, "17 fraction bits of 17"),
            ("form_at_fault", wrong_numbers.fraction_16_refused, "16 fraction bits of 16"),
            ("form_at_fault", wrong_numbers.all_after_point_refused, "1 fraction bit of 1"),
            ("spare_bit_set", wrong_numbers.spare_of_plain_alone, "a signed field, bit 16 set"),
            ("read_field", wrong_numbers.spare_is_4_in_tables, "field, bit 16 set"),
            ("read_field", wrong_numbers.spare_of_form_3_is_4_in_tables, "form 3, bit 16 set"),
            ("read_field", wrong_numbers.form_is_2_in_tables, "form 3"),
            ("field_value", wrong_numbers.sign_extended, "with a point, word 1f8 decoded"),
            ("encode", wrong_numbers.numbers_encoded, "with a point, -8 is no stored value"),
            ("more_specific", wrong_numbers.forms_win, "twins with forms are ambiguous"),
            # by themselves
            ("form_at_fault", wrong_numbers.form_three_taken, "form, 33000008, signed"),
            ("form_at_fault", wrong_numbers.wide_fraction_taken, "form, 32090008, text"),
            ("form_at_fault", wrong_numbers.fraction_17_taken, "form, 32110020, stored"),
            ("spare_bit_set", wrong_numbers.spare_of_plain_alone, "spare bit, 31010008, signed"),
            ("judged", wrong_numbers.spare_is_4, "spare bit, 30010008, signed"),
            ("judged", wrong_numbers.spare_of_form_3_is_4, "spare bit, 33010008, stored"),
            ("judged", wrong_numbers.form_is_2, "form, 33000008, signed"),
            ("judged", wrong_numbers.width_is_2, "width, 30000000, text"),
            ("judged", wrong_numbers.width_first, "spare bit, 30040000, signed"),
            ("judged", wrong_numbers.width_33_taken, "width, 30000021, signed"),
            ("judged", wrong_numbers.width_32_refused, "field 30000020, value ffffffff"),
            ("judged", wrong_numbers.kind_not_looked_at, "kind, 20000008, stored"),
            ("judged", wrong_numbers.lowest_bit_judged, "field 3000ff08, value f8"),
            ("judged", wrong_numbers.place_one, "width, 30000000, signed"),
            ("has_sign", wrong_numbers.form_1_alone, "0xf8 is -8 of its smallest steps"),
            ("number_of", wrong_numbers.sign_missed, "field 31000001, value 1"),
            ("number_of", wrong_numbers.plain_wraps, "field 30000020, value ffffffff"),
            ("number_of", wrong_numbers.ones_complement, "field 31000008, value ff"),
            ("number_of", wrong_numbers.sign_and_size, "field 31000008, value f8"),
            ("fits", wrong_numbers.high_bits_left_out, "field 31000008, value fffffff8 out of range"),
            ("fits", wrong_numbers.one_value_more, "field 30000008, value 100 out of range"),
            ("value_of", wrong_numbers.least_refused, "field 31000008, value 80, back"),
            ("value_of", wrong_numbers.one_past_taken, "field 31000008, number 128 out of range"),
            ("value_of", wrong_numbers.one_below_taken, "field 31000008, number -129 out of range"),
            ("value_of", wrong_numbers.negative_of_plain_taken, "field 30000008, number -1 out of range"),
            ("value_of", wrong_numbers.bits_of_signed_taken, "field 31000020, number 4294967295 out of range"),
            ("value_of", wrong_numbers.low_word_alone, "field 31000008, number 4294967296 out of range"),
            ("text_of", wrong_numbers.point_alone, "field 32000008, text of f8"),
            ("text_of", wrong_numbers.minus_zero, "field 31000001, text of 0"),
            ("text_of", wrong_numbers.minus_lost, "0xf8 is -0.5000"),
            ("text_of", wrong_numbers.plus_sign, "field 30000008, text of f8"),
            ("text_of", wrong_numbers.no_digit_before_point, "0xf8 is -0.5000"),
            ("text_of", wrong_numbers.needless_zero, "field 32040008, text of 0"),
            ("text_of", wrong_numbers.zeros_cut, "0xf8 is -0.5000"),
            ("text_of", wrong_numbers.rounded, "field 32100020, text of 1"),
            ("text_of", wrong_numbers.lower_whole, "0xf8 is -0.5000"),
            ("text_of", wrong_numbers.steps_for_digits, "0xf8 is -0.5000"),
            ("text_of", wrong_numbers.one_digit_fewer, "0xf8 is -0.5000"),
            ("signed", wrong_numbers.signed_range_first, "form 3, a value out of range"),
            ("stored", wrong_numbers.stored_range_first, "form 3, a number out of range"),
            ("text", wrong_numbers.text_range_first, "form 3, the text of a value out of range"),
            ("text", wrong_numbers.room_before_range, "field 30000008, text of 100 out of range, 0 bytes"),
            ("text", wrong_numbers.room_before_form, "form, 33000008, text"),
            ("text", wrong_numbers.room_before_kind, "kind, 20000008, text"),
            ("text", wrong_numbers.exact_room_refused, "field 32040008, text of f8"),
            ("text", wrong_numbers.cut_to_buffer, "field 32040008, text of f8, too short"),
            ("text", wrong_numbers.written_and_refused, "field 32040008, text of f8, too short"),
            ("text", wrong_numbers.cleared, "field 30000008, text of 100 out of range, 3 bytes"),
            ("text", wrong_numbers.byte_after_zeroed, "0xf8 is -0.5000"),
            ("text", wrong_numbers.at_the_end, "0xf8 is -0.5000"),
            ("text", wrong_numbers.length_of_buffer, "0xf8 is -0.5000")]


def forget():
    """What was found with a mistake made must not be found again without it."""
    for known in (selection.read_once, tree.nodes_once, checker.steps_once, checker.first_missing_once, checker.check_once,
                  image.selecting_once):
        known.cache_clear()


def check_mistakes():
    """Each mistake, made on purpose, must be noticed by the example that stands for it."""
    for name, mistake, example in MISTAKES:
        home = next(home for home, names in HOMES.items() if name in names)
        setattr(home, name, mistake)
        forget()
        noticed = any(not is_met(question, line) for known, question, line in ASKED if known == example)
        setattr(home, name, RIGHT[name])
        forget()
        if not noticed:
            fail(f"the mistake {mistake.__name__} isn't noticed by: {example}")
    return len(MISTAKES)


def as_pattern(pattern):
    """The reader's pattern as the plan's (mask, value)."""
    return sum(1 << bit for bit in pattern.mask), sum(1 << bit for bit in pattern.value)


def as_plan(table):
    """What the reader understood, in the generator's terms."""
    entries = []
    for entry in table.entries:
        mask, value = as_pattern(entry.opcode)
        fields = [(one.lowest, one.width) for one in entry.fields]
        conditions = [(as_pattern(one.matching), [as_pattern(other) for other in one.unmatching])
                      for one in entry.conditions]
        forms = [(one.form, one.fraction) for one in entry.fields]
        entries.append(tables.EntryPlan(entry.label, entry.length, mask, value, fields, conditions, entry.cycles, forms))
    return tables.TablePlan(table.width, entries)


def check_good(laid, tally):
    """A good table must read without fault, as exactly what was planned."""
    table = read(laid.words)
    if not isinstance(table, Table):
        fail(f"a good table gives {table}: {hexadecimal(laid.words)}")
    if as_plan(table) != laid.plan:
        fail(f"a good table was read as something else: {hexadecimal(laid.words)}")
    tally[f"good, kind {twins.kind_of(laid.words)}"] += 1
    tally["most cycles"] += any(entry.cycles == tables.MOST_CYCLES for entry in table.entries)
    for entry in table.entries:
        for one in entry.fields:
            tally[f"form {one.form}"] += 1
            tally[f"fraction {one.fraction}, {'as wide' if one.fraction == one.width else 'wider'}"] += one.form == tables.FIXED


def check_twin(plain, laid):
    """The twins made of words are those that are laid out, and the cycles are those planned."""
    cycles = [entry.cycles for entry in laid.plan.entries]
    if twins.with_cycles(plain.words, cycles) != laid.words or twins.without_cycles(laid.words) != plain.words \
            or twins.cycles_of(laid.words) != cycles or any(twins.cycles_of(plain.words)):
        fail(f"the twin of a table isn't the one laid out: {hexadecimal(plain.words)}, {hexadecimal(laid.words)}")
    if [cost.cycles(laid.words, number) for number in range(len(cycles) + 1)] != [*cycles, Refusal(11)]:
        fail(f"the cycles are not those planned, {cycles}: {hexadecimal(laid.words)}")


def check_good_tables(rng, tally):
    for plan in good_plans(rng):
        plain, laid = tables.lay_out_both(rng, plan)
        check_good(plain, tally)
        check_good(laid, tally)
        check_twin(plain, laid)
    for kind in (tables.PLAIN, tables.WITH_CYCLES):
        laid = tables.lay_longest(rng, kind)
        if len(laid.words) != tables.MOST_WORDS:
            fail(f"the longest table of kind {kind} has {len(laid.words)} words")
        check_good(laid, tally)
    if tally["most cycles"] < 400:
        fail(f"only {tally['most cycles']} tables with the most cycles")
    for what in (*(f"form {form}" for form in tables.FORMS), "fraction 0, wider", "fraction 16, wider", "fraction 16, as wide",
                 *(f"fraction {fraction}, {size}" for fraction in range(1, 16) for size in ("wider", "as wide"))):
        if tally[what] < 10:
            fail(f"only {tally[what]} fields of {what}")
    if not 0.8 < tally["form 0"] / (tally["form 1"] + tally["form 2"]) < 1.4:
        fail(f"{tally['form 0']} plain fields, but {tally['form 1'] + tally['form 2']} others")


def good_plans(rng):
    for width in range(1, 33):
        for _ in range(12):
            yield tables.good_plan(rng, width)
            yield tables.overlapping_plan(rng, width)
        yield tables.small_entries_plan(rng, width, rng.choice([100, 255, 256]))
    for width in (8, 17, 32):
        yield tables.TablePlan(width, [tables.full_entry(rng, width)])


def check_damage(expected, words):
    seen = read(words)
    if seen != Refusal(expected.number, expected.place):
        fail(f"expected {expected.number} at {expected.place}, read as {seen}: {hexadecimal(words)}")


def check_single_damages(rng, tally):
    """Each kind of damage, often, gives the number and place it says by itself."""
    done = Counter()
    for round_number in range(40):
        for width in range(1, 33):
            laid = tables.lay_out_both(rng, tables.good_plan(rng, width, most_entries=4))[round_number % 2]
            chosen = [rng.choice(tables.USUAL_DAMAGES) for _ in range(12)]
            if round_number < 2:
                chosen.append(tables.too_long)
            for kind in chosen:
                damage = kind(rng, laid)
                if damage is None:
                    continue
                check_damage(damage, tables.damaged(laid.words, damage))
                done[kind.__name__] += 1
                tally[damage.number] += 1
    for kind in tables.DAMAGES:
        if done[kind.__name__] < 20:
            fail(f"the damage {kind.__name__} was done only {done[kind.__name__]} times")


def check_cuts(rng, tally):
    for width in range(1, 33):
        for laid in tables.lay_out_both(rng, tables.good_plan(rng, width, most_entries=3)):
            for damage in tables.every_cut(laid):
                check_damage(damage, tables.damaged(laid.words, damage))
                tally[2] += 1


def check_double_damages(rng, tally):
    """Of two damages in different entries the one that shows first is reported."""
    done = 0
    for width in list(range(1, 33)) * 60:
        laid = rng.choice(tables.lay_out_both(rng, tables.good_plan(rng, width, most_entries=5)))
        one, two = tables.some_damage(rng, laid), tables.some_damage(rng, laid)
        expected = tables.first_of(one, two)
        if expected is None:
            continue
        check_damage(expected, tables.damaged(laid.words, one, two))
        done += 1
    if done < 500:
        fail(f"only {done} double damages")
    tally["double"] += done


def check_round_trip(words, word, tally):
    """What decodes, encodes again to the same own bits; what encodes, decodes to the same values."""
    outcome, after = selection.decode(words, word, [0] * 8)
    if isinstance(outcome, Refusal) or outcome == selection.NOTHING:
        return
    table = read(words)
    entry = table.entries[outcome]
    values = after[:len(entry.fields)]
    below = table.width - entry.length
    made = selection.encode(words, outcome, values)
    kept = word >> below << below
    if made not in (kept, Refusal(13, word=kept)) or (below == 0 and made != word):
        fail(f"word {word:08x} of entry {outcome} encodes to {made}: {hexadecimal(words)}")
    tally["round trips"] += 1
    if isinstance(made, Refusal):
        return
    again, values_again = selection.decode(words, made, [0] * 8)
    if again != outcome or values_again[:len(values)] != values:
        fail(f"word {made:08x} decodes to {again} {values_again}: {hexadecimal(words)}")


def check_round_trips(rng, tally):
    for width in list(range(1, 33)) * 15:
        plan = tables.overlapping_plan(rng, width)
        words = tables.lay_out(plan).words
        for _ in range(6):
            check_round_trip(words, tables.word_for(rng, plan), tally)
    if tally["round trips"] < 500:
        fail(f"only {tally['round trips']} round trips")


# ---------------------------------------------------------------------------- trees

def in_cell(word_bits, cell):
    return word_bits & cell.fixed == cell.ones


def written_out(pattern, width):
    """A pattern as document 01 writes it: high bit first, - for a bit outside the mask."""
    return "".join("-" if bit not in pattern.mask else "1" if bit in pattern.value else "0" for bit in reversed(range(width)))


def text_implies(cell, pattern):
    return all(wanted in ("-", fixed) for fixed, wanted in zip(cell, pattern))


def text_clashes(cell, pattern):
    return any(wanted != fixed and "-" not in (fixed, wanted) for fixed, wanted in zip(cell, pattern))


def text_condition(cell, matching, unmatching):
    if text_implies(cell, matching) and all(text_clashes(cell, one) for one in unmatching):
        return "holds"
    if text_clashes(cell, matching) or any(text_implies(cell, one) for one in unmatching):
        return "fails"
    return "open"


def text_step(table, cell):
    """The step that document 01 takes in a cell, once more: on strings, with all entries, and nothing kept between cells.
    An entry's number, "nothing", "conflict" or ("test", bit)."""
    width = len(cell)
    opcodes = [written_out(entry.opcode, width) for entry in table.entries]
    conditions = [[(written_out(one.matching, width), [written_out(other, width) for other in one.unmatching])
                   for one in entry.conditions] for entry in table.entries]
    status = []
    for opcode, its_conditions in zip(opcodes, conditions):
        found = {text_condition(cell, *one) for one in its_conditions}
        if text_clashes(cell, opcode) or "holds" in found:
            status.append("dead")
        elif text_implies(cell, opcode) and found <= {"fails"}:
            status.append("sure")
        else:
            status.append("open")
    live = [number for number, one in enumerate(status) if one != "dead"]
    for number in live:
        others = [other for other in live if other != number]
        # More specific: the other pattern is implied by this one, and isn't the same.
        if status[number] == "sure" and all(opcodes[number] != opcodes[other] and text_implies(opcodes[number], opcodes[other])
                                            for other in others):
            return number
    if not live:
        return "nothing"
    open_ones = [number for number in live if status[number] == "open"]
    if not open_ones:
        return "conflict"
    free = [place for place in range(width) if cell[place] == "-"]
    votes = {place: sum(opcodes[number][place] != "-" for number in open_ones) for place in free}
    if any(votes.values()):
        # The first place is the highest bit.
        return "test", width - 1 - max(free, key=lambda place: (votes[place], -place))
    for place in free:
        for number in open_ones:
            for matching, unmatching in conditions[number]:
                if text_condition(cell, matching, unmatching) == "open" and any(one[place] != "-" for one in [matching, *unmatching]):
                    return "test", width - 1 - place
    return "stuck"


def check_step(table, node, words):
    cell = "".join("-" if bit not in node.cell.fixed else "1" if bit in node.cell.ones else "0"
                   for bit in reversed(range(table.width)))
    kinds = {tree.Test: lambda: ("test", node.bit), tree.Names: lambda: node.entry,
             tree.NamesNothing: lambda: "nothing", tree.Conflict: lambda: "conflict"}
    step = text_step(table, cell)
    if step != kinds[type(node)]():
        fail(f"cell {cell}: the node is {node}, the step is {step}: {hexadecimal(words)}")
    if isinstance(node, tree.Test) and node.bit in node.cell.fixed:
        fail(f"bit {node.bit} is tested twice: {hexadecimal(words)}")


def check_buffers(words, nodes, refusal, tally):
    """nodes + 1 words take the tree, one fewer don't; 5 comes before 6 and 19; what is left is unchanged, or all is zero."""
    for length in {0, 1, nodes, nodes + 1, nodes + 4}:
        lent = [0xDDDDDDDD] * length
        outcome, after = tree.generate(words, lent)
        wanted = Refusal(5) if length < nodes + 1 else refusal if refusal is not None else nodes + 1
        rest = [0] * length if isinstance(wanted, Refusal) else after[:nodes + 1] + lent[nodes + 1:]
        if outcome != wanted or after != rest:
            fail(f"{length} words lent for {nodes} nodes give {outcome}: {hexadecimal(words)}")
        tally[f"outcome {outcome.number}" if isinstance(outcome, Refusal) else "outcome tree"] += 1


def check_size(words, nodes, refusal, most, every):
    """Sizing against the nodes, and against the most tests of a word that was asked; with every word that is the greatest number."""
    size = measure.measure(words)
    if not every and not isinstance(size, Refusal):
        most = max(most, size[1])
    if size != (refusal if refusal is not None else (nodes, most)):
        fail(f"the size is {size}: {nodes} nodes, a word has {most} tests, {refusal}: {hexadecimal(words)}")


def check_tree_of(words, tally, asked):
    """A table's tree against its lookups: on every word that is asked, or on every word of the width (None)."""
    table = read(words)
    nodes = tree.nodes_of(table)
    if nodes is None:
        return
    for node in nodes:
        check_step(table, node, words)
    conflict, refusal = tree.conflict_word(nodes), tree.refusal_by_leaves(table, nodes)
    check_buffers(words, len(nodes), refusal, tally)
    written = tree.written(table.width, nodes)
    ambiguous, most = False, 0
    for word in range(1 << table.width) if asked is None else asked:
        wanted = selection.select(table, word)
        word_bits = selection.ones(word)
        leaves = [node for node in nodes if not isinstance(node, tree.Test) and in_cell(word_bits, node.cell)]
        tests = [node for node in nodes if isinstance(node, tree.Test) and in_cell(word_bits, node.cell)]
        if len(leaves) != 1 or len({node.bit for node in tests}) != len(tests):
            fail(f"word {word:x} is in {len(leaves)} leaves, its tests are {tests}: {hexadecimal(words)}")
        if (wanted == selection.AMBIGUOUS) != isinstance(leaves[0], tree.Conflict):
            fail(f"word {word:x} is {wanted}, its leaf {leaves[0]}: {hexadecimal(words)}")
        if wanted == selection.AMBIGUOUS:
            ambiguous = True
        elif walk.walk(written, word) != walk.Walked(wanted, len(tests), sum(1 << node.bit for node in tests)):
            fail(f"word {word:x} is {wanted}, walked: {walk.walk(written, word)}: {hexadecimal(words)}")
        most = max(most, len(tests))
        tally["walked words"] += 1
    check_size(words, len(nodes), refusal, most, asked is None)
    if conflict is not None and selection.select(table, conflict) != selection.AMBIGUOUS:
        fail(f"word {conflict:x} isn't ambiguous: {hexadecimal(words)}")
    if asked is None and ambiguous != (conflict is not None):
        fail(f"ambiguous: {ambiguous}, conflict word: {conflict}: {hexadecimal(words)}")
    tally["trees"] += 1
    tally["ambiguous trees"] += conflict is not None


def tree_plans(rng, width):
    yield tables.nested_plan(rng, width, most_entries=6)
    yield tables.joined_plan(rng, width, most_entries=12) or tables.nested_plan(rng, width)
    yield tables.divided_plan(rng, width)
    yield tables.overlapping_plan(rng, width, most_entries=6)
    yield tables.good_plan(rng, width, most_entries=5)


def check_same(rng, plan, tally):
    """Cycles change no lookup, no fields and no tree."""
    words = tables.lay_out(plan).words
    asked = tables.word_for(rng, plan)
    questions = [("lookup", words, asked), ("decode", words, asked, [3] * 8), ("generate", words, [5] * 60), ("measure", words)]
    questions += [("encode", words, number, tables.values_in(entry, asked)) for number, entry in enumerate(plan.entries)]
    questions += [("changed", words, number, [asked]) for number in range(len(plan.entries))]
    for question in questions:
        line, other = line_of(question), line_of((question[0], twins.twin_of(rng, words), *question[2:]))
        if line != other:
            fail(f"{question[0]} says {line}, and of a twin {other}: {hexadecimal(words)}")
        tally["same of twins"] += 1


def check_trees(rng, tally):
    for width in list(range(1, 8)) * 9:
        for plan in tree_plans(rng, width):
            check_tree_of(tables.lay_out(plan).words, tally, None)
    for width in range(8, 33):
        for plan in tree_plans(rng, width):
            words = tables.lay_out(plan).words
            if tree.nodes_of(read(words), 300) is not None:
                check_tree_of(words, tally, [tables.word_for(rng, plan) for _ in range(12)])
                check_same(rng, plan, tally)
    for depth in range(1, 7):
        for one_more in (False, True):
            plan = tables.full_tree_plan(rng, 7, depth, one_more and depth < 7)
            nodes = tree.nodes_of(read(tables.lay_out(plan).words))
            if len(nodes) != 2 ** (depth + 1) - 1 + (2 if one_more else 0):
                fail(f"full_tree_plan of {depth} has {len(nodes)} nodes")
    for plan, length in ((tables.full_tree_plan(rng, 32, 13), 16384), (tables.full_tree_plan(rng, 32, 13, True), Refusal(5)),
                         (tables.full_tree_plan(rng, 32, 32), Refusal(5)), (tables.full_tree_plan(rng, 32, 13, twice=True), Refusal(6))):
        words = tables.lay_out(plan).words
        outcome, _ = tree.generate(words, [1] * 20000)
        if outcome != length:
            fail(f"a tree at the limit gives {outcome} and not {length}")
        if measure.measure(words) != (length if isinstance(length, Refusal) else (length - 1, 13)):
            fail(f"a tree at the limit has the size {measure.measure(words)}, generating gives {length}")
    for what, least in (("trees", 350), ("ambiguous trees", 60), ("outcome 5", 700), ("outcome 6", 100), ("outcome 19", 200),
                        ("outcome tree", 200), ("same of twins", 700)):
        if tally[what] < least:
            fail(f"only {tally[what]} of {what}")


# ---------------------------------------------------------------------------- entries that no word selects

def count_unreached(table, selected, tally):
    """How an entry came to be selected by no word, and what is in the table."""
    unreached = reach.unreached_in(len(table.entries), selected)
    claiming = {number for word in range(2 ** table.width) for word_bits in [selection.ones(word)] for number in unreached
                if selection.claims(word_bits, table.entries[number])}
    tally["19, several entries"] += len(unreached) > 1
    tally["19, an entry claims words"] += len(claiming) > 0
    tally["19, an entry claims none"] += len(claiming) < len(unreached)
    tally["19, short entries"] += any(entry.length < table.width for entry in table.entries)
    tally["19, unmatching patterns"] += any(condition.unmatching for entry in table.entries for condition in entry.conditions)


def check_reach_of(plan, tally):
    """What generating and sizing say by the leaves, against all words. 6 is given with a word, which check_tree_of looks at."""
    words = tables.lay_out(plan).words
    table = read(words)
    selected = reach.selected_by(table)
    wanted = reach.judged(len(table.entries), selected)
    outcomes = tree.generate(words, [1] * tree.MOST_TREE_WORDS)[0], measure.measure(words)
    for outcome in outcomes:
        seen = replace(outcome, word=0) if isinstance(outcome, Refusal) else None
        if seen != wanted:
            fail(f"by words {wanted}, by leaves {outcome}: {hexadecimal(words)}")
    tally[f"by words {wanted.number if wanted else 'tree'}"] += 1
    if wanted is not None and wanted.number == 19:
        tally[f"19, the {tables.where(wanted.place, len(table.entries))}"] += 1
        count_unreached(table, selected, tally)
    return wanted


def picked(plan, answer):
    """The entry that a word selects; None for nothing."""
    return None if answer == selection.NOTHING else plan.entries[answer]


def check_reachable(plan, tally):
    """Without the entries that no word selects the plan has a tree, and each word selects the same entry."""
    table = read(tables.lay_out(plan).words)
    other = reach.reachable(plan, tree.nodes_of(table))
    fewer = read(tables.lay_out(other).words)
    for word in range(2 ** table.width):
        before, after = selection.select(table, word), selection.select(fewer, word)
        if picked(plan, before) is not picked(other, after):
            fail(f"word {word:x} selects {before}, and then {after}: {plan}")
    if check_reach_of(other, tally) is not None:
        fail(f"an entry is left that no word selects: {other}")
    tally["reachable"] += 1


def check_covered(rng, width, tally):
    """Plans that are made to have such an entry, or to have none by a single word."""
    for how in tables.COVERS:
        for spared in (False, True):
            plan, number = tables.covered_plan(rng, width, how, spared)
            if check_reach_of(plan, tally) != (None if spared else Refusal(19, place=number)):
                fail(f"{how}, spared: {spared}, entry {number}: {plan}")
            tally[f"{how}, a word spared" if spared else how] += 1


def check_reach(rng, tally):
    for width in range(1, reach.MOST_WIDTH + 1):
        for _ in range(12):
            for plan in tree_plans(rng, width):
                wanted = check_reach_of(plan, tally)
                if wanted is not None and wanted.number == 19 and rng.random() < 0.3:
                    check_reachable(plan, tally)
        for _ in range(4):
            check_covered(rng, width, tally)
    for what, least in (("by words tree", 300), ("by words 6", 80), ("by words 19", 250), ("19, the first", 90), ("19, the middle", 80),
                        ("19, the last", 40), ("19, the only", 30), ("19, several entries", 70), ("19, an entry claims words", 100),
                        ("19, an entry claims none", 150), ("19, short entries", 100), ("19, unmatching patterns", 150), ("reachable", 50)):
        if tally[what] < least:
            fail(f"only {tally[what]} of {what}")


# ---------------------------------------------------------------------------- operands with a sign or a point

def check_text(kind, number, tally):
    """The text once more, by its shape, and by what it says when it is read."""
    text = numbers.text_of(number, kind.fraction)
    after = rf"\.[0-9]{{{kind.fraction}}}" if kind.fraction else ""
    if not re.fullmatch(rf"-?(0|[1-9][0-9]*){after}", text) or Fraction(text) != Fraction(number, 2 ** kind.fraction) \
            or text.startswith("-") != (number < 0):
        fail(f"{number} / 2^{kind.fraction} is written {text}")
    tally["texts"] += 1


def check_kind(kind, values, tally):
    """Each value has a number, of which it is the value."""
    for value in values:
        number = numbers.number_of(kind, value)
        if numbers.value_of(kind, number) != value:
            fail(f"{kind}: value {value:x} has the number {number}, and that the value {numbers.value_of(kind, number)}")
        check_text(kind, number, tally)


def check_order(kind):
    """All values of a narrow field: from the least number on, one after another. With a sign the upper half comes first."""
    half = 2 ** (kind.width - 1)
    order = [*range(half), *range(half, 2 * half)] if kind.form == 0 else [*range(half, 2 * half), *range(half)]
    seen = [numbers.number_of(kind, value) for value in order]
    if seen != list(range(0 if kind.form == 0 else -half, 2 * half if kind.form == 0 else half)):
        fail(f"{kind}: the numbers are {seen}")


def check_numbers(rng, tally):
    for width in range(1, 33):
        for form, fraction in tables.forms_of(width):
            kind, some = numbers.Kind(form, fraction, width), [0, 1, 2 ** (width - 1), 2 ** width - 1]
            if width <= 8:
                check_order(kind)
                some = range(2 ** width)
            check_kind(kind, [*some, *(rng.getrandbits(width) for _ in range(9))], tally)
    if tally["texts"] < 8000:
        fail(f"only {tally['texts']} texts")


# ---------------------------------------------------------------------------- the checker and the lister

def text_cell(tests, width):
    cell = ["-"] * width
    for bit, value in tests:
        cell[width - 1 - bit] = str(value)
    return "".join(cell)


def accepted_by_paths(words, lent):
    """The rule once more: by paths, with steps on strings. In a tree each node has one path, and the next node in node
    order is the one that is come to next when zero sides go first."""
    table = read(words)
    if not walk.header_good(lent) or lent[0] >> 16 & 0x3F != table.width:
        return False
    nodes = checker.nodes_in(lent)
    if any(walk.damaged(node, index, table.width, len(nodes)) for index, node in nodes.items()):
        return False
    visited, todo = [], [(1, ())]
    while todo:
        index, tests = todo.pop()
        visited.append(index)
        if len(visited) > len(nodes) or index != len(visited):
            return False
        node = nodes[index]
        if checker.kind(node) == checker.TEST:
            bit = checker.tested_bit(node)
            if bit in dict(tests):
                return False
            todo += [(checker.one_side(node), tests + ((bit, 1),)), (index + 1, tests + ((bit, 0),))]
            continue
        step = text_step(table, text_cell(tests, table.width))
        if step != ("nothing" if checker.kind(node) == checker.NOTHING else checker.named(node)):
            return False
    return len(visited) == len(nodes)


def check_answer(words, lent, tally, part=None):
    """The rule by parts against the rule by paths; a tree made to miss a certain part must miss that one first."""
    missing = checker.first_missing(words, lent)
    if (missing is None) != accepted_by_paths(words, lent):
        fail(f"part {missing} is missing, by paths: {accepted_by_paths(words, lent)}: {hexadecimal(words)}, {hexadecimal(lent)}")
    if part is not None and missing != part:
        fail(f"part {missing} is missing and not {part}: {hexadecimal(words)}, {hexadecimal(lent)}")
    tally[f"missing {missing}"] += 1


def check_checker_of(rng, words, width, good, tally):
    shape = checktrees.shape_at(good, 1)
    check_answer(words, good, tally)
    for part, some in ((2, checktrees.other_widths(good)), (4, checktrees.shared_sides(good)),
                       (5, checktrees.with_unused(rng, good)), (4, checktrees.with_gap(rng, good)),
                       (6, (checktrees.written(width, one) for one in checktrees.tested_again(rng, shape)))):
        for lent in some:
            check_answer(words, lent, tally, part)
    for change in (checktrees.collapsed(shape), checktrees.sides_swapped(shape), checktrees.leaves_changed(shape, 2)):
        for changed in change:
            check_answer(words, checktrees.written(width, changed), tally)
    other = checktrees.other_shape(rng, read(words), 60)
    if other is not None:
        check_answer(words, checktrees.written(width, other), tally)
        tally["other trees"] += 1
    for _ in range(10):
        check_answer(words, trees.flipped(rng, good), tally)
        check_answer(words, trees.foreign(rng, width, rng.randint(1, 9)), tally)


def check_checker(rng, tally):
    for width in list(range(1, 9)) * 3 + [16, 32]:
        for plan in tree_plans(rng, width):
            words = tables.lay_out(plan).words
            nodes = tree.nodes_of(read(words), 22)
            if nodes is not None and tree.conflict_word(nodes) is None:
                check_checker_of(rng, words, width, tree.written(width, nodes), tally)
    for what, least in (("missing None", 100), ("other trees", 50), *((f"missing {part}", 60) for part in range(2, 9))):
        if tally[what] < least:
            fail(f"only {tally[what]} of {what}")


def named_below(lent, index, upper):
    """What the leaves name on the paths that the upper half leaves open, from this index on. In a tree that tests no bit twice each of
    these paths is some lower half's."""
    node = lent[index]
    if checker.kind(node) != checker.TEST:
        return {selection.NOTHING if checker.kind(node) == checker.NOTHING else checker.named(node)}
    sides, bit = (index + 1, checker.one_side(node)), checker.tested_bit(node)
    left = sides if bit < 16 else (sides[upper >> bit - 16 & 1],)
    return set().union(*(named_below(lent, side, upper) for side in left))


def walked_item(table, lent, halves_of, address):
    """Kind, entry and length in halfwords by walks: of the word, and at the end by what all walks of the upper half name."""
    if address + 1 == len(halves_of):
        named = named_below(lent, 1, halves_of[address])
        answer = named.pop()
        if named or answer != selection.NOTHING and table.entries[answer].length == 32:
            return 14, 0, 1
    else:
        answer = walk.walk(lent, halves_of[address] << 16 | halves_of[address + 1]).names
    if answer == selection.NOTHING:
        return 13, 0, 1
    return 12, answer, table.entries[answer].length // 16


def check_items(words, lent, data, tally):
    """The items of a listing against walks of the tree, and each item's address against the one before."""
    table = read(words)
    halves_of = [data[at] | data[at + 1] << 8 for at in range(0, len(data), 2)]
    count, items = image.list_items(words, lent, data, [0] * len(halves_of))
    address = 0
    for item in items[:count]:
        kind, entry, length = walked_item(table, lent, halves_of, address)
        upper, lower = (halves_of + [0])[address:address + 2]
        mask = sum(1 << bit for bit in trees.tested_bits(lent, upper << 16 | lower))
        if item != kind << 28 | entry << 20 | address:
            fail(f"item {item:08x} at {address}, but by walks kind {kind}, entry {entry}: {hexadecimal(words)}, {data.hex()}")
        if image.step(words, lent, data, address) != (item, address + length, mask):
            fail(f"the step at {address} isn't the item {item:08x}: {hexadecimal(words)}, {data.hex()}")
        address += length
        tally[f"items {kind}"] += 1
        tally["last halfwords"] += address == len(halves_of) and length == 1
    if address != len(halves_of):
        fail(f"the listing ends at {address}: {hexadecimal(words)}, {data.hex()}")


def check_limits(tally):
    """2,097,152 bytes are listed, more are 16; probe's input doesn't hold so many."""
    words, lent = [0x10000020], [0x70200001, 0xA0000000]
    for size, wanted in ((2097152, 1048576), (2097154, Refusal(16)), (2097153, Refusal(16)), (2097151, Refusal(16))):
        outcome, after = image.list_items(words, lent, bytes(size), [0] * 1048576)
        if outcome != wanted or (size == 2097152 and after[-1] != 0xD00FFFFF):
            fail(f"an image of {size} bytes gives {outcome}")
        tally["limits"] += 1


def check_lister(rng, tally):
    while tally["listed images"] < 200:
        plan = tables.with_forms(rng, images.image_plan(rng))
        words = tables.lay_out(plan).words
        nodes = tree.nodes_of(read(words), 150)
        if nodes is not None:
            check_items(words, tree.written(plan.width, nodes), images.some_image(rng, plan), tally)
            tally["listed images"] += 1
    check_limits(tally)
    for what, least in (("items 12", 300), ("items 13", 100), ("items 14", 20), ("last halfwords", 100)):
        if tally[what] < least:
            fail(f"only {tally[what]} of {what}")


def main():
    rng = random.Random(20250101)
    tally = Counter()
    example_count = check_examples()
    mistakes = check_mistakes()
    check_good_tables(rng, tally)
    check_single_damages(rng, tally)
    check_cuts(rng, tally)
    check_double_damages(rng, tally)
    check_round_trips(rng, tally)
    check_numbers(rng, tally)
    check_trees(rng, tally)
    check_reach(random.Random(REACH_SEED), tally)
    check_checker(rng, tally)
    check_lister(rng, tally)
    judged = sum(tally[f"missing {part}"] for part in (None, *range(1, 9)))
    unreached = ", ".join(f"the {which} entry: {tally[f'19, the {which}']}" for which in ("first", "middle", "last", "only"))
    print(f"selfcheck good: {example_count} examples, {mistakes} mistakes noticed, {tally['good, kind 1']} good tables of kind 1, "
          f"{tally['good, kind 6']} of kind 6, {tally['same of twins']} questions to twins, "
          f"damages by number 1: {tally[1]}, 2: {tally[2]}, 3: {tally[3]}, 4: {tally[4]}, "
          f"{tally['double']} double damages, {tally['round trips']} round trips, {tally['texts']} texts, {tally['trees']} trees "
          f"({tally['ambiguous trees']} ambiguous), {tally['walked words']} walked words, tables judged by all their words: "
          f"tree {tally['by words tree']}, 6: {tally['by words 6']}, 19: {tally['by words 19']} ({unreached}), {judged} trees judged twice "
          f"({tally['missing None']} accepted), {tally['items 12'] + tally['items 13'] + tally['items 14']} items walked")


if __name__ == "__main__":
    main()

"""Mistakes with the order of entries. A test must notice each.

Each of WRONG_PROGRAMS is (module or class, name, mistake): the mistake is to be put in the place of that function of the second
implementation, and stands on the right one, which is kept here. What it answers depends on the order of the entries, or doesn't move with
them. Each of WRONG_LINES is (mistake, calls): the mistake is to be put in the place of shuffles.moved_line, and each of the calls must show
it. Each of WRONG_QUESTIONS is to be put in the place of shuffles.moved_question, each of WRONG_TABLES in the place of shuffles.reordered.
What is then expected, or asked, is wrong.
"""

from second import checker, cost, halves, image, measure, selection, shuffles, tree, walk, withdrawal, wrong_cycles, wrong_halves, \
    wrong_reach, wrong_withdrawal
from second.reader import Refusal, ones
from second.selection import AMBIGUOUS, NOTHING, claims, field_value, more_specific, read_once
from second.shuffles import from_of, moved_entry, moved_item, number_in, place_in
from second.tables import WITH_CYCLES
from second.tree import DEAD, SURE, Conflict, Names, entry_status, unnamed_entries
from second.twins import cycles_of, heads_in, kind_of

RIGHT_SELECT = selection.select
RIGHT_DECODE = selection.decode
RIGHT_ENCODE = selection.encode
RIGHT_BIT = tree.chosen_bit
RIGHT_BY_LEAVES = tree.refusal_by_leaves
RIGHT_REFUSAL = tree.refusal_of
RIGHT_GENERATE = tree.generate
RIGHT_MEASURE = measure.measure
RIGHT_STEP = checker.first_step
RIGHT_NAMED = checker.named_right
RIGHT_OF = image.Selecting.of
RIGHT_CHANGED = withdrawal.changed
RIGHT_BEFORE = withdrawal.answers_before
RIGHT_LINE = shuffles.moved_line
RIGHT_QUESTION = shuffles.moved_question
RIGHT_REORDERED = shuffles.reordered


# ---------------------------------------------------------------------------- in the place of selection.select

def claiming(table, word):
    return [number for number, entry in enumerate(table.entries) if claims(ones(word), entry)]


def of_equals(table, word, which):
    """Where the word is ambiguous, one of the claiming entries that none of the others is more specific than."""
    answer = RIGHT_SELECT(table, word)
    if answer != AMBIGUOUS:
        return answer
    numbers = claiming(table, word)
    return [number for number in numbers
            if not any(more_specific(table.entries[other], table.entries[number]) for other in numbers)][which]


def first_of_equals(table, word):
    """Mistake: of equally specific entries the first is selected."""
    return of_equals(table, word, 0)


def last_of_equals(table, word):
    """Mistake: of equally specific entries the last is selected."""
    return of_equals(table, word, -1)


def first_claiming(table, word):
    """Mistake: the first entry that claims the word is selected."""
    return next(iter(claiming(table, word)), NOTHING)


def earlier_not_compared(table, word):
    """Mistake: an entry is selected that is more specific than those behind it."""
    numbers = claiming(table, word)
    for number in numbers:
        if all(more_specific(table.entries[number], table.entries[other]) for other in numbers if other > number):
            return number
    return NOTHING


# ---------------------------------------------------------------------------- in the place of tree.chosen_bit

def tie_by_first_entry(cell, opcodes, conditions):
    """Mistake: on a tie the bit is the highest in the mask of the first open entry that has one of them."""
    how_many = {bit: sum(bit in opcode.mask for opcode in opcodes) for opcode in opcodes for bit in opcode.mask - cell.fixed}
    if not how_many:
        return RIGHT_BIT(cell, opcodes, conditions)
    tied = {bit for bit in how_many if how_many[bit] == max(how_many.values())}
    return max(next(opcode.mask & tied for opcode in opcodes if opcode.mask & tied))


def first_mask_alone(cell, opcodes, conditions):
    """Mistake: the bit is the highest unfixed one in the first open entry's mask that has one."""
    return RIGHT_BIT(cell, [opcode for opcode in opcodes if opcode.mask - cell.fixed][:1], conditions)


def first_condition_alone(cell, opcodes, conditions):
    """Mistake: of the open conditions the patterns of the first are looked at."""
    return RIGHT_BIT(cell, opcodes, conditions[:1])


# ---------------------------------------------------------------------------- in the place of tree.refusal_by_leaves or tree.refusal_of

def is_number(outcome, number):
    return isinstance(outcome, Refusal) and outcome.number == number


def live_in(table, cell):
    return [number for number, entry in enumerate(table.entries) if entry_status(cell, entry)[0] != DEAD]


def conflicts_in(table, nodes):
    """(live entries, word) of each conflict leaf."""
    return [(live_in(table, node.cell), sum(1 << bit for bit in node.cell.ones)) for node in nodes if isinstance(node, Conflict)]


def word_of_lowest_entries(table, nodes):
    """Mistake: the word of 6 is that of the conflict leaf with the lowest entries."""
    refusal = RIGHT_BY_LEAVES(table, nodes)
    return Refusal(6, word=min(conflicts_in(table, nodes))[1]) if is_number(refusal, 6) else refusal


def lowest_entry_at_fault(table, nodes):
    """Mistake: 19 comes before 6 if its entry is lower than every ambiguous one."""
    refusal = RIGHT_BY_LEAVES(table, nodes)
    if not is_number(refusal, 6):
        return refusal
    ambiguous = {number for numbers, _ in conflicts_in(table, nodes) for number in numbers}
    unreached = [number for number in unnamed_entries(table, nodes) if number not in ambiguous]
    return Refusal(19, place=unreached[0]) if unreached and unreached[0] < min(ambiguous) else refusal


def room_up_to_last_entry(table, nodes, room):
    """Mistake: a tree fits if it does up to the last leaf that names the last entry."""
    indices = [at for at, node in enumerate(nodes or [], 1) if isinstance(node, Names) and node.entry == len(table.entries) - 1]
    if not indices or indices[-1] + 1 > room:
        return RIGHT_REFUSAL(table, nodes, room)
    return RIGHT_BY_LEAVES(table, nodes)


def two_entries_judged(table, nodes, room):
    """Mistake: from the third on every entry counts as reached."""
    return wrong_reach.with_unreached(table, nodes, room, lambda unreached: [one for one in unreached if one < 2])


# ---------------------------------------------------------------------------- in the place of tree.generate

def with_leaves(words, buffer, wrong):
    """The right tree, but what a leaf names is made of the table and the entry."""
    outcome, after = RIGHT_GENERATE(words, buffer)
    if isinstance(outcome, Refusal):
        return outcome, after
    table = read_once(tuple(words))
    made = [9 << 28 | wrong(table, word & 0xFF) if word >> 28 == 9 else word for word in after[:outcome]]
    return outcome, made + after[outcome:]


def first_of_same_opcode(words, buffer):
    """Mistake: a leaf names the first entry with the opcode pattern of its own."""
    return with_leaves(words, buffer, lambda table, entry: [one.opcode for one in table.entries].index(table.entries[entry].opcode))


def opcode_key(table, entry):
    opcode = table.entries[entry].opcode
    return sorted(opcode.mask), sorted(opcode.value), entry


def numbered_by_opcode(words, buffer):
    """Mistake: entries are numbered by their opcode patterns, not as they stand in the table."""
    return with_leaves(words, buffer, lambda table, entry: sorted(
        range(len(table.entries)), key=lambda one: opcode_key(table, one)).index(entry))


def numbered_from_end(words, buffer):
    """Mistake: entries are numbered from the last one on."""
    return with_leaves(words, buffer, lambda table, entry: len(table.entries) - 1 - entry)


def seven_bits(words, buffer):
    """Mistake: a leaf has seven bits for the entry."""
    return with_leaves(words, buffer, lambda table, entry: entry % 128)


def first_leaves_sorted(words, buffer):
    """Mistake: the first two leaves change places if they name entries in falling order."""
    outcome, after = RIGHT_GENERATE(words, buffer)
    leaves = [] if isinstance(outcome, Refusal) else [at for at in range(1, outcome) if after[at] >> 28 == 9][:2]
    if len(leaves) == 2 and after[leaves[0]] > after[leaves[1]]:
        after[leaves[0]], after[leaves[1]] = after[leaves[1]], after[leaves[0]]
    return outcome, after


# ---------------------------------------------------------------------------- in the place of other calls

def tests_to_last_entry(words):
    """Mistake: sizing looks at the paths to the last entry alone."""
    outcome, entries = RIGHT_MEASURE(words), words[0] >> 16 & 0xFFF
    if isinstance(outcome, Refusal) or entries == 0:
        return outcome
    return outcome[0], max(len(node.cell.fixed) for node in tree.nodes_once(tuple(words))
                           if isinstance(node, Names) and node.entry == entries - 1)


def fields_of_first(words, word, buffer):
    """Mistake: decoding takes the fields of the first entry, whichever is selected."""
    outcome, after = RIGHT_DECODE(words, word, buffer)
    if isinstance(outcome, Refusal) or outcome == NOTHING:
        return outcome, after
    values = [field_value(word, field) for field in read_once(tuple(words)).entries[0].fields]
    return outcome, values + list(buffer[len(values):])


def later_not_compared(words, entry, values):
    """Mistake: encoding gives no 13 where the word selects an entry behind the one asked for."""
    outcome = RIGHT_ENCODE(words, entry, values)
    if not is_number(outcome, 13):
        return outcome
    answer = RIGHT_SELECT(read_once(tuple(words)), outcome.word)
    return outcome.word if answer not in (NOTHING, AMBIGUOUS) and answer > entry else outcome


# ---------------------------------------------------------------------------- in the place of functions of checker

def first_sure(table, cell):
    """Mistake: a leaf must name the first entry that is sure in its cell, more specific than the others or not."""
    status = [entry_status(cell, entry)[0] for entry in table.entries]
    return status.index(SURE) if SURE in status else RIGHT_STEP(table, cell)


def leaves_rise(steps, placed):
    """Mistake: leaves that name entries in falling order are not accepted."""
    entries = [checker.named(node) for node, _ in placed if checker.kind(node) == checker.NAMES]
    return entries == sorted(entries) and RIGHT_NAMED(steps, placed)


def last_not_judged(steps, placed):
    """Mistake: every leaf that names the last entry counts as right."""
    last = len(steps.table.entries) - 1
    return RIGHT_NAMED(steps, [(node, cell) for node, cell in placed if checker.named(node) != last])


def first_dead_is_enough(steps, placed):
    """Mistake: nothing is right where the first entry is dead."""
    return all(entry_status(cell, steps.table.entries[0])[0] == DEAD for node, cell in placed if checker.kind(node) == checker.NOTHING)


# ---------------------------------------------------------------------------- in the place of functions of image and halves

def item_of_first_claiming(selecting, word):
    """Mistake: an item names the first entry that claims its word."""
    return first_claiming(selecting.table, word)


def item_of_same_label(selecting, word):
    """Mistake: an item names the first entry with the label of its own."""
    answer, labels = RIGHT_OF(selecting, word), [entry.label for entry in selecting.table.entries]
    return answer if answer == NOTHING else labels.index(labels[answer])


def length_of_first(selecting, entry):
    """Mistake: the next address is on by the length of the first entry."""
    return selecting.table.entries[0].length


def length_of_next(selecting, entry):
    """Mistake: the next address is on by the length of the entry behind the selected one."""
    return selecting.table.entries[(entry + 1) % len(selecting.table.entries)].length


def first_decides_last(table, upper):
    """Mistake: at the last halfword the first entry that claims it with some lower half decides."""
    some = [number for number, entry in enumerate(table.entries) if halves.claiming(upper, entry)]
    return wrong_halves.kind_of(table, {*some[:1]} or {NOTHING})


def first_without_mask(tree_words, image_halves, address):
    """Mistake: entry 0 is taken for a walk that is refused, and its items have no mask."""
    walked = walk.walk(tree_words, image.word_at(image_halves, address))
    return 0 if walked.names == 0 else walked.mask


# ---------------------------------------------------------------------------- in the place of functions of withdrawal

def one_before(words, entry, listed):
    """Mistake: the entry before the one asked for is withdrawn, if there is one."""
    return RIGHT_CHANGED(words, max(entry - 1, 0), listed)


def equals_taken(table, listed):
    """Mistake: a word of equally specific entries is no unfit word, and the first of them is what it selects."""
    before = RIGHT_BEFORE(table, listed)
    return [first_of_equals(table, word) for word in listed] if is_number(before, 6) else before


WRONG_PROGRAMS = (
    *((selection, "select", wrong) for wrong in (first_of_equals, last_of_equals, first_claiming, earlier_not_compared)),
    *((tree, "chosen_bit", wrong) for wrong in (tie_by_first_entry, first_mask_alone, first_condition_alone)),
    *((tree, "refusal_by_leaves", wrong) for wrong in (word_of_lowest_entries, lowest_entry_at_fault)),
    *((tree, "refusal_of", wrong) for wrong in (room_up_to_last_entry, two_entries_judged, wrong_reach.first_not_judged,
                                                wrong_reach.last_not_judged, wrong_reach.highest_for_lowest)),
    *((tree, "generate", wrong) for wrong in (first_of_same_opcode, numbered_by_opcode, numbered_from_end, seven_bits,
                                              first_leaves_sorted)),
    (measure, "measure", tests_to_last_entry),
    (selection, "decode", fields_of_first),
    (selection, "encode", later_not_compared),
    *((cost, "cycles", wrong) for wrong in (wrong_cycles.first_for_all, wrong_cycles.next_entry)),
    (checker, "first_step", first_sure),
    *((checker, "named_right", wrong) for wrong in (leaves_rise, last_not_judged)),
    (checker, "nothing_right", first_dead_is_enough),
    *((image.Selecting, "of", wrong) for wrong in (item_of_first_claiming, item_of_same_label)),
    *((image.Selecting, "length", wrong) for wrong in (length_of_first, length_of_next)),
    (halves, "kind_and_entry", first_decides_last),
    (image, "mask_at", first_without_mask),
    *((withdrawal, "changed", wrong) for wrong in (one_before, wrong_withdrawal.renumbering_counted, wrong_withdrawal.number_taken)),
    (withdrawal, "answers_before", equals_taken),
)


# ---------------------------------------------------------------------------- in the place of shuffles.moved_line

def wrong_way(line, to, lent=()):
    """Mistake: the order is taken the wrong way."""
    return RIGHT_LINE(line, from_of(to), lent)


def request_in(line):
    return line.split(" ", 1)[0]


def is_tree(line):
    return request_in(line) == shuffles.GENERATE and number_in(line) == "0"


def with_words(line, to, lent, wrong):
    """Another rule for what a tree word becomes."""
    return shuffles.with_written(line, wrong, lent) if is_tree(line) else RIGHT_LINE(line, to, lent)


def leaf_kept(line, to, lent=()):
    """Mistake: a leaf keeps its number."""
    return with_words(line, to, lent, lambda word: word)


def with_kind_moved(line, to, lent, kind):
    """The low byte of one more kind of tree words is moved as an entry is."""
    return with_words(line, to, lent, lambda word: word & ~0xFF | moved_entry(word & 0xFF, to) if word >> 28 in (9, kind) else word)


def header_moved(line, to, lent=()):
    """Mistake: word 0 is moved as a leaf is."""
    return with_kind_moved(line, to, lent, 7)


def tests_moved(line, to, lent=()):
    """Mistake: tests are moved as leaves are."""
    return with_kind_moved(line, to, lent, 8)


def nothings_moved(line, to, lent=()):
    """Mistake: nothings are moved as leaves are."""
    return with_kind_moved(line, to, lent, 10)


def other_buffer(line, to, lent=()):
    """Mistake: after the tree or the items come the words of the table's own buffer."""
    return RIGHT_LINE(line, to, [int(word, 16) for word in line.partition(" |")[2].split()])


def all_zero_after(line, to, lent=()):
    """Mistake: after the tree or the items come zeros."""
    return RIGHT_LINE(line, to, [0] * len(lent))


def refused_buffer_kept(line, to, lent=()):
    """Mistake: a refusal leaves the buffer as it was."""
    front, bar, _ = line.partition(" |")
    refused = request_in(line) == shuffles.GENERATE and number_in(line) != "0"
    return " ".join([shuffles.place_left_open(front) + bar, *(f"{word:08x}" for word in lent)]) if refused else RIGHT_LINE(line, to, lent)


def named_kept(line, to, lent=()):
    """Mistake: lookup and decode name the same number."""
    return line if request_in(line) in shuffles.NAMING else RIGHT_LINE(line, to, lent)


def word_of_6_left_out(line, to, lent=()):
    """Mistake: 6 without its word."""
    request, number, place, word, *rest = line.split(" ", 4)
    return " ".join([request, number, place, "00000000", *rest]) if number == "6" else RIGHT_LINE(line, to, lent)


def place_kept(line, to, lent=()):
    """Mistake: 19 has the same place."""
    return line if number_in(line) == "19" else RIGHT_LINE(line, to, lent)


def place_moved(line, to, lent=()):
    """Mistake: 19 has the moved entry as its place."""
    if number_in(line) != "19":
        return RIGHT_LINE(line, to, lent)
    return shuffles.with_place(line, str(to[int(place_in(line))]))


def with_changed_items(line, to, lent, wrong):
    """Another rule for what an item becomes."""
    has_items = request_in(line) in (shuffles.STEP, shuffles.LIST)
    return shuffles.with_items(line, wrong, lent) if has_items else RIGHT_LINE(line, to, lent)


def items_kept(line, to, lent=()):
    """Mistake: an item keeps its number."""
    return with_changed_items(line, to, lent, lambda item: item)


def nothing_items_moved(line, to, lent=()):
    """Mistake: items of kind 13 are moved as those of kind 12 are."""
    return with_changed_items(line, to, lent, lambda item: moved_item(item, to, (12, 13)))


def cut_items_moved(line, to, lent=()):
    """Mistake: items of kind 14 are moved as those of kind 12 are."""
    return with_changed_items(line, to, lent, lambda item: moved_item(item, to, (12, 14)))


def items_of_17_kept(line, to, lent=()):
    """Mistake: the items that 17 leaves keep their numbers."""
    return items_kept(line, to, lent) if number_in(line) == "17" else RIGHT_LINE(line, to, lent)


def refused_listing_cleared(line, to, lent=()):
    """Mistake: a refusal of list clears the buffer."""
    return RIGHT_LINE(line, to, lent if number_in(line) == "0" else [0] * len(lent))


WRONG_LINES = (
    (wrong_way, ("lookup", "decode", "generate", "step", "list")),
    *((wrong, ("generate",)) for wrong in (leaf_kept, header_moved, tests_moved, nothings_moved, refused_buffer_kept)),
    *((wrong, ("generate", "list")) for wrong in (other_buffer, all_zero_after)),
    (named_kept, ("lookup", "decode")),
    (word_of_6_left_out, ("lookup", "decode", "measure", "generate", "changed")),
    *((wrong, ("measure", "generate")) for wrong in (place_kept, place_moved)),
    *((wrong, ("step", "list")) for wrong in (items_kept, nothing_items_moved, cut_items_moved)),
    *((wrong, ("list",)) for wrong in (items_of_17_kept, refused_listing_cleared)),
)


# ---------------------------------------------------------------------------- in the place of shuffles.moved_question

def numbers_kept(question, words, to):
    """Mistake: the same number is asked about, or the leaves of the tree keep theirs."""
    return question[0], words, *question[2:]


def numbers_wrong_way(question, words, to):
    """Mistake: the entry asked about, or what the leaves name, is moved the wrong way."""
    return RIGHT_QUESTION(question, words, from_of(to))


WRONG_QUESTIONS = (numbers_kept, numbers_wrong_way)


# ---------------------------------------------------------------------------- in the place of shuffles.reordered

def laid_wrong_way(words, to):
    """Mistake: the table is reordered the wrong way."""
    return RIGHT_REORDERED(words, from_of(to))


def not_laid(words, to):
    """Mistake: the table is not reordered."""
    return list(words)


def cycles_left(words, to):
    """Mistake: the cycles stay where they were."""
    made = RIGHT_REORDERED(words, to)
    for head, cycles in zip(heads_in(made), cycles_of(words)):
        if kind_of(words) == WITH_CYCLES:
            made[head + 3] = cycles
    return made


WRONG_TABLES = (laid_wrong_way, not_laid, cycles_left)

"""Reorders the entries of tables (second/shuffles.py) and asks probe the same of each table and of its reorderings: lookup, decode, encode,
cycles, measure, and generate into equally long buffers with other words in them; then how many words of a list a withdrawal changes; check,
with the trees that probe made, and with mistakes in them; of tables for images list, again with other words in the buffers, and step. A tree
has its leaves renumbered for a reordered table. What probe must print for that follows from its line for the table and from the order alone.
The place of 19 is left open there; it must be the lowest entry of its own table that no word selects, by probe's own lookups of all words, or
by the second implementation where they are too many. A part of the lines is compared with the second implementation too, and so are all
checks of trees that are not renumbered; a part is asked again about twins of the other kind. At the end mistakes with the order
(second/wrong_shuffles.py) are made, in programs and in what is expected of them, and each must be noticed.

Usage: compare_shuffle.py [path of probe]. Exits with status 1 at the first difference. Quotations are document 02's No. 12.
"""

import random
import sys
from collections import Counter, defaultdict
from contextlib import contextmanager
from dataclasses import dataclass, field, replace

import compare_check
import compare_halves
import compare_image
import compare_withdrawal
import probe
import twinned
from compare_tree import random_buffer
from exhaustive import REMEMBERED, found_in
from second import examples, image, images, reach, shuffles, tables, tree, trees, wrong_shuffles
from second.lines import line_of
from second.reader import Table, read
from second.selection import field_value
from second.shuffles import from_of, number_in, place_in, written_in
from second.tables import PLAIN, WITH_CYCLES
from second.tree import MOST_TREE_WORDS
from second.twins import Twins, kind_of

SEED = 12
MORE_SEED = 1201        # checks, listings and withdrawals; the other draws don't depend on them
NARROW = 8              # tables up to that width are asked about all words
ORDERS = 3              # of each table that has so many
ROUNDS = 4              # of narrow tables
WIDE_ROUNDS = 2
USUAL_NODES = 400       # larger trees are made on purpose only, because Python is slow
LONG = 2000             # and longer tables are asked of probe alone
WITH_TREE = 0.7         # so many of the drawn plans lose the entries that no word selects
SOME_WORDS = 16         # looked up in a wide table
SOME_DECODED = 6
SOME_ENTRIES = 4        # encoded, and asked for their cycles
SOME_LISTS = 4          # of words, each with an entry to withdraw
SOME_MISTAKES = 6       # in a tree, of different kinds
IMAGE_TABLES = 60
OTHER_TABLES = 5        # that are not for images: of each way to be none
SOME_STEPS = 4          # in an image
LIMIT_DEPTH = 13        # a full tree so deep has 16,383 nodes
LARGE_OFTEN = 0.1       # so many of the refused tables are lent a buffer for the largest tree
SECOND_EACH = 12        # every so many-th line is the second implementation's too
SECOND_TABLES = 8       # and all trees of every so many-th table
SMALL = 5               # and of the tables up to that width, on which mistakes are tried
QUICK = 120             # checks, listings and withdrawals of more words are neither the second implementation's nor asked again about twins
TWINS_EACH = 15         # every so many-th line about reordered tables is asked again about their twins
MANY = "256 entries apart"
LARGE = (MANY, "256 entries", "longest", "at the limit", "at the limit, twice", "at the limit, excluded", "one test over", "far over")
IMAGES, NO_IMAGES, LETTERS = "for images", "not for images", "for images, 256 entries"
CALLS = ("lookup", "decode", "encode", "cycles", "measure", "generate", "changed", "check", "list", "step")
MAKING = ("measure", "generate")    # the calls that make the tree
LENDING = ("generate", "list")      # the calls that are lent other words for a reordered table
LISTING = ("list", "step")          # the calls with items
MADE = "made by probe"              # a tree


@dataclass(eq=False)
class Asked:
    """A good table and its reorderings."""
    name: str
    plan: tables.TablePlan      # None where the table is written by hand
    words: list
    nodes: int                  # of its tree, by the second implementation, which only chooses lengths; None if they are many, or not needed
    orders: list                # (name, to)
    reordered: list = None      # the words for each order
    size: str = None            # probe's line for the table
    lowest: list = None         # the lowest entry that no word selects, of the table and of each reordered one; None if not asked for

    def __post_init__(self):
        self.reordered = [shuffles.reordered(self.words, to) for _, to in self.orders]

    @property
    def width(self):
        return self.words[0] & 0xFF

    @property
    def count(self):
        return self.words[0] >> 16 & 0xFFF

    @property
    def is_narrow(self):
        return self.width <= NARROW


@dataclass
class Case:
    """A question about a table, the same about each of its reorderings, and probe's lines."""
    asked: Asked
    question: tuple
    again: list
    known: str = None       # the number of the refusal, where it is known; 0 for none
    what: str = None        # what is asked, in words to count
    line: str = None
    seen: list = field(default_factory=list)


def case_of(asked, name, *parts, known=None, what=None):
    question = (name, asked.words, *parts)
    again = [shuffles.moved_question(question, words, to) for (_, to), words in zip(asked.orders, asked.reordered)]
    return Case(asked, question, again, known, what)


def lending_case(rng, length, asked, *parts, known=None, what=None):
    """"equally long buffers", each with words of its own."""
    case = case_of(asked, *parts, random_buffer(rng, length), known=known, what=what)
    return replace(case, again=[(*others, random_buffer(rng, length)) for *others, _ in case.again])


# ---------------------------------------------------------------------------- tables

def twice_plan(rng, width):
    """Nested entries, and some of them twice."""
    plan = tables.nested_plan(rng, width, most_entries=5, conditions_often=0.2)
    again = [tables.twin_entry(rng, width, entry) for entry in rng.sample(plan.entries, rng.randint(1, len(plan.entries)))]
    return tables.TablePlan(width, [*plan.entries, *again])


DRAWN = {
    "nested": lambda rng, width: tables.nested_plan(rng, width, most_entries=8),
    "joined": lambda rng, width: tables.joined_plan(rng, width, most_entries=12) or tables.nested_plan(rng, width),
    "divided": tables.divided_plan,
    "overlapping": lambda rng, width: tables.overlapping_plan(rng, width, most_entries=6),
    "overlapping without conditions": lambda rng, width: tables.overlapping_plan(rng, width, conditions_often=0),
    "unrelated": lambda rng, width: tables.good_plan(rng, width, most_entries=6),
    "entries twice": twice_plan,
}


def nodes_in(words):
    return tree.nodes_of(read(words), USUAL_NODES)


def usual_plan(rng, draw, width):
    """A plan that is drawn so, with a tree of a usual size. The second implementation only sorts out plans and entries."""
    while True:
        plan = draw(rng, width)
        nodes = nodes_in(tables.lay_out(plan).words)
        if nodes is not None:
            return reach.reachable(plan, nodes) if rng.random() < WITH_TREE else plan


def covered_plans(rng, width):
    """One entry is selected by no word, or by a single one; then two entries are selected by none."""
    for how in tables.COVERS:
        yield how, tables.covered_plan(rng, width, how)[0]
        yield f"{how}, a word spared", tables.covered_plan(rng, width, how, spared=True)[0]
    yield "two that no word selects", tables.with_excluded(rng, tables.covered_plan(rng, width, rng.choice([*tables.COVERS]))[0])[0]


def plans_of(rng, width):
    for name, draw in DRAWN.items():
        yield name, usual_plan(rng, draw, width)
    yield from covered_plans(rng, width)


def one_entry_plan(rng, width):
    entry = tables.fresh_entry(rng, width)
    tables.add_conditions(rng, width, entry, 0.5)
    return tables.TablePlan(width, [entry])


def limit_plan(rng, width, **how):
    """A tree of 16,383 nodes, or what full_tree_plan makes more of it; three of its leaves are entries of their own."""
    plan = tables.full_tree_plan(rng, width, LIMIT_DEPTH, **how)
    own = tables.own_bits(width, LIMIT_DEPTH)
    for value in rng.sample(range(1 << LIMIT_DEPTH), 3):
        entry = tables.run_entry(rng, width, LIMIT_DEPTH, own, value << width - LIMIT_DEPTH)
        plan.entries.insert(rng.randint(0, len(plan.entries)), entry)
    return plan


def limit_plans(rng):
    for width in (LIMIT_DEPTH, 20, 32):
        yield "at the limit", limit_plan(rng, width)
    yield "at the limit, twice", limit_plan(rng, 20, twice=True)
    yield "at the limit, excluded", tables.with_excluded(rng, limit_plan(rng, 20))[0]
    for twice in (False, True):
        yield "one test over", limit_plan(rng, 20, one_more=True, twice=twice)
    yield "one test over", tables.with_excluded(rng, limit_plan(rng, 20, one_more=True))[0]
    yield "far over", tables.full_tree_plan(rng, 32, 32, twice=True)


def few_plans(rng):
    """What there is less of: no entries, one, 256 of them, trees at the limit."""
    for width in range(1, 33):
        yield "no entries", tables.TablePlan(width, [])
        yield "one entry", one_entry_plan(rng, width)
    for width in (NARROW, NARROW + 1, 17, 32):
        yield "256 entries", tables.small_entries_plan(rng, width, 256)
        yield MANY, compare_withdrawal.apart_plan(rng, width)
    yield from limit_plans(rng)


def laid_tables(rng):
    """(name, laid): half of the tables are of kind 6."""
    for width in range(1, 33):
        for _ in range(ROUNDS if width <= NARROW else WIDE_ROUNDS):
            for name, plan in plans_of(rng, width):
                yield name, rng.choice(tables.lay_out_both(rng, plan))
    for name, plan in few_plans(rng):
        yield name, rng.choice(tables.lay_out_both(rng, plan))
    yield from (("longest", tables.lay_longest(rng, kind)) for kind in (PLAIN, WITH_CYCLES))


def hand_written():
    """The tables of examples.py that read without fault."""
    lists = [value for value in vars(examples).values() if isinstance(value, list) and value and isinstance(value[0], int)]
    return [words for words in lists if isinstance(read(words), Table)]


def nodes_known(name, words):
    nodes = None if name in LARGE or len(words) > LONG else nodes_in(words)
    return None if nodes is None else len(nodes)


def asked_of(rng, name, plan, words):
    return Asked(name, plan, words, nodes_known(name, words), shuffles.some_orders(rng, words[0] >> 16 & 0xFFF, ORDERS))


def all_tables(rng):
    some = [asked_of(rng, name, laid.plan, laid.words) for name, laid in laid_tables(rng)]
    return some + [asked_of(rng, "by hand", None, words) for words in hand_written()]


def check_laid(asked):
    """The words of a reordered table are those of its plan, if it has one, with the entries in the other order."""
    for (_, to), words in zip(asked.orders, asked.reordered) if asked.plan is not None else ():
        entries = [asked.plan.entries[entry] for entry in from_of(to)]
        if tables.lay_out(tables.TablePlan(asked.plan.width, entries), kind_of(words)).words != words:
            sys.exit(f"the order {to} isn't what the words have: {probe.shown(asked.words)}; {probe.shown(words)}")


# ---------------------------------------------------------------------------- questions

def words_for(rng, asked):
    """All words of a narrow table, some of a wide one, which mostly some entry has an opinion on."""
    if asked.is_narrow:
        return range(1 << asked.width)
    plan = asked.plan or tables.TablePlan(asked.width, [])
    return [*dict.fromkeys(tables.word_for(rng, plan) for _ in range(SOME_WORDS))]


def high_words(rng, asked):
    """With a bit at or above the width: 7 stays 7."""
    return [rng.getrandbits(asked.width) | 1 << bit for bit in {asked.width, 31} if bit in range(asked.width, 32)]


def decode_cases(rng, asked, words):
    for word in [*rng.sample(words, min(SOME_DECODED, len(words))), *high_words(rng, asked)[:1]]:
        yield case_of(asked, "decode", word, random_buffer(rng, rng.choice([8, 9])))
    yield case_of(asked, "decode", rng.choice(words), random_buffer(rng, 7))


def some_entries(rng, asked):
    return sorted(rng.sample(range(asked.count), min(SOME_ENTRIES, asked.count)))


def encode_cases(rng, asked):
    """Values that fit, the last one too large, too many of them, no such entry."""
    entries = read(asked.words).entries
    for number in some_entries(rng, asked):
        values = [field_value(rng.getrandbits(asked.width), one) for one in entries[number].fields]
        yield case_of(asked, "encode", number, values)
        if values and entries[number].fields[-1].width < 32:
            yield case_of(asked, "encode", number, [*values[:-1], 1 << entries[number].fields[-1].width])
    yield case_of(asked, "encode", rng.randrange(asked.count + 1), [0] * 9)
    yield case_of(asked, "encode", rng.choice([asked.count, 256, tables.ALL_BITS]), [])


def cycles_cases(rng, asked):
    yield from (case_of(asked, "cycles", number) for number in some_entries(rng, asked))
    yield case_of(asked, "cycles", rng.choice([asked.count, 256, tables.ALL_BITS]))


def cases_on(rng, asked):
    words = words_for(rng, asked)
    yield from (case_of(asked, "lookup", word) for word in [*words, *high_words(rng, asked)])
    yield from decode_cases(rng, asked, words)
    yield from encode_cases(rng, asked)
    yield from cycles_cases(rng, asked)
    yield case_of(asked, "measure")


def generate_case(rng, asked, length, known=None):
    return lending_case(rng, length, asked, "generate", known=known)


def generate_cases(rng, asked):
    """With its nodes and one word more the tree fits, with the nodes alone it doesn't; if it is too large for any buffer, never."""
    number = number_in(asked.size)
    nodes = int(asked.size.split(" ")[4]) if number == "0" else asked.nodes
    if nodes is None:
        for length in (0, MOST_TREE_WORDS - 1, MOST_TREE_WORDS, MOST_TREE_WORDS + 3):
            yield generate_case(rng, asked, length, "5" if number == "5" or length == 0 else None)
        return
    for length in {0, rng.randint(0, nodes), nodes}:
        yield generate_case(rng, asked, length, "5")
    for length in (nodes + 1, nodes + 2 + rng.randrange(12)):
        yield generate_case(rng, asked, length, number)
    if number != "0" and rng.random() < LARGE_OFTEN:
        yield generate_case(rng, asked, MOST_TREE_WORDS, number)


# ---------------------------------------------------------------------------- withdrawals and checks, with what probe said before

def answers_in(cases):
    """What the words select in each table, by probe's own lookups; words that are too high are left out."""
    found = defaultdict(dict)
    for case in cases:
        if case.question[0] == "lookup" and number_in(case.line) != "7":
            found[case.asked][case.question[2]] = found_in(case.line)
    return found


def trees_in(cases):
    """The trees that probe made, but for those at the limit: Python takes long to renumber them."""
    made = [case for case in cases if case.question[0] == "generate" and number_in(case.line) == "0" and len(case.question[2]) < LONG]
    return {case.asked: written_in(case.line) for case in made}


def withdrawal_cases(rng, number, asked, answers):
    """Some of the entries and lists that compare_withdrawal.py draws for the so many-th table; of its entries it only needs their number."""
    laid, table = tables.Laid(asked.plan, asked.words, []), Table(asked.width, range(asked.count))
    drawn = compare_withdrawal.Asked(asked.name, laid, table, answers, high_words(rng, asked))
    cases = [*compare_withdrawal.cases_on(rng, number, drawn)]
    for one in rng.sample(cases, min(SOME_LISTS, len(cases))):
        yield case_of(asked, "changed", *one.question[2:], known=number_in(one.known), what=one.name)


def mistaken_trees(rng, asked, tree_words):
    """(what, tree): a few with one mistake, each of another kind, as compare_check.py makes them or with a node altered. They name only
    entries of the table; of others the order says nothing."""
    accepted = compare_check.Accepted(tables.TablePlan(asked.width, range(asked.count)), asked.words, tree_words)
    changes = [(what, changed) for what, _, changed in compare_check.trees_missing_one_part(rng, [accepted])]
    changes += [*trees.altered_nodes(rng, tree_words, rng.randrange(1, len(tree_words))), ("a word fewer", tree_words[:-1])]
    kinds = defaultdict(list)
    for what, changed in changes:
        if shuffles.names_only(changed, asked.count):
            kinds[what].append(changed)
    return [(what, rng.choice(kinds[what])) for what in rng.sample([*kinds], min(SOME_MISTAKES, len(kinds)))]


def check_cases(rng, asked, what, tree_words):
    """A tree that is accepted, and some with mistakes."""
    yield case_of(asked, "check", tree_words, known="0", what=what)
    if len(tree_words) - 1 <= compare_check.MIDDLE_NODES:
        yield from (case_of(asked, "check", changed, what=mistake) for mistake, changed in mistaken_trees(rng, asked, tree_words))


# ---------------------------------------------------------------------------- images

def image_tables(path, rng):
    """(name, table with a tree that is accepted): for images and not for images; then one for images with 256 entries, and probe's tree."""
    yield from ((IMAGES, one) for one in compare_image.ready_tables(rng, compare_halves.some_plan, IMAGE_TABLES))
    for make in (images.wrong_length_plan, compare_image.other_width_plan):
        yield from ((NO_IMAGES, one) for one in compare_image.ready_tables(rng, make, OTHER_TABLES))
    letters = tables.lay_out(images.letters_plan())
    (line,) = probe.ask(path, [("generate", letters.words, [0] * MOST_TREE_WORDS)])
    yield LETTERS, compare_image.Ready(letters.plan, letters.words, written_in(line))


def asked_with_images(rng, name, plan):
    """Half of the tables are of kind 6; the tree is the same."""
    laid = rng.choice(tables.lay_out_both(rng, plan))
    return Asked(name, laid.plan, laid.words, None, shuffles.some_orders(rng, len(plan.entries), ORDERS))


def listing_cases(rng, asked, what, tree_words, data):
    """A buffer that takes all items, one that may be too short, steps at some addresses, and one at the end or past it."""
    halves, addresses = len(data) // 2, sorted(compare_image.addresses(rng, data))
    inside = [address for address in addresses if address < halves]
    for length in (halves + rng.randrange(4), rng.randint(0, halves)):
        yield lending_case(rng, length, asked, "list", tree_words, data, what=what)
    for address in [*rng.sample(inside, min(SOME_STEPS, len(inside))), rng.choice(addresses[len(inside):])]:
        yield case_of(asked, "step", tree_words, data, address, what=what)


def image_cases(rng, asked, ready):
    for what, _, tree_words, data in compare_image.usual_images(rng, [ready]):
        if shuffles.names_only(tree_words, asked.count):
            yield from listing_cases(rng, asked, what, tree_words, data)


# ---------------------------------------------------------------------------- comparing

def answer(path, cases):
    lines = iter(probe.ask(path, [question for case in cases for question in (case.question, *case.again)]))
    for case in cases:
        case.line, *case.seen = [next(lines) for _ in (case.question, *case.again)]


def lent_in(question):
    return question[-1] if question[0] in LENDING else ()


def compared_orders(case, moved_line=shuffles.moved_line):
    """(what, question, expected, seen): the lines for the reordered tables, by the table's. The place of 19 is the lowest entry of its own
    table that no word selects."""
    for (_, to), question, seen in zip(case.asked.orders, case.again, case.seen, strict=True):
        expected = moved_line(case.line, to, lent_in(question))
        yield "reordered", question, expected, shuffles.opened_like(expected, seen)
    lines = [case.line, *case.seen]
    for question, line, lowest in zip((case.question, *case.again), lines, case.asked.lowest or [None] * len(lines), strict=True):
        if number_in(line) == "19":
            yield "the place of 19", question, str(lowest), place_in(line)


def compared_itself(case):
    """(what, question, expected, seen): the words after the table's own tree, or its items, are its own buffer's, where it has one; the
    number, where it is known."""
    expected = shuffles.moved_line(case.line, [*range(case.asked.count)], lent_in(case.question))
    yield "not reordered", case.question, expected, shuffles.opened_like(expected, case.line)
    if case.known is not None:
        yield "as it is known", case.question, case.known, number_in(case.line)


def differs(case, moved_line=shuffles.moved_line):
    return any(expected != seen for _, _, expected, seen in compared_orders(case, moved_line))


def compare(cases, tally):
    for case in cases:
        for what, question, expected, seen in (*compared_orders(case), *compared_itself(case)):
            probe.stop_at_difference(f"{case.asked.name}, {what}", question, expected, seen)
        count(case, tally)


# ---------------------------------------------------------------------------- entries that no word selects

def selected_in(cases):
    """What probe's own lookups find in the table of these cases, and in each reordered one; words that are too high are left out."""
    lines = [(case.line, *case.seen) for case in cases if case.question[0] == "lookup" and number_in(case.line) != "7"]
    return [{found_in(line) for line in of_table} for of_table in zip(*lines)]


def unreached_by_second(words):
    return tree.unnamed_entries(read(words), tree.nodes_of(read(words)))


def set_lowest(asked, cases, tally):
    """Of a table that sizing refuses with 19."""
    if asked.is_narrow:
        unreached = [reach.unreached_in(asked.count, selected) for selected in selected_in(cases)]
    else:
        unreached = [unreached_by_second(words) for words in (asked.words, *asked.reordered)]
    asked.lowest = [next(iter(numbers), None) for numbers in unreached]
    tally[f"19 by {'lookups' if asked.is_narrow else 'the second'}"] += 1
    tally["19, several"] += len(unreached[0]) > 1


# ---------------------------------------------------------------------------- counting

def count_places(to, line, seen, tally):
    """"For 19 the two tables are refused alike, though the lowest entry may differ.\""""
    before, after = int(place_in(line)), int(place_in(seen))
    tally["19, another place"] += before != after
    tally["19, the same place"] += before == after
    tally["19, the moved entry"] += after == to[before]
    tally["19, another entry"] += after != to[before]


def count_tree(to, made, lent, tally):
    leaves = [word & 0xFF for word in made if word >> 28 == 9]
    tally["leaves"] += len(leaves)
    tally["leaves with another number"] += sum(to[entry] != entry for entry in leaves)
    tally["trees with a moved leaf"] += any(to[entry] != entry for entry in leaves)
    tally["tests"] += sum(word >> 28 == 8 for word in made)
    tally["nothings"] += sum(word >> 28 == 10 for word in made)
    tally["words after a tree"] += len(lent) - len(made)


def items_with_next(case):
    """(item, the address after it) of a step, or of each item that listing left; with 17 the place is the address after the last one."""
    name, _, _, data, _ = case.question
    front = case.line.partition(" |")[0].split(" ")
    if name == "step":
        return [(int(front[4], 16), int(front[5]))] if len(front) > 5 else []
    items, end = written_in(case.line), int(front[2]) if front[1] == "17" else len(data) // 2
    return [*zip(items, [*(item & 0xFFFFF for item in items[1:]), end])]


def count_items(name, to, items, tally):
    """Each by its kind, and by how far on the next one is: so a short entry is told from a long one."""
    for item, following in items:
        tally[f"{name}, kind {item >> 28}, {following - (item & 0xFFFFF)} on"] += 1
        tally[f"{name}, items with another number"] += shuffles.moved_item(item, to) != item


def count(case, tally):
    """Each reordering by itself."""
    name, number = case.question[0], number_in(case.line)
    for (_, to), again, seen in zip(case.asked.orders, case.again, case.seen):
        tally["lines"] += 1
        tally[name] += 1
        tally[f"{name} {number}"] += 1
        tally[f"{case.asked.name}: {name} {number}"] += 1
        tally[f"kind {kind_of(case.asked.words)}: {name} {number}"] += 1
        tally[f"{name} {number}, not word 0"] += case.line.split(" ")[3] != "00000000"
        tally[f"{name}, another number in it"] += case.line != seen
        tally[f"{name}, another entry asked"] += name in shuffles.TAKING and case.question[2] != again[2]
        if case.what is not None:
            tally[f"{name}, {case.what}: {number}"] += 1
        tally[f"{name}, end"] += case.line.endswith(" end")
        if name == "generate" and number == "0":
            count_tree(to, written_in(case.line), lent_in(again), tally)
        if name == "list":
            tally[f"list {number}, words as lent"] += len(lent_in(again)) - len(written_in(case.line))
        if name in LISTING:
            count_items(name, to, items_with_next(case), tally)
        if name == "changed" and number == "0":
            tally["changed, over 0"] += not case.line.endswith(" 0")
        if name == "measure" and number == "19" and to != sorted(to):
            count_places(to, case.line, seen, tally)


def count_orders(asked, tally):
    tally["tables"] += 1
    tally["tables in three orders"] += len(asked.orders) == ORDERS
    tally[asked.name] += 1
    tally[f"width {asked.width}"] += 1
    tally[f"kind {kind_of(asked.words)}"] += 1
    for (name, to), words in zip(asked.orders, asked.reordered):
        tally[f"order {name}"] += 1
        tally["orders that move an entry"] += to != sorted(to)
        tally["orders that change the words"] += words != asked.words
        tally["orders that are not their own inverse"] += from_of(to) != to


# ---------------------------------------------------------------------------- the second implementation, and twins

def compare_second(case, tally):
    for question, line in zip((case.question, *case.again), (case.line, *case.seen)):
        probe.stop_at_difference(f"{case.asked.name}, by the second", question, line_of(question), line)
        tally["by the second"] += 1
        tally[f"by the second: {question[0]}"] += 1


def second_cases(some, cases):
    """Lines of every kind, all trees of some tables, and one with 256 entries."""
    chosen = {id(asked) for number, asked in enumerate(some)
              if asked.nodes is not None and (asked.width <= SMALL or number % SECOND_TABLES == 0)}
    others = [case for case in cases if case.question[0] not in MAKING and len(case.asked.words) <= LONG]
    trees = [case for case in cases if case.question[0] in MAKING and id(case.asked) in chosen]
    many = [case for case in cases if case.asked.name == MANY and case.question[0] == "generate" and number_in(case.line) == "0"]
    return others[::SECOND_EACH] + trees + many[:1]


def is_quick(case):
    """Whether the second implementation doesn't take long."""
    return sum(len(part) for part in case.question[1:] if isinstance(part, list)) <= QUICK


def more_second_cases(quick):
    """Lines of every kind; of small tables all checks, and all lists with an ambiguous word."""
    return [case for number, case in enumerate(quick) if number % SECOND_EACH == 0
            or case.asked.width <= SMALL and (case.question[0] == "check" or number_in(case.line) == "6")]


def compare_not_renumbered(path, cases, tally):
    """The reordered tables with the table's own tree. Of that the order says nothing; the second implementation does."""
    questions = [("check", words, case.question[2]) for case in cases if case.what == MADE for words in case.asked.reordered]
    for question, seen in zip(questions, probe.ask(path, questions), strict=True):
        probe.stop_at_difference("not renumbered", question, line_of(question), seen)
        tally[f"not renumbered: {number_in(seen)}"] += 1


def compare_twins(path, cases, tally):
    """A reordered table of the other kind."""
    answered = [(case.asked.name, question, line) for case in cases[::TWINS_EACH] for question, line in zip(case.again, case.seen)]
    twinned.compare(path, Twins(SEED), answered, tally)


def check_examples(path):
    for words, to, reordered in examples.REORDERED:
        if shuffles.reordered(words, to) != reordered:
            sys.exit(f"the order {to} gives another table than by hand: {probe.shown(words)}")
    questions = [question for _, question, _ in examples.SHUFFLE_EXAMPLES]
    for (name, question, expected), seen in zip(examples.SHUFFLE_EXAMPLES, probe.ask(path, questions), strict=True):
        probe.stop_at_difference(name, question, expected, seen)


# ---------------------------------------------------------------------------- what must be noticed

def forget():
    for remembering in (*REMEMBERED, image.selecting_once):
        remembering.cache_clear()


@contextmanager
def mistake_in(module, name, wrong):
    """The second implementation with another function. What it remembers is forgotten before and after."""
    right = getattr(module, name)
    setattr(module, name, wrong)
    forget()
    try:
        yield
    finally:
        setattr(module, name, right)
        forget()


def by_second(case):
    """The case with the second implementation's lines."""
    return replace(case, line=line_of(case.question), seen=[line_of(question) for question in case.again])


def asked_so(case, wrong):
    """The case with other questions about the reordered tables."""
    again = [wrong(case.question, question[1], to) for (_, to), question in zip(case.asked.orders, case.again)]
    return by_second(replace(case, again=again))


def reordered_so(case, wrong):
    """The case with other tables for the reordered ones."""
    again = [(question[0], wrong(case.question[1], to), *question[2:]) for (_, to), question in zip(case.asked.orders, case.again)]
    return by_second(replace(case, again=again))


def require_noticed(wrong, noticed, what="table"):
    if not noticed:
        sys.exit(f"no {what} shows it: {wrong.__doc__}")


# The calls whose lines show a mistake in a function of the second implementation.
SHOWN_BY = {"select": ("lookup",), "chosen_bit": MAKING, "refusal_by_leaves": MAKING, "refusal_of": MAKING,
            **{name: (name,) for name in ("generate", "measure", "decode", "encode", "cycles", "changed")},
            **{name: ("check",) for name in ("first_step", "named_right", "nothing_right")},
            **{name: LISTING for name in ("of", "length", "kind_and_entry")}, "mask_at": ("step",), "answers_before": ("changed",)}


def notice_wrong(cases):
    """Among lines that are right, and the second implementation's too."""
    some = [case for case in cases if case.asked.count > 1 and (case.asked.width <= SMALL or case.asked.name in (MANY, IMAGES))]
    of_call = {call: [case for case in some if case.question[0] == call] for call in CALLS}
    for module, name, wrong in wrong_shuffles.WRONG_PROGRAMS:
        with mistake_in(module, name, wrong):
            require_noticed(wrong, any(differs(by_second(case)) for call in SHOWN_BY[name] for case in of_call[call]))
    for wrong, calls in wrong_shuffles.WRONG_LINES:
        for call in calls:
            require_noticed(wrong, any(differs(case, wrong) for case in of_call[call]), call)
    for wrong in wrong_shuffles.WRONG_QUESTIONS:
        for call in (*shuffles.TAKING, *shuffles.CHECKING):
            require_noticed(wrong, any(differs(asked_so(case, wrong)) for case in of_call[call]), call)
    for wrong in wrong_shuffles.WRONG_TABLES:
        require_noticed(wrong, any(differs(reordered_so(case, wrong)) for case in some))


WRONG_EXPECTATIONS = wrong_shuffles.WRONG_LINES, wrong_shuffles.WRONG_QUESTIONS, wrong_shuffles.WRONG_TABLES

LEAST = {
    "tables": 1100, "tables in three orders": 500, "orders that move an entry": 1900, "orders that change the words": 1900,
    "orders that are not their own inverse": 780,
    "order backwards": 410, "order first and last exchanged": 420, "order rotated": 450, "order drawn": 590, "order the only one": 260,
    "kind 1": 550, "kind 6": 530, **{f"width {width}": 58 if width <= NARROW else 30 for width in range(1, 33)},
    "lookup 0": 71000, "lookup 6": 6500, "lookup 7": 4200, "decode 0": 11000, "decode 6": 1400, "decode 7": 2100, "decode 10": 2100,
    "encode 0": 3700, "encode 11": 4300, "encode 12": 5700, "encode 13": 3000, "cycles 0": 6800, "cycles 11": 2100,
    "measure 0": 970, "measure 5": 10, "measure 6": 540, "measure 19": 630,
    "generate 0": 1900, "generate 5": 6000, "generate 6": 1100, "generate 19": 1300,
    **{f"kind {kind}: generate {number}": least for kind in (PLAIN, WITH_CYCLES)
       for number, least in ((0, 900), (5, 3000), (6, 550), (19, 640))},
    "generate 6, not word 0": 730, "measure 6, not word 0": 340, "lookup 6, not word 0": 6400, "decode 6, not word 0": 1300,
    "lookup, another number in it": 32000, "decode, another number in it": 5800, "measure, another number in it": 400,
    "encode, another entry asked": 11000, "cycles, another entry asked": 5300,
    "leaves": 150000, "leaves with another number": 120000, "trees with a moved leaf": 1500, "tests": 180000, "nothings": 31000,
    "words after a tree": 6400,
    "19, another place": 400, "19, the same place": 150, "19, the moved entry": 410, "19, another entry": 140, "19, several": 87,
    "19 by lookups": 130, "19 by the second": 190,
    "nested: generate 0": 290, "joined: generate 0": 260, "divided: generate 0": 240, "divided: generate 19": 71,
    "overlapping: generate 0": 55, "overlapping: generate 6": 200, "overlapping without conditions: generate 6": 300,
    "unrelated: generate 0": 96, "unrelated: generate 6": 130, "entries twice: generate 6": 370,
    "two that no word selects: generate 19": 310,
    **{f"{how}: generate 19": 140 for how in tables.COVERS}, **{f"{how}, a word spared: generate 0": 140 for how in tables.COVERS},
    "no entries: generate 0": 64, "one entry: generate 0": 44, "256 entries: generate 6": 36, f"{MANY}: generate 0": 24,
    "longest: generate 0": 12, "at the limit: generate 0": 18, "at the limit: generate 5": 27, "at the limit, twice: generate 5": 6,
    "at the limit, twice: generate 6": 6, "at the limit, excluded: generate 5": 6, "at the limit, excluded: generate 19": 6,
    "one test over: generate 5": 36, "far over: generate 5": 4, "by hand: generate 0": 70, "by hand: generate 6": 40,
    "by hand: generate 19": 60,
    "by the second: lookup": 10000, "by the second: decode": 2000, "by the second: encode": 1900, "by the second: cycles": 1000,
    "by the second: measure": 1100, "by the second: generate": 5300,
    "changed 0": 4800, "changed 6": 430, "changed 7": 1300, "changed 11": 2000, "changed 6, not word 0": 400, "changed, over 0": 2900,
    "changed, another entry asked": 5000, "changed, in order: 0": 1900, "changed, shuffled, with duplicates: 0": 1800,
    "changed, no words: 0": 610, "changed, a single word: 0": 360, "changed, a single word: 6": 28,
    **{f"changed, no such entry, {what}: 11": 630 for what in ("no words", "fit words", "an unfit word")},
    **{f"changed, {numbers}, the first at the {place}: {numbers[0]}": least for place in compare_withdrawal.PLACES
       for numbers, least in (("6", 36), ("6 and 6", 28), ("6 and 7", 17), ("6 and 6 and 7", 26),
                              ("7", 180), ("7 and 6", 33), ("7 and 7", 170), ("7 and 6 and 7", 27))},
    "check 0": 1100, "check 14": 4000, f"check, {MADE}: 0": 1000, "check, given: 0": 150, "check, leaf changed: 14": 260,
    "check, sides swapped: 14": 180, "check, tested again: 14": 260, "check, collapsed: 14": 290, "check, one side moved: 14": 230,
    "check, index moved: 14": 78, "check, index above: 14": 95, "check, index below: 14": 95, "check, tested bit: 14": 88,
    "check, kind: 14": 340, "check, spare bit: 14": 350, "check, word: 14": 360, "check, another width: 14": 290,
    "check, a shared side: 14": 140, "check, a gap: 14": 220, "check, unused nodes: 14": 190, "check, a word fewer: 14": 350,
    "not renumbered: 0": 60, "not renumbered: 14": 220,
    "list 0": 1300, "list 14": 230, "list 15": 440, "list 16": 250, "list 17": 430, f"{LETTERS}: list 0": 28,
    **{f"list {number}, words as lent": least for number, least in ((0, 3100), (14, 1500), (15, 1900), (16, 1400))},
    "list, kind 12, 1 on": 2700, "list, kind 12, 2 on": 2600, "list, kind 13, 1 on": 1200, "list, kind 14, 1 on": 410,
    "list, items with another number": 4000, "kind 1: list 0": 720, "kind 6: list 0": 620, "kind 1: list 17": 210, "kind 6: list 17": 210,
    "step 0": 3000, "step 14": 440, "step 15": 690, "step 16": 460, f"{LETTERS}: step 0": 70, "step, end": 880,
    "step, kind 12, 1 on": 640, "step, kind 12, 2 on": 470, "step, kind 13, 1 on": 530, "step, kind 14, 1 on": 300,
    "step, items with another number": 900, "kind 1: step 0": 1500, "kind 6: step 0": 1400,
    "by the second: changed": 1090, "by the second: check": 3000, "by the second: list": 200, "by the second: step": 380,
    "twins": 9600, "twins by the second": 480,
}


def ask_all(path, rng, some, tally):
    """All cases with probe's lines. The lookups tell what no word selects, and the size of a tree what buffers it is asked with."""
    of_table = [list(cases_on(rng, asked)) for asked in some]
    cases = [case for its_cases in of_table for case in its_cases]
    answer(path, cases)
    for asked, its_cases in zip(some, of_table):
        asked.size = its_cases[-1].line
        if number_in(asked.size) == "19":
            set_lowest(asked, its_cases, tally)
    generating = [case for asked in some for case in generate_cases(rng, asked)]
    answer(path, generating)
    return cases + generating


def ask_more(path, rng, cases):
    """Cases that take what probe said in these, and those with images, all with probe's lines."""
    more = []
    for number, (asked, answers) in enumerate(answers_in(cases).items()):
        more += withdrawal_cases(rng, number, asked, answers)
    for asked, tree_words in trees_in(cases).items():
        more += check_cases(rng, asked, MADE, tree_words)
    for name, ready in image_tables(path, rng):
        asked = asked_with_images(rng, name, ready.plan)
        check_laid(asked)
        more += check_cases(rng, asked, "given", ready.tree[:1 + (ready.tree[0] & 0xFFFF)])
        more += image_cases(rng, asked, ready)
    answer(path, more)
    return more


def outcomes(tally, call, good, *numbers):
    """How often each number came; 0 is called what it means."""
    return f"{call} {good}: {tally[f'{call} 0']}, " + ", ".join(f"{number}: {tally[f'{call} {number}']}" for number in numbers)


def items_said(tally, call):
    kinds = {"short": "12, 1", "long": "12, 2", "nothing": "13, 1", "cut": "14, 1"}
    return f"{call} " + ", ".join(f"{name}: {tally[f'{call}, kind {kind} on']}" for name, kind in kinds.items()) \
        + f", with another number: {tally[f'{call}, items with another number']}"


def summary(tally):
    calls = ", ".join(f"{name}: {tally[name]}" for name in CALLS)
    places = tally["19, the same place"] + tally["19, another place"]
    programs, expectations = len(wrong_shuffles.WRONG_PROGRAMS), sum(map(len, WRONG_EXPECTATIONS))
    return (f"compare_shuffle good: {tally['tables']} tables, {tally['tables in three orders']} of them in three other orders each, "
            f"{tally['orders that move an entry']} orders in all; {tally['lines']} lines ({calls}); "
            f"{outcomes(tally, 'generate', 'tree', 5, 6, 19)}; "
            f"{tally['leaves']} leaves, {tally['leaves with another number']} of them with another number, {tally['tests']} tests, "
            f"{tally['nothings']} nothings; of {places} such orders with 19 {tally['19, another place']} have another place, "
            f"{tally['19, another entry']} another entry than the moved one; {outcomes(tally, 'changed', 'counts', 11, 7, 6)}; "
            f"{outcomes(tally, 'check', 'yes', 14)}, {outcomes(tally, 'not renumbered:', 'yes', 14)}; {IMAGE_TABLES} tables for images, "
            f"{outcomes(tally, 'list', 'whole', 15, 16, 14, 17)}; items of {items_said(tally, 'list')}; of {items_said(tally, 'step')}; "
            f"by the second: {tally['by the second']}, to twins: {tally['twins']}; {len(examples.SHUFFLE_EXAMPLES)} examples by hand; "
            f"{programs} wrong programs and {expectations} wrong expectations noticed")


def main():
    path = probe.path_from_arguments()
    rng, tally = random.Random(SEED), Counter()
    check_examples(path)
    some = all_tables(rng)
    for asked in some:
        check_laid(asked)
        count_orders(asked, tally)
    cases = ask_all(path, rng, some, tally)
    more = ask_more(path, random.Random(MORE_SEED), cases)
    compare(cases + more, tally)
    quick = [case for case in more if is_quick(case)]
    by_second_too = second_cases(some, cases) + more_second_cases(quick)
    for case in by_second_too:
        compare_second(case, tally)
    compare_not_renumbered(path, by_second_too, tally)
    compare_twins(path, cases + quick, tally)
    probe.require_enough(tally, LEAST)
    notice_wrong(by_second_too)
    print(summary(tally))


if __name__ == "__main__":
    main()

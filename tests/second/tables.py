"""Tables for the tests: good ones, damaged ones and random words.

Everything is drawn from the random.Random that is handed in, so the same seed gives the same tables.
A table is planned first (TablePlan) and then laid out as words, of kind 1 or of kind 6; the places of its parts stay known, so
that a damage can say by itself which number and place it must give. Nothing here uses the second reader.
"""

from dataclasses import dataclass, field, replace
from functools import partial

MOST_WORDS = 16384
MOST_CYCLES = 65535
ALL_BITS = 0xFFFFFFFF
PLAIN, WITH_CYCLES = 1, 6       # the kinds of a first word
NO_FORM, SIGNED, FIXED = 0, 1, 2    # the forms of a field
FORMS = (NO_FORM, SIGNED, FIXED)
MOST_FRACTION = 16


@dataclass
class EntryPlan:
    label: int
    length: int
    mask: int
    value: int
    fields: list                                    # (lowest bit, width) in table order
    conditions: list = field(default_factory=list)  # (pattern, [pattern, ...]), a pattern is (mask, value)
    cycles: int = 0                                 # laid out in a table of kind 6 only
    forms: list = field(default_factory=list)       # (form, fraction bits) of each field; empty: all are plain


@dataclass
class TablePlan:
    width: int
    entries: list


def where(number, count):
    """Which of so many entries: the only one, the first, the last, or one in the middle."""
    return "only" if count == 1 else "first" if number == 0 else "last" if number == count - 1 else "middle"


# ---------------------------------------------------------------------------- good tables

def span(lowest, size):
    """A word with `size` bits set, from `lowest` up."""
    return ((1 << size) - 1) << lowest


def own_bits(width, length):
    return span(width - length, length)


def free_runs(width, length, mask):
    """The own bits outside the mask as runs (lowest bit, size)."""
    runs = []
    for bit in range(width - length, width):
        if mask >> bit & 1:
            continue
        if runs and sum(runs[-1]) == bit:
            runs[-1] = (runs[-1][0], runs[-1][1] + 1)
        else:
            runs.append((bit, 1))
    return runs


def split_run(rng, lowest, size):
    """The run as it is, or cut in pieces: neighbouring fields must be tried too."""
    if size == 1 or rng.random() < 0.6:
        return [(lowest, size)]
    left = rng.randint(1, size - 1)
    return split_run(rng, lowest, left) + split_run(rng, lowest + left, size - left)


def entry_on_mask(rng, width, length, mask, value):
    """An entry with this opcode; the free own bits become fields, in any order. What eight can't hold joins the mask."""
    pieces = []
    for lowest, size in free_runs(width, length, mask):
        pieces += split_run(rng, lowest, size)
    rng.shuffle(pieces)
    for lowest, size in pieces[8:]:
        mask |= span(lowest, size)
        value |= rng.getrandbits(32) & span(lowest, size)
    return EntryPlan(rng.randrange(4096), length, mask, value, pieces[:8])


def some_bits(rng, allowed, most):
    """A mask of at most `most` of the allowed bits (it may be empty)."""
    places = [bit for bit in range(32) if allowed >> bit & 1]
    chosen = rng.sample(places, rng.randint(0, min(most, len(places))))
    return sum(1 << bit for bit in chosen)


def random_length(rng, width):
    return width if rng.random() < 0.5 else rng.randint(1, width)


def fresh_entry(rng, width):
    length = random_length(rng, width)
    own = own_bits(width, length)
    style = rng.random()
    if style < 0.08:
        mask = 0
    elif style < 0.16:
        mask = own
    elif style < 0.6:
        mask = some_bits(rng, own, 5)
    else:
        mask = rng.getrandbits(32) & own
    return entry_on_mask(rng, width, length, mask, rng.getrandbits(32) & mask)


def condition_pattern(rng, own, entry):
    """A pattern in the own bits that mostly agrees with the opcode, so that words of the entry often match it."""
    mask = some_bits(rng, own, rng.choice([1, 2, 3, 32]))
    value = rng.getrandbits(32) & mask
    if rng.random() < 0.8:
        value = (value & ~entry.mask) | (entry.value & mask)
    return mask, value


def add_conditions(rng, width, entry, often):
    if rng.random() >= often:
        return
    own = own_bits(width, entry.length)
    for _ in range(rng.choice([1, 1, 1, 2, 2, 3, 8])):
        matching = condition_pattern(rng, own, entry)
        count = rng.choice([0, 0, 1, 1, 2, 3, 8])
        entry.conditions.append((matching, [condition_pattern(rng, own, entry) for _ in range(count)]))


def good_plan(rng, width, most_entries=12, conditions_often=0.4):
    """A good table of this width with unrelated entries."""
    entries = []
    for _ in range(rng.randint(0, most_entries)):
        entries.append(fresh_entry(rng, width))
        add_conditions(rng, width, entries[-1], conditions_often)
    return with_forms(rng, TablePlan(width, entries))


def small_entries_plan(rng, width, count):
    """Many entries of three or four words."""
    entries = []
    for _ in range(count):
        length = random_length(rng, width)
        own = own_bits(width, length)
        lowest = width - length
        free = rng.randint(0, length)
        mask = own & ~span(lowest, free)
        fields = [(lowest, free)] if free else []
        entries.append(EntryPlan(rng.randrange(4096), length, mask, rng.getrandbits(32) & mask, fields))
    return with_forms(rng, TablePlan(width, entries))


def full_entry(rng, width):
    """The longest entry there is, 227 words: 8 fields, 8 conditions, 8 unmatching patterns in each."""
    fields = [(bit, 1) for bit in range(width - 8, width)]
    rng.shuffle(fields)
    mask = span(0, width - 8)
    entry = EntryPlan(rng.randrange(4096), width, mask, rng.getrandbits(32) & mask, fields)
    own = own_bits(width, width)
    for _ in range(8):
        unmatching = [condition_pattern(rng, own, entry) for _ in range(8)]
        entry.conditions.append((condition_pattern(rng, own, entry), unmatching))
    return entry_with_forms(rng, entry)


def longest_plan(rng, kind=PLAIN):
    """A good table of exactly 16,384 words: 1 + 72 x 227 + 13 x 3, or of kind 6: 1 + 71 x 228 + 45 x 4 + 3 x 5."""
    smallest = 3 if kind == PLAIN else 4
    full, left = divmod(MOST_WORDS - 1, 224 + smallest)
    entries = [full_entry(rng, 32) for _ in range(full)]
    for number in range(left // smallest):
        # A word that is left over is a field.
        free = 1 if number < left % smallest else 0
        entries.append(EntryPlan(rng.randrange(4096), 32, ALL_BITS - free, rng.getrandbits(32) & ~free, [(0, 1)] * free))
    rng.shuffle(entries)
    return with_forms(rng, TablePlan(32, entries))


def some_cycles(rng):
    """Often the least or the most; some that would pass as a field of a narrow table."""
    return rng.choice([0, 1, MOST_CYCLES, rng.getrandbits(8), rng.getrandbits(16), rng.randrange(8) << 8 | rng.randint(1, 4)])


def with_cycles(rng, plan):
    """The same plan with cycles in its entries."""
    return TablePlan(plan.width, [replace(entry, cycles=some_cycles(rng)) for entry in plan.entries])


def forms_of(width):
    """Every form that a field of this width may have, with its fraction bits."""
    return [(NO_FORM, 0), (SIGNED, 0), *((FIXED, fraction) for fraction in range(min(width, MOST_FRACTION) + 1))]


def some_form(rng, width):
    """One of them; about half are plain, and the fewest and the most fraction bits come often."""
    if rng.random() < 0.5:
        return NO_FORM, 0
    allowed = forms_of(width)
    return rng.choice([(SIGNED, 0), (FIXED, 0), allowed[-1], rng.choice(allowed)])


def entry_with_forms(rng, entry):
    return replace(entry, forms=[some_form(rng, width) for _, width in entry.fields])


def with_forms(rng, plan):
    """The same plan with forms in its fields."""
    return TablePlan(plan.width, [entry_with_forms(rng, entry) for entry in plan.entries])


# ---------------------------------------------------------------------------- overlap on purpose

def refined_entry(rng, width, base):
    """More specific than `base`: its mask and more, the same value on it. Sometimes longer."""
    length = base.length if rng.random() < 0.6 else rng.randint(base.length, width)
    free = own_bits(width, length) & ~base.mask
    more = some_bits(rng, free, rng.choice([1, 2, 4])) or free & -free
    return entry_on_mask(rng, width, length, base.mask | more, base.value | (rng.getrandbits(32) & more))


def coarser_entry(rng, width, base):
    """Less specific than `base`: some of its mask is dropped."""
    mask = base.mask & rng.getrandbits(32)
    return entry_on_mask(rng, width, base.length, mask, base.value & mask)


def crossing_entry(rng, width, base):
    """Its own mask, the same value where the masks meet: some word matches both."""
    length = random_length(rng, width)
    mask = some_bits(rng, own_bits(width, length), 6)
    shared = mask & base.mask
    value = (rng.getrandbits(32) & mask & ~shared) | (base.value & shared)
    return entry_on_mask(rng, width, length, mask, value)


def twin_entry(rng, width, base):
    """The same pattern again: neither is more specific."""
    return entry_on_mask(rng, width, base.length, base.mask, base.value)


def agree(e, f):
    """Whether some word matches both opcode patterns."""
    return (e.value ^ f.value) & e.mask & f.mask == 0


def joined_entry(rng, width, e, f):
    """More specific than both where they cross, if they do; decides the words on which they are ambiguous."""
    if not agree(e, f):
        return twin_entry(rng, width, e)
    return entry_on_mask(rng, width, max(e.length, f.length), e.mask | f.mask, e.value | f.value)


def related_entry(rng, width, entries):
    base = rng.choice(entries)
    make = rng.choice([refined_entry, refined_entry, refined_entry, coarser_entry, crossing_entry, twin_entry, None])
    if make is None:
        return joined_entry(rng, width, base, rng.choice(entries))
    return make(rng, width, base)


def overlapping_plan(rng, width, most_entries=9, conditions_often=0.3):
    """A good table in which many patterns overlap."""
    entries = [fresh_entry(rng, width)]
    for _ in range(rng.randint(0, most_entries - 1)):
        related = rng.random() < 0.8
        entries.append(related_entry(rng, width, entries) if related else fresh_entry(rng, width))
    for entry in entries:
        add_conditions(rng, width, entry, conditions_often)
    return with_forms(rng, TablePlan(width, entries))


# ---------------------------------------------------------------------------- tables that are never ambiguous

def refines(e, f):
    """Whether e's mask holds f's and more, with the same value on it."""
    return f.mask & ~e.mask == 0 and e.mask != f.mask and e.value & f.mask == f.value


def apart(e, f):
    """Whether no word matches both, or one refines the other: two such entries never make a word ambiguous."""
    return not agree(e, f) or refines(e, f) or refines(f, e)


def nested_plan(rng, width, most_entries=10, conditions_often=0.4):
    """A good table whose entries are apart from each other. Conditions only take claims away, so they change nothing in that."""
    entries = [fresh_entry(rng, width)]
    for _ in range(rng.randint(0, 2 * most_entries)):
        if len(entries) == most_entries:
            break
        base = rng.choice(entries)
        # Only a base with a free bit in the word can be refined.
        can_refine = base.mask != own_bits(width, width)
        make = rng.choice([refined_entry, refined_entry, coarser_entry] if can_refine else [coarser_entry])
        entry = fresh_entry(rng, width) if rng.random() < 0.3 else make(rng, width, base)
        if all(apart(entry, other) for other in entries):
            entries.append(entry)
    rng.shuffle(entries)
    for entry in entries:
        add_conditions(rng, width, entry, conditions_often)
    return with_forms(rng, TablePlan(width, entries))


def add_join(rng, width, entries, e, f):
    """The join of two entries that aren't apart, if it isn't there; None if eight fields can't hold what it leaves free."""
    mask, value = e.mask | f.mask, e.value | f.value
    if any((other.mask, other.value) == (mask, value) for other in entries):
        return False
    join = entry_on_mask(rng, width, max(e.length, f.length), mask, value)
    if join.mask != mask:
        return None
    entries.append(join)
    return True


def joined_plan(rng, width, most_entries=40):
    """Entries that cross each other, and for every two that do their join, which has no conditions. None where that fails."""
    entries = []
    for _ in range(rng.randint(2, 4)):
        entry = fresh_entry(rng, width) if not entries else crossing_entry(rng, width, rng.choice(entries))
        if all((entry.mask, entry.value) != (other.mask, other.value) for other in entries):
            entries.append(entry)
    first = list(entries)
    for at, e in enumerate(entries):
        for f in entries[:at]:
            if not apart(e, f) and add_join(rng, width, entries, e, f) is None:
                return None
        if len(entries) > most_entries:
            return None
    for entry in first:
        # A join of conditionless joins may be one of the first; such an entry must stay as it is.
        if not any(refines(entry, other) for other in entries):
            add_conditions(rng, width, entry, 0.6)
    rng.shuffle(entries)
    return with_forms(rng, TablePlan(width, entries))


def divided_plan(rng, width):
    """Nested entries, and twins of some of them that share their words by opposite conditions: an entry loses what
    matches P but not Q, its twin keeps only that."""
    plan = nested_plan(rng, width, most_entries=6, conditions_often=0.2)
    for entry in rng.sample(plan.entries, rng.randint(1, len(plan.entries))):
        if len(entry.conditions) >= 8:
            continue
        own = own_bits(width, entry.length)
        one, other = condition_pattern(rng, own, entry), condition_pattern(rng, own, entry)
        # Not twin_entry, which may have to put more into the mask.
        twin = EntryPlan(rng.randrange(4096), entry.length, entry.mask, entry.value, list(entry.fields))
        if rng.random() < 0.5:
            entry.conditions.append((one, []))
            twin.conditions.append(((0, 0), [one]))
        else:
            entry.conditions.append((one, [other]))
            twin.conditions += [((0, 0), [one]), (other, [])]
        plan.entries.insert(rng.randint(0, len(plan.entries)), entry_with_forms(rng, twin))
    return plan


# ---------------------------------------------------------------------------- entries that no word selects, on purpose

def run_entry(rng, width, length, mask, value):
    """An entry whose fields are the runs that its mask leaves free. Up to seven mask bits leave at most eight."""
    return EntryPlan(rng.randrange(4096), length, mask, value, free_runs(width, length, mask))


def values_on(mask):
    """Every value that a mask may have."""
    lowest = mask & -mask
    return [value | bit for value in values_on(mask ^ lowest) for bit in (0, lowest)] if mask else [0]


def shared_words(rng, width, length):
    """An entry, and more specific ones that share its words: one for each value of some of its free bits."""
    own = own_bits(width, length)
    mask = some_bits(rng, own, min(3, length - 1))
    base = run_entry(rng, width, length, mask, rng.getrandbits(32) & mask)
    split = some_bits(rng, own & ~mask, 3) or random_bit(rng, own & ~mask)
    return base, [run_entry(rng, width, rng.randint(length, width), mask | split, base.value | value) for value in values_on(split)]


# Each leaves the entry no word, or only the one of the pattern in `but_for`, and gives the other entries of the table.

def by_itself(rng, base, shares, but_for):
    """A condition takes the words."""
    base.conditions.append((rng.choice([(0, 0), (base.mask, base.value)]), but_for))
    return []


def by_one(rng, base, shares, but_for):
    """The entry keeps the words of one share, and a word outside of it."""
    one = rng.choice([share for share in shares if not any(value & share.mask == share.value for _, value in but_for)])
    base.conditions.append(((0, 0), [(one.mask, one.value), *but_for]))
    return [one]


def by_several(rng, base, shares, but_for):
    """A share leaves the word to the entry; one that has no other word is left out."""
    for mask, value in but_for:
        share = next(share for share in shares if value & share.mask == share.value)
        share.conditions.append(((mask, value), []))
        shares = [other for other in shares if other is not share or share.mask != mask]
    return shares


COVERS = {"by its own conditions": by_itself, "by one more specific": by_one, "by several together": by_several}


def covered_plan(rng, width, how, spared=False):
    """A table of which one entry is selected by no word, and its number. With `spared` a single word selects it, and there is no number."""
    base, shares = shared_words(rng, width, width if spared else random_length(rng, width))
    word = word_on(rng, width, [(base.mask, base.value)])
    entries = [base, *COVERS[how](rng, base, shares, [(own_bits(width, width), word)] if spared else [])]
    rng.shuffle(entries)
    number = next(number for number, entry in enumerate(entries) if entry is base)
    return with_forms(rng, TablePlan(width, entries)), None if spared else number


def with_excluded(rng, plan):
    """The plan with one entry more, which excludes every word, and its number. It is dead in every cell: the tree has the same tests."""
    at = rng.randint(0, len(plan.entries))
    entry = everywhere_entry(rng, plan.width, [((0, 0), [])])
    return TablePlan(plan.width, [*plan.entries[:at], entry, *plan.entries[at:]]), at


# ---------------------------------------------------------------------------- tables with a tree of known size

def undecided_condition(rng, width, depth):
    """A condition that is never satisfied, and open in every cell in which bit width - depth isn't fixed. Its patterns
    hold the highest `depth` bits."""
    lowest = span(width - depth, 1)
    above = span(width - depth, depth)
    more = [(above, rng.getrandbits(32) & above | lowest) for _ in range(rng.randint(1, 7))]
    return (lowest, 0), [(lowest, 0), *more]


def undecided_in_one_cell(width, depth, word):
    """A condition that is never satisfied, and open at a cell of the highest `depth` bits only if the word lies in it."""
    above = span(width - depth, depth)
    next_bit = span(width - depth - 1, 1)
    return (above | next_bit, word & above), [(next_bit, 0)]


def everywhere_entry(rng, width, conditions):
    """An entry that matches every word."""
    return EntryPlan(rng.randrange(4096), width, 0, 0, [(0, width)], conditions)


def full_tree_plan(rng, width, depth, one_more=False, twice=False):
    """A table whose tree tests the highest `depth` bits on every path: 2^(depth + 1) - 1 nodes, and with `one_more` one
    test and leaf more. Twice the same entry, and every leaf is a conflict leaf."""
    conditions = [undecided_condition(rng, width, depth)]
    if one_more:
        conditions.append(undecided_in_one_cell(width, depth, rng.getrandbits(32)))
    entries = [everywhere_entry(rng, width, conditions) for _ in range(2 if twice else 1)]
    return TablePlan(width, entries)


# ---------------------------------------------------------------------------- words for a table

def word_on(rng, width, patterns):
    """A word of the width that matches every pattern, if they agree (a later one wins where they don't)."""
    word = rng.getrandbits(32) & own_bits(width, width)
    for mask, value in patterns:
        word = (word & ~mask) | value
    return word


def word_for(rng, plan):
    """A word of the width, mostly one that some entries of the plan have an opinion on."""
    if not plan.entries or rng.random() < 0.1:
        return word_on(rng, plan.width, [])
    first = rng.choice(plan.entries)
    patterns = [(first.mask, first.value)]
    style = rng.random()
    if style < 0.4:
        second = rng.choice([other for other in plan.entries if agree(first, other)])
        patterns.append((second.mask, second.value))
    elif style < 0.75 and first.conditions:
        matching, unmatching = rng.choice(first.conditions)
        patterns.append(matching)
        if unmatching and rng.random() < 0.6:
            patterns.append(rng.choice(unmatching))
    word = word_on(rng, plan.width, patterns)
    if rng.random() < 0.1:
        word ^= 1 << rng.randrange(plan.width)
    return word


def high_word(rng, plan):
    """A word with a bit at or above the width; None when the width is 32."""
    if plan.width == 32:
        return None
    return word_for(rng, plan) | 1 << rng.choice([plan.width, 31, rng.randint(plan.width, 31)])


def values_in(entry, word):
    """What the entry's fields hold in a word, in table order."""
    return [word >> lowest & span(0, width) for lowest, width in entry.fields]


# ---------------------------------------------------------------------------- laying out

@dataclass
class ConditionPlace:
    head: int
    unmatching: list    # indices of the kind 5 words
    end: int            # index after its last word


@dataclass
class EntryPlace:
    head: int
    cycles: int         # index of the cycles word; None in a table of kind 1
    fields: list        # indices of the kind 3 words
    fields_end: int     # index after the last of them, or where the first would be
    conditions: list    # ConditionPlace
    end: int


@dataclass
class Laid:
    plan: TablePlan
    words: list
    entries: list       # EntryPlace


def first_word(count, width, kind=PLAIN):
    return kind << 28 | count << 16 | width


def entry_word(label, length, fields, conditions):
    return 2 << 28 | label << 16 | length << 8 | fields << 4 | conditions


def field_word(lowest, width, form=NO_FORM, fraction=0):
    return 3 << 28 | form << 24 | fraction << 16 | lowest << 8 | width


def condition_word(unmatching):
    return 4 << 28 | unmatching


UNMATCHING_WORD = 5 << 28


def lay_condition(words, condition):
    (mask, value), unmatching = condition
    head = len(words)
    words += [condition_word(len(unmatching)), mask, value]
    places = []
    for other_mask, other_value in unmatching:
        places.append(len(words))
        words += [UNMATCHING_WORD, other_mask, other_value]
    return ConditionPlace(head, places, len(words))


def lay_entry(words, entry, kind):
    head = len(words)
    words += [entry_word(entry.label, entry.length, len(entry.fields), len(entry.conditions)), entry.mask, entry.value]
    cycles = None
    if kind == WITH_CYCLES:
        cycles = len(words)
        words.append(entry.cycles)
    fields = []
    forms = entry.forms or [(NO_FORM, 0)] * len(entry.fields)
    for (lowest, width), (form, fraction) in zip(entry.fields, forms, strict=True):
        fields.append(len(words))
        words.append(field_word(lowest, width, form, fraction))
    fields_end = len(words)
    conditions = [lay_condition(words, condition) for condition in entry.conditions]
    return EntryPlace(head, cycles, fields, fields_end, conditions, len(words))


def lay_out(plan, kind=PLAIN):
    """The words of a plan, and where each of its parts stands."""
    words = [first_word(len(plan.entries), plan.width, kind)]
    places = [lay_entry(words, entry, kind) for entry in plan.entries]
    return Laid(plan, words, places)


def lay_out_both(rng, plan):
    """The plan as a table of kind 1, and as one of kind 6 with cycles."""
    return lay_out(plan), lay_out(with_cycles(rng, plan), WITH_CYCLES)


def lay_longest(rng, kind):
    plan = longest_plan(rng, kind)
    return lay_out(with_cycles(rng, plan), WITH_CYCLES) if kind == WITH_CYCLES else lay_out(plan)


# ---------------------------------------------------------------------------- damages
# A damage knows the number and place it must give, and `when`: the index of the word with which the fault shows
# (and a half more for cover, which is checked between that word and the next). Of two damages in different
# entries the one that shows first is the one reported.

FIRST_WORD = -1     # stands for an entry number in damages outside all entries
CUT = -2


@dataclass
class Damage:
    number: int
    place: int
    when: float
    entry: int
    edits: dict = field(default_factory=dict)   # index: new word
    cut: int = None                             # keep only that many words
    extra: list = field(default_factory=list)   # words put at the end


def damaged(words, *damages):
    """The words with every one of these damages."""
    words = list(words)
    for damage in damages:
        for index, word in damage.edits.items():
            words[index] = word
    for damage in damages:
        words += damage.extra
    # Cuts come last, so that extra words never fill the place of words cut away.
    for damage in damages:
        if damage.cut is not None:
            words = words[:damage.cut]
    return words


def first_word_damage(word):
    return Damage(1, 0, 0, FIRST_WORD, {0: word})


def head_damage(entry, index, word):
    """A head word, or a cycles word, that is wrong by itself."""
    return Damage(2, index, index, entry, {index: word})


def pick_entry(rng, laid, fits=lambda plan, place: True):
    """A random entry that a damage can be done to: its number, plan and place, or None."""
    fitting = [number for number, place in enumerate(laid.entries) if fits(laid.plan.entries[number], place)]
    if not fitting:
        return None
    number = rng.choice(fitting)
    return number, laid.plan.entries[number], laid.entries[number]


def pick_condition(rng, laid, fits=lambda condition: True):
    """A random condition: the entry's number and the condition's place, or None."""
    fitting = [(number, condition) for number, place in enumerate(laid.entries)
               for condition in place.conditions if fits(condition)]
    return rng.choice(fitting) if fitting else None


def with_bits(word, high, low, number):
    """The word with another number in bits high to low."""
    return (word & ~span(low, high - low + 1)) | number << low


def spare_bit(rng, low, high):
    """One of these bits, often the lowest or the highest."""
    return 1 << rng.choice([low, high, rng.randint(low, high)])


def other_kind(rng, word):
    return with_bits(word, 31, 28, rng.choice([kind for kind in range(16) if kind != word >> 28]))


# --- the first word and the table as a whole

def empty_table(rng, laid):
    return Damage(1, 0, -1, CUT, cut=0)


def too_long(rng, laid):
    extra = MOST_WORDS + 1 - len(laid.words) + rng.choice([0, 0, 1, 50])
    return Damage(1, 0, -1, FIRST_WORD, extra=[rng.getrandbits(32) for _ in range(extra)])


def first_kind(rng, laid):
    kind = rng.choice([kind for kind in range(16) if kind not in (PLAIN, WITH_CYCLES)])
    return first_word_damage(with_bits(laid.words[0], 31, 28, kind))


def first_spare(rng, laid):
    return first_word_damage(laid.words[0] | spare_bit(rng, 8, 15))


def width_zero(rng, laid):
    return first_word_damage(with_bits(laid.words[0], 7, 0, 0))


def width_over(rng, laid):
    return first_word_damage(with_bits(laid.words[0], 7, 0, rng.choice([33, 33, 64, rng.randint(33, 255)])))


def entries_over(rng, laid):
    return first_word_damage(with_bits(laid.words[0], 27, 16, rng.choice([257, 257, 512, rng.randint(257, 4095)])))


def cut_short(rng, laid):
    if len(laid.words) == 1:
        return None
    cut = rng.randint(1, len(laid.words) - 1)
    return Damage(2, cut, cut, CUT, cut=cut)


def words_after(rng, laid):
    extra = [rng.choice([0, entry_word(1, 1, 0, 0), rng.getrandbits(32)]) for _ in range(rng.randint(1, 4))]
    end = len(laid.words)
    return Damage(2, end, end, FIRST_WORD, extra=extra)


def entries_up(rng, laid):
    count = len(laid.entries)
    if count == 256:
        return None
    end = len(laid.words)
    return Damage(2, end, end, FIRST_WORD, {0: with_bits(laid.words[0], 27, 16, count + 1)})


def entries_down(rng, laid):
    count = len(laid.entries)
    if count == 0:
        return None
    last = laid.entries[-1].head
    return Damage(2, last, last, FIRST_WORD, {0: with_bits(laid.words[0], 27, 16, count - 1)})


# --- kinds, spare bits, counts and lengths of the other heads

def heads(laid):
    """Every head word but the first: (entry number, index)."""
    for number, place in enumerate(laid.entries):
        yield number, place.head
        for index in place.fields:
            yield number, index
        for condition in place.conditions:
            yield number, condition.head
            for index in condition.unmatching:
                yield number, index


def head_kind(rng, laid):
    every = list(heads(laid))
    if not every:
        return None
    number, index = rng.choice(every)
    return head_damage(number, index, other_kind(rng, laid.words[index]))


def pick_field(rng, laid, fits=lambda word: True):
    """A random field: its entry's number and its index, or None."""
    fitting = [(number, index) for number, place in enumerate(laid.entries) for index in place.fields if fits(laid.words[index])]
    return rng.choice(fitting) if fitting else None


def with_form(word, form, fraction):
    """A field's word with another form and other bits 23-16."""
    return with_bits(with_bits(word, 27, 24, form), 23, 16, fraction)


def spare_number(rng):
    """A number for bits 23-16 that isn't 0; some of them would do as fraction bits."""
    return rng.choice([1, 128, 255, spare_bit(rng, 0, 7), rng.randint(1, MOST_FRACTION)])


def field_spare(rng, laid):
    """A plain or a signed field with one of the bits 23-16."""
    picked = pick_field(rng, laid)
    if picked is None:
        return None
    number, index = picked
    return head_damage(number, index, with_form(laid.words[index], rng.choice([NO_FORM, SIGNED]), spare_number(rng)))


def field_spare_no_form(rng, laid):
    """A form over 2 with one of these bits: "bits 23-16 stay spare for all other forms" (document 02's No. 7)."""
    picked = pick_field(rng, laid)
    if picked is None:
        return None
    number, index = picked
    return head_damage(number, index, with_form(laid.words[index], some_wrong_form(rng), spare_number(rng)))


def condition_spare(rng, laid):
    picked = pick_condition(rng, laid)
    if picked is None:
        return None
    number, place = picked
    return head_damage(number, place.head, laid.words[place.head] | spare_bit(rng, 4, 27))


def unmatching_spare(rng, laid):
    picked = pick_condition(rng, laid, lambda condition: condition.unmatching)
    if picked is None:
        return None
    number, place = picked
    index = rng.choice(place.unmatching)
    return head_damage(number, index, laid.words[index] | spare_bit(rng, 0, 27))


def entry_head_bits(rng, laid, high, low, numbers):
    """An entry's head with one of these numbers in its bits high to low."""
    picked = pick_entry(rng, laid)
    if picked is None:
        return None
    number, _, place = picked
    return head_damage(number, place.head, with_bits(laid.words[place.head], high, low, rng.choice(numbers)))


def length_zero(rng, laid):
    return entry_head_bits(rng, laid, 15, 8, [0])


def length_over(rng, laid):
    width = laid.plan.width
    return entry_head_bits(rng, laid, 15, 8, [width + 1, width + 1, rng.randint(width + 1, 255)])


def fields_over(rng, laid):
    return entry_head_bits(rng, laid, 7, 4, [9, 9, 15, 12])


def conditions_over(rng, laid):
    return entry_head_bits(rng, laid, 3, 0, [9, 9, 15, 12])


def unmatching_over(rng, laid):
    picked = pick_condition(rng, laid)
    if picked is None:
        return None
    number, place = picked
    return head_damage(number, place.head, with_bits(laid.words[place.head], 3, 0, rng.choice([9, 9, 15, 12])))


def fields_up(rng, laid):
    """The word after the last field is asked to be a field."""
    picked = pick_entry(rng, laid, lambda plan, place: len(place.fields) < 8)
    if picked is None:
        return None
    number, _, place = picked
    after = place.fields_end
    return Damage(2, after, after, number, {place.head: laid.words[place.head] + 0x10})


def fields_down(rng, laid):
    """The last field isn't read, so its bits are not covered: that shows before the next head is read."""
    picked = pick_entry(rng, laid, lambda plan, place: place.fields)
    if picked is None:
        return None
    number, _, place = picked
    last_read = place.fields[-1] - 1
    return Damage(4, place.head, last_read + 0.5, number, {place.head: laid.words[place.head] - 0x10})


def conditions_up(rng, laid):
    picked = pick_entry(rng, laid, lambda plan, place: len(place.conditions) < 8)
    if picked is None:
        return None
    number, _, place = picked
    return Damage(2, place.end, place.end, number, {place.head: laid.words[place.head] + 1})


def conditions_down(rng, laid):
    picked = pick_entry(rng, laid, lambda plan, place: place.conditions)
    if picked is None:
        return None
    number, _, place = picked
    last = place.conditions[-1].head
    return Damage(2, last, last, number, {place.head: laid.words[place.head] - 1})


def unmatching_up(rng, laid):
    picked = pick_condition(rng, laid, lambda condition: len(condition.unmatching) < 8)
    if picked is None:
        return None
    number, place = picked
    return Damage(2, place.end, place.end, number, {place.head: laid.words[place.head] + 1})


def unmatching_down(rng, laid):
    picked = pick_condition(rng, laid, lambda condition: condition.unmatching)
    if picked is None:
        return None
    number, place = picked
    last = place.unmatching[-1]
    return Damage(2, last, last, number, {place.head: laid.words[place.head] - 1})


# --- masks and values

def opcode_masks(laid):
    """The mask of each opcode: (entry number, index). Its value is the next word."""
    for number, place in enumerate(laid.entries):
        yield number, place.head + 1


def masks(laid):
    """Every mask."""
    yield from opcode_masks(laid)
    for number, place in enumerate(laid.entries):
        for condition in place.conditions:
            yield number, condition.head + 1
            for index in condition.unmatching:
                yield number, index + 1


def random_bit(rng, word):
    return 1 << rng.choice([bit for bit in range(32) if word >> bit & 1])


def mask_outside(rng, laid, among=masks):
    """A mask bit outside the own bits; the value may have it or not."""
    def outside(number):
        return ALL_BITS & ~own_bits(laid.plan.width, laid.plan.entries[number].length)
    fitting = [(number, index) for number, index in among(laid) if outside(number)]
    if not fitting:
        return None
    number, index = rng.choice(fitting)
    bit = random_bit(rng, outside(number))
    edits = {index: laid.words[index] | bit}
    if rng.random() < 0.5:
        edits[index + 1] = laid.words[index + 1] | bit
    return Damage(3, index, index + 1, number, edits)


def value_outside(rng, laid, among=masks):
    fitting = [(number, index) for number, index in among(laid) if laid.words[index] != ALL_BITS]
    if not fitting:
        return None
    number, index = rng.choice(fitting)
    bit = random_bit(rng, ALL_BITS & ~laid.words[index])
    return Damage(3, index, index + 1, number, {index + 1: laid.words[index + 1] | bit})


# --- fields and cover

def field_damage(rng, number, place, position, lowest, width):
    """A field with other bits, and with any form of their number."""
    index = place.fields[position]
    return Damage(4, index, index, number, {index: field_word(lowest, width, *some_form(rng, width))})


def field_empty(rng, laid):
    picked = pick_entry(rng, laid, lambda plan, place: place.fields)
    if picked is None:
        return None
    number, plan, place = picked
    position = rng.randrange(len(place.fields))
    lowest = rng.choice([plan.fields[position][0], rng.randint(0, 255)])
    return field_damage(rng, number, place, position, lowest, 0)


def field_outside(rng, laid):
    """Past the top, below the own bits, or far away."""
    picked = pick_entry(rng, laid, lambda plan, place: place.fields)
    if picked is None:
        return None
    number, plan, place = picked
    position = rng.randrange(len(place.fields))
    lowest, width = plan.fields[position]
    top = laid.plan.width
    bottom = top - plan.length
    choices = [(lowest, top - lowest + 1), (top, 1), (255, 255), (lowest, 255), (rng.randint(32, 255), width)]
    if bottom > 0:
        choices += [(bottom - 1, lowest + width - bottom + 1), (bottom - 1, 1)]
    return field_damage(rng, number, place, position, *rng.choice(choices))


def field_over_mask(rng, laid):
    picked = pick_entry(rng, laid, lambda plan, place: place.fields and plan.mask)
    if picked is None:
        return None
    number, plan, place = picked
    position = rng.randrange(len(place.fields))
    bit = random_bit(rng, plan.mask).bit_length() - 1
    return field_damage(rng, number, place, position, bit, 1)


def field_over_field(rng, laid):
    """A later field on a bit of an earlier one."""
    picked = pick_entry(rng, laid, lambda plan, place: len(place.fields) > 1)
    if picked is None:
        return None
    number, plan, place = picked
    position = rng.randrange(1, len(place.fields))
    lowest, width = plan.fields[rng.randrange(position)]
    return field_damage(rng, number, place, position, rng.randint(lowest, lowest + width - 1), 1)


def cover_damage(number, place, edits):
    """Own bits not covered: the index of the entry, after its last field."""
    last = place.fields_end - 1
    return Damage(4, place.head, last + 0.5, number, edits)


def cover_field(rng, laid):
    """A field one bit too narrow."""
    picked = pick_entry(rng, laid, lambda plan, place: any(width > 1 for _, width in plan.fields))
    if picked is None:
        return None
    number, plan, place = picked
    position = rng.choice([position for position, (_, width) in enumerate(plan.fields) if width > 1])
    lowest, width = plan.fields[position]
    narrow = field_word(lowest + rng.randint(0, 1), width - 1, *some_form(rng, width - 1))
    return cover_damage(number, place, {place.fields[position]: narrow})


def cover_mask(rng, laid):
    """A mask bit that went away."""
    picked = pick_entry(rng, laid, lambda plan, place: plan.mask)
    if picked is None:
        return None
    number, plan, place = picked
    bit = random_bit(rng, plan.mask)
    return cover_damage(number, place, {place.head + 1: plan.mask & ~bit, place.head + 2: plan.value & ~bit})


# --- forms of fields: 4 at the field

def form_damage(rng, laid, form_for, fits=lambda word: True):
    """A field whose form and fraction bits are those that the function makes of its width."""
    picked = pick_field(rng, laid, fits)
    if picked is None:
        return None
    number, index = picked
    word = laid.words[index]
    return Damage(4, index, index, number, {index: with_form(word, *form_for(word & 0xFF))})


def some_wrong_form(rng):
    return rng.choice([3, 3, 4, 8, 15, rng.randint(3, 15)])


def form_over(rng, laid):
    return form_damage(rng, laid, lambda width: (some_wrong_form(rng), 0))


def fraction_over(rng, laid):
    """More than 16 fraction bits, most often in a field that has so many; None if there is no such field."""
    def some_fraction(width):
        return FIXED, rng.choice([MOST_FRACTION + 1, width, 32, 255, rng.randint(MOST_FRACTION + 1, 255)])
    return form_damage(rng, laid, some_fraction, lambda word: word & 0xFF > MOST_FRACTION)


def fraction_wide(rng, laid):
    """Fraction bits over the field's width, and most often not over 16."""
    def some_fraction(width):
        return FIXED, rng.choice([width + 1, width + 1, rng.randint(width + 1, MOST_FRACTION), 255])
    return form_damage(rng, laid, some_fraction, lambda word: word & 0xFF < MOST_FRACTION)


# --- cycles; None for a table of kind 1

def too_many_cycles(rng):
    """Most often the first number that is too large, and bits above sixteen."""
    return rng.choice([MOST_CYCLES + 1, MOST_CYCLES + 1, ALL_BITS, spare_bit(rng, 16, 31) | rng.getrandbits(16)])


def pick_cycles(rng, laid):
    """A random entry that has a cycles word: its number and that word's index, or None."""
    picked = pick_entry(rng, laid, lambda plan, place: place.cycles is not None)
    return None if picked is None else (picked[0], picked[2].cycles)


def cycles_over(rng, laid):
    picked = pick_cycles(rng, laid)
    return None if picked is None else head_damage(*picked, too_many_cycles(rng))


def cycles_missing(rng, laid):
    """The table ends before a cycles word."""
    picked = pick_cycles(rng, laid)
    return None if picked is None else Damage(2, picked[1], picked[1], CUT, cut=picked[1])


def with_cycles_over(rng, laid, kinds):
    """One of these damages, and in its entry cycles that are too many: the damage with both, and the index of the cycles."""
    for kind in rng.sample(kinds, len(kinds)):
        damage = kind(rng, laid)
        index = None if damage is None else laid.entries[damage.entry].cycles
        if index is not None:
            return replace(damage, edits=damage.edits | {index: too_many_cycles(rng)}), index
    return None


def opcode_before_cycles(rng, laid):
    """Too many cycles, and before them a wrong opcode, which is judged first."""
    found = with_cycles_over(rng, laid, [partial(mask_outside, among=opcode_masks), partial(value_outside, among=opcode_masks)])
    return None if found is None else found[0]


def cycles_before_fields(rng, laid):
    """Too many cycles, and after them a wrong field, or bits that nothing covers."""
    found = with_cycles_over(rng, laid, [fields_down, field_empty, field_outside, field_over_mask, field_over_field, form_over,
                                         fraction_over, fraction_wide, cover_field, cover_mask])
    if found is None:
        return None
    damage, index = found
    return replace(damage, number=2, place=index, when=index)


DAMAGES = [
    empty_table, too_long, first_kind, first_spare, width_zero, width_over, entries_over,
    cut_short, words_after, entries_up, entries_down,
    head_kind, field_spare, field_spare_no_form, condition_spare, unmatching_spare,
    length_zero, length_over, fields_over, conditions_over, unmatching_over,
    fields_up, fields_down, conditions_up, conditions_down, unmatching_up, unmatching_down,
    mask_outside, value_outside,
    field_empty, field_outside, field_over_mask, field_over_field, cover_field, cover_mask,
    form_over, fraction_over, fraction_wide,
    cycles_over, cycles_missing, opcode_before_cycles, cycles_before_fields,
]

# too_long tables are big; they are made a few times by name and not drawn at random.
USUAL_DAMAGES = [damage for damage in DAMAGES if damage is not too_long]


def some_damage(rng, laid):
    """One damage that can be done to this table."""
    while True:
        damage = rng.choice(USUAL_DAMAGES)(rng, laid)
        if damage is not None:
            return damage


def some_damaged(rng, plan):
    """The words of a plan with one damage; the table was of kind 1 or of kind 6."""
    laid = rng.choice(lay_out_both(rng, plan))
    return damaged(laid.words, some_damage(rng, laid))


def every_cut(laid):
    """Each way to cut the table short."""
    for cut in range(1, len(laid.words)):
        yield Damage(2, cut, cut, CUT, cut=cut)


def first_of(one, two):
    """Which of two damages is reported, or None if they may disturb each other (then only comparing is possible)."""
    if one.entry == two.entry:
        return None
    first, second = sorted((one, two), key=lambda damage: (damage.when, damage.entry != CUT))
    # A cut takes away the word at its index, so it comes before a fault of that word. But if counts before it make that word one
    # too many, nothing is missing without it.
    if first.when == second.when and (first.entry != CUT or any(index < second.when for index in second.edits)):
        return None
    return first


# ---------------------------------------------------------------------------- changes without a known outcome

def random_change(rng, words):
    """One careless change: a bit flipped, a word changed, lost, doubled, put in or swapped, another width, kind 6 for kind 1."""
    words = list(words)
    index = rng.randrange(len(words))
    style = rng.randrange(9)
    if style <= 2:
        words[index] ^= 1 << rng.randrange(32)
    elif style == 3:
        words[index] = rng.choice([0, ALL_BITS, rng.getrandbits(32)])
    elif style == 4:
        del words[index]
    elif style == 5:
        words.insert(index, rng.choice([words[index], 0, rng.getrandbits(32)]))
    elif style == 6:
        other = rng.randrange(len(words))
        words[index], words[other] = words[other], words[index]
    elif style == 7:
        words[0] = with_bits(words[0], 7, 0, rng.randint(0, 34))
    else:
        words[0] = with_bits(words[0], 31, 28, PLAIN if words[0] >> 28 == WITH_CYCLES else WITH_CYCLES)
    return words


def some_first_word(rng):
    return first_word(rng.randint(0, 3), rng.randint(1, 32), rng.choice([PLAIN, WITH_CYCLES]))


def loose_field(rng, lowest, width):
    """A field's word that is mostly good by itself; now and then a form or fraction bits that it can't have."""
    return field_word(lowest, width, *rng.choice([(NO_FORM, 0), some_form(rng, width), some_form(rng, width),
                                                  (rng.randint(0, 4), rng.randint(0, 3))]))


def plausible_word(rng):
    """A word that may pass as some head, or as a small mask or value."""
    kind = rng.choice([1, 2, 2, 3, 3, 4, 5, 0, 0, None])
    if kind is None:
        return rng.getrandbits(32)
    if kind == 0:
        return rng.choice([0, 1, 2, 3, 0x80, rng.getrandbits(4)])
    if kind == 1:
        return some_first_word(rng)
    if kind == 2:
        return entry_word(rng.randrange(4096), rng.randint(1, 9), rng.randint(0, 2), rng.randint(0, 2))
    if kind == 3:
        return loose_field(rng, rng.randint(0, 8), rng.randint(0, 4))
    if kind == 4:
        return condition_word(rng.randint(0, 2))
    return UNMATCHING_WORD


def random_words(rng):
    """Random words with plausible kinds, mostly after a good first word."""
    words = [plausible_word(rng) for _ in range(rng.randint(0, 20))]
    if words and rng.random() < 0.9:
        words[0] = some_first_word(rng)
    return words


def loose_words(rng):
    """Words in the right order of kinds for one or two narrow entries, with random contents: now and then good."""
    width = rng.randint(1, 3)
    count = rng.randint(1, 2)
    kind = rng.choice([PLAIN, WITH_CYCLES])
    words = [first_word(count, width, kind)]
    for _ in range(count):
        fields = rng.randint(0, 2)
        conditions = rng.randint(0, 1)
        words += [entry_word(0, rng.randint(1, width), fields, conditions), rng.getrandbits(width), 0]
        if kind == WITH_CYCLES:
            words.append(rng.choice([some_cycles(rng), some_cycles(rng), some_cycles(rng), too_many_cycles(rng)]))
        words += [loose_field(rng, rng.randrange(width), rng.randint(1, 2)) for _ in range(fields)]
        for _ in range(conditions):
            words += [condition_word(1), rng.getrandbits(width), 0]
            words += [UNMATCHING_WORD, rng.getrandbits(width), rng.getrandbits(1)]
    return words

"""Compares request 22 of probe (how far one withdrawn entry reaches) with the second implementation, line for line, and with what is known
of each list, without comparing two tables: the words that selected the entry, the first unfit word, the damage. Then holds probe's
counts against probe's own lookups in the table and in the one without the entry, and asks twins of the other kind. The sentence of the
paper about all other words, and that an entry which no word selects may go, are checked with the second implementation. At the end
wrong calls stand in for probe's (second/wrong_withdrawal.py), and each must be noticed.

Usage: compare_withdrawal.py [path of probe]. Exits with status 1 at the first difference. Quotations are document 02's No. 13.
"""

import random
import sys
from collections import Counter
from dataclasses import dataclass
from itertools import product

import compare_cycles
import compare_tree
import probe
import sizing
import twinned
from exhaustive import found_in
from second import examples, tables, wrong_withdrawal
from second.lines import count_line, line_of
from second.reader import Refusal, Table, read
from second.selection import AMBIGUOUS, NOTHING, select
from second.tables import PLAIN, WITH_CYCLES
from second.twins import Twins, kind_of
from second.withdrawal import without

SEED = 22
NARROW = 8              # tables up to that width are asked about all words
ROUNDS = 3              # of narrow tables
WIDE_TABLES = 6         # of each width over it
SOME_WORDS = 24         # asked of a wide table
SOME_ENTRIES = 3        # withdrawn from a wide table, beside the first and the last one
SINGLE_EACH = 5         # every so many-th narrow table is asked about each word alone
MOST_FEW = 8            # fit words in a list with unfit ones
PLACES = ("start", "middle", "end")
LONG_LIST = 65536       # so many words all change
SOME_EACH = 8           # wrong calls are tried on every so many-th list


@dataclass(eq=False)
class Asked:
    """A good table, and words to ask about it."""
    name: str
    laid: tables.Laid
    table: Table
    answers: dict       # what each of the words selects; all words of a narrow table
    high: list          # words with a bit at or above the width

    def __post_init__(self):
        self.fit = [word for word, answer in self.answers.items() if answer != AMBIGUOUS]
        self.ambiguous = [word for word, answer in self.answers.items() if answer == AMBIGUOUS]

    @property
    def is_narrow(self):
        return self.table.width <= NARROW


@dataclass
class Case:
    name: str
    question: tuple
    known: str          # the line, by what is known of the words or of the damage
    asked: Asked = None
    line: str = None


def case_of(name, asked, entry, listed, outcome=None):
    """Without another outcome: "the count is the number of those words that selected the entry"."""
    if outcome is None:
        outcome = sum(asked.answers[word] == entry for word in listed)
    return Case(name, ("changed", asked.laid.words, entry, listed), count_line(outcome), asked)


# ---------------------------------------------------------------------------- tables

def narrow_plans(rng, width):
    """(name, plan). The first three are never ambiguous; in the last ones no word selects a certain entry, or a single word does."""
    yield "nested", tables.nested_plan(rng, width, most_entries=6)
    yield "joined", tables.joined_plan(rng, width, most_entries=12) or tables.nested_plan(rng, width)
    yield "divided", tables.divided_plan(rng, width)
    yield "overlapping", tables.overlapping_plan(rng, width, most_entries=6)
    yield "overlapping", tables.overlapping_plan(rng, width, conditions_often=0)
    yield "unrelated", tables.good_plan(rng, width, most_entries=5)
    for how in tables.COVERS:
        yield how, tables.covered_plan(rng, width, how)[0]
        yield f"{how}, a word spared", tables.covered_plan(rng, width, how, spared=True)[0]


def apart_plan(rng, width):
    """256 entries without a common word: each has the highest eight bits in its mask."""
    values = rng.sample(range(256), 256)
    return tables.TablePlan(width, [tables.run_entry(rng, width, 8, tables.own_bits(width, 8), value << width - 8) for value in values])


def laid_tables(rng):
    """(name, laid): half of the tables are of kind 6."""
    for width in range(1, NARROW + 1):
        for _ in range(ROUNDS):
            for name, plan in narrow_plans(rng, width):
                yield name, rng.choice(tables.lay_out_both(rng, plan))
        yield "no entries", rng.choice(tables.lay_out_both(rng, tables.TablePlan(width, [])))
    for width in range(NARROW + 1, 33):
        for _ in range(WIDE_TABLES):
            yield "wide", rng.choice(tables.lay_out_both(rng, compare_tree.some_plan(rng, width)))
    for width in (NARROW + 1, 17, 32):
        for plan in (tables.small_entries_plan(rng, width, 256), apart_plan(rng, width)):
            yield from (("256 entries", laid) for laid in tables.lay_out_both(rng, plan))
    yield from (("longest", tables.lay_longest(rng, kind)) for kind in (PLAIN, WITH_CYCLES))


def asked_of(rng, name, laid):
    """The table with all its words, or with some near its patterns."""
    plan, table = laid.plan, read(laid.words)
    words = range(1 << plan.width) if plan.width <= NARROW else dict.fromkeys(tables.word_for(rng, plan) for _ in range(SOME_WORDS))
    high = [] if plan.width == 32 else [tables.high_word(rng, plan) for _ in range(2)]
    return Asked(name, laid, table, {word: select(table, word) for word in words}, high)


# ---------------------------------------------------------------------------- lists

def entries_of(rng, asked):
    """Every entry of a narrow table; of a wide one the first, the last, and some that are selected."""
    count = len(asked.table.entries)
    selected = sorted(set(asked.answers.values()) - {NOTHING, AMBIGUOUS})
    return range(count) if asked.is_narrow else sorted({0, count - 1, *rng.sample(selected, min(SOME_ENTRIES, len(selected)))})


def some_entry(rng, asked):
    return rng.randrange(len(asked.table.entries))


def with_duplicates(rng, words):
    listed = words + rng.choices(words, k=len(words)) if words else []
    rng.shuffle(listed)
    return listed


def counting_cases(rng, asked):
    """Lists without an unfit word."""
    for entry in entries_of(rng, asked):
        yield case_of("in order", asked, entry, asked.fit)
        yield case_of("shuffled, with duplicates", asked, entry, with_duplicates(rng, asked.fit))
    yield case_of("no words", asked, some_entry(rng, asked), [])


def single_cases(rng, asked):
    """Each word alone; the entry is now and then the one that it selects."""
    for word, answer in asked.answers.items():
        entry = answer if answer not in (NOTHING, AMBIGUOUS) and rng.random() < 0.4 else some_entry(rng, asked)
        yield case_of("a single word", asked, entry, [word], Refusal(6, word=word) if answer == AMBIGUOUS else None)


def put_in(rng, fit, unfit, place):
    """The first unfit word at the start, in the middle or at the end of the fit ones, and the others anywhere after it."""
    at = {"start": 0, "middle": len(fit) // 2, "end": len(fit)}[place]
    rest = fit[at:] + unfit[1:]
    rng.shuffle(rest)
    return [*fit[:at], unfit[0], *rest]


def few_words(rng, words, least):
    return rng.choices(words, k=rng.randint(least, MOST_FEW)) if words else []


def unfit_cases(rng, asked):
    """"for the first unfit word of the list 7, or 6": one unfit word, and several of each number in each order."""
    of_number = {6: asked.ambiguous, 7: asked.high}
    for first, others in product(of_number, ((), (6,), (7,), (6, 7))):
        if all(of_number[number] for number in (first, *others)):
            unfit = [rng.choice(of_number[number]) for number in (first, *others)]
            place = rng.choice(PLACES) if asked.fit else "start"
            listed = put_in(rng, few_words(rng, asked.fit, 2), unfit, place)
            outcome = Refusal(6, word=unfit[0]) if first == 6 else Refusal(7)
            yield case_of(" and ".join(map(str, (first, *others))) + f", the first at the {place}", asked, some_entry(rng, asked),
                          listed, outcome)


def absent_cases(rng, asked):
    """"11 for no such entry", whatever the list is."""
    count, fit, unfit = len(asked.table.entries), few_words(rng, asked.fit, 1), asked.high + asked.ambiguous
    lists = {"no words": [], "fit words": fit, **({"an unfit word": [rng.choice(unfit), *fit]} if unfit else {})}
    for number in rng.sample(sorted(compare_cycles.entries_past(rng, count) - {count}), 2) + [count]:
        what = rng.choice(list(lists))
        yield case_of(f"no such entry, {what}", asked, number, lists[what], Refusal(11))


def cases_on(rng, number, asked):
    if asked.table.entries:
        yield from counting_cases(rng, asked)
        yield from unfit_cases(rng, asked)
        if asked.is_narrow and number % SINGLE_EACH == 0:
            yield from single_cases(rng, asked)
    yield from absent_cases(rng, asked)


def faulty_case(rng, name, laid, damage):
    """"After the table's faults": with an entry that is there or isn't, and with any list."""
    entry = rng.choice([0, len(laid.plan.entries), 255, 256, tables.ALL_BITS])
    listed = rng.choice([[], [0], [tables.word_for(rng, laid.plan)], [tables.ALL_BITS, 0]])
    return Case(f"faulty, {name}", ("changed", tables.damaged(laid.words, damage), entry, listed),
                count_line(Refusal(damage.number, damage.place)))


def faulty_cases(rng):
    for width in range(1, 33):
        for laid in tables.lay_out_both(rng, tables.good_plan(rng, width, most_entries=4, conditions_often=0.6)):
            damages = [damage for kind in tables.USUAL_DAMAGES if (damage := kind(rng, laid)) is not None]
            yield from (faulty_case(rng, "usual", laid, damage) for damage in damages)
    laid = tables.lay_longest(rng, WITH_CYCLES)
    yield from (faulty_case(rng, "longest", laid, kind(rng, laid)) for kind in (tables.too_long, tables.cycles_over, tables.cycles_missing))


def long_list():
    """A count of more than sixteen bits: word 3 of the printed table."""
    return Case("a long list", ("changed", examples.PRINTED, 0, [3] * LONG_LIST), count_line(LONG_LIST))


def all_cases(rng):
    some = [asked_of(rng, name, laid) for name, laid in laid_tables(rng)]
    cases = [case for number, asked in enumerate(some) for case in cases_on(rng, number, asked)]
    return some, [*cases, *faulty_cases(rng), long_list()]


# ---------------------------------------------------------------------------- comparing and counting

def check_examples(path):
    questions = [question for _, question, _ in examples.WITHDRAWAL_EXAMPLES]
    for (name, question, expected), seen in zip(examples.WITHDRAWAL_EXAMPLES, probe.ask(path, questions), strict=True):
        probe.stop_at_difference(name, question, expected, seen)


def count(case, tally):
    _, words, entry, listed = case.question
    number = case.line.split(" ")[1]
    tally[f"number {number}"] += 1
    tally[f"{case.name}: {number}"] += 1
    tally[f"empty lists: {number}"] += not listed
    if case.asked is None or number != "0":
        return
    changed = int(case.line.split(" ")[4])
    tally["counts over 0"] += changed > 0
    tally["counts of 0"] += changed == 0
    tally[f"kind {kind_of(words)}, counts over 0"] += changed > 0
    tally[f"{case.asked.name}, counts over 0"] += changed > 0
    tally[f"the {tables.where(entry, len(case.asked.table.entries))} entry"] += changed > 0
    tally["duplicates"] += changed > len({word for word in listed if case.asked.answers[word] == entry})
    tally["ambiguous elsewhere"] += changed > 0 and bool(case.asked.ambiguous)
    tally[f"width {case.asked.table.width}"] += 1


def compare(path, cases, tally):
    for case, seen in zip(cases, probe.ask(path, [case.question for case in cases]), strict=True):
        probe.stop_at_difference(f"{case.name}, as it is known", case.question, case.known, seen)
        probe.stop_at_difference(case.name, case.question, line_of(case.question), seen)
        case.line = seen
        count(case, tally)


def compare_unreached(path, some, cases, tally):
    """Tables that sizing refuses with 19; the call takes them."""
    refused = sizing.refused_with_19(path, [asked.laid.words for asked in some if asked.is_narrow], tally)
    for case in cases:
        if case.asked is not None and tuple(case.question[1]) in refused:
            tally[f"of a table with 19: {case.line.split(' ')[1]}"] += 1


# ---------------------------------------------------------------------------- probe's own lookups

def renumbered(answer, entry):
    """What an answer is without the entry if it stays; None for the entry itself."""
    if answer in (NOTHING, AMBIGUOUS) or answer < entry:
        return answer
    return None if answer == entry else answer - 1


def words_without(laid, entry):
    """The table's words without the entry's; all of them for None."""
    if entry is None:
        return laid.words
    place = laid.entries[entry]
    return [laid.words[0] - (1 << 16), *laid.words[1:place.head], *laid.words[place.end:]]


def looked_up(path, cases):
    """What probe looks up in the table of each case, and in the one without its entry: {(table, entry or None): {word: answer}}."""
    some = dict.fromkeys((case.asked, entry) for case in cases for entry in (None, case.question[2]))
    laid = {key: words_without(key[0].laid, key[1]) for key in some}
    lines = iter(probe.ask(path, [("lookup", laid[key], word) for key in some for word in key[0].fit]))
    return {key: {word: found_in(next(lines)) for word in key[0].fit} for key in some}


def count_turned(listed, entry, before, after, tally):
    for word in listed:
        if before[word] == entry:
            tally[f"turned {after[word] if after[word] in (NOTHING, AMBIGUOUS) else 'to another'}"] += 1
            tally["turned, the number is the same"] += after[word] == entry
        elif before[word] == NOTHING:
            tally["nothing as before"] += 1
        else:
            tally["renumbered" if before[word] > entry else "not renumbered"] += 1


def compare_lookups(path, cases, tally):
    """"how many change their answer", and "the number of those words that selected the entry", as probe's lookups have it."""
    counted = [case for case in cases if case.asked is not None and case.line.split(" ")[1] == "0"]
    found = looked_up(path, counted)
    for case in counted:
        _, _, entry, listed = case.question
        before, after = found[case.asked, None], found[case.asked, entry]
        moved = sum(renumbered(before[word], entry) != after[word] for word in listed)
        selected = sum(before[word] == entry for word in listed)
        for what, number in (("by both tables", moved), ("by the words that selected it", selected)):
            probe.stop_at_difference(f"{case.name}, {what}", case.question, count_line(number), case.line)
        count_turned(listed, entry, before, after, tally)
        tally["by lookups"] += 1


# ---------------------------------------------------------------------------- the sentence, by the second implementation

def check_sentence(asked, tally):
    """"every word that did not select this entry selects the same entry as before, renumbered, or nothing as before". A word that selected
    it has another answer, so none has if no word selects it (docs/TABLES.md, 19)."""
    for entry in range(len(asked.table.entries)):
        fewer = without(asked.table, entry)
        changed = {word for word, answer in asked.answers.items() if select(fewer, word) != renumbered(answer, entry)}
        if changed != {word for word, answer in asked.answers.items() if answer == entry}:
            sys.exit(f"without entry {entry} other words change: {changed}: {probe.shown(asked.laid.words)}")
        tally["sentence, entries"] += 1
        tally["sentence, words"] += len(asked.answers)
        tally["sentence, entries that no word selects"] += not changed


def check_sentences(some, tally):
    for asked in some:
        if asked.is_narrow and not asked.ambiguous:
            check_sentence(asked, tally)
            tally["sentence, tables"] += 1


# ---------------------------------------------------------------------------- what must be noticed

def notice_wrong(cases):
    """By now the lines are right. The last case has a long list. The examples by hand are tried in second/selfcheck.py."""
    left = set(wrong_withdrawal.WRONG)
    for case in cases[::SOME_EACH] + cases[-1:]:
        left -= {wrong for wrong in left if count_line(wrong(*case.question[1:])) != case.line}
    if left:
        sys.exit(f"no table shows it: {left.pop().__doc__}")
    return len(wrong_withdrawal.WRONG)


LEAST = {
    "number 0": 4500, "number 1": 300, "number 2": 800, "number 3": 100, "number 4": 300, "number 6": 350, "number 7": 700,
    "number 11": 1000,
    "counts over 0": 2000, "counts of 0": 2500, "turned ambiguous": 1000, "turned nothing": 8000, "turned to another": 9000,
    "turned, the number is the same": 2000, "renumbered": 25000, "not renumbered": 25000, "nothing as before": 50000, "by lookups": 4500,
    "the first entry": 500, "the middle entry": 700, "the last entry": 500, "the only entry": 80, "ambiguous elsewhere": 250,
    "kind 1, counts over 0": 800, "kind 6, counts over 0": 800, "in order: 0": 1000, "shuffled, with duplicates: 0": 1000,
    "duplicates": 700, "a single word: 0": 1500, "a single word: 6": 100, "a long list: 0": 1, "wide, counts over 0": 500,
    "256 entries, counts over 0": 40, "longest, counts over 0": 6,
    **{f"width {width}": 150 if width <= NARROW else 30 for width in range(1, 33)},
    **{f"{numbers}, the first at the {place}: {numbers[0]}": 10 for place in PLACES
       for numbers in ("6", "6 and 6", "6 and 7", "6 and 6 and 7", "7", "7 and 6", "7 and 7", "7 and 6 and 7")},
    **{f"no such entry, {what}: 11": 200 for what in ("no words", "fit words", "an unfit word")},
    "faulty, longest: 1": 1, "faulty, longest: 2": 2, "empty lists: 0": 250, "empty lists: 2": 150, "empty lists: 11": 250,
    "sized 19": 80, "of a table with 19: 0": 1000, "sentence, tables": 200, "sentence, entries": 500, "sentence, words": 30000,
    "sentence, entries that no word selects": 120, "twins": 6000, "twins by the second": 300,
}


def main():
    path = probe.path_from_arguments()
    rng, tally = random.Random(SEED), Counter()
    check_examples(path)
    some, cases = all_cases(rng)
    compare(path, cases, tally)
    compare_unreached(path, some, cases, tally)
    compare_lookups(path, cases, tally)
    answered = examples.WITHDRAWAL_EXAMPLES + [(case.name, case.question, case.line) for case in cases]
    twinned.compare(path, Twins(SEED), answered, tally)
    check_sentences(some, tally)
    probe.require_enough(tally, LEAST)
    noticed = notice_wrong(cases)
    numbers = ", ".join(f"{number}: {tally[f'number {number}']}" for number in (1, 2, 3, 4, 11, 7, 6))
    turned = ", ".join(f"{how}: {tally[f'turned {how}']}" for how in ("to another", NOTHING, AMBIGUOUS))
    entries = ", ".join(f"the {which}: {tally[f'the {which} entry']}" for which in ("first", "middle", "last", "only"))
    print(f"compare_withdrawal good: {len(cases)} questions to {len(some)} tables; counts over 0: {tally['counts over 0']} ({entries}), "
          f"of 0: {tally['counts of 0']}, {numbers}; words that turned {turned}, renumbered: {tally['renumbered']}; "
          f"by lookups: {tally['by lookups']}, lists with duplicates: {tally['duplicates']}, empty ones: {tally['empty lists: 0']}; "
          f"of tables with 19: {tally['of a table with 19: 0']}; to twins: {tally['twins']}; the sentence on {tally['sentence, words']} "
          f"words of {tally['sentence, tables']} tables; {len(examples.WITHDRAWAL_EXAMPLES)} examples by hand; "
          f"{noticed} of {len(wrong_withdrawal.WRONG)} wrong calls noticed")


if __name__ == "__main__":
    main()

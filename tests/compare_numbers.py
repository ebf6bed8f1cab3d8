"""Compares requests 14 to 16 of probe (operands with a sign or a point) with the second implementation, line for line, and with what is
planned here: numbers by counting up to 2^width, texts by Decimal, and read back as Fraction. Field words with every form and every
fraction are judged by themselves and in tables; tables that differ in forms only must give the same lines. At the end mistakes
(second/wrong_numbers.py) stand in for probe, and each must be noticed.

Usage: compare_numbers.py [path of probe]. Exits with status 1 at the first difference. Quotations are document 02's No. 7.
"""

import contextlib
import decimal
import io
import random
import sys
from collections import Counter
from dataclasses import dataclass, replace
from decimal import Decimal
from fractions import Fraction

import probe
from second import examples, images, reach, selection, tables, tree, wrong_numbers
from second.lines import line_of
from second.reader import read
from second.tables import FIXED, NO_FORM, PLAIN, SIGNED, WITH_CYCLES

SEED = 15
MOST_WIDTH = 10             # up to here every value is asked
LONGEST_TEXT = 23           # of -32768.0000000000000000
MOST_ROOM = 28
KEPT_EACH = 3000            # cases of a source on which mistakes are tried
SECOND_EACH = 10            # of tables that differ in forms, every so many-th line is the second implementation's too
FIELD_KIND = 3
EDGES = (2 ** 31, 2 ** 32, 2 ** 63)


@dataclass
class Case:
    name: str
    question: tuple
    known: str              # the line, as it is planned
    text: tuple = None      # the number and the fraction bits that a text must say


# ---------------------------------------------------------------------------- what is planned

@dataclass(frozen=True)
class Word:
    """A field's word by itself."""
    form: int
    fraction: int
    width: int
    lowest: int = 0
    kind: int = FIELD_KIND

    def laid(self):
        return tables.with_bits(tables.field_word(self.lowest, self.width, self.form, self.fraction), 31, 28, self.kind)

    def fault(self):
        """2, 4, or 0 if there is none: the good ones are listed in tables.py."""
        if self.kind != FIELD_KIND or self.form != FIXED and self.fraction != 0:
            return 2
        return 0 if 1 <= self.width <= 32 and (self.form, self.fraction) in tables.forms_of(self.width) else 4

    def least(self):
        return 0 if self.form == NO_FORM else -2 ** (self.width - 1)

    def number(self, value):
        """"Form 2 is two's complement too": values from the middle on are 2^width too high."""
        return value if self.form == NO_FORM or value < 2 ** (self.width - 1) else value - 2 ** self.width


def refusal(number):
    return f"{number} 0 00000000"


def signed_case(name, word, value):
    fault = word.fault() or (0 if value < 2 ** word.width else 12)
    known = f"14 {refusal(fault)}" if fault else f"14 0 0 00000000 {word.number(value)}"
    return Case(name, ("signed", word.laid(), value), known)


def stored_case(name, word, number):
    fault = word.fault() or (0 if word.least() <= number < word.least() + 2 ** word.width else 12)
    known = f"15 {refusal(fault)}" if fault else f"15 0 0 00000000 {number if number >= 0 else number + 2 ** word.width:08x}"
    return Case(name, ("stored", word.laid(), number), known)


# A quotient that had to be rounded would be no plan.
EXACT = decimal.Context(prec=40, traps=[decimal.Inexact])


def planned_text(number, fraction):
    return f"{EXACT.divide(Decimal(number), Decimal(2 ** fraction)):.{fraction}f}"


def text_case(name, word, value, room):
    fault = word.fault() or (0 if value < 2 ** word.width else 12)
    after, result, said = room, "", None
    if not fault:
        text = planned_text(word.number(value), word.fraction).encode()
        fault = 0 if len(text) <= len(room) else 18
        if not fault:
            after, result, said = text + room[len(text):], f" {len(text)}", (word.number(value), word.fraction)
    known = f"16 {refusal(fault)}{result} |" + "".join(f" {byte:02x}" for byte in after)
    return Case(name, ("text", word.laid(), value, room), known, said)


# ---------------------------------------------------------------------------- every value, and the edges of wide fields

def words_of(rng, width):
    """Good words of a width, in every form; the lowest bit is any."""
    return [Word(form, fraction, width, rng.choice([0, 31, 255, rng.getrandbits(8)])) for form, fraction in tables.forms_of(width)]


def every_value(rng, width):
    for word in words_of(rng, width):
        longest = max(len(planned_text(word.number(value), word.fraction)) for value in (2 ** width - 1, 2 ** (width - 1)))
        for value in range(2 ** width):
            yield signed_case("every value", word, value)
            yield text_case("every value", word, value, rng.randbytes(longest + value % 3))
        for number in range(word.least() - 2, word.least() + 2 ** width + 2):
            yield stored_case("every number", word, number)


def edge_values(rng, width):
    half, end = 2 ** (width - 1), 2 ** width
    some = [0, 1, 2, half - 1, half, half + 1, end - 2, end - 1, end, end + 1, end + half, 0xFFFFFFFF, 0x80000000,
            *(rng.getrandbits(width) for _ in range(6))]
    return sorted({value for value in some if 0 <= value < 2 ** 32})


def edge_numbers(rng, width):
    half, end = 2 ** (width - 1), 2 ** width
    near = [sign * at + step for at in (0, half, end, *EDGES) for sign in (1, -1) for step in (-2, -1, 0, 1, 2)]
    # as some in range, if only the low bits were looked at
    alike = [sign * at + rng.randrange(half) for at in (end, *EDGES) for sign in (1, -1)]
    return sorted({number for number in [*near, *alike, *(rng.randint(-end, end) for _ in range(6))] if -2 ** 63 <= number < 2 ** 63})


def edges(rng):
    for width in range(1, 33):
        for word in words_of(rng, width):
            for value in edge_values(rng, width):
                yield signed_case("edges", word, value)
                yield text_case("edges", word, value, rng.randbytes(rng.choice([LONGEST_TEXT, MOST_ROOM, rng.randint(0, MOST_ROOM)])))
            for number in edge_numbers(rng, width):
                yield stored_case("edges", word, number)


# ---------------------------------------------------------------------------- words by themselves

class Calls:
    """All three calls on a word, in range and out of it; the text has little room, which is judged last."""

    def __init__(self, rng):
        self.rng = rng
        self.values = {width: edge_values(rng, width) for width in range(1, 33)}
        self.numbers = {width: edge_numbers(rng, width) for width in range(1, 33)}

    def on(self, name, word):
        width, some = max(1, min(word.width, 32)), self.rng.choice
        yield signed_case(name, word, some(self.values[width]))
        yield stored_case(name, word, some(self.numbers[width]))
        yield text_case(name, word, some(self.values[width]), self.rng.randbytes(some([0, 0, 1, 2, MOST_ROOM])))


def every_form(rng):
    """All 4,096 values of bits 27-16."""
    calls = Calls(rng)
    for width in (0, 1, 5, 16, 17, 32, 33, 255):
        for bits in range(4096):
            word = Word(bits >> 8, bits & 0xFF, width, rng.choice([0, 1, 31, 32, 255]))
            yield from calls.on("every form", word)


def forms_at_edges(rng):
    """Widths, forms and fractions at and near the limits, each with every lowest bit at which a field might be judged."""
    calls = Calls(rng)
    for width in (0, 1, 2, 15, 16, 17, 18, 31, 32, 33, 64, 255):
        for form in (NO_FORM, SIGNED, FIXED, 3, 4, 15):
            for fraction in {0, 1, abs(width - 1), width, min(width + 1, 255), 15, 16, 17, 18, 32, 255}:
                for lowest in (0, 32 - min(width, 32), 33 - min(width, 32), 255):
                    yield from calls.on("form at an edge", Word(form, fraction, width, lowest))


def other_kinds(rng):
    calls = Calls(rng)
    for kind in range(16):
        if kind != FIELD_KIND:
            for _ in range(40):
                width = rng.choice([0, 1, 8, 32, 33, rng.getrandbits(8)])
                form, fraction = rng.choice([tables.some_form(rng, width), (rng.randrange(16), rng.getrandbits(8))])
                yield from calls.on("other kind", Word(form, fraction, width, rng.getrandbits(8), kind))


# ---------------------------------------------------------------------------- buffers

def words_by_length(rng):
    """Words and values by the length of their text: some of each."""
    found = {length: [] for length in range(1, LONGEST_TEXT + 1)}
    while any(len(some) < 4 for some in found.values()):
        for width in range(1, 33):
            for word in words_of(rng, width):
                value = rng.choice([rng.getrandbits(width), rng.getrandbits(rng.randint(1, width)), 2 ** (width - 1)])
                some = found[len(planned_text(word.number(value), word.fraction))]
                if len(some) < 4:
                    some.append((word, value))
    return found


def rooms(rng):
    """"18, the text buffer is too short, .. buffer unchanged"; "bytes after the text are unchanged"."""
    for length, some in words_by_length(rng).items():
        for word, value in some:
            for room in (*range(MOST_ROOM + 1), 64, 300):
                yield text_case(f"text of {length}, buffer of {room}", word, value, rng.randbytes(room))
                yield text_case("zeros lent", word, value, bytes(room))
            yield text_case("the text lent", word, value, planned_text(word.number(value), word.fraction).encode() * 2)


# ---------------------------------------------------------------------------- forms in a table

def laid_with_middle(rng, kind, width):
    """A table of two entries with three fields each, and the index of the last middle field, which is of this width."""
    fields = [(0, 3), (3, width), (3 + width, 29 - 3 - width)]
    entries = [tables.EntryPlan(number, 32, 7 << 29, number << 29, fields) for number in range(2)]
    laid = tables.lay_out(tables.with_cycles(rng, tables.with_forms(rng, tables.TablePlan(32, entries))), kind)
    return laid, laid.entries[1].fields[1]


def every_form_in_a_table(rng):
    """All 4,096 values of bits 27-16 in a field that is good but for them, and in one that overlaps the field before it."""
    for kind in (PLAIN, WITH_CYCLES):
        for width, lowest, name in ((1, 3, "in a table"), (15, 3, "in a table"), (16, 3, "in a table"), (17, 3, "in a table"),
                                    (16, 2, "in a table, overlapping")):
            laid, place = laid_with_middle(rng, kind, width)
            for bits in range(4096):
                word = Word(bits >> 8, bits & 0xFF, width, lowest)
                fault = word.fault() or (4 if lowest == 2 else 0)
                known = f"1 {fault} {place} 00000000" if fault else "1 0 0 00000000 32 2"
                yield Case(f"{name}, kind {kind}", ("read", [*laid.words[:place], word.laid(), *laid.words[place + 1:]]), known)


# ---------------------------------------------------------------------------- comparing and counting

def check_examples(path):
    """All requests, by hand."""
    questions = [question for _, question, _ in examples.NUMBERS_EXAMPLES]
    for (name, question, expected), seen in zip(examples.NUMBERS_EXAMPLES, probe.ask(path, questions), strict=True):
        probe.stop_at_difference(name, question, expected, seen)


def check_text(case, line, tally):
    """Read back, it is the exact value."""
    number, fraction = case.text
    length = int(line.split(" ")[4])
    text = probe.bytes_left(line)[:length].decode("ascii")
    if Fraction(text) != Fraction(number, 2 ** fraction):
        probe.stop_at_difference(case.name, case.question, f"{number} / 2^{fraction}", text)
    tally["texts read back"] += 1
    tally[f"length {length}"] += 1


def count(case, line, tally):
    call, number = case.question[0], line.split(" ", 2)[1]
    tally[f"{call} {number}"] += 1
    tally[f"{case.name}: {number}"] += 1
    tally["questions"] += 1
    if call == "stored" and number == "0":
        tally["numbers below zero"] += case.question[2] < 0


def compare(path, cases, tally):
    for case, seen in zip(cases, probe.ask(path, [case.question for case in cases]), strict=True):
        probe.stop_at_difference(f"{case.name}, as it is planned", case.question, case.known, seen)
        probe.stop_at_difference(case.name, case.question, line_of(case.question), seen)
        count(case, seen, tally)
        if case.text is not None:
            check_text(case, seen, tally)


def compare_all(path, rng, tally):
    """Gives back some cases of each source, for the mistakes: of the calls, and of tables."""
    of_calls, of_tables = [], []
    # what is rare among them is kept whole
    for source in (edges, every_form, forms_at_edges, other_kinds, rooms, every_form_in_a_table):
        cases = list(source(rng))
        compare(path, cases, tally)
        if source is every_form_in_a_table:
            of_tables = cases
        else:
            of_calls += cases if source is forms_at_edges else rng.sample(cases, min(KEPT_EACH, len(cases)))
    for width in range(1, MOST_WIDTH + 1):
        compare(path, list(every_value(rng, width)), tally)
    rng.shuffle(of_calls)
    rng.shuffle(of_tables)
    return of_calls, of_tables


# ---------------------------------------------------------------------------- tables that differ in forms only

def with_tree(plan):
    """The plan without the entries that no word selects; one with a large tree keeps them."""
    nodes = tree.nodes_of(read(tables.lay_out(plan).words), 300)
    return plan if nodes is None else reach.reachable(plan, nodes)


def plans(rng):
    for width in range(1, 33):
        yield tables.good_plan(rng, width)
        yield tables.overlapping_plan(rng, width, most_entries=6)
        # Every second of these may be refused with 19.
        nested, divided = tables.nested_plan(rng, width, most_entries=6), tables.divided_plan(rng, width)
        yield from (with_tree(nested), divided) if width % 2 else (nested, with_tree(divided))
    yield from (tables.full_tree_plan(rng, 32, depth) for depth in (3, 7))
    yield from (images.image_plan(rng) for _ in range(20))


def sign_bits_set(rng, entry):
    """The fields' values with one that is a number below zero in 32 bits; None if no field is narrower."""
    narrow = [at for at, (_, width) in enumerate(entry.fields) if width < 32]
    if not narrow:
        return None
    values = [rng.getrandbits(width) for _, width in entry.fields]
    at = rng.choice(narrow)
    values[at] = 2 ** 32 - 1 - rng.getrandbits(entry.fields[at][1] - 1)
    return values


def questions_on(rng, plan, words):
    """Every call that takes a table."""
    yield ("read", words)
    for _ in range(3):
        word = tables.word_for(rng, plan)
        yield ("lookup", words, word)
        yield ("decode", words, word, [rng.getrandbits(32) for _ in range(9)])
    for number, entry in enumerate(plan.entries[:6]):
        yield ("encode", words, number, tables.values_in(entry, tables.word_on(rng, plan.width, [(entry.mask, entry.value)])))
        values = sign_bits_set(rng, entry)
        if values is not None:
            yield ("encode", words, number, values)
        yield ("cycles", words, number)
    yield ("generate", words, [rng.getrandbits(32) for _ in range(300)])
    yield ("measure", words)


def questions_with_tree(rng, plan, words):
    """With the second implementation's tree, if it is small; where the table is for images, of an image too."""
    nodes = tree.nodes_of(read(words), 300)
    if nodes is None or tree.conflict_word(nodes) is not None:
        return
    lent = tree.written(plan.width, nodes)
    yield ("check", words, lent)
    if plan.width == 32 and all(entry.length in (16, 32) for entry in plan.entries):
        data = images.some_image(rng, plan)
        yield ("list", words, lent, data, [7] * (len(data) // 2))
        yield ("step", words, lent, data, rng.randrange(len(data) // 2 + 1))


def asked_of_plain(rng):
    """(plan, question): of tables whose fields are all plain, of kind 1 and of kind 6."""
    for plan in plans(rng):
        plan = tables.TablePlan(plan.width, [replace(entry, forms=[]) for entry in plan.entries])
        for laid in tables.lay_out_both(rng, plan):
            for question in (*questions_on(rng, plan, laid.words), *questions_with_tree(rng, plan, laid.words)):
                yield laid.plan, question


def with_other_forms(rng, asked):
    """The same questions about tables with forms."""
    known = {}
    for plan, question in asked:
        words = question[1]
        if tuple(words) not in known:
            known[tuple(words)] = tables.lay_out(tables.with_forms(rng, plan), words[0] >> 28).words
        yield question[0], known[tuple(words)], *question[2:]


def compare_forms(path, rng, asked, tally, ask=probe.ask):
    """"Encoding and decoding keep to stored values", and nothing else that takes a table depends on forms."""
    others = list(with_other_forms(rng, asked))
    of_plain, of_others = ask(path, [question for _, question in asked]), ask(path, others)
    for number, ((_, plain), other, line, seen) in enumerate(zip(asked, others, of_plain, of_others, strict=True)):
        probe.stop_at_difference("a table with other forms", other, line, seen)
        if number % SECOND_EACH == 0:
            probe.stop_at_difference("a table with other forms, by the second", other, line_of(other), seen)
        if plain[1] != other[1]:
            tally[f"other forms, {plain[0]} {line.split(' ', 2)[1]}"] += 1
            tally["other forms"] += 1


# ---------------------------------------------------------------------------- what must be noticed

@contextlib.contextmanager
def mistaken(home, name, wrong):
    """The second implementation with a mistake."""
    right = getattr(home, name)
    setattr(home, name, wrong)
    try:
        yield
    finally:
        setattr(home, name, right)


def notice(wrong, cases, where):
    """By now the lines are right."""
    for home, name, mistake in wrong:
        with mistaken(home, name, mistake):
            if all(line_of(case.question) == case.known for case in cases):
                sys.exit(f"no case shows it, {where}: {mistake.__doc__}")
    return len(wrong)


def is_stopped(asked, ask):
    try:
        with contextlib.redirect_stdout(io.StringIO()):
            compare_forms(None, random.Random(SEED), asked, Counter(), ask)
    except SystemExit:
        return True
    return False


def notice_in_forms(rng, asked):
    """Lines that depend on forms are noticed, and right ones pass."""
    few = [(plan, question) for plan, question in rng.sample(asked, 1500) if question[0] in ("lookup", "decode", "encode")]

    def lines(path, questions):
        return [line_of(question) for question in questions]
    if is_stopped(few, lines):
        sys.exit("right lines about tables with forms are taken for wrong ones")
    for name, mistake in wrong_numbers.WRONG_SELECTION.items():
        with mistaken(selection, name, mistake):
            if not is_stopped(few, lines):
                sys.exit(f"no table with forms shows it: {mistake.__doc__}")
    return len(wrong_numbers.WRONG_SELECTION)


# Of every width up to the greatest that is asked in full, and of every form.
EVERY_FORM = sum(len(tables.forms_of(width)) for width in range(1, MOST_WIDTH + 1))
EVERY_VALUE = sum(2 ** width * len(tables.forms_of(width)) for width in range(1, MOST_WIDTH + 1))

LEAST = {
    "every value: 0": 2 * EVERY_VALUE, "every number: 0": EVERY_VALUE, "every number: 12": 4 * EVERY_FORM,
    "signed 0": 30000, "signed 2": 30000, "signed 4": 2500, "signed 12": 2000,
    "stored 0": 30000, "stored 2": 30000, "stored 4": 2500, "stored 12": 8000, "numbers below zero": 12000,
    "text 0": 30000, "text 2": 30000, "text 4": 2500, "text 12": 2000, "text 18": 2000, "texts read back": 30000,
    **{f"length {length}": 50 for length in range(1, LONGEST_TEXT + 1)},
    **{f"text of {length}, buffer of {room}: {0 if length <= room else 18}": 4
       for length in range(1, LONGEST_TEXT + 1) for room in range(MOST_ROOM + 1)},
    **{f"in a table, kind {kind}: {number}": least for kind in (PLAIN, WITH_CYCLES) for number, least in ((0, 58), (2, 15000), (4, 1000))},
    **{f"in a table, overlapping, kind {kind}: {number}": least for kind in (PLAIN, WITH_CYCLES) for number, least in ((2, 3800), (4, 268))},
    "every form: 0": 60, "every form: 2": 90000, "every form: 4": 6000, "other kind: 2": 1800,
    "other forms": 5000, "other forms, read 0": 200, "other forms, lookup 0": 300, "other forms, lookup 6": 20,
    "other forms, decode 0": 300, "other forms, encode 0": 300, "other forms, encode 12": 700, "other forms, encode 13": 100,
    "other forms, generate 0": 100, "other forms, measure 0": 100, "other forms, check 0": 100, "other forms, list 0": 20,
    "other forms, generate 6": 50, "other forms, measure 6": 50, "other forms, generate 19": 50, "other forms, measure 19": 50,
    "other forms, step 0": 20, "other forms, cycles 0": 700,
}


def main():
    path = probe.path_from_arguments()
    rng, tally = random.Random(SEED), Counter()
    check_examples(path)
    of_calls, of_tables = compare_all(path, rng, tally)
    asked = list(asked_of_plain(rng))
    compare_forms(path, rng, asked, tally)
    probe.require_enough(tally, LEAST)
    noticed = notice(wrong_numbers.WRONG, of_calls, "by itself")
    in_tables = notice(wrong_numbers.WRONG_IN_TABLES, of_tables, "in a table")
    in_forms = notice_in_forms(rng, asked)
    calls = "; ".join(f"{call} " + ", ".join(f"{number}: {tally[f'{call} {number}']}" for number in (0, 2, 4, 12, 18) if tally[f"{call} {number}"])
                      for call in ("signed", "stored", "text", "read"))
    print(f"compare_numbers good: {tally['questions']} questions; {calls}; {tally['texts read back']} texts read back; "
          f"{tally['other forms']} lines of tables that differ in forms; {len(examples.NUMBERS_EXAMPLES)} examples by hand; "
          f"noticed: {noticed} wrong calls, {in_tables} wrong ways in tables, {in_forms} that depend on forms")


if __name__ == "__main__":
    main()

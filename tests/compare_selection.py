"""Compares requests 2, 5 and 6 of probe (lookup, decode, encode) with the second implementation, line for line,
and then checks probe's own answers by round trips that don't use the second implementation, and asks the same about twins of the
other kind.

Usage: compare_selection.py [path of probe]. Exits with status 1 at the first difference.
"""

import random
import sys
from collections import Counter
from dataclasses import dataclass

import probe
import twinned
from second import examples, tables
from second.lines import line_of
from second.twins import Twins, kind_of

SEED = 2
TABLES = 2400


@dataclass
class Case:
    name: str
    plan: tables.TablePlan      # None where the table is damaged or written by hand
    question: tuple
    expected: str = None


# ---------------------------------------------------------------------------- tables

def some_plan(rng, width):
    style = rng.random()
    if style < 0.55:
        return tables.overlapping_plan(rng, width)
    if style < 0.75:
        # No conditions: what is ambiguous here is so by patterns alone.
        return tables.overlapping_plan(rng, width, most_entries=5, conditions_often=0)
    if style < 0.98:
        return tables.good_plan(rng, width, conditions_often=0.5)
    return tables.small_entries_plan(rng, width, rng.choice([100, 256]))


# ---------------------------------------------------------------------------- questions

def asked_word(rng, plan):
    """A word to look up or decode, now and then one with a bit at or above the width."""
    if rng.random() < 0.12:
        high = tables.high_word(rng, plan)
        if high is not None:
            return high
    return tables.word_for(rng, plan)


def random_buffer(rng, length):
    return [rng.getrandbits(32) for _ in range(length)]


def fitting_values(rng, entry):
    return [rng.getrandbits(width) for _, width in entry.fields]


def too_large(rng, width):
    """A value that doesn't fit, most often the first that doesn't."""
    return rng.choice([1 << width, 1 << width, (1 << width) + rng.getrandbits(width), 0xFFFFFFFF])


def values_one_too_large(rng, entry):
    """Values of which one or two don't fit; None if every field takes any word."""
    narrow = [position for position, (_, width) in enumerate(entry.fields) if width < 32]
    if not narrow:
        return None
    values = fitting_values(rng, entry)
    for position in rng.sample(narrow, min(len(narrow), rng.choice([1, 1, 2]))):
        values[position] = too_large(rng, entry.fields[position][1])
    return values


def absent_entry(rng, plan):
    """A number that no entry has; some of them look like one when only their low bits are looked at."""
    count = len(plan.entries)
    return rng.choice([count, count, count + 1, 256 + count // 2, 0x10000, 0x80000000, 0xFFFFFFFF, rng.randint(257, 2 ** 32 - 1)])


def wrong_count(rng, entry):
    """A number of values that isn't the number of fields."""
    right = len(entry.fields)
    return rng.choice([count for count in (0, right - 1, right + 1, right + 2, 8, 9, 300) if count >= 0 and count != right])


def any_values(rng, count):
    return [rng.choice([0, 1, 0xFFFFFFFF, rng.getrandbits(32)]) for _ in range(count)]


def encode_questions(rng, plan):
    """(name, entry, values)"""
    yield "no such entry", absent_entry(rng, plan), any_values(rng, rng.randint(0, 9))
    if not plan.entries:
        return
    number = rng.randrange(len(plan.entries))
    entry = plan.entries[number]
    yield "random values", number, fitting_values(rng, entry)
    if rng.random() < 0.5:
        yield "wrong count", number, any_values(rng, wrong_count(rng, entry))
    if rng.random() < 0.5:
        yield "no such entry, its values", absent_entry(rng, plan), fitting_values(rng, entry)
    values = values_one_too_large(rng, entry)
    if values is not None:
        yield "one too large", number, values
    # The values of a word in every entry it matches: most of them don't get that word.
    word = tables.word_for(rng, plan)
    matching = [other for other, entry in enumerate(plan.entries) if word & entry.mask == entry.value]
    for other in rng.sample(matching, min(3, len(matching))):
        yield "values of a word", other, tables.values_in(plan.entries[other], word)


def questions_on(rng, plan, words, lengths):
    """(name, question) for one table; `words` may be damaged, the plan is then only a source of numbers."""
    for _ in range(3):
        yield "lookup", ("lookup", words, asked_word(rng, plan))
    for length in lengths:
        yield "decode", ("decode", words, asked_word(rng, plan), random_buffer(rng, length))
    for name, entry, values in encode_questions(rng, plan):
        yield "encode, " + name, ("encode", words, entry, values)


def buffer_lengths(index):
    """Every length 0 to 12 in turn, and then two that are long enough."""
    return [index % 13, 8, 8 + index % 5]


def random_cases(rng):
    for index in range(TABLES):
        plan = some_plan(rng, 1 + index % 32)
        bad = rng.random() < 0.12
        # 1 to 4 come before every other number.
        words = tables.some_damaged(rng, plan) if bad else tables.lay_out(plan).words
        for name, question in questions_on(rng, plan, words, buffer_lengths(index)):
            yield Case(name, None if bad else plan, question)


def hand_written():
    return [Case(name, None, question, line) for name, question, line in examples.SELECTION_EXAMPLES]


# ---------------------------------------------------------------------------- round trips on probe's answers

@dataclass
class Answer:
    """A line taken apart."""
    number: int
    place: int
    word: int
    result: str     # None after a refusal
    buffer: list


def taken_apart(line):
    front, _, back = line.partition(" |")
    parts = front.split(" ")
    result = parts[4] if len(parts) > 4 else None
    return Answer(int(parts[1]), int(parts[2]), int(parts[3], 16), result, [int(word, 16) for word in back.split()])


def encoded_again(case, answer):
    """For a word that decoded to an entry: the question that encodes it, and what may be said."""
    _, words, word, _ = case.question
    number = int(answer.result)
    entry = case.plan.entries[number]
    below = case.plan.width - entry.length
    kept = word >> below << below
    allowed = [f"6 0 0 00000000 {kept:08x}"]
    if below > 0:
        # The bits below are zero now, so the word may belong to a longer entry.
        allowed.append(f"6 13 0 {kept:08x}")
    return ("encode", words, number, answer.buffer[:len(entry.fields)]), allowed


def decoded_again(case, answer):
    """For values that encoded to a word: the question that decodes it, and what must be said."""
    _, words, number, values = case.question
    filler = [0x5A5A5A5A] * 9
    after = values + filler[len(values):]
    line = f"5 0 0 00000000 {number} | " + " ".join(f"{word:08x}" for word in after)
    return ("decode", words, int(answer.result, 16), filler), [line]


def round_trips(cases, answers):
    """(case, question, allowed lines) for every answer that can be turned back."""
    for case, answer in zip(cases, answers, strict=True):
        if case.plan is None or answer.number != 0 or answer.result == "nothing":
            continue
        if case.question[0] == "decode":
            yield case, *encoded_again(case, answer)
        if case.question[0] == "encode":
            yield case, *decoded_again(case, answer)


def check_round_trips(path, cases, answers, tally):
    trips = list(round_trips(cases, answers))
    lines = probe.ask(path, [question for _, question, _ in trips])
    for (case, question, allowed), seen in zip(trips, lines, strict=True):
        if seen not in allowed:
            probe.stop_at_difference(f"round trip of {case.name}", question, " or ".join(allowed), seen)
        tally["round trip of " + case.question[0]] += 1
        if seen.startswith("6 13 "):
            tally["round trip to a longer entry"] += 1


# ---------------------------------------------------------------------------- counting

def outcome_of(answer):
    if answer.number == 12:
        return "12 at 0" if answer.place == 0 else "12 later"
    if answer.number != 0:
        return str(answer.number)
    return "nothing" if answer.result == "nothing" else "answered"


def count(case, answer, tally):
    kind = case.question[0]
    tally[f"{kind} {outcome_of(answer)}"] += 1
    if kind == "decode":
        tally[f"buffer of {len(case.question[3])}"] += 1
        if answer.number == 0 and answer.buffer[:1] != case.question[3][:1]:
            tally["fields written"] += 1
    if case.plan is not None:
        tally[f"width {case.plan.width}"] += 1
    if answer.number in (2, 3, 4):
        tally[f"kind {kind_of(case.question[1])}, faulty"] += 1


LEAST = {
    "lookup answered": 800, "lookup nothing": 300, "lookup 6": 300, "lookup 7": 300,
    "lookup 1": 20, "lookup 2": 50, "lookup 3": 20, "lookup 4": 50,
    "decode answered": 800, "decode nothing": 300, "decode 6": 300, "decode 7": 300, "decode 10": 300,
    "decode 1": 20, "decode 2": 50, "decode 3": 20, "decode 4": 50,
    "encode answered": 800, "encode 11": 800, "encode 12 at 0": 200, "encode 12 later": 200, "encode 13": 800,
    "encode 1": 20, "encode 2": 50, "encode 3": 20, "encode 4": 50,
    "fields written": 400,
    "round trip of decode": 800, "round trip of encode": 800, "round trip to a longer entry": 10,
    **{f"buffer of {length}": 100 for length in range(13)},
    **{f"width {width}": 200 for width in range(1, 33)},
    "kind 1, faulty": 800, "kind 6, faulty": 800, "twins": 20000, "twins by the second": 1000,
}


def summary(tally, kind):
    outcomes = ("answered", "nothing", "1", "2", "3", "4", "6", "7", "10", "11", "12 at 0", "12 later", "13")
    return f"{kind} " + ", ".join(f"{one}: {tally[f'{kind} {one}']}" for one in outcomes if tally[f"{kind} {one}"])


def main():
    path = probe.path_from_arguments()
    cases = hand_written() + list(random_cases(random.Random(SEED)))
    lines = probe.ask(path, [case.question for case in cases])
    answers, tally = [], Counter()
    for case, seen in zip(cases, lines, strict=True):
        expected = case.expected or line_of(case.question)
        probe.stop_at_difference(case.name, case.question, expected, seen)
        answers.append(taken_apart(seen))
        count(case, answers[-1], tally)
    check_round_trips(path, cases, answers, tally)
    twinned.compare(path, Twins(SEED), [(case.name, case.question, seen) for case, seen in zip(cases, lines)], tally)
    probe.require_enough(tally, LEAST)
    kinds = "; ".join(summary(tally, kind) for kind in ("lookup", "decode", "encode"))
    trips = tally["round trip of decode"] + tally["round trip of encode"]
    print(f"compare_selection good: {TABLES} tables, {len(cases)} questions; {kinds}; round trips: {trips}; "
          f"questions to twins: {tally['twins']}")


if __name__ == "__main__":
    main()

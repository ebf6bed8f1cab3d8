"""How far one withdrawn entry reaches, written from document 02's No. 13 alone. Quotations are sentences of it.

Two tables are compared, the whole one and "the one that lacks a single entry". Whether a word selected the entry isn't asked.
"""

from dataclasses import replace

from second.reader import Refusal
from second.selection import AMBIGUOUS, NOTHING, has_high_bit, read_once, select


def answers_before(table, listed):
    """What each word of the list selects in the whole table, or the Refusal of "the first unfit word of the list"."""
    answers = []
    for word in listed:
        # "7, or 6 if it was ambiguous before the withdrawal"
        if has_high_bit(table, word):
            return Refusal(7)
        answers.append(select(table, word))
        if answers[-1] == AMBIGUOUS:
            return Refusal(6, word=word)
    return answers


def without(table, entry):
    """"the one that lacks a single entry": the entries as they were read, less this one."""
    return replace(table, entries=table.entries[:entry] + table.entries[entry + 1:])


def in_old_numbers(answer, entry):
    """"renumbering not": an answer of the table without the entry, as the whole table numbers it."""
    if answer in (NOTHING, AMBIGUOUS) or answer < entry:
        return answer
    return answer + 1


def answers_after(table, entry, listed):
    """What each word of the list selects without the entry, in the numbers of the whole table."""
    fewer = without(table, entry)
    return [in_old_numbers(select(fewer, word), entry) for word in listed]


def changed(words, entry, listed):
    """How many words of the list "change their answer, turning ambiguous included, renumbering not"; or a Refusal."""
    # "After the table's faults it gives 11 for no such entry, then for the first unfit word of the list 7, or 6"
    table = read_once(tuple(words))
    if isinstance(table, Refusal):
        return table
    if entry >= len(table.entries):
        return Refusal(11)
    before = answers_before(table, listed)
    if isinstance(before, Refusal):
        return before
    return sum(old != new for old, new in zip(before, answers_after(table, entry, listed), strict=True))

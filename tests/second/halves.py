"""The last halfword of an image, written from document 02's No. 6 alone: all 65,536 lower halves are tried. Quotations are sentences of
No. 6 where nothing else is said.

They are tried side by side. A set of lower halves is one number of 65,536 bits, whose bit l is 1 if the lower half l is in the set: so a
pattern, a condition and an entry are asked once for all of them. compare_halves.py tries lower halves one by one, and must find the same.
"""

from second.reader import bits
from second.selection import AMBIGUOUS, NOTHING, more_specific

LOWER_HALVES = 65536
ALL = 2 ** LOWER_HALVES - 1
NONE = 0


def those_with(bit):
    """The lower halves in which this bit is 1: of each 2 ** (bit + 1) that follow one another the upper half."""
    found, size = ALL >> (LOWER_HALVES - 2 ** bit) << 2 ** bit, 2 ** (bit + 1)
    while size < LOWER_HALVES:
        found, size = found | found << size, 2 * size
    return found


WITH_BIT = [those_with(bit) for bit in range(16)]


def having(upper, bit):
    """The lower halves with which the word has a 1 there. The upper half is in the image: of its bits all of them say the same."""
    if bit >= 16:
        return ALL if bits(upper, bit - 16, bit - 16) == 1 else NONE
    return WITH_BIT[bit]


def matching(upper, pattern):
    # Document 01: "A word matches a pattern when word AND mask equals value."
    found = ALL
    for bit in sorted(pattern.mask, reverse=True):
        found &= having(upper, bit) if bit in pattern.value else ALL ^ having(upper, bit)
        if found == NONE:
            break
    return found


def satisfying(upper, condition):
    # Document 01: "A condition is satisfied when the word matches its matching pattern and none of its unmatching patterns."
    found = matching(upper, condition.matching)
    for pattern in condition.unmatching:
        found &= ALL ^ matching(upper, pattern)
    return found


def claiming(upper, entry):
    # Document 01: "An entry claims a word that matches its opcode pattern and satisfies none of its conditions."
    found = matching(upper, entry.opcode)
    for condition in entry.conditions:
        if found != NONE:
            found &= ALL ^ satisfying(upper, condition)
    return found


def together(some):
    found = NONE
    for one in some:
        found |= one
    return found


def selecting(table, upper):
    """The answers that are given with some lower half (entries' numbers, NOTHING, AMBIGUOUS), each with its lower halves."""
    claims = {number: claiming(upper, entry) for number, entry in enumerate(table.entries)}
    claims = {number: lowers for number, lowers in claims.items() if lowers != NONE}
    # Document 01: "The selected entry is the claiming one that is more specific than every other claiming one."
    answers = {number: lowers & (ALL ^ together(claims[other] for other in claims if other != number and not
                                                more_specific(table.entries[number], table.entries[other])))
               for number, lowers in claims.items()}
    # Document 01: "With no claim the answer is nothing." "With claims and no such entry the word is ambiguous."
    answers[NOTHING] = ALL ^ together(claims.values())
    answers[AMBIGUOUS] = ALL ^ together(answers.values())
    return {answer: lowers for answer, lowers in answers.items() if lowers != NONE}


def kind_and_entry(table, upper):
    """The item's kind "With the lower half missing", and its entry, 0 where it has none."""
    answers = selecting(table, upper)
    # A tree that the checker accepts has no room for an ambiguous word.
    assert AMBIGUOUS not in answers
    same = next((answer for answer, lowers in answers.items() if lowers == ALL), None)
    # "kind 13 if all of them select nothing,"
    if same == NOTHING:
        return 13, 0
    # "kind 12 exactly if all 65,536 lower halves select the same entry of length 16,"
    if same is not None and table.entries[same].length == 16:
        return 12, same
    # "and kind 14 otherwise."
    return 14, 0

"""Lookup, decoding and encoding, written from document 01 alone (its Selection, Fields and Causes).

Each call reads the table first, because 1 to 4 come before every other number.
"""

from functools import lru_cache

from second.reader import Refusal, ones, read

NOTHING = "nothing"
AMBIGUOUS = "ambiguous"


@lru_cache(maxsize=64)
def read_once(words):
    """The same reading again for the same words; a test asks many questions about one table."""
    return read(words)


def matches(word_bits, pattern):
    # "A word matches a pattern when word AND mask equals value."
    return word_bits & pattern.mask == pattern.value


def satisfied(word_bits, condition):
    # "A condition is satisfied when the word matches its matching pattern and none of its unmatching patterns."
    if not matches(word_bits, condition.matching):
        return False
    for pattern in condition.unmatching:
        if matches(word_bits, pattern):
            return False
    return True


def claims(word_bits, entry):
    # "An entry claims a word that matches its opcode pattern and satisfies none of its conditions."
    if not matches(word_bits, entry.opcode):
        return False
    for condition in entry.conditions:
        if satisfied(word_bits, condition):
            return False
    return True


def more_specific(e, f):
    # "Entry e is more specific than f when e's opcode mask holds every bit of f's and at least one more,
    # and the values agree on f's mask."
    holds_all = f.opcode.mask <= e.opcode.mask
    holds_more = len(e.opcode.mask - f.opcode.mask) > 0
    agree = all((bit in e.opcode.value) == (bit in f.opcode.value) for bit in f.opcode.mask)
    return holds_all and holds_more and agree


def select(table, word):
    """The number of the selected entry, NOTHING or AMBIGUOUS, for a word of the width."""
    word_bits = ones(word)
    claiming = [number for number, entry in enumerate(table.entries) if claims(word_bits, entry)]
    # "With no claim the answer is nothing."
    if not claiming:
        return NOTHING
    # "The selected entry is the claiming one that is more specific than every other claiming one."
    for number in claiming:
        others = [other for other in claiming if other != number]
        if all(more_specific(table.entries[number], table.entries[other]) for other in others):
            return number
    # "With claims and no such entry the word is ambiguous."
    return AMBIGUOUS


def has_high_bit(table, word):
    # "A word of the width has no bit at or above it."
    return any(bit >= table.width for bit in ones(word))


def lookup(words, word):
    """An entry's number, NOTHING or a Refusal. Order: 1 to 4, then "lookup 7, 6"."""
    table = read_once(tuple(words))
    if isinstance(table, Refusal):
        return table
    if has_high_bit(table, word):
        return Refusal(7)
    answer = select(table, word)
    if answer == AMBIGUOUS:
        return Refusal(6, word=word)
    return answer


def field_value(word, field):
    """The bits of a word that a field takes, its lowest bit as bit 0 of the value."""
    word_bits = ones(word)
    return sum(2 ** step for step in range(field.width) if field.lowest + step in word_bits)


def decode(words, word, buffer):
    """The outcome as for lookup, and the buffer after it. Order: 1 to 4, then "decoding 10, 7, 6"."""
    after = list(buffer)
    table = read_once(tuple(words))
    if isinstance(table, Refusal):
        return table, after
    # "field buffer under 8 words": 10, whatever the entry would need.
    if len(buffer) < 8:
        return Refusal(10), after
    if has_high_bit(table, word):
        return Refusal(7), after
    answer = select(table, word)
    if answer == AMBIGUOUS:
        return Refusal(6, word=word), after
    # "The answer nothing writes nothing."
    if answer == NOTHING:
        return NOTHING, after
    # "Decoding writes field values in table order to the first words of the buffer; the rest is unchanged."
    for position, field in enumerate(table.entries[answer].fields):
        after[position] = field_value(word, field)
    return answer, after


def made_word(entry, values):
    # "Encoding places the values in the opcode value, bits below the entry's own bits zero."
    word_bits = set(entry.opcode.value)
    for field, value in zip(entry.fields, values):
        for step in range(field.width):
            if step in ones(value):
                word_bits.add(field.lowest + step)
    return sum(2 ** bit for bit in word_bits)


def encode(words, entry, values):
    """The word made, or a Refusal. Order: 1 to 4, then "encoding 11, 12, 13"."""
    table = read_once(tuple(words))
    if isinstance(table, Refusal):
        return table
    # "no such entry, or wrong count of values": 11.
    if entry >= len(table.entries):
        return Refusal(11)
    chosen = table.entries[entry]
    if len(values) != len(chosen.fields):
        return Refusal(11)
    # "value does not fit its field": 12, "index of the first such value".
    for index, (field, value) in enumerate(zip(chosen.fields, values)):
        if value >= 2 ** field.width:
            return Refusal(12, place=index)
    # "word made does not select that entry": 13, the word; also when it is ambiguous or selects nothing.
    word = made_word(chosen, values)
    if select(table, word) != entry:
        return Refusal(13, word=word)
    return word

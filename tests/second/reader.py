"""A second reader of pattern tables, written from document 01 alone; cycles from document 02's No. 3, forms of fields from its No. 7.

It reads a table the way one does by hand: word after word, each word judged as soon as it is read,
bit positions kept as sets of numbers. Quotations in the comments are sentences of document 01 where nothing else is said.
"""

from dataclasses import dataclass


@dataclass(frozen=True)
class Refusal:
    """A cause's number with the place or word that is returned with it (zero where there is none)."""
    number: int
    place: int = 0
    word: int = 0


@dataclass(frozen=True)
class Pattern:
    """A mask and a value, each as the set of positions of its 1 bits."""
    mask: frozenset
    value: frozenset


@dataclass(frozen=True)
class Field:
    lowest: int
    width: int
    form: int
    fraction: int


@dataclass(frozen=True)
class Condition:
    matching: Pattern
    unmatching: tuple


@dataclass(frozen=True)
class Entry:
    label: int
    length: int
    opcode: Pattern
    cycles: int
    fields: tuple
    conditions: tuple


@dataclass(frozen=True)
class Table:
    width: int
    entries: tuple


class Fault(Exception):
    """The first faulty place; raising it ends the reading, so no later place is looked at."""

    def __init__(self, number, place):
        super().__init__(number, place)
        self.number = number
        self.place = place


class Reading:
    """The words of a table and the index of the next one to be read."""

    def __init__(self, words):
        self.words = words
        self.next = 0

    def take(self):
        # "table ends early": number 2, "table length if early".
        if self.next >= len(self.words):
            raise Fault(2, len(self.words))
        word = self.words[self.next]
        self.next += 1
        return word


def bits(word, high, low):
    """Bits high to low of a word, as a number. "Bit 0 is the lowest"."""
    return (word >> low) % 2 ** (high - low + 1)


def ones(word):
    """The positions of the bits of a word that are 1."""
    return frozenset(position for position in range(32) if bits(word, position, position) == 1)


def read(words):
    """The table that these words write, or the refusal with its number and place."""
    try:
        return read_table(words)
    except Fault as fault:
        return Refusal(fault.number, fault.place)


def read_table(words):
    # "A table is a run of 32-bit words, at most 16,384." "table empty, too long": 1, place 0.
    if len(words) == 0 or len(words) > 16384:
        raise Fault(1, 0)
    reading = Reading(words)
    count, width, with_cycles = read_first_word(reading)
    entries = tuple(read_entry(reading, width, with_cycles) for _ in range(count))
    # "Nothing follows the last entry." "words left over": 2, the index of the first of them.
    if reading.next < len(words):
        raise Fault(2, reading.next)
    return Table(width, entries)


def read_first_word(reading):
    # "Kind 1, first word: bits 27-16 number of entries (0-256), bits 7-0 width in bits (1-32)."
    # Whatever is wrong in it is "wrong first word": 1, "of two at one word the lower".
    # Document 02: "A table that begins with kind 6 in place of kind 1 has" cycles. The rest of the word is the same.
    word = reading.take()
    kind = bits(word, 31, 28)
    count = bits(word, 27, 16)
    width = bits(word, 7, 0)
    if kind not in (1, 6):
        raise Fault(1, 0)
    if bits(word, 15, 8) != 0:
        raise Fault(1, 0)
    if count > 256:
        raise Fault(1, 0)
    if width < 1 or width > 32:
        raise Fault(1, 0)
    return count, width, kind == 6


def read_head(reading, kind, spare_high=None, spare_low=None):
    """A head word of this kind and its index; "bits not named are zero" (the spare bits, if it has any)."""
    place = reading.next
    word = reading.take()
    if bits(word, 31, 28) != kind:
        raise Fault(2, place)
    if spare_high is not None and bits(word, spare_high, spare_low) != 0:
        raise Fault(2, place)
    return word, place


def read_pattern(reading, own):
    """A mask and a value: two plain words."""
    place = reading.next
    mask = ones(reading.take())
    # "a mask only once its value is there": the value is taken before the mask is judged.
    value = ones(reading.take())
    # "Every mask of an entry lies in its own bits, and a value has no bit outside its mask."
    if not mask <= own or not value <= mask:
        raise Fault(3, place)
    return Pattern(mask, value)


def read_cycles(reading):
    # Document 02: "a word with its cycles, 0 to 65,535, upper bits zero, else number 2".
    place = reading.next
    word = reading.take()
    if bits(word, 31, 16) != 0:
        raise Fault(2, place)
    return word


def read_entry(reading, width, with_cycles):
    # "Kind 2, entry: bits 27-16 label, bits 15-8 length in bits (1 to width), bits 7-4 fields (0-8),
    # bits 3-0 conditions (0-8). Two plain words follow, mask and value." It has no spare bit.
    head, place = read_head(reading, 2)
    label = bits(head, 27, 16)
    length = bits(head, 15, 8)
    field_count = bits(head, 7, 4)
    condition_count = bits(head, 3, 0)
    if length < 1 or length > width:
        raise Fault(2, place)
    if field_count > 8 or condition_count > 8:
        raise Fault(2, place)
    # "its own bits are width-1 down to width-length".
    own = frozenset(range(width - length, width))
    opcode = read_pattern(reading, own)
    # Document 02: "after each entry's value word, a word with its cycles"; "Kind 1 tables are still read, with cycles 0."
    cycles = read_cycles(reading) if with_cycles else 0
    # "After an entry come its fields, then its conditions".
    covered = set(opcode.mask)
    fields = tuple(read_field(reading, own, covered) for _ in range(field_count))
    # "Opcode mask and fields together cover each own bit once": no overlap was let through, so what is left
    # to ask is whether every own bit is there. "cover is checked after the last field".
    if covered != own:
        raise Fault(4, place)
    conditions = tuple(read_condition(reading, own) for _ in range(condition_count))
    return Entry(label, length, opcode, cycles, fields, conditions)


PLAIN, TWOS_COMPLEMENT, FIXED_POINT = 0, 1, 2      # "bits 27-24 for the form: 0 plain, 1 two's complement, 2 fixed point"
MOST_FRACTION = 16                                 # "for form 2 bits 23-16 for the fraction bits, 0 to 16"


def form_of(word):
    """The form in a field's word, and bits 23-16."""
    return bits(word, 27, 24), bits(word, 23, 16)


def spare_bit_set(word):
    # No. 7: "bits 23-16 stay spare for all other forms" than 2; a form over 2 is one of them.
    form, fraction = form_of(word)
    return form != FIXED_POINT and fraction != 0


def form_at_fault(word):
    # No. 7: "A form over 2, or fraction bits over 16 or over the field's width, gives 4."
    form, fraction = form_of(word)
    if form not in (PLAIN, TWOS_COMPLEMENT, FIXED_POINT):
        return True
    return fraction > MOST_FRACTION or fraction > bits(word, 7, 0)


def read_field(reading, own, covered):
    """One field; its bits are added to the covered ones."""
    # "Kind 3, field: bits 15-8 its lowest bit, bits 7-0 its width in bits."
    head, place = read_head(reading, 3)
    # "of two at one word the lower": a spare bit is 2, and what follows is 4.
    if spare_bit_set(head):
        raise Fault(2, place)
    if form_at_fault(head):
        raise Fault(4, place)
    lowest = bits(head, 15, 8)
    width = bits(head, 7, 0)
    its_bits = set(range(lowest, lowest + width))
    # "field of width 0, outside own bits, or overlapping mask or earlier field": 4, "index of the field".
    if width == 0:
        raise Fault(4, place)
    if not its_bits <= own:
        raise Fault(4, place)
    if its_bits & covered:
        raise Fault(4, place)
    covered |= its_bits
    return Field(lowest, width, *form_of(head))


def read_condition(reading, own):
    # "Kind 4, exclusion condition: bits 3-0 number of unmatching patterns (0-8);
    # mask and value of its matching pattern follow."
    head, place = read_head(reading, 4, 27, 4)
    count = bits(head, 3, 0)
    if count > 8:
        raise Fault(2, place)
    matching = read_pattern(reading, own)
    unmatching = tuple(read_unmatching(reading, own) for _ in range(count))
    return Condition(matching, unmatching)


def read_unmatching(reading, own):
    # "Kind 5, unmatching pattern: mask and value follow."
    read_head(reading, 5, 27, 0)
    return read_pattern(reading, own)

"""Writes operands with their numbers and texts for numbers_test.c, made by the second implementation.

Usage: make_numbers.py file. 32-bit words, low byte first: how many values, how many numbers; then for each value its field's word, the
value, the refusal's number (0 without one), the signed number's lower and upper half, the text's length and 28 bytes that begin with it;
then for each number its field's word, its lower and upper half, the refusal's number and the stored value.
"""

import random
import struct
import sys
from collections import Counter
from pathlib import Path

ROOT = Path(__file__).resolve().parent.parent.parent
sys.path.insert(0, str(ROOT / "tests"))

from second import numbers
from second.reader import Refusal

SEED = 71
ROOM = 28
ALL_UP_TO = 7       # every value of the fields up to this width
SOME = 3            # random values of each kind of field
FAULTY = 4000
PLAIN, TWOS_COMPLEMENT, FIXED_POINT = 0, 1, 2
WORD = 2 ** 32


def field_word(rng, form, fraction, width, kind=3):
    """The lowest bit is not judged, so it is any."""
    return kind << 28 | form << 24 | fraction << 16 | rng.choice([0, 0, 32 - width & 0xFF, 255, rng.getrandbits(8)]) << 8 | width


def good_kinds():
    """(form, fraction, width) of every word without fault, but for the lowest bit."""
    for width in range(1, 33):
        yield from ((form, 0, width) for form in (PLAIN, TWOS_COMPLEMENT))
        yield from ((FIXED_POINT, fraction, width) for fraction in range(min(width, 16) + 1))


def edges(width):
    """Values and numbers where something changes for a width, each with those beside it; and those that are these in their lower bits."""
    middle, end = 2 ** (width - 1), 2 ** width
    near = [at + step for at in (0, middle, end, -middle, -end) for step in (-1, 0, 1)]
    return near + [at + step for at in (WORD, -WORD, 2 ** 40, -2 ** 40) for step in (-1, 0, 1, middle)] + [2 ** 63 - 1, -2 ** 63]


def values_of(rng, fraction, width):
    if width <= ALL_UP_TO:
        yield from range(2 ** width)
    yield from sorted({value for value in edges(width) if 0 <= value < WORD} | {WORD - 1, 2 ** fraction, 2 ** fraction - 1})
    yield from (rng.getrandbits(width) for _ in range(SOME))
    yield from (rng.getrandbits(32) for _ in range(SOME))


def faulty_words(rng):
    """Words with one fault or some: kind, spare bits, width, form, fraction bits."""
    for kind in range(16):
        yield from (field_word(rng, *good, kind) for good in ((0, 0, 8), (1, 0, 32), (2, 4, 8), (3, 0, 8), (0, 1, 8), (2, 9, 8)))
    for form in range(16):
        for width in (0, 1, 8, 16, 17, 31, 32, 33, 34, 64, 128, 160, 255):
            fractions = {0, 1, 15, 16, 17, 32, 128, 255, width, min(width + 1, 255)}
            yield from (field_word(rng, form, fraction, width) for fraction in sorted(fractions))
    for _ in range(FAULTY):
        yield field_word(rng, rng.choice([0, 1, 2, 2, 3, rng.getrandbits(4)]), rng.choice([0, rng.randrange(20), rng.getrandbits(8)]),
                         rng.choice([rng.randrange(36), rng.getrandbits(8)]), rng.choice([3, 3, 3, rng.getrandbits(4)]))


def halves(number):
    return [number % WORD, number // WORD % WORD]


def value_case(field, value):
    """The words of a value's case."""
    number = numbers.signed(field, value)
    length, text = numbers.text(field, value, bytes(ROOM))
    if isinstance(number, Refusal):
        if length != number or number.place or number.word:
            sys.exit(f"make_numbers: {field:08x}, {value}: {number} and {length}")
        return [field, value, number.number, 0, 0, 0, *[0] * (ROOM // 4)]
    return [field, value, 0, *halves(number), length, *struct.unpack(f"<{ROOM // 4}I", text)]


def number_case(field, number):
    """The words of a number's case."""
    value = numbers.stored(field, number)
    refused = isinstance(value, Refusal)
    return [field, *halves(number), value.number if refused else 0, 0 if refused else value]


def all_values(rng):
    for form, fraction, width in good_kinds():
        yield from (value_case(field_word(rng, form, fraction, width), value) for value in values_of(rng, fraction, width))
    for field in faulty_words(rng):
        yield from (value_case(field, value) for value in (0, rng.getrandbits(32), WORD - 1))


def all_numbers(rng):
    for form, fraction, width in good_kinds():
        some = [rng.getrandbits(size) * rng.choice([1, -1]) for size in (width, 32, 63) for _ in range(SOME)]
        yield from (number_case(field_word(rng, form, fraction, width), number) for number in edges(width) + some)
    for field in faulty_words(rng):
        yield from (number_case(field, number) for number in (0, -1, 2 ** 63 - 1, -2 ** 63))


def main():
    rng = random.Random(SEED)
    values, signed = list(all_values(rng)), list(all_numbers(rng))
    out = [len(values), len(signed), *(word for case in values + signed for word in case)]
    Path(sys.argv[1]).write_bytes(struct.pack(f"<{len(out)}I", *out))
    tally = Counter(case[2] for case in values), Counter(case[3] for case in signed)
    print(f"make_numbers: {len(values)} values, by number {dict(sorted(tally[0].items()))}; "
          f"{len(signed)} numbers, by number {dict(sorted(tally[1].items()))}")


if __name__ == "__main__":
    main()

"""Decoders of the instruction sets in data/: written, as the lists there, from knowledge of the manuals, without the manuals at hand, and by the
same hand. They decide in the order of the manuals' decode tables, and share no pattern with data/; a fact that was remembered wrongly is wrong in
both. (The check from outside is binutils/.)

Each module has name_of(word): the mnemonic that data/ uses, or None.
"""


def part(word, high, low):
    """Bits high to low of a word."""
    return word >> low & (1 << high - low + 1) - 1

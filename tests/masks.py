"""What document 02's No. 1 says of a walk's mask, held against probe's own lines. Quotations are sentences of it."""

import probe


def mask_in(line):
    """The mask in a line of request 10 or 11. A refused walk's line has none, and ends with the word 0."""
    return int(line.split(" ")[-1], 16)


def tests_and_mask(line):
    """In the line of request 10 for a walk that finished."""
    return int(line.split(" ")[5]), mask_in(line)


def walk_line(named, count, mask):
    """The line of request 10 for a walk that finished."""
    return f"10 0 0 00000000 {named} {count} {mask:08x}"


def check_ones(name, question, count, mask):
    """"The count is the number of ones in the mask on every tree that the checker accepts.\""""
    if mask.bit_count() != count:
        probe.stop_at_difference(f"{name}, ones in the mask", question, f"{count} ones", f"{mask.bit_count()} ones, {mask:08x}")


def agreeing(rng, word, mask, width):
    """A word of the width with the same bits on the mask; its others are random."""
    return word & mask | rng.getrandbits(width) & ~mask


def compare_agreeing(path, rng, walked, tally):
    """"On such a tree two words of the width that agree on the mask get the same answer": entry or nothing, count and mask.
    walked: (tree, word, line of request 10)"""
    questions = [("walk", tree, agreeing(rng, word, mask_in(line), tree[0] >> 16 & 0x3F)) for tree, word, line in walked]
    for (_, word, line), question, seen in zip(walked, questions, probe.ask(path, questions), strict=True):
        probe.stop_at_difference(f"it agrees with {word:08x} on the mask", question, line, seen)
        tally["words that agree"] += question[2] != word

"""Mistakes in the mask of a walk, each to be put in the place of a function of the second implementation; a test must notice it.

Each stands on the right walk, which is kept here.
"""

from dataclasses import replace
from functools import reduce
from operator import xor

from second import trees, walk
from second.image import word_at
from second.reader import Refusal
from second.selection import NOTHING

RIGHT_WALK = walk.walk


# ---------------------------------------------------------------------------- in the place of walk.walk

def with_mask(tree, word, wrong):
    """The right walk with another mask, made of the bits tested, in order."""
    outcome = RIGHT_WALK(tree, word)
    if isinstance(outcome, Refusal):
        return outcome
    return replace(outcome, mask=wrong([1 << bit for bit in trees.tested_bits(tree, word)]))


def starts_at_one(tree, word):
    """Mistake: bit 0 is in every mask."""
    return with_mask(tree, word, lambda tested: sum(set(tested)) | 1)


def zero_sides_left_out(tree, word):
    """Mistake: a bit is marked only where the path goes to the one side."""
    return with_mask(tree, word, lambda tested: sum(set(tested)) & word)


def last_test_left_out(tree, word):
    """Mistake: the last test's bit isn't marked."""
    return with_mask(tree, word, lambda tested: sum(set(tested[:-1])))


def twice_is_not_at_all(tree, word):
    """Mistake: a bit tested twice is turned off again."""
    return with_mask(tree, word, lambda tested: reduce(xor, tested, 0))


def as_many_ones(tree, word):
    """Mistake: as many ones as tests, from bit 0 on."""
    return with_mask(tree, word, lambda tested: (1 << len(tested)) - 1 & 0xFFFFFFFF)


# ---------------------------------------------------------------------------- in the place of walk.mask_bytes

def kept_at_a_damaged_node(tree_bytes, word):
    """Mistake: after 9 the bits tested before the damaged node."""
    outcome = walk.walk_of_bytes(tree_bytes, word)
    if isinstance(outcome, Refusal) and outcome.number == 9:
        outcome = RIGHT_WALK(trees.with_node(walk.whole_words(tree_bytes), outcome.place, trees.NOTHING_NODE), word)
    return walk.mask_or_zero(outcome)


def high_bits_left_out(tree_bytes, word):
    """Mistake: after 7 the mask of the word's bits below the width."""
    outcome = walk.walk_of_bytes(tree_bytes, word)
    if isinstance(outcome, Refusal) and outcome.number == 7:
        tree = walk.whole_words(tree_bytes)
        outcome = RIGHT_WALK(tree, word % (1 << (tree[0] >> 16 & 0x3F)))
    return walk.mask_or_zero(outcome)


def odd_bytes_left_out(tree_bytes, word):
    """Mistake: bytes after the last whole word are no reason to refuse."""
    return walk.mask_or_zero(RIGHT_WALK(walk.whole_words(tree_bytes), word))


def number_for_mask(tree_bytes, word):
    """Mistake: a refusal's number stands where its mask, 0, has to."""
    outcome = walk.walk_of_bytes(tree_bytes, word)
    return outcome.number if isinstance(outcome, Refusal) else outcome.mask


# ---------------------------------------------------------------------------- in the place of image.mask_at

def word_for_mask(tree, halves, address):
    """Mistake: the item's word is handed on."""
    return word_at(halves, address)


def nothing_has_none(tree, halves, address):
    """Mistake: an item of kind 13 has no mask."""
    outcome = RIGHT_WALK(tree, word_at(halves, address))
    return 0 if outcome.names == NOTHING else outcome.mask


def missing_half_untested(tree, halves, address):
    """Mistake: a half that isn't there has no bits tested."""
    mask = RIGHT_WALK(tree, word_at(halves, address)).mask
    return mask & 0xFFFF0000 if address + 1 == len(halves) else mask

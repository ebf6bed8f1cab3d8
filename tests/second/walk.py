"""Walking a tree, written from document 01 alone (its "The tree of a table" and "Causes, numbers, places"), and the mask from
document 02's No. 1. Quotations are document 01's where nothing else is said."""

from dataclasses import dataclass

from second.reader import Refusal, bits
from second.selection import NOTHING


@dataclass(frozen=True)
class Walked:
    """A walk that finished: what its path names (an entry's number or NOTHING), how many test nodes it passed, and the mask."""
    names: object
    count: int
    mask: int


def header_good(tree):
    # "tree header: length 0, kind, spare bit, width not 1-32, no nodes, more nodes than words after it": 8.
    if len(tree) == 0:
        return False
    header = tree[0]
    # "word 0 is kind 7, bits 21-16 width, bits 15-0 number of nodes"; 27-22 are spare.
    if bits(header, 31, 28) != 7 or bits(header, 27, 22) != 0:
        return False
    if bits(header, 21, 16) < 1 or bits(header, 21, 16) > 32:
        return False
    return 1 <= bits(header, 15, 0) <= len(tree) - 1


def damaged(node, index, width, count):
    """Whether the node at this index is damaged, in a tree of this width and number of nodes."""
    # "A path node is damaged if its kind is not 8-10, a spare bit is set, the tested bit is at or above the width,
    # or the one side's index is below its own + 2 or above the number of nodes."
    kind = bits(node, 31, 28)
    if kind == 8:
        spare = bits(node, 22, 16) != 0
        high = bits(node, 27, 23) >= width
        one_side = bits(node, 15, 0)
        return spare or high or one_side < index + 2 or one_side > count
    if kind == 9:
        return bits(node, 27, 8) != 0
    if kind == 10:
        return bits(node, 27, 0) != 0
    return True


def walk(tree, word):
    """Walked, or a Refusal. "Walking: 8, 7, 9.\""""
    if not header_good(tree):
        return Refusal(8)
    width, count = bits(tree[0], 21, 16), bits(tree[0], 15, 0)
    # "A word of the width has no bit at or above it."
    if any(bits(word, bit, bit) == 1 for bit in range(width, 32)):
        return Refusal(7)
    # "A word's path starts at index 1." It never leaves the nodes: the one side's index of a test that isn't damaged is
    # at least its own + 2 and at most the number of nodes.
    index, tests, mask = 1, 0, 0
    while True:
        node = tree[index]
        if damaged(node, index, width, count):
            return Refusal(9, place=index)
        kind = bits(node, 31, 28)
        if kind == 9:
            return Walked(bits(node, 7, 0), tests, mask)
        if kind == 10:
            return Walked(NOTHING, tests, mask)
        # "A kind 8 node is one test: if the tested bit of the word is 0 the path goes on at the next tree word, else at
        # the one side's index."
        tests += 1
        tested = bits(node, 27, 23)
        # Document 02: "The walk returns, beside its count, a 32-bit mask of the bits tested". A bit tested twice is in it once.
        mask |= 1 << tested
        index = index + 1 if bits(word, tested, tested) == 0 else bits(node, 15, 0)


def whole_words(tree_bytes):
    # "the tree as bytes, each word low byte first"
    return [int.from_bytes(tree_bytes[start:start + 4], "little") for start in range(0, len(tree_bytes) - 3, 4)]


def walk_of_bytes(tree_bytes, word):
    """Walked, or a Refusal."""
    # "a length not a multiple of four gives 8."
    return Refusal(8) if len(tree_bytes) % 4 != 0 else walk(whole_words(tree_bytes), word)


def walk_bytes(tree_bytes, word):
    """The 64 bits that the walk returns to the simulator."""
    return packed(walk_of_bytes(tree_bytes, word))


def mask_or_zero(outcome):
    # Document 02: "0 when refused".
    return 0 if isinstance(outcome, Refusal) else outcome.mask


def mask_bytes(tree_bytes, word):
    """The 32 bits of document 02's "further C call"."""
    return mask_or_zero(walk_of_bytes(tree_bytes, word))


def packed(outcome):
    """"entry in 7-0, bit 8 for nothing, count in 31-16, number in 39-32 (0 if none), place in 63-48, the rest zero.\""""
    if isinstance(outcome, Refusal):
        return outcome.number << 32 | outcome.place << 48
    named = 1 << 8 if outcome.names == NOTHING else outcome.names
    return named | outcome.count << 16

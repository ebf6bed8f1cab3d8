"""Mistakes with the last halfword of an image. Each of WRONG is to be put in the place of halves.kind_and_entry, and the others in the
place of the functions of image.py that are named; each stands on the right ones, which are kept here, and a test must notice it.
"""

from second import halves, image, walk
from second.halves import ALL, WITH_BIT
from second.selection import NOTHING, claims, ones, select

RIGHT_KIND = halves.kind_and_entry
RIGHT_LAST = image.last_item
RIGHT_ITEM = image.item_at


# ---------------------------------------------------------------------------- in the place of halves.kind_and_entry

def kind_of(table, answers):
    """What No. 6 makes of the answers that are there."""
    if len(answers) > 1:
        return 14, 0
    (same,) = answers
    if same == NOTHING:
        return 13, 0
    return (12, same) if table.entries[same].length == 16 else (14, 0)


def tried(table, upper, lowers):
    """The answers with some of these lower halves, a set as halves.py has it."""
    return {answer for answer, found in halves.selecting(table, upper).items() if found & lowers}


def zeros_below_decide(table, upper):
    """Mistake: the missing half reads as zero, as before No. 6."""
    return kind_of(table, {select(table, upper << 16)})


def ones_below_decide(table, upper):
    """Mistake: the missing half reads as ones."""
    return kind_of(table, {select(table, upper << 16 | 0xFFFF)})


def ends_alone(table, upper):
    """Mistake: only the lower halves 0 and 0xFFFF are tried."""
    return kind_of(table, tried(table, upper, 1 | 1 << 0xFFFF))


def one_bit_at_a_time(table, upper):
    """Mistake: only the lower halves with one bit or none are tried."""
    return kind_of(table, tried(table, upper, 1 | sum(1 << (1 << bit) for bit in range(16))))


def bit_15_known(table, upper):
    """Mistake: bit 15 counts as there, and as zero."""
    return kind_of(table, tried(table, upper, ALL ^ WITH_BIT[15]))


def bit_0_known(table, upper):
    """Mistake: bit 0 counts as there, and as zero."""
    return kind_of(table, tried(table, upper, ALL ^ WITH_BIT[0]))


def bit_16_missing(table, upper):
    """Mistake: bit 16, the upper half's lowest, counts as missing too."""
    return kind_of(table, tried(table, upper, ALL) | tried(table, upper ^ 1, ALL))


def long_one_whole(table, upper):
    """Mistake: a 32-bit entry that all lower halves select is kind 12."""
    answers = tried(table, upper, ALL)
    return (12, answers.pop()) if len(answers) == 1 and NOTHING not in answers else RIGHT_KIND(table, upper)


def long_one_nothing(table, upper):
    """Mistake: a 32-bit entry that all lower halves select is kind 13."""
    answers = tried(table, upper, ALL)
    return (13, 0) if len(answers) == 1 and RIGHT_KIND(table, upper) == (14, 0) else RIGHT_KIND(table, upper)


def nothing_for_some(table, upper):
    """Mistake: kind 13 if some lower half selects nothing."""
    return (13, 0) if NOTHING in tried(table, upper, ALL) else RIGHT_KIND(table, upper)


def several_are_nothing(table, upper):
    """Mistake: kind 13 if the lower halves select several entries."""
    return (13, 0) if len(tried(table, upper, ALL) - {NOTHING}) > 1 else RIGHT_KIND(table, upper)


def short_one_for_some(table, upper):
    """Mistake: kind 12 if some lower half selects an entry of length 16."""
    short = [one for one in tried(table, upper, ALL) - {NOTHING} if table.entries[one].length == 16]
    return (12, short[0]) if short else RIGHT_KIND(table, upper)


def claiming_is_enough(table, upper):
    """Mistake: kind 12 with the first entry of length 16 that claims the word with zeros below."""
    word_bits = ones(upper << 16)
    short = [number for number, one in enumerate(table.entries) if one.length == 16 and claims(word_bits, one)]
    return (12, short[0]) if short and RIGHT_KIND(table, upper)[0] == 12 else RIGHT_KIND(table, upper)


def same_label(table, upper):
    """Mistake: entries with the same label count as the same one, the one with zeros below."""
    answers = tried(table, upper, ALL)
    if NOTHING not in answers and len({table.entries[one].label for one in answers}) == 1:
        answers = {select(table, upper << 16)}
    return kind_of(table, answers)


WRONG = (zeros_below_decide, ones_below_decide, ends_alone, one_bit_at_a_time, bit_15_known, bit_0_known, bit_16_missing, long_one_whole,
         long_one_nothing, nothing_for_some, several_are_nothing, short_one_for_some, claiming_is_enough, same_label)


# ---------------------------------------------------------------------------- in the place of image.last_item

def past_the_end(selecting, image_halves, address):
    """Mistake: after an item of kind 14 the next address is two on, as if both halves were there."""
    item, following = RIGHT_LAST(selecting, image_halves, address)
    return item, following + (item >> 28 == 14)


def entry_kept(selecting, image_halves, address):
    """Mistake: an item of kind 14 has the entry of the word with zeros below."""
    item, following = RIGHT_LAST(selecting, image_halves, address)
    entry = selecting.of(image_halves[address] << 16)
    return item | (entry << 20 if item >> 28 == 14 and entry != NOTHING else 0), following


WRONG_LAST = (past_the_end, entry_kept)


# ---------------------------------------------------------------------------- in the place of image.item_at

def last_but_one_too(selecting, image_halves, address):
    """Mistake: the last halfword but one is read so too, though its lower half is there."""
    if address + 2 != len(image_halves):
        return RIGHT_ITEM(selecting, image_halves, address)
    kind, entry = selecting.of_last(image_halves[address])
    return image.item_of(kind, entry, address), len(image_halves) if kind == 14 else address + 1


def whole_one_cut(selecting, image_halves, address):
    """Mistake: a 32-bit entry is cut off too if its second half is the last halfword."""
    item, following = RIGHT_ITEM(selecting, image_halves, address)
    cut = following == address + 2 == len(image_halves)
    return (image.item_of(14, 0, address), following) if cut else (item, following)


WRONG_ITEMS = (last_but_one_too, whole_one_cut)


# ---------------------------------------------------------------------------- in the place of image.mask_at

def mask_of_word(tree, word):
    return walk.mask_or_zero(walk.walk(tree, word))


def ones_below_masked(tree, image_halves, address):
    """Mistake: the mask is that of the word with ones below."""
    missing = 0xFFFF if address + 1 == len(image_halves) else 0
    return mask_of_word(tree, image.word_at(image_halves, address) | missing)


def bits_from(tree, index, upper):
    """The bits tested below a node on the paths that an upper half leaves open."""
    node = tree[index]
    if node >> 28 != 8:
        return 0
    bit, sides = node >> 23 & 0x1F, (index + 1, node & 0xFFFF)
    open_sides = sides if bit < 16 else (sides[upper >> bit - 16 & 1],)
    found = 1 << bit
    for side in open_sides:
        found |= bits_from(tree, side, upper)
    return found


def all_paths_masked(tree, image_halves, address):
    """Mistake: the mask has the bits of all words that the missing half could make."""
    if address + 1 == len(image_halves):
        return bits_from(tree, 1, image_halves[address])
    return mask_of_word(tree, image.word_at(image_halves, address))


WRONG_MASKS = (ones_below_masked, all_paths_masked)

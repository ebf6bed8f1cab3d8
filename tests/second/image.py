"""Steps and listings of an image, written from document 01 alone (its "Checker and images"), a step's mask from document 02's No. 1, and
the last halfword from its No. 6. Quotations are sentences of document 01 where nothing else is said.

What a word selects is looked up in the table. The tree is checked, and walked for the mask alone: no item comes from a walk.
"""

from functools import lru_cache

from second import halves as lower_halves, walk
from second.checker import check_once
from second.reader import Refusal
from second.selection import AMBIGUOUS, NOTHING, read_once, select

END = "end"
MOST_BYTES = 2097152


class Selecting:
    """What the words of one table select, and what the last halfword of an image is by it, each asked once."""

    def __init__(self, table):
        self.table = table
        self.known = {}
        self.known_last = {}

    def of(self, word):
        if word not in self.known:
            self.known[word] = select(self.table, word)
            # A tree that the checker accepts has no room for an ambiguous word.
            assert self.known[word] != AMBIGUOUS
        return self.known[word]

    def of_last(self, upper):
        if upper not in self.known_last:
            self.known_last[upper] = lower_halves.kind_and_entry(self.table, upper)
        return self.known_last[upper]

    def length(self, entry):
        return self.table.entries[entry].length


@lru_cache(maxsize=8)
def selecting_once(words):
    return Selecting(read_once(words))


# ---------------------------------------------------------------------------- refusals

def no_image_table(table):
    # "image table: width not 32 or a length not 16 or 32": 15.
    return table.width != 32 or any(entry.length not in (16, 32) for entry in table.entries)


def no_image(image):
    # "image odd or over 2,097,152 bytes": 16.
    return len(image) % 2 == 1 or len(image) > MOST_BYTES


def refusal_before_items(words, tree, image):
    """1 to 4, then "listing 15, 16, 14"; None if there is none."""
    table = read_once(tuple(words))
    if isinstance(table, Refusal):
        return table
    if no_image_table(table):
        return Refusal(15)
    if no_image(image):
        return Refusal(16)
    answer = check_once(tuple(words), tuple(tree))
    return answer if isinstance(answer, Refusal) else None


# ---------------------------------------------------------------------------- words and items

def halfwords(image):
    # "A halfword is two bytes, low byte first." "offset = 2 x address"
    return [image[offset] + 256 * image[offset + 1] for offset in range(0, len(image), 2)]


def word_at(halves, address):
    # "The halfword at an address is the word's upper half, the next one its lower half; a missing lower half reads as zero."
    # The last word is so for its mask alone.
    lower = halves[address + 1] if address + 1 < len(halves) else 0
    return 65536 * halves[address] + lower


def item_of(kind, entry, address):
    return kind << 28 | entry << 20 | address


def last_item(selecting, halves, address):
    """The item at the last halfword of the image, and the next address: on by a halfword, or "the end", which are the same."""
    # Document 02: "With the lower half missing, the item is now kind 12 exactly if .., kind 13 if .., and kind 14 otherwise."
    kind, entry = selecting.of_last(halves[address])
    return item_of(kind, entry, address), len(halves)


def item_at(selecting, halves, address):
    """The item at an address of the image, and the next address."""
    # Document 02: "full words read as before."
    if address + 1 == len(halves):
        return last_item(selecting, halves, address)
    entry = selecting.of(word_at(halves, address))
    # "kind 13 with the address if nothing is selected, then on by one halfword;"
    if entry == NOTHING:
        return item_of(13, 0, address), address + 1
    # "kind 12 with the entry in bits 27-20 and the address in bits 19-0, then on by its length;"
    return item_of(12, entry, address), address + selecting.length(entry) // 16


def mask_at(tree, halves, address):
    # Document 02: "each step of the lister hands on its item's mask": that of the walk of the word at the address. No. 6: "The mask
    # handed on for such an item is that of the word with zeros below."
    return walk.mask_or_zero(walk.walk(tree, word_at(halves, address)))


def step(words, tree, image, address):
    """The item, the next address and the item's mask, END or a Refusal."""
    # "A step takes an address, refuses as listing does but for 17, and at or past the image's end says end."
    refusal = refusal_before_items(words, tree, image)
    if refusal is not None:
        return refusal
    halves = halfwords(image)
    if address >= len(halves):
        return END
    return *item_at(selecting_once(tuple(words)), halves, address), mask_at(tree, halves, address)


def list_items(words, tree, image, buffer):
    """The number of items or a Refusal, and the buffer after it. Order: 1 to 4, then "listing 15, 16, 14, 17"."""
    after = list(buffer)
    refusal = refusal_before_items(words, tree, image)
    if refusal is not None:
        return refusal, after
    selecting, halves = selecting_once(tuple(words)), halfwords(image)
    address, count = 0, 0
    while address < len(halves):
        # "more items than the buffer takes": 17, "halfword address of the first left out"; "buffer holds the earlier items".
        if count == len(after):
            return Refusal(17, place=address), after
        after[count], address = item_at(selecting, halves, address)
        count += 1
    # "A whole listing returns the number of items; buffer words after them are unchanged."
    return count, after

"""Tables with their entries in another order, and what becomes of probe's lines (document 02's No. 12), from words and lines alone.

An order is a list, always called `to`: entry e of the table is entry to[e] of the reordered one. Its inverse is "from": entry n of the
reordered table was entry from[n] of the table. Nothing here uses the second implementation.
"""

from math import factorial

from second.tables import with_bits
from second.twins import spans

OPEN = "?"              # stands for the place of 19: "though the lowest entry may differ"
NAMING = ("2", "5")     # lookup and decode: an entry, or nothing
GENERATE = "3"
STEP, LIST = "8", "9"   # with items
LEAF = 9 << 20          # bits 31-8 of a tree word that names an entry: kind 9, and no spare bit
TAKING = ("encode", "cycles", "changed")    # calls that are asked about an entry
CHECKING = ("check", "step", "list")        # calls that are given a tree, which they check


# ---------------------------------------------------------------------------- orders

def from_of(to):
    return sorted(range(len(to)), key=lambda entry: to[entry])


def backwards(count):
    return [*range(count)][::-1]


def ends_exchanged(count):
    return [count - 1, *range(1, count - 1), 0]


def rotated(count):
    """Each entry goes one place on, and the last one to the front."""
    return [*range(1, count), 0]


def drawn(rng, count):
    return rng.sample(range(count), count)


def named_orders(rng, count):
    """(name, to), without end. The same one may come again."""
    yield from rng.sample([("backwards", backwards(count)), ("first and last exchanged", ends_exchanged(count)),
                           ("rotated", rotated(count))], 2)
    while True:
        yield "drawn", drawn(rng, count)


def some_orders(rng, count, most):
    """(name, to): so many different orders that move an entry, or all of them if there are fewer. A table of one entry or none has only the
    order that moves nothing."""
    if count < 2:
        return [("the only one", [*range(count)])]
    orders = {}
    for name, to in named_orders(rng, count):
        if to != [*range(count)]:
            orders.setdefault(tuple(to), name)
        if len(orders) == min(most, factorial(count) - 1):
            return [(name, list(to)) for to, name in orders.items()]


# ---------------------------------------------------------------------------- tables and questions

def reordered(words, to):
    """The words of the reordered table; the first word stays, because kind, count and width do."""
    entries = [words[head:end] for head, end in spans(words)]
    return [words[0], *(word for entry in from_of(to) for word in entries[entry])]


def moved_entry(entry, to):
    """A number that no entry has stays."""
    return to[entry] if entry < len(to) else entry


def moved_word(word, to):
    """What a tree word becomes: a leaf names the moved entry, every other word stays, also one of kind 9 that is damaged."""
    return LEAF << 8 | moved_entry(word & 0xFF, to) if word >> 8 == LEAF else word


def names_only(tree, count):
    """Whether the leaves of a tree, whoever made it, name only entries of a table that has so many."""
    return all(word & 0xFF < count for word in tree if word >> 8 == LEAF)


def moved_question(question, words, to):
    """The same question about the reordered table, which has these words; a call that is asked about an entry is asked about the moved
    one, and one that is given a tree is given it with the leaves renumbered."""
    name, _, *rest = question
    if name in TAKING:
        rest[0] = moved_entry(rest[0], to)
    if name in CHECKING:
        rest[0] = [moved_word(word, to) for word in rest[0]]
    return name, words, *rest


# ---------------------------------------------------------------------------- lines

def number_in(line):
    return line.split(" ", 2)[1]


def place_in(line):
    return line.split(" ", 3)[2]


def with_place(line, place):
    request, number, _, rest = line.split(" ", 3)
    return " ".join([request, number, place, rest])


def place_left_open(line):
    """Of 19 alone."""
    return with_place(line, OPEN) if number_in(line) == "19" else line


def opened_like(expected, seen):
    """A line to compare with an expected one: where that leaves the place open, so does this."""
    return place_left_open(seen) if place_in(expected) == OPEN else seen


def moved_item(item, to, kinds=(12,)):
    """What an item becomes: kind 12 names the moved entry, every other one stays."""
    return with_bits(item, 27, 20, moved_entry(item >> 20 & 0xFF, to)) if item >> 28 in kinds else item


def written_in(line):
    """The words that generating or listing wrote to its buffer: a tree, or items. 17 fills it with items, another refusal leaves none."""
    front, _, back = line.partition(" |")
    number, words = number_in(line), back.split()
    length = int(front.split(" ")[4]) if number == "0" else len(words) if number == "17" else 0
    return [int(word, 16) for word in words[:length]]


def with_written(line, change, lent):
    """The line of generating or listing with each word of the tree, or each item, changed, and after them the words of this buffer."""
    written = [change(word) for word in written_in(line)]
    return " ".join([line.partition(" |")[0], "|", *(f"{word:08x}" for word in [*written, *lent[len(written):]])])


def with_item(line, change):
    """The line of a step with another item; the end stays the end, and a refusal a refusal."""
    *front, item, following, mask = line.split(" ")
    return " ".join([*front, f"{change(int(item, 16)):08x}", following, mask]) if len(front) == 4 else line


def with_items(line, change, lent):
    """The line of a step or of listing with each item changed."""
    return with_item(line, change) if line.split(" ", 1)[0] == STEP else with_written(line, change, lent)


def with_named(line, change):
    """The line of lookup or decode with another entry; nothing stays nothing."""
    front, bar, back = line.partition(" |")
    *others, named = front.split(" ")
    return " ".join([*others, named if named == "nothing" else str(change(int(named)))]) + bar + back


def moved_line(line, to, lent=()):
    """The line for the reordered table, from the one for the table and the order alone. For generate and list `lent` is the buffer lent for
    the reordered table, as long as the other. A refusal stays, but for the place of 19; with 17 the buffer has the moved items, and after
    any other refusal of list it is as it was lent."""
    request, number, _ = line.split(" ", 2)
    if request in (STEP, LIST):
        return with_items(line, lambda item: moved_item(item, to), lent)
    if number != "0":
        return place_left_open(line)
    if request == GENERATE:
        return with_written(line, lambda word: moved_word(word, to), lent)
    if request in NAMING:
        return with_named(line, lambda entry: moved_entry(entry, to))
    # A size, a word made, an entry's cycles, a tree that is accepted or how many words change.
    return line


def moved_text(text, to):
    """What mktree prints for the reordered table, from what it prints for the table, which is a tree."""
    lines = [line.split(" ") for line in text.splitlines()]
    return "".join(f"{index} {moved_word(int(word, 16), to):08x}\n" for index, word in lines)

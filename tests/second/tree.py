"""Generating, written from document 01 alone (its "The tree of a table"), and entries that no word selects from document 02's No. 8.
Quotations are sentences of document 01 where nothing else is said.

A cell is kept as two sets of positions: the fixed bits, and those of them that are fixed to 1. A tree is a list of nodes
in node order, each with the cell it was made in; only the last step turns it into words.
"""

from dataclasses import dataclass
from functools import lru_cache

from second.reader import Refusal
from second.selection import more_specific, read_once

MOST_TREE_WORDS = 16384

DEAD, SURE, OPEN = "dead", "sure", "open"
HOLDS, FAILS = "holds", "fails"


@dataclass(frozen=True)
class Cell:
    """A cell fixes some bits."""
    fixed: frozenset = frozenset()
    ones: frozenset = frozenset()

    def with_zero(self, bit):
        return Cell(self.fixed | {bit}, self.ones)

    def with_one(self, bit):
        return Cell(self.fixed | {bit}, self.ones | {bit})


@dataclass
class Test:
    cell: Cell
    bit: int
    one_side: int = None    # known when the zero side is made


@dataclass
class Names:
    cell: Cell
    entry: int


@dataclass
class NamesNothing:
    cell: Cell


@dataclass
class Conflict:
    cell: Cell


class TooLarge(Exception):
    """More nodes than the largest tree that fits anywhere."""


# ---------------------------------------------------------------------------- cells, conditions and entries

def implies(cell, pattern):
    # "It implies a pattern when the fixed bits include its mask and agree with it"
    return pattern.mask <= cell.fixed and pattern.mask & cell.ones == pattern.value


def clashes(cell, pattern):
    # "and clashes when some fixed bit in the mask differs."
    return pattern.mask & cell.ones != cell.fixed & pattern.value


def condition_status(cell, condition):
    # "A condition holds in a cell that implies its matching pattern and clashes with all its unmatching ones;"
    if implies(cell, condition.matching) and all(clashes(cell, pattern) for pattern in condition.unmatching):
        return HOLDS
    # "it fails where the cell clashes with the matching pattern or implies an unmatching one; else it is open."
    if clashes(cell, condition.matching) or any(implies(cell, pattern) for pattern in condition.unmatching):
        return FAILS
    return OPEN


def entry_status(cell, entry):
    """DEAD, SURE or OPEN, and the conditions that are open."""
    # "An entry is dead if its opcode pattern clashes or a condition holds;"
    if clashes(cell, entry.opcode):
        return DEAD, []
    statuses = [condition_status(cell, condition) for condition in entry.conditions]
    if HOLDS in statuses:
        return DEAD, []
    # "sure if the pattern is implied and every condition fails; else open."
    if implies(cell, entry.opcode) and all(status == FAILS for status in statuses):
        return SURE, []
    return OPEN, [condition for condition, status in zip(entry.conditions, statuses) if status == OPEN]


# ---------------------------------------------------------------------------- making the tree

class Making:
    """The table and the nodes made so far; the node with index 1 is nodes[0]."""

    def __init__(self, table, most_nodes):
        self.table = table
        self.most_nodes = most_nodes
        self.nodes = []
        self.specific = {}

    def more_specific(self, e, f):
        """selection.more_specific on entry numbers; it doesn't depend on the cell, so it is asked once."""
        if (e, f) not in self.specific:
            self.specific[e, f] = more_specific(self.table.entries[e], self.table.entries[f])
        return self.specific[e, f]

    def add(self, node):
        if len(self.nodes) >= self.most_nodes:
            raise TooLarge
        self.nodes.append(node)

    def next_index(self):
        return len(self.nodes) + 1

    def make(self, cell, candidates):
        """The nodes of a cell. The candidates are the entries that are live in the cell around it: fixing one more bit
        never undoes a clash or an implied pattern, so a dead entry stays dead."""
        status = {number: entry_status(cell, self.table.entries[number]) for number in candidates}
        # "Live means sure or open."
        live = [number for number in candidates if status[number][0] != DEAD]
        sure = [number for number in live if status[number][0] == SURE]
        open_ones = [number for number in live if status[number][0] == OPEN]
        # "1. A sure entry more specific than every other live one: a leaf naming it."
        for number in sure:
            if all(self.more_specific(number, other) for other in live if other != number):
                self.add(Names(cell, number))
                return
        # "2. No live entry: a leaf naming nothing."
        if not live:
            self.add(NamesNothing(cell))
            return
        # "3. No open entry: a conflict leaf."
        if not open_ones:
            self.add(Conflict(cell))
            return
        # "4. Test a bit, then the cell with it 0, then with it 1."
        opcodes = [self.table.entries[number].opcode for number in open_ones]
        conditions = [condition for number in open_ones for condition in status[number][1]]
        test = Test(cell, chosen_bit(cell, opcodes, conditions))
        self.add(test)
        self.make(cell.with_zero(test.bit), live)
        test.one_side = self.next_index()
        self.make(cell.with_one(test.bit), live)


def chosen_bit(cell, opcodes, conditions):
    """The bit to test, from the opcode patterns of the open entries and from their open conditions."""
    # "The bit is the unfixed one in the opcode masks of the most open entries, highest on a tie."
    how_many = {}
    for opcode in opcodes:
        for bit in opcode.mask - cell.fixed:
            how_many[bit] = how_many.get(bit, 0) + 1
    if how_many:
        most = max(how_many.values())
        return max(bit for bit in how_many if how_many[bit] == most)
    # "If no such mask has an unfixed bit, it is the highest unfixed bit in any pattern of an open condition of an
    # open entry." Any pattern: the matching one and every unmatching one, also one that clashes.
    unfixed = set()
    for condition in conditions:
        for pattern in (condition.matching, *condition.unmatching):
            unfixed |= pattern.mask - cell.fixed
    return max(unfixed)


def nodes_of(table, most_nodes=MOST_TREE_WORDS - 1):
    """The nodes of a table's tree in node order; None if there are more of them than that."""
    making = Making(table, most_nodes)
    try:
        # "Starting with no bit fixed"
        making.make(Cell(), list(range(len(table.entries))))
    except TooLarge:
        return None
    return making.nodes


@lru_cache(maxsize=16)
def nodes_once(words):
    """The same nodes again for the same good table; a test lends several buffers for one table."""
    return nodes_of(read_once(words))


# ---------------------------------------------------------------------------- written form

def node_word(node):
    if isinstance(node, Test):
        # "Kind 8 tests the bit in bits 27-23, the one side's index in bits 15-0; the zero side is the next word."
        return 8 << 28 | node.bit << 23 | node.one_side
    if isinstance(node, Names):
        # "Kind 9 names the entry in bits 7-0."
        return 9 << 28 | node.entry
    # "Kind 10 names nothing."
    return 10 << 28


def written(width, nodes):
    # "word 0 is kind 7, bits 21-16 width, bits 15-0 number of nodes. Nodes follow from index 1, zero side first."
    return [7 << 28 | width << 16 | len(nodes)] + [node_word(node) for node in nodes]


def conflict_word(nodes):
    """"The ambiguous word returned is that of the first conflict cell in node order, free bits zero." None if there is none."""
    for node in nodes:
        if isinstance(node, Conflict):
            return sum(2 ** bit for bit in node.cell.ones)
    return None


def named_entries(nodes):
    return {node.entry for node in nodes if isinstance(node, Names)}


def unnamed_entries(table, nodes):
    """The entries that no leaf names. Every word is in the cell of one leaf, and selects what that leaf names: so without a conflict
    these are the entries "selected by no word of the width" (No. 8). reach.py tries the words themselves."""
    named = named_entries(nodes)
    return [number for number in range(len(table.entries)) if number not in named]


def refusal_by_leaves(table, nodes):
    """6, then 19, by the leaves of a tree; None for neither."""
    word = conflict_word(nodes)
    if word is not None:
        return Refusal(6, word=word)
    # No. 8: "19, with the lowest such entry as place, after 6".
    unnamed = unnamed_entries(table, nodes)
    return Refusal(19, place=unnamed[0]) if unnamed else None


def refusal_of(table, nodes, room):
    """5, 6 or 19 of a table without fault, in this order; None if a tree of these nodes is written into so many words."""
    # "A tree fits when nodes + 1 is at most the buffer's length and at most 16,384; conflict leaves count.
    # Fit is decided before ambiguity."
    if nodes is None or len(nodes) + 1 > room or len(nodes) + 1 > MOST_TREE_WORDS:
        return Refusal(5)
    return refusal_by_leaves(table, nodes)


def generate(words, buffer):
    """What generating returns (nodes + 1, or a Refusal) and the buffer after it. Order: 1 to 4, then 5, 6, 19."""
    table = read_once(tuple(words))
    # 1 to 4 leave "all" unchanged.
    if isinstance(table, Refusal):
        return table, list(buffer)
    nodes = nodes_once(tuple(words))
    refusal = refusal_of(table, nodes, len(buffer))
    # 5 and 6: "tree buffer all zero"; No. 8 of 19: "the tree buffer is all zero".
    if refusal is not None:
        return refusal, [0] * len(buffer)
    # "On success generating returns nodes + 1, and words after the tree are unchanged."
    tree = written(table.width, nodes)
    return len(tree), tree + list(buffer[len(tree):])

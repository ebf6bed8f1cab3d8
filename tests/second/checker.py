"""The checker's rule, written from document 01 alone (its "Checker and images"). Quotations are sentences of document 01.

It doesn't descend into the tree. The kinds alone say where each side ends (a leaf is a side; a test and the two sides after
it are one), and a node's cell follows from the sides that it lies in. The cells and steps are those of tree.py.
"""

from functools import lru_cache

from second.reader import Refusal, bits
from second.selection import more_specific, read_once
from second.tree import DEAD, SURE, Cell, entry_status
from second.walk import damaged, header_good

YES = "yes"
TEST, NAMES, NOTHING = 8, 9, 10

# "it says yes exactly when:"
PARTS = ("header good", "widths equal", "no node damaged", "each one side begins where the zero side ends",
         "all nodes are used", "no path tests a bit twice", "each named entry is the one of step 1 in its cell",
         "each nothing has step 2")


def kind(node):
    return bits(node, 31, 28)


def tested_bit(node):
    return bits(node, 27, 23)


def one_side(node):
    return bits(node, 15, 0)


def named(node):
    return bits(node, 7, 0)


# ---------------------------------------------------------------------------- steps in a cell

NO_LIVE, NEITHER = "no live entry", "neither step"


class Steps:
    """The first two steps of "The tree of a table" in the cells of one table, each asked once."""

    def __init__(self, table):
        self.table = table
        self.known = {}

    def at(self, cell):
        if cell not in self.known:
            self.known[cell] = first_step(self.table, cell)
        return self.known[cell]


def first_step(table, cell):
    """The number of the entry of step 1, NO_LIVE for step 2, or NEITHER."""
    status = [entry_status(cell, entry)[0] for entry in table.entries]
    live = [number for number, one in enumerate(status) if one != DEAD]
    # "1. A sure entry more specific than every other live one: a leaf naming it."
    for number in live:
        if status[number] == SURE and all(more_specific(table.entries[number], table.entries[other])
                                          for other in live if other != number):
            return number
    # "2. No live entry: a leaf naming nothing."
    return NEITHER if live else NO_LIVE


@lru_cache(maxsize=8)
def steps_once(words):
    return Steps(read_once(words))


# ---------------------------------------------------------------------------- the shape of the tree

def nodes_in(tree):
    """The nodes by their index, as many as the header says; words lent after them are not looked at."""
    return {index: tree[index] for index in range(1, bits(tree[0], 15, 0) + 1)}


def side_ends(nodes):
    """For each index the index after the side that begins there; None where the nodes run out before it ends."""
    ends = {}
    for index in reversed(nodes):
        ends[index] = ends.get(ends.get(index + 1)) if kind(nodes[index]) == TEST else index + 1
    return ends


def cell_in(around, index):
    """The cell of the node at this index, which lies in these tests: from its one side's index on the tested bit is 1."""
    return Cell(frozenset(bit for bit, _, _ in around), frozenset(bit for bit, one, _ in around if index >= one))


def placed_nodes(nodes, ends):
    """Each node with its cell. A test is kept as its bit, its one side's index and the index after both sides."""
    around, placed = [], []
    for index, node in nodes.items():
        around = [test for test in around if index < test[2]]
        placed.append((node, cell_in(around, index)))
        if kind(node) == TEST:
            around.append((tested_bit(node), one_side(node), ends[index]))
    return placed


# ---------------------------------------------------------------------------- the eight parts

def widths_equal(table, tree):
    return bits(tree[0], 21, 16) == table.width


def none_damaged(nodes, width):
    return not any(damaged(node, index, width, len(nodes)) for index, node in nodes.items())


def one_sides_begin_right(nodes, ends):
    # The zero side begins at the next word.
    return all(one_side(node) == ends[index + 1] for index, node in nodes.items() if kind(node) == TEST)


def all_used(nodes):
    """Whether some path comes to each node. One pass is enough: both sides of a test stand after it."""
    used = {1}
    for index, node in nodes.items():
        if index in used and kind(node) == TEST:
            used |= {index + 1, one_side(node)}
    return used == set(nodes)


def no_bit_twice(placed):
    return not any(kind(node) == TEST and tested_bit(node) in cell.fixed for node, cell in placed)


def named_right(steps, placed):
    return all(steps.at(cell) == named(node) for node, cell in placed if kind(node) == NAMES)


def nothing_right(steps, placed):
    return all(steps.at(cell) == NO_LIVE for node, cell in placed if kind(node) == NOTHING)


def first_missing(words, tree):
    """The number, 1 to 8, of the first part that doesn't hold; None if all hold. The table is a good one."""
    table = read_once(tuple(words))
    if not header_good(tree):
        return 1
    if not widths_equal(table, tree):
        return 2
    nodes = nodes_in(tree)
    if not none_damaged(nodes, table.width):
        return 3
    ends = side_ends(nodes)
    if not one_sides_begin_right(nodes, ends):
        return 4
    if not all_used(nodes):
        return 5
    placed = placed_nodes(nodes, ends)
    if not no_bit_twice(placed):
        return 6
    steps = steps_once(tuple(words))
    if not named_right(steps, placed):
        return 7
    if not nothing_right(steps, placed):
        return 8
    return None


@lru_cache(maxsize=4)
def first_missing_once(words, tree):
    """The same part again; a test counts the answers by it."""
    return first_missing(words, tree)


def check(words, tree):
    """YES or a Refusal. "After 1-4 it says yes exactly when: ..; otherwise its answer is 14.\""""
    table = read_once(tuple(words))
    if isinstance(table, Refusal):
        return table
    return YES if first_missing_once(tuple(words), tuple(tree)) is None else Refusal(14)


@lru_cache(maxsize=64)
def check_once(words, tree):
    """The same answer again for the same table and tree; a test lists many images with them."""
    return check(words, tree)

"""Sizing, written from documents 01 and 02 alone. Quotations are sentences of document 02's No. 2 where nothing else is said.

Tests are not counted along paths: the cell of a leaf says how many there are before it.
"""

from second import tree
from second.reader import Refusal
from second.selection import read_once
from second.tree import MOST_TREE_WORDS, Test, nodes_once


def leaves_of(nodes):
    """In node order."""
    return [node for node in nodes if not isinstance(node, Test)]


def tests_before(leaf):
    # Document 01: "Starting with no bit fixed", then "Test a bit, then the cell with it 0, then with it 1." Each test fixes one bit.
    return len(leaf.cell.fixed)


def measure(words):
    """The number of nodes and the greatest number of tests, or a Refusal. Order: 1 to 4, then 5, 6, 19."""
    table = read_once(tuple(words))
    if isinstance(table, Refusal):
        return table
    nodes = nodes_once(tuple(words))
    # "The tree limit applies: over it the answer is 5, then 6 as in generating." No. 8: "Generating and sizing now refuse such a table."
    refusal = tree.refusal_of(table, nodes, MOST_TREE_WORDS)
    if refusal is not None:
        return refusal
    # "the number of nodes that generating writes and the greatest number of tests on a path to any leaf"
    return len(nodes), max(tests_before(leaf) for leaf in leaves_of(nodes))
